/* Files of the stores, the clock, and the end of a run that went wrong. */
#include "files.h"

#include <errno.h>
#include <fcntl.h>
#include <stdarg.h>
#include <stdio.h>
#include <stdlib.h>
#include <string.h>
#include <sys/mman.h>
#include <sys/stat.h>
#include <time.h>
#include <unistd.h>

_Noreturn void die(const char *form, ...)
{
    va_list rest;
    va_start(rest, form);
    fprintf(stderr, "peers: ");
    vfprintf(stderr, form, rest);
    fprintf(stderr, "\n");
    va_end(rest);
    exit(1);
}

char *path_in(char *path, const char *folder, const char *name)
{
    int length = snprintf(path, PATH_ROOM, "%s/%s", folder, name);
    if (length < 0 || length >= PATH_ROOM)
        die("%.40s..: the name is too long", folder);
    return path;
}

static void write_all(int file, const char *next, size_t left, const char *path)
{
    while (left > 0) {
        ssize_t n = write(file, next, left);
        if (n < 0 && errno == EINTR)
            continue;
        if (n <= 0)
            die("%s cannot be written: %s", path, strerror(errno));
        next += n;
        left -= (size_t)n;
    }
}

static void sync_folder(const char *folder)
{
    int file = open(folder, O_RDONLY | O_DIRECTORY | O_CLOEXEC);
    if (file < 0 || (fsync(file) != 0 && errno != EINVAL))
        die("%s cannot be synced: %s", folder, strerror(errno));
    close(file);
}

void write_file(const char *folder, const char *name, const void *bytes, size_t count)
{
    char path[PATH_ROOM], made[PATH_ROOM + 4];
    snprintf(made, sizeof made, "%s.new", path_in(path, folder, name));
    int file = open(made, O_WRONLY | O_CREAT | O_EXCL | O_CLOEXEC, 0666);
    if (file < 0)
        die("%s cannot be made: %s", made, strerror(errno));
    write_all(file, bytes, count, made);
    if (fsync(file) != 0 || close(file) != 0 || rename(made, path) != 0)
        die("%s cannot be written: %s", path, strerror(errno));
    sync_folder(folder);
}

void *map_file(const char *folder, const char *name, size_t *bytes)
{
    char path[PATH_ROOM];
    *bytes = file_bytes(folder, name);
    int file = open(path_in(path, folder, name), O_RDWR | O_CLOEXEC);
    void *at = file < 0 ? MAP_FAILED : mmap(NULL, *bytes, PROT_READ | PROT_WRITE, MAP_SHARED, file, 0);
    if (at == MAP_FAILED)
        die("%s cannot be mapped: %s", path, strerror(errno));
    close(file);
    return at;
}

void copy_file(const char *from, const char *to, const char *name)
{
    size_t bytes;
    void *at = map_file(from, name, &bytes);
    write_file(to, name, at, bytes);
    munmap(at, bytes);
}

uint64_t file_bytes(const char *folder, const char *name)
{
    char path[PATH_ROOM];
    struct stat about;
    return stat(path_in(path, folder, name), &about) == 0 ? (uint64_t)about.st_size : 0;
}

void remove_file(const char *folder, const char *name)
{
    char path[PATH_ROOM];
    if (unlink(path_in(path, folder, name)) != 0 && errno != ENOENT)
        die("%s cannot be removed: %s", path, strerror(errno));
}

uint64_t *words_room(size_t words)
{
    size_t bytes = (words * sizeof(uint64_t) + 63) / 64 * 64 + 64;
    uint64_t *room = aligned_alloc(64, bytes);
    if (!room)
        die("not enough memory");
    memset(room, 0, bytes);
    return room;
}

double now(void)
{
    struct timespec t;
    clock_gettime(CLOCK_MONOTONIC, &t);
    return 1e9 * (double)t.tv_sec + (double)t.tv_nsec;
}
