/* Runs the tests of the file library in a folder; the last line is 'N passed, M failed'. A second word: the tests are watched. */
#include <errno.h>
#include <fcntl.h>
#include <stdlib.h>
#include <string.h>
#include <sys/mman.h>
#include <sys/stat.h>
#include <sys/syscall.h>
#include <unistd.h>

#include "check.h"

static const char *folder;
static bool watched;
struct disk disk;

uint64_t rounds(uint64_t all)
{
    return watched ? all / 10 : all;
}

const char *at(const char *name)
{
    static _Thread_local char texts[8][512];
    static _Thread_local unsigned next;
    char *text = texts[next++ % 8];
    snprintf(text, sizeof texts[0], "%s/%s", folder, name);
    return text;
}

char *contents(const char *name, size_t *bytes)
{
    int file = open(name, O_RDONLY);
    struct stat about = {0};
    fstat(file, &about);
    char *all = malloc((size_t)about.st_size + 1);
    *bytes = (size_t)about.st_size;
    if (file < 0 || read(file, all, *bytes) != (ssize_t)*bytes)
        abort();
    close(file);
    return all;
}

bool put_word(const char *name, size_t word, uint64_t value)
{
    int file = open(name, O_WRONLY);
    bool put = pwrite(file, &value, sizeof value, (off_t)(8 * word)) == sizeof value;
    close(file);
    return put;
}

uint64_t get_word(const char *name, size_t word)
{
    uint64_t value = 0;
    int file = open(name, O_RDONLY);
    if (pread(file, &value, sizeof value, (off_t)(8 * word)) != sizeof value)
        abort();
    close(file);
    return value;
}

bool table_with(const char *name, uint64_t nodes, uint64_t count)
{
    catalogue_file *f = catalogue_file_new();
    bool made = catalogue_file_create(f, name, nodes, 1) == 0
                && catalogue_file_open(f, name, CATALOGUE_FILE_WRITING | CATALOGUE_FILE_FAST, 0) == 0;
    for (uint64_t key = 10; made && key <= 10 * count; key += 10)
        made = catalogue_file_add(f, 1, key, 1000 + key, CATALOGUE_OPEN) == 0;
    made = made && catalogue_file_close(f) == 0;
    if (!made)
        printf("%s\n", catalogue_file_message(f));
    catalogue_file_free(f);
    return made;
}

/* ---- the disk. These take the place of the C library's in the tests' program */

/* Where the file is mapped: a writer waits for all of it first. */
static char *mapped;

void *__real_mmap(void *address, size_t bytes, int access, int flags, int file, off_t from);
void *__wrap_mmap(void *address, size_t bytes, int access, int flags, int file, off_t from);

void *__wrap_mmap(void *address, size_t bytes, int access, int flags, int file, off_t from)
{
    if (!(flags & MAP_SYNC))
        return __real_mmap(address, bytes, access, flags, file, from);
    errno = EOPNOTSUPP;
    return disk.persistent ? __real_mmap(address, bytes, access, MAP_SHARED, file, from) : MAP_FAILED;
}

int msync(void *address, size_t bytes, int flags)
{
    disk.syncs++;
    if (disk.syncs == 1)
        mapped = address;
    if (disk.fail != 0 && (disk.fail_on ? disk.syncs >= disk.fail : disk.syncs == disk.fail)) {
        errno = EIO;
        return -1;
    }
    size_t from = (size_t)((char *)address - mapped), to = from + bytes < disk.bytes ? from + bytes : disk.bytes;
    if (disk.image && from < to)
        memcpy(disk.image + from, mapped + from, to - from);
    return (int)syscall(SYS_msync, address, bytes, flags);
}

int fsync(int file)
{
    struct stat about;
    fstat(file, &about);
    if (S_ISDIR(about.st_mode) && disk.no_folder) {
        errno = EIO;
        return -1;
    }
    disk.folder_synced = disk.folder_synced || S_ISDIR(about.st_mode);
    return (int)syscall(SYS_fsync, file);
}

int rename(const char *from, const char *to)
{
    if (disk.no_rename) {
        errno = ENOSPC;
        return -1;
    }
    return (int)syscall(SYS_renameat2, AT_FDCWD, from, AT_FDCWD, to, 0);
}

/* ---- running */

static unsigned passed, failed;

static void run(const struct test *tests)
{
    for (; tests->name; tests++) {
        disk = (struct disk){0};
        bool ok = tests->run();
        free(disk.image);
        *(ok ? &passed : &failed) += 1;
        if (!ok)
            printf("FAILED: %s\n", tests->name);
    }
}

int main(int count, char **words)
{
    if (count < 2)
        return 2;
    folder = words[1];
    watched = count > 2;
    run(codes_tests);
    run(files_tests);
    run(reading_tests);
    run(change_tests);
    run(quick_tests);
    run(load_tests);
    run(disk_tests);
    run(hard_tests);
    printf("%u passed, %u failed\n", passed, failed);
    return failed != 0;
}
