/* New files that are there whole or not at all: written under another name, synced, renamed, and the folder synced. */
#include "newfile.h"

#include <dirent.h>
#include <errno.h>
#include <fcntl.h>
#include <limits.h>
#include <stdio.h>
#include <stdlib.h>
#include <string.h>
#include <sys/file.h>
#include <unistd.h>

#include "counter.h"
#include "rights.h"

static bool write_bytes(int file, const void *from, size_t left)
{
    const char *next = from;
    while (left > 0) {
        ssize_t n = write(file, next, left);
        if (n < 0 && errno == EINTR)
            continue;
        if (n <= 0)
            return false;
        next += n;
        left -= (size_t)n;
    }
    return true;
}

/* A table's words and a trailer, on the disk. */
static bool write_table(int file, const uint64_t *words, size_t count, uint64_t sums)
{
    const uint64_t trailer[TRAILER_WORDS] = {[TRAILER_FORMAT] = CATALOGUE_FILE_FORMAT, [TRAILER_SUMS] = sums};
    return write_bytes(file, words, count * sizeof *words) && write_bytes(file, trailer, sizeof trailer) && fsync(file) == 0;
}

/* Never onto a file that is there. Some file systems, and old systems, have no such rename, but links: then the other name goes, if it can. */
static bool rename_new(const char *from, const char *to)
{
    if (renameat2(AT_FDCWD, from, AT_FDCWD, to, RENAME_NOREPLACE) == 0)
        return true;
    if ((errno != EINVAL && errno != ENOSYS) || link(from, to) != 0)
        return false;
    unlink(from);
    return true;
}

/* The folder of a name, to be freed; null if memory is short. */
static char *folder_of(const char *name)
{
    const char *slash = strrchr(name, '/');
    if (!slash)
        return strdup(".");
    return strndup(name, slash == name ? 1 : (size_t)(slash - name));
}

static int open_folder(const char *name)
{
    char *within = folder_of(name);
    int folder = within ? open(within, O_RDONLY | O_DIRECTORY | O_CLOEXEC) : -1;
    int why = errno;
    free(within);
    errno = why;
    return folder;
}

/* A folder that this user may not read is synced with its whole file system. */
static bool sync_folder(const char *name, int file)
{
    int folder = open_folder(name);
    if (folder < 0)
        return syncfs(file) == 0;
    /* EINVAL: a file system that has nothing to sync of a folder. */
    bool synced = fsync(folder) == 0 || errno == EINVAL;
    int why = errno;
    close(folder);
    errno = why;
    return synced;
}

bool sync_name(const char *name, int file)
{
    /* Where the name leads: a link stays a link to the new file. */
    char *place = realpath(name, NULL);
    bool synced = place ? sync_folder(place, file) : syncfs(file) == 0;
    int why = errno;
    free(place);
    errno = why;
    return synced;
}

/* ---- under another name meanwhile */

#define MEANWHILE ".new"

/* What follows a name, a point, is a process's number and this ending. */
static bool is_meanwhile(const char *rest)
{
    size_t digits = strspn(rest, "0123456789");
    return digits > 0 && strcmp(rest + digits, MEANWHILE) == 0;
}

/* A name that is kept for files which are being made: one of a table would be taken for what a dead program left. */
static bool kept_name(const char *name)
{
    const char *end = strrchr(name, '.'), *rest = end;
    while (rest && rest > name && rest[-1] >= '0' && rest[-1] <= '9')
        rest--;
    return rest && rest > name && rest[-1] == '.' && is_meanwhile(rest);
}

/* The other name under which a file is written, to be freed. */
static char *name_meanwhile(const char *name)
{
    char *made;
    return asprintf(&made, "%s.%ld" MEANWHILE, name, (long)getpid()) < 0 ? NULL : made;
}

/* A file that no living program has locked: its maker was killed, or the power went. */
static void remove_dead(int folder, const char *entry)
{
    struct stat opened, named;
    int file = openat(folder, entry, O_RDONLY | O_NOFOLLOW | O_NONBLOCK | O_CLOEXEC);
    if (file < 0)
        return;
    bool same = flock(file, LOCK_EX | LOCK_NB) == 0 && fstat(file, &opened) == 0 && S_ISREG(opened.st_mode)
                && fstatat(folder, entry, &named, AT_SYMLINK_NOFOLLOW) == 0 && opened.st_dev == named.st_dev && opened.st_ino == named.st_ino;
    if (same)
        unlinkat(folder, entry, 0);
    close(file);
}

/* The files that dead programs have left for this name. They have nothing that was answered. */
static void remove_all_dead(const char *name)
{
    const char *slash = strrchr(name, '/'), *last = slash ? slash + 1 : name;
    size_t length = strlen(last);
    int folder = open_folder(name);
    DIR *all = folder < 0 ? NULL : fdopendir(folder);
    for (const struct dirent *e; all && (e = readdir(all));)
        if (strncmp(e->d_name, last, length) == 0 && e->d_name[length] == '.' && is_meanwhile(e->d_name + length + 1))
            remove_dead(folder, e->d_name);
    if (all)
        closedir(all);
    else if (folder >= 0)
        close(folder);
}

/*
 * A new file, open and locked, so that nobody takes it for one of a dead program; it begins again if somebody did before it had the lock.
 * -1, with errno.
 */
static int open_meanwhile(const char *made, mode_t rights)
{
    for (;;) {
        struct stat about;
        int file = open(made, O_RDWR | O_CREAT | O_EXCL | O_CLOEXEC, rights);
        if (file < 0)
            return -1;
        bool locked = flock(file, LOCK_EX) == 0 && fstat(file, &about) == 0;
        if (locked && about.st_nlink > 0)
            return file;
        int why = errno;
        close(file);
        if (!locked) {
            unlink(made);
            errno = why;
            return -1;
        }
    }
}

/* ---- a file that was not there */

static uint64_t exists(struct catalogue_file *f, const char *name)
{
    return fails(f, CATALOGUE_FILE_EXISTS, "%s exists already and stays as it is", name);
}

static uint64_t not_made(struct catalogue_file *f, const char *name)
{
    bool forbidden = errno == EACCES || errno == EPERM || errno == EROFS;
    return fails_for(f, forbidden ? CATALOGUE_FILE_NOT_ALLOWED : CATALOGUE_FILE_DISK, "%s cannot be made", name);
}

/* The file under its own name, or a message and no file. */
static uint64_t finish(struct catalogue_file *f, int file, const char *made, const char *name)
{
    if (!rename_new(made, name)) {
        uint64_t number = errno == EEXIST ? exists(f, name) : not_made(f, name);
        unlink(made);
        return number;
    }
    if (sync_name(name, file))
        return 0;
    return fails_for(f, CATALOGUE_FILE_FOLDER, "%s is made, but its folder did not reach the disk, and a power cut may take it away", name);
}

static uint64_t write_new(struct catalogue_file *f, const char *made, const char *name, const uint64_t *words, size_t count)
{
    remove_all_dead(name);
    int file = open_meanwhile(made, 0666);
    if (file < 0)
        return not_made(f, name);
    uint64_t number;
    if (write_table(file, words, count, 0)) {
        number = finish(f, file, made, name);
    } else {
        number = fails_for(f, CATALOGUE_FILE_DISK, "%s cannot be written", name);
        unlink(made);
    }
    close(file);
    return number;
}

uint64_t new_file(struct catalogue_file *f, const char *name, const uint64_t *words, size_t count)
{
    /* Said before the work; the rename tests it again. */
    if (faccessat(AT_FDCWD, name, F_OK, AT_SYMLINK_NOFOLLOW) == 0)
        return exists(f, name);
    if (kept_name(name))
        return fails(f, CATALOGUE_FILE_NOT_ALLOWED, "%s cannot be made: names that end in .NUMBER.new are for files that are being made", name);
    char *made = name_meanwhile(name);
    uint64_t number = made ? write_new(f, made, name, words, count) : no_memory(f);
    free(made);
    return number;
}

/* ---- in the place of a file */

bool put_file(const char *name, int like, const uint64_t *words, size_t count)
{
    char *made = name_meanwhile(name);
    if (!made)
        return false;
    remove_all_dead(name);
    int file = open_meanwhile(made, 0600);
    bool there = file >= 0;
    bool done = there && same_rights(file, like) && write_bytes(file, words, count * sizeof *words) && fsync(file) == 0
                && rename(made, name) == 0 && sync_folder(name, file);
    int why = errno;
    if (there && !done)
        unlink(made);
    if (there)
        close(file);
    free(made);
    errno = why;
    return done;
}

/* Has one of these marks, as far as the file system says. */
static bool is_marked(const char *path, uint64_t marks)
{
    struct statx about;
    return statx(AT_FDCWD, path, 0, STATX_BASIC_STATS, &about) == 0 && (about.stx_attributes & marks) != 0;
}

/* Files can be made there, and a file of this owner can be renamed over and removed. */
static bool takes_files(const char *folder, const struct stat *old)
{
    struct stat about;
    if (stat(folder, &about) != 0 || faccessat(AT_FDCWD, folder, W_OK | X_OK, AT_EACCESS) != 0)
        return false;
    bool sticky = (about.st_mode & S_ISVTX) != 0 && about.st_uid != geteuid() && old->st_uid != geteuid();
    return !sticky && about.st_dev == old->st_dev && !is_marked(folder, STATX_ATTR_APPEND | STATX_ATTR_IMMUTABLE);
}

bool replaceable(const char *name, const struct stat *old)
{
    char place[PATH_MAX];
    if (!realpath(name, place) || strlen(strrchr(place, '/') + 1) + sizeof MEANWHILE + 20 > NAME_MAX)
        return false;
    char *within = folder_of(place);
    bool ours = old->st_uid == geteuid() || geteuid() == 0;
    bool may = within && ours && old->st_nlink == 1 && !is_marked(place, STATX_ATTR_MOUNT_ROOT) && takes_files(within, old);
    free(within);
    return may;
}

bool successor_make(struct successor *s, const char *name, int old, const uint64_t *words, size_t count, uint64_t sums)
{
    *s = (struct successor){.file = -1, .place = realpath(name, NULL)};
    char *made = s->place ? name_meanwhile(s->place) : NULL;
    if (!made)
        return false;
    remove_all_dead(s->place);
    /* Whoever opens it by the table's name finds it locked. */
    s->file = open_meanwhile(made, 0600);
    if (s->file < 0) {
        free(made);
        return false;
    }
    s->made = made;
    return same_rights(s->file, old) && write_table(s->file, words, count, sums);
}

bool successor_put(struct successor *s)
{
    if (rename(s->made, s->place) != 0)
        return false;
    free(s->made);
    s->made = NULL;
    return true;
}

void successor_free(struct successor *s)
{
    int why = errno;
    if (s->made) {
        unlink(s->made);
        close(s->file);
    }
    free(s->made);
    free(s->place);
    errno = why;
}
