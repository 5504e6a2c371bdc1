/*
 * Loaded before the program's libraries: writes down, into the file that SYNCS names, each call by which the program waits for the disk or
 * gives a file its name, in order and before it is done, with how much the program has printed to standard output, a file. At an msync also
 * what the mapped file holds at that moment, if a file takes another one's place what it holds. With SYNCS_NO_RENAME there is no rename
 * that keeps a file that is there, as on some file systems; with SYNCS_APPEARS a file comes to the new name just before one is renamed to it.
 * What the program prints to standard output is there at once, and in no buffer. A sync that does not wait is none. With SYNCS_KILL the program is killed at the fsync of that number; with
 * SYNCS_FAIL_FSYNC that fsync fails, with SYNCS_FAIL_READ the pread of that number, with SYNCS_FAIL_MEMORY the allocation.
 *
 * With SYNCS_FAIL the msync of that number fails, as on a disk that does; with SYNCS_DIE the program is killed before it learns that. The
 * file that SYNCS_DISK names is what the disk has of the mapped file, and the file of that name with .dirty a byte for each page, 1 if the
 * program has stored to it and the system has not written it since; both outlive the program, as the system's memory does. An msync writes
 * the dirty pages that it is for, and then they are clean; one that fails writes none of them, and they are clean all the same. With
 * SYNCS_FAIL_ALL it is every dirty page of the file that was not written: the system had tried to by itself, and reports the failure to the next one who waits.
 */
#include <errno.h>
#include <fcntl.h>
#include <limits.h>
#include <signal.h>
#include <stdarg.h>
#include <stdbool.h>
#include <stdio.h>
#include <stdlib.h>
#include <string.h>
#include <sys/mman.h>
#include <sys/stat.h>
#include <sys/syscall.h>
#include <unistd.h>

/* Lines that are printed too early must not be hidden by a buffer. */
__attribute__((constructor)) static void print_at_once(void)
{
    setvbuf(stdout, NULL, _IONBF, 0);
}

/* ---- memory */

extern void *__libc_malloc(size_t bytes), *__libc_calloc(size_t count, size_t bytes), *__libc_realloc(void *old, size_t bytes);

static bool no_memory(void)
{
    static int count;
    const char *failing = getenv("SYNCS_FAIL_MEMORY");
    bool fails = failing && ++count == atoi(failing);
    if (fails)
        errno = ENOMEM;
    return fails;
}

void *malloc(size_t bytes)
{
    return no_memory() ? NULL : __libc_malloc(bytes);
}

void *calloc(size_t count, size_t bytes)
{
    return no_memory() ? NULL : __libc_calloc(count, bytes);
}

void *realloc(void *old, size_t bytes)
{
    return no_memory() ? NULL : __libc_realloc(old, bytes);
}

static char *mapped;
static size_t mapped_bytes;

/* ---- the pages that the system has not written */

static size_t page;
static unsigned char *dirty; /* one for each page; null if there is no such disk */

static size_t pages(void)
{
    return (mapped_bytes + page - 1) / page;
}

static void protect(size_t which, int access)
{
    if (mprotect(mapped + which * page, page, access) != 0)
        abort();
}

/* The first store to a page that is clean. */
static void on_store(int number, siginfo_t *about, void *context)
{
    (void)number;
    (void)context;
    size_t at = (size_t)((char *)about->si_addr - mapped);
    if (!mapped || at >= pages() * page)
        abort();
    dirty[at / page] = 1;
    protect(at / page, PROT_READ | PROT_WRITE);
}

static void watch_stores(void)
{
    char name[PATH_MAX];
    struct sigaction action = {.sa_sigaction = on_store, .sa_flags = SA_SIGINFO | SA_NODEFER};
    if (!getenv("SYNCS_DISK"))
        return;
    page = (size_t)sysconf(_SC_PAGESIZE);
    snprintf(name, sizeof name, "%s.dirty", getenv("SYNCS_DISK"));
    int file = open(name, O_RDWR | O_CREAT, 0666);
    if (file < 0 || ftruncate(file, (off_t)pages()) != 0 || sigaction(SIGSEGV, &action, NULL) != 0)
        abort();
    dirty = (void *)syscall(SYS_mmap, NULL, pages(), PROT_READ | PROT_WRITE, MAP_SHARED, file, 0);
    if (dirty == MAP_FAILED)
        abort();
    close(file);
    for (size_t i = 0; i < pages(); i++)
        protect(i, PROT_READ);
}

static void write_page(int disk, size_t which)
{
    size_t from = which * page, bytes = mapped_bytes - from < page ? mapped_bytes - from : page;
    if (pwrite(disk, mapped + from, bytes, (off_t)from) != (ssize_t)bytes)
        abort();
}

/* The dirty pages of a part are clean from now on, written or not. */
static void clean(size_t from, size_t bytes, int written)
{
    if (!dirty)
        return;
    int disk = open(getenv("SYNCS_DISK"), O_RDWR);
    if (disk < 0)
        abort();
    for (size_t i = from / page; i < pages() && i * page < from + bytes; i++) {
        if (dirty[i] && written)
            write_page(disk, i);
        if (dirty[i])
            protect(i, PROT_READ);
        dirty[i] = 0;
    }
    close(disk);
}

/* ---- what is written down */

static int record(void)
{
    return open(getenv("SYNCS"), O_WRONLY | O_APPEND | O_CREAT, 0666);
}

void *mmap(void *address, size_t bytes, int access, int flags, int file, off_t offset)
{
    void *at = (void *)syscall(SYS_mmap, address, bytes, access, flags, file, offset);
    if (at != MAP_FAILED && (flags & MAP_SHARED) && (access & PROT_WRITE)) {
        mapped = at;
        mapped_bytes = bytes;
        watch_stores();
    }
    return at;
}

static off_t copy_file(int from, int to)
{
    char part[65536];
    off_t all = 0;
    for (ssize_t got; (got = read(from, part, sizeof part)) > 0; all += got)
        if (write(to, part, (size_t)got) != got)
            return -1;
    return all;
}

static size_t printed(void)
{
    struct stat about;
    fstat(STDOUT_FILENO, &about);
    return (size_t)about.st_size;
}

int msync(void *address, size_t bytes, int flags)
{
    if (!(flags & MS_SYNC))
        return (int)syscall(SYS_msync, address, bytes, flags);
    int file = record();
    dprintf(file, "msync %zu %zu %zu %zu\n", (size_t)((char *)address - mapped), bytes, printed(), mapped_bytes);
    if (write(file, mapped, mapped_bytes) != (ssize_t)mapped_bytes)
        abort();
    close(file);
    static int count;
    const char *failing = getenv("SYNCS_FAIL");
    bool fails = failing && ++count == atoi(failing), all = fails && getenv("SYNCS_FAIL_ALL");
    clean(all ? 0 : (size_t)((char *)address - mapped), all ? mapped_bytes : bytes, !fails);
    if (fails && getenv("SYNCS_DIE"))
        raise(SIGKILL);
    if (fails) {
        errno = EIO;
        return -1;
    }
    return (int)syscall(SYS_msync, address, bytes, flags);
}

int fsync(int synced)
{
    char link[64], path[PATH_MAX] = "";
    snprintf(link, sizeof link, "/proc/self/fd/%d", synced);
    if (readlink(link, path, sizeof path - 1) < 0)
        abort();
    int file = record();
    dprintf(file, "fsync %s %zu\n", path, printed());
    close(file);
    static int count;
    const char *killed = getenv("SYNCS_KILL");
    count++;
    if (killed && count == atoi(killed))
        raise(SIGKILL);
    const char *failing = getenv("SYNCS_FAIL_FSYNC");
    if (failing && count == atoi(failing)) {
        errno = EIO;
        return -1;
    }
    return (int)syscall(SYS_fsync, synced);
}

ssize_t pread(int file, void *to, size_t bytes, off_t from)
{
    static int count;
    const char *failing = getenv("SYNCS_FAIL_READ");
    if (failing && ++count == atoi(failing)) {
        errno = EIO;
        return -1;
    }
    return syscall(SYS_pread64, file, to, bytes, from);
}

int renameat2(int from_folder, const char *from, int to_folder, const char *to, unsigned flags)
{
    int file = record();
    dprintf(file, "rename %s %s %zu\n", from, to, printed());
    close(file);
    if (getenv("SYNCS_APPEARS"))
        close(open(to, O_WRONLY | O_CREAT | O_EXCL, 0644));
    if (getenv("SYNCS_NO_RENAME")) {
        errno = EINVAL;
        return -1;
    }
    return (int)syscall(SYS_renameat2, from_folder, from, to_folder, to, flags);
}

int rename(const char *from, const char *to)
{
    struct stat about;
    int file = record(), image = open(from, O_RDONLY);
    if (image < 0 || fstat(image, &about) != 0)
        abort();
    dprintf(file, "replace %s %s %zu %zu\n", from, to, printed(), (size_t)about.st_size);
    if (copy_file(image, file) != about.st_size)
        abort();
    close(image);
    close(file);
    return (int)syscall(SYS_renameat2, AT_FDCWD, from, AT_FDCWD, to, 0);
}
