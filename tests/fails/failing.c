/*
 * failing REPORT CALL WHICH ERROR PROGRAM WORDS..: runs the program, and lets one of its system calls fail: the WHICHth of the name CALL, with that
 * error, without being made; 'WHICH+' lets all from there on fail. With the error SHORT a read or a write is made, of half its bytes; with DOES
 * the call is made once the shell has carried out FAILING_DOES. A CALL of - fails none, and 'any' is every call. REPORT gets a line for each
 * call, in order: its name, whether it failed, and the files that it names. Calls count from the first fcntl on, with which the program's work
 * begins, up to a getppid. Ends with the program's status, or 128 and its signal. For x86-64.
 */
#include <errno.h>
#include <fcntl.h>
#include <signal.h>
#include <stdbool.h>
#include <stdint.h>
#include <stdio.h>
#include <stdlib.h>
#include <string.h>
#include <sys/ptrace.h>
#include <sys/syscall.h>
#include <sys/uio.h>
#include <sys/user.h>
#include <sys/wait.h>
#include <unistd.h>

#define CANNOT_FOLLOW 99

/* What its arguments name: nothing that is written down, an open file, one name, two names; from which argument on, of 0 to 5. */
enum named { NOTHING, OPENED, NAME, NAMES };

static const struct call {
    const char *name;
    long number;
    enum named named;
    unsigned first, second;
} calls[] = {
    {"open", SYS_open, NAME, 0, 0},
    {"openat", SYS_openat, NAME, 1, 0},
    {"close", SYS_close, OPENED, 0, 0},
    {"read", SYS_read, OPENED, 0, 0},
    {"pread", SYS_pread64, OPENED, 0, 0},
    {"write", SYS_write, OPENED, 0, 0},
    {"pwrite", SYS_pwrite64, OPENED, 0, 0},
    {"writev", SYS_writev, OPENED, 0, 0},
    {"fstat", SYS_fstat, OPENED, 0, 0},
    {"stat", SYS_stat, NAME, 0, 0},
    {"lstat", SYS_lstat, NAME, 0, 0},
    {"fstatat", SYS_newfstatat, NAME, 1, 0},
    {"statx", SYS_statx, NAME, 1, 0},
    {"mmap", SYS_mmap, NOTHING, 0, 0},
    {"munmap", SYS_munmap, NOTHING, 0, 0},
    {"mremap", SYS_mremap, NOTHING, 0, 0},
    {"flock", SYS_flock, OPENED, 0, 0},
    {"fcntl", SYS_fcntl, OPENED, 0, 0},
    {"msync", SYS_msync, NOTHING, 0, 0},
    {"fsync", SYS_fsync, OPENED, 0, 0},
    {"syncfs", SYS_syncfs, OPENED, 0, 0},
    {"ftruncate", SYS_ftruncate, OPENED, 0, 0},
    {"rename", SYS_rename, NAMES, 0, 1},
    {"renameat2", SYS_renameat2, NAMES, 1, 3},
    {"link", SYS_link, NAMES, 0, 1},
    {"unlink", SYS_unlink, NAME, 0, 0},
    {"unlinkat", SYS_unlinkat, NAME, 1, 0},
    {"readlink", SYS_readlink, NAME, 0, 0},
    {"access", SYS_access, NAME, 0, 0},
    {"faccessat", SYS_faccessat, NAME, 1, 0},
    {"faccessat2", SYS_faccessat2, NAME, 1, 0},
    {"getdents", SYS_getdents64, OPENED, 0, 0},
    {"getcwd", SYS_getcwd, NOTHING, 0, 0},
    {"lseek", SYS_lseek, OPENED, 0, 0},
    {"fchmod", SYS_fchmod, OPENED, 0, 0},
    {"fchown", SYS_fchown, OPENED, 0, 0},
    {"flistxattr", SYS_flistxattr, OPENED, 0, 0},
    {"fgetxattr", SYS_fgetxattr, OPENED, 0, 0},
    {"fsetxattr", SYS_fsetxattr, OPENED, 0, 0},
    {"dup2", SYS_dup2, OPENED, 0, 0},
    {"poll", SYS_poll, NOTHING, 0, 0},
    {"ioctl", SYS_ioctl, OPENED, 0, 0},
    {"nanosleep", SYS_clock_nanosleep, NOTHING, 0, 0},
    {"rt_sigaction", SYS_rt_sigaction, NOTHING, 0, 0},
    {"prlimit", SYS_prlimit64, NOTHING, 0, 0},
};

static const struct {
    const char *name;
    int number;
} errors[] = {{"EIO", EIO},       {"ENOSPC", ENOSPC}, {"EDQUOT", EDQUOT}, {"ENOMEM", ENOMEM}, {"EINTR", EINTR},   {"EACCES", EACCES}, {"EPERM", EPERM},
              {"EROFS", EROFS},   {"EMFILE", EMFILE}, {"ENOENT", ENOENT}, {"EINVAL", EINVAL}, {"ENOSYS", ENOSYS}, {"ENOLCK", ENOLCK}, {"EXDEV", EXDEV},
              {"EFBIG", EFBIG},   {"EPIPE", EPIPE},   {"EAGAIN", EAGAIN}, {"SHORT", 0},        {"DOES", 0}};

static pid_t child;
static FILE *report;
static const char *does; /* what happens meanwhile; null for nothing */

static _Noreturn void lost(const char *why)
{
    perror(why);
    exit(CANNOT_FOLLOW);
}

static const struct call *call_of(long number)
{
    for (size_t i = 0; i < sizeof calls / sizeof calls[0]; i++)
        if (calls[i].number == number)
            return &calls[i];
    return NULL;
}

static int error_of(const char *name)
{
    for (size_t i = 0; i < sizeof errors / sizeof errors[0]; i++)
        if (strcmp(errors[i].name, name) == 0)
            return errors[i].number;
    errno = EINVAL;
    lost(name);
}

static uint64_t argument(const struct user_regs_struct *r, unsigned which)
{
    const unsigned long long all[] = {r->rdi, r->rsi, r->rdx, r->r10, r->r8, r->r9};
    return all[which];
}

static void write_name(const struct user_regs_struct *r, unsigned which)
{
    char text[4096] = "";
    struct iovec mine = {text, sizeof text - 1}, theirs = {(void *)argument(r, which), sizeof text - 1};
    /* What can be read of it: a page at least, up to the name's end. */
    while (theirs.iov_len > 0 && process_vm_readv(child, &mine, 1, &theirs, 1, 0) < 0)
        mine.iov_len = theirs.iov_len = theirs.iov_len / 2;
    fprintf(report, " %s", text[0] ? text : "-");
}

static void write_opened(const struct user_regs_struct *r, unsigned which)
{
    char link[64], path[4096] = "-";
    snprintf(link, sizeof link, "/proc/%d/fd/%d", (int)child, (int)argument(r, which));
    ssize_t length = readlink(link, path, sizeof path - 1);
    path[length < 0 ? 1 : length] = '\0';
    fprintf(report, " %s", path);
}

static void write_down(const struct call *c, const struct user_regs_struct *r, bool fails)
{
    fprintf(report, "%s %s", c->name, fails ? "failed" : "made");
    if (c->named == OPENED)
        write_opened(r, c->first);
    else if (c->named != NOTHING)
        write_name(r, c->first);
    if (c->named == NAMES)
        write_name(r, c->second);
    fprintf(report, "\n");
}

/* Runs the program to its next stop at a system call; ends with the program. */
static void to_stop(void)
{
    static int signal_to_give;
    for (;;) {
        int status;
        if (ptrace(PTRACE_SYSCALL, child, 0, signal_to_give) != 0 || waitpid(child, &status, 0) != child)
            lost("ptrace");
        signal_to_give = 0;
        if (WIFEXITED(status) || WIFSIGNALED(status)) {
            fclose(report);
            exit(WIFEXITED(status) ? WEXITSTATUS(status) : 128 + WTERMSIG(status));
        }
        if (WSTOPSIG(status) == (SIGTRAP | 0x80))
            return;
        signal_to_give = WSTOPSIG(status);
    }
}

/* One call, from before it to after it; fails or is cut short if it is one of those. */
static void one_call(const struct call *c, bool fails, int error)
{
    struct user_regs_struct r;
    ptrace(PTRACE_GETREGS, child, 0, &r);
    write_down(c, &r, fails);
    bool made_short = fails && error == 0;
    if (fails && does && system(does) != 0)
        lost(does);
    if (fails && !made_short)
        r.orig_rax = (unsigned long long)-1;
    if (made_short && !does)
        r.rdx = (r.rdx + 1) / 2;
    if (fails)
        ptrace(PTRACE_SETREGS, child, 0, &r);
    to_stop();
    if (!fails || made_short)
        return;
    ptrace(PTRACE_GETREGS, child, 0, &r);
    r.rax = (unsigned long long)-error;
    ptrace(PTRACE_SETREGS, child, 0, &r);
}

int main(int count, char **words)
{
    int status;
    if (count < 6 || !(report = fopen(words[1], "w")))
        lost("failing REPORT CALL WHICH ERROR PROGRAM WORDS..");
    long which = atol(words[3]), met = 0;
    bool on = strchr(words[3], '+') != NULL, begun = false, over = false;
    int error = error_of(words[4]);
    does = strcmp(words[4], "DOES") == 0 ? getenv("FAILING_DOES") : NULL;
    if ((child = fork()) == 0) {
        ptrace(PTRACE_TRACEME, 0, 0, 0);
        raise(SIGSTOP);
        execvp(words[5], words + 5);
        _exit(CANNOT_FOLLOW);
    }
    if (waitpid(child, &status, 0) != child || ptrace(PTRACE_SETOPTIONS, child, 0, PTRACE_O_EXITKILL | PTRACE_O_TRACESYSGOOD | PTRACE_O_TRACEEXEC) != 0)
        lost("ptrace");
    for (;;) {
        struct user_regs_struct r;
        to_stop();
        ptrace(PTRACE_GETREGS, child, 0, &r);
        long number = (long)r.orig_rax;
        const struct call *c = call_of(number);
        begun = begun || number == SYS_fcntl;
        over = over || (begun && number == SYS_getppid);
        bool any = strcmp(words[2], "any") == 0;
        /* To ask whether a stream is open cannot fail if it is. */
        if (!c || !begun || over || (!any && number == SYS_fcntl && r.rsi == F_GETFD)) {
            to_stop();
            continue;
        }
        bool meant = any || strcmp(c->name, words[2]) == 0;
        met += meant;
        one_call(c, meant && (met == which || (on && met > which)), error);
    }
}
