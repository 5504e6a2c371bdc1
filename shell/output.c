/* Where a command prints: standard output, or the file that --output names. */
#include "output.h"

#include <errno.h>
#include <fcntl.h>
#include <stdbool.h>
#include <stdio.h>
#include <stdio_ext.h>
#include <stdlib.h>
#include <string.h>
#include <sys/stat.h>
#include <unistd.h>

#include "text.h"

/* The file that is being written, for a signal that ends the program. */
static char *volatile unfinished;

void output_abandon(void)
{
    if (unfinished)
        unlink(unfinished);
}

static bool is_table(const struct stat *named, const char *table)
{
    struct stat about;
    return table && stat(table, &about) == 0 && about.st_dev == named->st_dev && about.st_ino == named->st_ino;
}

/* An ordinary file is written under another name first. */
static int open_beside(struct output *o, const char *name)
{
    /* A link stays one: what it leads to is replaced. */
    o->name = realpath(name, NULL);
    if (!o->name)
        o->name = strdup(name);
    if (!o->name || asprintf(&o->made, "%s.%ld.part", o->name, (long)getpid()) < 0) {
        o->made = NULL;
        errno = ENOMEM;
        return -1;
    }
    unfinished = o->made;
    return open(o->made, O_WRONLY | O_CREAT | O_TRUNC | O_CLOEXEC, 0666);
}

/* What is printed goes to the open file from now on. */
static bool redirect(struct output *o, int file)
{
    fflush(stdout);
    o->before = fcntl(STDOUT_FILENO, F_DUPFD_CLOEXEC, STDERR_FILENO + 1);
    bool redirected = o->before >= 0 && dup2(file, STDOUT_FILENO) >= 0;
    int why = errno;
    close(file);
    if (!redirected && o->before >= 0) {
        close(o->before);
        o->before = -1;
    }
    errno = why;
    return redirected;
}

int output_begin(struct output *o, const char *name, const char *table)
{
    struct stat about;
    *o = (struct output){.before = -1};
    if (!name)
        return 0;
    bool there = stat(name, &about) == 0;
    if (there && is_table(&about, table))
        return fail(BAD_FILE, "%s is the table itself: nothing was done", name);
    int file = there && !S_ISREG(about.st_mode) ? open(name, O_WRONLY | O_CLOEXEC) : open_beside(o, name);
    if (file < 0 || !redirect(o, file))
        return fail(BAD_FILE, "%s cannot be written: %s", name, strerror(errno));
    return 0;
}

/* What was printed is in the file, and the file in its place; unless the command failed and printed nothing. */
static int put(const struct output *o, int status)
{
    struct stat about;
    if (fflush(stdout) != 0 || ferror(stdout))
        return fail(BAD_FILE, "%s cannot be written: %s", o->name ? o->name : "the output", strerror(errno));
    if (!o->made || (status != 0 && fstat(STDOUT_FILENO, &about) == 0 && about.st_size == 0))
        return 0;
    return rename(o->made, o->name) == 0 ? 0 : fail(BAD_FILE, "%s cannot be written: %s", o->name, strerror(errno));
}

int output_end(struct output *o, int status)
{
    if (o->before >= 0) {
        int failed = put(o, status);
        /* What could not be written does not go elsewhere. */
        __fpurge(stdout);
        clearerr(stdout);
        dup2(o->before, STDOUT_FILENO);
        close(o->before);
        status = status != 0 ? status : failed;
    }
    /* Once it is in its place there is no such name. */
    if (o->made)
        unlink(o->made);
    unfinished = NULL;
    free(o->made);
    free(o->name);
    return status;
}
