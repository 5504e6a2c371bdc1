/* The program `catalogue`: recordings by their codes, in a table that survives a power cut. */
#include <fcntl.h>
#include <inttypes.h>
#include <signal.h>
#include <stdio.h>
#include <string.h>
#include <sys/stat.h>
#include <unistd.h>

#include "catalogue_file.h"
#include "command_line.h"
#include "commands.h"
#include "output.h"
#include "session.h"
#include "text.h"

static bool is_there(const char *name)
{
    struct stat about;
    return stat(name, &about) == 0;
}

/* A table alone, which no command is called: its commands are typed. */
static int run(struct command_line *l)
{
    bool alone = l->count == 1 && !l->help && !l->version && l->said == 0 && !command_named(l->words[0]);
    if (alone && is_there(l->words[0]))
        return session(l->words[0]);
    if (alone && strpbrk(l->words[0], "./"))
        return fail(BAD_FILE, "there is no file %s (to make one: catalogue make %s NODES)", l->words[0], l->words[0]);
    return command_run(l);
}

/* A mapped file that becomes shorter has no memory behind its last words any more. */
static void on_bus_error(int number)
{
    static const char why[] = "catalogue: the table's file was cut short by another program, or its disk failed\n";
    ssize_t written = write(STDERR_FILENO, why, sizeof why - 1);
    (void)number;
    (void)written;
    output_abandon();
    _exit(BAD_FILE);
}

/*
 * A standard stream that the caller has closed. Else the table's file would get its number, and what is printed would go into the table.
 * To read from it, or to write to it, fails as before.
 */
static void hold_streams(void)
{
    for (int stream = STDIN_FILENO; stream <= STDERR_FILENO; stream++)
        if (fcntl(stream, F_GETFD) < 0 && open("/dev/null", stream == STDIN_FILENO ? O_WRONLY : O_RDONLY) != stream)
            _exit(BAD_FILE);
}

/* A library of another version takes other words. */
static int test_library(void)
{
    uint64_t version = catalogue_version();
    if (version == CATALOGUE_VERSION)
        return 0;
    return fail(BAD_FILE, "built for version %d of the library and linked with version %" PRIu64, CATALOGUE_VERSION, version);
}

int main(int count, char **words)
{
    static struct command_line l;
    struct sigaction action = {.sa_handler = on_bus_error};
    hold_streams();
    sigaction(SIGBUS, &action, NULL);
    int status = test_library();
    if (status == 0)
        status = command_line_read(&l, count - 1, words + 1);
    if (status == 0)
        status = run(&l);
    command_line_free(&l);
    return command_finish(&l, status);
}
