/* A table kept open for commands that are typed one after another. */
#include "session.h"

#include <errno.h>
#include <fcntl.h>
#include <signal.h>
#include <stdio.h>
#include <stdlib.h>
#include <string.h>
#include <sys/stat.h>
#include <sys/wait.h>
#include <unistd.h>

#include "commands.h"
#include "completion.h"
#include "prompt.h"
#include "text.h"
#include "words.h"

/* A program has one session. */
static struct {
    const char *name;
    struct opened table; /* for searches; the other commands open it for themselves */
    bool open;           /* the table is */
    bool terminal;
    struct stat file; /* that has the table's name, when it was last looked at */
    int first;        /* the status of the first command that failed */
    bool over;
} here;

/* ---- the table */

static int open_table(void)
{
    const struct opening how = {.collection = 1};
    int status = opened_begin(&here.table, here.name, false, &how);
    here.open = status == 0;
    if (!here.open)
        opened_end(&here.table);
    if (stat(here.name, &here.file) != 0)
        here.file = (struct stat){0};
    return status;
}

static void close_table(void)
{
    if (here.open)
        opened_end(&here.table);
    here.open = false;
}

/* Another file may have taken the name since the last command. */
static int look_at_name(void)
{
    struct stat now;
    bool there = stat(here.name, &now) == 0, same = there && now.st_dev == here.file.st_dev && now.st_ino == here.file.st_ino;
    if (same && here.open)
        return 0;
    if (there && here.file.st_ino != 0)
        fail(0, "%s is another file now: the answers are about that one", here.name);
    close_table();
    return open_table();
}

/* A load of our own may have put a new file in its place. */
static void take_name(void)
{
    struct stat now;
    if (here.open && stat(here.name, &now) == 0)
        here.file = now;
}

/* ---- commands */

/* In a process of its own: an interrupt ends it, and not the session. */
static int run_apart(struct command_line *l)
{
    int ended;
    fflush(stdout);
    pid_t child = fork();
    if (child < 0)
        return fail(BAD_FILE, "no process for this command: %s", strerror(errno));
    if (child == 0) {
        signal(SIGINT, SIG_DFL);
        /* The lines of standard input are the session's commands, unless somebody types them. */
        if (!here.terminal)
            dup2(open("/dev/null", O_RDONLY | O_CLOEXEC), STDIN_FILENO);
        int status = command_run(l);
        _exit(command_finish(l, status));
    }
    while (waitpid(child, &ended, 0) < 0)
        if (errno != EINTR)
            return fail(BAD_FILE, "the command's end is not known: %s", strerror(errno));
    take_name();
    if (WIFEXITED(ended))
        return WEXITSTATUS(ended);
    if (here.terminal)
        putchar('\n');
    return BY_SIGNAL + WTERMSIG(ended);
}

/* Searches use the open table; what reads a terminal can be interrupted. */
static bool searches(const struct command_line *l)
{
    return l->count > 0 && strcmp(l->words[0], "find") == 0 && !l->by_recording && !l->help && !(l->count == 3 && strcmp(l->words[2], "-") == 0);
}

static int run_here(struct command_line *l)
{
    int status = look_at_name();
    if (status == 0)
        status = opened_choose(&here.table, &l->opening);
    l->open = &here.table;
    return status == 0 ? command_run(l) : status;
}

/* The table's name goes behind the command, unless it was typed. */
static void put_name(struct command_line *l)
{
    const struct command *c = l->count > 0 ? command_named(l->words[0]) : NULL;
    if (!c || strncmp(c->form, "TABLE", strlen("TABLE")) != 0 || l->drawings || (l->count > 1 && strcmp(l->words[1], here.name) == 0))
        return;
    memmove(l->words + 2, l->words + 1, (size_t)(l->count - 1) * sizeof *l->words);
    l->words[1] = (char *)here.name;
    l->count++;
}

static int run_words(int count, char **words)
{
    static struct command_line l;
    int status = command_line_read(&l, count, words);
    if (status == 0) {
        put_name(&l);
        status = searches(&l) ? run_here(&l) : run_apart(&l);
    }
    command_line_free(&l);
    return status;
}

static int run_line(char *line)
{
    char **words = calloc(strlen(line) / 2 + 2, sizeof *words);
    int count = words ? words_split(line, words) : 0, status = 0;
    if (!words)
        status = fail(BAD_FILE, "not enough memory for this line");
    else if (count < 0)
        status = fail(BAD_USAGE, "a quote is not closed");
    else if (count > 0 && (strcmp(words[0], "quit") == 0 || strcmp(words[0], "exit") == 0))
        here.over = true;
    else if (count > 0)
        status = run_words(count, words);
    free(words);
    return status;
}

/* ---- the session */

/* An interrupt ends the reading of a line, and a command's process gets it for itself. */
static void watch_interrupts(void)
{
    struct sigaction action = {.sa_handler = prompt_interrupt};
    sigaction(SIGINT, &action, NULL);
}

static void read_commands(const char *prompt)
{
    bool interrupted;
    while (!here.over) {
        char *line = prompt_line(prompt, &interrupted);
        if (!line && !interrupted)
            break;
        int status = line ? run_line(line) : 0;
        free(line);
        fflush(stdout);
        here.first = here.first == 0 ? status : here.first;
    }
}

int session(const char *table)
{
    const char *slash = strrchr(table, '/');
    char prompt[64];
    here.name = table;
    int status = open_table();
    if (status != 0)
        return status;
    snprintf(prompt, sizeof prompt, "%.56s> ", slash ? slash + 1 : table);
    here.terminal = prompt_begin(completion_match);
    completion_begin(&here.table, &here.open);
    if (here.terminal) {
        watch_interrupts();
        printf("help lists the commands; they take no TABLE here. quit or ctrl-D ends.\n");
    }
    read_commands(prompt);
    prompt_end();
    close_table();
    return here.terminal ? 0 : here.first;
}
