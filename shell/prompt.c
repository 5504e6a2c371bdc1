/* Lines that a person types: with history and completion by GNU readline or libedit if one of them is installed, else as they are. */
#include "prompt.h"

#include <dlfcn.h>
#include <errno.h>
#include <poll.h>
#include <signal.h>
#include <stdio.h>
#include <stdlib.h>
#include <string.h>
#include <unistd.h>

/* Lines that the history keeps. */
#define KEPT 1000

/* What is used of the library, by the names that both have. There is one terminal, and the library keeps its state for one too. */
static struct {
    void *library;
    void (*install)(const char *prompt, void (*take)(char *line));
    void (*read)(void);
    void (*remove)(void);
    void (*free_line)(void);
    void (*clean)(void);
    void (*remember)(const char *line);
    char **(*matches)(const char *text, char *(*next)(const char *text, int state));
    char **line;
    int *over; /* no file names are looked for */
} editor;

static struct {
    bool terminal;
    matching *match;
    size_t start;  /* of the text that is completed */
    bool files;    /* it is a file's name */
    char *history; /* its file; null for none */
    char *line;    /* that was taken */
    bool taken;
} typed;

static volatile sig_atomic_t interrupts;

void prompt_interrupt(int number)
{
    (void)number;
    interrupts = 1;
}

/* ---- completion */

static char *next_match(const char *text, int state)
{
    return typed.match(*editor.line, typed.start, text, state == 0, &typed.files);
}

static char **complete(const char *text, int start, int end)
{
    (void)end;
    typed.start = (size_t)start;
    char **found = editor.matches(text, next_match);
    if (editor.over)
        *editor.over = !typed.files;
    return found;
}

/* ---- the library */

static bool symbol(const char *name, void *to)
{
    void *found = dlsym(editor.library, name);
    memcpy(to, &found, sizeof found);
    return found != NULL;
}

static bool find_symbols(void)
{
    return symbol("rl_callback_handler_install", &editor.install) && symbol("rl_callback_read_char", &editor.read)
           && symbol("rl_callback_handler_remove", &editor.remove) && symbol("add_history", &editor.remember)
           && symbol("rl_completion_matches", &editor.matches) && symbol("rl_line_buffer", &editor.line);
}

/* The library that CATALOGUE_EDITOR names, or the first that there is. */
static void open_library(void)
{
    static const char *const names[] = {"libreadline.so.8", "libreadline.so.7", "libedit.so.2"};
    const char *wanted = getenv("CATALOGUE_EDITOR");
    if (wanted && wanted[0]) {
        editor.library = dlopen(wanted, RTLD_NOW | RTLD_LOCAL);
        return;
    }
    for (size_t i = 0; !editor.library && i < sizeof names / sizeof names[0]; i++)
        editor.library = dlopen(names[i], RTLD_NOW | RTLD_LOCAL);
}

/* The file that CATALOGUE_HISTORY names, or .catalogue_history at home; an empty name is none. */
static void read_history(void)
{
    const char *named = getenv("CATALOGUE_HISTORY"), *home = getenv("HOME");
    int (*read)(const char *name);
    void (*limit)(int lines);
    if (named && named[0])
        typed.history = strdup(named);
    else if (!named && home && asprintf(&typed.history, "%s/.catalogue_history", home) < 0)
        typed.history = NULL;
    if (symbol("stifle_history", &limit))
        limit(KEPT);
    if (typed.history && symbol("read_history", &read))
        read(typed.history);
}

/* Signals stay the program's, and completion asks it. */
static void set_up(void)
{
    char ***attempt;
    int *catches;
    const char **name;
    if (symbol("rl_attempted_completion_function", &attempt)) {
        char **(*function)(const char *text, int start, int end) = complete;
        memcpy(attempt, &function, sizeof function);
    }
    if (symbol("rl_catch_signals", &catches))
        *catches = 0;
    if (symbol("rl_readline_name", &name))
        *name = "catalogue";
    symbol("rl_attempted_completion_over", &editor.over);
    symbol("rl_free_line_state", &editor.free_line);
    symbol("rl_cleanup_after_signal", &editor.clean);
    read_history();
}

bool prompt_begin(matching *match)
{
    typed.match = match;
    typed.terminal = isatty(STDIN_FILENO) && isatty(STDOUT_FILENO);
    if (typed.terminal)
        open_library();
    if (editor.library && find_symbols()) {
        set_up();
    } else if (editor.library) {
        dlclose(editor.library);
        editor.library = NULL;
    }
    return typed.terminal;
}

void prompt_end(void)
{
    int (*write)(const char *name);
    if (editor.library && typed.history && symbol("write_history", &write))
        write(typed.history);
    free(typed.history);
    typed.history = NULL;
}

/* ---- lines */

/* The terminal is as before while the line's command runs. */
static void take(char *line)
{
    typed.line = line;
    typed.taken = true;
    editor.remove();
}

/* A line that is given up. */
static void give_up(void)
{
    if (editor.free_line)
        editor.free_line();
    if (editor.clean)
        editor.clean();
    editor.remove();
    fputc('\n', stdout);
    fflush(stdout);
}

static char *edited_line(const char *prompt, bool *interrupted)
{
    struct pollfd there = {.fd = STDIN_FILENO, .events = POLLIN};
    typed.line = NULL;
    typed.taken = false;
    editor.install(prompt, take);
    while (!typed.taken) {
        int ready = poll(&there, 1, -1);
        if (interrupts) {
            give_up();
            *interrupted = true;
            return NULL;
        }
        if (ready > 0)
            editor.read();
        else if (ready < 0 && errno != EINTR)
            take(NULL);
    }
    if (typed.line && typed.line[0])
        editor.remember(typed.line);
    if (!typed.line)
        fputc('\n', stdout);
    return typed.line;
}

static char *plain_line(const char *prompt, bool *interrupted)
{
    char *line = NULL;
    size_t room = 0;
    if (typed.terminal) {
        fputs(prompt, stdout);
        fflush(stdout);
    }
    errno = 0;
    ssize_t length = getline(&line, &room, stdin);
    if (length >= 0 && !interrupts) {
        if (length > 0 && line[length - 1] == '\n')
            line[length - 1] = '\0';
        return line;
    }
    free(line);
    *interrupted = interrupts != 0;
    clearerr(stdin);
    if (typed.terminal)
        fputc('\n', stdout);
    return NULL;
}

char *prompt_line(const char *prompt, bool *interrupted)
{
    interrupts = 0;
    *interrupted = false;
    return editor.library ? edited_line(prompt, interrupted) : plain_line(prompt, interrupted);
}
