/* What may stand for a word that is half typed in a session. */
#include "completion.h"

#include <stdio.h>
#include <stdlib.h>
#include <string.h>

#include "commands.h"
#include "prefix.h"
#include "text.h"

/* Codes that are offered at most. */
#define MOST_CODES 200

enum source { COMMANDS, OPTIONS, CLASSES_OF_RECORDINGS, CODES, FILES };

static struct {
    struct opened *table;
    const bool *open;
    enum source source;
    const struct command *command; /* of the line; null if there is none yet */
    size_t at;                     /* how many were offered, or passed over */
    uint64_t low, high;            /* of codes */
    bool more;
} now;

void completion_begin(struct opened *table, const bool *open)
{
    now.table = table;
    now.open = open;
}

/* ---- what is asked for */

static size_t words_before(const char *line, size_t start)
{
    size_t count = 0;
    for (size_t i = 0; i < start; i++)
        count += line[i] != ' ' && (i + 1 == start || line[i + 1] == ' ');
    return count;
}

static const struct command *command_of(const char *line)
{
    char name[32];
    return sscanf(line, "%31s", name) == 1 ? command_named(name) : NULL;
}

static bool is(const char *name)
{
    return now.command && strcmp(now.command->name, name) == 0;
}

/* By the command and the place of the word in the line. */
static enum source source_of(size_t place, const char *text)
{
    if (place == 0 || (place == 1 && is("help")))
        return COMMANDS;
    if (text[0] == '-')
        return OPTIONS;
    if ((place == 2 && is("class")) || (place == 3 && is("add")))
        return CLASSES_OF_RECORDINGS;
    bool codes = is("find") || is("list") || (place == 1 && (is("remove") || is("class") || is("add")))
                 || (place == 2 && (is("orders") || is("film"))) || (place == 3 && is("judge"));
    return codes ? CODES : FILES;
}

/* ---- one source after another, a match a call */

static char *next_command(const char *text)
{
    static const char *const ours[] = {"quit", "exit"};
    size_t length = strlen(text), count = 0;
    while (commands[count].name)
        count++;
    while (now.at < count + sizeof ours / sizeof ours[0]) {
        size_t i = now.at++;
        const char *name = i < count ? commands[i].name : ours[i - count];
        if (strncmp(name, text, length) == 0)
            return strdup(name);
    }
    return NULL;
}

static char *next_option(const char *text)
{
    size_t length = strlen(text);
    for (; options[now.at].name; now.at++) {
        const struct option *o = &options[now.at];
        bool fits = !now.command || o->kind == 0 || o->kind & now.command->takes;
        if (fits && strncmp(o->name, text, length) == 0)
            return strdup(options[now.at++].name);
    }
    return NULL;
}

static char *next_class(const char *text)
{
    size_t length = strlen(text);
    for (const char *name; (name = catalogue_file_class(now.at));) {
        now.at++;
        if (strncmp(name, text, length) == 0)
            return strdup(name);
    }
    return NULL;
}

static char *next_code(void)
{
    struct catalogue_file_pair found;
    char code[KEY_TEXT];
    if (!now.more || now.at >= MOST_CODES || !*now.open
        || catalogue_file_next(now.table->file, now.table->table.collection, now.low, &found) != 0 || found.key > now.high)
        return NULL;
    now.at++;
    now.more = found.key < now.high;
    now.low = found.key + 1;
    return strdup(key_text(found.key, code));
}

static void begin(const char *line, size_t start, const char *text)
{
    now.command = command_of(line);
    now.source = source_of(words_before(line, start), text);
    now.at = 0;
    now.low = 0;
    now.high = UINT64_MAX;
    now.more = now.source == CODES && (text[0] == '\0' || prefix_range(text, &now.low, &now.high));
}

char *completion_match(const char *line, size_t start, const char *text, bool first, bool *files)
{
    if (first)
        begin(line, start, text);
    *files = now.source == FILES;
    switch (now.source) {
    case COMMANDS:
        return next_command(text);
    case OPTIONS:
        return next_option(text);
    case CLASSES_OF_RECORDINGS:
        return next_class(text);
    case CODES:
        return next_code();
    default:
        return NULL;
    }
}
