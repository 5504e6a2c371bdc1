/* What --help prints. */
#include "help.h"

#include <inttypes.h>
#include <stdio.h>
#include <string.h>

#include "catalogue_file.h"
#include "refusals.h"

/* Where the right column begins, and where a line ends. */
#define COLUMN 30
#define WIDTH 118

static const char before[] =
    "catalogue COMMAND TABLE ..: recordings by their ISRC codes, in a table that survives a power cut at any moment\n"
    "catalogue TABLE: reads commands, a line each, and keeps the table open for them; they take no TABLE then\n"
    "\n"
    "A table is a file, mapped into memory. A code is typed with or without hyphens and spaces, in capital or small letters\n"
    "(AA-000-19-12345, in quotes where it has spaces). A recording is a whole number from 1 to 72057594037927935. Its class\n"
    "says where it plays: open, everywhere; room, only in the room; closed, not at all. A word after -- is no option.\n"
    "\n"
    "A table made with --loan has a second collection, for what travels: it has its own codes and may hold recordings of the\n"
    "first. add, remove, class, find, list, load, orders, judge and film work on collection 1, or on 2 with --collection 2;\n"
    "the other commands work on the whole table.\n"
    "\n";

static const char durability[] =
    "Durability. On persistent memory (a file system with DAX, which grants MAP_SYNC) a flushed line lasts. On any other disk\n"
    "(ext4, xfs, btrfs ..) each flush waits until the disk has the line's page, so that a power cut leaves the same there:\n"
    "every change that was answered, and the one under way done or not done. That holds as far as the disk keeps what it\n"
    "says it has written. It costs some waits for the disk a change. With --fast there is one wait, at the end: a power cut\n"
    "before it can destroy the whole table, older codes too. A file in memory (tmpfs, as /dev/shm) is gone after a power cut.\n"
    "A killed program leaves a sound table everywhere. load puts a new file, synced, in the table's place if a collection is\n"
    "empty, and on an ordinary disk for a batch of many lines: a power cut leaves the old file or the new one, and every\n"
    "line that was acknowledged.\n";

/* An entry of two columns, and an example. */
static void print_entry(const char *name, const char *form, const char *about, const char *example)
{
    int column = printf("  %s%s%s", name, form ? " " : "", form ? form : "");
    if (column > COLUMN - 2) {
        printf("\n");
        column = 0;
    }
    for (const char *line = about; line; column = 0) {
        const char *end = strchr(line, '\n');
        printf("%*s%.*s\n", COLUMN - column, "", end ? (int)(end - line) : (int)strlen(line), line);
        line = end ? end + 1 : NULL;
    }
    printf("      catalogue %s\n", example);
}

static void print_option(const struct option *o)
{
    print_entry(o->name, o->form, o->about, o->example);
}

static void print_statuses(void)
{
    char item[128];
    int column = printf("Exit status: 0 done");
    for (const struct refusal *r = refusals; r->name; r++) {
        int length = snprintf(item, sizeof item, "%" PRIu64 " %s", r->number, r->name);
        bool fits = column + 2 + length < WIDTH;
        printf("%s%s", fits ? "; " : ";\n", item);
        column = fits ? column + 2 + length : length;
    }
    printf(".\n");
}

/* The one instruction that may leave a line short of memory. */
static const char *reach_of(const char *flush)
{
    return strcmp(flush, "civac") == 0 ? " (to the point of coherency: memory, if no cache lies behind it)" : "";
}

static void help_command(const struct command *c)
{
    print_entry(c->name, c->form, c->about, c->example);
    for (const struct option *o = options; o->name; o++)
        if (o->kind & c->takes)
            print_option(o);
}

void help(const struct command *all, const struct command *only)
{
    if (only) {
        help_command(only);
        return;
    }
    fputs(before, stdout);
    for (const struct command *c = all; c->name; c++)
        print_entry(c->name, c->form, c->about, c->example);
    printf("\nOptions (catalogue help COMMAND lists those of a command)\n");
    for (const struct option *o = options; o->name; o++)
        print_option(o);
    printf("\n");
    print_statuses();
    const char *flush = catalogue_file_flush(NULL);
    printf("\n%sThis processor's lines are flushed by: %s%s.\n", durability, flush, reach_of(flush));
}
