/* The command line: words, and options anywhere between them. */
#include "command_line.h"

#include <stddef.h>
#include <stdlib.h>
#include <string.h>

#include "catalogue.h"
#include "guess.h"
#include "text.h"
#include "tree.h"

#define MOST_STATUS 255

static bool read_cut(struct command_line *l, const char *value)
{
    return read_number(value, strlen(value), &l->cut);
}

static bool read_wait(struct command_line *l, const char *value)
{
    return read_number(value, strlen(value), &l->opening.wait);
}

static bool read_flush(struct command_line *l, const char *value)
{
    return (l->opening.flush = catalogue_file_flush(value)) != NULL;
}

static bool read_pause(struct command_line *l, const char *value)
{
    return read_number(value, strlen(value), &l->opening.pause);
}

static bool read_collection(struct command_line *l, const char *value)
{
    return read_number(value, strlen(value), &l->opening.collection);
}

static bool read_dock(struct command_line *l, const char *value)
{
    return read_number(value, strlen(value), &l->opening.dock) && l->opening.dock <= CATALOGUE_UNORDERED;
}

static bool set_force(struct command_line *l, const char *value)
{
    (void)value;
    return l->opening.force = true;
}

static bool set_loan(struct command_line *l, const char *value)
{
    (void)value;
    return l->loan = true;
}

static bool set_fast(struct command_line *l, const char *value)
{
    (void)value;
    return l->opening.fast = true;
}

static bool set_again(struct command_line *l, const char *value)
{
    (void)value;
    return l->load.again = true;
}

static bool set_each(struct command_line *l, const char *value)
{
    (void)value;
    return l->load.each = true;
}

static bool set_keep_going(struct command_line *l, const char *value)
{
    (void)value;
    return l->load.keep_going = true;
}

static bool set_wear(struct command_line *l, const char *value)
{
    (void)value;
    return l->load.wear = true;
}

static bool set_svg(struct command_line *l, const char *value)
{
    (void)value;
    return l->svg = true;
}

static bool set_drawings(struct command_line *l, const char *value)
{
    (void)value;
    return l->drawings = true;
}

static bool set_data(struct command_line *l, const char *value)
{
    (void)value;
    return l->data = true;
}

static bool set_words(struct command_line *l, const char *value)
{
    (void)value;
    return l->in_words = true;
}

static bool read_list(struct command_line *l, const char *value)
{
    l->list = value;
    return value[0] != '\0';
}

static bool read_absent(struct command_line *l, const char *value)
{
    uint64_t status = 0;
    bool fits = read_number(value, strlen(value), &status) && status <= MOST_STATUS;
    l->absent = (int)status;
    return fits;
}

static bool set_by_recording(struct command_line *l, const char *value)
{
    (void)value;
    return l->by_recording = true;
}

static bool set_json(struct command_line *l, const char *value)
{
    (void)value;
    return l->json = true;
}

static bool set_header(struct command_line *l, const char *value)
{
    (void)value;
    return l->header = true;
}

static bool set_schema(struct command_line *l, const char *value)
{
    (void)value;
    return l->schema = true;
}

static bool read_from(struct command_line *l, const char *value)
{
    l->from = value;
    return value[0] != '\0';
}

static bool read_to(struct command_line *l, const char *value)
{
    l->to = value;
    return value[0] != '\0';
}

static bool read_output(struct command_line *l, const char *value)
{
    l->output = value;
    return value[0] != '\0';
}

static bool read_columns(struct command_line *l, const char *value)
{
    return columns_read(&l->load.columns, value);
}

static bool read_node(const char *value, uint64_t *node)
{
    return read_number(value, strlen(value), node) && *node > 0 && *node <= MOST_NODES;
}

static bool read_rescued(struct command_line *l, const char *value)
{
    return read_node(value, &l->rescue.nodes);
}

static bool read_root(struct command_line *l, const char *value)
{
    return read_node(value, &l->rescue.root);
}

static bool read_loan_root(struct command_line *l, const char *value)
{
    l->rescue.loan_root_given = true;
    return strcmp(value, "0") == 0 || read_node(value, &l->rescue.loan_root);
}

static bool set_help(struct command_line *l, const char *value)
{
    (void)value;
    return l->help = true;
}

static bool set_version(struct command_line *l, const char *value)
{
    (void)value;
    return l->version = true;
}

const struct option options[] = {
    {"--loan", NULL, NULL, "a table of two collections, which share its nodes: 1, the archive's own, and 2, the loan\ncollection",
     "make room.cat 100 --loan", MAKING, set_loan},
    {"--collection", "N", "a number, 1 or 2", "works on collection N of the table; 1 where none is named",
     "add room.cat AA0001912345 7 --collection 2", NAMING, read_collection},
    {"--recording", NULL, NULL, "the words are recordings, and find prints their codes; it reads the whole table", "find room.cat --recording 7",
     FINDING, set_by_recording},
    {"--absent", "STATUS", "a number from 0 to 255", "the exit status if a code is absent, instead of 1", "find room.cat AA0001912345 --absent 255",
     FINDING, read_absent},
    {"--json", NULL, NULL, "prints JSON; a recording is a text there, for many readers of JSON round large numbers",
     "find room.cat AA0001912345 --json",
     STRUCTURED, set_json},
    {"--header", NULL, NULL, "prints a first line code,recording,class", "list room.cat --header > codes.csv", LISTING, set_header},
    {"--schema", NULL, NULL,
     "prints instead the SQL table that takes the lines, for SQLite and PostgreSQL; codes and\n"
     "recordings stay unique there",
     "list room.cat --schema | sqlite3 room.db", LISTING, set_schema},
    {"--from", "CODE", "a code", "lists from this code on", "list room.cat --from AA0001912345", LISTING, read_from},
    {"--to", "CODE", "a code", "lists up to this code", "list room.cat --to AA0001912345", LISTING, read_to},
    {"--output", "FILE", "a file's name", "writes what is printed to FILE; -o is the same", "film room.cat repair --output film.html", WRITING,
     read_output},
    {"--nodes", "N", "a number of nodes", "takes the table for one of N nodes: its file was cut short, or its header is damaged",
     "salvage cut.cat saved.cat --nodes 40", RESCUING, read_rescued},
    {"--root", "R", "a node's number", "takes node R for the root of collection 1: the header is damaged", "salvage bad.cat saved.cat --root 11", RESCUING,
     read_root},
    {"--loan-root", "R", "a node's number, or 0 for no second collection", "takes node R for the root of collection 2",
     "salvage bad.cat saved.cat --root 11 --loan-root 12", RESCUING, read_loan_root},
    {"--again", NULL, NULL, "passes over lines that the table has already", "load room.cat codes.csv --again", LOADING, set_again},
    {"--keep-going", NULL, NULL, "passes over bad lines and loads the rest; the exit status is that of the first bad line",
     "load room.cat codes.csv --keep-going", LOADING, set_keep_going},
    {"--columns", "PLACES", "places as code=2,recording=5 or code=ISRC,recording=Number,class=Access",
     "which columns the lines have code, recording and class in, each by its number or by its\n"
     "name in the first line; other columns are passed over",
     "load room.cat codes.csv --columns code=2,recording=5", LOADING, read_columns},
    {"--each", NULL, NULL, "prints each line once the table has it", "load room.cat codes.csv --each", LOADING, set_each},
    {"--wear", NULL, NULL, "prints at the end which lines the load stored to most", "load room.cat codes.csv --wear", LOADING, set_wear},
    {"--svg", NULL, NULL, "draws the wear by line, as SVG, instead of printing it", "wear room.cat orders.txt --svg > wear.svg", DRAWING,
     set_svg},
    {"--list", "FILE", "a file of orders, or - for standard input",
     "the film of the orders in FILE, as judge reads them, with the library's own beside them",
     "film room.cat --list orders.txt + AA0001912345 7 > film.html", FILMING, read_list},
    {"--drawings", NULL, NULL, "the whole lesson: the right lists, and each known wrong drawing beside them", "film --drawings > lesson.html",
     FILMING, set_drawings},
    {"--data", NULL, NULL, "the film's states alone, as JSON", "film room.cat - AA0001912345 --data", FILMING, set_data},
    {"--words", NULL, NULL, "prints the orders in words: node 1 slot 2 key := AA0002600030, flush node 1 slots 0-3",
     "orders room.cat add AA0001912345 7 --words", WORDING, set_words},
    {"--cut", "C", "a number of orders", "stops after C orders, as a power cut does", "add room.cat AA0001912345 7 --cut=2", CUT,
     read_cut},
    {"--dock", "N", "0 or 1",
     "for a dock that keeps its stores to one line in order (0, as x86) or does not (1, as\n"
     "ARM): then a barrier follows each store. If none is named, this processor's",
     "add room.cat AA0001912345 7 --dock 1", DOCKING, read_dock},
    {"--force", NULL, NULL, "with --dock 0, on ARM: carries a list for dock 0 out, although the processor may\nreorder its stores",
     "add room.cat AA0001912345 7 --dock 0 --force", CARRYING, set_force},
    {"--wait", "SECONDS", "a number of seconds",
     "waits so long for another writer of the table; without it, not at all. Commands that\nonly read wait for nobody",
     "add room.cat AA0001912345 7 --wait 10", WAITING, read_wait},
    {"--fast", NULL, NULL,
     "on an ordinary disk: waits for the disk once, at the end, and not at each flush.\n"
     "A power cut before the end can destroy the whole table, older codes too",
     "load new.cat codes.csv --fast", CARRYING, set_fast},
    {"--flush", "HOW", "clwb, clflushopt or clflush, on ARM cvadp, cvap or civac, if the processor has it, or none",
     "clwb, clflushopt or clflush, on ARM cvadp, cvap or civac, instead of the best that the\n"
     "processor has; for persistent memory and --fast. none flushes nothing: for --fast alone",
     "add room.cat AA0001912345 7 --flush clflush", CARRYING, read_flush},
    {"--pause", "N", "a number of microseconds", "waits N microseconds before each order, to pull the plug or kill -9 between two of them",
     "load room.cat codes.csv --pause 100000", CARRYING, read_pause},
    {"--help", NULL, NULL, "this text, or that of one command; -h is the same", "load --help", 0, set_help},
    {"--version", NULL, NULL, "the program's version", "--version", 0, set_version},
    {NULL, NULL, NULL, NULL, NULL, 0, NULL},
};

/* The option of that name, which ends at the length. */
static const struct option *option_named(const char *name, size_t length)
{
    if (length == 2 && strncmp(name, "-h", 2) == 0)
        return option_named("--help", strlen("--help"));
    if (length == 2 && strncmp(name, "-o", 2) == 0)
        return option_named("--output", strlen("--output"));
    for (const struct option *o = options; o->name; o++)
        if (strlen(o->name) == length && strncmp(o->name, name, length) == 0)
            return o;
    return NULL;
}

const struct option *option_given(const struct command_line *l, unsigned kinds)
{
    for (size_t i = 0; options[i].name; i++)
        if (l->said >> i & 1 && options[i].kind & kinds)
            return &options[i];
    return NULL;
}

/* There is no such option; perhaps one is near. */
static int no_option(const char *word, size_t length)
{
    char text[GUESS_TEXT];
    struct guess g = guess_begin(word, length);
    for (const struct option *o = options; o->name; o++)
        guess_try(&g, o->name);
    return fail(BAD_USAGE, "there is no option %.40s%s (catalogue --help lists them)", word, guess_text(g.name, text));
}

/* An option, and its value behind = or in the next word; then *at is that word. */
static int read_option(struct command_line *l, int count, char **words, int *at)
{
    char *word = words[*at], *equals = strchr(word, '=');
    size_t length = equals ? (size_t)(equals - word) : strlen(word);
    const struct option *o = option_named(word, length);
    if (!o)
        return no_option(word, length);
    if (!o->form && equals)
        return fail(BAD_USAGE, "%s takes no value", o->name);
    const char *value = equals ? equals + 1 : "";
    if (o->form && !equals && *at + 1 < count)
        value = words[++*at];
    l->given |= o->kind;
    l->said |= UINT64_C(1) << (o - options);
    return o->read(l, value) ? 0 : fail(BAD_USAGE, "%s takes %s", o->name, o->takes);
}

static bool is_option(const char *word)
{
    return strncmp(word, "--", 2) == 0 || strcmp(word, "-h") == 0 || strcmp(word, "-o") == 0;
}

int command_line_read(struct command_line *l, int count, char **words)
{
    bool only_words = false;
    *l = (struct command_line){.absent = 1, .opening.collection = 1};
    /* A session puts in the table's name. */
    l->words = calloc((size_t)count + 2, sizeof *l->words);
    if (!l->words)
        return fail(BAD_FILE, "not enough memory: nothing was done");
    for (int i = 0; i < count; i++) {
        bool option = !only_words && is_option(words[i]);
        if (option && strcmp(words[i], "--") == 0) {
            only_words = true;
        } else if (option) {
            int status = read_option(l, count, words, &i);
            if (status != 0)
                return status;
        } else {
            l->words[l->count++] = words[i];
        }
    }
    return 0;
}

void command_line_free(struct command_line *l)
{
    free(l->words);
    l->words = NULL;
}
