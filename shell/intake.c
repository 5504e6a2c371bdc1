/* Loading the lines of a file. */
#include "intake.h"

#include <errno.h>
#include <inttypes.h>
#include <signal.h>
#include <stdio.h>
#include <stdlib.h>
#include <string.h>

#include "earlier.h"
#include "progress.h"
#include "refusals.h"
#include "rows.h"
#include "sheet.h"
#include "text.h"
#include "wear.h"

/* Bad lines that are shown; the others are counted. */
#define SHOWN_BAD 20

/* The library holds no more lines than these before it says what became of them, or refuses them at once. */
#define RECENT 8192

/* Why a line was refused here, for when the library hands it back. */
struct recent {
    uint64_t number;
    struct fault fault;
};

struct loading {
    struct opened *opened;
    const struct load_options *options;
    struct catalogue_file_load load;
    struct rows rows;
    struct sheet sheet;
    struct progress progress;
    struct recent *recent; /* the last lines that were refused here, in a ring */
    uint64_t given;
    uint64_t refused[SHOWN_BAD]; /* the bad lines, as far as they are shown */
    uint64_t bad;
    int first_bad;    /* the first bad line's exit status */
    uint64_t stopped; /* the bad line that ended the loading, 0 for none: the lines after it are only read */
    uint64_t left;    /* the first line that was not taken, 0 for none */
    struct catalogue_file_line full; /* the line that ended the load for a reason of the table; its tag is 0 if there is none */
    bool failed;   /* the file did: lines that are in the table may not last */
    bool finished; /* no more lines are given */
    bool wear_lost; /* orders were carried out that the wear has not */
    struct wearing wearing; /* where it is asked for */
};

/* ---- signals */

static volatile sig_atomic_t signalled;

static void on_signal(int number)
{
    signalled = number;
}

/* The first signal ends the load between two changes; a second one ends the program at once, which a sound table survives too. */
static void watch_signal(int number)
{
    /* No restart: a signal also ends the wait for a line. */
    struct sigaction before, action = {.sa_handler = on_signal, .sa_flags = (int)SA_RESETHAND};
    if (sigaction(number, NULL, &before) == 0 && before.sa_handler != SIG_IGN)
        sigaction(number, &action, NULL);
}

/* ---- a bad line */

/* What a line that is refused with 7 has in common with the table. */
static const char *hint_for(const struct catalogue_file_line *line, char text[EXPLANATION])
{
    char class[KEY_TEXT];
    uint64_t access = CATALOGUE_CLASS(line->there);
    if (CATALOGUE_RECORDING(line->there) != line->recording)
        return "";
    if (!line->classed || access == line->access)
        return " with this recording (--again passes over such lines)";
    snprintf(text, EXPLANATION, " with this recording, and is %s (catalogue class changes that)", class_text(access, class));
    return text;
}

/* Where a code or a recording is already, and its code there: in the file, or in the table from before. A pipe cannot be read again. */
static const char *where_already(const struct loading *l, const struct catalogue_file_line *line, bool by_code, char text[EXPLANATION], char code[KEY_TEXT])
{
    const struct table *t = &l->opened->table;
    const uint64_t *key = by_code ? &line->key : NULL;
    char part[PART_TEXT];
    struct earlier first;
    strcpy(code, "another code");
    if (earlier_line(&l->sheet, line->tag, key, line->recording, (struct refused_lines){l->refused, l->bad - 1}, &first))
        snprintf(text, EXPLANATION, "in line %" PRIu64 " already", first.line);
    else if (opened_has(l->opened, key, line->recording, &first.key))
        snprintf(text, EXPLANATION, "in %s%s already", table_part(t, part), t->name);
    else
        return strcpy(text, "in an earlier line already");
    key_text(first.key, code);
    return text;
}

static void say_twice(const struct loading *l, const struct catalogue_file_line *line)
{
    char text[EXPLANATION], hint[EXPLANATION], code[KEY_TEXT], typed[KEY_TEXT];
    bool by_code = line->number == CATALOGUE_KEY_PRESENT;
    where_already(l, line, by_code, text, code);
    if (by_code)
        fail(0, "%s, line %" PRIu64 ", code \"%s\": %s%s", l->rows.name, line->tag, key_text(line->key, typed), text, hint_for(line, hint));
    else
        fail(0, "%s, line %" PRIu64 ", recording \"%" PRIu64 "\": %s, under %s", l->rows.name, line->tag, line->recording, text, code);
}

static const struct fault *fault_of(const struct loading *l, uint64_t number)
{
    for (uint64_t i = l->given; i > 0 && i + RECENT > l->given; i--)
        if (l->recent[(i - 1) % RECENT].number == number)
            return &l->recent[(i - 1) % RECENT].fault;
    return NULL;
}

static void say_fault(const struct loading *l, uint64_t number, const struct fault *fault)
{
    fail(0, "%s, line %" PRIu64 ", %s%s\"%s\": %s", l->rows.name, number, fault->what, fault->what[0] ? " " : "", fault->text, fault->why);
}

/* Prints a line that cannot be loaded; the load ends here unless it keeps going. */
static void say_bad_line(struct loading *l, const struct catalogue_file_line *line, const struct fault *fault)
{
    if (l->bad < SHOWN_BAD)
        l->refused[l->bad] = line->tag;
    if (l->bad++ == 0)
        l->first_bad = (int)line->number;
    if (l->stopped == 0 && !l->options->keep_going)
        l->stopped = line->tag;
    if (l->bad > SHOWN_BAD)
        return;
    progress_clear(&l->progress);
    if (fault)
        say_fault(l, line->tag, fault);
    else
        say_twice(l, line);
}

/* ---- what the library asks and answers */

static void remember(struct loading *l, const struct fault *fault)
{
    l->recent[l->given++ % RECENT] = (struct recent){l->sheet.line, *fault};
}

/* Nothing that was acknowledged waits for a line that is not there yet. */
static void show_progress(struct loading *l)
{
    if (l->options->each)
        fflush(stdout);
    if (l->rows.number > 0)
        progress_step(&l->progress, l->rows.number);
}

static int next_line(void *context, struct catalogue_file_line *line, int wait)
{
    struct loading *l = context;
    struct row row = {0};
    struct fault fault;
    int status = ROW_PASSED;
    while (status == ROW_PASSED) {
        if (wait)
            show_progress(l);
        else if (rows_wait(&l->rows))
            return CATALOGUE_FILE_LATER;
        l->finished = signalled || !rows_next(&l->rows);
        if (l->finished)
            return CATALOGUE_FILE_END;
        status = sheet_read(&l->sheet, &row, &fault);
    }
    if (status != 0)
        remember(l, &fault);
    *line = (struct catalogue_file_line){row.key, row.recording, row.access, row.classed, (uint64_t)status, l->sheet.line, 0};
    return CATALOGUE_FILE_LINE;
}

static void acknowledge(struct loading *l, const struct catalogue_file_line *line)
{
    char code[KEY_TEXT], pointer[POINTER_TEXT];
    if (l->options->each)
        printf("%s,%s\n", key_text(line->key, code), pointer_text(line->recording, line->access, pointer));
}

static bool of_line(uint64_t number)
{
    return number == BAD_LINE || number == CATALOGUE_NO_CODE || number == CATALOGUE_BAD_RECORDING || number == CATALOGUE_BAD_CLASS
           || number == CATALOGUE_KEY_PRESENT || number == CATALOGUE_RECORDING_PRESENT;
}

/* A line that is not in the table. */
static void not_added(struct loading *l, const struct catalogue_file_line *line)
{
    bool over = l->failed || l->left > 0 || l->full.tag > 0;
    if (line->number == CATALOGUE_FILE_NOT_TAKEN)
        l->left = l->left == 0 ? line->tag : l->left;
    else if (!of_line(line->number))
        l->full = l->full.tag == 0 || line->tag < l->full.tag ? *line : l->full;
    else if (!over || l->stopped > 0)
        say_bad_line(l, line, fault_of(l, line->tag));
}

static int take_answer(void *context, const struct catalogue_file_line *line)
{
    struct loading *l = context;
    if (line->number == 0 || line->number == CATALOGUE_FILE_THERE)
        acknowledge(l, line);
    else if (line->number == CATALOGUE_FILE_DISK || line->number == CATALOGUE_FILE_FOLDER)
        l->failed = true;
    else
        not_added(l, line);
    if (!l->finished)
        return 0;
    /* Lines that come into the table after the last one was read: they may be many. */
    progress_step(&l->progress, line->tag);
    return signalled != 0;
}

static void take_orders(void *context, const uint64_t *orders, uint64_t count)
{
    struct loading *l = context;
    if (l->options->wear && !l->wear_lost)
        l->wear_lost = wearing_add(&l->wearing, orders, count) != 0;
}

/* ---- the file */

/* The bad lines after the one that ended the load. */
static void read_on(struct loading *l)
{
    struct row row;
    struct fault fault;
    while (!signalled && rows_next(&l->rows)) {
        int status = sheet_read(&l->sheet, &row, &fault);
        struct catalogue_file_line line = {.number = (uint64_t)status, .tag = l->sheet.line};
        if (status != 0 && status != ROW_PASSED)
            say_bad_line(l, &line, &fault);
        progress_step(&l->progress, l->rows.number);
    }
}

static int stopped_before(const struct loading *l, uint64_t line, int status)
{
    return fail(status, "%s: stopped before line %" PRIu64 "; what came before is kept", l->rows.name, line);
}

/* Why the load ended before the file did, where it did. */
static int say_end(struct loading *l, uint64_t number)
{
    const struct catalogue_file_line *full = &l->full;
    uint64_t next = l->left > 0 ? l->left : l->rows.number + 1;
    if (number >= CATALOGUE_FILE_NO_FILE)
        return stopped_before(l, next, opened_fails(l->opened, number, "; nothing more was changed"));
    if (full->tag > 0)
        return stopped_before(l, full->tag, opened_refuses(l->opened, full->number, full->key, full->recording, ""));
    if (signalled)
        return fail(BY_SIGNAL + signalled, "%s: ended by a signal after line %" PRIu64 "; what came before is kept", l->rows.name, next - 1);
    if (l->rows.failed)
        return fail(BAD_FILE, "%s cannot be read further than line %" PRIu64 ": %s; what came before is kept", l->rows.name, l->rows.number,
                    strerror(l->rows.failed));
    return 0;
}

/* What became of the bad lines. */
static void say_bad(const struct loading *l)
{
    char shown[32] = "";
    if (l->bad > SHOWN_BAD)
        snprintf(shown, sizeof shown, ", the first %d shown", SHOWN_BAD);
    if (l->stopped > 0)
        fail(0, "%s: %" PRIu64 " bad line%s%s; nothing was loaded from line %" PRIu64 " on (--keep-going loads the good lines)",
             l->rows.name, l->bad, l->bad == 1 ? "" : "s", shown, l->stopped);
    else if (l->bad > SHOWN_BAD)
        fail(0, "%s: %" PRIu64 " bad lines%s", l->rows.name, l->bad, shown);
}

/* The closing line. */
static void say_loaded(const struct loading *l)
{
    say_bad(l);
    printf("%" PRIu64 " added, %" PRIu64 " there already", l->load.added + l->load.unknown, l->load.there);
    if (l->bad > 0)
        printf(", %" PRIu64 " bad line%s", l->bad, l->bad == 1 ? "" : "s");
    printf("\n");
}

static int begin(struct loading *l)
{
    const struct load_options *o = l->options;
    l->load = (struct catalogue_file_load){.collection = l->opened->table.collection, .next = next_line, .done = take_answer,
                                           .orders = take_orders, .context = l};
    /* The wear is that of single additions. */
    l->load.flags = (o->again ? CATALOGUE_FILE_AGAIN : 0) | (o->keep_going ? CATALOGUE_FILE_KEEP_GOING : 0)
                    | (o->wear ? CATALOGUE_FILE_BY_ORDERS : 0);
    l->recent = malloc(RECENT * sizeof *l->recent);
    int status = l->recent ? 0 : fail(BAD_FILE, "not enough memory for the lines of %s", l->rows.name);
    if (status == 0 && o->wear)
        status = opened_read(l->opened);
    return status == 0 && o->wear ? wearing_begin(&l->wearing, &l->opened->table) : status;
}

/* The lines of the file, as far as they come into the table; why it ended before the file did, where it did. */
static int load_lines(struct loading *l)
{
    uint64_t number = catalogue_file_load(l->opened->file, &l->load);
    l->wear_lost = l->wear_lost || number >= CATALOGUE_FILE_NO_FILE;
    if (l->stopped > 0 && number < CATALOGUE_FILE_NO_FILE)
        read_on(l);
    progress_clear(&l->progress);
    return say_end(l, number);
}

static void end(struct loading *l)
{
    wearing_end(&l->wearing);
    free(l->recent);
    rows_close(&l->rows);
}

int load(struct opened *o, const char *name, const struct load_options *options)
{
    struct loading l = {.opened = o, .options = options};
    if (!rows_open(&l.rows, name))
        return fail(BAD_FILE, "%s cannot be opened: %s", name, strerror(errno));
    l.rows.ended = &signalled;
    sheet_begin(&l.sheet, &l.rows, &options->columns);
    watch_signal(SIGINT);
    watch_signal(SIGTERM);
    progress_begin(&l.progress, l.rows.name, rows_count(&l.rows));
    int status = begin(&l);
    bool begun = status == 0;
    if (begun)
        status = load_lines(&l);
    /* What came before a bad line is kept, and must last as well. */
    int settled = opened_settle(o);
    if (status != BAD_FILE && settled == 0)
        settled = opened_compare(o);
    say_loaded(&l);
    o->made = l.load.added + l.load.unknown > 0;
    int printed = options->wear && begun && settled == 0 && !l.wear_lost ? wearing_print(&l.wearing) : 0;
    end(&l);
    if (settled != 0)
        return settled;
    if (status == 0)
        status = printed;
    return status != 0 ? status : l.first_bad;
}
