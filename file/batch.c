/* Loading by batches: many lines by one order list, carried out and then handed back. */
#include "batch.h"

#include <stdlib.h>
#include <time.h>

#include "change.h"
#include "mapping.h"
#include "memory.h"
#include "newfile.h"
#include "summary.h"

/* Lines of a batch, at most, and words of its order list. */
#define BATCH_LINES 4096
#define BATCH_WORDS ((size_t)1 << 18)

/*
 * Lines of the first batch; batches grow while they take less than the one time, in seconds, and shrink if they take more than the other.
 * The core checks the table once a batch: for the largest table that takes some tenths of a second, which must not keep the batches small.
 */
#define FIRST_LINES 64
#define SHORT_TIME 1.0
#define LONG_TIME 4.0

#define PAGE_BYTES 4096

/* Lines that come into the table together, by one order list or some. The number of a line says what is known of it before that. */
struct batch {
    struct catalogue_file_line lines[BATCH_LINES];
    uint64_t given[BATCH_LINES];     /* the number that each came with */
    size_t count, limit;             /* limit: as many as take a second or some */
    uint64_t pairs[2 * BATCH_LINES]; /* key and pointer of those to be added */
    uint64_t orders[BATCH_WORDS];
    bool by_file; /* a new file may be put in the table's place */
};

uint64_t batch_begin(struct loading *l, bool by_file)
{
    struct catalogue_file *f = l->f;
    struct stat ours;
    l->batch = malloc(sizeof *l->batch);
    if (!l->batch)
        return no_memory(f);
    /* With a pause between two orders each line is a change of its own, to be watched. */
    bool watched = f->carrying.pause > 0;
    l->batch->count = 0;
    l->batch->limit = watched ? 1 : FIRST_LINES;
    l->batch->by_file = by_file && !watched && !(l->load->flags & CATALOGUE_FILE_IN_PLACE) && waits_for_disk(f) && has_name(f, &ours)
                        && replaceable(f->path, &ours);
    return 0;
}

void batch_end(struct loading *l)
{
    free(l->batch);
    l->batch = NULL;
}

bool batch_holds(const struct loading *l)
{
    return l->batch->count > 0;
}

bool batch_due(const struct loading *l)
{
    return l->batch->count >= l->batch->limit;
}

/* ---- a line */

static bool is_there(const struct loading *l, struct catalogue_file_line *line, bool *known)
{
    uint64_t recording, access, next, higher;
    *known = catalogue_search(l->f->expected, l->f->words, l->load->collection, line->key, &recording, &access, &next, &higher) == 0;
    line->there = *known ? CATALOGUE_POINTER(recording, access) : 0;
    return *known && l->load->flags & CATALOGUE_FILE_AGAIN && line_same(line, recording, access);
}

/*
 * The number that the addition would be refused with on the table so far, as far as that is known without a change. A recording that is there,
 * 8, and a code that a line of the same batch has, the core finds.
 */
static uint64_t judge(const struct loading *l, struct catalogue_file_line *line)
{
    bool known;
    if (line->number != 0)
        return line->number;
    if (is_there(l, line, &known))
        return CATALOGUE_FILE_THERE;
    if (l->refusal != 0)
        return l->refusal;
    uint64_t number = line_range(line);
    return number == 0 && known ? CATALOGUE_KEY_PRESENT : number;
}

void batch_take(struct loading *l, struct catalogue_file_line line)
{
    l->batch->given[l->batch->count] = line.number;
    line.number = judge(l, &line);
    l->batch->lines[l->batch->count++] = line;
}

/* ---- carrying out */

/* A refusal of the line, and not of the table. */
static bool of_line(const struct loading *l, uint64_t number)
{
    return number != l->refusal || number == 0;
}

/* The pairs of the lines to be added, from one on, up to a refused one that will end the load. */
static size_t gather(const struct loading *l, size_t from)
{
    struct batch *b = l->batch;
    bool ends = !(l->load->flags & CATALOGUE_FILE_KEEP_GOING);
    size_t pairs = 0;
    for (size_t i = from; i < b->count && !l->over; i++) {
        const struct catalogue_file_line *line = &b->lines[i];
        bool refused = line->number != 0 && line->number != CATALOGUE_FILE_THERE;
        if (refused && (ends || !of_line(l, line->number)))
            break;
        if (line->number != 0)
            continue;
        b->pairs[2 * pairs] = line->key;
        b->pairs[2 * pairs++ + 1] = CATALOGUE_POINTER(line->recording, line->access);
    }
    return pairs;
}

/* A new file gets the whole copy, of which a call by the summary has looked at its way alone. */
static uint64_t copy_is_sound(struct catalogue_file *f)
{
    uint64_t report[CATALOGUE_CHECK_WORDS];
    uint64_t number = f->summarized ? summary_number(f, catalogue_check(f->working, f->words, report)) : 0;
    return number == 0 ? 0 : refuses(f, number);
}

/*
 * A batch's orders, in place or, if a flush is a wait for the disk and these are many, by a new file with what they come to. The waits for a
 * new file are three and the writing of its pages, about 64 of which are one more.
 */
static uint64_t carry_orders(struct loading *l, uint64_t count, uint64_t flushes, bool *by_file, uint64_t *carried)
{
    struct batch *b = l->batch;
    struct catalogue_file *f = l->f;
    uint64_t number = 0;
    if (b->by_file && !f->stale && flushes > 8 + bytes_of(f->words, true) / PAGE_BYTES / 64) {
        number = copy_is_sound(f);
        b->by_file = number == 0 && (number = replace(f, by_file)) == 0 && *by_file;
    }
    if (number == 0 && !*by_file)
        number = still_ours(f, b->orders, count);
    if (number == 0 && !*by_file)
        number = carry_list(f, b->orders, count, BRACKET_FLUSH, carried);
    if (number == 0 && !f->fast)
        number = settle(f);
    if (number == 0 && l->load->orders)
        l->load->orders(l->load->context, b->orders, count);
    return number;
}

/* What a power cut left is finished by orders of its own, before the first line is added. */
static uint64_t repair_first(struct loading *l)
{
    struct catalogue_file *f = l->f;
    struct catalogue_file_change repair = {.kind = CATALOGUE_FILE_REPAIR, .cut = CATALOGUE_FILE_ALL};
    if (f->repaired)
        return 0;
    uint64_t number = make_change(f, &repair);
    if (number == 0 && repair.carried > 0 && l->load->orders)
        l->load->orders(l->load->context, f->orders, repair.carried);
    return number;
}

/* The load ended before a line: what the caller said of it stays, what was found out here does not. */
static void not_taken(struct loading *l, size_t at)
{
    struct catalogue_file_line line = l->batch->lines[at];
    line.number = l->batch->given[at];
    line_not_taken(l, &line);
}

/* What became of the lines from one on, so many of which were added: up to the first that is still to be added, or to the end. */
static size_t hand_back(struct loading *l, size_t from, uint64_t taken)
{
    struct batch *b = l->batch;
    for (; from < b->count; from++) {
        const struct catalogue_file_line *line = &b->lines[from];
        if (line->number == 0 && taken > 0) {
            taken--;
            line_added(l, line, 0);
        } else if (l->over) {
            not_taken(l, from);
        } else if (line->number == CATALOGUE_FILE_THERE) {
            line_added(l, line, CATALOGUE_FILE_THERE);
        } else if (line->number != 0) {
            line_refused(l, line, line->number, !of_line(l, line->number));
        } else {
            break;
        }
    }
    return from;
}

/* The line that the core refused. */
static void refused(struct loading *l, struct catalogue_file_line *line, uint64_t number)
{
    bool known;
    if (number == CATALOGUE_KEY_PRESENT && is_there(l, line, &known)) {
        line_added(l, line, CATALOGUE_FILE_THERE);
        return;
    }
    bool ends = number != CATALOGUE_BAD_RECORDING && number != CATALOGUE_BAD_CLASS && number != CATALOGUE_KEY_PRESENT
                && number != CATALOGUE_RECORDING_PRESENT;
    line_refused(l, line, number, ends);
}

/* Of so many lines to be added, from one on, those that memory has, up to the first that it has not; all if it cannot be read. */
static uint64_t lines_there(struct loading *l, size_t from, uint64_t taken)
{
    struct batch *b = l->batch;
    uint64_t there = 0;
    bool known = true;
    if (refresh(l->f) != 0)
        return taken;
    for (; from < b->count && there < taken && known; from++) {
        if (b->lines[from].number != 0)
            continue;
        is_there(l, &b->lines[from], &known);
        there += known;
    }
    return there;
}

/*
 * So many lines were on their way when the file failed. A line's orders begin once those of the line before last, so that of the lines that
 * are there all but the last one do. In a new file whose name may not last all are there.
 */
static void failed(struct loading *l, size_t from, uint64_t taken, uint64_t number, bool by_file)
{
    struct batch *b = l->batch;
    /* The working copy is ahead of memory. */
    l->f->stale = true;
    uint64_t left = taken > 0 ? lines_there(l, from, taken) : 0;
    load_ends(l, number);
    for (; from < b->count && left > 0; from++) {
        const struct catalogue_file_line *line = &b->lines[from];
        if (line->number == 0)
            line_added(l, line, --left == 0 || by_file ? number : 0);
        else
            not_taken(l, from);
    }
    hand_back(l, from, 0);
}

/* What the core says of a list. */
struct listed {
    uint64_t taken, stop, stores, flushes, barriers;
};

/*
 * The core's call: by the summary, which stays true, if it is true of the copy. It is worked out for a full batch, since others may follow; for
 * one alone that takes longer than the call's own check.
 */
static uint64_t insert_many(struct loading *l, size_t pairs, struct listed *n)
{
    struct batch *b = l->batch;
    struct catalogue_file *f = l->f;
    uint64_t number = batch_due(l) ? summary_begin(f) : 0;
    if (number != 0)
        return number;
    if (!f->summarized)
        return catalogue_insert_many(f->working, f->words, l->load->collection, b->orders, BATCH_WORDS, f->dock, b->pairs, 2 * pairs, &n->taken,
                                     &n->stop, &n->stores, &n->flushes, &n->barriers);
    number = catalogue_quick_insert_many(f->working, f->words, f->summary, f->summary_words, l->load->collection, b->orders, BATCH_WORDS, f->dock,
                                         b->pairs, 2 * pairs, &n->taken, &n->stop, &n->stores, &n->flushes, &n->barriers);
    return summary_number(f, number == 0 ? n->stop : number);
}

/* One order list, from a line on; the line to go on with. */
static size_t carry_some(struct loading *l, size_t from)
{
    struct batch *b = l->batch;
    uint64_t number = 0, carried = 0;
    struct listed n = {0};
    bool by_file = false;
    size_t pairs = gather(l, from);
    uint64_t broken = pairs > 0 ? repair_first(l) : 0;
    if (pairs > 0 && broken == 0)
        number = insert_many(l, pairs, &n);
    if (number == 0)
        number = n.stop;
    if (n.taken > 0)
        broken = carry_orders(l, n.stores + n.flushes + n.barriers, n.flushes, &by_file, &carried);
    if (broken != 0) {
        /* Before the first order none was on its way. */
        failed(l, from, by_file || carried > 0 ? n.taken : 0, broken, by_file);
        return b->count;
    }
    from = hand_back(l, from, n.taken);
    /* A list that is full: the next one goes on. */
    if (from < b->count && number != 0 && !(number == CATALOGUE_SHORT_LIST && n.taken > 0))
        refused(l, &b->lines[from++], number);
    return from;
}

static double now(void)
{
    struct timespec t;
    clock_gettime(CLOCK_MONOTONIC, &t);
    return (double)t.tv_sec + (double)t.tv_nsec / 1e9;
}

void batch_carry(struct loading *l)
{
    struct batch *b = l->batch;
    double began = now();
    bool whole = b->count == b->limit;
    for (size_t from = 0; from < b->count;)
        from = carry_some(l, from);
    b->count = 0;
    double took = now() - began;
    if (l->f->carrying.pause > 0)
        return;
    if (whole && took < SHORT_TIME && b->limit < BATCH_LINES)
        b->limit *= 2;
    if (took > LONG_TIME && b->limit > 1)
        b->limit /= 2;
}
