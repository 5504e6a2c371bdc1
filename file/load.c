/* Loading many lines: what becomes of each, and the way by which they come into the table. */
#include "batch.h"
#include "change.h"
#include "mapping.h"
#include "memory.h"
#include "newfile.h"
#include "packing.h"
#include "stack.h"
#include "summary.h"

/* ---- the lines */

static void take(struct loading *l, const struct catalogue_file_line *line)
{
    if (l->batch)
        batch_take(l, *line);
    else
        packing_take(l, *line);
}

static void read_lines(struct loading *l)
{
    struct catalogue_file_load *load = l->load;
    while (!l->over) {
        struct catalogue_file_line line = {0};
        bool holds = l->batch && batch_holds(l);
        int answer = load->next(load->context, &line, !holds);
        if (answer == CATALOGUE_FILE_LINE)
            take(l, &line);
        else if (answer != CATALOGUE_FILE_LATER || !holds)
            break;
        if (l->batch && (answer == CATALOGUE_FILE_LATER || batch_due(l)))
            batch_carry(l);
    }
}

/* No new file could be made: the lines that were to be packed come by batches into this one. */
static void unpack(struct loading *l)
{
    struct catalogue_file_line line;
    uint64_t ended = l->number, number = batch_begin(l, false);
    /* What was read before the load's end is taken still. */
    l->over = false;
    l->number = 0;
    if (number != 0)
        load_ends(l, number);
    for (size_t at = 0; packing_line(l, &at, &line);) {
        if (l->over) {
            line_not_taken(l, &line);
            continue;
        }
        batch_take(l, line);
        if (batch_due(l))
            batch_carry(l);
    }
    if (l->number == 0)
        l->number = ended;
}

/* The way for this table: packed if its collection is empty, unless the orders of single additions are wanted. */
static uint64_t begin(struct loading *l)
{
    struct catalogue_file *f = l->f;
    uint64_t none[1], pairs = 0, more = 0;
    uint64_t flags = l->load->flags, known = 2 * CATALOGUE_FILE_BRIEF - 1;
    if ((flags & ~known) != 0 || !l->load->next)
        return fails(f, CATALOGUE_FILE_BAD_OPTION, "a load has no such flags, or no source");
    if (!stack_left())
        return no_memory(f);
    l->refusal = summary_list(f, l->load->collection, 0, UINT64_MAX, none, 0, &pairs, &more);
    if (l->refusal == CATALOGUE_NO_COLLECTION)
        return refuses(f, l->refusal);
    struct stat ours;
    bool packed = l->refusal == 0 && more == 0 && !(flags & (CATALOGUE_FILE_BY_ORDERS | CATALOGUE_FILE_IN_PLACE)) && f->carrying.pause == 0
                  && has_name(f, &ours) && replaceable(f->path, &ours);
    return packed ? packing_begin(l) : batch_begin(l, true);
}

static uint64_t outcome_of(const struct catalogue_file_load *load)
{
    if (load->unknown > 0)
        return CATALOGUE_FILE_UNKNOWN;
    return load->added > 0 ? CATALOGUE_FILE_MADE : CATALOGUE_FILE_NOT_MADE;
}

static void carry_rest(struct loading *l)
{
    if (l->packing && !packing_finish(l))
        unpack(l);
    if (l->batch && batch_holds(l))
        batch_carry(l);
}

uint64_t catalogue_file_load(catalogue_file *f, struct catalogue_file_load *load)
{
    struct loading l = {.f = f, .load = load};
    load->added = load->there = load->refused = load->not_taken = load->unknown = load->first_refused = 0;
    uint64_t number = begin_change(f);
    if (number == 0)
        number = begin(&l);
    if (number != 0)
        load_ends(&l, number);
    else
        read_lines(&l);
    carry_rest(&l);
    batch_end(&l);
    packing_end(&l);
    f->outcome = outcome_of(load);
    return l.number;
}

/* ---- an array */

struct array {
    const uint64_t *pairs;
    size_t count, at;
    uint64_t *numbers;
};

static int next_pair(void *context, struct catalogue_file_line *line, int wait)
{
    struct array *a = context;
    (void)wait;
    if (a->at == a->count)
        return CATALOGUE_FILE_END;
    uint64_t pointer = a->pairs[2 * a->at + 1];
    *line = (struct catalogue_file_line){.key = a->pairs[2 * a->at], .recording = CATALOGUE_RECORDING(pointer),
                                         .access = CATALOGUE_CLASS(pointer), .classed = 1, .tag = a->at};
    a->at++;
    return CATALOGUE_FILE_LINE;
}

static int note_pair(void *context, const struct catalogue_file_line *line)
{
    struct array *a = context;
    if (a->numbers)
        a->numbers[line->tag] = line->number;
    return 0;
}

uint64_t catalogue_file_load_pairs(catalogue_file *f, uint64_t collection, uint64_t flags, const uint64_t *pairs, size_t count,
                                   uint64_t *numbers)
{
    struct array a = {.pairs = pairs, .count = count, .numbers = numbers};
    struct catalogue_file_load load = {.collection = collection, .flags = flags, .next = next_pair, .done = numbers ? note_pair : NULL,
                                       .context = &a};
    for (size_t i = 0; numbers && i < count; i++)
        numbers[i] = CATALOGUE_FILE_NOT_TAKEN;
    return catalogue_file_load(f, &load);
}
