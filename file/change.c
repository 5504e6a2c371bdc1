/* Changes of a table: planned by the core, carried out with what was left to repair before them. */
#include "change.h"

#include <inttypes.h>
#include <stdlib.h>
#include <string.h>

#include "mapping.h"
#include "memory.h"
#include "moment.h"
#include "summary.h"

uint64_t begin_change(struct catalogue_file *f)
{
    f->outcome = CATALOGUE_FILE_NOT_MADE;
    uint64_t number = must_write(f);
    if (number == 0)
        number = whole_table(f);
    if (number == 0 && !f->fast)
        number = settle(f);
    return number;
}

/* A bracket is no longer than what lies between two waits for the disk, so that a reader beside it seldom meets one. */
enum brackets brackets_of(const struct catalogue_file *f)
{
    return waits_for_disk(f) ? BRACKET_FLUSH : BRACKET_LIST;
}

/* ---- planning */

static uint64_t orders_of(const struct catalogue_file_change *c)
{
    return c->stores + c->flushes + c->barriers;
}

/* The core's call, on the working copy. */
static uint64_t make_list(struct catalogue_file *f, const struct catalogue_file_change *c, uint64_t kind, uint64_t *orders, uint64_t *stores,
                          uint64_t *flushes, uint64_t *barriers)
{
    switch (kind) {
    case CATALOGUE_FILE_ADD:
        return catalogue_insert(f->working, f->words, c->collection, orders, LIST_WORDS, f->dock, c->key, c->recording, c->access, stores,
                                flushes, barriers);
    case CATALOGUE_FILE_REMOVE:
        return catalogue_delete(f->working, f->words, c->collection, orders, LIST_WORDS, f->dock, c->key, stores, flushes, barriers);
    case CATALOGUE_FILE_SET_CLASS:
        return catalogue_set_class(f->working, f->words, c->collection, orders, LIST_WORDS, f->dock, c->key, c->access, stores, flushes,
                                   barriers);
    case CATALOGUE_FILE_REPAIR:
        return catalogue_repair(f->working, f->words, orders, LIST_WORDS, f->dock, stores, flushes, barriers);
    default:
        return CATALOGUE_FILE_BAD_OPTION;
    }
}

/* The same by the summary, which stays true. */
static uint64_t make_quick_list(struct catalogue_file *f, const struct catalogue_file_change *c, uint64_t *orders, uint64_t *stores,
                                uint64_t *flushes, uint64_t *barriers)
{
    switch (c->kind) {
    case CATALOGUE_FILE_ADD:
        return catalogue_quick_insert(f->working, f->words, f->summary, f->summary_words, c->collection, orders, LIST_WORDS, f->dock, c->key,
                                      c->recording, c->access, stores, flushes, barriers);
    case CATALOGUE_FILE_REMOVE:
        return catalogue_quick_delete(f->working, f->words, f->summary, f->summary_words, c->collection, orders, LIST_WORDS, f->dock, c->key,
                                      stores, flushes, barriers);
    default:
        return catalogue_quick_set_class(f->working, f->words, f->summary, f->summary_words, c->collection, orders, LIST_WORDS, f->dock, c->key,
                                         c->access, stores, flushes, barriers);
    }
}

/* One call's list behind the orders so far; its counts come to the sums. */
static uint64_t plan_one(struct catalogue_file *f, struct catalogue_file_change *c, uint64_t kind, bool quick)
{
    uint64_t stores = 0, flushes = 0, barriers = 0, *orders = f->orders + 2 * orders_of(c);
    uint64_t number = quick ? summary_number(f, make_quick_list(f, c, orders, &stores, &flushes, &barriers))
                            : make_list(f, c, kind, orders, &stores, &flushes, &barriers);
    c->stores += stores;
    c->flushes += flushes;
    c->barriers += barriers;
    return number;
}

/* Which comes before everything but 2 in the core's calls too. */
static bool lacks_collection(const struct catalogue_file *f, const struct catalogue_file_change *c)
{
    uint64_t recording, access, next, higher;
    return c->kind != CATALOGUE_FILE_REPAIR
           && catalogue_search(f->working, f->words, c->collection, 0, &recording, &access, &next, &higher) == CATALOGUE_NO_COLLECTION;
}

/* The repair, on the working copy, if it may have something to repair. */
static uint64_t plan_repair(struct catalogue_file *f, struct catalogue_file_change *c)
{
    uint64_t number = f->repaired ? 0 : plan_one(f, c, CATALOGUE_FILE_REPAIR, false);
    c->repair = orders_of(c);
    return number;
}

/* The change, by the summary of the repaired copy if there is memory for one. */
static uint64_t plan_quick(struct catalogue_file *f, struct catalogue_file_change *c)
{
    uint64_t number = summary_begin(f);
    f->repaired = f->repaired || f->summarized;
    if (number == 0)
        number = plan_repair(f, c);
    if (number == 0)
        number = summary_begin(f);
    return number == 0 ? plan_one(f, c, c->kind, f->summarized) : number;
}

/*
 * What was left to repair first, by a list of its own, then the change's. Readers go by it: within a change words do not come back, if it
 * begins with a settled table. A plan that is not carried out leaves the summary as it is: the copy comes back to it.
 */
static uint64_t plan(struct catalogue_file *f, struct catalogue_file_change *c, bool quick)
{
    c->stores = c->flushes = c->barriers = c->repair = c->carried = 0;
    if (c->kind > CATALOGUE_FILE_REPAIR)
        return fails(f, CATALOGUE_FILE_BAD_OPTION, "there is no change %" PRIu64, c->kind);
    uint64_t number = lacks_collection(f, c) ? CATALOGUE_NO_COLLECTION : 0;
    bool repair = c->kind == CATALOGUE_FILE_REPAIR;
    if (number == 0 && quick && !repair)
        number = plan_quick(f, c);
    else if (number == 0)
        number = plan_repair(f, c);
    if (number == 0 && !quick && !repair)
        number = plan_one(f, c, c->kind, false);
    return number == 0 ? 0 : refuses(f, number);
}

/* ---- carrying out */

/* The table that memory holds answers as after the change. */
static bool answers_as_after(const struct catalogue_file *f, const struct catalogue_file_change *c)
{
    uint64_t recording, access, next, higher;
    uint64_t number = catalogue_search(f->working, f->words, c->collection, c->key, &recording, &access, &next, &higher);
    if (c->kind == CATALOGUE_FILE_REMOVE)
        return number == CATALOGUE_ABSENT;
    if (c->kind == CATALOGUE_FILE_REPAIR)
        return c->carried == orders_of(c);
    return number == 0 && access == c->access && (c->kind == CATALOGUE_FILE_SET_CLASS || recording == c->recording);
}

/* What became of a change that was cut off: as memory has it; what has not reached the disk may be lost. Keeps the message. */
static uint64_t outcome_of(struct catalogue_file *f, const struct catalogue_file_change *c)
{
    char message[MESSAGE_ROOM];
    int why = f->why;
    if (c->carried == 0)
        return CATALOGUE_FILE_NOT_MADE;
    memcpy(message, f->message, sizeof message);
    bool known = refresh(f) == 0;
    memcpy(f->message, message, sizeof message);
    f->why = why;
    if (known && !answers_as_after(f, c))
        return CATALOGUE_FILE_NOT_MADE;
    return known && !f->unsettled ? CATALOGUE_FILE_MADE : CATALOGUE_FILE_UNKNOWN;
}

/* The repair's orders, a bracket for each store, then the change's. */
static uint64_t carry(struct catalogue_file *f, struct catalogue_file_change *c, uint64_t count)
{
    uint64_t first = count < c->repair ? count : c->repair;
    uint64_t number = still_ours(f, f->orders, count);
    if (number == 0 && first > 0)
        number = carry_list(f, f->orders, first, BRACKET_STORE, &c->carried);
    if (number == 0 && count > first)
        number = carry_list(f, f->orders + 2 * first, count - first, brackets_of(f), &c->carried);
    if (number == 0 && !f->fast)
        number = settle(f);
    return number;
}

static uint64_t carry_planned(struct catalogue_file *f, struct catalogue_file_change *c)
{
    uint64_t all = orders_of(c), count = c->cut == CATALOGUE_FILE_ALL ? all : c->cut, number = 0;
    if (count > all)
        number = fails(f, CATALOGUE_FILE_BAD_OPTION, "the change has %" PRIu64 " orders, not %" PRIu64 "; nothing was changed", all, count);
    if (number == 0)
        number = carry(f, c, count);
    if (number == 0 && count < all)
        number = fails(f, CATALOGUE_FILE_CUT, "cut off after %" PRIu64 " of %" PRIu64 " orders", count, all);
    /* The working copy is ahead of memory. */
    f->stale = f->stale || number != 0;
    f->repaired = number == 0;
    f->outcome = number == 0 ? CATALOGUE_FILE_MADE : outcome_of(f, c);
    return number;
}

/* The copy is what it was before a plan that is not carried out. */
static void unplan(struct catalogue_file *f)
{
    memcpy(f->working, f->expected, bytes_of(f->words, false));
}

uint64_t make_change(struct catalogue_file *f, struct catalogue_file_change *c)
{
    uint64_t number = plan(f, c, true);
    if (number == 0)
        return carry_planned(f, c);
    if (c->repair > 0) {
        summary_ends(f);
        unplan(f);
    }
    return number;
}

uint64_t catalogue_file_change(catalogue_file *f, struct catalogue_file_change *c)
{
    uint64_t number = begin_change(f);
    /* What the system takes for written, and is not, is repaired too. */
    if (number == 0 && c->kind == CATALOGUE_FILE_REPAIR && waits_for_disk(f))
        number = write_again(f);
    return number == 0 ? make_change(f, c) : number;
}

uint64_t catalogue_file_plan(catalogue_file *f, struct catalogue_file_change *c, const uint64_t **orders)
{
    uint64_t number = must_be_open(f);
    if (number == 0)
        number = whole_table(f);
    if (number == 0 && !f->orders)
        f->orders = malloc(2 * LIST_WORDS * sizeof *f->orders);
    if (number == 0 && !f->orders)
        number = no_memory(f);
    if (number != 0)
        return number;
    number = plan(f, c, false);
    *orders = f->orders;
    if (f->writing)
        unplan(f);
    return number;
}

/* ---- by their names */

uint64_t catalogue_file_add(catalogue_file *f, uint64_t collection, uint64_t key, uint64_t recording, uint64_t access)
{
    struct catalogue_file_change c = {.kind = CATALOGUE_FILE_ADD, .collection = collection, .key = key, .recording = recording,
                                      .access = access, .cut = CATALOGUE_FILE_ALL};
    return catalogue_file_change(f, &c);
}

uint64_t catalogue_file_remove(catalogue_file *f, uint64_t collection, uint64_t key)
{
    struct catalogue_file_change c = {.kind = CATALOGUE_FILE_REMOVE, .collection = collection, .key = key, .cut = CATALOGUE_FILE_ALL};
    return catalogue_file_change(f, &c);
}

uint64_t catalogue_file_set_class(catalogue_file *f, uint64_t collection, uint64_t key, uint64_t access)
{
    struct catalogue_file_change c = {.kind = CATALOGUE_FILE_SET_CLASS, .collection = collection, .key = key, .access = access,
                                      .cut = CATALOGUE_FILE_ALL};
    return catalogue_file_change(f, &c);
}

uint64_t catalogue_file_repair(catalogue_file *f)
{
    struct catalogue_file_change c = {.kind = CATALOGUE_FILE_REPAIR, .cut = CATALOGUE_FILE_ALL};
    return catalogue_file_change(f, &c);
}
