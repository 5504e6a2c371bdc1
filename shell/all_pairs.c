/* The pairs of a table's collection, as the library lists them. */
#include "all_pairs.h"

#include <stdlib.h>

#include "catalogue.h"
#include "refusals.h"
#include "text.h"
#include "tree.h"

int listing_read(struct listing *g, const struct table *t, uint64_t low, uint64_t high)
{
    /* A node of a sound table has at most 11 pairs: all of them fit, and none are left. */
    size_t room = 11 * (t->words / NODE_WORDS);
    uint64_t more;
    *g = (struct listing){.pairs = calloc(room, sizeof *g->pairs)};
    if (!g->pairs)
        return fail(BAD_FILE, "not enough memory to list %s", t->name);
    uint64_t number = catalogue_list(t->base, t->words, t->collection, low, high, &g->pairs->key, 2 * room, &g->count, &more);
    return number == 0 ? 0 : refuse(number, t, 0, 0);
}

void listing_free(struct listing *g)
{
    free(g->pairs);
}

static int by_recording(const void *a, const void *b)
{
    uint64_t m = CATALOGUE_RECORDING(((const struct listed *)a)->pointer), n = CATALOGUE_RECORDING(((const struct listed *)b)->pointer);
    return m < n ? -1 : m > n;
}

void listing_by_recording(struct listing *g)
{
    qsort(g->pairs, g->count, sizeof *g->pairs, by_recording);
}

const struct listed *listing_holder(const struct listing *g, uint64_t recording)
{
    const struct listed wanted = {.pointer = recording};
    return bsearch(&wanted, g->pairs, g->count, sizeof *g->pairs, by_recording);
}
