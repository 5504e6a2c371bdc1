/* The pairs of a table's collection, as the library lists them. */
#ifndef ALL_PAIRS_H
#define ALL_PAIRS_H

#include "table.h"

struct listed {
    uint64_t key, pointer;
};

struct listing {
    struct listed *pairs; /* by their keys */
    uint64_t count;
};

/* From one key to another. The table's words must be there. 0, or an exit status after saying why; listing_free in either case. */
int listing_read(struct listing *g, const struct table *t, uint64_t low, uint64_t high);
void listing_free(struct listing *g);

/* Sorts the pairs by their recordings. */
void listing_by_recording(struct listing *g);

/* The pair with a recording, of pairs that were sorted so; null if there is none. */
const struct listed *listing_holder(const struct listing *g, uint64_t recording);

#endif
