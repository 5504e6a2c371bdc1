/* All pairs of a table, and the nodes that they need when they are packed. */
#ifndef PAIRS_H
#define PAIRS_H

#include "handle.h"

#define MOST_COLLECTIONS 2

/* Pairs of key and pointer of a table's collections, each rising, one after the other. */
struct held {
    uint64_t *words;
    uint64_t count[MOST_COLLECTIONS]; /* pairs */
    uint64_t collections;
};

/* The pairs of the working copy. 0, or a number with its message; held_free in either case. */
uint64_t held_read(struct held *h, struct catalogue_file *f);
void held_free(struct held *h);

/* Nodes that so many pairs of one collection need, packed: 11 to a leaf, 12 children to an inner node. */
uint64_t packed_nodes(uint64_t pairs);

#endif
