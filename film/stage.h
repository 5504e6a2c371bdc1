/* Which nodes a film draws, and where. */
#ifndef STAGE_H
#define STAGE_H

#include <stdbool.h>
#include <stddef.h>
#include <stdint.h>

#include "reel.h"

struct place {
    uint32_t node;
    uint64_t level, collection;
    bool folded; /* only its number is drawn: no order stores to it */
    uint64_t fence; /* by which it stands in its row */
};

/*
 * The nodes that are stored to and what is above them; of a small collection the others as well, of a larger one, folded, their neighbours.
 * Places are fixed for the whole film. Searches of a table with many codes are those for keys from low to high, of the leaves
 * drawn.
 */
struct stage {
    struct place *places; /* by level from the top, then from left to right */
    size_t count;
    size_t others; /* nodes in use that are not drawn */
    uint64_t low, high;
};

/* What a drawing board needs besides: nodes to be drawn in any case, and so many of the free ones. */
struct wanted_nodes {
    const uint64_t *nodes;
    size_t count, spare;
};

/* The table before the list and after it. */
void stage_set(struct stage *s, const struct reel *r, const uint64_t *last, uint64_t collection, size_t codes, const struct wanted_nodes *also);
void stage_free(struct stage *s);

#endif
