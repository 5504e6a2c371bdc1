/* All pairs of a table, and the nodes that they need when they are packed. */
#include "pairs.h"

#include <stdlib.h>

#include "summary.h"

/* A node of a sound table has at most so many pairs. */
#define MOST_PAIRS 11
#define MOST_CHILDREN 12

uint64_t held_read(struct held *h, struct catalogue_file *f)
{
    /* All pairs fit, and none are left. */
    size_t room = 2 * MOST_PAIRS * (f->words / NODE_WORDS), used = 0;
    *h = (struct held){.words = calloc(room + 1, sizeof *h->words), .collections = f->working[SECOND_ROOT] != 0 ? 2 : 1};
    if (!h->words)
        return no_memory(f);
    for (uint64_t i = 0; i < h->collections; i++) {
        uint64_t more, number = summary_list(f, i + 1, 0, UINT64_MAX, h->words + used, room - used, &h->count[i], &more);
        if (number != 0)
            return refuses(f, number);
        used += 2 * h->count[i];
    }
    return 0;
}

void held_free(struct held *h)
{
    free(h->words);
}

uint64_t packed_nodes(uint64_t pairs)
{
    uint64_t row = pairs == 0 ? 1 : (pairs + MOST_PAIRS - 1) / MOST_PAIRS, nodes = row;
    while (row > 1) {
        row = (row + MOST_CHILDREN - 1) / MOST_CHILDREN;
        nodes += row;
    }
    return nodes;
}
