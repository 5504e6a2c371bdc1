/* The way of a search through a table: nodes, moves and the slot. The library answers; the way must end where its answer is. */
#ifndef WAYS_H
#define WAYS_H

#include <stdbool.h>
#include <stddef.h>
#include <stdint.h>

#include "pool.h"
#include "reel.h"

/* 16 levels, with a move on each. */
#define MOST_STEPS 32

/* How a step was come to, besides by a slot of the node before it. */
enum { BY_LEFT = -1, BY_ROOT = -2, BY_SIBLING = -3 };

struct way {
    uint64_t number;  /* what catalogue_search returns */
    uint64_t pointer; /* if it is found */
    uint64_t next;    /* the next key up, if it is absent and there is one */
    bool higher;
    int slot; /* of the last node; -1 for none */
    uint64_t nodes[MOST_STEPS];
    int by[MOST_STEPS]; /* a slot of the node before, or one of the above */
    size_t count;
};

/* False if the way does not end at what the library answers. The words have a table's header and the collection. */
bool way_find(struct way *w, const uint64_t *words, size_t count, uint64_t collection, uint64_t key);

/* As JSON: [number, "pointer or next", slot, [node, by, ..]]. */
char *way_json(const struct way *w);

/* Keys that are searched alike in every image of a list lie between two neighbours of these. */
struct marks {
    uint64_t *keys; /* each key or fence of the table or of a store, and the key after it; rising, and first low */
    size_t count;
    uint64_t low, high; /* what lies outside is left out */
};

void marks_find(struct marks *m, const struct reel *r, uint64_t low, uint64_t high);
void marks_free(struct marks *m);

#endif
