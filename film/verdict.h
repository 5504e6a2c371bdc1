/* What an image of a table is: sound or not, what it has unfinished and what repair does, which codes lead elsewhere. The library says it. */
#ifndef VERDICT_H
#define VERDICT_H

#include <stddef.h>
#include <stdint.h>
#include <stdio.h>

#include "planned.h"
#include "tree.h"

/* Codes that are named for one image; more are counted. */
#define MOST_TOLD 40

struct pairs {
    uint64_t *words; /* key and pointer */
    size_t count;
};

struct verdicts {
    size_t words;
    const struct change *change; /* that is wanted */
    uint64_t collection;
    struct pairs before[MOST_COLLECTIONS]; /* the maps of the table before the list */
    uint64_t *copy;                        /* to repair */
    struct pairs now;                      /* room for a map of an image, or for searches of all codes */
    struct change repair;                  /* of the image seen last, if it is sound */
    uint64_t number;                       /* 0, or why a repair of it is refused */
};

/* 0, or the refusal of the listing: 4 if the table is not sound. verdicts_end in either case. */
uint64_t verdicts_begin(struct verdicts *v, const uint64_t *base, size_t words, uint64_t collection, const struct change *change);
void verdicts_end(struct verdicts *v);

/* As JSON: {"number": .., "letter": "b", "left": "..", "repair": [orders]}. */
char *verdict_sound(struct verdicts *v, const uint64_t *image);

/* How an image's maps stand to those before the list. */
enum map { OLD, NEW, NEITHER };

struct difference {
    uint64_t collection, key, number, before, now; /* number as catalogue_search returns it; pointers, 0 for absent */
};

struct differences {
    struct difference told[MOST_TOLD];
    size_t count; /* of all */
    enum map map;
};

/* After verdict_sound of this image. */
void verdict_maps(struct verdicts *v, const uint64_t *image, struct differences *d);

/* As JSON: ["neither", 12, [[collection, "key", "before", "now", number], ..]]. */
char *differences_json(const struct differences *d);

/* Orders as JSON: [["store", "word", "value"], ["flush", line], ["barrier"]]. */
void orders_json(FILE *out, const uint64_t *orders, size_t count);

#endif
