/* The right list nearest to a list that somebody drew, and what each difference between the two breaks. */
#ifndef NEAREST_H
#define NEAREST_H

#include <stdbool.h>
#include <stddef.h>
#include <stdint.h>

#include "planned.h"
#include "table.h"

/* Whose list the nearest one is: the drawn one itself, the drawn one mended, or the library's, without the stores that change no word or with them. */
enum whose { DRAWN_LIST, MENDED_LIST, SHORT_LIST, FULL_LIST };

struct nearest {
    uint64_t *orders;
    size_t count;
    enum whose whose;
};

/*
 * The judge accepts what it finds. The change is one that the library makes; its working copy is used up. If the drawn list is right it is the nearest.
 * nearest_free in any case.
 */
void nearest_find(struct nearest *n, const struct table *t, const struct change *c, const uint64_t *orders, size_t count);
void nearest_free(struct nearest *n);

/* Whether a list of so many orders is mended, and its differences judged one by one: not in a large table, where that takes long. */
bool nearest_mends(const struct table *t, size_t count);

/* The library's list of a change that it makes, without the stores that change no word and the flushes that then have nothing to flush. */
size_t short_list(const struct table *t, const struct change *planned, uint64_t *orders);

/* Orders of the one list that stand in place of orders of the other. */
struct hunk {
    size_t at, length;             /* drawn */
    size_t right_at, right_length; /* in the right list */
    char *breaks;                  /* what the judge says of the right list with this one difference; null if it accepts that */
};

struct hunks {
    struct hunk *of;
    size_t count;
};

/* The differences of two lists; none if the judge accepts the drawn one. hunks_free in any case. */
void hunks_find(struct hunks *h, const struct table *t, const struct change *c, const uint64_t *orders, size_t count, const uint64_t *right,
                size_t right_count);
void hunks_free(struct hunks *h);

#endif
