/* Wear: how often order lists store to each line of a table. */
#ifndef WEAR_H
#define WEAR_H

#include <stddef.h>
#include <stdint.h>

#include "picture.h"
#include "table.h"

enum wear_form { WEAR_TEXT, WEAR_SVG, WEAR_JSON };

/*
 * Prints the figures of the orders of a file, or of standard input if its name is -, which orderlist.h describes. 0, or an exit status after
 * saying why.
 */
int wear(const struct table *t, const char *name, enum wear_form form);

/* The wear of many lists, one after the other. */
struct wearing {
    const struct table *table;
    uint64_t *orders; /* those that are not in the sums yet */
    size_t used;      /* words of them */
    uint64_t *lines;  /* the stores to each line, as far as they are summed */
    struct figures part; /* of those that are summed at a time */
};

/* These return 0, or an exit status after saying why. A wearing that was begun is ended, also if the beginning failed. */
int wearing_begin(struct wearing *w, const struct table *t);
int wearing_add(struct wearing *w, const uint64_t *orders, uint64_t count);

/* Prints the lines with the most stores. */
int wearing_print(struct wearing *w);

void wearing_end(struct wearing *w);

#endif
