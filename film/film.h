/* A film of a change: every moment of its orders, and every cut, worked out by the library and written into one page. */
#ifndef FILM_H
#define FILM_H

#include <stdbool.h>
#include <stddef.h>
#include <stdint.h>
#include <stdio.h>

#include "planned.h"
#include "nearest.h"
#include "table.h"

/* One list of orders, for one change of one table. */
struct scene {
    const char *title; /* a line */
    const char *told;  /* what to look at; "" for nothing */
    const char *ask;   /* a question that is asked before counts and verdicts are shown; null for none */
    const char *list;  /* whose orders these are */
    bool own;          /* the library's */
    int beside;        /* the scene with the right list, by its place; -1 for none */
    const uint64_t *base;
    size_t words;
    uint64_t collection;
    const struct change *change;
    const uint64_t *orders; /* inside the table */
    size_t count;
    const struct hunks *hunks; /* the differences from the scene beside it; null for none */
    size_t spare;              /* for a drawing board: so many free nodes are drawn, and the way to the change's code */
    size_t most;               /* images at most; 0 for as many as a film of its own has */
};

/* Orders of a list that a film is made of, at most: our longest has fewer. */
#define MOST_FILMED 4096

/* A scene as JSON. 0, or an exit status after saying why. */
int scene_print(const struct scene *s, FILE *out);

/*
 * The page around so many scenes, with a drawing board or without, or their data alone, on standard output; more is JSON that follows the scenes, or
 * null. 0, or an exit status after saying why.
 */
int film_print(const struct scene *scenes, size_t count, bool data, bool board, const char *more);

/*
 * The film of a change of this table: by the library's own orders, or by those of a file, with the library's beside them. Uses the working
 * copy up. 0, or an exit status after saying why.
 */
int film(const struct table *t, const struct change *wanted, const char *list, bool data);

#endif
