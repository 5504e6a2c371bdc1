/* An order list and what a cut may leave of it, by document 01's rule for dock 0: barriers are passed over. */
#ifndef REEL_H
#define REEL_H

#include <stdbool.h>
#include <stddef.h>
#include <stdint.h>

#define NO_LINE UINT32_MAX

/*
 * A line holds its first stores, in order, and no others: so an image of the table is a number for each line that the list stores to. Of
 * these images each first appears with one order, the last of the stores that it holds.
 */
struct reel {
    const uint64_t *base; /* the table before the list */
    size_t words;
    const uint64_t *orders; /* two words each */
    size_t count;
    uint64_t *lines; /* that the list stores to, rising */
    size_t line_count;
    uint32_t *line_of; /* by order: the place of its line among these, NO_LINE for none */
    uint32_t *rank;    /* by order, of a store: how many stores to its line there are up to it */
};

/* The orders lie inside the table. */
void reel_begin(struct reel *r, const uint64_t *base, size_t words, const uint64_t *orders, size_t count);
void reel_end(struct reel *r);

/* After c orders, by line: the stores that memory has for certain, and those that were made. */
void reel_at(const struct reel *r, size_t c, uint32_t *flushed, uint32_t *stored);

/* The table with so many stores to each line; the words of other lines must be there already. */
void reel_image(const struct reel *r, const uint32_t *kept, uint64_t *image);

/*
 * The images that first appear with order c (0: the table as it was), each handed to visit: every number of the unflushed stores to each
 * other line that has any, the last line's changing fastest. If these are more than most, only a short row: all of them; those that lack some
 * of one line, line by line; and none of any other line. If these are too many as well, the first of them alone, so that at most `most`
 * images are handed on for a store, and one at least. It returns true if any was left out.
 */
bool reel_births(const struct reel *r, size_t c, size_t most, void (*visit)(void *with, const uint32_t *kept), void *with);

/* How many images the short row of order c has; 0 for an order that is no store. */
size_t reel_short(const struct reel *r, size_t c);

#endif
