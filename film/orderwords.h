/* One order in the words that people write: "node 1 slot 2 key := AA0002600030", "flush node 1 slots 0-3", "barrier". */
#ifndef ORDERWORDS_H
#define ORDERWORDS_H

#include <stdbool.h>
#include <stddef.h>
#include <stdint.h>
#include <stdio.h>

/* A word of a line, and what is wrong with it. */
struct complaint {
    const char *from;   /* the word that is wrong; of length 0 where the line ends too soon */
    size_t length;
    const char *wanted; /* what could stand there */
};

/*
 * Reads one order, plain (store WORD VALUE, flush LINE, barrier) or in words; a number before it and a remark behind it are passed over, letters
 * may be capital or small, commas may stand anywhere, := may be =. False with the complaint if it is none. A store to a word that no table has
 * stays one.
 */
bool order_read(const char *text, size_t length, uint64_t order[2], struct complaint *c);

/* Whether a line has no order: it is empty, or its first letter begins a remark. */
bool order_is_remark(const char *text, size_t length);

/* The order in words, as order_read reads it. In a node above the leaves (inner) a pointer is a node. */
void order_words(FILE *out, const uint64_t order[2], bool inner);

/* All of them, numbered or not, a line each. The table's words say which nodes are leaves; there may be none. */
void orders_words(FILE *out, const uint64_t *base, size_t words, const uint64_t *orders, size_t count, bool numbered);

#endif
