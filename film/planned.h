/* A change of a table: read from words, planned by the library, printed. */
#ifndef PLANNED_H
#define PLANNED_H

#include <stdbool.h>
#include <stdint.h>
#include <stdio.h>

#include "catalogue_file.h"
#include "table.h"

enum kind { ADD = CATALOGUE_FILE_ADD, REMOVE = CATALOGUE_FILE_REMOVE, CLASS = CATALOGUE_FILE_SET_CLASS, REPAIR = CATALOGUE_FILE_REPAIR };

struct change {
    enum kind kind;
    uint64_t key, recording, access; /* the class */
    uint64_t stores, flushes, barriers; /* of the list, once planned */
    uint64_t orders[CATALOGUE_LONG_LIST_WORDS]; /* long enough for either dock */
};

/*
 * From the words after the table: a code, a recording and perhaps a class; a code; a code and a class; or nothing. 0, or an exit status
 * after saying why.
 */
int change_read(struct change *c, enum kind kind, char **words, int count);

/*
 * Makes the change in the table's collection, on the working copy, and its orders for the table's dock in the list. 0, or the refusal; then
 * nothing moved.
 */
uint64_t change_plan(struct change *c, const struct table *t);

/* How many orders the list has. */
uint64_t change_orders(const struct change *c);

/* Which word of which node a store goes to: "node 1, pointer 0". */
void place_print(FILE *out, uint64_t word);

/* Which part of which node a line is: "node 1, slots 0 to 3". */
void line_print(FILE *out, uint64_t line);

/* "store 17 7", "flush 2" or "barrier"; its length. */
int order_print(FILE *out, const uint64_t order[2]);

/* Neither a flush nor a barrier. */
bool order_stores(const uint64_t order[2]);

/* The orders, numbered as --cut counts them, with the place of each in the table. */
void orders_print(const uint64_t *orders, uint64_t count);

/* " (4 stores, 1 flush)", for dock 1 " (4 stores, 1 flush, 4 barriers)", the end of a line. */
void counts_print(uint64_t stores, uint64_t flushes, uint64_t barriers);

#endif
