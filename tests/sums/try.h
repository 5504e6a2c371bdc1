/* What the tests of the sums share: a tally, tables with known codes, what a handle answers of them. */
#ifndef TRY_H
#define TRY_H

#include <stdbool.h>
#include <stddef.h>
#include <stdint.h>

#include "catalogue_file.h"

#define MOST_CODES 4000

/* What a table has, by the ledger: key 10 * i has recording ledger[collection - 1][i], or none for 0. */
struct ledger {
    uint64_t recording[2][MOST_CODES];
    uint64_t collections, codes;
};

/* Ends the program if it does not hold. */
#define MUST(right, ...) must((right), __FILE__, __LINE__, __VA_ARGS__)
void must(bool right, const char *file, int line, const char *format, ...) __attribute__((format(printf, 4, 5)));

/* A test that has passed; what it did. */
void passed(const char *format, ...) __attribute__((format(printf, 1, 2)));
int finish(void);

/* A name in the folder of the tests. */
void folder_is(const char *folder);
const char *at(const char *name);
const char *sums_of(const char *name);

/* Random words, always the same ones. */
uint64_t drawn(void);

/* A new table with codes 1 to count in each collection, added one by one; with sums or without. */
void make_table(const char *name, uint64_t nodes, uint64_t collections, uint64_t count, bool sums, struct ledger *ledger);

/* Finds every key of the ledger; with step 5 the keys between them too, with 10 none. Answers that are refused are counted; a wrong one ends the program. */
struct answers {
    uint64_t right, refused;
    uint64_t number; /* of the last refusal */
};
struct answers ask_all(catalogue_file *f, const struct ledger *before, const struct ledger *after, uint64_t step);

/* The lines that a scrub names. */
struct named {
    uint64_t count, node, line;
};
uint64_t scrub(catalogue_file *f, struct named *named);

/* A file's bytes, to be freed; the other way round. */
uint8_t *read_file(const char *name, size_t *bytes);
void write_file(const char *name, const void *from, size_t bytes);

#endif
