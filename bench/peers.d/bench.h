/* One size of the comparison: its pairs, the contenders' stores, and what is measured of them. */
#ifndef BENCH_H
#define BENCH_H

#include "keys.h"
#include "peer.h"
#include "rows.h"

#define SEED 20180212

/* Ranges of ten and of twenty. */
#define TEN 10
#define TWENTY 20

/* Nanoseconds that a contender's changes or ranges of a row may take. */
#define BUDGET 2.5e9

/* Changes of a row, at most, and ranges. */
#define MOST_CHANGES 1000

#define MOST_SIZES 3

struct sizes {
    size_t codes[MOST_SIZES];
    size_t sizes;
    size_t queries;
    size_t ranges;
    size_t single;   /* insertions one by one */
    size_t batch[2]; /* codes a batch */
    size_t batches[2];
};

struct bench {
    const struct sizes *sizes;
    struct place place;
    size_t codes;
    struct pair *pairs; /* those in the stores from the start, then those to insert, then those asked for that are absent */
    size_t next;        /* the next pair to insert */
    struct pair *rising; /* those in the stores from the start */
    struct random random;
    void *stores[PEERS];
    struct scanned expected[PEERS];
    double a_code[PEERS]; /* nanoseconds a code in the smaller batches */
};

/* The contenders, ours first. */
extern const struct peer *const peers[PEERS];

/* Pairs that all changes of a size insert, at most. */
size_t to_insert(const struct sizes *s);

/* Those asked for that are absent, as many as there are queries. */
const struct pair *absent_pairs(const struct bench *b);

/* What a scan of these pairs must see, but for their order. */
struct scanned sum_of(const struct pair *pairs, size_t count);

/* A scan in a reading transaction; it must see what is expected. */
void compare_scan(const struct peer *peer, void *store, const struct scanned *expected, const char *when);

/* Every contender's answers beside the pairs put in: finds, ranges, a scan, and what is refused. */
void compare_all(const struct bench *b);

/* A row again with another figure of ours, to be filled; its name ends so. */
struct row *with_other(const struct bench *b, const char *what, const char *ending);

/* Finds, scans and ranges, as rows. */
void measure_reading(struct bench *b);

/* Insertions one by one and in batches, as rows. */
void measure_inserting(struct bench *b);

/* Loads of all, from nothing, and insertions straight after one, as rows. */
void measure_loads(struct bench *b);

/* The names of these rows, for what was to be reached. */
#define LOAD_ANY "load of all, as they come"
const char *load_in_batches(const struct sizes *s);
#define BY_FILE ", ours by a new file each"
#define PLAIN ", ours without a summary"

/* Closes the stores and compares what their files hold with all that was taken; the files go. */
void end_stores(struct bench *b);

/* The bytes of a contender's files, and the end of these. */
double bytes_in_files(const struct peer *peer, const char *folder);
void remove_files(const struct peer *peer, const char *folder);

#endif
