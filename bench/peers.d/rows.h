/* The rows of a table: a figure of each contender, and our figure divided by each other's. */
#ifndef ROWS_H
#define ROWS_H

#include <stdbool.h>
#include <stddef.h>
#include <stdint.h>

#define PEERS 4

enum unit { NANOSECONDS, BYTES };

struct row {
    char what[80];
    size_t codes;
    enum unit unit;
    double figure[PEERS];    /* 0: none */
    bool over[PEERS];        /* the figure is a lower bound: it was broken off */
    size_t measured[PEERS];  /* changes or runs that the figure is the median of; 0: not printed */
};

/* A new row of the table, to be filled. */
struct row *row_new(const char *what, size_t codes, enum unit unit);

/* The row of this name and number of codes. */
const struct row *row_named(const char *what, size_t codes);

/* All rows as Markdown under a title; names are the contenders. */
void rows_print(const char *title, const char *const names[PEERS]);

/* 400000 as 400,000; a time or a length in the unit that reads best; a ratio. Each into room that is used again after eight calls. */
const char *text_count(size_t n);
const char *text_figure(double x, enum unit unit);
const char *text_ratio(double a, double b);

/* The middle of some times, which are sorted. */
double median(double *times, size_t count);

#endif
