/* Judging an order list that was not made here. */
#ifndef JUDGE_H
#define JUDGE_H

#include <stddef.h>
#include <stdint.h>
#include <stdio.h>

#include "planned.h"
#include "table.h"

/*
 * Prints whether the list of that file, or of standard input for -, makes the addition or removal so that a cut may come after any of its
 * orders: yes, or no with the first order that fails, its place, and what a cut there leaves. 0, 254 for no, or an exit status after saying
 * why. The number of orders is put into total.
 */
int judge_list(const struct table *t, const char *name, const struct change *c, FILE *out, size_t *total);

/* The same of orders in memory, as part of a film: where memory is short the program ends. */
int judge_orders(const struct table *t, const struct change *c, const uint64_t *orders, size_t total, FILE *out);

/* The library's answer alone: 0 for yes, 254 with the first count that fails, or a refusal. The image is a lent table of as many words. */
uint64_t judge_count(const struct table *t, const struct change *c, const uint64_t *orders, size_t total, uint64_t *image, uint64_t *count);

#endif
