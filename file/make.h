/* New, empty tables. */
#ifndef MAKE_H
#define MAKE_H

#include "handle.h"

/* An empty table in memory, to be freed. 0, or a number with its message and no table. */
uint64_t empty_table(struct catalogue_file *f, uint64_t nodes, uint64_t collections, uint64_t **table, size_t *words);

#endif
