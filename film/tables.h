/* A table in memory, made of lines code,recording. */
#ifndef TABLES_H
#define TABLES_H

#include <stdint.h>

#include "table.h"

/*
 * The codes added one by one to an empty table of so many nodes; base and working are alike. 0, or an exit status after saying why; table_free in
 * either case.
 */
int table_of_lines(struct table *t, uint64_t nodes, const char *lines);

void table_free(struct table *t);

#endif
