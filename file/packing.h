/* Loading into an empty collection: its lines sorted and packed into a new file, which takes the table's place. */
#ifndef PACKING_H
#define PACKING_H

#include "lines.h"

/* 0, or a number with its message. */
uint64_t packing_begin(struct loading *l);
void packing_end(struct loading *l);
void packing_take(struct loading *l, struct catalogue_file_line line);

/* The new file with all lines, which are handed back. False if no such file can be made: they are still to be taken by batches. */
bool packing_finish(struct loading *l);

/* The lines that were taken, in order, one after another; *at begins with 0. False after the last. */
bool packing_line(const struct loading *l, size_t *at, struct catalogue_file_line *line);

#endif
