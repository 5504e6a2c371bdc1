/* Loading by batches: many lines by one order list, carried out and then handed back. */
#ifndef BATCH_H
#define BATCH_H

#include "lines.h"

/* by_file: a new file may take the table's place. 0, or a number with its message. */
uint64_t batch_begin(struct loading *l, bool by_file);
void batch_end(struct loading *l);

/* Takes a line; batch_due if the batch is full. batch_carry carries its lines out and hands them back; then it is empty. */
void batch_take(struct loading *l, struct catalogue_file_line line);
bool batch_due(const struct loading *l);
bool batch_holds(const struct loading *l);
void batch_carry(struct loading *l);

#endif
