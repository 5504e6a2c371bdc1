/* Changes of a table: planned by the core, carried out with what was left to repair before them. */
#ifndef CHANGE_H
#define CHANGE_H

#include "handle.h"

/* Before the lists of a change or of a batch: memory's words in the copies, and on the disk what was stored before. 0, or a number. */
uint64_t begin_change(struct catalogue_file *f);

/* The brackets for the lists of one change. */
enum brackets brackets_of(const struct catalogue_file *f);

/* A change, after begin_change: with what was left to repair before it, or its first orders alone. */
uint64_t make_change(struct catalogue_file *f, struct catalogue_file_change *c);

#endif
