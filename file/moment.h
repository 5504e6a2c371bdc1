/* The whole table of one moment. */
#ifndef MOMENT_H
#define MOMENT_H

#include "handle.h"

/* Into the working copy. 0, or a number with its message. */
uint64_t whole_words(struct catalogue_file *f);

/* The same, and every line fits its sum, if the table has sums. */
uint64_t whole_table(struct catalogue_file *f);

#endif
