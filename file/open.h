/* A reader's file. */
#ifndef OPEN_H
#define OPEN_H

#include "handle.h"

/* Before each look: if another file has the name now it is opened in this one's place. 0, or a number with its message. */
uint64_t follow_name(struct catalogue_file *f);

/* The file of sums that is there now: sums_open for a reader, whose copies are made anew. 0, or a number with its message. */
uint64_t open_sums(struct catalogue_file *f);

#endif
