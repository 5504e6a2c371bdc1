/* An order list carried out as the file library does, on words that no reader has a counter for. */
#ifndef CARRYING_H
#define CARRYING_H

#include "carry.h"

/* False, with errno, at a flush that failed. */
bool carry_one_list(uint64_t *memory, const uint64_t *orders, uint64_t count, const struct carrying *how);

#endif
