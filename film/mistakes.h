/* Which of the known mistakes a list that the judge refuses has. */
#ifndef MISTAKES_H
#define MISTAKES_H

#include <stddef.h>
#include <stdint.h>

#include "planned.h"
#include "table.h"

struct mistake {
    const char *name;     /* in two or three words */
    const char *sentence; /* for a class */
};

/* By the first count that fails, from 0 to all of them: what its last order does to the working copy and which lines are dirty then. */
const struct mistake *mistake_of(const struct table *t, const struct change *c, const uint64_t *orders, size_t total, uint64_t count);

#endif
