/* Carrying an order list out on memory, in brackets that readers see. */
#ifndef CARRY_H
#define CARRY_H

#include <stdbool.h>
#include <stdint.h>

#include "counter.h"
#include "flush.h"

/* How orders are carried out. */
struct carrying {
    const struct flush *flush;
    uint64_t pause; /* microseconds before each order, so that a kill may fall between two */
};

/*
 * The first count orders of a list, on words that begin at a multiple of 64 bytes. Every order must lie inside them. False, with errno, at a
 * flush that failed; no order after it was carried out. *carried is raised by those that were.
 */
bool carry_out(uint64_t *memory, const uint64_t *orders, uint64_t count, const struct counter *counter, const struct carrying *how,
               uint64_t *carried);

#endif
