/* Random ISRC keys from a fixed seed, as bench/keys.rs has them: the same for every contender and every run. */
#ifndef KEYS_H
#define KEYS_H

#include <stddef.h>
#include <stdint.h>

#include "peer.h"

struct random {
    uint64_t state;
};

uint64_t random_word(struct random *r);

/* Below a bound that is not 0. */
uint64_t random_below(struct random *r, uint64_t bound);

/* So many different keys in the order drawn, with recordings 1, 2, .. and classes in turn; to be freed. */
struct pair *draw_pairs(struct random *r, size_t count);

/* By rising keys. */
void sort_pairs(struct pair *pairs, size_t count);

#endif
