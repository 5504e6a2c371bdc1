/* The beginning of a code, for all codes that begin so. */
#ifndef PREFIX_H
#define PREFIX_H

#include <stdbool.h>
#include <stdint.h>

/* The lowest and the highest key of codes that begin with the text, typed as a code is; of # and a number that key. False if none does. */
bool prefix_range(const char *text, uint64_t *low, uint64_t *high);

#endif
