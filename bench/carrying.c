/* An order list carried out as the file library does, on words that no reader has a counter for. */
#include "carrying.h"

bool carry_one_list(uint64_t *memory, const uint64_t *orders, uint64_t count, const struct carrying *how)
{
    uint64_t word = 0, carried = 0;
    const struct counter counter = counter_start(&word, BRACKET_LIST);
    return carry_out(memory, orders, count, &counter, how, &carried);
}
