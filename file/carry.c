/* Carrying an order list out on memory, in brackets that readers see. */
#include "carry.h"

#include <errno.h>
#include <time.h>

#include "catalogue.h"

static void pause_for(uint64_t microseconds)
{
    struct timespec left = {.tv_sec = (time_t)(microseconds / 1000000), .tv_nsec = (long)(microseconds % 1000000) * 1000};
    if (microseconds > 0)
        nanosleep(&left, NULL);
}

/* One order; false, with errno, for a flush that failed. */
static bool carry_one(uint64_t *memory, const uint64_t *order, const struct counter *counter, const struct flush *flush)
{
    if (order[0] == CATALOGUE_MARK) {
        counter_flush(counter);
        return flush->line(&memory[LINE_WORDS * order[1]]);
    }
    if (order[0] == CATALOGUE_BARRIER)
        flush_barrier();
    else
        counter_store(counter, &memory[order[0]], order[1]);
    return true;
}

bool carry_out(uint64_t *memory, const uint64_t *orders, uint64_t count, const struct counter *counter, const struct carrying *how,
               uint64_t *carried)
{
    uint64_t i = 0;
    for (; i < count; i++) {
        pause_for(how->pause);
        if (!carry_one(memory, orders + 2 * i, counter, how->flush))
            break;
    }
    int why = errno;
    counter_finish(counter);
    *carried += i;
    errno = why;
    return i == count;
}
