/* The counter in a table's trailer. Readers compare it before and after their looks, and so know how many brackets of stores ran meanwhile. */
#ifndef COUNTER_H
#define COUNTER_H

#include <stdbool.h>
#include <stdint.h>

/* The trailer, the line behind the table's words: what its words are. Those not named are 0. */
enum { TRAILER_FORMAT, TRAILER_COUNTER, TRAILER_REPLACED, TRAILER_SUMS, TRAILER_WORDS = 8 };

/*
 * Words that processes share: whole loads and stores of 8 bytes. Loads are made in their order, and so are stores, on every processor. A
 * test may put its own functions in their place.
 */
#ifdef SHARED_HOOKED
uint64_t shared_load(const uint64_t *word);
void shared_store(uint64_t *word, uint64_t value);
#else
static inline uint64_t shared_load(const uint64_t *word)
{
    return __atomic_load_n(word, __ATOMIC_ACQUIRE);
}

static inline void shared_store(uint64_t *word, uint64_t value)
{
    __atomic_store_n(word, value, __ATOMIC_RELEASE);
}
#endif

/*
 * A bracket is a run of stores in which no word of a node that readers come to takes a value again that it had and lost. While one is open the
 * counter is odd. Which stores of an order list are one bracket:
 */
enum brackets {
    BRACKET_LIST,  /* all of the list: one insertion, deletion or class change on a settled table, on memory whose flushes take no time */
    BRACKET_FLUSH, /* those up to a flush: a batch, or one such change beside a disk; no bracket is open while the disk is waited for */
    BRACKET_STORE  /* each by itself: a repair, in which words do come back. A change with its repair is never carried out as one list */
};

/* Between these two readings of the counter at most one bracket had stores: one that was open, or one that began. */
static inline bool counter_at_most_one(uint64_t start, uint64_t end)
{
    return end - start <= (start % 2 == 0 ? 2 : 1);
}

/* The counter while one order list is carried out, by the one writer, which holds the table's lock. */
struct counter {
    uint64_t *word;
    enum brackets brackets;
};

/* Ends the open bracket, if one is open: a writer that was killed leaves one. A writer that has just taken the lock does so first. */
void counter_close(uint64_t *word);

/* Before the first order of a list. What a list before it left open is ended, so that no bracket has stores of two lists. */
struct counter counter_start(uint64_t *word, enum brackets brackets);

/* Makes a store of the list: a carry-out makes each by this call. */
void counter_store(const struct counter *c, uint64_t *word, uint64_t value);

/* Before each flush of the list. */
void counter_flush(const struct counter *c);

/* After the last order, or if the rest of the list is given up. */
void counter_finish(const struct counter *c);

#endif
