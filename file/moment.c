/* The whole table of one moment, copied beside a writer as a search copies the nodes that it passes. */
#include "moment.h"

#include <stdlib.h>
#include <time.h>

#include "mapping.h"
#include "memory.h"
#include "open.h"
#include "sums.h"

/* Rounds: after the first number a millisecond lies between two. */
#define PATIENT_ROUNDS 10
#define MOST_ROUNDS 2000

static void copy(const uint64_t *from, uint64_t *to, size_t words)
{
    for (size_t i = 0; i < words; i++)
        to[i] = shared_load(&from[i]);
}

static bool same(const uint64_t *from, const uint64_t *to, size_t words)
{
    size_t i = 0;
    while (i < words && to[i] == shared_load(&from[i]))
        i++;
    return i == words;
}

/* One round: the copy was the table at one moment, if no store was made, or if all words are there still and one bracket at most has stores. */
static bool copied(const struct catalogue_file *f)
{
    const uint64_t *counter = &f->mapped[f->words + TRAILER_COUNTER];
    uint64_t start = shared_load(counter);
    copy(f->mapped, f->working, f->words);
    uint64_t end = shared_load(counter);
    if (start % 2 == 0 && end == start)
        return true;
    return counter_at_most_one(start, end) && same(f->mapped, f->working, f->words) && counter_at_most_one(start, shared_load(counter));
}

static bool fits(const struct catalogue_file *f, uint64_t line)
{
    return !f->sums.mapped || sums_fit(&f->sums, f->working + LINE_WORDS * line, line, 1);
}

/* Lines of the copy that do not fit: how many; the first one. */
static uint64_t doubts_of(const struct catalogue_file *f, uint64_t *first)
{
    uint64_t found = 0;
    for (uint64_t line = f->words / LINE_WORDS; f->sums.mapped && line-- > 0;)
        if (!fits(f, line)) {
            found++;
            *first = line;
        }
    return found;
}

/* One round more: lines that do not fit count if no store was made meanwhile, nor to the sums. */
static bool copied_and_tested(struct catalogue_file *f, uint64_t *doubts, uint64_t *first, uint64_t *counter)
{
    const uint64_t *word = &f->mapped[f->words + TRAILER_COUNTER];
    *counter = shared_load(word);
    if (!copied(f))
        return false;
    *doubts = doubts_of(f, first);
    return *doubts == 0 || shared_load(word) == *counter;
}

static uint64_t room_for_copy(struct catalogue_file *f)
{
    if (!f->working)
        f->working = malloc(bytes_of(f->words, false));
    f->repaired = false;
    return f->working ? 0 : no_memory(f);
}

/* Of a reader; *doubts lines do not fit. */
static uint64_t take_moment(struct catalogue_file *f, uint64_t *doubts, uint64_t *first, uint64_t *counter)
{
    const struct timespec moment = {.tv_nsec = 1000000};
    uint64_t number = room_for_copy(f);
    for (unsigned round = 0; number == 0 && round < MOST_ROUNDS; round++) {
        if (round >= PATIENT_ROUNDS)
            nanosleep(&moment, NULL);
        if (copied_and_tested(f, doubts, first, counter))
            return 0;
    }
    return number != 0 ? number : fails(f, CATALOGUE_FILE_BUSY, "%s is changed faster than it can be read", f->name);
}

uint64_t whole_words(struct catalogue_file *f)
{
    uint64_t doubts, first, counter, number = f->writing ? refresh(f) : follow_name(f);
    if (number == 0 && !f->writing)
        number = take_moment(f, &doubts, &first, &counter);
    return number;
}

/* Of a reader. */
static uint64_t moment_that_fits(struct catalogue_file *f)
{
    uint64_t doubts = 0, first = 0, counter = 0, number = follow_name(f);
    if (number == 0)
        number = sums_refuse(f);
    if (number == 0)
        number = take_moment(f, &doubts, &first, &counter);
    return number != 0 || doubts == 0 ? number : sums_doubt(f, sums_node(first), counter);
}

uint64_t whole_table(struct catalogue_file *f)
{
    uint64_t number = f->writing ? refresh(f) : moment_that_fits(f);
    if (f->writing)
        return number == 0 ? sums_refuse(f) : number;
    if (!sums_refused(number))
        return number;
    /* Once more with the sums that are there now. */
    number = open_sums(f);
    return number == 0 ? moment_that_fits(f) : number;
}

uint64_t catalogue_file_table(catalogue_file *f, const uint64_t **table, size_t *words)
{
    uint64_t number = must_be_open(f);
    if (number == 0)
        number = whole_table(f);
    if (number == 0) {
        *table = f->working;
        *words = f->words;
    }
    return number;
}
