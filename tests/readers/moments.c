/*
 * The whole table of one moment, file/moment.c, beside a writer whose stores fall between any of the reader's loads. Each trial has a few brackets
 * of random stores; the reader begins after some of them, and each load may let the writer go on. What it takes for the table must be what memory
 * held at one moment between its begin and its end; a reader that gives up, or begins again, is right too, but it must come to an end once the
 * writer stands. Within a bracket no word takes a value again that it lost, as the writer promises. Prints what was tried; the words are a seed and
 * how many trials.
 */
#include <inttypes.h>
#include <stdio.h>
#include <stdlib.h>
#include <string.h>

#include "handle.h"
#include "mapping.h"
#include "memory.h"
#include "moment.h"
#include "open.h"
#include "sums.h"

#define WORDS 3
#define MOST_STEPS 64

static uint64_t memory[WORDS + TRAILER_WORDS], at[MOST_STEPS + 1][WORDS], seed;
static struct {
    size_t word;
    uint64_t value;
} steps[MOST_STEPS];
static size_t count, made, begun;
static unsigned eager; /* of 16 loads, those before which the writer goes on */

/* ---- what the reader's source asks for */

static uint64_t random_below(uint64_t n)
{
    seed = seed * UINT64_C(6364136223846793005) + UINT64_C(1442695040888963407);
    return (seed >> 33) % n;
}

static void go_on(void)
{
    if (made == count)
        return;
    memory[steps[made].word] = steps[made].value;
    made++;
}

uint64_t shared_load(const uint64_t *word)
{
    while (made < count && random_below(16) < eager)
        go_on();
    return *word;
}

void shared_store(uint64_t *word, uint64_t value)
{
    *word = value;
}

uint64_t follow_name(struct catalogue_file *f)
{
    (void)f;
    return 0;
}

uint64_t must_be_open(struct catalogue_file *f)
{
    (void)f;
    return 0;
}

uint64_t refresh(struct catalogue_file *f)
{
    (void)f;
    return 0;
}

/* The table has no file of sums. */
uint64_t open_sums(struct catalogue_file *f)
{
    (void)f;
    return 0;
}

bool sums_fit(const void *sums, const uint64_t *words, uint64_t first, size_t lines)
{
    (void)sums;
    (void)words;
    (void)first;
    (void)lines;
    return true;
}

uint64_t sums_node(uint64_t line)
{
    return line;
}

uint64_t sums_refuse(struct catalogue_file *f)
{
    (void)f;
    return 0;
}

bool sums_refused(uint64_t number)
{
    (void)number;
    return false;
}

uint64_t sums_doubt(struct catalogue_file *f, uint64_t node, uint64_t counter)
{
    (void)f;
    (void)node;
    (void)counter;
    return CATALOGUE_FILE_DECAYED;
}

uint64_t no_memory(struct catalogue_file *f)
{
    (void)f;
    return CATALOGUE_FILE_NO_MEMORY;
}

uint64_t fails(struct catalogue_file *f, uint64_t number, const char *format, ...)
{
    (void)f;
    (void)format;
    return number;
}

size_t bytes_of(size_t words, bool trailer)
{
    return (words + (trailer ? TRAILER_WORDS : 0)) * sizeof(uint64_t);
}

/* ---- the writer */

static void step(size_t word, uint64_t value)
{
    steps[count].word = word;
    steps[count].value = value;
    memcpy(at[count + 1], at[count], sizeof at[0]);
    if (word < WORDS)
        at[count + 1][word] = value;
    count++;
}

/* Brackets, each with some stores; words come back to older values from bracket to bracket, and not within one. */
static void plan(void)
{
    memset(memory, 0, sizeof memory);
    memset(at, 0, sizeof at);
    count = made = 0;
    uint64_t counter = 0;
    for (uint64_t brackets = 1 + random_below(7); brackets > 0; brackets--) {
        bool stored[WORDS] = {false};
        step(WORDS + TRAILER_COUNTER, ++counter);
        for (uint64_t stores = 1 + random_below(3); stores > 0; stores--) {
            size_t word = random_below(WORDS);
            if (!stored[word])
                step(word, 1 - at[count][word]);
            stored[word] = true;
        }
        step(WORDS + TRAILER_COUNTER, ++counter);
    }
    for (begun = random_below(count); made < begun;)
        go_on();
}

static bool was_there(const uint64_t *table)
{
    for (size_t moment = begun; moment <= made; moment++)
        if (memcmp(table, at[moment], sizeof at[0]) == 0)
            return true;
    return false;
}

int main(int words, char **word)
{
    uint64_t trials = words > 2 ? strtoull(word[2], NULL, 10) : 1000000, between = 0;
    seed = words > 1 ? strtoull(word[1], NULL, 10) : 1;
    for (uint64_t trial = 0; trial < trials; trial++) {
        struct catalogue_file f = {.mapped = memory, .words = WORDS};
        plan();
        eager = (unsigned)random_below(8);
        uint64_t number = whole_table(&f);
        bool right = number == 0 ? was_there(f.working) : number == CATALOGUE_FILE_BUSY && made < count;
        if (!right) {
            printf("trial %" PRIu64 ": %" PRIu64 ", and memory never held what the reader has, from step %zu to %zu of %zu\n", trial, number, begun,
                   made, count);
            return 1;
        }
        between += begun < made;
        free(f.working);
    }
    printf("%" PRIu64 " whole tables, %" PRIu64 " of them with stores meanwhile\n", trials, between);
    return 0;
}
