/*
 * Three whole calls between the loads of a search: 10 is added beside 20, removed, and added again, so that each word is read twice with the
 * same value. A search for 20 must answer 20's recording.
 */
#include <inttypes.h>
#include <stdio.h>

#include "looks.h"
#include "writer.h"

/* The pointer of the leaf's first slot. */
#define FIRST_POINTER 17

static uint64_t memory[HEADER_WORDS + NODE_WORDS + TRAILER_WORDS], working[HEADER_WORDS + NODE_WORDS];
static struct writer writer = {.memory = memory, .working = working, .words = HEADER_WORDS + NODE_WORDS, .brackets = BRACKET_LIST};
static bool searching;
static unsigned seen, called;

static void call(enum change kind)
{
    searching = false;
    called++;
    writer_change(&writer, kind, 1, 10, 111, 0);
    searching = true;
}

/* The calls fall before the first load of that word, before the header is compared, and before the second load of the word. */
uint64_t shared_load(const uint64_t *word)
{
    size_t w = (size_t)(word - memory);
    if (searching && w == FIRST_POINTER && ++seen <= 2)
        call(INSERT);
    if (searching && w == 0 && seen == 1 && called == 1)
        call(DELETE);
    return *word;
}

void shared_store(uint64_t *word, uint64_t value)
{
    *word = value;
}

int main(void)
{
    struct looks looks;
    struct looks_answer a;
    writer_make(&writer, 1);
    writer_change(&writer, INSERT, 1, 20, 222, 0);
    if (!looks_begin(&looks, memory, writer_counter(&writer), writer.words))
        return 1;
    searching = true;
    uint64_t number = looks_search(&looks, 1, 20, &a);
    looks_end(&looks);
    printf("three calls between the loads of a search for 20, which has 222: number %" PRIu64 ", recording %" PRIu64 "\n", number, a.recording);
    return number == 0 && a.recording == 222 && called == 3 ? 0 : 1;
}
