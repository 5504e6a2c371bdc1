/*
 * Searches of any words: damaged SEED TABLES. On words that keep still each answer is the library's own search of them: tables with words
 * changed, rings of leaves, any words, any count of words; also if words changed since the reader's last search, in a bracket. On words that change
 * at random at any load a search ends and reads inside of its words: guard words lie around them, and the sanitizers watch the rest.
 */
#include <inttypes.h>
#include <stdio.h>
#include <stdlib.h>
#include <string.h>

#include "looks.h"
#include "writer.h"

#define MOST_NODES 40
#define MOST_WORDS (HEADER_WORDS + NODE_WORDS * MOST_NODES + TRAILER_WORDS)

static uint64_t memory[MOST_WORDS], working[MOST_WORDS];
static struct writer writer = {.memory = memory, .working = working, .brackets = BRACKET_LIST};
static uint64_t state;
static bool changing;
static size_t last_word = MOST_WORDS - 1;

static uint64_t random_below(uint64_t n)
{
    state ^= state << 13;
    state ^= state >> 7;
    state ^= state << 17;
    return state % n;
}

/* Numbers that mean something somewhere, and others. */
static uint64_t any_word(void)
{
    switch (random_below(6)) {
    case 0:
        return random_below(MOST_NODES + 3);
    case 1:
        return 10 * random_below(200);
    case 2:
        return CATALOGUE_MARK - random_below(2);
    case 3:
        return 0;
    case 4:
        return random_below(3);
    default:
        return random_below(UINT64_MAX);
    }
}

uint64_t shared_load(const uint64_t *word)
{
    size_t w = (size_t)(word - memory);
    if (w > last_word) {
        printf("word %zu was read, of %zu\n", w, last_word);
        exit(1);
    }
    if (changing && random_below(20) == 0)
        memory[random_below(last_word + 1)] = any_word();
    return *word;
}

void shared_store(uint64_t *word, uint64_t value)
{
    *word = value;
}

static void make_table(void)
{
    uint64_t nodes = 2 + random_below(MOST_NODES - 1), collections = 1 + random_below(2), number = 0;
    writer.words = HEADER_WORDS + NODE_WORDS * nodes;
    writer_make(&writer, collections);
    for (uint64_t i = random_below(8 * nodes); i > 0 && number != CATALOGUE_NO_NODES; i--) {
        uint64_t key = 10 * random_below(200);
        number = writer_plan(&writer, INSERT, 1 + random_below(collections), key, key + 1, key % 3, NULL);
        if (number == 0)
            writer_carry(&writer, INSERT, writer.count, 0);
    }
}

/* A node's words that lead elsewhere, more often than others. */
static void damage(void)
{
    for (uint64_t i = random_below(6); i > 0; i--) {
        size_t n = random_below((writer.words - HEADER_WORDS) / NODE_WORDS), w = random_below(3) == 0 ? random_below(4) : random_below(NODE_WORDS);
        memory[HEADER_WORDS + NODE_WORDS * n + w] = any_word();
    }
}

/* All leaves are empty, in a chain that may be a ring. */
static void empty_leaves(void)
{
    uint64_t nodes = (writer.words - HEADER_WORDS) / NODE_WORDS;
    memset(memory + HEADER_WORDS, 0, (writer.words - HEADER_WORDS) * sizeof memory[0]);
    for (uint64_t n = 1; n < nodes; n++)
        memory[HEADER_WORDS + NODE_WORDS * (n - 1) + 1] = n + 1;
    memory[HEADER_WORDS + NODE_WORDS * (nodes - 1) + 1] = random_below(2) * (1 + random_below(nodes));
    memory[HEADER_WORDS + NODE_WORDS * random_below(nodes) + 8] = 777;
    memory[HEADER_WORDS + NODE_WORDS * random_below(nodes) + 9] = random_below(2);
    for (uint64_t n = 1; n < nodes; n++)
        memory[HEADER_WORDS + NODE_WORDS * n + 3] = random_below(4) == 0 ? 0 : UINT64_MAX;
}

/* ---- searches */

static uint64_t compared[4]; /* found, absent, lost, other */

static const uint64_t *copy_of(const struct looks *l, uint64_t n)
{
    return l->words + HEADER_WORDS + NODE_WORDS * (n - 1);
}

static bool looked_at(const struct looks *l, uint64_t n)
{
    size_t i = 0;
    while (i < l->looked && l->seen[i] != n)
        i++;
    return i < l->looked;
}

/* A search that stands on node n does not pass the node that it names, on that level, unless it was looked at. */
static void check_named(const struct looks *l, uint64_t n, uint64_t named, uint64_t level)
{
    if (named < 1 || named > l->nodes || looked_at(l, named) || copy_of(l, named)[2] != level)
        return;
    printf("node %" PRIu64 ", which node %" PRIu64 " names, was not looked at, and is of level %" PRIu64 "\n", named, n, level);
    exit(1);
}

static void check_copy(const struct looks *l)
{
    for (size_t i = 0; i < l->looked; i++) {
        uint64_t n = l->seen[i];
        const uint64_t *words = copy_of(l, n);
        /* No search passes a higher level than 15. */
        if (l->state[n] != LOOKS_WHOLE || words[2] > 15)
            continue;
        check_named(l, n, words[1], words[2]);
        for (unsigned w = 7; words[2] > 0 && w < NODE_WORDS; w += 2)
            check_named(l, n, words[w == 7 ? 0 : w], words[2] - 1);
    }
}

static void compare(struct looks *l, uint64_t collection, uint64_t key)
{
    struct looks_answer a, b = {0};
    uint64_t number = looks_search(l, collection, key, &a);
    uint64_t wanted = catalogue_search(memory, l->count, collection, key, &b.recording, &b.access, &b.next, &b.higher);
    if (number != wanted || memcmp(&a, &b, sizeof a) != 0) {
        printf("search for %" PRIu64 " in collection %" PRIu64 " of %zu words: %" PRIu64 ", the library %" PRIu64 "\n", key, collection, l->count,
               number, wanted);
        exit(1);
    }
    check_copy(l);
    compared[number == 0 ? 0 : number == CATALOGUE_ABSENT ? 1 : number == CATALOGUE_SEARCH_LOST ? 2 : 3]++;
}

static void compare_some(struct looks *l, unsigned searches)
{
    for (unsigned i = 0; i < searches; i++)
        compare(l, random_below(9) == 0 ? random_below(4) : 1 + random_below(2), random_below(3) == 0 ? any_word() : 10 * random_below(200) + random_below(2));
}

/* Many searches by one reader, so that copies are kept, and forgotten when words change; then some while words change, which must end. */
static void search(size_t count)
{
    struct looks l;
    struct looks_answer a;
    last_word = writer.words + TRAILER_COUNTER;
    if (!looks_begin(&l, memory, writer_counter(&writer), count))
        exit(2);
    compare_some(&l, 30);
    for (unsigned i = 0; i < 8; i++) {
        damage();
        *writer_counter(&writer) += 2;
        compare_some(&l, 1 + (unsigned)random_below(12));
    }
    changing = true;
    for (unsigned i = 0; i < 3; i++)
        looks_search(&l, 1 + random_below(2), 10 * random_below(200), &a);
    changing = false;
    last_word = MOST_WORDS - 1;
    looks_end(&l);
}

int main(int count, char **arguments)
{
    uint64_t seed = count > 1 ? strtoull(arguments[1], NULL, 10) : 1, tables = count > 2 ? strtoull(arguments[2], NULL, 10) : 1000;
    state = seed + 88172645463325252u;
    for (uint64_t i = 0; i < tables; i++) {
        make_table();
        if (i % 8 == 0)
            empty_leaves();
        else if (i % 8 != 1)
            damage();
        if (i % 50 == 7)
            for (size_t w = 0; w < writer.words; w++)
                memory[w] = any_word();
        if (i % 10 == 9)
            memory[random_below(HEADER_WORDS)] = any_word();
        search(i % 40 == 11 ? random_below(writer.words) : writer.words);
    }
    printf("seed %" PRIu64 ": %" PRIu64 " damaged tables: %" PRIu64 " found, %" PRIu64 " absent, %" PRIu64 " lost, %" PRIu64 " refused otherwise\n", seed,
           tables, compared[0], compared[1], compared[2], compared[3]);
    return compared[0] && compared[1] && compared[2] && compared[3] ? 0 : 1;
}
