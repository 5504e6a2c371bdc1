/* A search of words that another thread or process may be changing: it takes no lock and stores nothing that is shared. */
#include "looks.h"

#include <sched.h>
#include <stdlib.h>
#include <string.h>
#include <sys/mman.h>

#include "catalogue.h"
#include "counter.h"

#define HEADER_WORDS 8
#define NODE_WORDS 32
#define LINE_WORDS 8
#define SLOTS 12
#define MOST_LEVEL 15
#define PAGE_BYTES 4096

/* Words of a node; slot i's key is word KEYS + 2 * i, its pointer the next one. */
enum { LEFT, SIBLING, LEVEL, FENCE, KEYS = 8, POINTERS };

/* The level, in the copy, of a node that was not looked at. */
#define NO_LEVEL UINT64_MAX

/* So many copies are forgotten one by one, more of them at once. A test may take another number. */
#ifndef LOOKS_FEW
#define LOOKS_FEW 64
#endif

/* Rounds: after the first number each gives the processor away, after the second the answer is LOOKS_BUSY. A test may take another second one. */
#define PATIENT_ROUNDS 100
#ifndef MOST_ROUNDS
#define MOST_ROUNDS 100000
#endif

bool looks_begin(struct looks *l, const uint64_t *shared, const uint64_t *counter, size_t count)
{
    uint64_t nodes = count < HEADER_WORDS ? 0 : (count - HEADER_WORDS) / NODE_WORDS;
    *l = (struct looks){.shared = shared, .counter = counter, .count = count, .nodes = nodes, .doubted = LOOKS_NO_DOUBT};
    l->size = PAGE_BYTES + count * sizeof *l->words;
    l->mapping = mmap(NULL, l->size, PROT_READ | PROT_WRITE, MAP_PRIVATE | MAP_ANONYMOUS | MAP_NORESERVE, -1, 0);
    if (l->mapping == MAP_FAILED) {
        l->mapping = NULL;
        return false;
    }
    /* Node 1 begins a page, so that no node lies on two. */
    l->words = (uint64_t *)l->mapping + PAGE_BYTES / sizeof *l->words - HEADER_WORDS;
    l->state = calloc(nodes + 1, sizeof *l->state);
    l->seen = calloc(nodes + 1, sizeof *l->seen);
    return l->state && l->seen;
}

void looks_end(struct looks *l)
{
    if (l->mapping)
        munmap(l->mapping, l->size);
    free(l->state);
    free(l->seen);
}

/* ---- the copy */

static bool has(const struct looks *l, uint64_t n)
{
    return n >= 1 && n <= l->nodes;
}

static size_t start_of(uint64_t n)
{
    return HEADER_WORDS + NODE_WORDS * ((size_t)n - 1);
}

/* Of a node that the table has. */
static uint64_t *copy_of(const struct looks *l, uint64_t n)
{
    return l->words + start_of(n);
}

static void load(struct looks *l, size_t from, size_t count)
{
    for (size_t w = from; w < from + count; w++)
        l->words[w] = shared_load(&l->shared[w]);
}

static bool same(const struct looks *l, size_t from, size_t count)
{
    for (size_t w = from; w < from + count; w++)
        if (l->words[w] != shared_load(&l->shared[w]))
            return false;
    return true;
}

/* Words of node n, or of the header, as they were loaded. The first that do not fit their sums are kept. */
static void test(struct looks *l, uint64_t n, const uint64_t *words, size_t lines)
{
    size_t first = n == 0 ? 0 : start_of(n);
    if (!l->fit || l->doubted != LOOKS_NO_DOUBT || l->fit(l->sums, words, first / LINE_WORDS, lines))
        return;
    l->doubted = n;
    l->doubtful_lines = lines;
    memcpy(l->doubtful, words, lines * LINE_WORDS * sizeof *words);
}

/* They are there still: they were the table's at one moment. */
static bool doubtful_still(const struct looks *l)
{
    size_t first = l->doubted == 0 ? 0 : start_of(l->doubted), w = 0;
    while (w < l->doubtful_lines * LINE_WORDS && shared_load(&l->shared[first + w]) == l->doubtful[w])
        w++;
    return w == l->doubtful_lines * LINE_WORDS;
}

/* No search passes node n before it is looked at: its words in the copy are zeros, which are a leaf, or those of a copy that was forgotten. */
static void guard(struct looks *l, uint64_t n)
{
    if (!has(l, n) || l->state[n] != LOOKS_UNGUARDED)
        return;
    copy_of(l, n)[LEVEL] = NO_LEVEL;
    l->state[n] = LOOKS_UNSEEN;
}

/* The nodes that a search may pass when it comes from node n. If all others are zeros it passes them from a leaf and from level 1 alone. */
static void guard_named(struct looks *l, uint64_t n)
{
    const uint64_t *words = copy_of(l, n);
    bool leaf = words[LEVEL] == 0;
    if (leaf || l->forgot)
        guard(l, words[SIBLING]);
    if (leaf || (words[LEVEL] > 1 && !l->forgot))
        return;
    guard(l, words[LEFT]);
    for (unsigned i = 0; i < SLOTS; i++)
        guard(l, words[POINTERS + 2 * i]);
}

/* A node is recorded once, whatever its words are. */
static void record(struct looks *l, uint64_t n, uint8_t state)
{
    if (l->state[n] < LOOKS_FENCE)
        l->seen[l->looked++] = (uint32_t)n;
    l->state[n] = state;
}

/* Node n is the table's, and all of it has been looked at. */
static bool look(struct looks *l, uint64_t n)
{
    if (!has(l, n))
        return false;
    if (l->state[n] != LOOKS_WHOLE) {
        load(l, start_of(n), NODE_WORDS);
        test(l, n, copy_of(l, n), NODE_WORDS / LINE_WORDS);
        record(l, n, LOOKS_WHOLE);
        guard_named(l, n);
    }
    return true;
}

/* Node n is the table's, and its level and fence have been looked at. A search that goes on from such a node is lost. */
static bool look_at_fence(struct looks *l, uint64_t n)
{
    if (!has(l, n))
        return false;
    if (l->state[n] < LOOKS_FENCE) {
        uint64_t *words = copy_of(l, n);
        if (l->fit)
            load(l, start_of(n), LINE_WORDS);
        else
            load(l, start_of(n) + LEVEL, FENCE + 1 - LEVEL);
        test(l, n, words, 1);
        words[LEFT] = 0;
        words[SIBLING] = CATALOGUE_MARK;
        words[POINTERS] = 0;
        record(l, n, LOOKS_FENCE);
    }
    return true;
}

/* Many copies stay as they are, unguarded: a byte a node is cleared, and a node costs something when a search comes near it again. */
static void forget(struct looks *l)
{
    if (l->looked > LOOKS_FEW) {
        memset(l->state, LOOKS_UNGUARDED, l->nodes + 1);
        l->looked = 0;
        l->forgot = true;
    }
    while (l->looked > 0) {
        uint64_t n = l->seen[--l->looked];
        l->state[n] = LOOKS_UNGUARDED;
        guard(l, n);
    }
}

/* All copies are forgotten, and the header is looked at. */
static void begin_anew(struct looks *l)
{
    forget(l);
    l->holds = false;
    l->doubted = LOOKS_NO_DOUBT;
    load(l, 0, l->count < HEADER_WORDS ? l->count : HEADER_WORDS);
    if (l->count >= HEADER_WORDS) {
        test(l, 0, l->words, 1);
        guard(l, l->words[1]);
        guard(l, l->words[3]);
    }
}

/* Every word that was looked at has the value that was seen. */
static bool unchanged(const struct looks *l)
{
    bool still = same(l, 0, l->count < HEADER_WORDS ? l->count : HEADER_WORDS);
    for (size_t i = 0; still && i < l->looked; i++) {
        uint64_t n = l->seen[i];
        still = l->state[n] == LOOKS_WHOLE ? same(l, start_of(n), NODE_WORDS) : same(l, start_of(n) + LEVEL, FENCE + 1 - LEVEL);
    }
    return still;
}

/*
 * ---- the nodes that a search passes, each after the one that names it; if one is missed the library's search comes to a level that it does
 * not pass
 */

/* The child for a key. */
static uint64_t way_down(const struct looks *l, uint64_t n, uint64_t key)
{
    const uint64_t *words = copy_of(l, n);
    uint64_t before = words[LEFT], way = before;
    for (unsigned i = 0; i < SLOTS && words[POINTERS + 2 * i] != 0; i++) {
        uint64_t pointer = words[POINTERS + 2 * i];
        if (pointer != before && words[KEYS + 2 * i] <= key)
            way = pointer;
        before = pointer;
    }
    return way;
}

/* Coming to node n on a level from low to high: the node that the search stands on, n or its sibling; 0 if it is lost. */
static uint64_t stand(struct looks *l, uint64_t n, uint64_t low, uint64_t high, uint64_t key)
{
    if (!look(l, n))
        return 0;
    uint64_t level = copy_of(l, n)[LEVEL], sibling = copy_of(l, n)[SIBLING];
    if (level < low || level > high)
        return 0;
    if (sibling == 0)
        return n;
    if (!look_at_fence(l, sibling) || copy_of(l, sibling)[LEVEL] != level)
        return 0;
    if (key < copy_of(l, sibling)[FENCE])
        return n;
    look(l, sibling);
    return copy_of(l, sibling)[LEVEL] == level ? sibling : 0;
}

/* From the root down to the leaf for a key; 0 if the search is lost before it. */
static uint64_t look_down(struct looks *l, uint64_t root, uint64_t key)
{
    uint64_t n = stand(l, root, 0, MOST_LEVEL, key);
    while (n != 0 && copy_of(l, n)[LEVEL] != 0) {
        uint64_t below = copy_of(l, n)[LEVEL] - 1;
        n = stand(l, way_down(l, n, key), below, below, key);
    }
    if (n != 0)
        look_at_fence(l, copy_of(l, n)[SIBLING]);
    return n;
}

/* So many leaves more that were not looked at, along the siblings, and the fence after them; whether there was any. Some go round in a ring. */
static bool look_along(struct looks *l, uint64_t *leaf, uint64_t count)
{
    uint64_t left = count;
    for (uint64_t steps = 0; steps < l->nodes && left > 0; steps++) {
        uint64_t sibling = copy_of(l, *leaf)[SIBLING];
        if (!has(l, sibling))
            break;
        left -= l->state[sibling] != LOOKS_WHOLE;
        look(l, sibling);
        if (copy_of(l, sibling)[LEVEL] != 0)
            break;
        *leaf = sibling;
    }
    look_at_fence(l, copy_of(l, *leaf)[SIBLING]);
    return left < count;
}

static uint64_t ask(const struct looks *l, uint64_t collection, uint64_t key, struct looks_answer *answer)
{
    *answer = (struct looks_answer){0};
    return catalogue_search(l->words, l->count, collection, key, &answer->recording, &answer->access, &answer->next, &answer->higher);
}

/* Looks at nodes until the library's search has all that it passes; what it answers. The next code up may be some leaves away. */
static uint64_t search(struct looks *l, uint64_t collection, uint64_t key, struct looks_answer *answer)
{
    uint64_t leaf = l->nodes == 0 ? 0 : look_down(l, l->words[collection == 1 ? 1 : 3], key);
    uint64_t number = ask(l, collection, key, answer);
    for (uint64_t ahead = 1; number == CATALOGUE_SEARCH_LOST && leaf != 0 && look_along(l, &leaf, ahead); ahead *= 2)
        number = ask(l, collection, key, answer);
    return number;
}

/* ---- the answer of one moment */

/* One round: whether the answer is that of a moment. */
static bool answers(struct looks *l, uint64_t collection, uint64_t key, struct looks_answer *answer, uint64_t *number)
{
    uint64_t start = shared_load(l->counter);
    bool kept = l->holds && start == l->valid;
    if (!kept)
        begin_anew(l);
    size_t looked = l->looked;
    *number = search(l, collection, key, answer);
    l->filled = l->looked == looked;
    uint64_t end = shared_load(l->counter);
    l->holds = start % 2 == 0 && end == start;
    l->valid = start;
    if (l->doubted != LOOKS_NO_DOUBT) {
        l->holds = false;
        *number = LOOKS_DECAYED;
        return end == start && doubtful_still(l) && shared_load(l->counter) == start;
    }
    if (l->holds)
        return true;
    /* Copies of earlier searches are too many to compare. */
    return !kept && counter_at_most_one(start, end) && unchanged(l) && counter_at_most_one(start, shared_load(l->counter));
}

uint64_t looks_search(struct looks *l, uint64_t collection, uint64_t key, struct looks_answer *answer)
{
    uint64_t number;
    /* The copies were the table's words when the counter was read, whatever it is now. */
    if (l->holds && l->filled && shared_load(l->counter) == l->valid) {
        number = ask(l, collection, key, answer);
        if (number != CATALOGUE_SEARCH_LOST)
            return number;
    }
    for (unsigned round = 0; round < MOST_ROUNDS; round++) {
        if (round >= PATIENT_ROUNDS)
            sched_yield();
        if (answers(l, collection, key, answer, &number))
            return number;
    }
    *answer = (struct looks_answer){0};
    return LOOKS_BUSY;
}
