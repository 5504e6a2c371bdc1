/* The way of a search through a table: nodes, moves and the slot. The library answers; the way must end where its answer is. */
#include "ways.h"

#include <inttypes.h>
#include <stdlib.h>

#include "catalogue.h"
#include "planned.h"
#include "table.h"
#include "tree.h"

#define MOST_LEVEL 15

/* ---- one way */

static void step(struct way *w, uint64_t node, int by)
{
    w->nodes[w->count] = node;
    w->by[w->count++] = by;
}

/* A slot in use whose pointer is not that of the one before it. */
static bool is_shown(const struct tree *tree, uint64_t n, unsigned slot)
{
    enum slot kind = tree_slot(tree, n, slot);
    return kind == SHOWN || kind == TRAILING;
}

/* The last shown slot whose key is at most k, or left. */
static int way_down(const struct tree *tree, uint64_t n, uint64_t key)
{
    int by = BY_LEFT;
    for (unsigned i = 0; i < SLOTS; i++)
        if (is_shown(tree, n, i) && tree_key(tree, n, i) <= key)
            by = (int)i;
    return by;
}

static int slot_with(const struct tree *tree, uint64_t n, uint64_t key)
{
    for (unsigned i = 0; i < SLOTS; i++)
        if (is_shown(tree, n, i) && tree_key(tree, n, i) == key)
            return (int)i;
    return -1;
}

/* To the sibling, if the key is the sibling's; false if a test of the search fails. */
static bool move(struct way *w, const struct tree *tree, uint64_t *n, uint64_t key)
{
    uint64_t sibling = tree_word(tree, *n, SIBLING);
    if (sibling == 0)
        return true;
    if (!tree_has(tree, sibling) || tree_word(tree, sibling, LEVEL) != tree_word(tree, *n, LEVEL))
        return false;
    if (key >= tree_word(tree, sibling, FENCE)) {
        step(w, sibling, BY_SIBLING);
        *n = sibling;
    }
    return true;
}

/* From the root to the leaf; false if the way is lost. */
static bool descend(struct way *w, const struct tree *tree, uint64_t root, uint64_t key)
{
    uint64_t n = root, level = tree_word(tree, root, LEVEL);
    step(w, root, BY_ROOT);
    if (level > MOST_LEVEL)
        return false;
    while (move(w, tree, &n, key)) {
        if (level == 0) {
            w->slot = slot_with(tree, n, key);
            return true;
        }
        int by = way_down(tree, n, key);
        uint64_t child = by == BY_LEFT ? tree_word(tree, n, LEFT) : tree_pointer(tree, n, (unsigned)by);
        if (!tree_has(tree, child) || tree_word(tree, child, LEVEL) != level - 1)
            return false;
        step(w, child, by);
        n = child;
        level--;
    }
    return false;
}

/* An absent key is refused too if the leaves after it, in which the next code up is looked for, are lost. */
static bool agrees(const struct way *w, const struct tree *tree, bool whole)
{
    if (!whole)
        return w->number == CATALOGUE_SEARCH_LOST;
    if (w->slot >= 0)
        return w->number == 0 && tree_pointer(tree, w->nodes[w->count - 1], (unsigned)w->slot) == w->pointer;
    return w->number == CATALOGUE_ABSENT || w->number == CATALOGUE_SEARCH_LOST;
}

bool way_find(struct way *w, const uint64_t *words, size_t count, uint64_t collection, uint64_t key)
{
    struct tree tree = {.words = words, .nodes = words[2]};
    uint64_t recording = 0, access = 0, higher = 0;
    *w = (struct way){.slot = -1};
    w->number = catalogue_search(words, count, collection, key, &recording, &access, &w->next, &higher);
    w->pointer = access << 56 | recording;
    w->higher = higher != 0;
    if (w->number == CATALOGUE_NO_TABLE || w->number == CATALOGUE_NO_COLLECTION)
        return true;
    bool whole = descend(w, &tree, words[collection == 1 ? FIRST_ROOT : SECOND_ROOT], key);
    return agrees(w, &tree, whole);
}

char *way_json(const struct way *w)
{
    char *text = NULL;
    size_t length;
    FILE *out = stream_into(&text, &length);
    fprintf(out, "[%" PRIu64 ",", w->number);
    if (w->number == 0)
        json_word(out, w->pointer);
    else if (w->number == CATALOGUE_ABSENT && w->higher)
        json_word(out, w->next);
    else
        fputs("\"\"", out);
    fprintf(out, ",%d,[", w->slot);
    for (size_t i = 0; i < w->count; i++)
        fprintf(out, "%s%" PRIu64 ",%d", i == 0 ? "" : ",", w->nodes[i], w->by[i]);
    fputs("]]", out);
    return stream_text(out, &text);
}

/* ---- keys that are searched alike */

static bool compared(uint64_t word)
{
    if (word < HEADER_WORDS)
        return false;
    uint64_t within = (word - HEADER_WORDS) % NODE_WORDS;
    return within == FENCE || (within >= 8 && within % 2 == 0);
}

static int by_number(const void *a, const void *b)
{
    uint64_t m = *(const uint64_t *)a, n = *(const uint64_t *)b;
    return m < n ? -1 : m > n;
}

static void add_key(struct marks *m, uint64_t key)
{
    if (key >= m->low && key <= m->high)
        m->keys[m->count++] = key;
    if (key >= m->low && key < m->high)
        m->keys[m->count++] = key + 1;
}

void marks_find(struct marks *m, const struct reel *r, uint64_t low, uint64_t high)
{
    *m = (struct marks){.low = low, .high = high};
    m->keys = room_of(r->words + 2 * r->count + 2, sizeof *m->keys);
    m->keys[m->count++] = low;
    for (uint64_t i = 0; i < r->words; i++)
        if (compared(i))
            add_key(m, r->base[i]);
    for (size_t i = 0; i < r->count; i++)
        if (order_stores(r->orders + 2 * i) && compared(r->orders[2 * i]))
            add_key(m, r->orders[2 * i + 1]);
    qsort(m->keys, m->count, sizeof *m->keys, by_number);
    size_t kept = 0;
    for (size_t i = 0; i < m->count; i++)
        if (kept == 0 || m->keys[kept - 1] != m->keys[i])
            m->keys[kept++] = m->keys[i];
    m->count = kept;
}

void marks_free(struct marks *m)
{
    free(m->keys);
}
