/* The catalogue's table from the C side: a packing routine, a search with the same moves, without tests and with them, a read pass. */
#include "plain.h"

enum { HEADER_WORDS = 8, NODE_WORDS = 32, SLOTS = 12, FIRST_SLOT = 8 };
enum { FIRST_ROOT = 1, SECOND_ROOT = 3 };
enum { MOST_NODES = 65535, MOST_LEVEL = 15 };
enum { LINES = 3, LINE_WORDS = 8 };
enum { LEFT = 0, SIBLING = 1, LEVEL = 2, FENCE = 3 };

/* Slots filled of the 11 that a node may show: 73 %, near the fill of a tree grown by random insertions. */
enum { FILL = 8 };

#define MARK UINT64_MAX

static uint64_t *node_at(uint64_t *table, uint64_t number)
{
    return table + HEADER_WORDS + NODE_WORDS * (number - 1);
}

static const uint64_t *seen_at(const uint64_t *table, uint64_t number)
{
    return table + HEADER_WORDS + NODE_WORDS * (number - 1);
}

/* Groups of this size that hold so many. */
static size_t groups(size_t many, size_t size)
{
    return (many + size - 1) / size;
}

size_t plain_nodes(size_t keys)
{
    size_t row = groups(keys, FILL), all = row;
    while (row > 1) {
        row = groups(row, FILL + 1);
        all += row;
    }
    return all;
}

/* A row of nodes on one level: the first one's place in the packing, and how many. */
struct row {
    size_t first;
    size_t count;
};

static void join(uint64_t *table, const uint64_t *place, struct row row, uint64_t level)
{
    for (size_t i = 0; i < row.count; i++) {
        uint64_t *node = node_at(table, place[row.first + i]);
        node[LEVEL] = level;
        node[SIBLING] = i + 1 < row.count ? place[row.first + i + 1] : 0;
    }
}

static void pack_leaf(uint64_t *leaf, const uint64_t *keys, const uint64_t *recordings, size_t count)
{
    leaf[LEFT] = MARK;
    for (size_t i = 0; i < count; i++) {
        leaf[FIRST_SLOT + 2 * i] = keys[i];
        leaf[FIRST_SLOT + 2 * i + 1] = recordings[i];
    }
}

static struct row pack_leaves(uint64_t *table, const uint64_t *place, const uint64_t *keys, const uint64_t *recordings, size_t count)
{
    struct row row = {0, groups(count, FILL)};
    for (size_t i = 0; i < row.count; i++) {
        size_t from = i * FILL, left = count - from;
        uint64_t *leaf = node_at(table, place[i]);
        pack_leaf(leaf, keys + from, recordings + from, left < FILL ? left : FILL);
        /* The first fence is the root's: 0. */
        leaf[FENCE] = i == 0 ? 0 : keys[from];
    }
    join(table, place, row, 0);
    return row;
}

/* The first child goes to left, the others into slots with their fences as keys. */
static void pack_inner(uint64_t *table, uint64_t *node, const uint64_t *children, size_t count)
{
    node[LEFT] = children[0];
    node[FENCE] = seen_at(table, children[0])[FENCE];
    for (size_t i = 1; i < count; i++) {
        node[FIRST_SLOT + 2 * (i - 1)] = seen_at(table, children[i])[FENCE];
        node[FIRST_SLOT + 2 * (i - 1) + 1] = children[i];
    }
}

static struct row pack_above(uint64_t *table, const uint64_t *place, struct row below, uint64_t level)
{
    struct row row = {below.first + below.count, groups(below.count, FILL + 1)};
    for (size_t i = 0; i < row.count; i++) {
        size_t from = i * (FILL + 1), left = below.count - from;
        pack_inner(table, node_at(table, place[row.first + i]), place + below.first + from, left < FILL + 1 ? left : FILL + 1);
    }
    join(table, place, row, level);
    return row;
}

void plain_pack(uint64_t *table, size_t nodes, const uint64_t *place, const uint64_t *keys, const uint64_t *recordings, size_t count)
{
    struct row row = pack_leaves(table, place, keys, recordings, count);
    for (uint64_t level = 1; row.count > 1; level++)
        row = pack_above(table, place, row, level);
    table[0] = 1;
    table[FIRST_ROOT] = place[row.first];
    table[2] = nodes;
}

/* The node itself, or its sibling if the key is not below that one's fence; never the sibling in a settled table. */
static const uint64_t *stand(const uint64_t *table, uint64_t number, uint64_t key)
{
    const uint64_t *node = seen_at(table, number);
    if (node[SIBLING] != 0 && key >= seen_at(table, node[SIBLING])[FENCE])
        return seen_at(table, node[SIBLING]);
    return node;
}

/* Out of line, so that the move is a branch, which the processor foresees: a conditional move waits for the sibling on every level. */
__attribute__((noinline, cold)) static const uint64_t *moved(const uint64_t *table, uint64_t sibling)
{
    return seen_at(table, sibling);
}

static const uint64_t *stand_foreseen(const uint64_t *table, uint64_t number, uint64_t key)
{
    const uint64_t *node = seen_at(table, number);
    if (node[SIBLING] != 0 && key >= seen_at(table, node[SIBLING])[FENCE])
        return moved(table, node[SIBLING]);
    return node;
}

/* As the library does it: every slot in use is looked at, since only a sound node's keys rise. */
static uint64_t route(const uint64_t *node, uint64_t key)
{
    uint64_t way = node[LEFT], before = node[LEFT];
    for (const uint64_t *slot = node + FIRST_SLOT; slot < node + FIRST_SLOT + 2 * SLOTS && slot[1] != 0; slot += 2) {
        if (slot[1] != before && slot[0] <= key)
            way = slot[1];
        before = slot[1];
    }
    return way;
}

static uint64_t in_leaf(const uint64_t *leaf, uint64_t key)
{
    uint64_t before = leaf[LEFT];
    for (const uint64_t *slot = leaf + FIRST_SLOT; slot < leaf + FIRST_SLOT + 2 * SLOTS && slot[1] != 0; slot += 2) {
        if (slot[1] != before && slot[0] == key)
            return slot[1];
        before = slot[1];
    }
    return 0;
}

/* The leaf's first shown slot with a larger key, and below the sibling's fence if there is one; 0 for none. */
static uint64_t above(const uint64_t *leaf, const uint64_t *sibling, uint64_t key)
{
    uint64_t before = leaf[LEFT];
    for (const uint64_t *slot = leaf + FIRST_SLOT; slot < leaf + FIRST_SLOT + 2 * SLOTS && slot[1] != 0; slot += 2) {
        if (slot[1] != before && slot[0] > key && (!sibling || slot[0] < sibling[FENCE]))
            return slot[0];
        before = slot[1];
    }
    return 0;
}

/* The recording, or 0 and the next key up, from this leaf on along the siblings. */
static uint64_t answer(const uint64_t *table, const uint64_t *leaf, uint64_t key, uint64_t *next)
{
    uint64_t recording = in_leaf(leaf, key);
    if (recording != 0)
        return recording;
    for (uint64_t found = 0; leaf && found == 0; *next = found) {
        const uint64_t *sibling = leaf[SIBLING] != 0 ? seen_at(table, leaf[SIBLING]) : NULL;
        found = above(leaf, sibling, key);
        leaf = sibling;
    }
    return 0;
}

uint64_t plain_search(const uint64_t *table, uint64_t key, uint64_t *next)
{
    uint64_t number = table[FIRST_ROOT];
    for (uint64_t level = seen_at(table, number)[LEVEL]; level > 0; level--)
        number = route(stand(table, number, key), key);
    return answer(table, stand(table, number, key), key, next);
}

uint64_t plain_foreseen_search(const uint64_t *table, uint64_t key, uint64_t *next)
{
    uint64_t number = table[FIRST_ROOT];
    for (uint64_t level = seen_at(table, number)[LEVEL]; level > 0; level--)
        number = route(stand_foreseen(table, number, key), key);
    return answer(table, stand_foreseen(table, number, key), key, next);
}

/* The last line whose word is at most the key, and on it alone the slot with the key, as source document 003 has it: true words are taken for granted. */
static uint64_t in_line(const uint64_t *leaf, const uint64_t *words, uint64_t key)
{
    int line = LINES - 1;
    while (line >= 0 && words[line] > key)
        line--;
    if (line < 0)
        return 0;
    const uint64_t *slot = leaf + FIRST_SLOT + LINE_WORDS * line;
    for (const uint64_t *end = slot + LINE_WORDS; slot < end && slot[1] != 0; slot += 2)
        if (slot[0] == key)
            return slot[1];
    return 0;
}

uint64_t plain_trusting_search(const uint64_t *table, const uint64_t *sentinels, uint64_t key, uint64_t *next)
{
    uint64_t number = table[FIRST_ROOT];
    for (uint64_t level = seen_at(table, number)[LEVEL]; level > 0; level--)
        number = route(stand_foreseen(table, number, key), key);
    const uint64_t *leaf = stand_foreseen(table, number, key);
    uint64_t recording = in_line(leaf, sentinels + LINES * (size_t)((leaf - seen_at(table, 1)) / NODE_WORDS), key);
    return recording != 0 ? recording : answer(table, leaf, key, next);
}

/* The number of nodes, if length, header and root are as the library wants them; else 0. */
static uint64_t tested_nodes(const uint64_t *table, size_t words)
{
    uint64_t nodes = words < HEADER_WORDS ? 0 : (words - HEADER_WORDS) / NODE_WORDS;
    if (nodes == 0 || nodes > MOST_NODES || HEADER_WORDS + NODE_WORDS * nodes != words || table[0] != 1 || table[2] != nodes)
        return 0;
    for (size_t w = SECOND_ROOT + 1; w < HEADER_WORDS; w++)
        if (table[w] != 0)
            return 0;
    if (table[SECOND_ROOT] != 0 && (table[SECOND_ROOT] > nodes || nodes == 1))
        return 0;
    return table[FIRST_ROOT] >= 1 && table[FIRST_ROOT] <= nodes ? nodes : 0;
}

/* The root of a collection; 0 if the table has no such collection. */
static uint64_t tested_root(const uint64_t *table, uint64_t collection)
{
    return collection == 1 ? table[FIRST_ROOT] : collection == 2 ? table[SECOND_ROOT] : 0;
}

static int on_level(const uint64_t *table, uint64_t nodes, uint64_t number, uint64_t level)
{
    return number >= 1 && number <= nodes && seen_at(table, number)[LEVEL] == level;
}

/* As answer, with each sibling tested and at most as many leaves entered as there are nodes. */
static uint64_t tested_answer(const uint64_t *table, uint64_t nodes, const uint64_t *leaf, uint64_t key, uint64_t *next)
{
    uint64_t recording = in_leaf(leaf, key), found = 0;
    if (recording != 0)
        return recording;
    for (uint64_t entered = 1; leaf && found == 0; entered++) {
        uint64_t number = leaf[SIBLING];
        if (entered > nodes || (number != 0 && !on_level(table, nodes, number, 0)))
            return 0;
        const uint64_t *sibling = number != 0 ? seen_at(table, number) : NULL;
        found = above(leaf, sibling, key);
        leaf = sibling;
    }
    *next = found;
    return 0;
}

uint64_t plain_tested_search(const uint64_t *table, size_t words, uint64_t collection, uint64_t key, uint64_t *next)
{
    uint64_t nodes = tested_nodes(table, words), number = nodes == 0 ? 0 : tested_root(table, collection);
    if (number == 0)
        return 0;
    uint64_t level = seen_at(table, number)[LEVEL];
    if (level > MOST_LEVEL)
        return 0;
    for (;; level--) {
        if (!on_level(table, nodes, number, level))
            return 0;
        uint64_t sibling = seen_at(table, number)[SIBLING];
        if (sibling != 0 && !on_level(table, nodes, sibling, level))
            return 0;
        const uint64_t *node = stand_foreseen(table, number, key);
        if (level == 0)
            return tested_answer(table, nodes, node, key, next);
        number = route(node, key);
    }
}

uint64_t plain_read_pass(const uint64_t *table, size_t nodes)
{
    uint64_t sum = 0;
    for (size_t w = HEADER_WORDS; w < HEADER_WORDS + NODE_WORDS * nodes; w++)
        sum += table[w];
    return sum;
}
