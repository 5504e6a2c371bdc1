/*
 * A FAST and FAIR B+-tree with 512-byte nodes (Hwang and others, USENIX FAST 2018), one thread, counting stores and line flushes.
 * Written from the paper: Algorithm 1 (shift), Algorithm 2 (split), section 3.5 (deletion), Algorithm 3 (search). Flushes are counted,
 * not executed. The switch counter and the number of entries are hints that recovery does without: neither counted nor flushed.
 */
#include "fastfair.h"

#include <stdlib.h>
#include <string.h>

enum { NODE_BYTES = 512, LINE_BYTES = 64, ENTRIES = 30 };

/* The entry after the last one holds the null pointer that ends the node. */
enum { CAPACITY = ENTRIES - 1, MEDIAN = CAPACITY / 2 };

/* The fewest entries that a split leaves in a node is MEDIAN; a little less, so that inner nodes have room too. */
enum { KEYS_PER_NODE = 12, SPARE_NODES = 64 };

/* Before a leaf's first pointer: equal to no value, so that slot 0 can be hidden as any other. */
#define LEAF_LEFT UINT64_MAX

struct entry {
    uint64_t key;
    uint64_t pointer;
};

struct node {
    uint64_t left; /* the leftmost child */
    uint64_t sibling;
    uint64_t level;
    uint32_t turns; /* the paper's switch counter: odd after a deletion */
    uint32_t count; /* entries in use */
    struct entry entries[ENTRIES];
};

_Static_assert(sizeof(struct node) == NODE_BYTES, "a node has 512 bytes");

struct fastfair {
    struct node *nodes;
    size_t used, room;
    uint64_t *root; /* in a line of its own */
    uintptr_t dirty; /* the line stored to and not yet flushed; 0 for none */
    uint64_t stores, flushes;
};

static struct node *node_of(uint64_t pointer)
{
    return (struct node *)(uintptr_t)pointer;
}

static uint64_t pointer_to(const struct node *node)
{
    return (uint64_t)(uintptr_t)node;
}

/* ---- stores and flushes */

static void settle(struct fastfair *tree)
{
    tree->flushes += tree->dirty != 0;
    tree->dirty = 0;
}

/* "We flush dirty cache lines only when we are about to make the next cache line dirty" (section 3.5). */
static void put(struct fastfair *tree, uint64_t *word, uint64_t value)
{
    uintptr_t line = (uintptr_t)word / LINE_BYTES;
    if (line != tree->dirty)
        settle(tree);
    tree->dirty = line;
    tree->stores++;
    *word = value;
}

/* Algorithm 2, line 15: a new node is flushed as a whole. */
static void settle_node(struct fastfair *tree)
{
    tree->flushes += NODE_BYTES / LINE_BYTES;
}

static struct node *fresh(struct fastfair *tree, uint64_t left, uint64_t sibling, uint64_t level)
{
    if (tree->used == tree->room)
        abort();
    struct node *node = &tree->nodes[tree->used++];
    memset(node, 0, sizeof *node);
    node->left = left;
    node->sibling = sibling;
    node->level = level;
    tree->stores += 3;
    return node;
}

/* An entry at the end of a node that nothing leads to yet. */
static void append(struct fastfair *tree, struct node *node, struct entry entry)
{
    node->entries[node->count++] = entry;
    tree->stores += 2;
}

static void end(struct fastfair *tree, struct node *node)
{
    node->entries[node->count].pointer = 0;
    tree->stores++;
    settle_node(tree);
}

/* ---- search */

static uint64_t before(const struct node *node, size_t i)
{
    return i == 0 ? node->left : node->entries[i - 1].pointer;
}

/* Whether the sibling's first key is at most this key. */
static int belongs_right(const struct node *node, uint64_t key)
{
    const struct node *sibling = node_of(node->sibling);
    return sibling && sibling->entries[0].pointer != 0 && sibling->entries[0].key <= key;
}

/* The last entry with a key at most this one leads down, else left; past the last entry the sibling may be the way. */
static uint64_t step(const struct node *node, uint64_t key)
{
    uint64_t way = node->left, last = node->left;
    const struct entry *e = node->entries;
    for (; e->pointer != 0 && e->key <= key; e++) {
        if (e->pointer != last)
            way = e->pointer;
        last = e->pointer;
    }
    if (e->pointer == 0 && belongs_right(node, key))
        return node->sibling;
    return way;
}

static struct node *descend(const struct fastfair *tree, uint64_t level, uint64_t key)
{
    struct node *node = node_of(*tree->root);
    while (node->level > level)
        node = node_of(step(node, key));
    while (belongs_right(node, key))
        node = node_of(node->sibling);
    return node;
}

static uint64_t scan_right(const struct node *leaf, uint64_t key)
{
    uint64_t last = leaf->left;
    for (const struct entry *e = leaf->entries; e->pointer != 0; e++) {
        if (e->key == key && e->pointer != last)
            return e->pointer;
        last = e->pointer;
    }
    return 0;
}

static uint64_t scan_left(const struct node *leaf, uint64_t key)
{
    for (size_t i = leaf->count; i-- > 0;)
        if (leaf->entries[i].key == key && leaf->entries[i].pointer != before(leaf, i))
            return leaf->entries[i].pointer;
    return 0;
}

/* Algorithm 3: the direction goes by the counter, which must not change meanwhile. */
static uint64_t in_leaf(const struct node *leaf, uint64_t key)
{
    uint32_t turns;
    uint64_t found;
    do {
        turns = __atomic_load_n(&leaf->turns, __ATOMIC_ACQUIRE);
        found = turns % 2 == 0 ? scan_right(leaf, key) : scan_left(leaf, key);
    } while (turns != __atomic_load_n(&leaf->turns, __ATOMIC_ACQUIRE));
    return found;
}

uint64_t fastfair_search(const struct fastfair *tree, uint64_t key)
{
    const struct node *node = node_of(*tree->root);
    while (node->level > 0)
        node = node_of(step(node, key));
    uint64_t found = in_leaf(node, key);
    while (found == 0 && belongs_right(node, key)) {
        node = node_of(node->sibling);
        found = in_leaf(node, key);
    }
    return found;
}

/* ---- insertion */

/* FAST, in a node with room: the null pointer first, then the entries with larger keys from the last, pointer before key. */
static void shift_in(struct fastfair *tree, struct node *node, uint64_t key, uint64_t pointer)
{
    size_t i = node->count;
    struct entry *e = node->entries;
    node->turns += node->turns % 2;
    put(tree, &e[i + 1].pointer, 0);
    for (; i > 0 && e[i - 1].key > key; i--) {
        put(tree, &e[i].pointer, e[i - 1].pointer);
        put(tree, &e[i].key, e[i - 1].key);
    }
    put(tree, &e[i].pointer, before(node, i));
    put(tree, &e[i].key, key);
    put(tree, &e[i].pointer, pointer);
    settle(tree);
    node->count++;
}

/* The new right half, not yet linked: a leaf's takes the entries from the median on, an inner one's has the median's child as left. */
static struct node *right_half(struct fastfair *tree, const struct node *node)
{
    const struct entry *median = &node->entries[MEDIAN];
    int leaf = node->level == 0;
    struct node *right = fresh(tree, leaf ? LEAF_LEFT : median->pointer, node->sibling, node->level);
    for (size_t i = leaf ? MEDIAN : MEDIAN + 1; i < CAPACITY; i++)
        append(tree, right, node->entries[i]);
    end(tree, right);
    return right;
}

static void new_root(struct fastfair *tree, struct entry only)
{
    struct node *old = node_of(*tree->root);
    struct node *root = fresh(tree, pointer_to(old), 0, old->level + 1);
    append(tree, root, only);
    end(tree, root);
    put(tree, tree->root, pointer_to(root));
    settle(tree);
}

static void insert_at(struct fastfair *tree, uint64_t level, uint64_t key, uint64_t pointer);

/* FAIR: the right half, the link to it, the cut; then the new entry; then the right half's entry in the parent. */
static void split(struct fastfair *tree, struct node *node, uint64_t key, uint64_t pointer)
{
    struct node *right = right_half(tree, node);
    uint64_t fence = node->entries[MEDIAN].key;
    put(tree, &node->sibling, pointer_to(right));
    settle(tree);
    put(tree, &node->entries[MEDIAN].pointer, 0);
    settle(tree);
    node->count = MEDIAN;
    shift_in(tree, key < fence ? node : right, key, pointer);
    if (pointer_to(node) == *tree->root)
        new_root(tree, (struct entry){fence, pointer_to(right)});
    else
        insert_at(tree, node->level + 1, fence, pointer_to(right));
}

static void insert_at(struct fastfair *tree, uint64_t level, uint64_t key, uint64_t pointer)
{
    struct node *node = descend(tree, level, key);
    if (node->count < CAPACITY)
        shift_in(tree, node, key, pointer);
    else
        split(tree, node, key, pointer);
}

void fastfair_insert(struct fastfair *tree, uint64_t key, uint64_t value)
{
    insert_at(tree, 0, key, value);
}

/* ---- deletion */

/* The pointer before hides the entry; then the later ones from the left, key before pointer; the null pointer last. */
static void shift_out(struct fastfair *tree, struct node *node, size_t i)
{
    struct entry *e = node->entries;
    node->turns += 1 - node->turns % 2;
    put(tree, &e[i].pointer, before(node, i));
    for (; i + 1 < node->count; i++) {
        put(tree, &e[i].key, e[i + 1].key);
        put(tree, &e[i].pointer, e[i + 1].pointer);
    }
    put(tree, &e[i].pointer, 0);
    settle(tree);
    node->count--;
}

int fastfair_delete(struct fastfair *tree, uint64_t key)
{
    struct node *leaf = descend(tree, 0, key);
    for (size_t i = 0; i < leaf->count; i++)
        if (leaf->entries[i].key == key) {
            shift_out(tree, leaf, i);
            return 1;
        }
    return 0;
}

/* ---- the tree */

struct fastfair *fastfair_new(size_t keys)
{
    struct fastfair *tree = calloc(1, sizeof *tree);
    if (!tree)
        return NULL;
    tree->room = keys / KEYS_PER_NODE + SPARE_NODES;
    tree->nodes = aligned_alloc(LINE_BYTES, tree->room * NODE_BYTES);
    tree->root = aligned_alloc(LINE_BYTES, LINE_BYTES);
    if (!tree->nodes || !tree->root) {
        fastfair_free(tree);
        return NULL;
    }
    *tree->root = pointer_to(fresh(tree, LEAF_LEFT, 0, 0));
    tree->stores = 0;
    return tree;
}

void fastfair_free(struct fastfair *tree)
{
    if (tree) {
        free(tree->nodes);
        free(tree->root);
    }
    free(tree);
}

uint64_t fastfair_stores(const struct fastfair *tree)
{
    return tree->stores;
}

uint64_t fastfair_flushes(const struct fastfair *tree)
{
    return tree->flushes;
}
