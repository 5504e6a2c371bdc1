/* The tree in a table's words, walked for people: any words are taken, and nothing is read outside of them. */
#include "tree.h"

#include <stdlib.h>

bool tree_has(const struct tree *tree, uint64_t n)
{
    return n >= 1 && n <= tree->nodes;
}

uint64_t tree_word(const struct tree *tree, uint64_t n, unsigned word)
{
    return tree->words[HEADER_WORDS + NODE_WORDS * (n - 1) + word];
}

uint64_t tree_key(const struct tree *tree, uint64_t n, unsigned slot)
{
    return tree_word(tree, n, 8 + 2 * slot);
}

uint64_t tree_pointer(const struct tree *tree, uint64_t n, unsigned slot)
{
    return tree_word(tree, n, 9 + 2 * slot);
}

/* A key from the sibling's fence up is the sibling's. */
static bool within(const struct tree *tree, uint64_t n, uint64_t key)
{
    uint64_t sibling = tree_word(tree, n, SIBLING);
    return !tree_has(tree, sibling) || key < tree_word(tree, sibling, FENCE);
}

enum slot tree_slot(const struct tree *tree, uint64_t n, unsigned slot)
{
    uint64_t before = tree_word(tree, n, LEFT);
    for (unsigned i = 0; i < slot; i++) {
        before = tree_pointer(tree, n, i);
        if (before == 0)
            return FREE;
    }
    uint64_t pointer = tree_pointer(tree, n, slot);
    if (pointer == 0)
        return FREE;
    if (pointer == before)
        return HIDDEN;
    return within(tree, n, tree_key(tree, n, slot)) ? SHOWN : TRAILING;
}

/* ---- the walk */

/* Adds node n once; by way of a parent, or of a sibling (parent 0). */
static void reach(struct tree *tree, uint64_t n, uint32_t parent)
{
    if (!tree_has(tree, n))
        return;
    if (!tree->seen[n]) {
        tree->seen[n] = true;
        tree->reached[tree->count++] = (uint32_t)n;
    }
    if (parent != 0)
        tree->parent[n] = parent;
}

static void reach_from(struct tree *tree, uint32_t n)
{
    reach(tree, tree_word(tree, n, SIBLING), 0);
    if (tree_word(tree, n, LEVEL) == 0)
        return;
    reach(tree, tree_word(tree, n, LEFT), n);
    for (unsigned i = 0; i < SLOTS; i++)
        if (tree_slot(tree, n, i) == SHOWN)
            reach(tree, tree_pointer(tree, n, i), n);
}

static bool walk(struct tree *tree, const uint64_t *words, uint64_t root)
{
    *tree = (struct tree){.words = words, .root = root, .nodes = words[2]};
    tree->reached = calloc(tree->nodes + 1, sizeof *tree->reached);
    tree->seen = calloc(tree->nodes + 1, sizeof *tree->seen);
    tree->parent = calloc(tree->nodes + 1, sizeof *tree->parent);
    if (!tree->reached || !tree->seen || !tree->parent)
        return false;
    reach(tree, tree->root, 0);
    /* The list grows while it is gone through; a node enters it once, so that any words come to an end. */
    for (size_t i = 0; i < tree->count; i++)
        reach_from(tree, tree->reached[i]);
    return true;
}

bool trees_walk(struct trees *trees, const uint64_t *words)
{
    *trees = (struct trees){.count = words[SECOND_ROOT] == 0 ? 1 : 2};
    return walk(&trees->of[0], words, words[FIRST_ROOT]) && (trees->count == 1 || walk(&trees->of[1], words, words[SECOND_ROOT]));
}

void trees_free(struct trees *trees)
{
    for (size_t i = 0; i < MOST_COLLECTIONS; i++) {
        free(trees->of[i].reached);
        free(trees->of[i].seen);
        free(trees->of[i].parent);
    }
}
