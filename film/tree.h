/* The tree in a table's words, walked for people: any words are taken, and nothing is read outside of them. */
#ifndef TREE_H
#define TREE_H

#include <stdbool.h>
#include <stddef.h>
#include <stdint.h>

/* Words of a table, of its header and of a node; a line, as the orders count them. */
#define HEADER_WORDS 8
#define FIRST_ROOT 1  /* header word of collection 1's root */
#define NODE_COUNT 2  /* of the number of nodes */
#define SECOND_ROOT 3 /* of collection 2's; 0 if the table has one collection */
#define NODE_WORDS 32
#define LINE_WORDS 8

#define MOST_NODES 65535
#define SLOTS 12

/* Words of a node. */
enum { LEFT, SIBLING, LEVEL, FENCE };

enum slot { FREE, SHOWN, HIDDEN, TRAILING };

/* A collection's tree. */
struct tree {
    const uint64_t *words;
    uint64_t nodes;
    uint64_t root;
    /* The reached nodes, each once. */
    uint32_t *reached;
    size_t count;
    /* By node number: reached, and its parent (0 for none). */
    bool *seen;
    uint32_t *parent;
};

#define MOST_COLLECTIONS 2

/* The trees of a table's collections, in order. */
struct trees {
    struct tree of[MOST_COLLECTIONS];
    size_t count;
};

/* The words must have a table's header. False if memory is short; trees_free in either case. */
bool trees_walk(struct trees *trees, const uint64_t *words);
void trees_free(struct trees *trees);

/* Node n is one of the table's. */
bool tree_has(const struct tree *tree, uint64_t n);

/* Of a node that the table has. */
uint64_t tree_word(const struct tree *tree, uint64_t n, unsigned word);
uint64_t tree_key(const struct tree *tree, uint64_t n, unsigned slot);
uint64_t tree_pointer(const struct tree *tree, uint64_t n, unsigned slot);
enum slot tree_slot(const struct tree *tree, uint64_t n, unsigned slot);

#endif
