/* A FAST and FAIR B+-tree with 512-byte nodes (Hwang and others, USENIX FAST 2018), one thread, counting stores and line flushes. */
#ifndef FASTFAIR_H
#define FASTFAIR_H

#include <stddef.h>
#include <stdint.h>

struct fastfair;

/* An empty tree with room for this many keys, or null if memory is short. */
struct fastfair *fastfair_new(size_t keys);
void fastfair_free(struct fastfair *tree);

/* The value of the key, or 0 if it is absent. */
uint64_t fastfair_search(const struct fastfair *tree, uint64_t key);

/* A value other than 0 and UINT64_MAX for an absent key. */
void fastfair_insert(struct fastfair *tree, uint64_t key, uint64_t value);

/* 1 if the key was there and is gone, else 0. Nodes are not merged. */
int fastfair_delete(struct fastfair *tree, uint64_t key);

/* Since the tree was made: 8-byte stores that recovery needs, and lines flushed. */
uint64_t fastfair_stores(const struct fastfair *tree);
uint64_t fastfair_flushes(const struct fastfair *tree);

#endif
