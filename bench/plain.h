/* The catalogue's table from the C side: a packing routine, a search with the same moves, without tests and with them, a read pass. */
#ifndef PLAIN_H
#define PLAIN_H

#include <stddef.h>
#include <stdint.h>

/* Nodes that plain_pack uses for this many keys. */
size_t plain_nodes(size_t keys);

/*
 * A settled table of these rising keys in words zeroed before, with room for nodes nodes. place[i] is the number of the i-th node
 * packed, leaves first: each of 1 .. plain_nodes(count) once.
 */
void plain_pack(uint64_t *table, size_t nodes, const uint64_t *place, const uint64_t *keys, const uint64_t *recordings, size_t count);

/* The recording of the key; 0 if it is absent, and then *next is the next key up, 0 for none. The table must be sound. */
uint64_t plain_search(const uint64_t *table, uint64_t key, uint64_t *next);

/* The same with the move to a sibling as a branch, whatever the compiler would choose. */
uint64_t plain_foreseen_search(const uint64_t *table, uint64_t key, uint64_t *next);

/* The same with a look at the one line of the leaf that its sentinels name, which must be true ones, before the whole leaf. */
uint64_t plain_trusting_search(const uint64_t *table, const uint64_t *sentinels, uint64_t key, uint64_t *next);

/* plain_foreseen_search with every test that the library's search makes, on any words. A refusal gives 0 too, and leaves *next. */
uint64_t plain_tested_search(const uint64_t *table, size_t words, uint64_t collection, uint64_t key, uint64_t *next);

/* The sum of all words of nodes 1 .. nodes. */
uint64_t plain_read_pass(const uint64_t *table, size_t nodes);

#endif
