/* Random ISRC keys from a fixed seed, as bench/keys.rs has them: the same for every contender and every run. */
#include "keys.h"

#include <stdbool.h>
#include <stdlib.h>

#include "files.h"

#define TAIL UINT64_C(10000000)
#define CLASSES 3

/* SplitMix64. */
uint64_t random_word(struct random *r)
{
    r->state += UINT64_C(0x9e3779b97f4a7c15);
    uint64_t z = r->state;
    z = (z ^ (z >> 30)) * UINT64_C(0xbf58476d1ce4e5b9);
    z = (z ^ (z >> 27)) * UINT64_C(0x94d049bb133111eb);
    return z ^ (z >> 31);
}

uint64_t random_below(struct random *r, uint64_t bound)
{
    return (uint64_t)(((unsigned __int128)random_word(r) * bound) >> 64);
}

/* The key of a random code: two letters, three letters or digits, seven digits. */
static uint64_t draw_code(struct random *r)
{
    uint64_t head = 0;
    for (int i = 0; i < 2; i++)
        head = 36 * head + 10 + random_below(r, 26);
    for (int i = 0; i < 3; i++)
        head = 36 * head + random_below(r, 36);
    return TAIL * head + random_below(r, TAIL);
}

/* Enters a key into an open hash table of 0 and keys; false if it was there. No code has the key 0. */
static bool enter(uint64_t *table, size_t mask, uint64_t key)
{
    size_t at = (size_t)((key * UINT64_C(0x9e3779b97f4a7c15)) >> 32) & mask;
    for (; table[at] != 0; at = (at + 1) & mask)
        if (table[at] == key)
            return false;
    table[at] = key;
    return true;
}

struct pair *draw_pairs(struct random *r, size_t count)
{
    size_t room = 4;
    while (room < 2 * count)
        room *= 2;
    uint64_t *seen = words_room(room);
    struct pair *pairs = malloc((count + 1) * sizeof *pairs);
    if (!pairs)
        die("not enough memory");
    for (size_t i = 0; i < count;) {
        uint64_t key = draw_code(r);
        if (!enter(seen, room - 1, key))
            continue;
        pairs[i] = (struct pair){key, (i + 1) | (uint64_t)(i % CLASSES) << 56};
        i++;
    }
    free(seen);
    return pairs;
}

static int by_key(const void *a, const void *b)
{
    uint64_t x = ((const struct pair *)a)->key, y = ((const struct pair *)b)->key;
    return (x > y) - (x < y);
}

void sort_pairs(struct pair *pairs, size_t count)
{
    qsort(pairs, count, sizeof *pairs, by_key);
}
