/* Pairs of a load that were taken so far, in memory: which codes and which recordings they have. */
#include "taken.h"

#include <stdlib.h>
#include <string.h>

#include "catalogue.h"

#define FIRST_SLOTS 1024

void taken_begin(struct taken *t)
{
    *t = (struct taken){0};
}

/* Where a number would be, in so many slots. */
static size_t place(uint64_t number, size_t slots)
{
    uint64_t mixed = number * UINT64_C(0x9e3779b97f4a7c15);
    return (mixed ^ mixed >> 32) & (slots - 1);
}

int64_t taken_find(const struct taken *t, uint64_t key)
{
    if (t->slots == 0)
        return -1;
    size_t at = place(key, t->slots);
    while (t->by_key[at] != 0 && t->pairs[2 * (t->by_key[at] - 1)] != key)
        at = (at + 1) & (t->slots - 1);
    return (int64_t)t->by_key[at] - 1;
}

bool taken_has_recording(const struct taken *t, uint64_t recording)
{
    if (t->slots == 0)
        return false;
    size_t at = place(recording, t->slots);
    while (t->by_recording[at] != 0 && CATALOGUE_RECORDING(t->pairs[2 * (t->by_recording[at] - 1) + 1]) != recording)
        at = (at + 1) & (t->slots - 1);
    return t->by_recording[at] != 0;
}

static void put(uint32_t *table, size_t slots, uint64_t number, size_t pair)
{
    size_t at = place(number, slots);
    while (table[at] != 0)
        at = (at + 1) & (slots - 1);
    table[at] = (uint32_t)pair + 1;
}

static void index_pair(struct taken *t, size_t pair)
{
    put(t->by_key, t->slots, t->pairs[2 * pair], pair);
    put(t->by_recording, t->slots, CATALOGUE_RECORDING(t->pairs[2 * pair + 1]), pair);
}

/* Twice the slots, with the pairs so far. */
static bool more_slots(struct taken *t)
{
    size_t slots = t->slots == 0 ? FIRST_SLOTS : 2 * t->slots;
    free(t->by_key);
    free(t->by_recording);
    t->by_key = calloc(slots, sizeof *t->by_key);
    t->by_recording = calloc(slots, sizeof *t->by_recording);
    t->slots = t->by_key && t->by_recording ? slots : 0;
    for (size_t i = 0; t->slots > 0 && i < t->count; i++)
        index_pair(t, i);
    return t->slots > 0;
}

static bool more_room(struct taken *t)
{
    size_t room = t->room + t->room / 2 + 512;
    uint64_t *pairs = realloc(t->pairs, 2 * room * sizeof *pairs);
    if (!pairs)
        return false;
    t->pairs = pairs;
    t->room = room;
    return true;
}

bool taken_add(struct taken *t, uint64_t key, uint64_t pointer)
{
    /* At most three quarters of the slots are taken. */
    if ((t->count == t->room && !more_room(t)) || (4 * (t->count + 1) > 3 * t->slots && !more_slots(t)))
        return false;
    t->pairs[2 * t->count] = key;
    t->pairs[2 * t->count + 1] = pointer;
    index_pair(t, t->count++);
    return true;
}

static int by_key(const void *a, const void *b)
{
    uint64_t x = *(const uint64_t *)a, y = *(const uint64_t *)b;
    return (x > y) - (x < y);
}

uint64_t *taken_sorted(struct taken *t)
{
    size_t bytes = 2 * t->count * sizeof *t->pairs;
    free(t->by_key);
    free(t->by_recording);
    t->by_key = t->by_recording = NULL;
    t->slots = 0;
    uint64_t *sorted = malloc(bytes + 1);
    if (sorted && t->count > 0) {
        memcpy(sorted, t->pairs, bytes);
        qsort(sorted, t->count, 2 * sizeof *sorted, by_key);
    }
    return sorted;
}

void taken_free(struct taken *t)
{
    free(t->pairs);
    free(t->by_key);
    free(t->by_recording);
    taken_begin(t);
}
