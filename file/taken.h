/* Pairs of a load that were taken so far, in memory: which codes and which recordings they have. */
#ifndef TAKEN_H
#define TAKEN_H

#include <stdbool.h>
#include <stddef.h>
#include <stdint.h>

struct taken {
    uint64_t *pairs; /* key and pointer, in the order of the lines */
    size_t count, room;
    /* Open hashing: a pair's number and 1, or 0 for none. A number of slots that is a power of two. */
    uint32_t *by_key, *by_recording;
    size_t slots;
};

/* taken_free in every case. */
void taken_begin(struct taken *t);

/* The number of the pair with this key, or -1. */
int64_t taken_find(const struct taken *t, uint64_t key);

bool taken_has_recording(const struct taken *t, uint64_t recording);

/* A pair whose key and recording are not there yet. False if memory is short. */
bool taken_add(struct taken *t, uint64_t key, uint64_t pointer);

/* The pairs by rising key, to be freed; nothing can be looked for or added any more. Null if memory is short. */
uint64_t *taken_sorted(struct taken *t);

void taken_free(struct taken *t);

#endif
