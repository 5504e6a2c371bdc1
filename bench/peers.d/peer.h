/* What is compared: maps of keys to whole pointers (recording and class), durable, in a file each. */
#ifndef PEER_H
#define PEER_H

#include <stdbool.h>
#include <stddef.h>
#include <stdint.h>

/* A key and its whole pointer: the low 56 bits are the recording number, the top 8 the class. */
struct pair {
    uint64_t key;
    uint64_t pointer;
};

/* Where a store lies and what is asked of it. */
struct place {
    const char *folder;
    const char *scratch; /* a folder of a file system that no disk is behind, for what is not timed */
    bool memory;         /* the folder too is one, and stands for persistent memory */
    bool unique;         /* a recording is in the store once at most */
    size_t codes;        /* that there must be room for */
};

/* What a scan saw, in the order of the keys. */
struct scanned {
    uint64_t count;
    uint64_t sum;  /* of keys and pointers */
    bool rising;
    uint64_t last;
};

/*
 * The calls of a contender. Whatever goes wrong that is not an answer ends the program (die).
 * Where a change returns true it outlasts a power cut, as far as the medium does; false: it was refused.
 */
struct peer {
    const char *name;

    /* An empty store in a new file; the file must not be there. */
    void *(*make)(const struct place *place);

    /* A new store with these pairs, given in no order, in the shape of one grown by random insertions. Not timed. */
    void *(*grown)(const struct place *place, const struct pair *pairs, size_t count);

    /* A new store with these pairs by the fastest way that keeps the guarantees; sorted: their keys rise. */
    void *(*load)(const struct place *place, const struct pair *pairs, size_t count, bool sorted);

    /* The file's store again. */
    void *(*open)(const struct place *place);
    void (*close)(void *store);

    /* The pairs as one change, or as the contender's nearest to it. */
    bool (*insert)(void *store, const struct pair *pairs, size_t count);

    /* Reading happens between these two. */
    void (*begin)(void *store);
    void (*end)(void *store);

    /* The pointer of a key; 0 if it is absent. */
    uint64_t (*find)(void *store, uint64_t key);

    /* The first count pairs from a key up; how many there are. */
    size_t (*range)(void *store, uint64_t low, struct pair *out, size_t count);
    struct scanned (*scan)(void *store);

    /* Bytes of an open store that hold something, if its file has room besides; 0 if they are as many as the file's length. */
    uint64_t (*used)(void *store);

    /* The files' names in the folder, the first of them the store. */
    const char *files[3];
};

extern const struct peer ours, lmdb, sqlite, pmdk;

/* The first pairs from a key up. */
typedef size_t range_call(void *store, uint64_t low, struct pair *out, size_t count);

/* As ours and over its stores: by calls without a summary; a batch as a whole new file in the old one's place; by the file library. */
extern const struct peer ours_plain, ours_by_file, ours_by_library;

/* Ends the changes by the file library. */
void ours_library_ends(void *store);

/* As ours, a range by searches for the next code up. */
size_t ours_range_by_search(void *store, uint64_t low, struct pair *out, size_t count);

/* How ours makes a line last there. */
const char *ours_flush(const struct place *place);

/* The nodes of a store of ours that are in use, after grown or load. */
size_t ours_nodes(void *store);

/* Adds a pair to what a scan saw. */
static inline void scanned_add(struct scanned *s, uint64_t key, uint64_t pointer)
{
    s->rising = s->rising && (s->count == 0 || key > s->last);
    s->count++;
    s->sum += key ^ (pointer * UINT64_C(0x9e3779b97f4a7c15));
    s->last = key;
}

#endif
