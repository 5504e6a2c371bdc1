/* A search of words that another thread or process may be changing: it takes no lock and stores nothing that is shared. */
#ifndef LOOKS_H
#define LOOKS_H

#include <stdbool.h>
#include <stddef.h>
#include <stdint.h>

/* What a copy has of a node: any words; a level that no search passes; what a search reads of a sibling that it does not move to; everything. */
enum { LOOKS_UNGUARDED, LOOKS_UNSEEN, LOOKS_FENCE, LOOKS_WHOLE };

/*
 * The library's search wants words that keep still. So the header and the nodes that a search passes are copied, and the library searches the
 * copy. It answers what was true at some moment between the call and its return: the copied words were all there at one moment. That is so
 * - if the counter was even and has not moved: no word was stored to. Copies are kept for as long as it stays;
 * - if at most one bracket of stores ran meanwhile and every copied word was there still, once all were copied: within a bracket no word
 *   comes back to a value that it lost.
 * Else the nodes are copied once more. docs/READERS.md has the argument.
 * One thread at a time uses a struct looks.
 */
struct looks {
    const uint64_t *shared;  /* the table's words, which may change */
    const uint64_t *counter; /* the trailer's */
    size_t count;            /* of the table's words */
    uint64_t nodes;
    uint64_t *words;  /* the copy */
    void *mapping;    /* that it lies in */
    size_t size;      /* of the mapping, in bytes */
    uint8_t *state;   /* by node number: LOOKS_WHOLE and so on */
    uint32_t *seen;   /* the nodes that it has something of, each once */
    size_t looked;    /* how many */
    bool filled;      /* the last search that looked for nodes found all of them copied: the next one may too */
    bool forgot;      /* unguarded nodes may have words that were forgotten; else they are zeros */
    uint64_t valid;   /* the even counter that all copies hold for, if .. */
    bool holds;
    /* Whether so many copied lines of the table, from the first on, fit their sums; null if they have none. */
    bool (*fit)(const void *sums, const uint64_t *words, uint64_t first, size_t count);
    const void *sums;
    uint64_t doubted;      /* the first node of a round that did not fit, 0 for the header, or LOOKS_NO_DOUBT; .. */
    uint64_t doubtful[32]; /* .. and its words, as far as they were looked at */
    size_t doubtful_lines;
};

/* What a search gives besides its number; words that a case does not name are 0. */
struct looks_answer {
    uint64_t recording, access, next, higher;
};

/* What looks_search returns besides the numbers of catalogue_search: brackets ran all the time, two or more in each of very many rounds. */
#define LOOKS_BUSY UINT64_C(256)

/* And this: a node on the way, or the header, has words that do not fit their sums. Its number is in doubted. */
#define LOOKS_DECAYED UINT64_C(257)
#define LOOKS_NO_DOUBT UINT64_MAX

/*
 * So many words of a table, and the counter that its writer raises. Any words are taken, and any count. False if memory is short; looks_end
 * in either case. Memory is used as nodes are looked at, in the end as much as the table's and a fiftieth more.
 */
bool looks_begin(struct looks *l, const uint64_t *shared, const uint64_t *counter, size_t count);
void looks_end(struct looks *l);

/* As catalogue_search. */
uint64_t looks_search(struct looks *l, uint64_t collection, uint64_t key, struct looks_answer *answer);

#endif
