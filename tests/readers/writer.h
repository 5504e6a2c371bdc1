/* A writer as the file library has one, on words in memory: it plans on a working copy, and carries orders out in brackets. */
#ifndef WRITER_H
#define WRITER_H

#include <stddef.h>
#include <stdint.h>

#include "catalogue.h"
#include "counter.h"

#define HEADER_WORDS 8
#define NODE_WORDS 32

enum change { INSERT, DELETE, CLASS, REPAIR, BATCH };

struct writer {
    uint64_t *memory;  /* the table's words, then the trailer's */
    uint64_t *working; /* as many as the table's */
    size_t words;
    enum brackets brackets; /* of an insertion, a deletion or a class change */
    uint64_t dock;
    uint64_t orders[2 * CATALOGUE_LONG_LIST_WORDS];
    uint64_t count; /* of the last planned list */
};

/* A list that was planned before. */
struct list {
    enum change kind;
    uint64_t count;
    uint64_t *orders;
};

uint64_t *writer_counter(const struct writer *w);

/* An empty table, in memory too. */
void writer_make(struct writer *w, uint64_t collections);

/* A writer that has just got the lock: what memory holds is the working copy, and a bracket that was left open is closed. */
void writer_open(struct writer *w);

/* Plans a change on the working copy: the library's number. For a batch recording is how many pairs, and pairs has them. */
uint64_t writer_plan(struct writer *w, enum change kind, uint64_t collection, uint64_t key, uint64_t recording, uint64_t access,
                     const uint64_t *pairs);

/* The first count orders of the list, in the brackets that its kind asks for; a writer that is killed leaves its bracket open. */
void writer_carry(struct writer *w, enum change kind, uint64_t count, int killed);
void writer_carry_list(const struct writer *w, const struct list *list, uint64_t count, int killed);

/* The last planned list, to be kept. */
struct list writer_list(const struct writer *w, enum change kind);

/* Plans and carries out all; exits if the library refuses. */
void writer_change(struct writer *w, enum change kind, uint64_t collection, uint64_t key, uint64_t recording, uint64_t access);

#endif
