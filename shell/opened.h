/* A table's file, opened by the file library, and what its failures say. */
#ifndef OPENED_H
#define OPENED_H

#include <stdbool.h>

#include "catalogue_file.h"
#include "table.h"

/* How a table is opened and changed, as the command line says. */
struct opening {
    uint64_t wait;       /* seconds for another writer */
    bool fast;           /* on an ordinary disk: waits for the disk once, at the end, and not at each flush */
    uint64_t collection; /* that the command reads or changes */
    uint64_t dock;       /* that the order lists are for */
    bool force;          /* dock 0 also on a processor that does not keep its stores in order */
    uint64_t pause;      /* microseconds before each order */
    const char *flush;   /* null for the best that the processor has */
};

struct opened {
    catalogue_file *file;
    struct table table; /* its words are there once they are read */
    bool made;          /* a change was made here */
};

/* These return 0, or an exit status after saying why. */

/* opened_end in either case. */
int opened_begin(struct opened *o, const char *name, bool writing, const struct opening *how);

/* The collection of a table that is open already. */
int opened_choose(struct opened *o, const struct opening *how);
void opened_end(struct opened *o);

/* The words of one moment into the table, with a copy; they are there until the next call of the library with this file. */
int opened_read(struct opened *o);

/* Says why a call of the file library failed, and what became of the table ("" for nothing). Gives the exit status. */
int opened_fails(const struct opened *o, uint64_t number, const char *then);

/* The same, but a refusal of the change is said with its code and recording. */
int opened_refuses(const struct opened *o, uint64_t number, uint64_t key, uint64_t recording, const char *then);

/* Whether the table has a key or, for a null key, a recording, as others see it now; *holder is its key. */
bool opened_has(const struct opened *o, const uint64_t *key, uint64_t recording, uint64_t *holder);

/* After the last change: it lasts, and no other program has changed the file. */
int opened_settle(struct opened *o);
int opened_compare(struct opened *o);

/* A call of the library that has no table open: 0, or the exit status of its number after saying why. */
int file_fails(const catalogue_file *f, uint64_t number);

#endif
