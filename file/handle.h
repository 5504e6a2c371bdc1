/* The handle of an open table, as the library's own sources see it. */
#ifndef HANDLE_H
#define HANDLE_H

#include <stdbool.h>
#include <sys/stat.h>
#include <time.h>

#include "carry.h"
#include "catalogue_file.h"
#include "crc.h"
#include "looks.h"

#define HEADER_WORDS 8
#define FIRST_ROOT 1  /* header word of collection 1's root */
#define NODE_COUNT 2  /* of the number of nodes */
#define SECOND_ROOT 3 /* of collection 2's root; 0 if the table has one collection */
#define NODE_WORDS 32
#define MOST_NODES 65535

#define MESSAGE_ROOM 1024

/* The file of sums beside a table, as it is open. */
struct sums {
    uint64_t *mapped;  /* null: the table has none, or it cannot be used */
    size_t words;      /* that are mapped */
    uint64_t lines;    /* of the table */
    uint64_t *room;    /* for two journals that are read, the later one first, and for one that is made */
    const struct crc *crc;
    bool persistent;   /* a flush is an instruction */
    uint64_t identity; /* the trailer's word when it was opened */
    uint64_t trouble;  /* the number with which finds and changes are refused; 0 for none */
    uint64_t node;     /* the first that does not fit; 0 for the header */
    uint64_t counter;  /* the table's, when a node was found that does not fit */
    int why;           /* errno, if the file cannot be used */
    unsigned slot;     /* of a writer: of the next journal, and its number */
    uint64_t number;
};

struct catalogue_file {
    char *name;    /* as the caller gives it, for messages; null if nothing is open */
    char *path;    /* the same from the root folder on: a change of the working folder does not matter */
    int file;
    bool writing, fast;
    bool trailer;    /* the file had one when it was measured */
    bool persistent; /* a flush is an instruction */
    bool unsettled;  /* stores were carried out that no flush has brought to the disk */
    bool unnamed;    /* the folder is not synced: the file's name may not last */
    bool stale;      /* memory may hold other words than the copies: they are read again before they are used */
    bool repaired;   /* the working copy is known to have no leftover */
    size_t words;    /* of the table, without the trailer */
    uint64_t dock;
    uint64_t *mapped;   /* the file's words and the trailer: persistent memory, if the file system gives it */
    uint64_t *expected; /* of a writer: what the mapped words should hold, to notice another program's stores */
    uint64_t *working;  /* of a writer: the copy that the core's calls change; of a reader: the table of one moment */
    uint64_t *summary;  /* of a writer: the working copy's; null if memory was short for it */
    size_t summary_words;
    bool summarized;    /* the summary is true of the working copy, which has no leftover then */
    uint64_t *orders;   /* room for a repair's list and a change's */
    struct looks looks; /* of a reader */
    bool looking;       /* looks was begun */
    struct sums sums;   /* beside the table */
    struct stat left;   /* the file as this handle left it */
    struct timespec named; /* when a reader last looked at the name */
    struct carrying carrying;
    uint64_t outcome;
    int why; /* errno of the last failure */
    char message[MESSAGE_ROOM];
};

/* Words of the list of one call, for either dock. */
#define LIST_WORDS ((size_t)CATALOGUE_LONG_LIST_WORDS)

/* Puts a message into the handle and gives the number back. {f} in the format is nothing special; names go in as %s. */
uint64_t fails(struct catalogue_file *f, uint64_t number, const char *format, ...) __attribute__((format(printf, 3, 4)));

/* The same with the system's reason behind the message; keeps errno. */
uint64_t fails_for(struct catalogue_file *f, uint64_t number, const char *format, ...) __attribute__((format(printf, 3, 4)));

/* A number of the core about this table: its text, with the table's name. */
uint64_t refuses(struct catalogue_file *f, uint64_t number);

uint64_t no_memory(struct catalogue_file *f);

/* 0 if the handle has a file open; for writing, if it must be. */
uint64_t must_be_open(struct catalogue_file *f);
uint64_t must_write(struct catalogue_file *f);

#endif
