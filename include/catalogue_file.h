/*
 * Tables in files: opened, searched beside a writer, changed so that a change lasts, loaded, copied, salvaged, checked.
 * Link with libcatalogue (pkg-config catalogue), which has these calls and those of catalogue.h.
 *
 * A play desk that runs beside a writer:
 *
 *     catalogue_file *f = catalogue_file_new();
 *     struct catalogue_file_pair found;
 *     uint64_t key, number = CATALOGUE_FILE_NO_MEMORY;
 *     if (f && (number = catalogue_file_open(f, "room.cat", CATALOGUE_FILE_READING, 0)) == 0
 *         && (number = catalogue_file_parse("ISRC AA-000-19-12345", SIZE_MAX, &key)) == 0
 *         && (number = catalogue_file_find(f, 1, key, &found)) == 0
 *         && catalogue_file_may_play(found.access, CATALOGUE_FILE_IN_THE_ROOM))
 *         printf("play %llu\n", (unsigned long long)found.recording);
 *     else
 *         printf("do not play: %s\n", number ? catalogue_file_strerror(number) : "the recording is closed");
 *     catalogue_file_free(f);
 *
 * The file. A table of N nodes is 8 + 32 * N words of 8 bytes, as catalogue.h describes them, from the file's first byte on. Behind them lies
 * the trailer, one line of 8 words: CATALOGUE_FILE_FORMAT, the change counter, 1 while another file takes this one's place or has taken it,
 * a word that its file of sums has too or 0, and four zeros. Words are little-endian. A file without a trailer, as older programs made them, is a
 * table too: the first handle that is opened for writing adds it. The length distinguishes the two: 64 or 128 bytes above a multiple of 256.
 * Nothing else is a table.
 *
 * The lock. A handle opened for writing holds an exclusive flock on the file from its opening to its closing. A handle opened for reading
 * takes no lock, stores nothing, and never waits for a writer nor for the disk. So there is one writer and any number of readers, in threads,
 * processes, containers; a reader needs the right to read the file, and no right in its folder. flock does not reach over every network
 * file system, and a mapping does not: keep a table on a local disk or in persistent memory.
 *
 * Reading beside a writer. A find answers what was true at some moment between its start and its end, whatever the writer does meanwhile, even
 * if it is killed or stopped. The counter is odd while the writer stores the words of a change; a reader accepts what it read if the counter shows
 * that no two changes ran meanwhile and every word that it read was still there at the end. Else it reads again; only after very many rounds
 * does it return CATALOGUE_FILE_BUSY. Each step of a walk is a find by itself. A handle opened for writing reads its own copy.
 * If another file takes the name, a reading handle goes on with that one: from its next call on if the library put it there, as a load does,
 * within 50 milliseconds if a stranger did. A handle opened for writing notices it before its next store.
 *
 * Durability. A call that changes the table returns 0 only when the change lasts: on persistent memory (a file system with dax) each flush of
 * the order list is a flush instruction and a fence, elsewhere it is a wait for the disk for the line's page. With CATALOGUE_FILE_FAST a call
 * does not wait for the disk; the changes last when catalogue_file_sync or catalogue_file_close returns 0, and a power cut before that can
 * destroy the whole table, older codes too. A power cut or kill in the middle of a change leaves a table that answers as before it or as
 * after it; the next change by the library finishes it first, by orders of their own.
 *
 * Threads. A handle is for one thread at a time. Threads that search side by side open a handle each; an open reading handle costs a mapping
 * and the pages that its finds touch. Two handles for writing exclude each other within a process too. Do not use a handle in a child
 * after fork. The library has no global state, prints nothing, ends nothing and installs no signal handler. If another program cuts
 * a mapped file short, a call that looks at the file's name first returns CATALOGUE_FILE_CHANGED: a reader's does a twentieth of a second
 * after the last look, a change always does. Before that, or if the disk fails, the system sends SIGBUS to the thread, as for every mapped
 * file.
 * Reading needs 16 KB of stack, everything else 512 KB.
 *
 * Summaries. A handle opened for writing keeps the table's summary, as catalogue.h describes it, beside its copies. The first change checks the
 * whole table and works the summary out; from then on a change looks at the nodes on the way to its key alone, and stores what it would store
 * without a summary. So do the lines of a load, once there are many. After some lines alone, and after a change that failed or was cut off, the
 * next change checks the whole table again. If there is no memory for a summary, half as much as the table takes, every change checks the whole
 * table; catalogue_file_plan always does.
 *
 * Numbers. Calls return 0, a number of catalogue.h, or one from 300 on. The handle keeps a message about the last call that failed, with the
 * file's name and the system's reason, and catalogue_file_strerror has a text for every number. After a failed change
 * catalogue_file_outcome says whether it was made, and the next call starts from what memory holds. What to do:
 *
 *     3, 4                            the table is damaged: catalogue_file_salvage keeps what can be read
 *     10, 11                          the table is full: catalogue_file_copy makes a larger one
 *     CATALOGUE_FILE_IN_USE           another writer has the file open: wait longer, or ask it
 *     CATALOGUE_FILE_BUSY             the writer changes the table faster than it can be read: ask again
 *     CATALOGUE_FILE_REPLACED         another file has the name now, or none: close the handle and open it again
 *     CATALOGUE_FILE_CHANGED          a program without the lock stored into the file, or cut it short: nothing more was changed; check the
 *                                     table
 *     CATALOGUE_FILE_OVERWRITTEN      somebody else stored into the handle's copy of the table. Nothing was changed, but for the lines that a load
 *                                     has handed back as added; the next call reads the file again
 *     CATALOGUE_FILE_DISK             a read or a wait for the disk failed: see catalogue_file_outcome. The next change waits for the whole
 *                                     file first; while the disk fails it is not made
 *     CATALOGUE_FILE_FOLDER           a new file took the table's place and has all changes, but its folder was not synced: a power cut can
 *                                     bring the old file back. catalogue_file_sync tries again
 *     CATALOGUE_FILE_NO_FLUSH         nothing was changed: in persistent memory take a flush instruction; a processor whose cache lines have
 *                                     less than 64 bytes can only read
 *     CATALOGUE_FILE_DECAYED          nothing may play: catalogue_file_scrub names the nodes. Compare their codes with another list, or take an
 *                                     older copy. catalogue_file_sums with 0, then with 1, takes the table as it stands
 *     CATALOGUE_FILE_UNSUMMED         a program that keeps no sums has changed the table: if that is right, catalogue_file_sums with 0, then with 1
 *     CATALOGUE_FILE_BAD_SUMS         nothing may play before TABLE.sums is brought back, or catalogue_file_sums with 0 has taken it away
 */
#ifndef CATALOGUE_FILE_H
#define CATALOGUE_FILE_H

#include "catalogue.h"

#ifdef __cplusplus
extern "C" {
#endif

#if defined(__GNUC__)
#pragma GCC visibility push(default)
#endif

/* The trailer: its words, and the first of them, "JUZHILM1" as bytes. */
#define CATALOGUE_FILE_TRAILER 8
#define CATALOGUE_FILE_FORMAT UINT64_C(0x314d4c49485a554a)

/* What the calls return besides the numbers of catalogue.h. */
enum {
    CATALOGUE_FILE_NO_FILE = 301,     /* no file of that name */
    CATALOGUE_FILE_EXISTS = 302,      /* a file of that name is there already and stays */
    CATALOGUE_FILE_NOT_ALLOWED = 303, /* this user may not read the file or make one there; or the file is read-only, by its rights or its disk */
    CATALOGUE_FILE_NOT_REGULAR = 304, /* a folder, a device or a pipe */
    CATALOGUE_FILE_IN_USE = 305,      /* locked by another writer for longer than the call waits */
    CATALOGUE_FILE_REPLACED = 306,    /* the name leads to another file now, or to none */
    CATALOGUE_FILE_CHANGED = 307,     /* a program that does not hold the lock changed the file */
    CATALOGUE_FILE_DISK = 308,        /* a read, a write or a wait for the disk failed */
    CATALOGUE_FILE_FOLDER = 309,      /* the folder cannot be synced: the file's name may not last */
    CATALOGUE_FILE_NO_MEMORY = 310,   /* not enough memory */
    CATALOGUE_FILE_BUSY = 311,        /* changed faster than it can be read */
    CATALOGUE_FILE_NOT_OPEN = 312,    /* the handle has no file open */
    CATALOGUE_FILE_NOT_WRITING = 313, /* the handle is open for reading */
    CATALOGUE_FILE_BAD_OPTION = 314,  /* an option, a flag or a number of orders that there is not */
    CATALOGUE_FILE_STOPPED = 315,     /* a callback ended the call */
    CATALOGUE_FILE_THERE = 316,       /* load: the table has all that the line says */
    CATALOGUE_FILE_NOT_TAKEN = 317,   /* load: it ended before this line */
    CATALOGUE_FILE_CUT = 318,         /* only the first orders were carried out, as asked for */
    CATALOGUE_FILE_NO_FLUSH = 319,    /* persistent memory and the flush "none", or a processor with cache lines of less than 64 bytes */
    CATALOGUE_FILE_DECAYED = 320,     /* words do not fit their sum: a bit has decayed, or a program that keeps no sums has stored to them */
    CATALOGUE_FILE_UNSUMMED = 321,    /* the same, and a program that keeps no sums has changed the table */
    CATALOGUE_FILE_BAD_SUMS = 322,    /* a file of sums lies beside the table, but is damaged, cannot be read, or is another table's */
    CATALOGUE_FILE_NO_SUMS = 323,     /* scrub: the table has no file of sums */
    CATALOGUE_FILE_OVERWRITTEN = 324  /* the handle's copy of the table was changed by somebody else */
};

/* A text for every number that a call here or in catalogue.h returns: no name, no full stop, never null. */
const char *catalogue_file_strerror(uint64_t number);

/* ---- handles */

typedef struct catalogue_file catalogue_file;

/* A handle with no file open; null if memory is short. */
catalogue_file *catalogue_file_new(void);

/* Closes what is open, and frees the handle. Null is taken. To learn whether the last changes of a fast handle last, close it first. */
void catalogue_file_free(catalogue_file *f);

/* What the last call that failed says, with names and reasons, as "room.cat is in use by another writer"; "" if none has failed. */
const char *catalogue_file_message(const catalogue_file *f);

/* The system's errno behind that failure, or 0. */
int catalogue_file_errno(const catalogue_file *f);

/* Of the last call that changes the table. */
enum {
    CATALOGUE_FILE_NOT_MADE = 0, /* the table answers as before the call, and will after a power cut */
    CATALOGUE_FILE_MADE = 1,     /* the change was made and lasts (with CATALOGUE_FILE_FAST: will last when the handle is synced) */
    CATALOGUE_FILE_UNKNOWN = 2   /* the table answers as after the change now; a power cut may take it back */
};
uint64_t catalogue_file_outcome(const catalogue_file *f);

/* ---- making, opening, closing */

/* A new file with an empty table of one collection or two. It lasts, and a file of that name stays. Nothing is opened. */
uint64_t catalogue_file_create(catalogue_file *f, const char *name, uint64_t nodes, uint64_t collections);

/* Flags of opening. */
enum {
    CATALOGUE_FILE_READING = 0,
    CATALOGUE_FILE_WRITING = 1,
    CATALOGUE_FILE_FAST = 2, /* for writing: does not wait for the disk at each flush */
    CATALOGUE_FILE_FORCE = 4 /* for writing: takes dock 0 also on a processor that does not keep its stores in order */
};

/* The dock of the processor. */
#if defined(__aarch64__)
#define CATALOGUE_FILE_DOCK CATALOGUE_UNORDERED
#else
#define CATALOGUE_FILE_DOCK CATALOGUE_ORDERED
#endif

#define CATALOGUE_FILE_FOREVER UINT64_MAX

/* Opens a table; what the handle had open is closed first. wait: milliseconds for another writer's lock. The dock is the processor's. */
uint64_t catalogue_file_open(catalogue_file *f, const char *name, uint64_t flags, uint64_t wait);

/* All that can be chosen. Zeros are what catalogue_file_open takes for READING without waiting. */
struct catalogue_file_options {
    uint64_t flags;
    uint64_t wait;     /* milliseconds for the lock */
    uint64_t dock;     /* memory model that the order lists are for; on ARM CATALOGUE_FILE_WRITING takes 0 only with CATALOGUE_FILE_FORCE, else it is 18 */
    uint64_t pause;    /* microseconds before each order, so that a test can kill the writer between two */
    /*
     * For persistent memory and CATALOGUE_FILE_FAST: "clwb", "clflushopt" or "clflush", on ARM "cvadp", "cvap" or "civac"; null for the best
     * that the processor has. "none" flushes nothing, and is refused in persistent memory.
     */
    const char *flush;
    /* Called once if the lock was not free for a second; null for nothing. */
    void (*waiting)(void *context);
    void *context;
};
uint64_t catalogue_file_open_with(catalogue_file *f, const char *name, const struct catalogue_file_options *options);

/* The name of this flush if the processor has it, or of the best that it has for null; else null. */
const char *catalogue_file_flush(const char *name);

/* Waits until all changes last. Only a fast handle, or one whose last change failed, has any to wait for. */
uint64_t catalogue_file_sync(catalogue_file *f);

/* For a handle that writes: the file has what this handle left there, word for word, and nothing else. 0 or CATALOGUE_FILE_CHANGED .. */
uint64_t catalogue_file_compare(catalogue_file *f);

/* As catalogue_file_sync, then gives the lock back. The handle can open another file. */
uint64_t catalogue_file_close(catalogue_file *f);

/* ---- what is open */

struct catalogue_file_about {
    uint64_t nodes, collections;
    uint64_t words;      /* of the table, without the trailer */
    uint64_t writing;    /* 1 if the handle writes */
    uint64_t persistent; /* 1 if a flush is an instruction, and not a wait for the disk; known of a handle that writes */
    uint64_t trailer;    /* 1 if the file has one */
};
uint64_t catalogue_file_about(catalogue_file *f, struct catalogue_file_about *about);

/*
 * The table of one moment in the handle's memory, for the calls of catalogue.h; *words is its length. It stays there until the next call with
 * this handle. A handle that writes gives its copy, which is what memory holds.
 */
uint64_t catalogue_file_table(catalogue_file *f, const uint64_t **table, size_t *words);

/* ---- reading */

struct catalogue_file_pair {
    uint64_t key, recording, access; /* access: the class */
    uint64_t higher, next;           /* of an absent code: higher is 1 and next the next key up, or higher is 0 */
};

/*
 * The recording of a key in a collection. 0: recording and access are set, and the class is one of the three. CATALOGUE_ABSENT: higher and next
 * are set. Else 3, 17, 4 if the code is there with recording 0 or a class that there is not, or one from 300 on: there is no answer, and
 * nothing may play. key is set in every case.
 */
uint64_t catalogue_file_find(catalogue_file *f, uint64_t collection, uint64_t key, struct catalogue_file_pair *found);

/* The pair with the lowest key that is at least low. 0; CATALOGUE_ABSENT if there is none; else as catalogue_file_find. */
uint64_t catalogue_file_next(catalogue_file *f, uint64_t collection, uint64_t low, struct catalogue_file_pair *found);

/*
 * The pairs with low <= key <= high, rising, each handed to the callback, which returns 0 to go on. 0 at the end, CATALOGUE_FILE_STOPPED if the
 * callback ended it, else as catalogue_file_find. Each pair was there at a moment between the step before it and its own.
 */
uint64_t catalogue_file_walk(catalogue_file *f, uint64_t collection, uint64_t low, uint64_t high,
                             int (*each)(void *context, const struct catalogue_file_pair *pair), void *context);

/* ---- changing: each lasts when it returns 0 */

uint64_t catalogue_file_add(catalogue_file *f, uint64_t collection, uint64_t key, uint64_t recording, uint64_t access);
uint64_t catalogue_file_remove(catalogue_file *f, uint64_t collection, uint64_t key);
uint64_t catalogue_file_set_class(catalogue_file *f, uint64_t collection, uint64_t key, uint64_t access);

/* Finishes what a power cut left. Not needed before a change: that repairs first. */
uint64_t catalogue_file_repair(catalogue_file *f);

/* The same calls in one, with the orders. */
enum { CATALOGUE_FILE_ADD = 0, CATALOGUE_FILE_REMOVE = 1, CATALOGUE_FILE_SET_CLASS = 2, CATALOGUE_FILE_REPAIR = 3 };

struct catalogue_file_change {
    uint64_t kind, collection, key, recording, access; /* what its kind does not need is not looked at */
    uint64_t cut;                                       /* carry out only so many orders; CATALOGUE_FILE_ALL for all */
    uint64_t stores, flushes, barriers;                 /* of the list: those of a repair that comes first, and of the change */
    uint64_t repair;                                    /* how many orders of the list are the repair's */
    uint64_t carried;                                   /* orders that were carried out */
};
#define CATALOGUE_FILE_ALL UINT64_MAX

/*
 * Carries a change out, or its first orders: whatever a power cut leaves of it is a first part of its stores. 0; CATALOGUE_FILE_CUT if cut is
 * below the number of orders; CATALOGUE_FILE_BAD_OPTION if it is above: then nothing was changed, but the counts are set.
 */
uint64_t catalogue_file_change(catalogue_file *f, struct catalogue_file_change *change);

/*
 * The list of a change, for this handle's dock, without making it: catalogue_repair's orders, if there is something to repair, then the change's.
 * 0, or as the change. A handle that reads plans it for the table of one moment. The list is the handle's until its next call; two words an
 * order, as in catalogue.h.
 */
uint64_t catalogue_file_plan(catalogue_file *f, struct catalogue_file_change *change, const uint64_t **orders);

/* ---- loading many */

/* A line of a load, as the caller gives it and gets it back. */
struct catalogue_file_line {
    uint64_t key, recording, access;
    uint64_t classed; /* 1 if the line says a class; else access is what it gets if it is added, and is not compared if it is there */
    uint64_t number;  /* as given: 0, or why the caller refuses the line itself. In the answer: what became of it */
    uint64_t tag;     /* the caller's, such as a line number; comes back as it is */
    uint64_t there;   /* in the answer, if number is 7: the pointer that the code has; else 0 */
};

/* Answers of a source. */
enum {
    CATALOGUE_FILE_END = 0,  /* no more lines */
    CATALOGUE_FILE_LINE = 1, /* the line is filled in */
    CATALOGUE_FILE_LATER = 2 /* the next line is not there yet; only if wait is 0 */
};

/* Flags of a load. */
enum {
    CATALOGUE_FILE_AGAIN = 1,      /* a line that the table has already is CATALOGUE_FILE_THERE, and no refusal */
    CATALOGUE_FILE_KEEP_GOING = 2, /* a refused line does not end the load */
    CATALOGUE_FILE_BY_ORDERS = 4,  /* nothing is packed: the table comes to what single additions make of it */
    CATALOGUE_FILE_IN_PLACE = 8,   /* and no new file takes the table's place: every order list is carried out on this one */
    CATALOGUE_FILE_BRIEF = 16      /* lines that were added or are there are counted, and not handed back */
};

struct catalogue_file_load {
    uint64_t collection, flags;
    /*
     * The next line. wait is 0 while the load holds lines that are not in the table yet: a source that would have to wait returns
     * CATALOGUE_FILE_LATER, and is asked again with wait 1 once they are.
     */
    int (*next)(void *context, struct catalogue_file_line *line, int wait);
    /*
     * What became of a line: number is 0 if it was added, and lasts; CATALOGUE_FILE_THERE; its refusal; CATALOGUE_FILE_NOT_TAKEN, or what the
     * caller said, if the load ended before it; or CATALOGUE_FILE_DISK or CATALOGUE_FILE_FOLDER if it is in the table and may not last. Every
     * line of the source is handed back once. By batches they come in order; a packed load hands back refused lines as it reads them and
     * the others in order at the end. Not 0 ends the load as if the source had ended. Null for nothing.
     */
    int (*done)(void *context, const struct catalogue_file_line *line);
    /* Each order list once what it comes to lasts; a packed load has none. Null for nothing. */
    void (*orders)(void *context, const uint64_t *orders, uint64_t count);
    void *context;
    uint64_t added, there, refused, not_taken; /* lines */
    uint64_t unknown;                          /* lines that are in the table and may not last */
    uint64_t first_refused;                    /* the first refusal's number, 0 for none */
};

/*
 * Adds lines to a collection: packed into a new file in the table's place if the collection is empty and such a file can be made, else by
 * batches of order lists. What was added lasts when the load returns, whatever it returns. 0 at the source's end, also if lines were refused
 * and the load kept going; else the number that ended it: a line's refusal without CATALOGUE_FILE_KEEP_GOING, 4, 10, 11, or one from 300 on.
 */
uint64_t catalogue_file_load(catalogue_file *f, struct catalogue_file_load *load);

/* The same for an array of pairs, a key and a pointer each (CATALOGUE_POINTER). numbers, if not null, gets what became of each pair. */
uint64_t catalogue_file_load_pairs(catalogue_file *f, uint64_t collection, uint64_t flags, const uint64_t *pairs, size_t count,
                                   uint64_t *numbers);

/* ---- copying, salvaging, checking: what is read is the table of one moment */

/*
 * A new file with a table of *nodes nodes, or of as many as are needed if *nodes is 0, with the same codes, packed; *nodes is how many it has.
 * A file of the new name stays. 0, 2, 4, 10 if *nodes is too few, or one from 300 on.
 */
uint64_t catalogue_file_copy(catalogue_file *f, const char *name, uint64_t *nodes);

/* A slot that a salvage dropped. */
struct catalogue_file_drop {
    uint64_t node, slot, reason; /* reason: CATALOGUE_DROPPED_RANGE .. */
    uint64_t key, pointer;       /* what stands there */
};

/*
 * A new file with what can be read of a damaged table, which stays as it is; of as many nodes and collections. Hands each dropped slot to the
 * callback, if it is not null, before the file is made; not 0 ends it, and no file is made. *dropped counts them. 0, 2, 10, or one from 300 on.
 */
uint64_t catalogue_file_salvage(catalogue_file *f, const char *name, int (*each)(void *context, const struct catalogue_file_drop *drop),
                                void *context, uint64_t *dropped);

/*
 * The same for a file that is no table any more, since its header is damaged or it was cut short: nodes and the collections' roots are taken
 * for those of its header, and nodes that the file lacks are passed over. roots[1] is 0 for one collection. Nothing needs to be open. 2 if the
 * nodes are not 1 to 65535 or a root is none of them.
 */
uint64_t catalogue_file_rescue(catalogue_file *f, const char *table, uint64_t nodes, const uint64_t roots[2], const char *name,
                               int (*each)(void *context, const struct catalogue_file_drop *drop), void *context, uint64_t *dropped);

/* What a sound table has: the report of catalogue_check, CATALOGUE_CHECK_WORDS words. 0; 4 if it is not sound, 2, or one from 300 on. */
uint64_t catalogue_file_check(catalogue_file *f, uint64_t *report);

/* ---- a file of sums: words that decay are noticed */

/*
 * For a handle that writes. on 1: makes the file of sums TABLE.sums for a sound table, if there is none; if there is one, and words do not fit it, it is
 * refused as a change is. on 0: takes it away, whatever it is: the table is then taken as it stands. Both last. From then on every change keeps the
 * sums, and every find, walk and call on a whole table is refused if it meets words that do not fit, but for a salvage. 0, 4, or one from 300 on.
 */
uint64_t catalogue_file_sums(catalogue_file *f, uint64_t on);

/* A line of the table that does not fit its sum. */
struct catalogue_file_doubt {
    uint64_t node, line; /* node 0 is the header; line 0 to 3 within the node: left, sibling, level and fence, or four slots each */
    uint64_t sum, words; /* the sum that is kept, and that of the words that stand there */
};

/*
 * Looks at every line of the table of one moment, and hands those that do not fit to the callback, if it is not null, which returns 0 to go on. 0 if all
 * fit; 320 or 321 if not; 4 if all fit and the table is not sound; 322, 323 or another from 300 on.
 */
uint64_t catalogue_file_scrub(catalogue_file *f, int (*each)(void *context, const struct catalogue_file_doubt *doubt), void *context);

/* ---- codes as people write them */

/*
 * The key of a code in capital or small letters, with hyphens, dashes, spaces, tabs and colons or without, and with ISRC before it or without,
 * or of # and a key's number. Dashes (as an en dash) and spaces that break no line are in UTF-8. length is the text's, or SIZE_MAX for a text that
 * ends with a 0. 0 or 1.
 */
uint64_t catalogue_file_parse(const char *text, size_t length, uint64_t *key);

/* Room for what catalogue_file_print writes, with the final 0. */
#define CATALOGUE_FILE_CODE 24

enum { CATALOGUE_FILE_PLAIN = 0, CATALOGUE_FILE_HYPHENS = 1 };

/* The code of a key, as AA0001912345 or AA-000-19-12345; of a key that no code has, # and its number. The text is returned. */
const char *catalogue_file_print(uint64_t key, uint64_t form, char text[CATALOGUE_FILE_CODE]);

/* "open", "room" or "closed"; null for a class that there is not. */
const char *catalogue_file_class(uint64_t access);

/* Places. */
enum { CATALOGUE_FILE_ELSEWHERE = 0, CATALOGUE_FILE_IN_THE_ROOM = 1 };

/* 1 if a recording of this class may play in this place: open everywhere, room in the room. 0 for every other class and place. */
int catalogue_file_may_play(uint64_t access, uint64_t place);

#if defined(__GNUC__)
#pragma GCC visibility pop
#endif

#ifdef __cplusplus
}
#endif

#endif
