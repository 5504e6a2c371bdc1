/*
 * The catalogue index: finds a recording by its ISRC code in a table of 64-bit words that may lie in persistent memory.
 * Link with libcatalogue.a (make -C shell library). For tables in files, with readers beside a writer, there is catalogue_file.h.
 *
 * A table is 8 + 32 * N words, N from 1 to 65,535 nodes. Every call takes any words and any length: it does its work or returns a
 * refusal number, and a refusal changes no lent word (but for catalogue_print, which then writes 12 zero bytes). A word that an answer is put
 * into is left alone unless the call does its work.
 * Lent slices may not overlap. A slice of length 0 still wants a pointer that is not null. One writer; readers only read.
 * Words must keep still while a call reads them: a search of words that another thread or process is changing may pair a code with its
 * neighbour's recording. If others change a table while you read it, use catalogue_file_find of catalogue_file.h: it answers
 * as before the change or as after it.
 * No call asks for memory. Stack that a call takes, whatever the words hold, rounded up (KB of 1,024 bytes, on x86-64):
 *
 *       2 KB: catalogue_version, catalogue_parse, catalogue_print, catalogue_make, catalogue_search, catalogue_search_with,
 *             catalogue_carry_out, catalogue_script, catalogue_script_number, catalogue_summary_words, catalogue_quick_delete,
 *             catalogue_quick_set_class, catalogue_quick_repair, catalogue_quick_list
 *       4 KB: catalogue_quick_insert, catalogue_quick_insert_many
 *     150 KB: catalogue_pack
 *     320 KB: catalogue_list, catalogue_check, catalogue_insert, catalogue_delete, catalogue_set_class, catalogue_repair, catalogue_sentinels,
 *             catalogue_insert_with, catalogue_delete_with, catalogue_set_class_with, catalogue_repair_with, catalogue_judge_insert,
 *             catalogue_judge_delete, catalogue_wear, catalogue_summary
 *     450 KB: catalogue_insert_many, catalogue_salvage
 *
 * A table has one collection or two, as it was made: the archive's own, 1, and the loan collection, 2. Each is a tree of its own codes, and
 * the calls that read or change one name it; a repair names none. The two share the nodes: a node belongs to one tree or is free for
 * either. A recording may be in both, under any codes, and is in each once at most.
 *
 * The header is words 0 to 7: 1, the node number of collection 1's root, N, that of collection 2's root or 0 if there is none, and four
 * zeros. Node i begins at word 8 + 32 * (i - 1); its 32 words are four lines, the slots' words a key and a pointer in turn:
 *
 *      0 left    1 sibling    2 level    3 fence    4 to 7: 0
 *      8 key     9 pointer   10 key     11 pointer   ..   14 key   15 pointer     slots 0 to 3
 *     16 key    17 pointer   18 key     19 pointer   ..   22 key   23 pointer     slots 4 to 7
 *     24 key    25 pointer   26 key     27 pointer   ..   30 key   31 pointer     slots 8 to 11
 *
 * A leaf has level 0 and left CATALOGUE_MARK. Its pointers are recordings with their classes: the low 56 bits are the recording number, the
 * top 8 the class, who may hear it. An inner node's left and pointers are its children's numbers. The fence is the lowest key that the node
 * may hold, the sibling the node to its right, or 0.
 *
 * A writing call changes the working copy and fills an order list of at least CATALOGUE_LIST_WORDS words, two words an order:
 * a store is its word index and its value, a flush is CATALOGUE_MARK and a line number (eight words from a multiple of 8 are a line;
 * lay the table at a multiple of 64 bytes, so that a line is a cache line). The host then carries the orders out on persistent
 * memory, in order: each store, and at a flush the line written back and fenced. It may be cut off between any two orders; the
 * table reloaded from memory answers every search as before the change or as after it, and every search of the other collection as before.
 * The next writing call repairs it, whichever collection it names: a table has at most one change to finish.
 *
 * A dock is a memory model; each writing call takes the dock that its list is for. The processor of dock 0 keeps its stores to one line in
 * order, as x86 does. That of dock 1 does not, as ARM: there each store is followed by a barrier, CATALOGUE_BARRIER and 0, and the host
 * lets no store pass it. On ARM the instruction is DMB ISHST, and a flush is DC CVAP with a DSB after it; on x86 a barrier is SFENCE.
 * Without its barriers the list is dock 0's; with them it wants CATALOGUE_LONG_LIST_WORDS words. A table may go from one dock to the other
 * between any two calls, and what a cut left on one may be repaired on the other.
 *
 * Sentinels are words beside a table, CATALOGUE_SENTINELS(N) of them in a slice of their own, three for each node: the first key on each
 * line of a leaf's slots that has any, CATALOGUE_MARK for a line that has none, and 0 for a node that is no leaf of either tree. They are
 * worked out when a table is loaded, and lie in ordinary memory: no order stores to them. A search that takes them looks first at the line
 * that they name. The writing calls that take them set those of the nodes that they store to; a change without them leaves them as they
 * were. Wrong ones do no harm in a sound table: every call with them answers as without them, and so do the list and the table.
 *
 * A summary is words beside a table too, catalogue_summary_words(N) of them in a slice of their own, half as long as the table: which nodes a
 * root leads to, and which recordings are in use. It lies in ordinary memory: no order stores to it. catalogue_summary checks a table whole
 * and works its summary out, if no change is unfinished. The calls that take it, the quick calls, do not check the table: they look at the
 * nodes on the way to their key, and their siblings, alone. With a summary that is true of the table a quick call returns, lists, stores and
 * counts what the plain call does, and leaves the summary true, accepted or refused. It is true until something else changes the working copy:
 * a plain call or one with sentinels that is accepted, a reload after a list that was cut off or not carried out, another table in its place.
 * After a cut call catalogue_repair first; then, as in the other cases, work the summary out anew with catalogue_summary. With any other words
 * a quick call ends and writes to its own slices alone. If a node on its way does not fit the words, it returns 4 and changes nothing (a batch,
 * if it is the way of its first pair). Else it may list, refuse or store what the plain call would not, and leave a table that is not sound.
 * No call takes sentinels and a summary: a quick call leaves sentinels as they are.
 *
 *     static uint64_t memory[8 + 32 * 100], working[8 + 32 * 100], orders[CATALOGUE_LIST_WORDS];
 *     uint64_t key, recording, access, next, higher, stores, flushes, barriers;
 *     size_t words = sizeof working / sizeof working[0];
 *
 *     catalogue_make(working, words, 1);
 *     memcpy(memory, working, sizeof working);
 *     if (catalogue_parse((const uint8_t *)"AA0001912345", 12, &key) == 0
 *         && catalogue_insert(working, words, 1, orders, CATALOGUE_LIST_WORDS, CATALOGUE_ORDERED, key, 7, CATALOGUE_OPEN, &stores,
 *                             &flushes, &barriers) == 0)
 *         catalogue_carry_out(memory, words, orders, CATALOGUE_LIST_WORDS, stores + flushes + barriers);
 *     if (catalogue_search(memory, words, 1, key, &recording, &access, &next, &higher) == 0 && access == CATALOGUE_OPEN)
 *         printf("%llu\n", (unsigned long long)recording);
 */
#ifndef CATALOGUE_H
#define CATALOGUE_H

#include <stddef.h>
#include <stdint.h>

#ifdef __cplusplus
extern "C" {
#endif

/*
 * The version of these declarations. It is raised by each change of a name, a parameter or the meaning of a word, so a program that was
 * compiled with one header and linked with another library sees it: catalogue_version() is the library's.
 */
#define CATALOGUE_VERSION 16

#define CATALOGUE_MARK UINT64_MAX
#define CATALOGUE_BARRIER (UINT64_MAX - 1)

/* The words of an order list, at least: for dock 0, and for either. */
#define CATALOGUE_LIST_WORDS 2560
#define CATALOGUE_LONG_LIST_WORDS 5120

/* The words of the sentinels of a table of N nodes. */
#define CATALOGUE_SENTINELS(nodes) (3 * (size_t)(nodes))

/* Docks. */
enum {
    CATALOGUE_ORDERED = 0,   /* keeps the stores to one line in order */
    CATALOGUE_UNORDERED = 1  /* does not: each store is followed by a barrier */
};

/* A leaf pointer's two parts, as catalogue_list gives it. */
#define CATALOGUE_MOST_RECORDING UINT64_C(72057594037927935)
#define CATALOGUE_RECORDING(pointer) ((uint64_t)(pointer) & CATALOGUE_MOST_RECORDING)
#define CATALOGUE_CLASS(pointer) ((uint64_t)(pointer) >> 56)
#define CATALOGUE_POINTER(recording, access) ((uint64_t)(access) << 56 | (uint64_t)(recording))

/* Classes. A sound table has no other. */
enum {
    CATALOGUE_OPEN = 0,   /* plays everywhere */
    CATALOGUE_ROOM = 1,   /* plays only in the room */
    CATALOGUE_CLOSED = 2  /* does not play */
};

/* What the calls return: 0 if a call does its work, else one of these. */
enum {
    CATALOGUE_NO_CODE = 1,          /* text is not a code, or a key has no code */
    CATALOGUE_NO_TABLE = 2,         /* wrong length or header, a root outside 1 to N, or two collections with N = 1 */
    CATALOGUE_SEARCH_LOST = 3,      /* search: a node number, level or sibling is wrong on its way, or its leaves go round in a ring */
    CATALOGUE_NOT_SOUND = 4,        /* check, listing, write or judging: the table is not sound, in this collection or in the other; quick calls: a
                                     * node on the way does not fit the summary or fails a test, which no true summary gives */
    CATALOGUE_SHORT_LIST = 5,       /* order list under 2,560 words, for dock 1 under 5,120 */
    CATALOGUE_BAD_RECORDING = 6,    /* recording is 0 or above CATALOGUE_MOST_RECORDING */
    CATALOGUE_KEY_PRESENT = 7,      /* code already in the collection */
    CATALOGUE_RECORDING_PRESENT = 8, /* recording in the collection under another code */
    CATALOGUE_KEY_ABSENT = 9,       /* deletion or class change: code not in the collection */
    CATALOGUE_NO_NODES = 10,        /* fewer nodes that no root leads to than the splits need; salvage, packing: the packing needs more than N */
    CATALOGUE_TOO_HIGH = 11,        /* the collection's root at level 15 would have to split */
    CATALOGUE_BAD_ORDERS = 13,      /* carry-out, judging, wear: more orders than the list has, or one outside the table; a barrier lies in each */
    CATALOGUE_BAD_CLASS = 14,       /* class above 2; comes straight after 6 */
    CATALOGUE_OTHER_LENGTH = 15,    /* salvage or judging: the second slice is not as long as the table */
    CATALOGUE_SHORT_REPORT = 16,    /* salvage: report under 36 words for each node */
    CATALOGUE_NO_COLLECTION = 17,   /* collection not 1 or 2, or 2 if the table has one; comes straight after 2 */
    CATALOGUE_NO_DOCK = 18,         /* dock neither 0 nor 1; comes straight before 5 */
    CATALOGUE_OTHER_SENTINELS = 19, /* sentinels not 3 words for each node; comes straight after 17 */
    CATALOGUE_NOT_SETTLED = 20,     /* judging, catalogue_summary: the table is sound, but a change is unfinished; comes straight after 4 */
    CATALOGUE_CHANGE_REFUSED = 21,  /* judging: the change itself would be refused on this table; comes last */
    CATALOGUE_NO_SCRIPT = 22,       /* script: number above 1,554 */
    CATALOGUE_BAD_SCRIPT = 23,      /* a script's number: actions that form no such script */
    CATALOGUE_SHORT_FIGURES = 24,   /* wear: a lent slice too short for the lines or for the pairs needed */
    CATALOGUE_BAD_PAIRS = 25,       /* packing: keys that do not rise, a recording or class out of range, or a recording there twice */
    CATALOGUE_OTHER_SUMMARY = 26,   /* summary not catalogue_summary_words(N) words; comes straight after 17, or after 2 if no collection is named */
    CATALOGUE_NO = 254,             /* judging: no */
    CATALOGUE_ABSENT = 255          /* search: the key is absent */
};

/* The CATALOGUE_VERSION that the library was built for. */
uint64_t catalogue_version(void);

/* The key of a code of 12 characters. 0 or 1. */
uint64_t catalogue_parse(const uint8_t *text, size_t length, uint64_t *key);

/* The code of a key, into exactly 12 bytes; a key without a code gives 1 and 12 zero bytes. */
uint64_t catalogue_print(uint64_t key, uint8_t *text);

/*
 * An empty table of one collection or two in these words: the root of collection 1 is node 1, that of collection 2 node 2, both empty
 * leaves. 0; 2 for the length, or for two collections with N = 1; 17 if collections is not 1 or 2.
 */
uint64_t catalogue_make(uint64_t *table, size_t words, uint64_t collections);

/*
 * A table filled from pairs (key, whole pointer), as catalogue_list gives them, packed as catalogue_salvage packs: 11 to a leaf, 12 children to
 * an inner node, collection 1's nodes first, the others free. pairs are those of collection 1, loans those of collection 2; for one
 * collection loans is not looked at. Half a pair at the end of a slice is none. The whole table is written, whatever stood there; it is
 * settled (no change is unfinished), and its maps are exactly these pairs. The call fills no order list: use it for a table that is not in
 * use yet, and store that whole.
 * 0; 2 and 17 as in catalogue_make; 10 if the packing of both needs more than N nodes; 25 if the keys of a slice do not rise strictly,
 * a recording is 0, a class above 2, or a recording is in one slice twice. A refusal writes nothing.
 * It looks at the pairs a few times, and once more for every 6,000 to 12,000 of them; if recordings are chosen so that their numbers
 * crowd, it takes longer by the square of the pairs.
 */
uint64_t catalogue_pack(uint64_t *table, size_t words, uint64_t collections, const uint64_t *pairs, size_t pair_words, const uint64_t *loans,
                        size_t loan_words);

/*
 * 0, *recording and its class *access if the key is found. In a table that is not sound they are what stands there, which may be recording 0
 * or a class up to 255: play a recording only if its class is exactly open, or is exactly room and it plays in the room.
 * 255 if it is absent: then *higher is 1 and *next the next key up in the map, or *higher is 0 and *next stays, for no key is higher.
 * Else 2, 17 or 3. A word that is not named for a case stays. Only this collection's nodes are looked at.
 * The next key is looked for from the leaf where the search ended and on along the siblings, past leaves that are empty; a leaf there that
 * fails the search's tests, or more leaves than the table has nodes, give 3. Any key may be the next one, CATALOGUE_MARK too.
 */
uint64_t catalogue_search(const uint64_t *table, size_t words, uint64_t collection, uint64_t key, uint64_t *recording, uint64_t *access,
                          uint64_t *next, uint64_t *higher);

/*
 * The collection's pairs (key, whole pointer) with low <= key <= high, rising, into out while whole pairs fit; *pairs is their number,
 * *more 1 if more were left, else 0. 0, or 2, 17 or 4.
 */
uint64_t catalogue_list(const uint64_t *table, size_t words, uint64_t collection, uint64_t low, uint64_t high, uint64_t *out,
                        size_t out_words, uint64_t *pairs, uint64_t *more);

/* The leftover of a sound table: what a change that was cut off has left unfinished; the next writing call, or catalogue_repair, finishes it. */
enum {
    CATALOGUE_SETTLED = 0, /* nothing */
    CATALOGUE_LEFT_A = 1,  /* a node has a hidden slot */
    CATALOGUE_LEFT_B = 2,  /* a node lacks its slot in the parent; its left neighbour may still show slots that are now the node's */
    CATALOGUE_LEFT_C = 3   /* a node lacks its slot in the parent, and the parent has a hidden slot */
};

/* The report of catalogue_check, by index. A node that there is none of is 0, and then its slot or its count is 0 too. */
enum {
    CATALOGUE_CHECK_LEFTOVER = 0,    /* CATALOGUE_SETTLED, or CATALOGUE_LEFT_A, .. B or .. C */
    CATALOGUE_CHECK_COLLECTION = 1,  /* the collection that has the leftover, 1 or 2; 0 if the table is settled */
    CATALOGUE_CHECK_HIDDEN_NODE = 2, /* a and c: the node with the hidden slot */
    CATALOGUE_CHECK_HIDDEN_SLOT = 3, /* that slot, 0 to 10 */
    CATALOGUE_CHECK_NODE = 4,        /* b and c: the node that lacks its slot in the parent */
    CATALOGUE_CHECK_NEIGHBOUR = 5,   /* its left neighbour, whose sibling it is */
    CATALOGUE_CHECK_PARENT = 6,      /* the parent of both */
    CATALOGUE_CHECK_TRAILING = 7,    /* b: how many slots the left neighbour still shows from the node's fence up */
    CATALOGUE_CHECK_NODES = 8,       /* N */
    CATALOGUE_CHECK_FREE = 9,        /* nodes that no root leads to */
    CATALOGUE_CHECK_WORDS = 16
};

/* And for collection 1 or 2: its nodes, its codes, its levels. All three are 0 for collection 2 if the table has one collection. */
#define CATALOGUE_CHECK_NODES_OF(collection) (7 + 3 * (collection))
#define CATALOGUE_CHECK_CODES_OF(collection) (8 + 3 * (collection))
#define CATALOGUE_CHECK_LEVELS_OF(collection) (9 + 3 * (collection))

/*
 * Checks the whole table: 0 if it is sound, and report, exactly CATALOGUE_CHECK_WORDS words, is written whole; else 2, or 4 if it is not
 * sound. Only a sound table takes changes. The codes of a collection are those that catalogue_list lists.
 */
uint64_t catalogue_check(const uint64_t *table, size_t words, uint64_t *report);

/*
 * The writing calls, on the working copy. Each repairs what a cut left first, in either collection. 0, with the order list filled for the
 * dock and its stores, flushes and barriers counted (at most 1,121 stores and flushes together; no barriers for dock 0, one for each store
 * for dock 1), or the refusal number. Of the other collection only the number of free nodes, for 10, and that it is sound count for what is
 * refused; its codes and their recordings stay at every store.
 * Insertion: 2, 17, 4, 18, 5, 6, 14, 7, 8, 11, 10.
 */
uint64_t catalogue_insert(uint64_t *table, size_t words, uint64_t collection, uint64_t *orders, size_t order_words, uint64_t dock,
                          uint64_t key, uint64_t recording, uint64_t access, uint64_t *stores, uint64_t *flushes, uint64_t *barriers);

/*
 * Many insertions: the pairs in the order given, a key and a pointer each (CATALOGUE_POINTER; an odd last word is half a pair and is none),
 * one order list for all. Table, list and counts are those of the single calls one after another, each with the list behind the words that
 * the one before it filled; the table is checked once. It stops at the first pair that is refused. If that is the first one the call returns
 * its number and changes no lent word. Else it returns 0: *taken pairs were taken, with the sums of their stores, flushes and barriers, and
 * *stop is 0 if that is all of them, or the number that refused the next one. A stop at 5 says that the rest of the list has fewer words than
 * a single call needs: carry the list out, and call again with the pairs that are left. No pairs give 0, and nothing is tested.
 * A cut anywhere in the list leaves the calls before it whole and one call cut. 2, 17, 4, 18, 5, 6, 14, 7, 8, 11, 10.
 */
uint64_t catalogue_insert_many(uint64_t *table, size_t words, uint64_t collection, uint64_t *orders, size_t order_words, uint64_t dock,
                               const uint64_t *pairs, size_t pair_words, uint64_t *taken, uint64_t *stop, uint64_t *stores,
                               uint64_t *flushes, uint64_t *barriers);

/* Deletion: 2, 17, 4, 18, 5, 9. */
uint64_t catalogue_delete(uint64_t *table, size_t words, uint64_t collection, uint64_t *orders, size_t order_words, uint64_t dock,
                          uint64_t key, uint64_t *stores, uint64_t *flushes, uint64_t *barriers);

/* Class change of a code, also to the class that it has: one store and one flush, after any repair. 2, 17, 4, 18, 5, 14, 9. */
uint64_t catalogue_set_class(uint64_t *table, size_t words, uint64_t collection, uint64_t *orders, size_t order_words, uint64_t dock,
                             uint64_t key, uint64_t access, uint64_t *stores, uint64_t *flushes, uint64_t *barriers);

/* Repair of what a cut left in either collection: 2, 4, 18, 5. A settled table gives 0 orders. */
uint64_t catalogue_repair(uint64_t *table, size_t words, uint64_t *orders, size_t order_words, uint64_t dock, uint64_t *stores,
                          uint64_t *flushes, uint64_t *barriers);

/* The sentinels of a table, of both collections. 0, or 2, 19 or 4. */
uint64_t catalogue_sentinels(const uint64_t *table, size_t words, uint64_t *sentinels, size_t sentinel_words);

/*
 * As catalogue_search, with 19 after 17. On a sound table the answer is that of catalogue_search whatever the sentinels hold; on another one
 * it may be another slot of the same leaf with the key, if catalogue_search finds one too.
 */
uint64_t catalogue_search_with(const uint64_t *table, size_t words, const uint64_t *sentinels, size_t sentinel_words, uint64_t collection,
                               uint64_t key, uint64_t *recording, uint64_t *access, uint64_t *next, uint64_t *higher);

/*
 * As the writing calls above, with 19 after 17. Table, list, counts and number are the plain call's; if it is accepted the sentinels of the
 * nodes that it stored to are set, and no others: true ones stay true. A refusal changes none.
 */
uint64_t catalogue_insert_with(uint64_t *table, size_t words, uint64_t *sentinels, size_t sentinel_words, uint64_t collection,
                               uint64_t *orders, size_t order_words, uint64_t dock, uint64_t key, uint64_t recording, uint64_t access,
                               uint64_t *stores, uint64_t *flushes, uint64_t *barriers);

uint64_t catalogue_delete_with(uint64_t *table, size_t words, uint64_t *sentinels, size_t sentinel_words, uint64_t collection,
                               uint64_t *orders, size_t order_words, uint64_t dock, uint64_t key, uint64_t *stores, uint64_t *flushes,
                               uint64_t *barriers);

uint64_t catalogue_set_class_with(uint64_t *table, size_t words, uint64_t *sentinels, size_t sentinel_words, uint64_t collection,
                                  uint64_t *orders, size_t order_words, uint64_t dock, uint64_t key, uint64_t access, uint64_t *stores,
                                  uint64_t *flushes, uint64_t *barriers);

uint64_t catalogue_repair_with(uint64_t *table, size_t words, uint64_t *sentinels, size_t sentinel_words, uint64_t *orders,
                               size_t order_words, uint64_t dock, uint64_t *stores, uint64_t *flushes, uint64_t *barriers);

/* The words of the summary of a table of so many nodes; 0 for 0 and above 65,535. */
uint64_t catalogue_summary_words(uint64_t nodes);

/*
 * The summary of a table, of both collections, into exactly so many words. 0, or 2, 26, 4, or 20 if a change is unfinished: catalogue_repair
 * finishes it.
 */
uint64_t catalogue_summary(const uint64_t *table, size_t words, uint64_t *summary, size_t summary_words);

/*
 * As the writing calls, with 26 after 17, and 4 by the nodes on the way alone. A refusal changes no lent word. Insertion: 2, 17, 26, 4, 18, 5, 6,
 * 14, 7, 8, 11, 10. Deletion: 2, 17, 26, 4, 18, 5, 9. Class change: 2, 17, 26, 4, 18, 5, 14, 9. Repair: 2, 26, 18, 5. A table that has a true summary
 * has nothing to repair: a quick repair gives 0 orders, whatever the words are. What a cut left is finished by catalogue_repair.
 */
uint64_t catalogue_quick_insert(uint64_t *table, size_t words, uint64_t *summary, size_t summary_words, uint64_t collection,
                                uint64_t *orders, size_t order_words, uint64_t dock, uint64_t key, uint64_t recording, uint64_t access,
                                uint64_t *stores, uint64_t *flushes, uint64_t *barriers);

uint64_t catalogue_quick_delete(uint64_t *table, size_t words, uint64_t *summary, size_t summary_words, uint64_t collection,
                                uint64_t *orders, size_t order_words, uint64_t dock, uint64_t key, uint64_t *stores, uint64_t *flushes,
                                uint64_t *barriers);

uint64_t catalogue_quick_set_class(uint64_t *table, size_t words, const uint64_t *summary, size_t summary_words, uint64_t collection,
                                   uint64_t *orders, size_t order_words, uint64_t dock, uint64_t key, uint64_t access, uint64_t *stores,
                                   uint64_t *flushes, uint64_t *barriers);

uint64_t catalogue_quick_repair(const uint64_t *table, size_t words, const uint64_t *summary, size_t summary_words, const uint64_t *orders,
                                size_t order_words, uint64_t dock, uint64_t *stores, uint64_t *flushes, uint64_t *barriers);

/*
 * As catalogue_insert_many, with 26 after 17: the quick insertions of the pairs, one after another. It is refused, or stops, with 4 by the
 * nodes on the way of a pair.
 */
uint64_t catalogue_quick_insert_many(uint64_t *table, size_t words, uint64_t *summary, size_t summary_words, uint64_t collection,
                                     uint64_t *orders, size_t order_words, uint64_t dock, const uint64_t *pairs, size_t pair_words,
                                     uint64_t *taken, uint64_t *stop, uint64_t *stores, uint64_t *flushes, uint64_t *barriers);

/*
 * As catalogue_list, with 26 after 17, and 4 by the nodes on the way to low alone. It looks at the leaves of the range, up to the first pair
 * that does not fit: so it serves as a walk too. A page of twenty is a listing from a key to CATALOGUE_MARK into 40 words; if *more is 1, the
 * next page begins at the last key plus 1.
 */
uint64_t catalogue_quick_list(const uint64_t *table, size_t words, const uint64_t *summary, size_t summary_words, uint64_t collection,
                              uint64_t low, uint64_t high, uint64_t *out, size_t out_words, uint64_t *pairs, uint64_t *more);

/* Applies the first c orders of a list to a table; barriers are counted and passed over. 0, or 2 or 13. */
uint64_t catalogue_carry_out(uint64_t *table, size_t words, const uint64_t *orders, size_t order_words, uint64_t c);

/* Why a salvage drops a slot: the first of these that holds. */
enum {
    CATALOGUE_DROPPED_RANGE = 1,    /* recording number or class out of range */
    CATALOGUE_DROPPED_KEY = 2,      /* code already kept */
    CATALOGUE_DROPPED_RECORDING = 3 /* recording already kept */
};

/*
 * Salvage of a damaged table, which stays as it is: out, of the same length, becomes a settled table with the pairs kept, of as many
 * collections, collection 1 first; what is there twice is judged in each by itself. 0, and *dropped slots were dropped: the report's first
 * words are node, slot and reason of each, in the order met, the others stay. Or 2, 15, 16, 10.
 * A sound table drops nothing, keeps its maps and never gives 10.
 * It takes as long as some tens of plain read passes over the table, sound or with words changed here and there. It takes longer by the way
 * that keys are met out of order, and, if the slots in use would need more than N nodes, by the square of the pairs.
 */
uint64_t catalogue_salvage(const uint64_t *table, size_t words, uint64_t *out, size_t out_words, uint64_t *report, size_t report_words,
                           uint64_t *dropped);

/*
 * Judges a list of orders that was not made here, all whole orders of the slice, for an insertion in a settled table; the table stays as it
 * is. It serves dock 0. 0 for yes: no two lines ever hold unflushed stores; every image of a cut, after every count of orders, is sound, with
 * this collection's map as before or as after the insertion and the other collection's, or its lack, unchanged; and the whole list leaves no
 * store unflushed and gives a settled table with the new map. 254 for no: *count is the first count of orders that fails. Then out, of the
 * table's length, in which the images are built, is the table with the list carried out: whole for yes, up to that count for no.
 * Or 2, 17, 4, 20, 13 (over the whole list), 15, 21. Every list that catalogue_insert or catalogue_delete gives on a settled table is accepted.
 * Half an order at the end of the slice is none, and zeros there are stores: hand in the orders alone. A list of no orders is no, with 0.
 */
uint64_t catalogue_judge_insert(const uint64_t *table, size_t words, const uint64_t *orders, size_t order_words, uint64_t *out,
                                size_t out_words, uint64_t collection, uint64_t key, uint64_t recording, uint64_t access, uint64_t *count);

/* The same for a deletion. */
uint64_t catalogue_judge_delete(const uint64_t *table, size_t words, const uint64_t *orders, size_t order_words, uint64_t *out,
                                size_t out_words, uint64_t collection, uint64_t key, uint64_t *count);

/* How many short scripts there are; their numbers are 0 to 1554. */
#define CATALOGUE_SCRIPTS 1555

/*
 * The short scripts, for tests of a host: all those of up to 4 actions over insert or delete of keys 1, 2 and 3 in a table of one
 * collection, with recording 10 plus the key and class 0. Shorter ones come first, equal lengths by the first action that differs: insert
 * before delete, then the smaller key. A script is 5 words: its length, and 4 numbers, 0 to 2 to insert keys 1 to 3, 3 to 5 to delete
 * them, 0 past the length. No table is asked for.
 * The script with this number, into exactly 5 words. 0 or 22.
 */
uint64_t catalogue_script(uint64_t number, uint64_t *script);

/* The number of a script, from exactly 5 words. 0 or 23. */
uint64_t catalogue_script_number(const uint64_t *script, uint64_t *number);

/*
 * The wear of an order list of any length: all whole orders of the slice count, so hand in no words past the list. Of the table only length
 * and header are read. lines gets the stores to each line, words / 8 numbers; extents the words that have a store, as pairs of offset and
 * length, sorted by offset, touching ones joined. *total is the number of stores, *largest the most to one line, *first_line the first line
 * that has so many, *pairs the number of pairs. Words past what is written stay. Flushes and barriers count for nothing; a list without
 * stores gives 0 for all four.
 * 0, or 2, 13 (over the whole list) or 24 (lines under words / 8 words, extents under twice the pairs).
 */
uint64_t catalogue_wear(const uint64_t *table, size_t words, const uint64_t *orders, size_t order_words, uint64_t *lines,
                        size_t line_words, uint64_t *extents, size_t extent_words, uint64_t *total, uint64_t *largest,
                        uint64_t *first_line, uint64_t *pairs);

#ifdef __cplusplus
}
#endif

#endif
