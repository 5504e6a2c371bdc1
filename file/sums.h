/* The file of sums beside a table: a sum for each line of the header and the nodes, and two journals. */
#ifndef SUMS_H
#define SUMS_H

#include "handle.h"
#include "journal.h"

/*
 * The file TABLE.sums. Its first line: SUMS_FORMAT, the word that the table's trailer has too, the number of lines, four zeros, and the CRC32C of
 * those words. From SUMS_JOURNALS on two journals, used in turn; from SUMS_ENTRIES on a sum for each line of the table, two a word, the lower half
 * first.
 *
 * A change writes its journal, which lasts before its first store; then it stores to the table; then to the sums of the lines that it has
 * changed. These last when the next journal does. So after a cut the sum of a line is right, or the line is in the last journal, which names all
 * words that the cut may have left there, or in the one before it and has what that one left. Nothing else is accepted.
 */
#define SUMS_FORMAT UINT64_C(0x314d5553485a554a)
#define SUMS_JOURNALS 512
#define SUMS_ENTRIES (SUMS_JOURNALS + 2 * JOURNAL_WORDS)

/*
 * Of a file that is mapped: what lies beside it. Nothing is no failure; a file that cannot be used is trouble for finds and changes. 0, or 310.
 */
uint64_t sums_open(struct catalogue_file *f);
void sums_close(struct catalogue_file *f);

/* Copied lines of the table, so many from the first on, fit their sums, or are what a change that is under way leaves. For struct looks too. */
bool sums_fit(const void *sums, const uint64_t *words, uint64_t first, size_t count);

/* One line; if it does not fit, what is known of it. */
bool sums_judge(const struct sums *s, const uint64_t *words, uint64_t line, struct catalogue_file_doubt *doubt);

/* Why lines do not fit: 320, or 321 if the table's counter says that a program without sums has changed it. counter: read before the lines. */
uint64_t sums_verdict(const struct sums *s, uint64_t counter);

/* The node that a line lies in; 0 for the header. */
uint64_t sums_node(uint64_t line);

/* Refuses with the trouble: its number and a message. 0 if there is none. */
uint64_t sums_refuse(struct catalogue_file *f);

/* A number with which finds and changes are refused. */
bool sums_refused(uint64_t number);

/* Refuses since a node does not fit, or the header, 0; the verdict, with a message. */
uint64_t sums_doubt(struct catalogue_file *f, uint64_t node, uint64_t counter);

/* Of a writer, when its copies are read: lines that do not fit are trouble; those that a cut has left get their sums. */
uint64_t sums_take(struct catalogue_file *f);

/* Of a writer, around its stores. sums_before: so many of the orders may be carried out now; the journal lasts. */
uint64_t sums_before(struct catalogue_file *f, const uint64_t *orders, uint64_t count, enum brackets brackets, uint64_t *taken);
void sums_after(struct catalogue_file *f);

/* If a flush is a wait for the disk: waits until the disk has all of it. False, with errno. */
bool sums_sync(struct catalogue_file *f);

/*
 * A file of sums for these words, under another name and lasting; put takes its own name, once the trailer has the identity; drop takes it away.
 * False, with errno.
 */
bool sums_prepare(struct catalogue_file *f, const uint64_t *words, uint64_t identity, uint64_t counter);
bool sums_put(struct catalogue_file *f);
bool sums_drop(struct catalogue_file *f);

/* A file has the name already. */
bool sums_taken(const struct catalogue_file *f);

/* A word that no other file has; never 0. */
uint64_t sums_identity(void);

#endif
