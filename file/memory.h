/* The words that a writer has mapped: read, compared, stored to by order lists, replaced by a new file. */
#ifndef MEMORY_H
#define MEMORY_H

#include "handle.h"

/* These return 0, or a number with its message. */

/* The number of a table whose header is none; the message says what does not fit. */
uint64_t wrong_header(struct catalogue_file *f, const uint64_t *header);

/* Of a file that is locked, measured and mapped: its copies, its trailer, and all that was stored before on the disk. */
uint64_t begin_writing(struct catalogue_file *f);

/* The copies are what memory holds, also after a change that failed. */
uint64_t refresh(struct catalogue_file *f);

/*
 * The file still has its name, its length and the words that this handle left in it. All words are compared if the file's times have moved, or
 * if orders is null; another program's stores to a mapping of its own need not move them, so the lines that the orders go to are compared
 * always.
 */
uint64_t still_ours(struct catalogue_file *f, const uint64_t *orders, uint64_t count);

/* The first count orders of a list, on the mapped words. *carried is raised by the orders that were carried out. */
uint64_t carry_list(struct catalogue_file *f, const uint64_t *orders, uint64_t count, enum brackets brackets, uint64_t *carried);

/* Every page is written to the disk once more, also those that the system takes for written. */
uint64_t write_again(struct catalogue_file *f);

/* Waits until the file has what was carried out, and the folder its name. */
uint64_t settle(struct catalogue_file *f);

/* A flush of this table is a wait for the disk. */
bool waits_for_disk(const struct catalogue_file *f);

/*
 * A new file with the working copy's words in the table's place: it is on the disk, and a cut leaves the old file or the new one. *done is
 * false, with errno, if there is no such file to be made and the table is as it was.
 */
uint64_t replace(struct catalogue_file *f, bool *done);

#endif
