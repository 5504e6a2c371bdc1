/* The journal of a file of sums: which lines the change under way stores to, what they had before, and its stores in order. */
#ifndef JOURNAL_H
#define JOURNAL_H

#include <stdbool.h>
#include <stddef.h>
#include <stdint.h>

#include "crc.h"

/* A test may take another number, for more journals to a list. */
#ifndef JOURNAL_WORDS
#define JOURNAL_WORDS 1024
#endif

/*
 * Words of a journal: those named here; then of each line its number and the 8 words that it had; then of each store the word's index and its
 * value. The sum is of all words that are used; a journal that a cut has torn has another one.
 */
enum { JOURNAL_NUMBER, JOURNAL_LINES, JOURNAL_STORES, JOURNAL_FROM, JOURNAL_TO, JOURNAL_SUM = 7, JOURNAL_HEAD };

/*
 * The journal of as many of these orders as it has room for, up to a flush or to their end; how many, or 0 if there is no room for those up to the
 * first flush. number: that of the journal before it and 1.
 */
uint64_t journal_make(uint64_t *journal, uint64_t number, const uint64_t *table, const uint64_t *orders, uint64_t count);

/* The counter's values before its stores and after them, and the sum: it is complete then. */
void journal_finish(uint64_t *journal, const struct crc *crc, uint64_t from, uint64_t to);

/* Words that are used. */
size_t journal_size(const uint64_t *journal);

/* A whole journal, by its sum. */
bool journal_holds(const uint64_t *journal, const struct crc *crc);

/*
 * What a journal says of a line: nothing; that it never has these words; that it has them before or under the change; that it has them after it.
 * after: the words that it has then, unless it says nothing.
 */
enum { JOURNAL_SILENT, JOURNAL_NEVER, JOURNAL_MEANWHILE, JOURNAL_AFTER };
int journal_says(const uint64_t *journal, uint64_t line, const uint64_t *words, uint64_t *after);

/* The words that a line has before the change; null if the journal does not name it. */
const uint64_t *journal_before(const uint64_t *journal, uint64_t line);

/* The number of its line at that place, and the words that the line has after the change. */
uint64_t journal_after(const uint64_t *journal, uint64_t at, uint64_t *words);

#endif
