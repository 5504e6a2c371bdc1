/* Ways to make a line of a table last. */
#ifndef FLUSH_H
#define FLUSH_H

#include <stdbool.h>
#include <stddef.h>
#include <stdint.h>

/* A line, as the orders count them. */
#define LINE_WORDS 8

/* A way to make a line last, before any later store: false, with errno, if it cannot be done. */
struct flush {
    const char *name;
    bool (*line)(void *address);
    bool lasts; /* the line is written back, and not only kept in its order */
};

/*
 * Each line of the orders lies in one line of this processor's cache. Of shorter ones a half could reach memory without the other half's
 * earlier stores, which neither dock allows; longer ones do no harm.
 */
bool flush_whole_lines(void);

/* The best way that this processor has. */
const struct flush *flush_best(void);

/* The way of this name, or null if there is none or the processor lacks it. */
const struct flush *flush_named(const char *name);

/*
 * For a mapped file of which no instruction reaches the disk: the line's page is written to the disk and waited for. The system may write
 * other pages sooner, in any order; as every line before is on the disk already, the one page on its way has a first part of one line's
 * stores, or none of them.
 */
const struct flush *flush_by_page(void);

/* Writes the pages of so many bytes, from a page's first byte on, to the disk and waits for them. */
bool flush_pages(void *from, size_t bytes);

/* Keeps later stores behind earlier ones: SFENCE, on ARM DMB ISHST. A list for dock 1 has one after each store. */
void flush_barrier(void);

#endif
