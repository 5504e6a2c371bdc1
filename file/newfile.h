/* New files that are there whole or not at all. */
#ifndef NEWFILE_H
#define NEWFILE_H

#include <stdbool.h>
#include <stddef.h>
#include <stdint.h>
#include <sys/stat.h>

#include "handle.h"

/* A file of that name with these words and a trailer, on the disk; a file that is there already stays. 0, or a number with its message. */
uint64_t new_file(struct catalogue_file *f, const char *name, const uint64_t *words, size_t count);

/*
 * Whether this user may put a new file in the place of this one, so that nobody misses the old one: it is the user's own, has no second name,
 * is not mounted by itself, and its folder takes files and lets them go again. That there is room, and that the new file can have the old
 * one's owner and attributes, shows when it is made.
 */
bool replaceable(const char *name, const struct stat *old);

/* A file under another name beside the one whose place it takes. */
struct successor {
    int file;
    char *place, *made; /* their names */
};

/*
 * A file with these words and a trailer, with the old one's owner, rights and attributes, locked as a writer does, on the disk. sums: the word
 * that the trailer has of a file of sums. False, with errno, if there is none. successor_free in either case, which takes the file away unless it was put.
 */
bool successor_make(struct successor *s, const char *name, int old, const uint64_t *words, size_t count, uint64_t sums);
bool successor_put(struct successor *s);
void successor_free(struct successor *s);

/* A file of that name with these words, in the place of one that is there, with another file's owner, rights and attributes; it lasts. False, with errno. */
bool put_file(const char *name, int like, const uint64_t *words, size_t count);

/* Waits until the name of a file is on the disk. */
bool sync_name(const char *name, int file);

#endif
