/* A table's file: its length, its name, its words mapped. */
#ifndef MAPPING_H
#define MAPPING_H

#include "handle.h"

/* Words of a table of so many nodes. */
size_t words_for(uint64_t nodes);

/* Bytes of a file with so many words of a table, with its trailer or without. */
size_t bytes_of(size_t words, bool trailer);

bool same_file(const struct stat *a, const struct stat *b);

/* The open file is the one that the name leads to; the file's state in either case. */
bool has_name(const struct catalogue_file *f, struct stat *ours);

/*
 * A file that was copied without its zeros has no place on the disk for them: the first store to such a page would end the program if the disk
 * is full. Takes the place for so many bytes. False, with errno, if there is none; a file system that cannot say so beforehand goes on.
 */
bool fill_holes(int file, const struct stat *about, uint64_t bytes);

/*
 * So many words and a trailer of an open file, for writing if asked for; null, with errno, if they cannot be mapped. *persistent: flush
 * instructions are enough.
 */
uint64_t *map_words(int file, size_t words, bool writing, bool *persistent);
void unmap_words(uint64_t *mapped, size_t words);

#endif
