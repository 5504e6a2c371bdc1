/* A picture of the wear by line. */
#ifndef PICTURE_H
#define PICTURE_H

#include <stddef.h>
#include <stdint.h>

/* The library's figures of one list. */
struct figures {
    uint64_t total, largest, first_line, pairs;
    uint64_t *lines;   /* the stores to each line of the table */
    uint64_t *extents; /* pairs of offset and length */
    size_t room;       /* words for these */
};

/* SVG on standard output: a bar for each line, or for each group of neighbouring lines as long as its most worn line has stores. */
void picture(const char *name, const uint64_t *lines, size_t count, const struct figures *f);

#endif
