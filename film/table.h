/* A table's words in memory, with what messages say of it. */
#ifndef TABLE_H
#define TABLE_H

#include <stddef.h>
#include <stdint.h>

struct table {
    const char *name;
    uint64_t collection;  /* that is read or changed */
    uint64_t collections; /* that it has */
    uint64_t dock;        /* that its order lists are for */
    size_t words;
    uint64_t bytes;       /* of its file */
    const uint64_t *base; /* as they are */
    uint64_t *working;    /* a copy, which the library's calls change */
};

/* Room for table_part. */
#define PART_TEXT 48

/* "collection 2 of ", to stand before the name of a table that has two; "" for another. The text given is filled and returned. */
const char *table_part(const struct table *t, char text[PART_TEXT]);

#endif
