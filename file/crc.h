/* CRC32C of a table's lines. */
#ifndef CRC_H
#define CRC_H

#include <stddef.h>
#include <stdint.h>

/*
 * A way to work sums out. lines: of so many lines, 8 words each, from the table's line first on, each one's sum: the CRC32C of its bytes, and the
 * line's number by exclusive or, so that a line in another's place does not fit. words: the CRC32C of so many words.
 */
struct crc {
    void (*lines)(const uint64_t *words, uint64_t first, size_t count, uint32_t *sums);
    uint32_t (*words)(const uint64_t *words, size_t count);
};

/* By the processor's instruction if it has one, and without. Both give the same. */
const struct crc *crc_best(void);
const struct crc *crc_plain(void);

#endif
