/* The line of a file that has a code or a recording before another one that is refused for it. */
#ifndef EARLIER_H
#define EARLIER_H

#include "sheet.h"

/* Lines that were refused before: what they say is in no table. */
struct refused_lines {
    const uint64_t *of;
    size_t count;
};

struct earlier {
    uint64_t line, key;
};

/*
 * Reads the file once more, up to that line: the first one with the key or, if there is none, with the recording. False if there is none, or if
 * the file cannot be read twice.
 */
bool earlier_line(const struct sheet *s, uint64_t before, const uint64_t *key, uint64_t recording, struct refused_lines refused, struct earlier *found);

#endif
