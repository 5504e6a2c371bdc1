/* The lines of a spreadsheet's export, or of a file that people write: code, recording and perhaps class, among other columns. */
#ifndef SHEET_H
#define SHEET_H

#include <stdbool.h>
#include <stdint.h>

#include "rows.h"

enum column { CODE_COLUMN, RECORDING_COLUMN, CLASS_COLUMN, COLUMNS };

/* Which columns --columns asks for, each by its number, from 1, or by its name in the first line; 0 and null for neither. */
struct columns {
    uint64_t number[COLUMNS];
    const char *name[COLUMNS];
    size_t length[COLUMNS]; /* of the name */
};

/* From code=2,recording=5 or code=ISRC,recording=Number,class=Access. */
bool columns_read(struct columns *c, const char *text);

struct sheet {
    const struct columns *asked;
    struct rows *rows;
    uint64_t line; /* of the last row: its first one */
    /* Known once a line was read that is not empty. */
    bool begun;
    char separator;
    int column[COLUMNS]; /* from 0; -1 for none */
    bool alone;          /* a line has no other fields */
    const char *missing; /* the name of a column that the first line has not; null for none */
    size_t missing_length;
};

void sheet_begin(struct sheet *s, struct rows *r, const struct columns *asked);

/* What a row says. */
struct row {
    uint64_t key, recording, access;
    bool classed; /* it has a class; one that has none is open */
};

/* Why a row is refused: the beginning of the field, or of the line, and what is wrong with it. */
struct fault {
    const char *what; /* "code", "recording", "class", or "" for the line */
    const char *why;
    char text[ROW_TEXT];
};

enum { ROW_PASSED = -1 };

/* The last line, with those that a quoted field goes on to: 0; 1, 6, 14 or BAD_LINE with its fault; ROW_PASSED for an empty line or a header. */
int sheet_read(struct sheet *s, struct row *row, struct fault *fault);

#endif
