/* The lines of a load, and what becomes of them. */
#ifndef LINES_H
#define LINES_H

#include "handle.h"

struct loading {
    struct catalogue_file *f;
    struct catalogue_file_load *load;
    bool over;        /* no more lines are asked for or taken */
    uint64_t number;  /* that ended the load; 0 for its end */
    uint64_t refusal; /* of every change of this table; 0 if it is sound */
    struct batch *batch;     /* one of these is there */
    struct packing *packing;
};

/* What becomes of a line is counted, and handed back. */

/* It was added, or it is there; or it is in the table and may not last, for this number. */
void line_added(struct loading *l, const struct catalogue_file_line *line, uint64_t number);

/* It is refused: the load ends with that unless it keeps going, or in any case if ends is true. */
void line_refused(struct loading *l, const struct catalogue_file_line *line, uint64_t number, bool ends);

/* The load ended before it. */
void line_not_taken(struct loading *l, const struct catalogue_file_line *line);

/* The load ends for a reason of the file. */
void load_ends(struct loading *l, uint64_t number);

/* The pair says all that the line says: a line without a class says nothing of it. Then the line gets the class that is there. */
bool line_same(struct catalogue_file_line *line, uint64_t recording, uint64_t access);

/* What any table refuses of a line: 0, 6 or 14. */
uint64_t line_range(const struct catalogue_file_line *line);

#endif
