/* Loading the lines of a file. */
#ifndef INTAKE_H
#define INTAKE_H

#include <stdbool.h>

#include "opened.h"
#include "sheet.h"

struct load_options {
    bool again;      /* pass over lines that the table has already */
    bool keep_going; /* pass over bad lines */
    bool each;       /* print each line once the table has it, on the disk or in persistent memory */
    struct columns columns; /* where code, recording and class stand */
    bool wear;       /* print which lines of the table were stored to most */
};

/*
 * Adds the lines of the file, or of standard input where its name is -, to the table's collection. A bad line ends it, unless it is to keep
 * going; the lines after it are only read then, to print which of them are bad. What came before is kept. 0, or an exit status after
 * saying why.
 */
int load(struct opened *o, const char *name, const struct load_options *options);

#endif
