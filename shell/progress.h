/* How far a long command is: a line on the terminal that is drawn again, or a line now and then where there is none. */
#ifndef PROGRESS_H
#define PROGRESS_H

#include <stdbool.h>
#include <stdint.h>

struct moment {
    double seconds;
    uint64_t lines;
};

struct progress {
    const char *name; /* what is being loaded */
    uint64_t all;     /* lines; 0 where not known */
    bool terminal;
    bool drawn;   /* something is on the terminal's line */
    double shown; /* when it was last shown */
    /* The rate is that of the last 5 to 10 seconds: it falls as a table grows. */
    struct moment older, newer;
};

void progress_begin(struct progress *p, const char *name, uint64_t all);

/* After each line; shows it ten times a second on a terminal, every ten seconds elsewhere. */
void progress_step(struct progress *p, uint64_t lines);

/* Before a message, and at the end: the terminal's line is free again. */
void progress_clear(struct progress *p);

#endif
