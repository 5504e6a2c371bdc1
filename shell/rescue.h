/* Salvage: a new table with what can be read of a damaged one. */
#ifndef RESCUE_H
#define RESCUE_H

#include "opened.h"

/* Into a new file of that name; prints what was dropped and kept. 0, or an exit status after saying why. */
int salvage(struct opened *o, const char *name);

/* What is taken instead of a damaged header; 0 for what is not given. */
struct rescue {
    uint64_t nodes, root, loan_root;
    bool loan_root_given;
};

/* The same for a file that is no table any more: its header is damaged, or it was cut short. */
int rescue(const char *table, struct rescue how, const char *name);

#endif
