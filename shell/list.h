/* The codes of a table, in order. */
#ifndef LIST_H
#define LIST_H

#include "command_line.h"

/* Which codes the command line asks for, into its low and high. 0, WRONG_FORM, or an exit status after saying why. */
int list_range(struct command_line *l);

/* Prints them: lines code,recording,class that load reads, or JSON. 0, or an exit status after saying why. */
int list(const struct table *t, struct command_line *l);

#endif
