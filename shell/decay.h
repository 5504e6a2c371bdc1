/* Words that decay: the file of sums switched on and off, and every line of a table looked at. */
#ifndef DECAY_H
#define DECAY_H

#include "command_line.h"

/* 0, or an exit status after saying why. */
int switch_sums(struct opened *o, struct command_line *l);
int scrub(struct opened *o, struct command_line *l);

#endif
