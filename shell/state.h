/* What a table has, as the library reports it: sound or not, codes, levels, nodes. */
#ifndef STATE_H
#define STATE_H

#include "command_line.h"

/* Each prints it, as text or as JSON. 0, or the table's refusal after saying it. */
int check_table(const struct table *t, struct command_line *l);
int stat_table(const struct table *t, struct command_line *l);

#endif
