/* Changes of a table, and their orders. */
#ifndef CHANGES_H
#define CHANGES_H

#include "command_line.h"

/* The command line's change. 0, or an exit status after saying why. */
int make_change(struct opened *o, struct command_line *l);

/* Orders in the form that the command line asks for. */
void print_list(const struct table *t, const struct command_line *l, const uint64_t *orders, size_t count);

/* The orders of its change, without making it. */
int print_orders(struct opened *o, struct command_line *l);

#endif
