/* What a table is, said and drawn. */
#ifndef DRAW_H
#define DRAW_H

#include "table.h"

/* Settled, sound with its leftover, or not sound; a line for each of two collections. 0, or an exit status after saying why. */
int check(const struct table *t);

/* The same, then each collection's tree, a node to a paragraph. */
int show(const struct table *t);

#endif
