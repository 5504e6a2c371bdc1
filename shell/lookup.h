/* Recordings by their codes, and codes by their recordings. */
#ifndef LOOKUP_H
#define LOOKUP_H

#include "command_line.h"
#include "opened.h"

/*
 * Answers the codes behind the table's name, or those of standard input for -, a line each; for --recording they are recordings. A code by
 * itself is answered by recording,class, of several each by code,recording,class. 0, or an exit status after saying why: that of the first
 * one without an answer, but damage counts before an absent code.
 */
int find(struct opened *o, struct command_line *l);

#endif
