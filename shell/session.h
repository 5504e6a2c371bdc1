/* A table kept open for commands that are typed one after another. */
#ifndef SESSION_H
#define SESSION_H

/*
 * Reads commands and runs them until the input ends, or for quit. The commands are those of the command line, without the table's name. 0 at
 * a terminal's end; else the status of the first command that failed.
 */
int session(const char *table);

#endif
