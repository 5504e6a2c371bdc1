/* The commands. */
#ifndef COMMANDS_H
#define COMMANDS_H

#include "command_line.h"

/* The last one has no name. */
extern const struct command commands[];

/* Null if there is none. */
const struct command *command_named(const char *name);

/* Says that there is no such command, and which may be meant. Gives the exit status. */
int no_command(const char *word);

/* Runs the command that the first word names, or what the options alone ask for: 0, or an exit status after saying why. */
int command_run(struct command_line *l);

/* After it: what was done is done, whether its answer can be printed or not. The status, or another one if it cannot. */
int command_finish(const struct command_line *l, int status);

#endif
