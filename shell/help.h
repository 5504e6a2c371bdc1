/* What --help prints. */
#ifndef HELP_H
#define HELP_H

#include "command_line.h"

/* All of it, or what there is to say of one of the commands; the last of all has no name. */
void help(const struct command *all, const struct command *only);

#endif
