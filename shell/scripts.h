/* The short scripts that a tester runs, by their numbers. */
#ifndef SCRIPTS_H
#define SCRIPTS_H

#include <stdint.h>

/*
 * Prints the script with this number, and what each of its actions does to an empty table of 4 nodes. 0, or an exit status after saying
 * why.
 */
int script(uint64_t number);

#endif
