/* Room for the core's stack. */
#ifndef STACK_H
#define STACK_H

#include <stdbool.h>

/* If memory is limited and no stack is left, the system would end the program without a word. */
bool stack_left(void);

#endif
