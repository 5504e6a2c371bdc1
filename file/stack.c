/* Room for the core's stack. */
#include "stack.h"

#include <stddef.h>
#include <stdlib.h>

/* Bytes: more than the stack that any call takes (catalogue.h). */
#define STACK ((size_t)4 << 20)

bool stack_left(void)
{
    volatile char *room = malloc(STACK);
    if (!room)
        return false;
    /* A compiler may leave out room that nobody uses. */
    room[0] = 0;
    free((void *)room);
    return true;
}
