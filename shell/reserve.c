/* Room for the library's stack. */
#include "reserve.h"

#include <stddef.h>
#include <sys/resource.h>

#include "../file/stack.h"
#include "text.h"

/* Bytes that a command takes, with the program's own frames. */
#define TAKEN ((size_t)768 << 10)

static void touch(void)
{
    char room[TAKEN];
    volatile char *at = room;
    for (size_t i = 0; i < TAKEN; i += 1024)
        at[TAKEN - 1 - i] = 0;
}

int stack_take(void)
{
    struct rlimit limit;
    if (getrlimit(RLIMIT_STACK, &limit) == 0 && limit.rlim_cur != RLIM_INFINITY && limit.rlim_cur < 2 * TAKEN)
        return fail(BAD_FILE, "the stack is limited to %zu KB, and this command takes %zu: nothing was done (ulimit -s)",
                    (size_t)limit.rlim_cur >> 10, 2 * TAKEN >> 10);
    if (!stack_left())
        return fail(BAD_FILE, "not enough memory: nothing was done");
    touch();
    return 0;
}
