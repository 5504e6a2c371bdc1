/*
 * Allocations that fail, in front of the C library's: ALLOCATION=N fails the Nth one, and with ALLOCATIONS_AFTER every later one as well.
 * ALLOCATIONS_COUNTED=FILE gets the number of allocations.
 */
#include <errno.h>
#include <fcntl.h>
#include <stdio.h>
#include <stdlib.h>
#include <unistd.h>

extern void *__libc_malloc(size_t), *__libc_calloc(size_t, size_t), *__libc_realloc(void *, size_t);

static long count, failing = -1;
static int after;

static int fails(void)
{
    if (failing < 0) {
        const char *number = getenv("ALLOCATION");
        failing = number ? atol(number) : 0;
        after = getenv("ALLOCATIONS_AFTER") != NULL;
    }
    count++;
    if (failing == 0 || (count != failing && !(after && count > failing)))
        return 0;
    errno = ENOMEM;
    return 1;
}

void *malloc(size_t size)
{
    return fails() ? NULL : __libc_malloc(size);
}

void *calloc(size_t count_of, size_t size)
{
    return fails() ? NULL : __libc_calloc(count_of, size);
}

void *realloc(void *at, size_t size)
{
    return fails() ? NULL : __libc_realloc(at, size);
}

__attribute__((destructor)) static void tell(void)
{
    const char *name = getenv("ALLOCATIONS_COUNTED");
    char text[32];
    if (!name)
        return;
    int file = open(name, O_WRONLY | O_CREAT | O_TRUNC, 0666), length = snprintf(text, sizeof text, "%ld\n", count);
    if (write(file, text, (size_t)length) != length)
        abort();
    close(file);
}
