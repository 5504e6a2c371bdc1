/* What a handle says of the last failure. */
#include "handle.h"

#include <errno.h>
#include <stdarg.h>
#include <stdio.h>
#include <string.h>

const char *catalogue_file_message(const catalogue_file *f)
{
    return f->message;
}

int catalogue_file_errno(const catalogue_file *f)
{
    return f->why;
}

uint64_t catalogue_file_outcome(const catalogue_file *f)
{
    return f->outcome;
}

/* ---- failures */

static void say(struct catalogue_file *f, const char *format, va_list rest)
{
    vsnprintf(f->message, sizeof f->message, format, rest);
}

uint64_t fails(struct catalogue_file *f, uint64_t number, const char *format, ...)
{
    va_list rest;
    va_start(rest, format);
    say(f, format, rest);
    va_end(rest);
    f->why = 0;
    return number;
}

uint64_t fails_for(struct catalogue_file *f, uint64_t number, const char *format, ...)
{
    va_list rest;
    f->why = errno;
    va_start(rest, format);
    say(f, format, rest);
    va_end(rest);
    size_t used = strlen(f->message);
    /* The reentrant strerror of GNU returns the text. */
    char reason[128];
    snprintf(f->message + used, sizeof f->message - used, ": %s", strerror_r(f->why, reason, sizeof reason));
    return number;
}

uint64_t refuses(struct catalogue_file *f, uint64_t number)
{
    return fails(f, number, "%s: %s", f->name, catalogue_file_strerror(number));
}

uint64_t no_memory(struct catalogue_file *f)
{
    return fails(f, CATALOGUE_FILE_NO_MEMORY, "not enough memory%s%s", f->name ? " for " : "", f->name ? f->name : "");
}

uint64_t must_be_open(struct catalogue_file *f)
{
    return f->file >= 0 ? 0 : fails(f, CATALOGUE_FILE_NOT_OPEN, "the handle has no file open");
}

uint64_t must_write(struct catalogue_file *f)
{
    uint64_t number = must_be_open(f);
    if (number == 0 && !f->writing)
        number = fails(f, CATALOGUE_FILE_NOT_WRITING, "%s is open for reading", f->name);
    return number;
}
