/* What may stand for a word that is half typed in a session. */
#ifndef COMPLETION_H
#define COMPLETION_H

#include <stdbool.h>
#include <stddef.h>

#include "opened.h"

/* Codes come from this table while it is open. */
void completion_begin(struct opened *table, const bool *open);

/* As prompt.h wants it. */
char *completion_match(const char *line, size_t start, const char *text, bool first, bool *files);

#endif
