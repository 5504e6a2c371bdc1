/* Lines that a person types: with history and completion by GNU readline or libedit if one of them is installed, else as they are. */
#ifndef PROMPT_H
#define PROMPT_H

#include <stdbool.h>
#include <stddef.h>

/*
 * What may stand for the text, which begins at so many bytes of the line: one match a call, to be freed; null after the last. *files becomes
 * true if it is a file's name, which needs no match.
 */
typedef char *matching(const char *line, size_t start, const char *text, bool first, bool *files);

/* Whether somebody sits there: standard input and output are a terminal. */
bool prompt_begin(matching *match);

/* The next line, to be freed; null at the end, and for an interrupt, after which *interrupted is true. */
char *prompt_line(const char *prompt, bool *interrupted);

void prompt_end(void);

/* After an interrupt. It is taken note of, and the reading of a line ends. */
void prompt_interrupt(int number);

#endif
