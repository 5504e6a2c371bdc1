/* A guess at what a mistyped word means. */
#ifndef GUESS_H
#define GUESS_H

#include <stddef.h>

struct guess {
    const char *word; /* as it was typed, so many bytes of it */
    size_t length;
    const char *name; /* the nearest name so far; null if none is near */
    size_t distance;
};

struct guess guess_begin(const char *word, size_t length);

/* Names one after another; of two that are as near the first counts. */
void guess_try(struct guess *g, const char *name);

/* The command that other programs call so; null if there is none. */
const char *guess_command(const char *word);

/* Room for guess_text. */
#define GUESS_TEXT 64

/* "; did you mean list?", or "" if nothing is near; the text given is filled and returned. */
const char *guess_text(const char *name, char text[GUESS_TEXT]);

#endif
