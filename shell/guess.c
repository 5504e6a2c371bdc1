/* A guess at what a mistyped word means. */
#include "guess.h"

#include <stdio.h>
#include <string.h>

/* Longer words than any name are no name mistyped. */
#define LONGEST 24

/* Names up to this length are near at one mistake, longer ones at two. */
#define SHORT 4

struct guess guess_begin(const char *word, size_t length)
{
    return (struct guess){.word = word, .length = length};
}

static size_t least(size_t a, size_t b)
{
    return a < b ? a : b;
}

/* The bytes to change, put in, leave out or swap with the next one, so that the one text becomes the other. */
static size_t distance(const char *a, size_t length_a, const char *b, size_t length_b)
{
    size_t of[LONGEST + 1][LONGEST + 1];
    for (size_t i = 0; i <= length_a; i++)
        for (size_t j = 0; j <= length_b; j++) {
            if (i == 0 || j == 0) {
                of[i][j] = i + j;
                continue;
            }
            of[i][j] = least(of[i - 1][j - 1] + (a[i - 1] != b[j - 1]), 1 + least(of[i - 1][j], of[i][j - 1]));
            if (i > 1 && j > 1 && a[i - 1] == b[j - 2] && a[i - 2] == b[j - 1])
                of[i][j] = least(of[i][j], of[i - 2][j - 2] + 1);
        }
    return of[length_a][length_b];
}

void guess_try(struct guess *g, const char *name)
{
    size_t length = strlen(name);
    if (g->length < 2 || g->length > LONGEST || length > LONGEST)
        return;
    size_t far = distance(g->word, g->length, name, length);
    /* A name's beginning is near, however long the name is. */
    if (g->length < length && strncmp(name, g->word, g->length) == 0)
        far = 1;
    if (far <= (length > SHORT ? 2 : 1) && (!g->name || far < g->distance)) {
        g->name = name;
        g->distance = far;
    }
}

const char *guess_command(const char *word)
{
    static const char *const others[][2] = {
        {"create", "make"}, {"new", "make"}, {"insert", "add"}, {"put", "add"}, {"set", "add"}, {"delete", "remove"}, {"del", "remove"},
        {"rm", "remove"}, {"get", "find"}, {"search", "find"}, {"lookup", "find"}, {"ls", "list"}, {"dump", "list"}, {"export", "list"},
        {"import", "load"}, {"info", "stat"}, {"stats", "stat"}, {"status", "stat"}, {"verify", "check"}, {"print", "show"}, {"fix", "repair"},
        {"recover", "salvage"}, {"resize", "copy"}, {"pack", "copy"}, {"plan", "orders"},
    };
    for (size_t i = 0; i < sizeof others / sizeof others[0]; i++)
        if (strcmp(word, others[i][0]) == 0)
            return others[i][1];
    return NULL;
}

const char *guess_text(const char *name, char text[GUESS_TEXT])
{
    text[0] = '\0';
    if (name)
        snprintf(text, GUESS_TEXT, "; did you mean %s?", name);
    return text;
}
