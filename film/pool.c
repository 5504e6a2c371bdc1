/* Texts kept once, each with its number: what a film's states share. */
#include "pool.h"

#include <inttypes.h>
#include <stdbool.h>
#include <stdlib.h>
#include <string.h>

#include "text.h"

void end_without_memory(void)
{
    exit(fail(BAD_FILE, "not enough memory for the film: what was printed of it is not whole, and can go"));
}

void *room_of(size_t count, size_t size)
{
    void *room = calloc(count + 1, size);
    if (!room)
        end_without_memory();
    return room;
}

FILE *stream_into(char **text, size_t *length)
{
    FILE *out = open_memstream(text, length);
    if (!out)
        end_without_memory();
    return out;
}

/* A text that did not grow is not the whole one, even if there is one. */
char *stream_text(FILE *out, char **text)
{
    bool whole = fflush(out) == 0 && !ferror(out);
    if (fclose(out) != 0 || !whole || !*text)
        end_without_memory();
    return *text;
}

static uint64_t hash_of(const char *text)
{
    uint64_t hash = UINT64_C(14695981039346656037);
    for (; *text; text++)
        hash = (hash ^ (unsigned char)*text) * UINT64_C(1099511628211);
    return hash ^ hash >> 29;
}

/* The place of a text, or the free one where it belongs. */
static uint32_t *place_of(const struct pool *p, const char *text)
{
    size_t at = hash_of(text) & (p->spread - 1);
    while (p->places[at] != 0 && strcmp(p->texts[p->places[at] - 1], text) != 0)
        at = (at + 1) & (p->spread - 1);
    return &p->places[at];
}

/* Places are a power of two, at least twice as many as the texts. */
static void grow(struct pool *p)
{
    size_t room = p->room == 0 ? 64 : 2 * p->room;
    char **texts = room_of(room, sizeof *texts);
    if (p->count > 0)
        memcpy(texts, p->texts, p->count * sizeof *texts);
    free(p->texts);
    free(p->places);
    p->texts = texts;
    p->room = room;
    p->spread = 2 * room;
    p->places = room_of(p->spread, sizeof *p->places);
    for (size_t i = 0; i < p->count; i++)
        *place_of(p, p->texts[i]) = (uint32_t)(i + 1);
}

uint32_t pool_number(struct pool *p, char *text)
{
    if (p->count == p->room)
        grow(p);
    uint32_t *place = place_of(p, text);
    if (*place != 0) {
        free(text);
        return *place - 1;
    }
    p->texts[p->count] = text;
    *place = (uint32_t)++p->count;
    return *place - 1;
}

void pool_print(const struct pool *p, FILE *out)
{
    fputc('[', out);
    for (size_t i = 0; i < p->count; i++)
        fprintf(out, "%s%s", i == 0 ? "" : ",\n", p->texts[i]);
    fputc(']', out);
}

void pool_free(struct pool *p)
{
    for (size_t i = 0; i < p->count; i++)
        free(p->texts[i]);
    free(p->texts);
    free(p->places);
    *p = (struct pool){0};
}

void json_text(FILE *out, const char *text)
{
    fputc('"', out);
    for (; *text; text++) {
        unsigned char c = (unsigned char)*text;
        if (c == '"' || c == '\\')
            fprintf(out, "\\%c", c);
        else if (c < ' ' || c == '<' || c == '>' || c == '&' || c == 127)
            fprintf(out, "\\u%04x", c);
        else
            fputc(c, out);
    }
    fputc('"', out);
}

void json_word(FILE *out, uint64_t word)
{
    fprintf(out, "\"%" PRIu64 "\"", word);
}
