/* Texts kept once, each with its number: what a film's states share. */
#ifndef POOL_H
#define POOL_H

#include <stddef.h>
#include <stdint.h>
#include <stdio.h>

struct pool {
    char **texts;
    size_t count, room;
    uint32_t *places; /* by hash: a text's number plus 1, 0 for none */
    size_t spread;
};

/* Memory is short: says so and ends the program. A film changes nothing that would have to be finished. */
_Noreturn void end_without_memory(void);

/* Zeros for so many things. If memory is short the program ends as above. */
void *room_of(size_t count, size_t size);

/* A stream into a text that is there, to be freed, once stream_text has closed the stream and returned it; the same if memory is short. */
FILE *stream_into(char **text, size_t *length);
char *stream_text(FILE *out, char **text);

/* The number of a text, which is taken over and freed with the pool. */
uint32_t pool_number(struct pool *p, char *text);

/* The texts, which are JSON, as a JSON list. */
void pool_print(const struct pool *p, FILE *out);

void pool_free(struct pool *p);

/* A text as JSON has it, in quotes; it may stand in a script of a page. */
void json_text(FILE *out, const char *text);

/* A word, in quotes: a number of JSON has no 64 bits. */
void json_word(FILE *out, uint64_t word);

#endif
