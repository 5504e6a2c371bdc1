/* JSON on standard output, member by member. */
#ifndef JSON_H
#define JSON_H

#include <stdbool.h>
#include <stdint.h>

/* Commas and line feeds are put in as needed. */
struct json {
    bool more; /* something stands before in this list or object */
};

/* A list or an object: a member of that name, or for a null name one of a list, which begins a line, or the whole. */
void json_open(struct json *j, const char *name, char bracket);
void json_close(struct json *j, char bracket);

/* A text that is null is JSON's null. Bytes that are no UTF-8 become the replacement character. */
void json_string(struct json *j, const char *name, const char *text);
void json_number(struct json *j, const char *name, uint64_t number);

/* A recording in quotes: many readers of JSON round numbers above 2^53, to another recording. */
void json_recording(struct json *j, const char *name, uint64_t recording);

/* The end of the whole. */
void json_end(void);

#endif
