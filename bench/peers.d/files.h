/* Files of the stores, the clock, and the end of a run that went wrong. */
#ifndef FILES_H
#define FILES_H

#include <stdbool.h>
#include <stddef.h>
#include <stdint.h>

#define PATH_ROOM 4096

/* Says what went wrong and ends the program with status 1. */
_Noreturn void die(const char *form, ...) __attribute__((format(printf, 1, 2)));

/* FOLDER/NAME, into room for PATH_ROOM bytes, which is returned. */
char *path_in(char *path, const char *folder, const char *name);

/* A new file with these bytes that is there whole or not at all: written under another name, synced, renamed, its folder synced. */
void write_file(const char *folder, const char *name, const void *bytes, size_t count);

/* The file of one folder into another, synced. */
void copy_file(const char *from, const char *to, const char *name);

/* The bytes of a file, 0 if there is none. */
uint64_t file_bytes(const char *folder, const char *name);

/* The whole of a file mapped, shared, to read and write. */
void *map_file(const char *folder, const char *name, size_t *bytes);

void remove_file(const char *folder, const char *name);

/* Room at a multiple of 64 bytes, zeroed; for at least one word. */
uint64_t *words_room(size_t words);

/* Nanoseconds of the monotonic clock. */
double now(void);

#endif
