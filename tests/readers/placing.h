/* Scenes of a writer and a table, and every placing of the writer's stores over the loads of a search. */
#ifndef PLACING_H
#define PLACING_H

#include <stdbool.h>
#include <stdint.h>

#include "writer.h"

/* The writer whose stores are recorded. */
extern struct writer writer;

/* A new table of so many nodes; what is done to it now is not part of the scene. */
void scene_begin(const char *name, uint64_t nodes, uint64_t collections, enum brackets brackets);

/* From here on each store of the writer is a step of the scene. */
void scene_record(void);

/* A call of the writer; and the same for an insertion into collection 1 whose recording and class follow from the key. */
void scene_change(enum change kind, uint64_t collection, uint64_t key, uint64_t recording, uint64_t access);
void scene_insert(uint64_t key);

/* A call has ended, for calls that are carried out otherwise. */
void scene_call_ended(void);

/* A key that is searched for, and the one below it. */
void scene_ask(uint64_t key);

/*
 * The brackets are checked, and every placing is tried: of all single stores, of whole calls, of the first call's stores and then whole calls.
 * A search is followed over three brackets; over two, if single stores are near.
 */
enum { SINGLY = 1, WHOLE_CALLS = 2, ONE_SINGLY = 4, NEAR = 8 };
void scene_play(unsigned how);

#endif
