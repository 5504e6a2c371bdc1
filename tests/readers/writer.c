/* A writer as the file library has one, on words in memory: it plans on a working copy, and carries orders out in brackets. */
#include "writer.h"

#include <inttypes.h>
#include <stdio.h>
#include <stdlib.h>
#include <string.h>

uint64_t *writer_counter(const struct writer *w)
{
    return w->memory + w->words + TRAILER_COUNTER;
}

void writer_make(struct writer *w, uint64_t collections)
{
    if (catalogue_make(w->working, w->words, collections) != 0)
        exit(2);
    memcpy(w->memory, w->working, w->words * sizeof *w->memory);
    memset(w->memory + w->words, 0, TRAILER_WORDS * sizeof *w->memory);
}

void writer_open(struct writer *w)
{
    counter_close(writer_counter(w));
    memcpy(w->working, w->memory, w->words * sizeof *w->memory);
}

uint64_t writer_plan(struct writer *w, enum change kind, uint64_t collection, uint64_t key, uint64_t recording, uint64_t access,
                     const uint64_t *pairs)
{
    uint64_t stores = 0, flushes = 0, barriers = 0, taken, stop, number, room = 2 * CATALOGUE_LONG_LIST_WORDS;
    if (kind == INSERT)
        number = catalogue_insert(w->working, w->words, collection, w->orders, room, w->dock, key, recording, access, &stores, &flushes,
                                  &barriers);
    else if (kind == DELETE)
        number = catalogue_delete(w->working, w->words, collection, w->orders, room, w->dock, key, &stores, &flushes, &barriers);
    else if (kind == CLASS)
        number = catalogue_set_class(w->working, w->words, collection, w->orders, room, w->dock, key, access, &stores, &flushes, &barriers);
    else if (kind == REPAIR)
        number = catalogue_repair(w->working, w->words, w->orders, room, w->dock, &stores, &flushes, &barriers);
    else
        number = catalogue_insert_many(w->working, w->words, collection, w->orders, room, w->dock, pairs, 2 * recording, &taken, &stop,
                                       &stores, &flushes, &barriers);
    w->count = stores + flushes + barriers;
    return number;
}

void writer_carry_list(const struct writer *w, const struct list *list, uint64_t count, int killed)
{
    enum brackets brackets = list->kind == REPAIR ? BRACKET_STORE : list->kind == BATCH ? BRACKET_FLUSH : w->brackets;
    struct counter c = counter_start(writer_counter(w), brackets);
    for (uint64_t i = 0; i < count; i++) {
        uint64_t first = list->orders[2 * i], second = list->orders[2 * i + 1];
        if (first == CATALOGUE_MARK)
            counter_flush(&c);
        else if (first != CATALOGUE_BARRIER)
            counter_store(&c, &w->memory[first], second);
    }
    if (!killed)
        counter_finish(&c);
}

void writer_carry(struct writer *w, enum change kind, uint64_t count, int killed)
{
    struct list list = {.kind = kind, .count = w->count, .orders = w->orders};
    writer_carry_list(w, &list, count, killed);
}

struct list writer_list(const struct writer *w, enum change kind)
{
    struct list list = {.kind = kind, .count = w->count, .orders = malloc((w->count + 1) * 2 * sizeof *list.orders)};
    if (!list.orders)
        exit(2);
    memcpy(list.orders, w->orders, w->count * 2 * sizeof *list.orders);
    return list;
}

void writer_change(struct writer *w, enum change kind, uint64_t collection, uint64_t key, uint64_t recording, uint64_t access)
{
    uint64_t number = writer_plan(w, kind, collection, key, recording, access, NULL);
    if (number != 0) {
        printf("a change of key %" PRIu64 " was refused with %" PRIu64 "\n", key, number);
        exit(2);
    }
    writer_carry(w, kind, w->count, 0);
}
