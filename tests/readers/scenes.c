/* The scenes that are tried. */
#include "scenes.h"

#include <stdio.h>
#include <stdlib.h>
#include <string.h>

#include "placing.h"

static const enum brackets both_brackets[] = {BRACKET_LIST, BRACKET_FLUSH};

/* Codes 10, 20 and so on. */
static void fill(uint64_t codes)
{
    for (uint64_t i = 1; i <= codes; i++)
        scene_insert(10 * i);
}

/* ---- one leaf */

/* Three calls beside the code that is asked for: it has its recording throughout, and the leaf's words come back. */
static void neighbours(enum brackets brackets, uint64_t codes)
{
    scene_begin("neighbours", 1, 1, brackets);
    for (uint64_t i = 2; i <= codes + 1; i++)
        scene_insert(10 * i);
    scene_record();
    scene_insert(10);
    scene_change(DELETE, 1, 10, 0, 0);
    scene_insert(10);
    for (uint64_t i = 1; i <= codes + 1; i++)
        scene_ask(10 * i);
    scene_play(codes == 1 ? SINGLY | WHOLE_CALLS | ONE_SINGLY : WHOLE_CALLS | ONE_SINGLY);
}

/* A code that goes and comes again with another recording and class. */
static void moved(enum brackets brackets)
{
    scene_begin("moved", 1, 1, brackets);
    fill(2);
    scene_record();
    scene_change(CLASS, 1, 10, 0, 2);
    scene_change(DELETE, 1, 10, 0, 0);
    scene_change(INSERT, 1, 10, 7, 1);
    scene_ask(10);
    scene_ask(20);
    scene_play(SINGLY | WHOLE_CALLS | ONE_SINGLY);
}

/* One call in a leaf of so many codes, at each place. */
static void one_call(enum brackets brackets, enum change kind, uint64_t key, uint64_t codes)
{
    char name[40];
    snprintf(name, sizeof name, "%s %d among %d", kind == INSERT ? "insert" : kind == DELETE ? "delete" : "class of", (int)key, (int)codes);
    scene_begin(name, 1, 1, brackets);
    fill(codes);
    scene_record();
    scene_change(kind, 1, key, key * 11, (key + 1) % 3);
    for (uint64_t i = 1; i <= codes; i++)
        scene_ask(10 * i);
    scene_ask(key);
    scene_ask(10 * codes + 9);
    scene_play(SINGLY);
}

static void one_leaf(enum brackets brackets)
{
    for (uint64_t codes = 1; codes <= 3; codes++) {
        neighbours(brackets, codes);
        for (uint64_t i = 0; i <= codes; i++)
            one_call(brackets, INSERT, 10 * i + 5, codes);
        for (uint64_t i = 1; i <= codes; i++) {
            one_call(brackets, DELETE, 10 * i, codes);
            one_call(brackets, CLASS, 10 * i, codes);
        }
    }
    moved(brackets);
}

/* ---- splits, a new root, a leaf that is freed and taken again */

static void ask_in_tree(void)
{
    static const uint64_t keys[] = {10, 50, 60, 70, 110, 115, 120};
    for (size_t i = 0; i < sizeof keys / sizeof keys[0]; i++)
        scene_ask(keys[i]);
}

/* Document 01's worked split: a new root and a sibling. */
static void new_root(enum brackets brackets, uint64_t key)
{
    scene_begin("new root", 4, 1, brackets);
    fill(11);
    scene_record();
    scene_insert(key);
    scene_ask(key);
    ask_in_tree();
    scene_play(SINGLY);
}

/* The right leaf of two is full and splits. */
static void split(enum brackets brackets, uint64_t key)
{
    scene_begin("split", 5, 1, brackets);
    fill(16);
    scene_record();
    scene_insert(key);
    static const uint64_t keys[] = {10, 50, 60, 100, 110, 120, 160};
    for (size_t i = 0; i < sizeof keys / sizeof keys[0]; i++)
        scene_ask(keys[i]);
    scene_ask(key);
    scene_play(SINGLY);
}

/* The right leaf of two has one code; it goes, the leaf is freed, and codes come back until the left one splits into the freed node. */
static void freed(enum brackets brackets, bool again)
{
    scene_begin(again ? "freed and taken again" : "freed leaf", 3, 1, brackets);
    fill(12);
    for (uint64_t key = 70; key <= 120; key += 10)
        scene_change(DELETE, 1, key, 0, 0);
    if (again)
        for (uint64_t i = 1; i <= 6; i++)
            scene_insert(10 + i);
    scene_record();
    scene_change(DELETE, 1, 60, 0, 0);
    if (again) {
        scene_insert(60);
        scene_insert(57);
    }
    static const uint64_t keys[] = {10, 15, 16, 30, 50, 57, 60, 70};
    for (size_t i = 0; i < sizeof keys / sizeof keys[0]; i++)
        scene_ask(keys[i]);
    scene_play(again ? WHOLE_CALLS | ONE_SINGLY : SINGLY);
}

/* Two collections: a leaf that one frees is taken by the other. */
static void two_collections(enum brackets brackets)
{
    scene_begin("two collections", 4, 2, brackets);
    fill(12);
    for (uint64_t key = 70; key <= 120; key += 10)
        scene_change(DELETE, 1, key, 0, 0);
    for (uint64_t i = 1; i <= 2; i++)
        scene_change(INSERT, 2, 15 * i, i, 1);
    scene_record();
    scene_change(DELETE, 1, 60, 0, 0);
    scene_change(INSERT, 2, 10, 5, 2);
    scene_change(DELETE, 2, 15, 0, 0);
    static const uint64_t keys[] = {10, 15, 30, 60};
    for (size_t i = 0; i < sizeof keys / sizeof keys[0]; i++)
        scene_ask(keys[i]);
    scene_play(WHOLE_CALLS | ONE_SINGLY);
}

/* ---- a writer that is killed, and the next one, which opens, repairs and goes on */

struct killed {
    const char *name;
    uint64_t nodes, codes, gone_from; /* codes from here on are deleted first */
    enum change kind;
    uint64_t key;
};

/* Cut after so many orders; false if there are fewer. */
static bool killed_after(const struct killed *k, enum brackets brackets, uint64_t cut, bool gave_up)
{
    scene_begin(k->name, k->nodes, 1, brackets);
    fill(k->codes);
    for (uint64_t key = k->gone_from; k->gone_from != 0 && key <= 10 * k->codes; key += 10)
        scene_change(DELETE, 1, key, 0, 0);
    scene_record();
    if (writer_plan(&writer, k->kind, 1, k->key, 7, 1, NULL) != 0)
        exit(2);
    if (cut > writer.count)
        return false;
    writer_carry(&writer, k->kind, cut, 1);
    scene_call_ended();
    /* A writer that gave up at a flush goes on with what memory holds, with its bracket open. */
    if (gave_up)
        memcpy(writer.working, writer.memory, writer.words * sizeof(uint64_t));
    else
        writer_open(&writer);
    scene_change(REPAIR, 1, 0, 0, 0);
    scene_change(CLASS, 1, 20, 0, 0);
    scene_ask(k->key);
    for (uint64_t key = 10; key <= 10 * k->codes; key += k->codes > 6 ? 50 : 10)
        scene_ask(key);
    scene_play(gave_up ? SINGLY | NEAR : k->nodes > 1 ? SINGLY | WHOLE_CALLS | NEAR : SINGLY | WHOLE_CALLS);
    return true;
}

static void killed(enum brackets brackets)
{
    static const struct killed all[] = {
        {"killed in an insertion", 1, 3, 0, INSERT, 5},       {"killed in a deletion", 1, 3, 0, DELETE, 10},
        {"killed in a split", 5, 16, 0, INSERT, 115},         {"killed in a new root", 4, 11, 0, INSERT, 55},
        {"killed while a leaf is freed", 4, 12, 70, DELETE, 60},
    };
    for (size_t i = 0; i < sizeof all / sizeof all[0]; i++)
        for (uint64_t cut = 0; killed_after(&all[i], brackets, cut, false); cut++)
            if (all[i].nodes == 1)
                killed_after(&all[i], brackets, cut, true);
}

/* ---- brackets that no call makes: the rule is about brackets, whatever they hold */

/* Class changes of three codes in one leaf, two stores to a bracket: the middle one goes and comes back. */
static void two_brackets(void)
{
    static const struct {
        unsigned slot;
        uint64_t access;
        bool last;
    } stores[] = {{1, 2, false}, {2, 1, true}, {0, 2, false}, {1, 0, true}};
    scene_begin("two brackets", 1, 1, BRACKET_LIST);
    for (uint64_t i = 1; i <= 3; i++)
        scene_change(INSERT, 1, 10 * i, i, 0);
    scene_record();
    struct counter c = counter_start(writer_counter(&writer), BRACKET_LIST);
    for (size_t i = 0; i < sizeof stores / sizeof stores[0]; i++) {
        uint64_t pointer = CATALOGUE_POINTER(stores[i].slot + 1, stores[i].access);
        counter_store(&c, &writer.memory[HEADER_WORDS + 9 + 2 * stores[i].slot], pointer);
        if (stores[i].last)
            counter_finish(&c);
        scene_call_ended();
    }
    for (uint64_t i = 1; i <= 3; i++)
        scene_ask(10 * i);
    scene_play(SINGLY);
}

/* ---- a batch, which is many calls in one list */

static void batch(void)
{
    scene_begin("batch", 1, 1, BRACKET_LIST);
    scene_insert(20);
    scene_record();
    struct counter c = counter_start(writer_counter(&writer), BRACKET_FLUSH);
    for (unsigned i = 0; i < 3; i++) {
        if (writer_plan(&writer, i % 2 == 0 ? INSERT : DELETE, 1, 10, 110, 1, NULL) != 0)
            exit(2);
        for (uint64_t o = 0; o < writer.count; o++)
            if (writer.orders[2 * o] == CATALOGUE_MARK)
                counter_flush(&c);
            else
                counter_store(&c, &writer.memory[writer.orders[2 * o]], writer.orders[2 * o + 1]);
        scene_call_ended();
    }
    counter_finish(&c);
    scene_ask(10);
    scene_ask(20);
    scene_play(SINGLY | WHOLE_CALLS);
}

void scenes(void)
{
    two_brackets();
    batch();
    for (size_t i = 0; i < 2; i++) {
        one_leaf(both_brackets[i]);
        split(both_brackets[i], 115);
        split(both_brackets[i], 165);
        freed(both_brackets[i], false);
        freed(both_brackets[i], true);
        two_collections(both_brackets[i]);
    }
    new_root(BRACKET_LIST, 115);
    new_root(BRACKET_FLUSH, 15);
    for (size_t i = 0; i < 2; i++)
        killed(both_brackets[i]);
}
