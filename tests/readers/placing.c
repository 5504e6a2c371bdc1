/*
 * Every placing of a writer's stores over the loads of a search. A scene is a table and what a writer does to it, store by store, its counter
 * among them. A search runs on it with each load at a moment of its own, none before the last one's: every such sequence is tried. It is
 * enough to move on at a load of a word, to just after a store to that word: any other sequence gives the same loads, and ends later.
 * Each answer must have been true between start and end, the next code up included, and so must the words that the reader copied.
 * Prints what was tried, or the first thing that is wrong, with status 1.
 */
#include <inttypes.h>
#include <setjmp.h>
#include <stdbool.h>
#include <stdio.h>
#include <stdlib.h>
#include <string.h>

#include "looks.h"
#include "placing.h"
#include "scenes.h"

#define MOST_NODES 12
#define MOST_WORDS (HEADER_WORDS + NODE_WORDS * MOST_NODES + TRAILER_WORDS)
#define MOST_MOMENTS 700
#define MOST_PAIRS 64
#define MOST_KEYS 96
#define MOST_CHOICES 8192
#define COLLECTIONS 2

/* What a table holds, as an ordinary map. */
struct map {
    size_t count;
    uint64_t key[MOST_PAIRS], pointer[MOST_PAIRS];
};

/* A moment is after so many steps. A step is a store, or all stores of a call. */
struct scene {
    char name[120];
    size_t words;
    uint64_t collections;
    size_t steps;
    uint64_t state[MOST_MOMENTS + 1][MOST_WORDS]; /* at each moment */
    uint8_t touches[MOST_MOMENTS + 1][MOST_WORDS]; /* the step before this moment stores to the word */
    uint16_t later[MOST_MOMENTS + 1][MOST_WORDS];  /* how many steps after a moment store to the word */
    struct map maps[MOST_MOMENTS + 1][COLLECTIONS];
    uint64_t asked[MOST_KEYS];
    size_t keys;
    uint64_t counted; /* a search is followed until the counter has moved so far; a reader accepts 2 */
};

static struct scene recorded, grouped;
static uint64_t memory[MOST_WORDS], working[MOST_WORDS];
struct writer writer = {.memory = memory, .working = working};
static size_t call_ends[MOST_MOMENTS];
static size_t calls;

/* ---- loads and stores */

static const struct scene *played; /* a search runs on this scene; null while the writer does */
static bool recording_steps;
static size_t moment, last_moment;
static uint16_t choices[MOST_CHOICES], options[MOST_CHOICES];
static size_t made, fixed; /* choices made in this run; of these, handed in */
static uint64_t loads;
static struct looks looks;
static bool first_load;
static unsigned rounds, rounds_tried; /* begun anew in this run; more of them are not followed */
static jmp_buf followed;

static void fail(const char *what)
{
    printf("%s\n", what);
    exit(2);
}

/*
 * The moment of a load of word w, as this run's choices have it. The first load needs no choice, for a search from a later moment is tried too.
 * No load comes after the last moment: the counter has moved so far then that its last load says so, whatever the others were.
 */
static void move_on(size_t w)
{
    uint16_t later = (uint16_t)(played->later[moment][w] - played->later[last_moment][w]);
    if (later == 0 || first_load)
        return;
    if (made == MOST_CHOICES)
        fail("too many choices");
    if (made >= fixed)
        choices[made] = 0;
    options[made] = (uint16_t)(later + 1);
    for (uint16_t jumps = choices[made++]; jumps > 0; jumps--)
        do
            moment++;
        while (!played->touches[moment][w]);
}

uint64_t shared_load(const uint64_t *word)
{
    if (!played)
        return *word;
    size_t w = (size_t)(word - memory);
    if (w >= MOST_WORDS)
        fail("a load outside of the words");
    loads++;
    /* A round that begins with nothing kept is a search of its own, from this moment on: that one is tried by itself. */
    if (w == 0 && looks.looked == 0 && rounds++ == rounds_tried)
        longjmp(followed, 1);
    move_on(w);
    first_load = false;
    return played->state[moment][w];
}

void shared_store(uint64_t *word, uint64_t value)
{
    if (played)
        fail("a search stores to shared words");
    *word = value;
    if (!recording_steps)
        return;
    if (recorded.steps == MOST_MOMENTS)
        fail("too many stores");
    size_t m = ++recorded.steps;
    memcpy(recorded.state[m], memory, sizeof memory);
    memset(recorded.touches[m], 0, sizeof recorded.touches[m]);
    recorded.touches[m][word - memory] = 1;
}

/* ---- what was true at each moment */

static const uint64_t *node(const uint64_t *t, uint64_t n)
{
    return t + HEADER_WORDS + NODE_WORDS * (n - 1);
}

/* The map, read from the leftmost leaf on: shown slots below the sibling's fence. */
static void read_map(const uint64_t *t, uint64_t collection, struct map *map)
{
    map->count = 0;
    uint64_t n = t[collection == 1 ? 1 : 3];
    while (node(t, n)[2] > 0)
        n = node(t, n)[0];
    for (; n != 0; n = node(t, n)[1]) {
        const uint64_t *x = node(t, n);
        uint64_t before = x[0];
        for (unsigned i = 0; i < 12 && x[9 + 2 * i] != 0; i++) {
            if (x[9 + 2 * i] != before && (x[1] == 0 || x[8 + 2 * i] < node(t, x[1])[3])) {
                map->key[map->count] = x[8 + 2 * i];
                map->pointer[map->count++] = x[9 + 2 * i];
            }
            before = x[9 + 2 * i];
        }
    }
}

static bool same_map(const struct map *a, const struct map *b)
{
    return a->count == b->count && memcmp(a->key, b->key, a->count * sizeof a->key[0]) == 0
           && memcmp(a->pointer, b->pointer, a->count * sizeof a->pointer[0]) == 0;
}

static bool is_true(const struct map *map, uint64_t key, uint64_t number, const struct looks_answer *a)
{
    size_t i = 0;
    while (i < map->count && map->key[i] < key)
        i++;
    if (i < map->count && map->key[i] == key)
        return number == 0 && CATALOGUE_POINTER(a->recording, a->access) == map->pointer[i];
    if (i == map->count)
        return number == CATALOGUE_ABSENT && a->higher == 0;
    return number == CATALOGUE_ABSENT && a->higher == 1 && a->next == map->key[i];
}

/* ---- scenes */

static void ask_for(uint64_t key)
{
    for (size_t i = 0; i < recorded.keys; i++)
        if (recorded.asked[i] == key)
            return;
    if (recorded.keys == MOST_KEYS)
        fail("too many keys");
    recorded.asked[recorded.keys++] = key;
}

void scene_ask(uint64_t key)
{
    ask_for(key);
    if (key > 0)
        ask_for(key - 1);
}

void scene_begin(const char *name, uint64_t nodes, uint64_t collections, enum brackets brackets)
{
    recorded.steps = recorded.keys = calls = 0;
    recording_steps = false;
    recorded.collections = collections;
    snprintf(recorded.name, 80, "%s", name);
    writer.words = recorded.words = HEADER_WORDS + NODE_WORDS * nodes;
    writer.brackets = brackets;
    writer_make(&writer, collections);
}

/* From here on what the writer does is part of the scene. */
void scene_record(void)
{
    recording_steps = true;
    memcpy(recorded.state[0], memory, sizeof memory);
}

void scene_call_ended(void)
{
    call_ends[calls++] = recorded.steps;
}

void scene_change(enum change kind, uint64_t collection, uint64_t key, uint64_t recording, uint64_t access)
{
    writer_change(&writer, kind, collection, key, recording, access);
    if (recording_steps)
        scene_call_ended();
}

void scene_insert(uint64_t key)
{
    scene_change(INSERT, 1, key, key * 11, key % 3);
}

static void count_later(struct scene *s)
{
    memset(s->later[s->steps], 0, sizeof s->later[0]);
    for (size_t m = s->steps; m > 0; m--)
        for (size_t w = 0; w < MOST_WORDS; w++)
            s->later[m - 1][w] = (uint16_t)(s->later[m][w] + s->touches[m][w]);
}

/* The maps of all moments. Within one call there are two at most, that before it and that after it; a repair keeps its map. */
static void scene_end(void)
{
    recording_steps = false;
    for (size_t m = 0; m <= recorded.steps; m++)
        for (uint64_t c = 1; c <= recorded.collections; c++)
            read_map(recorded.state[m], c, &recorded.maps[m][c - 1]);
    size_t from = 0;
    for (size_t i = 0; i < calls; from = call_ends[i++])
        for (size_t m = from; m <= call_ends[i]; m++)
            for (uint64_t c = 0; c < recorded.collections; c++)
                if (!same_map(&recorded.maps[m][c], &recorded.maps[from][c]) && !same_map(&recorded.maps[m][c], &recorded.maps[call_ends[i]][c]))
                    fail("a moment has neither the map before the call nor that after it");
    count_later(&recorded);
}

/* The same with the calls from one on as single steps. */
static void group_from(size_t first)
{
    memcpy(&grouped, &recorded, sizeof grouped);
    snprintf(grouped.name, sizeof grouped.name, "%.80s%s", recorded.name, first == 0 ? ", whole calls" : ", one call, then whole ones");
    grouped.steps = first == 0 ? 0 : call_ends[first - 1];
    for (size_t i = first; i < calls; i++) {
        size_t from = i == 0 ? 0 : call_ends[i - 1], m = ++grouped.steps;
        memcpy(grouped.state[m], recorded.state[call_ends[i]], sizeof grouped.state[m]);
        memcpy(grouped.maps[m], recorded.maps[call_ends[i]], sizeof grouped.maps[m]);
        memset(grouped.touches[m], 0, sizeof grouped.touches[m]);
        for (size_t s = from + 1; s <= call_ends[i]; s++)
            for (size_t w = 0; w < MOST_WORDS; w++)
                grouped.touches[m][w] |= recorded.touches[s][w];
    }
    grouped.counted = 6;
    count_later(&grouped);
}

/* ---- the brackets of a scene */

static bool odd_at(const struct scene *s, size_t m)
{
    return s->state[m][s->words + TRAILER_COUNTER] % 2 == 1;
}

/* Reached at a moment: by left, by sibling and by slots in use, more than a search needs. */
static void reach(const uint64_t *t, uint64_t n, bool *reached)
{
    if (n == 0 || n > MOST_NODES || reached[n])
        return;
    reached[n] = true;
    const uint64_t *x = node(t, n);
    reach(t, x[1], reached);
    if (x[2] == 0)
        return;
    reach(t, x[0], reached);
    for (unsigned i = 0; i < 12 && x[9 + 2 * i] != 0; i++)
        reach(t, x[9 + 2 * i], reached);
}

/* The word has at moment c the value of moment a, and lost it in between. */
static bool returns(const struct scene *s, size_t w, size_t a, size_t c)
{
    bool lost = false;
    for (size_t m = a + 1; m <= c; m++) {
        lost = lost || s->state[m][w] != s->state[a][w];
        if (lost && s->state[m][w] == s->state[a][w])
            return true;
    }
    return false;
}

/* Every store to the table falls into a bracket, and in a bracket no word of a node that is reached comes back to a value that it lost. */
static void check_brackets(const struct scene *s)
{
    for (size_t a = 0; a < s->steps; a++) {
        bool reached[MOST_NODES + 1] = {false};
        size_t c = a;
        reach(s->state[a], s->state[a][1], reached);
        reach(s->state[a], s->state[a][3], reached);
        while (c < s->steps && s->state[c + 1][s->words + TRAILER_COUNTER] <= s->state[a][s->words + TRAILER_COUNTER] + !odd_at(s, a))
            c++;
        for (size_t w = 0; w < s->words; w++) {
            if (s->touches[a + 1][w] && !odd_at(s, a)) {
                printf("%s: step %zu stores to word %zu outside of a bracket\n", s->name, a + 1, w);
                exit(1);
            }
            if ((w < HEADER_WORDS || reached[(w - HEADER_WORDS) / NODE_WORDS + 1]) && returns(s, w, a, c)) {
                printf("%s: word %zu comes back within one bracket, between moments %zu and %zu\n", s->name, w, a, c);
                exit(1);
            }
        }
    }
}

/* ---- searches */

static uint64_t runs, begun_anew, searches, split_answers;

/* All that was copied is there at this moment. */
static bool copied_at(const struct scene *s, size_t m)
{
    if (memcmp(looks.words, s->state[m], HEADER_WORDS * sizeof(uint64_t)) != 0)
        return false;
    for (size_t i = 0; i < looks.looked; i++) {
        size_t w = HEADER_WORDS + NODE_WORDS * (looks.seen[i] - 1);
        bool whole = looks.state[looks.seen[i]] == LOOKS_WHOLE;
        if (memcmp(looks.words + w + (whole ? 0 : 2), s->state[m] + w + (whole ? 0 : 2), (whole ? NODE_WORDS : 2) * sizeof(uint64_t)) != 0)
            return false;
    }
    return true;
}

static void wrong(const struct scene *s, const char *what, uint64_t collection, uint64_t key, uint64_t number, const struct looks_answer *a,
                  size_t from)
{
    printf("%s: search for %" PRIu64 " in collection %" PRIu64 " from moment %zu to %zu of %zu: %s: number %" PRIu64 ", recording %" PRIu64
           ", class %" PRIu64 ", next %" PRIu64 " (%" PRIu64 ")\n",
           s->name, key, collection, from, moment, s->steps, what, number, a->recording, a->access, a->next, a->higher);
    exit(1);
}

static uint64_t counter_at(const struct scene *s, size_t m)
{
    return s->state[m][s->words + TRAILER_COUNTER];
}

/* The last moment at which the counter has not moved further than that. */
static size_t last_counted(const struct scene *s, size_t from)
{
    size_t m = from;
    while (m < s->steps && counter_at(s, m + 1) <= counter_at(s, from) + s->counted)
        m++;
    return m;
}

/* One run, from a moment on, with the choices that are fixed. */
static void run(const struct scene *s, uint64_t collection, uint64_t key, size_t from)
{
    struct looks_answer a;
    moment = from;
    made = rounds = 0;
    first_load = true;
    last_moment = last_counted(s, from);
    rounds_tried = looks.holds ? 0 : 1;
    played = s;
    runs++;
    if (setjmp(followed) != 0) {
        played = NULL;
        begun_anew++;
        return;
    }
    uint64_t number = looks_search(&looks, collection, key, &a);
    played = NULL;
    bool answered = false, copied = false;
    for (size_t m = from; m <= moment && !(answered && copied); m++) {
        answered = answered || is_true(&s->maps[m][collection - 1], key, number, &a);
        copied = copied || copied_at(s, m);
    }
    if (!answered)
        wrong(s, "true at no moment", collection, key, number, &a, from);
    if (!copied)
        wrong(s, "words that were there at no one moment", collection, key, number, &a, from);
    split_answers += moment > from;
}

/* The next sequence of choices; false after the last one. */
static bool next_choices(void)
{
    while (made > 0 && choices[made - 1] + 1 == options[made - 1])
        made--;
    if (made == 0)
        return false;
    choices[made - 1]++;
    fixed = made;
    return true;
}

/* What a search at the scene's first moment for another key or this one leaves, or nothing kept. */
enum { BESIDE, WARM, COLD, WARMTHS };

static void warm(const struct scene *s, uint64_t collection, uint64_t key, unsigned warmth)
{
    struct looks_answer a;
    looks.holds = false;
    if (warmth == COLD)
        return;
    memcpy(memory, s->state[0], sizeof memory);
    /* The second one finds all copied; after that a search goes by the copies alone, if they are enough. */
    for (unsigned i = 0; i < 2; i++)
        looks_search(&looks, collection, warmth == WARM ? key : s->asked[0], &a);
}

static void search_all(const struct scene *s, uint64_t collection, uint64_t key, unsigned warmth)
{
    for (size_t from = 0; from <= s->steps; from++) {
        fixed = 0;
        do {
            warm(s, collection, key, warmth);
            run(s, collection, key, from);
        } while (next_choices());
        searches++;
    }
}

static void play(const struct scene *s)
{
    uint64_t before = runs;
    for (uint64_t collection = 1; collection <= s->collections; collection++)
        for (size_t i = 0; i < s->keys; i++) {
            if (!looks_begin(&looks, memory, memory + s->words + TRAILER_COUNTER, s->words))
                fail("memory is short");
            for (unsigned warmth = BESIDE; warmth < WARMTHS; warmth++)
                search_all(s, collection, s->asked[i], warmth);
            looks_end(&looks);
        }
    if (getenv("PLACING_TALKS"))
        printf("   %s: %zu steps, %" PRIu64 " placings\n", s->name, s->steps, runs - before);
}

void scene_play(unsigned how)
{
    scene_end();
    check_brackets(&recorded);
    recorded.counted = how & NEAR ? 4 : 6;
    if (how & SINGLY)
        play(&recorded);
    if (how & WHOLE_CALLS) {
        group_from(0);
        play(&grouped);
    }
    if (how & ONE_SINGLY) {
        group_from(1);
        play(&grouped);
    }
}

int main(void)
{
    scenes();
    printf("%" PRIu64 " placings over the loads of a search, %" PRIu64 " of them with stores between two loads; %" PRIu64
           " loads; in %" PRIu64 " a round more began\n",
           runs, split_answers, loads, begun_anew);
    return 0;
}
