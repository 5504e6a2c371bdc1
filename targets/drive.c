/*
 * Calls of every kind on tables of every kind, from a seeded generator; every lent word (table, list, sentinels, report, answers, and guard
 * words on both sides) after every call goes into one number. The same seed must give the same number on every processor. No C library is
 * used. An expression has one call of the generator at most: C leaves the order of arguments open.
 */
#include "drive.h"

#include "catalogue.h"

#define GUARD 16
#define MOST_NODES 600
#define TABLE (8 + 32 * MOST_NODES)
#define LIST 40000
#define REPORT (36 * MOST_NODES)
#define MANY 2048

static uint64_t state, sum, calls, accepted;
uint64_t drive_numbers[PARTS][256], drive_long[PARTS], drive_part; /* returned numbers by part; lists of more than 60 orders */

/* splitmix64 */
static uint64_t any(void)
{
    uint64_t z = state += 0x9e3779b97f4a7c15;
    z = (z ^ (z >> 30)) * 0xbf58476d1ce4e5b9;
    z = (z ^ (z >> 27)) * 0x94d049bb133111eb;
    return z ^ (z >> 31);
}

static uint64_t below(uint64_t n)
{
    return any() % n;
}

static void take(uint64_t word)
{
    sum = (sum ^ word) * 0x9ddfea08eb382d69;
    sum ^= sum >> 29;
}

static void take_all(const uint64_t *words, uint64_t count)
{
    for (uint64_t i = 0; i < count; i++)
        take(words[i]);
}

struct slice {
    uint64_t *words;
    uint64_t room;
};

#define SLICE(name, size)                              \
    static uint64_t name##_all[(size) + 2 * GUARD];    \
    static struct slice name = {name##_all + GUARD, size}

SLICE(table, TABLE);
SLICE(memory, TABLE);
SLICE(second, TABLE);
SLICE(third, TABLE);
SLICE(list, LIST);
SLICE(sentinels, 3 * MOST_NODES + 8);
SLICE(summary, 17 * MOST_NODES + 8);
SLICE(report, REPORT);
SLICE(pairs, 2 * 12 * MOST_NODES);
SLICE(loans, 2 * 12 * MOST_NODES);
SLICE(lines, TABLE / 8 + 8);
SLICE(extents, TABLE + 8);
SLICE(out, CATALOGUE_CHECK_WORDS);

static void fill(struct slice s, uint64_t count)
{
    uint64_t seed = any();
    for (uint64_t i = 0; i < count + GUARD; i++)
        s.words[i] = seed += 0x123456789abcdef;
    for (int i = 1; i <= GUARD; i++)
        s.words[-i] = seed += 0x123456789abcdef;
}

static void copy(struct slice to, struct slice from, uint64_t count)
{
    for (uint64_t i = 0; i < count; i++)
        to.words[i] = from.words[i];
}

/* The slice's words and both guards. */
static void take_slice(struct slice s, uint64_t count)
{
    take_all(s.words - GUARD, count + 2 * GUARD);
}

static void done(uint64_t number)
{
    calls++;
    accepted += number == 0;
    drive_numbers[drive_part][number & 255]++;
    take(number);
    take_slice(out, 8);
}

static uint64_t some_key(uint64_t span)
{
    uint64_t r = below(64);
    if (r == 0)
        return CATALOGUE_MARK - below(3);
    if (r == 1)
        return any();
    return below(span);
}

static uint64_t some_recording(void)
{
    uint64_t r = below(40);
    if (r == 0)
        return below(2) ? 0 : CATALOGUE_MOST_RECORDING + below(3);
    if (r < 5)
        return 1 + below(6);
    return 1 + below(r < 20 ? 1000000 : CATALOGUE_MOST_RECORDING);
}

static uint64_t some_class(void)
{
    return below(40) ? below(3) : any();
}

static uint64_t some_collection(void)
{
    uint64_t shift = below(64), word = any();
    return below(30) ? 1 + below(2) : word >> shift;
}

static uint64_t some_dock(void)
{
    uint64_t shift = below(64), word = any();
    return below(40) ? below(2) : word >> shift;
}

/* ---- reading */

static void search(struct slice t, uint64_t words, uint64_t collection, uint64_t key)
{
    fill(out, 8);
    done(catalogue_search(t.words, words, collection, key, &out.words[0], &out.words[1], &out.words[2], &out.words[3]));
}

static void search_with(struct slice t, uint64_t words, uint64_t count, uint64_t collection, uint64_t key)
{
    fill(out, 8);
    done(catalogue_search_with(t.words, words, sentinels.words, count, collection, key, &out.words[0], &out.words[1], &out.words[2],
                               &out.words[3]));
}

static void listing(struct slice t, uint64_t words, uint64_t collection, uint64_t low, uint64_t high, uint64_t room)
{
    fill(out, 8);
    fill(pairs, room);
    done(catalogue_list(t.words, words, collection, low, high, pairs.words, room, &out.words[0], &out.words[1]));
    take_slice(pairs, room);
}

static void read_some(struct slice t, uint64_t words, uint64_t span)
{
    for (int i = 0; i < 4; i++) {
        uint64_t key = some_key(span);
        if (below(2)) {
            key = t.words[below(words)];
            key += below(3) - 1;
        }
        uint64_t collection = some_collection();
        search(t, words, collection, key);
    }
    uint64_t low = some_key(span), high = below(2) ? CATALOGUE_MARK : low + below(span), collection = some_collection();
    if (below(2))
        low = 0;
    uint64_t room = below(300);
    listing(t, words, collection, low, high, room);
    fill(out, CATALOGUE_CHECK_WORDS);
    done(catalogue_check(t.words, words, out.words));
    take_slice(out, CATALOGUE_CHECK_WORDS);
    take_slice(t, words);
}

/* ---- writing: one call of any kind, plain, with sentinels or with a summary */

enum beside { NOTHING, SENTINELS, SUMMARY };
enum kind { INSERT, DELETE, SET_CLASS, REPAIR };

/* One call: what is lent beside the table, with how many words; then the call's own numbers, room being the words of its list. */
struct call {
    enum beside beside;
    uint64_t with;
    enum kind kind;
    uint64_t collection, dock, key, recording, access, room;
};

static uint64_t plain(uint64_t words, const struct call *c)
{
    uint64_t *t = table.words, *o = out.words, *l = list.words;
    switch (c->kind) {
    case INSERT: return catalogue_insert(t, words, c->collection, l, c->room, c->dock, c->key, c->recording, c->access, o, o + 1, o + 2);
    case DELETE: return catalogue_delete(t, words, c->collection, l, c->room, c->dock, c->key, o, o + 1, o + 2);
    case SET_CLASS: return catalogue_set_class(t, words, c->collection, l, c->room, c->dock, c->key, c->access, o, o + 1, o + 2);
    default: return catalogue_repair(t, words, l, c->room, c->dock, o, o + 1, o + 2);
    }
}

static uint64_t with_sentinels(uint64_t words, const struct call *c)
{
    uint64_t *t = table.words, *s = sentinels.words, *o = out.words, *l = list.words, with = c->with;
    switch (c->kind) {
    case INSERT:
        return catalogue_insert_with(t, words, s, with, c->collection, l, c->room, c->dock, c->key, c->recording, c->access, o, o + 1, o + 2);
    case DELETE: return catalogue_delete_with(t, words, s, with, c->collection, l, c->room, c->dock, c->key, o, o + 1, o + 2);
    case SET_CLASS:
        return catalogue_set_class_with(t, words, s, with, c->collection, l, c->room, c->dock, c->key, c->access, o, o + 1, o + 2);
    default: return catalogue_repair_with(t, words, s, with, l, c->room, c->dock, o, o + 1, o + 2);
    }
}

static uint64_t with_summary(uint64_t words, const struct call *c)
{
    uint64_t *t = table.words, *s = summary.words, *o = out.words, *l = list.words, with = c->with;
    switch (c->kind) {
    case INSERT:
        return catalogue_quick_insert(t, words, s, with, c->collection, l, c->room, c->dock, c->key, c->recording, c->access, o, o + 1, o + 2);
    case DELETE: return catalogue_quick_delete(t, words, s, with, c->collection, l, c->room, c->dock, c->key, o, o + 1, o + 2);
    case SET_CLASS:
        return catalogue_quick_set_class(t, words, s, with, c->collection, l, c->room, c->dock, c->key, c->access, o, o + 1, o + 2);
    default: return catalogue_quick_repair(t, words, s, with, l, c->room, c->dock, o, o + 1, o + 2);
    }
}

static uint64_t write_one(uint64_t words, enum beside beside, uint64_t with, uint64_t span, bool shrinks)
{
    struct call c = {.beside = beside, .with = with};
    c.collection = some_collection();
    c.dock = some_dock();
    c.key = some_key(span);
    c.recording = some_recording();
    c.access = some_class();
    c.room = below(20) ? CATALOGUE_LONG_LIST_WORDS : below(6000);
    uint64_t number, kind = below(16);
    c.kind = kind < (shrinks ? 3 : 8) ? INSERT : kind < 13 ? DELETE : kind < 15 ? SET_CLASS : REPAIR;
    if (shrinks || below(2)) {
        uint64_t at = 8 + 32 * below((words - 8) / 32);
        at += 8 + 2 * below(6);
        c.key = below(3) ? table.words[at] : c.key;
    }
    fill(out, 8);
    fill(list, c.room);
    if (beside == SENTINELS)
        number = with_sentinels(words, &c);
    else if (beside == SUMMARY)
        number = with_summary(words, &c);
    else
        number = plain(words, &c);
    done(number);
    take_slice(list, c.room);
    if (beside == SENTINELS)
        take_slice(sentinels, with);
    if (beside == SUMMARY)
        take_slice(summary, with);
    return number;
}

/* A summary of the table, which is repaired first if a change is unfinished. */
static void open_summary(uint64_t words, uint64_t with)
{
    uint64_t number = catalogue_summary(table.words, words, summary.words, with);
    done(number);
    if (number == CATALOGUE_NOT_SETTLED) {
        fill(list, CATALOGUE_LIST_WORDS);
        done(catalogue_repair(table.words, words, list.words, CATALOGUE_LIST_WORDS, 0, out.words, out.words + 1, out.words + 2));
        copy(memory, table, words);
        done(catalogue_summary(table.words, words, summary.words, with));
    }
    take_slice(summary, with);
}

/* A page of a listing by a summary. */
static void read_page(uint64_t words, uint64_t with, uint64_t collection, uint64_t low, uint64_t high, uint64_t room)
{
    fill(out, 8);
    fill(pairs, room);
    done(catalogue_quick_list(table.words, words, summary.words, with, collection, low, high, pairs.words, room, &out.words[0],
                              &out.words[1]));
    take_slice(pairs, room);
    take_slice(summary, with);
}

static void write_many(uint64_t words, uint64_t span)
{
    uint64_t collection = some_collection(), dock = some_dock(), count = below(2) ? below(40) : below(MANY), room = below(LIST);
    fill(out, 8);
    fill(list, room);
    fill(pairs, count);
    for (uint64_t i = 0; i + 1 < count; i += 2) {
        pairs.words[i] = some_key(span);
        uint64_t recording = 1 + below(CATALOGUE_MOST_RECORDING), access = below(3);
        pairs.words[i + 1] = CATALOGUE_POINTER(recording, access);
        if (below(400) == 0)
            pairs.words[i + 1] = any();
    }
    uint64_t *o = out.words;
    done(catalogue_insert_many(table.words, words, collection, list.words, room, dock, pairs.words, count, o, o + 1, o + 2, o + 3,
                               o + 4));
    take_slice(list, room);
    take_slice(pairs, count);
}

/* Long scripts: writes, each list carried out on the memory copy up to some count; now and then the working copy is what a cut left. */
static void scripts(void)
{
    uint64_t nodes = 1 + (below(3) ? below(12) : below(below(4) ? 60 : MOST_NODES)), words = 8 + 32 * nodes, span = 1 + below(40 * nodes);
    enum beside beside = (enum beside)below(3);
    uint64_t with = beside == SENTINELS ? 3 * nodes : catalogue_summary_words(nodes);
    fill(table, words);
    fill(memory, words);
    fill(sentinels, 3 * nodes);
    fill(summary, with);
    done(catalogue_make(table.words, words, 1 + below(2)));
    copy(memory, table, words);
    if (beside == SENTINELS)
        done(catalogue_sentinels(table.words, words, sentinels.words, with));
    if (beside == SUMMARY)
        open_summary(words, with);
    bool shrinks = false;
    for (uint64_t i = 0, steps = 20 + below(12 * nodes); i < steps; i++) {
        if (below(30) == 0)
            shrinks = !shrinks;
        uint64_t number;
        if (beside == NOTHING && below(12) == 0) {
            write_many(words, span);
            copy(memory, table, words);
            number = 99;
        } else
            number = write_one(words, beside, with, span, shrinks);
        if (number == 0) {
            drive_long[drive_part] += out.words[0] + out.words[1] > 60;
            uint64_t all = out.words[0] + out.words[1] + out.words[2], c = below(10) ? all : below(all + 3);
            uint64_t said = catalogue_carry_out(memory.words, words, list.words, CATALOGUE_LONG_LIST_WORDS, c);
            take(said);
            take_slice(memory, words);
            if (c < all) {
                read_some(memory, words, span);
                copy(table, memory, words);
                if (beside == SENTINELS)
                    done(catalogue_sentinels(table.words, words, sentinels.words, with));
                if (beside == SUMMARY)
                    open_summary(words, with);
            }
        }
        take_slice(table, words);
        if (below(8) == 0)
            read_some(table, words, span);
        if (beside == SENTINELS && below(4) == 0)
            for (int k = 0; k < 3; k++) {
                uint64_t collection = some_collection(), key = some_key(span);
                search_with(table, words, with, collection, key);
            }
        if (beside == SUMMARY && below(4) == 0) {
            uint64_t collection = some_collection(), low = some_key(span), room = below(80);
            read_page(words, with, collection, low, below(2) ? CATALOGUE_MARK : low + span / 4, room);
        }
    }
}

/* ---- tables: packed from pairs, then damaged in some words */

/* Rising keys with recordings; their words. */
static uint64_t rising(struct slice s, uint64_t most)
{
    uint64_t count = 2 * below(most + 1), key = below(5), step = 1 + below(below(2) ? 4 : UINT64_C(1) << 40);
    for (uint64_t i = 0; i < count; i += 2) {
        s.words[i] = key;
        uint64_t recording = below(2) ? i / 2 + 1 : 1 + below(CATALOGUE_MOST_RECORDING), access = below(3);
        s.words[i + 1] = CATALOGUE_POINTER(recording, access);
        key += 1 + below(step);
    }
    if (count && below(8) == 0) {
        uint64_t at = below(count), word = any();
        s.words[at] = word >> below(64);
    }
    return count + (below(10) == 0);
}

static uint64_t packed(struct slice t, uint64_t nodes)
{
    uint64_t words = 8 + 32 * nodes;
    fill(t, words);
    fill(pairs, 24 * nodes);
    fill(loans, 24 * nodes);
    uint64_t a = rising(pairs, 6 * nodes), b = rising(loans, below(2) ? 2 : 5 * nodes), collections = below(20) ? 1 + below(2) : below(4);
    done(catalogue_pack(t.words, words, collections, pairs.words, a, loans.words, b));
    take_slice(t, words);
    return words;
}

static void damage(struct slice t, uint64_t words)
{
    for (uint64_t i = below(6); i > 0; i--) {
        uint64_t at = below(words);
        switch (below(5)) {
        case 0: t.words[at] = any(); break;
        case 1: t.words[at] ^= UINT64_C(1) << below(64); break;
        case 2: t.words[at] = t.words[below(words)]; break;
        case 3: t.words[at] = below(70); break;
        default:
            at = 8 + 32 * below((words - 8) / 32);
            at += below(4);
            t.words[at] = below(words / 32 + 2);
            break;
        }
    }
}

static uint64_t some_nodes(void)
{
    return 1 + (below(4) ? below(20) : below(MOST_NODES));
}

/* Reading, sentinels, summaries and writes on tables of any sort. */
static void damaged(void)
{
    uint64_t nodes = some_nodes(), words = packed(table, nodes), span = UINT64_C(1) << below(60);
    if (below(10) == 0) {
        words = below(TABLE - 40);
        fill(table, words + 32);
    } else if (below(4))
        damage(table, words);
    if (words == 0)
        words = 1;
    uint64_t with = below(10) ? 3 * nodes : below(3 * nodes + 8);
    fill(sentinels, with);
    done(catalogue_sentinels(table.words, words, sentinels.words, with));
    take_slice(sentinels, with);
    read_some(table, words, span);
    for (int k = 0; k < 6; k++) {
        uint64_t collection = some_collection(), key = below(2) ? table.words[below(words)] : some_key(span);
        search_with(table, words, with, collection, key);
    }
    uint64_t count = below(10) ? catalogue_summary_words(nodes) : below(17 * nodes + 8);
    fill(summary, count);
    done(catalogue_summary(table.words, words, summary.words, count));
    for (uint64_t i = 0; i < count && below(2); i++)
        summary.words[i] = any();
    uint64_t collection = some_collection(), low = below(2) ? 0 : table.words[below(words)], room = below(200);
    read_page(words, count, collection, low, CATALOGUE_MARK, room);
    if (words >= 40)
        for (int k = 0; k < 4; k++) {
            enum beside beside = (enum beside)below(3);
            bool shrinks = below(2);
            write_one(words, beside, beside == SENTINELS ? with : count, span, shrinks);
            take_slice(table, words);
        }
}

static void salvaging(void)
{
    uint64_t nodes = some_nodes(), words = packed(table, nodes), other = below(20) ? words : below(TABLE);
    uint64_t room = below(20) ? 36 * nodes : below(REPORT);
    damage(table, words);
    if (below(20) == 0)
        for (uint64_t i = 8; i < words; i++)
            table.words[i] = below(3) ? below(nodes + 2) : any();
    fill(second, other);
    fill(report, room);
    fill(out, 8);
    done(catalogue_salvage(table.words, words, second.words, other, report.words, room, &out.words[0]));
    take_slice(table, words);
    take_slice(second, other);
    take_slice(report, room);
}

/* Our own lists, whole and spoilt. */
static void judging(void)
{
    uint64_t nodes = 2 + below(below(4) ? 8 : 40), words = packed(table, nodes), *o = out.words, key, recording = some_recording();
    uint64_t access = some_class(), collection = below(20) ? 1 : some_collection();
    bool inserts = below(2);
    uint64_t count = below(12), span = 12 * nodes;
    for (uint64_t i = 0; i < count; i++)
        write_one(words, NOTHING, 0, span, false);
    /* Now and then what a cut leaves, which is sound but not settled. */
    if (below(8) == 0) {
        copy(memory, table, words);
        if (write_one(words, NOTHING, 0, span, false) == 0) {
            uint64_t c = below(out.words[0] + out.words[1] + out.words[2] + 1);
            take(catalogue_carry_out(memory.words, words, list.words, CATALOGUE_LONG_LIST_WORDS, c));
            copy(table, memory, words);
        }
    }
    uint64_t at_node = 8 + 32 * below(nodes), at_key = at_node + 8 + 2 * below(12);
    key = inserts ? some_key(span) : table.words[at_key];
    copy(second, table, words);
    fill(out, 8);
    fill(list, CATALOGUE_LONG_LIST_WORDS);
    uint64_t dock = below(10) == 0;
    uint64_t number = inserts ? catalogue_insert(second.words, words, collection, list.words, CATALOGUE_LONG_LIST_WORDS, dock, key,
                                                 recording, access, o, o + 1, o + 2)
                              : catalogue_delete(second.words, words, collection, list.words, CATALOGUE_LONG_LIST_WORDS, dock, key, o, o + 1,
                                                 o + 2);
    done(number);
    uint64_t all = number == 0 ? o[0] + o[1] + o[2] : below(30);
    uint64_t asked_key = key;
    switch (below(9)) {
    case 0: break;
    case 1:
        if (all) { /* one dropped */
            for (uint64_t i = 2 * below(all); i + 2 < 2 * all; i++)
                list.words[i] = list.words[i + 2];
            all--;
        }
        break;
    case 2:
        if (all > 1) { /* two changed about */
            uint64_t at = 2 * below(all - 1);
            for (int k = 0; k < 2; k++) {
                uint64_t w = list.words[at + k];
                list.words[at + k] = list.words[at + 2 + k];
                list.words[at + 2 + k] = w;
            }
        }
        break;
    case 3:
        if (all) {
            uint64_t at = 2 * below(all) + 1;
            list.words[at] = below(2) ? any() : below(100);
        }
        break;
    case 4:
        if (all) {
            uint64_t at = 2 * below(all);
            list.words[at] = below(3) ? below(words) : CATALOGUE_MARK - below(2);
        }
        break;
    case 5: all = below(all + 1); break;
    case 6: asked_key += 1 - below(3); break;
    case 7:
        list.words[2 * all] = below(3) ? below(words) : CATALOGUE_MARK;
        list.words[2 * all + 1] = below(words / 8);
        all++;
        break;
    default:
        for (uint64_t i = 0; i < 2 * all && below(2); i++)
            list.words[i] = any();
        break;
    }
    if (below(40) == 0)
        damage(table, words);
    uint64_t other = below(40) ? words : below(words);
    fill(third, other);
    fill(out, 8);
    done(inserts ? catalogue_judge_insert(table.words, words, list.words, 2 * all, third.words, other, collection, asked_key, recording,
                                          access, o)
                 : catalogue_judge_delete(table.words, words, list.words, 2 * all, third.words, other, collection, asked_key, o));
    take_slice(third, other);
    take_slice(table, words);
}

/* ---- codes, scripts, wear */

static void small(void)
{
    static const char letters[] = "ABZaz0123456789-:@[/";
    uint8_t text[16];
    fill(out, 8);
    uint64_t bits = 1 + below(63), key = below(2) ? any() : below(UINT64_C(1) << bits);
    for (int i = 0; i < 16; i++)
        text[i] = (uint8_t)(0xa0 + i);
    done(catalogue_print(key, text));
    for (int i = 0; i < 16; i++)
        take(text[i]);
    if (below(2))
        for (int i = 0; i < 12; i++)
            text[i] = (uint8_t)letters[i < 2 ? below(5) : i < 5 ? below(15) : 5 + below(below(30) ? 10 : 15)];
    done(catalogue_parse(text, below(10) ? 12 : below(16), &out.words[0]));
    done(catalogue_print(out.words[0], text));
    for (int i = 0; i < 16; i++)
        take(text[i]);
    uint64_t number = below(3) ? below(1555) : any();
    if (number > 1555)
        number >>= below(64);
    done(catalogue_script(number, &out.words[1]));
    if (below(3) == 0) {
        uint64_t at = 1 + below(5);
        out.words[at] = below(7);
    }
    uint64_t script[5];
    for (int i = 0; i < 5; i++)
        script[i] = out.words[1 + i];
    done(catalogue_script_number(script, &out.words[6]));
    take(catalogue_version());
}

static void wearing(void)
{
    uint64_t nodes = 1 + below(40), words = 8 + 32 * nodes, count = below(400), rooms = words / 8 + 1 - below(3), most = below(words + 2);
    fill(table, words);
    done(catalogue_make(table.words, words, 1 + below(2)));
    fill(list, count);
    for (uint64_t i = 0; i < count; i++) {
        uint64_t past = below(100) == 0;
        list.words[i] = i % 2 ? any() : below(words + past);
    }
    for (uint64_t i = 0; i + 1 < count; i += 2)
        if (below(3) == 0) {
            list.words[i] = CATALOGUE_MARK - below(2);
            list.words[i + 1] = below(10) ? below(words / 8) : 0;
        }
    fill(lines, rooms);
    fill(extents, most);
    fill(out, 8);
    uint64_t *o = out.words;
    done(catalogue_wear(table.words, words, list.words, count, lines.words, rooms, extents.words, most, o, o + 1, o + 2, o + 3));
    take_slice(lines, rooms);
    take_slice(extents, most);
}

static void (*const parts[])(void) = {scripts, damaged, salvaging, judging, small, wearing};
const char *const part_names[] = {"scripts", "damaged", "salvaging", "judging", "small", "wearing"};

uint64_t drive(uint64_t part, uint64_t seed, uint64_t rounds)
{
    state = seed * 0x2545f4914f6cdd1d + part;
    sum = seed;
    drive_part = part;
    calls = accepted = 0;
    for (uint64_t i = 0; i < rounds; i++)
        parts[part]();
    return sum;
}

uint64_t drive_calls(void)
{
    return calls;
}

uint64_t drive_accepted(void)
{
    return accepted;
}
