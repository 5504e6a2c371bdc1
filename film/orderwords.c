/* One order in the words that people write. */
#include "orderwords.h"

#include <inttypes.h>
#include <string.h>
#include <strings.h>

#include "catalogue.h"
#include "planned.h"
#include "text.h"
#include "tree.h"

#define LINES_OF_A_NODE (NODE_WORDS / LINE_WORDS)
#define SLOT_WORDS 8 /* of a node, the first word of slot 0 */

static const char *const head_words[] = {"left", "sibling", "level", "fence"};

/* What a word of the table holds. */
enum holds { A_KEY, A_POINTER, A_NODE, A_NUMBER };

static enum holds holds_of(uint64_t word)
{
    if (word < HEADER_WORDS)
        return word == FIRST_ROOT || word == SECOND_ROOT ? A_NODE : A_NUMBER;
    uint64_t within = (word - HEADER_WORDS) % NODE_WORDS;
    if (within >= SLOT_WORDS)
        return within % 2 == 0 ? A_KEY : A_POINTER;
    return within == FENCE ? A_KEY : within == LEFT || within == SIBLING ? A_NODE : A_NUMBER;
}

/* ---- reading: words of a line */

struct reading {
    const char *at, *end;
    struct complaint *complaint;
};

struct word {
    const char *from;
    size_t length;
};

static bool separates(char c)
{
    return c == ' ' || c == '\t' || c == ',' || c == ';';
}

static bool is_digit(char c)
{
    return c >= '0' && c <= '9';
}

/* A remark goes to the end of the line: from # unless a number follows it, from ( or from --. */
static bool remarks(const char *at, const char *end)
{
    if (*at == '#')
        return at + 1 == end || !is_digit(at[1]);
    return *at == '(' || (*at == '-' && at + 1 < end && at[1] == '-');
}

/* The next word, or := as a word of its own; of length 0 at the end. */
static struct word peek(const struct reading *r)
{
    const char *at = r->at;
    while (at < r->end && separates(*at))
        at++;
    struct word w = {at, 0};
    if (at == r->end || remarks(at, r->end))
        return w;
    if (*at == ':' || *at == '=')
        w.length = at + 1 < r->end && at[0] == ':' && at[1] == '=' ? 2 : 1;
    else
        while (at < r->end && !separates(*at) && *at != '=' && *at != ':' && *at != '(')
            at++, w.length++;
    return w;
}

static struct word next_word(struct reading *r)
{
    struct word w = peek(r);
    r->at = w.from + w.length;
    return w;
}

static bool is(struct word w, const char *name)
{
    return w.length == strlen(name) && strncasecmp(w.from, name, w.length) == 0;
}

static bool is_assign(struct word w)
{
    return is(w, ":=") || is(w, "=") || is(w, ":");
}

/* The word is taken if it is this one. */
static bool take(struct reading *r, const char *name)
{
    if (!is(peek(r), name))
        return false;
    next_word(r);
    return true;
}

static bool complain(struct reading *r, struct word w, const char *wanted)
{
    *r->complaint = (struct complaint){w.from, w.length, wanted};
    return false;
}

static bool number_of(struct word w, uint64_t *number)
{
    return read_number(w.from, w.length, number);
}

/* A number that is at least low and at most high. */
static bool take_number(struct reading *r, uint64_t low, uint64_t high, uint64_t *number, const char *wanted)
{
    struct word w = next_word(r);
    return (number_of(w, number) && *number >= low && *number <= high) || complain(r, w, wanted);
}

/* "slot 3" as two words, or its letter and number as one: s3. */
static bool take_lettered(struct reading *r, const char *name, char letter, uint64_t low, uint64_t high, uint64_t *number, const char *wanted)
{
    struct word w = peek(r), rest = {w.from + 1, w.length > 0 ? w.length - 1 : 0};
    if (is(w, name)) {
        next_word(r);
        return take_number(r, low, high, number, wanted);
    }
    if (w.length < 2 || (w.from[0] | 0x20) != letter || !number_of(rest, number))
        return complain(r, w, wanted);
    next_word(r);
    return (*number >= low && *number <= high) || complain(r, w, wanted);
}

/* ---- reading: values */

#define NODE_WANTED "a node is node and a number from 1 to 65535"
#define KEY_WANTED "a key is a code such as AA0002600010, # and a number, MARK or 0"
#define POINTER_WANTED "a pointer is a recording's number, perhaps with open, room or closed, a node, MARK or 0"
#define LINK_WANTED "node and a number, MARK, none or 0"

/* A key: a number of digits alone must be 0 or a code's own. In a plain order any number is one. */
static bool read_key(struct reading *r, bool plain, uint64_t *value)
{
    struct word w = next_word(r);
    char text[KEY_TEXT];
    if (number_of(w, value))
        return plain || *value == 0 || *value == CATALOGUE_MARK || key_text(*value, text)[0] != '#' || complain(r, w, KEY_WANTED);
    if (w.length == 0 || catalogue_file_parse(w.from, w.length, value) != 0)
        return complain(r, w, KEY_WANTED);
    return true;
}

static bool read_link(struct reading *r, const char *wanted, uint64_t *value)
{
    *value = 0;
    if (take(r, "none"))
        return true;
    take(r, "node");
    struct word w = next_word(r);
    return number_of(w, value) || complain(r, w, wanted);
}

static bool read_pointer(struct reading *r, uint64_t *value)
{
    uint64_t access = 0;
    if (is(peek(r), "node") || is(peek(r), "none"))
        return read_link(r, NODE_WANTED, value);
    take(r, "recording");
    struct word w = next_word(r), class = peek(r);
    if (!number_of(w, value))
        return complain(r, w, POINTER_WANTED);
    if (*value <= CATALOGUE_MOST_RECORDING && class.length > 0 && read_class(class.from, class.length, &access)) {
        next_word(r);
        *value |= access << 56;
    }
    return true;
}

static bool read_value(struct reading *r, uint64_t word, bool plain, uint64_t *value)
{
    if (take(r, "MARK")) {
        *value = CATALOGUE_MARK;
        return true;
    }
    switch (holds_of(word)) {
    case A_KEY: return read_key(r, plain, value);
    case A_POINTER: return read_pointer(r, value);
    case A_NODE: return read_link(r, LINK_WANTED, value);
    default: return take_number(r, 0, UINT64_MAX, value, "a number, or MARK");
    }
}

/* ---- reading: places */

static bool read_head_word(struct reading *r, uint64_t *within)
{
    for (*within = 0; *within < sizeof head_words / sizeof head_words[0]; ++*within)
        if (take(r, head_words[*within]))
            return true;
    return false;
}

/* "key" or "pointer" of a slot, as the place in the slot. */
static bool read_part(struct reading *r, uint64_t *part)
{
    bool pointer = take(r, "pointer") || take(r, "ptr") || take(r, "recording");
    *part = pointer;
    return pointer || take(r, "key");
}

static bool read_node_word(struct reading *r, uint64_t *within)
{
    uint64_t slot, part;
    if (read_head_word(r, within))
        return true;
    if (take(r, "word"))
        return take_number(r, 4, 7, within, "a node's words without a name are word 4 to word 7");
    if (read_part(r, &part)) {
        if (!take_number(r, 0, SLOTS - 1, &slot, "a slot is 0 to 11"))
            return false;
    } else {
        struct word w = peek(r);
        if (w.length == 0 || ((w.from[0] | 0x20) != 's'))
            return complain(r, w, "left, sibling, level, fence, slot and its number, or word and its number");
        if (!take_lettered(r, "slot", 's', 0, SLOTS - 1, &slot, "a slot is 0 to 11"))
            return false;
        if (!read_part(r, &part))
            return complain(r, peek(r), "key or pointer");
    }
    *within = SLOT_WORDS + 2 * slot + part;
    return true;
}

static bool read_header_word(struct reading *r, uint64_t *word)
{
    uint64_t collection = 1;
    take(r, "the");
    if (take(r, "word"))
        return take_number(r, 0, HEADER_WORDS - 1, word, "the header's words are word 0 to word 7");
    if (!take(r, "root") && !take(r, "root's"))
        return complain(r, peek(r), "root, or word and its number");
    take(r, "number");
    take(r, "of");
    take(r, "collection");
    if (!is_assign(peek(r)) && !take_number(r, 1, MOST_COLLECTIONS, &collection, ":= , or 2 for the root of collection 2"))
        return false;
    *word = collection == 1 ? FIRST_ROOT : SECOND_ROOT;
    return true;
}

static bool read_node(struct reading *r, uint64_t *node)
{
    return take_lettered(r, "node", 'n', 1, MOST_NODES, node, NODE_WANTED);
}

static bool read_place(struct reading *r, uint64_t *word)
{
    uint64_t node, within;
    if (take(r, "header"))
        return read_header_word(r, word);
    if (!read_node(r, &node) || !read_node_word(r, &within))
        return false;
    *word = HEADER_WORDS + NODE_WORDS * (node - 1) + within;
    return true;
}

/* The numbers of "4-7", "4 to 7" or "4", which lie in one line. */
static bool read_slots(struct reading *r, struct word w, uint64_t *part)
{
    static const char wanted[] = "the lines with slots are slots 0-3, slots 4-7 and slots 8-11";
    const char *dash = memchr(w.from, '-', w.length);
    struct word first = {w.from, dash ? (size_t)(dash - w.from) : w.length}, second = first;
    uint64_t low, high;
    if (dash)
        second = (struct word){dash + 1, w.length - first.length - 1};
    else if (take(r, "to"))
        second = next_word(r);
    if (!number_of(first, &low) || !number_of(second, &high) || low > high || high >= SLOTS || low / 4 != high / 4)
        return complain(r, w, wanted);
    *part = 1 + low / 4;
    return true;
}

static bool read_node_line(struct reading *r, uint64_t *part)
{
    uint64_t within;
    *part = 0;
    if (take(r, "head"))
        return true;
    if (read_head_word(r, &within)) {
        if (take(r, "to"))
            next_word(r);
        return true;
    }
    if (take(r, "slots") || take(r, "slot"))
        return read_slots(r, next_word(r), part);
    struct word w = next_word(r);
    if (w.length < 2 || (w.from[0] | 0x20) != 's' || !is_digit(w.from[1]))
        return complain(r, w, "head (left to fence), slots 0-3, slots 4-7 or slots 8-11");
    return read_slots(r, (struct word){w.from + 1, w.length - 1}, part);
}

static bool read_flush(struct reading *r, uint64_t *line)
{
    uint64_t node, part;
    struct word w = peek(r);
    if (take(r, "header")) {
        *line = 0;
        return true;
    }
    if (take(r, "line"))
        return take_number(r, 0, UINT64_MAX, line, "a line's number");
    if (number_of(w, line)) {
        next_word(r);
        return true;
    }
    if (w.length == 0 || (w.from[0] | 0x20) != 'n')
        return complain(r, w, "a line's number, header, or node and its number");
    if (!read_node(r, &node) || !read_node_line(r, &part))
        return false;
    *line = 1 + LINES_OF_A_NODE * (node - 1) + part;
    return true;
}

/* ---- reading: orders */

/* In a list a store to word MARK would be a flush, and one of 0 to the word before it a barrier: another that no table has a word for. */
static void outside(uint64_t order[2])
{
    if (order[0] == CATALOGUE_MARK || (order[0] == CATALOGUE_BARRIER && order[1] == 0)) {
        order[0] = CATALOGUE_BARRIER;
        order[1] = 1;
    }
}

static bool read_store(struct reading *r, uint64_t order[2])
{
    struct word w = peek(r);
    bool plain = number_of(w, &order[0]);
    if (w.length > 0 && is_digit(w.from[0]) && !plain)
        return complain(r, w, "a word's number fits 64 bits");
    if (plain)
        next_word(r);
    else if (!read_place(r, &order[0]))
        return false;
    if (is_assign(peek(r)))
        next_word(r);
    else if (!plain)
        return complain(r, peek(r), ":=");
    if (!read_value(r, order[0], plain, &order[1]))
        return false;
    outside(order);
    return true;
}

static bool read_order(struct reading *r, uint64_t order[2])
{
    struct word w = peek(r);
    if (take(r, "barrier")) {
        order[0] = CATALOGUE_BARRIER;
        order[1] = 0;
        return true;
    }
    if (take(r, "flush")) {
        order[0] = CATALOGUE_MARK;
        return read_flush(r, &order[1]);
    }
    bool store = take(r, "store"), place = is(w, "node") || is(w, "header") || (w.length > 1 && (w.from[0] | 0x20) == 'n' && is_digit(w.from[1]));
    return store || place ? read_store(r, order) : complain(r, w, "an order begins with store, node and a number, header, flush or barrier");
}

/* A number before an order, perhaps with a mark behind it: "3", "3.", "3)". */
static void pass_number(struct reading *r)
{
    uint64_t number;
    struct word w = peek(r);
    if (w.length > 1 && (w.from[w.length - 1] == '.' || w.from[w.length - 1] == ')'))
        w.length--;
    if (number_of(w, &number)) {
        next_word(r);
        if (is(peek(r), ":"))
            next_word(r);
    }
}

bool order_is_remark(const char *text, size_t length)
{
    const char *at = text, *end = text + length;
    while (at < end && separates(*at))
        at++;
    return at == end || *at == '#' || remarks(at, end);
}

bool order_read(const char *text, size_t length, uint64_t order[2], struct complaint *c)
{
    struct reading r = {text, text + length, c};
    uint64_t number;
    pass_number(&r);
    if (!read_order(&r, order))
        return false;
    /* A number too many is no remark. */
    struct word w = peek(&r);
    return !number_of(w, &number) || complain(&r, w, "the order ends before it");
}

/* ---- writing */

static void place_words(FILE *out, uint64_t word)
{
    if (word < HEADER_WORDS) {
        if (word == FIRST_ROOT || word == SECOND_ROOT)
            fprintf(out, "header root%s", word == FIRST_ROOT ? "" : " 2");
        else
            fprintf(out, "header word %" PRIu64, word);
        return;
    }
    uint64_t within = (word - HEADER_WORDS) % NODE_WORDS;
    fprintf(out, "node %" PRIu64 " ", (word - HEADER_WORDS) / NODE_WORDS + 1);
    if (within >= SLOT_WORDS)
        fprintf(out, "slot %" PRIu64 " %s", (within - SLOT_WORDS) / 2, within % 2 == 0 ? "key" : "pointer");
    else if (within < sizeof head_words / sizeof head_words[0])
        fprintf(out, "%s", head_words[within]);
    else
        fprintf(out, "word %" PRIu64, within);
}

static void value_words(FILE *out, uint64_t word, uint64_t value, bool inner)
{
    char text[KEY_TEXT];
    enum holds holds = holds_of(word);
    if (value == CATALOGUE_MARK)
        fputs("MARK", out);
    else if (value == 0)
        fputs("0", out);
    else if (holds == A_KEY)
        fputs(key_text(value, text), out);
    else if (holds == A_NODE || (holds == A_POINTER && inner))
        fprintf(out, "node %" PRIu64, value);
    else if (holds == A_POINTER && value >> 56 > 0 && value >> 56 <= CATALOGUE_CLOSED)
        fprintf(out, "%" PRIu64 " %s", (uint64_t)CATALOGUE_RECORDING(value), class_text(value >> 56, text));
    else
        fprintf(out, "%" PRIu64, value);
}

static void flush_words(FILE *out, uint64_t line)
{
    if (line == 0) {
        fputs("flush header", out);
        return;
    }
    uint64_t node = (line - 1) / LINES_OF_A_NODE + 1, part = (line - 1) % LINES_OF_A_NODE;
    if (node > MOST_NODES)
        fprintf(out, "flush line %" PRIu64, line);
    else if (part == 0)
        fprintf(out, "flush node %" PRIu64 " head", node);
    else
        fprintf(out, "flush node %" PRIu64 " slots %" PRIu64 "-%" PRIu64, node, 4 * part - 4, 4 * part - 1);
}

void order_words(FILE *out, const uint64_t order[2], bool inner)
{
    if (order[0] == CATALOGUE_MARK) {
        flush_words(out, order[1]);
    } else if (order[0] == CATALOGUE_BARRIER && order[1] == 0) {
        fputs("barrier", out);
    } else if (order[0] >= HEADER_WORDS + (uint64_t)NODE_WORDS * MOST_NODES) {
        fprintf(out, "store %" PRIu64 " %" PRIu64, order[0], order[1]);
    } else {
        place_words(out, order[0]);
        fputs(" := ", out);
        value_words(out, order[0], order[1], inner);
    }
}

/* Whether the node of that store is above the leaves: by the last store to its level before, or by the table. */
static bool is_inner(const uint64_t *base, size_t words, const uint64_t *orders, size_t i)
{
    uint64_t word = orders[2 * i];
    if (!order_stores(orders + 2 * i) || word < HEADER_WORDS)
        return false;
    uint64_t level = HEADER_WORDS + (word - HEADER_WORDS) / NODE_WORDS * NODE_WORDS + LEVEL;
    while (i-- > 0)
        if (orders[2 * i] == level)
            return orders[2 * i + 1] > 0;
    return level < words && base[level] > 0;
}

void orders_words(FILE *out, const uint64_t *base, size_t words, const uint64_t *orders, size_t count, bool numbered)
{
    for (size_t i = 0; i < count; i++) {
        if (numbered)
            fprintf(out, "%4zu  ", i + 1);
        order_words(out, orders + 2 * i, is_inner(base, words, orders, i));
        fputc('\n', out);
    }
}
