/*
 * One input, a command of the program and calls of the file library on a table that is damaged by it, and on a text that is an order list, lines to
 * load or a saved drawing: nothing may crash, a status must be one that the manual names, and what is refused leaves the table as it was. The
 * first bytes say which command, which table and how many of its words are changed; then come these, four bytes each; the rest is the text.
 */
#include <errno.h>
#include <fcntl.h>
#include <inttypes.h>
#include <signal.h>
#include <stdbool.h>
#include <stdio.h>
#include <stdlib.h>
#include <string.h>
#include <sys/stat.h>
#include <unistd.h>

#include "catalogue_file.h"

int LLVMFuzzerTestOneInput(const uint8_t *data, size_t size);
int LLVMFuzzerInitialize(int *count, char ***words);

/* The program's main. */
int program_main(int count, char **words);

#define NODES 12
#define WORDS (8 + 32 * NODES + CATALOGUE_FILE_TRAILER)
#define MOST_TEXT 1500
#define TABLES 5

static char folder[256], table[300], text[300], class_folder[300], class_file[320], made[300];
static uint64_t base[TABLES][WORDS], damaged[WORDS];
static FILE *quiet;

/* Says what is wrong, and ends with a core. */
static _Noreturn void wrong(const char *what, const char *more)
{
    dprintf(STDERR_FILENO, "fuzz: %s: %s\n", what, more);
    abort();
}

static void write_file(const char *name, const void *bytes, size_t count)
{
    int file = open(name, O_WRONLY | O_CREAT | O_TRUNC, 0644);
    if (file < 0 || write(file, bytes, count) != (ssize_t)count)
        wrong("a file of its own", name);
    close(file);
}

static size_t read_file(const char *name, void *bytes, size_t most)
{
    int file = open(name, O_RDONLY);
    ssize_t got = file < 0 ? 0 : read(file, bytes, most);
    if (file >= 0)
        close(file);
    return got < 0 ? 0 : (size_t)got;
}

/* ---- the tables that are damaged: one leaf, several leaves, two collections, a cut split, emptied leaves */

static void make_table(size_t which)
{
    catalogue_file *f = catalogue_file_new();
    unlink(table);
    if (catalogue_file_create(f, table, NODES, which == 2 ? 2 : 1) != 0 || catalogue_file_open(f, table, CATALOGUE_FILE_WRITING | CATALOGUE_FILE_FAST, 0) != 0)
        wrong("a table", catalogue_file_message(f));
    for (uint64_t key = 10; key <= (which == 0 ? 60 : 380); key += 10)
        if (catalogue_file_add(f, which == 2 ? 1 + key / 10 % 2 : 1, key, 1000 + key, key / 10 % 3) != 0)
            wrong("a code", catalogue_file_message(f));
    struct catalogue_file_change cut = {.kind = CATALOGUE_FILE_ADD, .collection = 1, .key = 385, .recording = 7, .cut = 30};
    if (which == 3)
        (void)catalogue_file_change(f, &cut);
    for (uint64_t key = 60; which == 4 && key <= 300; key += 10)
        (void)catalogue_file_remove(f, 1, key);
    catalogue_file_free(f);
    if (read_file(table, base[which], sizeof base[which]) != sizeof base[which])
        wrong("a table's length", table);
}

static void remove_files(void)
{
    unlink(table), unlink(text), unlink(made), unlink(class_file);
    rmdir(class_folder), rmdir(folder);
}

int LLVMFuzzerInitialize(int *count, char ***words)
{
    (void)count, (void)words;
    snprintf(folder, sizeof folder, "%s/catalogue-fuzz-XXXXXX", access("/dev/shm", W_OK) == 0 ? "/dev/shm" : "/tmp");
    if (!mkdtemp(folder))
        wrong("a folder", folder);
    snprintf(table, sizeof table, "%s/t.cat", folder);
    snprintf(text, sizeof text, "%s/text", folder);
    snprintf(made, sizeof made, "%s/made", folder);
    snprintf(class_folder, sizeof class_folder, "%s/class", folder);
    snprintf(class_file, sizeof class_file, "%s/ada.txt", class_folder);
    mkdir(class_folder, 0755);
    atexit(remove_files);
    for (size_t which = 0; which < TABLES; which++)
        make_table(which);
    quiet = fopen("/dev/null", "w");
    stdout = stderr = quiet;
    return 0;
}

/* ---- damage */

/* A word that damage may leave, by its kind. */
static uint64_t some_word(uint8_t kind, uint8_t value, uint64_t before)
{
    switch (kind % 8) {
    case 0:
        return value;
    case 1:
        return value % (NODES + 2);
    case 2:
        return UINT64_MAX - value;
    case 3:
        return before ^ UINT64_C(1) << value % 64;
    case 4:
        return (uint64_t)(value % 4) << 56 | (1000u + value);
    case 5:
        return damaged[(value * 7u) % WORDS];
    case 6:
        return before + value;
    default:
        return UINT64_C(1) << value % 64;
    }
}

/* Gives back what of the input is left. */
static const uint8_t *damage(const uint8_t *data, size_t *size, size_t edits, size_t *length)
{
    *length = sizeof damaged;
    for (; edits > 0 && *size >= 4; edits--, data += 4, *size -= 4) {
        size_t at = (data[0] | (size_t)data[1] << 8) % WORDS;
        if (data[2] == 255)
            *length = data[3] % 2 == 0 ? 8 * at : sizeof damaged - data[3] * 4u;
        else
            damaged[at] = some_word(data[2], data[3], damaged[at]);
    }
    return data;
}

/* ---- commands: T is the table, L the text, N a new file, C a folder with the text as one who drew it saves it, X the text's first word */

static const char *const commands[][10] = {
    {"find", "T", "#25", "#30"},
    {"find", "T", "--recording", "1030"},
    {"find", "T", "#30", "--collection", "2", "--json"},
    {"find", "T", "-"},
    {"list", "T"},
    {"list", "T", "#15", "#200", "--json"},
    {"list", "T", "--collection", "2"},
    {"check", "T", "--json"},
    {"stat", "T"},
    {"show", "T"},
    {"add", "T", "#25", "25", "room"},
    {"add", "T", "#385", "7", "--dock", "1"},
    {"add", "T", "#385", "7", "--cut", "11"},
    {"remove", "T", "#30"},
    {"remove", "T", "#30", "--collection", "2"},
    {"class", "T", "#30", "closed"},
    {"repair", "T"},
    {"orders", "T", "add", "#25", "25"},
    {"orders", "T", "repair"},
    {"orders", "T", "list", "L", "--words"},
    {"judge", "T", "L", "+", "#25", "25"},
    {"judge", "T", "L", "-", "#30", "--json"},
    {"film", "T", "+", "#25", "25", "--list", "L", "--data"},
    {"film", "T", "repair", "--data"},
    {"wear", "T", "L"},
    {"wear", "T", "L", "--svg"},
    {"copy", "T", "N"},
    {"copy", "T", "N", "40"},
    {"salvage", "T", "N"},
    {"salvage", "T", "N", "--nodes", "12", "--root", "1"},
    {"load", "T", "L", "--each"},
    {"load", "T", "L", "--keep-going", "--again"},
    {"load", "T", "L", "--keep-going", "--collection", "2", "--wear"},
    {"class", "C", "--data"},
    {"key", "X"},
    {"find", "T", "X"},
    {"make", "N", "X"},
    {"script", "X"},
};
#define COMMANDS (sizeof commands / sizeof commands[0])

/* Of the manual. */
static bool is_status(int status)
{
    return (status >= 0 && status <= 25) || status == 64 || status == 65 || status == 74 || status == 254;
}

static bool writes(const char *name)
{
    static const char *const names[] = {"add", "remove", "class", "repair", "load"};
    for (size_t i = 0; i < sizeof names / sizeof names[0]; i++)
        if (strcmp(name, names[i]) == 0)
            return true;
    return false;
}

static void run_command(size_t which, const char *first_word)
{
    char *words[12] = {(char *)"catalogue"};
    int count = 1;
    for (size_t i = 0; i < 10 && commands[which][i]; i++) {
        const char *word = commands[which][i];
        bool letter = word[0] != '\0' && word[1] == '\0';
        words[count++] = (char *)(!letter           ? word
                                  : word[0] == 'T' ? table
                                  : word[0] == 'L' ? text
                                  : word[0] == 'N' ? made
                                  : word[0] == 'C' ? class_folder
                                  : word[0] == 'X' ? first_word
                                                   : word);
    }
    if (strcmp(commands[which][0], "find") == 0 && !freopen(text, "r", stdin))
        wrong("standard input", text);
    int status = program_main(count, words);
    if (!is_status(status)) {
        char said[40];
        snprintf(said, sizeof said, "%s, status %d", commands[which][0], status);
        wrong("a status that there is not", said);
    }
    static uint64_t now[WORDS + 64];
    size_t bytes = read_file(table, now, sizeof now), kept = bytes < 8 * (WORDS - CATALOGUE_FILE_TRAILER) ? bytes : 8 * (WORDS - CATALOGUE_FILE_TRAILER);
    bool loads = strcmp(commands[which][0], "load") == 0, cuts = count > 6 && strcmp(words[5], "--cut") == 0;
    if ((!writes(commands[which][0]) || (status != 0 && !loads && !cuts)) && memcmp(now, damaged, kept) != 0)
        wrong("a refused command changed the table", commands[which][0]);
    unlink(made);
}

/* ---- calls of the file library */

static int count_pair(void *context, const struct catalogue_file_pair *pair)
{
    (void)pair;
    size_t *count = context;
    return ++*count > 1000;
}

static int count_drop(void *context, const struct catalogue_file_drop *drop)
{
    (void)drop;
    ++*(size_t *)context;
    return 0;
}

/* A reader's answer is the core's on these words. */
static void compare_find(catalogue_file *f, const uint64_t *words, size_t count, uint64_t collection, uint64_t key)
{
    struct catalogue_file_pair found;
    uint64_t recording = 0, access = 0, next = 0, higher = 0;
    uint64_t number = catalogue_file_find(f, collection, key, &found);
    uint64_t core = catalogue_search(words, count, collection, key, &recording, &access, &next, &higher);
    bool bad_slot = core == 0 && (access > CATALOGUE_CLOSED || recording == 0);
    bool same = bad_slot ? number == CATALOGUE_NOT_SOUND : number == core;
    if (!same || (number == 0 && (found.recording != recording || found.access != access))
        || (number == CATALOGUE_ABSENT && (found.higher != higher || (higher && found.next != next))))
        wrong("a find is not the core's search", "");
}

/* Of every code that was there, and of one more. */
static void compare_finds(catalogue_file *f, uint64_t key)
{
    static uint64_t copy[WORDS];
    const uint64_t *words;
    size_t count;
    if (catalogue_file_table(f, &words, &count) != 0 || count > WORDS)
        return;
    memcpy(copy, words, count * sizeof *copy);
    for (uint64_t collection = 1; collection <= 2; collection++) {
        compare_find(f, copy, count, collection, key);
        for (uint64_t there = 10; there <= 380; there += 10)
            compare_find(f, copy, count, collection, there);
    }
}

static void read_by_calls(uint64_t key)
{
    catalogue_file *f = catalogue_file_new();
    uint64_t report[CATALOGUE_CHECK_WORDS], nodes = 0, dropped;
    struct catalogue_file_change change = {.kind = key % 4, .collection = 1 + key % 2, .key = key, .recording = 77, .cut = CATALOGUE_FILE_ALL};
    const uint64_t *orders;
    size_t count = 0;
    if (catalogue_file_open(f, table, CATALOGUE_FILE_READING, 0) == 0) {
        compare_finds(f, key);
        (void)catalogue_file_walk(f, 1, key, UINT64_MAX, count_pair, &count);
        bool sound = catalogue_file_check(f, report) == 0;
        (void)catalogue_file_plan(f, &change, &orders);
        uint64_t copied = catalogue_file_copy(f, made, &nodes);
        if (sound && copied != 0 && copied != CATALOGUE_NO_NODES)
            wrong("a sound table cannot be copied", catalogue_file_message(f));
        unlink(made);
        if (catalogue_file_salvage(f, made, count_drop, &count, &dropped) == 0) {
            catalogue_file *saved = catalogue_file_new();
            if (catalogue_file_open(saved, made, CATALOGUE_FILE_READING, 0) != 0 || catalogue_file_check(saved, report) != 0)
                wrong("what was salvaged is not sound", catalogue_file_message(saved));
            catalogue_file_free(saved);
        }
        unlink(made);
    }
    catalogue_file_free(f);
}

static void write_by_calls(uint64_t key)
{
    catalogue_file *f = catalogue_file_new();
    uint64_t report[CATALOGUE_CHECK_WORDS], pairs[40];
    if (catalogue_file_open(f, table, CATALOGUE_FILE_WRITING | CATALOGUE_FILE_FAST, 0) == 0) {
        bool sound = catalogue_file_check(f, report) == 0;
        (void)catalogue_file_add(f, 1, key, 77, CATALOGUE_ROOM);
        (void)catalogue_file_set_class(f, 1 + key % 2, key, CATALOGUE_CLOSED);
        (void)catalogue_file_remove(f, 1, 10 * (key % 40));
        for (uint64_t i = 0; i < 20; i++) {
            pairs[2 * i] = key + 3 * i;
            pairs[2 * i + 1] = CATALOGUE_POINTER(500 + i, i % 3);
        }
        (void)catalogue_file_load_pairs(f, 1, CATALOGUE_FILE_KEEP_GOING | (key % 2 ? CATALOGUE_FILE_IN_PLACE : 0), pairs, 20, NULL);
        (void)catalogue_file_repair(f);
        if (sound && catalogue_file_check(f, report) != 0)
            wrong("changes made a sound table unsound", catalogue_file_message(f));
        (void)catalogue_file_close(f);
    }
    catalogue_file_free(f);
}

static void parse(const char *word, size_t length)
{
    uint64_t key, again;
    char printed[CATALOGUE_FILE_CODE];
    if (catalogue_file_parse(word, length, &key) != 0)
        return;
    for (uint64_t form = CATALOGUE_FILE_PLAIN; form <= CATALOGUE_FILE_HYPHENS; form++)
        if (catalogue_file_parse(catalogue_file_print(key, form, printed), SIZE_MAX, &again) != 0 || again != key)
            wrong("a code that was printed is another", printed);
}

int LLVMFuzzerTestOneInput(const uint8_t *data, size_t size)
{
    if (size < 3)
        return 0;
    size_t which = data[0] % COMMANDS, length;
    uint64_t key = (uint64_t)data[1] * 3;
    memcpy(damaged, base[data[1] % TABLES], sizeof damaged);
    size -= 3;
    const uint8_t *rest = damage(data + 3, &size, data[2] % 8, &length);
    size = size < MOST_TEXT ? size : MOST_TEXT;
    write_file(text, rest, size);
    write_file(class_file, rest, size);
    char word[24] = "";
    memcpy(word, rest, size < sizeof word - 1 ? size : sizeof word - 1);
    word[strcspn(word, "\n\r")] = '\0';
    parse((const char *)rest, size);
    write_file(table, damaged, length);
    run_command(which, word[0] == '-' || word[0] == '\0' ? "0" : word);
    write_file(table, damaged, length);
    read_by_calls(key);
    write_by_calls(key);
    return 0;
}
