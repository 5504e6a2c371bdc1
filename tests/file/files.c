/* Files: made, opened, locked, replaced, with a trailer and without. */
#include <fcntl.h>
#include <pthread.h>
#include <stdlib.h>
#include <string.h>
#include <sys/stat.h>
#include <time.h>
#include <unistd.h>

#include "check.h"

static void sleep_for(long milliseconds)
{
    const struct timespec t = {milliseconds / 1000, milliseconds % 1000 * 1000000};
    nanosleep(&t, NULL);
}

static bool create(void)
{
    catalogue_file *f = catalogue_file_new();
    struct stat about;
    struct catalogue_file_about what;
    GIVES(0, catalogue_file_create(f, at("made"), 7, 2));
    CHECK(stat(at("made"), &about) == 0 && about.st_size == 8 * (8 + 32 * 7 + CATALOGUE_FILE_TRAILER));
    CHECK(get_word(at("made"), 8 + 32 * 7) == CATALOGUE_FILE_FORMAT && get_word(at("made"), 8 + 32 * 7 + 1) == 0);
    GIVES(CATALOGUE_FILE_EXISTS, catalogue_file_create(f, at("made"), 8, 1));
    CHECK(strstr(catalogue_file_message(f), "made exists already"));
    GIVES(CATALOGUE_NO_TABLE, catalogue_file_create(f, at("none"), 0, 1));
    GIVES(CATALOGUE_NO_TABLE, catalogue_file_create(f, at("none"), 1, 2));
    GIVES(CATALOGUE_NO_TABLE, catalogue_file_create(f, at("none"), 65536, 1));
    GIVES(CATALOGUE_NO_COLLECTION, catalogue_file_create(f, at("none"), 5, 3));
    GIVES(CATALOGUE_FILE_DISK, catalogue_file_create(f, at("no/folder"), 5, 1));
    CHECK(catalogue_file_errno(f) == 2 && strstr(catalogue_file_message(f), "No such file"));
    GIVES(CATALOGUE_FILE_NOT_ALLOWED, catalogue_file_create(f, at("t.12.new"), 5, 1));
    CHECK(access(at("none"), F_OK) != 0);
    GIVES(0, catalogue_file_open(f, at("made"), CATALOGUE_FILE_READING, 0));
    GIVES(0, catalogue_file_about(f, &what));
    CHECK(what.nodes == 7 && what.collections == 2 && what.words == 232 && what.writing == 0 && what.trailer == 1);
    catalogue_file_free(f);
    return true;
}

/* A file of a dead program goes; one of a living one, which has it locked, stays. */
static bool files_of_dead_programs(void)
{
    catalogue_file *f = catalogue_file_new();
    int dead = open(at("new.77.new"), O_CREAT | O_WRONLY, 0666);
    CHECK(dead >= 0 && close(dead) == 0);
    GIVES(0, catalogue_file_create(f, at("new"), 2, 1));
    CHECK(access(at("new.77.new"), F_OK) != 0);
    catalogue_file_free(f);
    return true;
}

static bool write_file(const char *name, const void *bytes, size_t count)
{
    int file = open(name, O_CREAT | O_TRUNC | O_WRONLY, 0666);
    bool done = write(file, bytes, count) == (ssize_t)count;
    close(file);
    return done;
}

static bool what_is_no_table(void)
{
    catalogue_file *f = catalogue_file_new();
    static char bytes[8 * 1000];
    for (uint64_t flags = 0; flags <= 1; flags++) {
        GIVES(CATALOGUE_FILE_NO_FILE, catalogue_file_open(f, at("missing"), flags, 0));
        CHECK(catalogue_file_errno(f) == 2);
        GIVES(CATALOGUE_FILE_NOT_REGULAR, catalogue_file_open(f, at("."), flags, 0));
        if (access(at("pipe"), F_OK) != 0)
            CHECK(mkfifo(at("pipe"), 0666) == 0);
        GIVES(CATALOGUE_FILE_NOT_REGULAR, catalogue_file_open(f, at("pipe"), flags, 0));
        for (size_t length = 0; length < 1200; length += 8) {
            CHECK(write_file(at("zeros"), bytes, length));
            GIVES(CATALOGUE_NO_TABLE, catalogue_file_open(f, at("zeros"), flags, 0));
            CHECK(catalogue_file_message(f)[0] != 0);
            struct stat about;
            CHECK(stat(at("zeros"), &about) == 0 && (size_t)about.st_size == length);
        }
        GIVES(CATALOGUE_FILE_BAD_OPTION, catalogue_file_open(f, at("zeros"), 8 + flags, 0));
    }
    GIVES(CATALOGUE_FILE_BAD_OPTION, catalogue_file_open(f, at("zeros"), CATALOGUE_FILE_FAST, 0));
    GIVES(CATALOGUE_FILE_BAD_OPTION, catalogue_file_open(f, at("zeros"), CATALOGUE_FILE_FORCE, 0));
    catalogue_file_free(f);
    return true;
}

static bool headers_and_lengths(void)
{
    catalogue_file *f = catalogue_file_new();
    size_t bytes;
    CHECK(table_with(at("h"), 5, 3));
    char *all = contents(at("h"), &bytes);
    /* Another number of nodes than the length says. */
    CHECK(put_word(at("h"), 2, 4));
    for (uint64_t flags = 0; flags <= 1; flags++) {
        GIVES(CATALOGUE_NO_TABLE, catalogue_file_open(f, at("h"), flags, 0));
        CHECK(strstr(catalogue_file_message(f), "its header says 4 nodes"));
    }
    CHECK(put_word(at("h"), 2, 5));
    /* A last line of another format. */
    CHECK(put_word(at("h"), 8 + 32 * 5, 99));
    for (uint64_t flags = 0; flags <= 1; flags++)
        GIVES(CATALOGUE_NO_TABLE, catalogue_file_open(f, at("h"), flags, 0));
    /* Zeros there, as after a cut while the line was added. */
    CHECK(put_word(at("h"), 8 + 32 * 5, 0));
    GIVES(0, catalogue_file_open(f, at("h"), CATALOGUE_FILE_READING, 0));
    GIVES(0, catalogue_file_open(f, at("h"), CATALOGUE_FILE_WRITING, 0));
    CHECK(get_word(at("h"), 8 + 32 * 5) == CATALOGUE_FILE_FORMAT);
    free(all);
    catalogue_file_free(f);
    return true;
}

/* The first writer adds the trailer; a reader that had the file open before sees its changes. */
static bool without_a_trailer(void)
{
    catalogue_file *r = catalogue_file_new(), *w = catalogue_file_new();
    struct catalogue_file_pair found;
    struct catalogue_file_about what;
    struct stat about;
    size_t table = 8 * (8 + 32 * 20);
    CHECK(table_with(at("old"), 20, 60));
    CHECK(truncate(at("old"), (off_t)table) == 0);
    GIVES(0, catalogue_file_open(r, at("old"), CATALOGUE_FILE_READING, 0));
    GIVES(0, catalogue_file_about(r, &what));
    CHECK(what.trailer == 0 && what.nodes == 20);
    GIVES(0, catalogue_file_find(r, 1, 300, &found));
    CHECK(found.recording == 1300);
    CHECK(stat(at("old"), &about) == 0 && (size_t)about.st_size == table);
    GIVES(0, catalogue_file_open(w, at("old"), CATALOGUE_FILE_WRITING, 0));
    CHECK(stat(at("old"), &about) == 0 && (size_t)about.st_size == table + 64);
    CHECK(get_word(at("old"), 8 + 32 * 20) == CATALOGUE_FILE_FORMAT);
    for (uint64_t key = 301; key < 309; key++) {
        GIVES(0, catalogue_file_add(w, 1, key, 5000 + key, CATALOGUE_ROOM));
        GIVES(0, catalogue_file_find(r, 1, key, &found));
        CHECK(found.recording == 5000 + key && found.access == CATALOGUE_ROOM);
        GIVES(0, catalogue_file_remove(w, 1, key));
        GIVES(CATALOGUE_ABSENT, catalogue_file_find(r, 1, key, &found));
        CHECK(found.higher == 1 && found.next == 310);
    }
    catalogue_file_free(r);
    catalogue_file_free(w);
    return true;
}

/* A writer that was killed within a bracket leaves an odd counter; the next one makes it even. */
static bool an_odd_counter(void)
{
    catalogue_file *r = catalogue_file_new(), *w = catalogue_file_new();
    struct catalogue_file_pair found;
    size_t counter = 8 + 32 * 9 + 1;
    CHECK(table_with(at("odd"), 9, 20) && put_word(at("odd"), counter, 77) && put_word(at("odd"), counter + 1, 1));
    GIVES(0, catalogue_file_open(r, at("odd"), CATALOGUE_FILE_READING, 0));
    GIVES(0, catalogue_file_find(r, 1, 100, &found));
    CHECK(get_word(at("odd"), counter) == 77);
    GIVES(0, catalogue_file_open(w, at("odd"), CATALOGUE_FILE_WRITING, 0));
    CHECK(get_word(at("odd"), counter) == 78 && get_word(at("odd"), counter + 1) == 0);
    GIVES(0, catalogue_file_add(w, 1, 101, 9, 0));
    CHECK(get_word(at("odd"), counter) > 78 && get_word(at("odd"), counter) % 2 == 0);
    GIVES(0, catalogue_file_find(r, 1, 101, &found));
    catalogue_file_free(r);
    catalogue_file_free(w);
    return true;
}

static void *close_later(void *f)
{
    sleep_for(1300);
    catalogue_file_close(f);
    return NULL;
}

static void note(void *context)
{
    *(int *)context += 1;
}

static bool locks(void)
{
    catalogue_file *first = catalogue_file_new(), *second = catalogue_file_new(), *r = catalogue_file_new();
    struct catalogue_file_pair found;
    pthread_t thread;
    int noted = 0;
    struct catalogue_file_options options = {.flags = CATALOGUE_FILE_WRITING, .dock = CATALOGUE_FILE_DOCK, .wait = 20000, .waiting = note,
                                             .context = &noted};
    CHECK(table_with(at("locked"), 9, 20));
    GIVES(0, catalogue_file_open(first, at("locked"), CATALOGUE_FILE_WRITING, 0));
    GIVES(CATALOGUE_FILE_IN_USE, catalogue_file_open(second, at("locked"), CATALOGUE_FILE_WRITING, 0));
    GIVES(CATALOGUE_FILE_IN_USE, catalogue_file_open(second, at("locked"), CATALOGUE_FILE_WRITING, 60));
    CHECK(strstr(catalogue_file_message(second), "in use by another writer"));
    /* A reader needs no lock. */
    GIVES(0, catalogue_file_open(r, at("locked"), CATALOGUE_FILE_READING, 0));
    GIVES(0, catalogue_file_find(r, 1, 50, &found));
    CHECK(pthread_create(&thread, NULL, close_later, first) == 0);
    GIVES(0, catalogue_file_open_with(second, at("locked"), &options));
    CHECK(noted == 1);
    GIVES(0, catalogue_file_add(second, 1, 55, 55, 0));
    pthread_join(thread, NULL);
    GIVES(CATALOGUE_FILE_NOT_OPEN, catalogue_file_add(first, 1, 56, 56, 0));
    options = (struct catalogue_file_options){.flush = "no such flush"};
    GIVES(CATALOGUE_FILE_BAD_OPTION, catalogue_file_open_with(first, at("locked"), &options));
    options = (struct catalogue_file_options){.dock = 2};
    GIVES(CATALOGUE_NO_DOCK, catalogue_file_open_with(first, at("locked"), &options));
    catalogue_file_free(first);
    catalogue_file_free(second);
    catalogue_file_free(r);
    return true;
}

static bool handles_that_are_not_open(void)
{
    catalogue_file *f = catalogue_file_new();
    struct catalogue_file_pair found;
    struct catalogue_file_about what;
    struct catalogue_file_change change = {0};
    struct catalogue_file_load load = {.collection = 1};
    const uint64_t *words;
    uint64_t some = 0, report[CATALOGUE_CHECK_WORDS];
    size_t count;
    CHECK(catalogue_file_message(f)[0] == 0);
    GIVES(CATALOGUE_FILE_NOT_OPEN, catalogue_file_find(f, 1, 1, &found));
    GIVES(CATALOGUE_FILE_NOT_OPEN, catalogue_file_next(f, 1, 1, &found));
    GIVES(CATALOGUE_FILE_NOT_OPEN, catalogue_file_add(f, 1, 1, 1, 0));
    GIVES(CATALOGUE_FILE_NOT_OPEN, catalogue_file_repair(f));
    GIVES(CATALOGUE_FILE_NOT_OPEN, catalogue_file_plan(f, &change, &words));
    GIVES(CATALOGUE_FILE_NOT_OPEN, catalogue_file_table(f, &words, &count));
    GIVES(CATALOGUE_FILE_NOT_OPEN, catalogue_file_about(f, &what));
    GIVES(CATALOGUE_FILE_NOT_OPEN, catalogue_file_load(f, &load));
    GIVES(CATALOGUE_FILE_NOT_OPEN, catalogue_file_copy(f, at("never"), &some));
    GIVES(CATALOGUE_FILE_NOT_OPEN, catalogue_file_salvage(f, at("never"), NULL, NULL, &some));
    GIVES(CATALOGUE_FILE_NOT_OPEN, catalogue_file_check(f, report));
    GIVES(CATALOGUE_FILE_NOT_OPEN, catalogue_file_sync(f));
    GIVES(CATALOGUE_FILE_NOT_OPEN, catalogue_file_compare(f));
    GIVES(0, catalogue_file_close(f));
    CHECK(table_with(at("reads"), 4, 5));
    GIVES(0, catalogue_file_open(f, at("reads"), CATALOGUE_FILE_READING, 0));
    GIVES(CATALOGUE_FILE_NOT_WRITING, catalogue_file_add(f, 1, 1, 1, 0));
    GIVES(CATALOGUE_FILE_NOT_WRITING, catalogue_file_remove(f, 1, 10));
    GIVES(CATALOGUE_FILE_NOT_WRITING, catalogue_file_set_class(f, 1, 10, 1));
    GIVES(CATALOGUE_FILE_NOT_WRITING, catalogue_file_repair(f));
    GIVES(CATALOGUE_FILE_NOT_WRITING, catalogue_file_load(f, &load));
    GIVES(CATALOGUE_FILE_NOT_WRITING, catalogue_file_sync(f));
    CHECK(catalogue_file_outcome(f) == CATALOGUE_FILE_NOT_MADE);
    catalogue_file_free(f);
    catalogue_file_free(NULL);
    return true;
}

/* Rights to write that the file itself withholds hold for the superuser too. */
static bool read_only(void)
{
    catalogue_file *f = catalogue_file_new();
    struct catalogue_file_pair found;
    CHECK(table_with(at("ro"), 4, 5) && chmod(at("ro"), 0444) == 0);
    GIVES(CATALOGUE_FILE_NOT_ALLOWED, catalogue_file_open(f, at("ro"), CATALOGUE_FILE_WRITING, 0));
    GIVES(0, catalogue_file_open(f, at("ro"), CATALOGUE_FILE_READING, 0));
    GIVES(0, catalogue_file_find(f, 1, 50, &found));
    GIVES(CATALOGUE_ABSENT, catalogue_file_find(f, 1, 51, &found));
    CHECK(found.higher == 0);
    catalogue_file_free(f);
    return true;
}

/* A stranger's rename is noticed after some milliseconds by a reader, before the next store by a writer. */
static bool replaced_by_a_stranger(void)
{
    catalogue_file *r = catalogue_file_new(), *w = catalogue_file_new();
    struct catalogue_file_pair found;
    CHECK(table_with(at("place"), 9, 10) && table_with(at("other"), 30, 40));
    GIVES(0, catalogue_file_open(r, at("place"), CATALOGUE_FILE_READING, 0));
    GIVES(0, catalogue_file_open(w, at("place"), CATALOGUE_FILE_WRITING, 0));
    GIVES(CATALOGUE_ABSENT, catalogue_file_find(r, 1, 400, &found));
    CHECK(rename(at("other"), at("place")) == 0);
    sleep_for(80);
    GIVES(0, catalogue_file_find(r, 1, 400, &found));
    CHECK(found.recording == 1400);
    GIVES(CATALOGUE_FILE_REPLACED, catalogue_file_add(w, 1, 5, 5, 0));
    CHECK(catalogue_file_outcome(w) == CATALOGUE_FILE_NOT_MADE);
    GIVES(CATALOGUE_FILE_REPLACED, catalogue_file_add(w, 1, 5, 5, 0));
    GIVES(CATALOGUE_ABSENT, catalogue_file_find(r, 1, 5, &found));
    GIVES(0, catalogue_file_open(w, at("place"), CATALOGUE_FILE_WRITING, 0));
    GIVES(0, catalogue_file_add(w, 1, 5, 5, 0));
    GIVES(0, catalogue_file_find(r, 1, 5, &found));
    CHECK(unlink(at("place")) == 0);
    sleep_for(80);
    GIVES(CATALOGUE_FILE_REPLACED, catalogue_file_find(r, 1, 5, &found));
    GIVES(CATALOGUE_FILE_REPLACED, catalogue_file_remove(w, 1, 5));
    CHECK(table_with(at("place"), 3, 1));
    GIVES(0, catalogue_file_find(r, 1, 10, &found));
    GIVES(CATALOGUE_ABSENT, catalogue_file_find(r, 1, 5, &found));
    catalogue_file_free(r);
    catalogue_file_free(w);
    return true;
}

/* A handle finds its file by a name of another working folder. */
static bool another_folder(void)
{
    catalogue_file *r = catalogue_file_new(), *w = catalogue_file_new();
    struct catalogue_file_pair found;
    char *here = getcwd(NULL, 0);
    CHECK(table_with(at("rel"), 9, 10) && chdir(at(".")) == 0);
    GIVES(0, catalogue_file_open(r, "rel", CATALOGUE_FILE_READING, 0));
    GIVES(0, catalogue_file_open(w, "rel", CATALOGUE_FILE_WRITING, 0));
    CHECK(chdir(here) == 0);
    sleep_for(80);
    GIVES(0, catalogue_file_find(r, 1, 100, &found));
    GIVES(0, catalogue_file_add(w, 1, 101, 1, 0));
    GIVES(CATALOGUE_KEY_PRESENT, catalogue_file_add(w, 1, 101, 1, 0));
    CHECK(strncmp(catalogue_file_message(w), "rel: ", 5) == 0);
    free(here);
    catalogue_file_free(r);
    catalogue_file_free(w);
    return true;
}

const struct test files_tests[] = {
    {"create", create},
    {"files of dead programs", files_of_dead_programs},
    {"what is no table", what_is_no_table},
    {"headers and lengths", headers_and_lengths},
    {"without a trailer", without_a_trailer},
    {"an odd counter", an_odd_counter},
    {"locks", locks},
    {"handles that are not open", handles_that_are_not_open},
    {"read-only", read_only},
    {"replaced by a stranger", replaced_by_a_stranger},
    {"another folder", another_folder},
    {NULL, NULL},
};
