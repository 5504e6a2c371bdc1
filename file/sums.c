/* The file of sums beside a table: a sum for each line of the header and the nodes, and two journals. */
#include "sums.h"

#include <errno.h>
#include <fcntl.h>
#include <stdio.h>
#include <stdlib.h>
#include <string.h>
#include <sys/random.h>
#include <unistd.h>

#include "mapping.h"
#include "newfile.h"

#define ENDING ".sums"
#define NEXT_ENDING ".sums.next"

/* Words of the first line; the last of them is the sum of those before. */
enum { HEAD_FORMAT, HEAD_IDENTITY, HEAD_LINES, HEAD_SUM = 7 };

#define NODE_LINES (NODE_WORDS / LINE_WORDS)

/* Looks at the trailer and the two names. */
#define MOST_LOOKS 3

static uint64_t lines_of(const struct catalogue_file *f)
{
    return f->words / LINE_WORDS;
}

static size_t words_with(uint64_t lines)
{
    size_t entries = (size_t)(lines + 1) / 2;
    return SUMS_ENTRIES + (entries + LINE_WORDS - 1) / LINE_WORDS * LINE_WORDS;
}

uint64_t sums_node(uint64_t line)
{
    return line == 0 ? 0 : (line - 1) / NODE_LINES + 1;
}

static uint64_t *trailer_word(const struct catalogue_file *f, int word)
{
    return &f->mapped[f->words + word];
}

/* ---- opening */

/* The name beside the table, to be freed; a link's is beside the table that it leads to. Null, with errno. */
static char *name_beside(const struct catalogue_file *f, const char *ending)
{
    char *place = realpath(f->path, NULL), *name = NULL;
    if (place && asprintf(&name, "%s%s", place, ending) < 0)
        name = NULL;
    free(place);
    return name;
}

/* The mapped words are the sums of this table. */
static bool is_ours(const struct catalogue_file *f, const uint64_t *words)
{
    const struct sums *s = &f->sums;
    return words[HEAD_FORMAT] == SUMS_FORMAT && words[HEAD_SUM] == s->crc->words(words, HEAD_SUM) && words[HEAD_LINES] == s->lines
           && words[HEAD_IDENTITY] == s->identity && s->identity != 0;
}

/* Maps an open file if it is the table's; errno is 0 if it is another. */
static bool map_file(struct catalogue_file *f, int file)
{
    struct sums *s = &f->sums;
    struct stat about;
    size_t words = words_with(s->lines);
    if (fstat(file, &about) != 0)
        return false;
    errno = f->writing && (about.st_mode & (S_IWUSR | S_IWGRP | S_IWOTH)) == 0 ? EACCES : 0;
    if (errno != 0 || !S_ISREG(about.st_mode) || (uint64_t)about.st_size != words * sizeof(uint64_t))
        return false;
    if (f->writing && !fill_holes(file, &about, words * sizeof(uint64_t)))
        return false;
    uint64_t *mapped = map_words(file, words, f->writing, &s->persistent);
    if (!mapped)
        return false;
    if (is_ours(f, mapped)) {
        s->mapped = mapped;
        s->words = words;
        return true;
    }
    unmap_words(mapped, words);
    errno = 0;
    return false;
}

static bool has_format(int file)
{
    uint64_t first = 0;
    return pread(file, &first, sizeof first, 0) == sizeof first && first == SUMS_FORMAT;
}

/*
 * Whether there is a file of sums of that name; it is mapped if it is the table's. What lies beside a table whose trailer says that it has none may be
 * anything, unless it has the format.
 */
static bool try_name(struct catalogue_file *f, const char *ending)
{
    char *name = name_beside(f, ending);
    errno = name ? 0 : errno;
    int file = name ? open(name, (f->writing ? O_RDWR : O_RDONLY) | O_CLOEXEC | O_NONBLOCK) : -1;
    bool there = file >= 0 || (errno != ENOENT && errno != ENOTDIR);
    if (f->sums.identity == 0)
        there = file >= 0 && has_format(file);
    errno = there && file >= 0 ? 0 : errno;
    if (there && file >= 0)
        map_file(f, file);
    f->sums.why = there && !f->sums.mapped ? errno : 0;
    if (file >= 0)
        close(file);
    free(name);
    return there;
}

/*
 * Whether there is a file of sums. One under the other name is the table's if a change of files was cut off; it has its own name soon, if one is
 * going on. A writer gives it that.
 */
static bool try_names(struct catalogue_file *f)
{
    struct sums *s = &f->sums;
    bool there = try_name(f, ENDING);
    int why = s->why;
    if (s->mapped || s->identity == 0)
        return there;
    there |= try_name(f, NEXT_ENDING) && s->mapped;
    s->why = s->mapped ? 0 : why;
    if (s->mapped && f->writing)
        sums_put(f);
    return there;
}

uint64_t sums_open(struct catalogue_file *f)
{
    struct sums *s = &f->sums;
    sums_close(f);
    s->crc = crc_best();
    s->lines = lines_of(f);
    bool there = true;
    /* If they are being switched, or the file replaced, at this moment, the trailer and the names go together a moment later. */
    for (int looks = 0; looks < MOST_LOOKS && !s->mapped && (there || s->identity != 0); looks++) {
        s->identity = shared_load(trailer_word(f, TRAILER_SUMS));
        there = try_names(f);
    }
    s->trouble = there && !s->mapped ? CATALOGUE_FILE_BAD_SUMS : 0;
    s->room = s->mapped ? malloc(3 * JOURNAL_WORDS * sizeof *s->room) : NULL;
    if (!s->mapped || s->room)
        return 0;
    sums_close(f);
    /* Nor is a change made without them: a writer is refused until it is opened again, a reader's next call tries again. */
    s->trouble = CATALOGUE_FILE_BAD_SUMS;
    s->why = ENOMEM;
    return no_memory(f);
}

void sums_close(struct catalogue_file *f)
{
    unmap_words(f->sums.mapped, f->sums.words);
    free(f->sums.room);
    f->sums = (struct sums){0};
}

static uint64_t does_not_fit(struct catalogue_file *f, uint64_t number, uint64_t node)
{
    char where[40] = "the header";
    if (node != 0)
        snprintf(where, sizeof where, "node %u", (unsigned)node);
    return fails(f, number, "%s: %s does not fit its sum: %s", f->name, where, catalogue_file_strerror(number));
}

uint64_t sums_refuse(struct catalogue_file *f)
{
    const struct sums *s = &f->sums;
    errno = s->why;
    if (s->trouble == CATALOGUE_FILE_BAD_SUMS && s->why != 0)
        return fails_for(f, s->trouble, "%s" ENDING " cannot be used", f->name);
    if (s->trouble == CATALOGUE_FILE_BAD_SUMS)
        return fails(f, s->trouble, "%s" ENDING " is not the file of sums of %s, or is damaged", f->name, f->name);
    return s->trouble == 0 ? 0 : does_not_fit(f, s->trouble, s->node);
}

/* ---- a line's sum */

static uint32_t entry_of(const struct sums *s, uint64_t line)
{
    return (uint32_t)(shared_load(&s->mapped[SUMS_ENTRIES + line / 2]) >> line % 2 * 32);
}

static void set_entry(const struct sums *s, uint64_t line, uint32_t sum)
{
    uint64_t *word = &s->mapped[SUMS_ENTRIES + line / 2], at = line % 2 * 32;
    shared_store(word, (shared_load(word) & ~(UINT64_C(0xffffffff) << at)) | (uint64_t)sum << at);
}

/* Both journals as they are read, the later one first; one that does not hold is all zeros as far as it is looked at. */
struct journals {
    const uint64_t *last, *before;
    unsigned slot; /* of the last */
};

static void read_journal(const struct sums *s, unsigned slot, uint64_t *journal)
{
    const uint64_t *from = s->mapped + SUMS_JOURNALS + slot * JOURNAL_WORDS;
    for (size_t i = 0; i < JOURNAL_WORDS; i++)
        journal[i] = shared_load(&from[i]);
    if (!journal_holds(journal, s->crc))
        memset(journal, 0, JOURNAL_HEAD * sizeof *journal);
}

static struct journals read_journals(const struct sums *s)
{
    uint64_t *one = s->room, *two = one + JOURNAL_WORDS;
    read_journal(s, 0, one);
    read_journal(s, 1, two);
    bool first = one[JOURNAL_NUMBER] >= two[JOURNAL_NUMBER];
    return (struct journals){first ? one : two, first ? two : one, !first};
}

static uint32_t sum_of(const struct sums *s, uint64_t line, const uint64_t *words)
{
    uint32_t sum;
    s->crc->lines(words, line, 1, &sum);
    return sum;
}

/* The change before the last has left these words, and the sum that they got may not have reached the disk. */
static bool is_left_before(const struct sums *s, const uint64_t *before, uint64_t line, const uint64_t *words)
{
    uint64_t after[LINE_WORDS];
    return journal_says(before, line, words, after) == JOURNAL_AFTER && sum_of(s, line, journal_before(before, line)) == entry_of(s, line);
}

/*
 * Words of a line that are not those of its sum: the last change, which is under way or was cut off, has left them, or the one before it has. Once the
 * line has the sum of what it is after the last change, that change has left nothing else.
 */
static bool is_underway(const struct sums *s, uint64_t line, const uint64_t *words)
{
    struct journals j = read_journals(s);
    uint64_t after[LINE_WORDS];
    switch (journal_says(j.last, line, words, after)) {
    case JOURNAL_AFTER:
        return true;
    case JOURNAL_MEANWHILE:
        return sum_of(s, line, after) != entry_of(s, line) || is_left_before(s, j.before, line, words);
    case JOURNAL_SILENT:
        return is_left_before(s, j.before, line, words);
    default:
        return false;
    }
}

bool sums_fit(const void *sums, const uint64_t *words, uint64_t first, size_t count)
{
    const struct sums *s = sums;
    uint32_t found[NODE_LINES];
    for (size_t at = 0; at < count; at += NODE_LINES) {
        size_t some = count - at < NODE_LINES ? count - at : NODE_LINES;
        s->crc->lines(words + LINE_WORDS * at, first + at, some, found);
        for (size_t i = 0; i < some; i++)
            if (found[i] != entry_of(s, first + at + i) && !is_underway(s, first + at + i, words + LINE_WORDS * (at + i)))
                return false;
    }
    return true;
}

bool sums_judge(const struct sums *s, const uint64_t *words, uint64_t line, struct catalogue_file_doubt *doubt)
{
    uint32_t found;
    if (sums_fit(s, words, line, 1))
        return true;
    s->crc->lines(words, line, 1, &found);
    *doubt = (struct catalogue_file_doubt){sums_node(line), line == 0 ? 0 : (line - 1) % NODE_LINES, entry_of(s, line), found};
    return false;
}

uint64_t sums_verdict(const struct sums *s, uint64_t counter)
{
    struct journals j = read_journals(s);
    bool passed_by = j.last[JOURNAL_NUMBER] != 0 && counter > j.last[JOURNAL_TO];
    return passed_by ? CATALOGUE_FILE_UNSUMMED : CATALOGUE_FILE_DECAYED;
}

bool sums_refused(uint64_t number)
{
    return number == CATALOGUE_FILE_DECAYED || number == CATALOGUE_FILE_UNSUMMED || number == CATALOGUE_FILE_BAD_SUMS;
}

uint64_t sums_doubt(struct catalogue_file *f, uint64_t node, uint64_t counter)
{
    f->sums.counter = counter;
    return does_not_fit(f, sums_verdict(&f->sums, counter), node);
}

/* ---- a writer's */

static bool by_instruction(const struct catalogue_file *f)
{
    return f->persistent && f->sums.persistent;
}

/* Words of a journal or of the entries last before later stores. A wait for the disk is for all that was stored. False, with errno. */
static bool keep(struct catalogue_file *f, uint64_t *words, size_t count)
{
    uint64_t *line = words - (words - f->sums.mapped) % LINE_WORDS;
    if (!by_instruction(f))
        return f->fast || sums_sync(f);
    for (; line < words + count; line += LINE_WORDS)
        if (!f->carrying.flush->line(line))
            return false;
    return true;
}

/* After a failed wait the system takes the pages for written: they are stored to again, so that the next wait is for all of them. */
static void store_again(const struct sums *s)
{
    size_t page = (size_t)sysconf(_SC_PAGESIZE) / sizeof(uint64_t);
    for (size_t at = 0; at < s->words; at += page)
        shared_store(&s->mapped[at], shared_load(&s->mapped[at]));
}

bool sums_sync(struct catalogue_file *f)
{
    const struct sums *s = &f->sums;
    if (!s->mapped || by_instruction(f) || flush_pages(s->mapped, s->words * sizeof *s->mapped))
        return true;
    int why = errno;
    store_again(s);
    errno = why;
    return false;
}

static uint64_t not_kept(struct catalogue_file *f)
{
    return fails_for(f, CATALOGUE_FILE_DISK, "%s" ENDING " did not reach the disk", f->name);
}

/* The entries of a journal's lines last, whatever the writer before has done for it. */
static bool keep_entries(struct catalogue_file *f, const uint64_t *journal)
{
    bool kept = true;
    for (uint64_t at = 0; kept && by_instruction(f) && at < journal[JOURNAL_LINES]; at++) {
        uint64_t words[LINE_WORDS], line = journal_after(journal, at, words);
        kept = keep(f, &f->sums.mapped[SUMS_ENTRIES + line / 2], 1);
    }
    return kept;
}

/* Every line of the copy fits, or gets the sum of what a cut has left of it. */
static bool take_lines(struct catalogue_file *f)
{
    struct sums *s = &f->sums;
    uint32_t sum;
    for (uint64_t line = 0; line < s->lines; line++) {
        const uint64_t *words = f->expected + LINE_WORDS * line;
        s->crc->lines(words, line, 1, &sum);
        if (sum == entry_of(s, line))
            continue;
        s->node = sums_node(line);
        if (!is_underway(s, line, words))
            return false;
        set_entry(s, line, sum);
    }
    return true;
}

uint64_t sums_take(struct catalogue_file *f)
{
    struct sums *s = &f->sums;
    uint64_t *counter = trailer_word(f, TRAILER_COUNTER);
    if (!s->mapped)
        return 0;
    s->trouble = take_lines(f) ? 0 : sums_verdict(s, shared_load(counter));
    if (s->trouble != 0)
        return 0;
    struct journals j = read_journals(s);
    s->slot = 1 - j.slot;
    s->number = j.last[JOURNAL_NUMBER] + 1;
    /* A cut may have brought the counter back. */
    if (shared_load(counter) < j.last[JOURNAL_TO])
        shared_store(counter, j.last[JOURNAL_TO]);
    /* The journal before the last is overwritten next: from now on nothing rests on it. */
    bool kept = keep_entries(f, j.last) && keep_entries(f, j.before) && keep(f, s->mapped, 0);
    return kept ? 0 : not_kept(f);
}

/* How many brackets carrying out these orders takes. */
static uint64_t brackets_in(const uint64_t *orders, uint64_t count, enum brackets brackets)
{
    uint64_t begun = 0;
    bool open = false;
    for (uint64_t i = 0; i < count; i++) {
        bool flush = orders[2 * i] == CATALOGUE_MARK, store = !flush && orders[2 * i] != CATALOGUE_BARRIER;
        begun += store && !open;
        open = (open || store) && brackets != BRACKET_STORE && !(flush && brackets == BRACKET_FLUSH);
    }
    return begun;
}

uint64_t sums_before(struct catalogue_file *f, const uint64_t *orders, uint64_t count, enum brackets brackets, uint64_t *taken)
{
    struct sums *s = &f->sums;
    *taken = count;
    if (!s->mapped)
        return 0;
    uint64_t *journal = s->room + 2 * JOURNAL_WORDS, *slot = s->mapped + SUMS_JOURNALS + s->slot * JOURNAL_WORDS;
    uint64_t from = shared_load(trailer_word(f, TRAILER_COUNTER));
    *taken = journal_make(journal, s->number, f->mapped, orders, count);
    if (*taken == 0)
        return refuses(f, CATALOGUE_SHORT_LIST);
    journal_finish(journal, s->crc, from, from + 2 * brackets_in(orders, *taken, brackets));
    for (size_t i = 0; i < journal_size(journal); i++)
        shared_store(&slot[i], journal[i]);
    if (!keep(f, slot, journal_size(journal)))
        return not_kept(f);
    s->slot = 1 - s->slot;
    s->number++;
    return 0;
}

void sums_after(struct catalogue_file *f)
{
    const struct sums *s = &f->sums;
    if (!s->mapped)
        return;
    const uint64_t *journal = s->room + 2 * JOURNAL_WORDS;
    for (uint64_t at = 0; at < journal[JOURNAL_LINES]; at++) {
        uint64_t words[LINE_WORDS], line = journal_after(journal, at, words);
        uint32_t sum;
        s->crc->lines(words, line, 1, &sum);
        set_entry(s, line, sum);
        if (by_instruction(f))
            keep(f, &s->mapped[SUMS_ENTRIES + line / 2], 1);
    }
}

/* ---- a new one */

static uint64_t *make_words(const struct crc *crc, const uint64_t *table, uint64_t lines, uint64_t identity, uint64_t counter)
{
    uint64_t *words = calloc(words_with(lines), sizeof *words), *journal = words + SUMS_JOURNALS;
    if (!words)
        return NULL;
    words[HEAD_FORMAT] = SUMS_FORMAT;
    words[HEAD_IDENTITY] = identity;
    words[HEAD_LINES] = lines;
    words[HEAD_SUM] = crc->words(words, HEAD_SUM);
    /* A journal of no stores: the counter that the sums are of. */
    journal_make(journal, 1, table, NULL, 0);
    journal_finish(journal, crc, counter, counter);
    for (uint64_t line = 0; line < lines; line++) {
        uint32_t sum;
        crc->lines(table + LINE_WORDS * line, line, 1, &sum);
        words[SUMS_ENTRIES + line / 2] |= (uint64_t)sum << line % 2 * 32;
    }
    return words;
}

bool sums_prepare(struct catalogue_file *f, const uint64_t *words, uint64_t identity, uint64_t counter)
{
    uint64_t *made = make_words(crc_best(), words, lines_of(f), identity, counter);
    char *name = made ? name_beside(f, NEXT_ENDING) : NULL;
    bool done = name && put_file(name, f->file, made, words_with(lines_of(f)));
    int why = errno;
    free(name);
    free(made);
    errno = why;
    return done;
}

bool sums_taken(const struct catalogue_file *f)
{
    char *name = name_beside(f, ENDING);
    bool taken = name && faccessat(AT_FDCWD, name, F_OK, AT_SYMLINK_NOFOLLOW) == 0;
    free(name);
    return taken;
}

bool sums_put(struct catalogue_file *f)
{
    char *from = name_beside(f, NEXT_ENDING), *to = name_beside(f, ENDING);
    bool done = from && to && rename(from, to) == 0;
    int why = errno;
    free(from);
    free(to);
    errno = why;
    return done;
}

bool sums_drop(struct catalogue_file *f)
{
    bool done = true;
    const char *const endings[] = {NEXT_ENDING, ENDING};
    for (int i = 0; done && i < 2; i++) {
        char *name = name_beside(f, endings[i]);
        done = name && (unlink(name) == 0 || errno == ENOENT);
        free(name);
    }
    return done;
}

uint64_t sums_identity(void)
{
    uint64_t word = 0;
    while (word == 0)
        if (getrandom(&word, sizeof word, 0) != sizeof word && errno != EINTR)
            word = (uint64_t)getpid();
    return word;
}
