/* The lines of a file that people or other programs write, in UTF-8 or UTF-16. */
#include "rows.h"

#include <errno.h>
#include <fcntl.h>
#include <poll.h>
#include <stdio.h>
#include <string.h>
#include <sys/stat.h>
#include <unistd.h>

bool rows_open(struct rows *r, const char *name)
{
    bool standard = strcmp(name, "-") == 0;
    *r = (struct rows){.name = standard ? "standard input" : name};
    r->file = standard ? STDIN_FILENO : open(name, O_RDONLY | O_CLOEXEC);
    return r->file >= 0;
}

bool rows_of_text(struct rows *r, const char *name, const char *text)
{
    *r = (struct rows){.name = name, .file = -1, .end = strlen(text)};
    if (r->end > sizeof r->part)
        return false;
    memcpy(r->part, text, r->end);
    return true;
}

void rows_close(struct rows *r)
{
    if (r->file > STDIN_FILENO)
        close(r->file);
}

/* A signal has come. The reading of a line that has no end would not notice it: its bytes are always there. */
static bool is_ended(const struct rows *r)
{
    return r->ended && *r->ended != 0;
}

uint64_t rows_count(const struct rows *r)
{
    struct stat about;
    off_t start = lseek(r->file, 0, SEEK_CUR);
    if (fstat(r->file, &about) != 0 || !S_ISREG(about.st_mode) || start < 0)
        return 0;
    char part[65536];
    uint64_t lines = 0;
    bool open_line = false;
    /* Where the reading goes on is left as it is. */
    for (ssize_t got; !is_ended(r) && (got = pread(r->file, part, sizeof part, start)) > 0; start += got) {
        open_line = part[got - 1] != '\n';
        for (const char *at = part; (at = memchr(at, '\n', (size_t)(part + got - at))); at++)
            lines++;
    }
    return lines + open_line;
}

/* More of the file behind what is there of it; false at its end, or if it cannot be read, or is to be read no further. */
static bool read_more(struct rows *r)
{
    if (r->file < 0)
        return false;
    if (is_ended(r)) {
        r->failed = EINTR;
        return false;
    }
    memmove(r->part, r->part + r->at, r->end - r->at);
    r->end -= r->at;
    r->at = 0;
    ssize_t got = read(r->file, r->part + r->end, sizeof r->part - r->end);
    if (got < 0)
        r->failed = errno;
    r->end += got > 0 ? (size_t)got : 0;
    return got > 0;
}

static int raw_byte(struct rows *r)
{
    return r->at < r->end || read_more(r) ? (unsigned char)r->part[r->at++] : EOF;
}

/* ---- UTF-16 */

/* A mark at the file's beginning, or a zero in one of its first two bytes, which are no zeros in UTF-8. */
static enum wide wide_of(struct rows *r)
{
    while (r->end - r->at < 2 && read_more(r))
        ;
    if (r->end - r->at < 2)
        return WIDE_NOT;
    unsigned char first = (unsigned char)r->part[r->at], second = (unsigned char)r->part[r->at + 1];
    if ((first == 0xff && second == 0xfe) || (first == 0xfe && second == 0xff)) {
        r->at += 2;
        return first == 0xff ? WIDE_LITTLE : WIDE_BIG;
    }
    return first != 0 && second == 0 ? WIDE_LITTLE : first == 0 && second != 0 ? WIDE_BIG : WIDE_NOT;
}

/* The next unit of two bytes; EOF at the end, also in the midst of one. */
static long unit(struct rows *r)
{
    int first = raw_byte(r), second = first == EOF ? EOF : raw_byte(r);
    if (second == EOF)
        return EOF;
    return r->wide == WIDE_LITTLE ? first | second << 8 : first << 8 | second;
}

/* The next character, of one unit or two; half of two is the replacement character. */
static long wide_character(struct rows *r)
{
    long first = unit(r), second;
    if (first < 0xd800 || first > 0xdfff)
        return first;
    if (first > 0xdbff || (second = unit(r)) < 0xdc00 || second > 0xdfff)
        return 0xfffd;
    return 0x10000 + ((first - 0xd800) << 10) + (second - 0xdc00);
}

/* The same in UTF-8; false at the end. */
static bool make_character(struct rows *r)
{
    long c = wide_character(r);
    int more = c < 0x80 ? 0 : c < 0x800 ? 1 : c < 0x10000 ? 2 : 3;
    static const unsigned char first[] = {0, 0xc0, 0xe0, 0xf0};
    r->given = 0;
    r->made = 0;
    if (c == EOF)
        return false;
    r->character[r->made++] = (unsigned char)(first[more] | c >> 6 * more);
    while (more-- > 0)
        r->character[r->made++] = (unsigned char)(0x80 | (c >> 6 * more & 0x3f));
    return true;
}

static int next_byte(struct rows *r)
{
    if (r->wide == WIDE_UNKNOWN)
        r->wide = wide_of(r);
    if (r->wide == WIDE_NOT)
        return raw_byte(r);
    return r->given < r->made || make_character(r) ? r->character[r->given++] : EOF;
}

/* ---- lines */

bool rows_wait(struct rows *r)
{
    struct pollfd there = {.fd = r->file, .events = POLLIN};
    while (r->end - r->at < sizeof r->part && !memchr(r->part + r->at, '\n', r->end - r->at)) {
        if (poll(&there, 1, 0) == 0)
            return true;
        if (!read_more(r))
            return false;
    }
    return false;
}

/* A line behind what is there of one; false at the end of the file. */
static bool read_line(struct rows *r)
{
    int c = r->failed ? EOF : next_byte(r);
    if (c == EOF)
        return false;
    r->number++;
    for (; c != EOF && c != '\n'; c = next_byte(r)) {
        if (r->length < ROW_ROOM)
            r->text[r->length++] = (char)c;
        else
            r->too_long = true;
    }
    /* Half a line is none. */
    if (r->failed) {
        r->number--;
        return false;
    }
    if (r->length > 0 && r->text[r->length - 1] == '\r')
        r->length--;
    return true;
}

bool rows_next(struct rows *r)
{
    static const char byte_order_mark[] = "\xef\xbb\xbf";
    r->length = 0;
    r->too_long = false;
    if (!read_line(r))
        return false;
    if (r->number == 1 && r->length >= 3 && memcmp(r->text, byte_order_mark, 3) == 0)
        memmove(r->text, r->text + 3, r->length -= 3);
    return true;
}

bool rows_join(struct rows *r)
{
    if (r->too_long || r->length == ROW_ROOM)
        return false;
    r->text[r->length++] = '\n';
    return read_line(r) && !r->too_long;
}

const char *rows_text(const char *from, size_t length, char text[ROW_TEXT])
{
    size_t shown = length < ROW_TEXT - 3 ? length : ROW_TEXT - 3;
    for (size_t i = 0; i < shown; i++) {
        unsigned char c = (unsigned char)from[i];
        text[i] = c < ' ' || c == 127 ? '?' : (char)c;
    }
    strcpy(text + shown, shown < length ? ".." : "");
    return text;
}
