/* The lines of a spreadsheet's export, or of a file that people write: code, recording and perhaps class, among other columns. */
#include "sheet.h"

#include <string.h>
#include <strings.h>

#include "text.h"

/* Fields that are looked at; those behind them are passed over. */
#define MOST_FIELDS 256

struct field {
    const char *from, *to;
};

struct fields {
    struct field of[MOST_FIELDS];
    int count;
    bool open; /* the last one has a quote that is not closed */
};

/* ---- --columns */

static const char *const names[COLUMNS] = {"code", "recording", "class"};

static int column_named(const char *from, size_t length)
{
    int i = 0;
    while (i < COLUMNS && (strlen(names[i]) != length || strncasecmp(names[i], from, length) != 0))
        i++;
    return i;
}

bool columns_read(struct columns *c, const char *text)
{
    *c = (struct columns){0};
    for (const char *at = text, *end; at; at = *end ? end + 1 : NULL) {
        end = strchrnul(at, ',');
        const char *equals = memchr(at, '=', (size_t)(end - at));
        int column = equals ? column_named(at, (size_t)(equals - at)) : COLUMNS;
        if (column == COLUMNS || equals + 1 == end)
            return false;
        c->name[column] = equals + 1;
        c->length[column] = (size_t)(end - equals - 1);
        if (read_number(c->name[column], c->length[column], &c->number[column])) {
            c->name[column] = NULL;
            if (c->number[column] == 0 || c->number[column] > MOST_FIELDS)
                return false;
        }
    }
    bool both = true;
    for (int i = CODE_COLUMN; i <= RECORDING_COLUMN; i++)
        both = both && (c->name[i] || c->number[i] > 0);
    return both;
}

/* ---- fields */

static size_t length_of(struct field f)
{
    return (size_t)(f.to - f.from);
}

static bool blank(char c)
{
    return c == ' ' || c == '\t';
}

static struct field trimmed(struct field f)
{
    while (f.from < f.to && blank(*f.from))
        f.from++;
    while (f.to > f.from && blank(f.to[-1]))
        f.to--;
    return f;
}

/* A field from here on, without quotes and the spaces around it; where it ends. *open: its quote is not closed. */
static const char *read_field(const char *at, const char *end, char separator, struct field *f, bool *open)
{
    while (at < end && blank(*at) && *at != separator)
        at++;
    const char *from = at;
    *open = false;
    if (at < end && *at == '"') {
        /* Two quotes are one of the text. */
        for (at++; at < end && (*at != '"' || (at + 1 < end && at[1] == '"')); at++)
            at += *at == '"';
        *open = at >= end;
        *f = trimmed((struct field){from + 1, at < end ? at : end});
        from = at < end ? at + 1 : end;
    }
    const char *next = memchr(from, separator, (size_t)(end - from));
    next = next ? next : end;
    /* What stands behind a quote belongs to the field, which is no code or number then. */
    struct field rest = trimmed((struct field){from, next});
    if (from == at || rest.from < rest.to)
        *f = from == at ? rest : (struct field){f->from - 1, rest.to};
    return next;
}

static void split(const struct rows *r, char separator, struct fields *fields)
{
    const char *at = r->text, *end = r->text + r->length;
    fields->count = 0;
    fields->open = false;
    for (bool more = true; more && fields->count < MOST_FIELDS; at++) {
        at = read_field(at, end, separator, &fields->of[fields->count++], &fields->open);
        more = at < end;
    }
    /* A spreadsheet writes empty fields at the end of a short line. */
    while (fields->count > 1 && length_of(fields->of[fields->count - 1]) == 0)
        fields->count--;
}

/* The field of a column; empty if the line has none there. */
static struct field field_of(const struct fields *fields, int column)
{
    return column >= 0 && column < fields->count ? fields->of[column] : (struct field){"", ""};
}

/* ---- the first line */

static bool has_digit(struct field f)
{
    while (f.from < f.to && (*f.from < '0' || *f.from > '9'))
        f.from++;
    return f.from < f.to;
}

/* Whether a field of the first line is called so, whatever stands between its letters. */
static bool is_called(struct field f, const char *name, size_t length)
{
    size_t at = 0;
    for (const char *c = f.from; c < f.to; c++) {
        char small = *c >= 'A' && *c <= 'Z' ? (char)(*c - 'A' + 'a') : *c;
        if (small < 'a' || small > 'z')
            continue;
        if (at == length || name[at] != small)
            return false;
        at++;
    }
    return at == length && length > 0;
}

/* The column with the first of its usual names that is there; -1 for none. A mere number may be that of the row, and is no such name. */
static int usual_place(const struct fields *fields, enum column c)
{
    static const char *const usual[COLUMNS][5] = {
        {"isrc", "isrccode", "code"},
        {"recording", "recordingnumber", "recordingno", "recordingnr", "recordingid"},
        {"class", "access", "accessclass"},
    };
    for (size_t name = 0; name < sizeof usual[0] / sizeof usual[0][0] && usual[c][name]; name++)
        for (int i = 0; i < fields->count; i++)
            if (is_called(fields->of[i], usual[c][name], strlen(usual[c][name])))
                return i;
    return -1;
}

static bool same_text(struct field f, const char *name, size_t length)
{
    return length_of(f) == length && strncasecmp(f.from, name, length) == 0;
}

/* The place of a column by its name in the first line, asked for or usual; -1 if there is none. */
static int place_of(const struct sheet *s, const struct fields *fields, enum column c)
{
    int i = 0;
    if (!s->asked->name[c])
        return usual_place(fields, c);
    while (i < fields->count && !same_text(fields->of[i], s->asked->name[c], s->asked->length[c]))
        i++;
    return i < fields->count ? i : -1;
}

/* The columns by the names in the first line: true if it names code or recording and both are known. A name that is missed is kept. */
static bool by_names(struct sheet *s, const struct fields *fields)
{
    bool named = false;
    s->missing = NULL;
    for (int c = 0; c < COLUMNS; c++) {
        bool numbered = s->asked->number[c] > 0;
        s->column[c] = numbered ? (int)s->asked->number[c] - 1 : place_of(s, fields, (enum column)c);
        named = named || (!numbered && c != CLASS_COLUMN && s->column[c] >= 0);
        if (s->asked->name[c] && s->column[c] < 0) {
            s->missing = s->asked->name[c];
            s->missing_length = s->asked->length[c];
        }
    }
    return named && !s->missing && s->column[CODE_COLUMN] >= 0 && s->column[RECORDING_COLUMN] >= 0;
}

static bool asked_for(const struct sheet *s)
{
    return s->asked->name[CODE_COLUMN] || s->asked->number[CODE_COLUMN] > 0;
}

/* The columns as they are asked for by number, or the first three. */
static void by_numbers(struct sheet *s)
{
    for (int c = 0; c < COLUMNS; c++)
        s->column[c] = asked_for(s) ? (int)s->asked->number[c] - 1 : c;
}

static bool is_code(struct field f)
{
    uint64_t key;
    return catalogue_file_parse(f.from, length_of(f), &key) == 0;
}

/* A header names its columns; one with other names has no code, and no digit where the recordings are. */
static bool is_header(struct sheet *s, const struct fields *fields)
{
    bool named = by_names(s, fields);
    if (named && !is_code(field_of(fields, s->column[CODE_COLUMN])))
        return true;
    by_numbers(s);
    struct field recording = field_of(fields, s->column[RECORDING_COLUMN]);
    if (!asked_for(s) && fields->count > COLUMNS)
        return false;
    return !is_code(field_of(fields, s->column[CODE_COLUMN])) && length_of(recording) > 0 && !has_digit(recording);
}

/* Whether the first line makes sense with this separator. */
static bool fits(struct sheet *s, const struct fields *fields)
{
    if (by_names(s, fields))
        return true;
    by_numbers(s);
    return fields->count > 1 && is_code(field_of(fields, s->column[CODE_COLUMN]));
}

/* The separator that the first line makes sense with, or that it has most often. */
static void choose_separator(struct sheet *s, struct fields *fields)
{
    static const char separators[] = {',', ';', '\t'};
    int most = 0;
    for (size_t i = 0; i < sizeof separators; i++) {
        split(s->rows, separators[i], fields);
        if (fits(s, fields)) {
            s->separator = separators[i];
            return;
        }
        if (fields->count > most) {
            most = fields->count;
            s->separator = separators[i];
        }
    }
}

/* The first line that is not empty. True if it is a header. */
static bool begin(struct sheet *s, struct fields *fields)
{
    do {
        choose_separator(s, fields);
        split(s->rows, s->separator, fields);
    } while (fields->open && rows_join(s->rows));
    bool header = is_header(s, fields), named = header && by_names(s, fields);
    /* Three columns are code, recording and class, whatever the third is called. */
    bool usual = !asked_for(s) && (!named || (fields->count <= COLUMNS && s->column[CODE_COLUMN] == 0 && s->column[RECORDING_COLUMN] == 1));
    s->alone = usual;
    if (!named || usual)
        by_numbers(s);
    s->begun = true;
    return header;
}

/* ---- rows */

void sheet_begin(struct sheet *s, struct rows *r, const struct columns *asked)
{
    *s = (struct sheet){.rows = r, .asked = asked, .separator = ','};
}

static int wrong(struct fault *fault, int status, const char *what, struct field f, const char *why)
{
    fault->what = what;
    fault->why = why;
    rows_text(f.from, length_of(f), fault->text);
    return status;
}

/* Digits, perhaps with a point or a comma and one or two zeros behind them. Three may be thousands, as of 7.000: that is no number here. */
static struct field whole_number(struct field f)
{
    const char *end = f.to;
    while (end > f.from && end[-1] == '0')
        end--;
    bool decimals = end > f.from + 1 && (end[-1] == '.' || end[-1] == ',') && (f.to - end == 1 || f.to - end == 2);
    return decimals ? (struct field){f.from, end - 1} : f;
}

/* 7.2E+16: the digits that are left out are lost. */
static bool is_rounded(struct field f)
{
    const char *e = f.from;
    while (e < f.to && ((*e >= '0' && *e <= '9') || *e == '.' || *e == ','))
        e++;
    return e > f.from && e + 1 < f.to && (*e == 'E' || *e == 'e') && (e[1] == '+' || (e[1] >= '0' && e[1] <= '9'));
}

static int read_row(const struct sheet *s, const struct fields *fields, struct row *row, struct fault *fault)
{
    struct field code = field_of(fields, s->column[CODE_COLUMN]), recording = field_of(fields, s->column[RECORDING_COLUMN]);
    struct field class = field_of(fields, s->column[CLASS_COLUMN]), digits = whole_number(recording);
    *row = (struct row){.access = CATALOGUE_OPEN, .classed = length_of(class) > 0};
    uint64_t number = catalogue_file_parse(code.from, length_of(code), &row->key);
    if (number != 0)
        return wrong(fault, (int)number, "code", code, catalogue_file_strerror(number));
    if (is_rounded(recording))
        return wrong(fault, CATALOGUE_BAD_RECORDING, "recording", recording, "a spreadsheet has rounded this number; make its column text");
    if (!read_recording(digits.from, length_of(digits), &row->recording))
        return wrong(fault, CATALOGUE_BAD_RECORDING, "recording", recording, RECORDINGS);
    if (row->classed && !read_class(class.from, length_of(class), &row->access))
        return wrong(fault, CATALOGUE_BAD_CLASS, "class", class, CLASSES);
    return 0;
}

/* What is wrong with the line as a whole; null for nothing. */
static const char *wrong_line(const struct sheet *s, const struct fields *fields)
{
    if (s->rows->too_long)
        return "the line is too long";
    if (fields->open)
        return "a quote is not closed";
    if (s->alone && fields->count < 2)
        return "the line has no recording";
    if (s->alone && fields->count > COLUMNS)
        return "the line has more fields than code, recording and class; --columns says which of them these are";
    if (s->column[CODE_COLUMN] >= fields->count)
        return "the line has no code";
    return s->column[RECORDING_COLUMN] >= fields->count ? "the line has no recording" : NULL;
}

int sheet_read(struct sheet *s, struct row *row, struct fault *fault)
{
    static struct fields fields;
    struct rows *r = s->rows;
    struct field line = trimmed((struct field){r->text, r->text + r->length});
    s->line = r->number;
    if (line.from == line.to)
        return ROW_PASSED;
    bool header = !s->begun && begin(s, &fields);
    split(r, s->separator, &fields);
    while (fields.open && rows_join(r))
        split(r, s->separator, &fields);
    if (s->missing)
        return wrong(fault, BAD_LINE, "column", (struct field){s->missing, s->missing + s->missing_length}, "the first line has no such name");
    if (header)
        return ROW_PASSED;
    const char *why = wrong_line(s, &fields);
    return why ? wrong(fault, BAD_LINE, "", line, why) : read_row(s, &fields, row, fault);
}
