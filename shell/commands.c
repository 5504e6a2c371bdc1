/* The commands. */
#include "commands.h"

#include <inttypes.h>
#include <limits.h>
#include <signal.h>
#include <stdio.h>
#include <string.h>

#include "changes.h"
#include "class.h"
#include "decay.h"
#include "draw.h"
#include "film.h"
#include "lookup.h"
#include "guess.h"
#include "help.h"
#include "judge.h"
#include "judge_json.h"
#include "lesson.h"
#include "list.h"
#include "opened.h"
#include "orderlist.h"
#include "output.h"
#include "refusals.h"
#include "rescue.h"
#include "scripts.h"
#include "reserve.h"
#include "state.h"
#include "text.h"
#include "tree.h"
#include "wear.h"

/* ---- tables of one moment: 0, or an exit status after saying why */

static int show_table(const struct table *t, struct command_line *l)
{
    (void)l;
    return show(t);
}

static int print_wear(const struct table *t, struct command_line *l)
{
    return wear(t, l->words[2], l->svg ? WEAR_SVG : l->json ? WEAR_JSON : WEAR_TEXT);
}

static int judge_file(const struct table *t, struct command_line *l)
{
    size_t total;
    return l->json ? judge_json(t, l->words[2], &l->change) : judge_list(t, l->words[2], &l->change, stdout, &total);
}

/* A list from a file, in the one form or the other. */
static int print_file(const struct table *t, struct command_line *l)
{
    struct order_list list;
    int status = order_list_read(&list, l->words[3]);
    if (status == 0)
        print_list(t, l, list.words, list.count);
    order_list_free(&list);
    return status;
}

static int film_change(const struct table *t, struct command_line *l)
{
    return film(t, &l->change, l->list, l->data);
}

/* ---- files: 0, or an exit status after saying why */

/* Nobody may read the answer of a command that changes something; it says then that it is done. */
static void outlive_readers(void)
{
    signal(SIGPIPE, SIG_IGN);
}

static int load_file(struct opened *o, struct command_line *l)
{
    return load(o, l->words[2], &l->load);
}

static int copy_table(struct opened *o, struct command_line *l)
{
    uint64_t number = catalogue_file_copy(o->file, l->words[2], &l->nodes);
    if (number == CATALOGUE_NOT_SOUND)
        return refuse(number, &o->table, 0, 0);
    return number == 0 ? 0 : opened_fails(o, number, "");
}

static int salvage_table(struct opened *o, struct command_line *l)
{
    outlive_readers();
    int status = salvage(o, l->words[2]);
    if (status == 0)
        l->made = "the new table is made";
    return status;
}

/* ---- the commands */

static int with_file(struct command_line *l, bool writing, int (*work)(struct opened *o, struct command_line *l))
{
    struct opened o;
    int status = stack_take();
    if (status != 0)
        return status;
    if (writing)
        outlive_readers();
    status = opened_begin(&o, l->words[1], writing, &l->opening);
    if (status == 0)
        status = work(&o, l);
    if (o.made)
        l->made = "the change is made";
    opened_end(&o);
    return status;
}

/* The table of one moment: the file may change while the command works. */
static int with_table(struct command_line *l, int (*work)(const struct table *t, struct command_line *l))
{
    struct opened o;
    int status = stack_take();
    if (status != 0)
        return status;
    status = opened_begin(&o, l->words[1], false, &l->opening);
    if (status == 0)
        status = opened_read(&o);
    if (status == 0)
        status = work(&o.table, l);
    opened_end(&o);
    return status;
}

/* The number of nodes of a new table, from a word. The library says how many it may be. */
static int read_nodes(struct command_line *l, const char *word)
{
    return read_number(word, strlen(word), &l->nodes) ? 0 : fail(CATALOGUE_NO_TABLE, "%.40s: a table has 1 to %d nodes", word, MOST_NODES);
}

static int say_made(struct command_line *l, const char *name, const char *more)
{
    uint64_t nodes = l->nodes;
    l->made = "the new table is made";
    printf("made %s with %" PRIu64 " node%s%s\n", name, nodes, nodes == 1 ? "" : "s", more);
    return 0;
}

static int make_file(struct command_line *l)
{
    catalogue_file *f = catalogue_file_new();
    int status = file_fails(f, f ? catalogue_file_create(f, l->words[1], l->nodes, l->loan ? 2 : 1) : CATALOGUE_FILE_NO_MEMORY);
    catalogue_file_free(f);
    return status;
}

static int command_make(struct command_line *l)
{
    outlive_readers();
    int status = read_nodes(l, l->words[2]);
    if (status == 0)
        status = make_file(l);
    return status != 0 ? status : say_made(l, l->words[1], l->loan ? " and two collections" : "");
}

static int command_copy(struct command_line *l)
{
    outlive_readers();
    int status = l->count > 3 ? read_nodes(l, l->words[3]) : 0;
    if (status == 0 && l->count > 3 && l->nodes == 0)
        status = fail(CATALOGUE_NO_TABLE, "0: a table has 1 to %d nodes", MOST_NODES);
    if (status == 0)
        status = with_file(l, false, copy_table);
    return status != 0 ? status : say_made(l, l->words[2], "");
}

static int change_table(struct command_line *l, enum kind kind)
{
    int status = change_read(&l->change, kind, l->words + 2, l->count - 2);
    return status != 0 ? status : with_file(l, true, make_change);
}

static int command_add(struct command_line *l)
{
    return change_table(l, ADD);
}

static int command_remove(struct command_line *l)
{
    return change_table(l, REMOVE);
}

/* Another class for a code; or, of a folder alone, the lists of a school class. */
static int command_class(struct command_line *l)
{
    if (l->count == 3 || (l->count == 4 && l->data) || (l->count == 2 && l->given & ~(unsigned)(FILMING | WRITING)) || l->list || l->drawings)
        return WRONG_FORM;
    if (l->count == 4)
        return change_table(l, CLASS);
    int status = stack_take();
    return status != 0 ? status : class_page(l->words[1], l->data);
}

static int command_repair(struct command_line *l)
{
    return change_table(l, REPAIR);
}

/* An option of these kinds was given, which what is asked for does not take. */
static int unfit(const struct command_line *l, unsigned kinds, const char *what)
{
    return fail(BAD_USAGE, "%s takes no %s (catalogue help %s lists its options)", what, option_given(l, kinds)->name, l->words[0]);
}

static int command_orders(struct command_line *l)
{
    static const struct {
        const char *name;
        int least, most;
        enum kind kind;
    } kinds[] = {{"add", 5, 6, ADD}, {"remove", 4, 4, REMOVE}, {"class", 5, 5, CLASS}, {"repair", 3, 3, REPAIR}};
    if (strcmp(l->words[2], "list") == 0 && l->count == 4)
        return l->given & (NAMING | DOCKING) ? WRONG_FORM : with_table(l, print_file);
    for (size_t i = 0; i < sizeof kinds / sizeof kinds[0]; i++)
        if (strcmp(l->words[2], kinds[i].name) == 0 && l->count >= kinds[i].least && l->count <= kinds[i].most) {
            if (kinds[i].kind == REPAIR && l->given & NAMING)
                return unfit(l, NAMING, "orders repair");
            int status = change_read(&l->change, kinds[i].kind, l->words + 3, l->count - 3);
            return status != 0 ? status : with_file(l, false, print_orders);
        }
    return WRONG_FORM;
}

/* The change is written as in the order printer's scripts. */
static int command_judge(struct command_line *l)
{
    bool adds = strcmp(l->words[3], "+") == 0;
    if (adds ? l->count < 6 : strcmp(l->words[3], "-") != 0 || l->count != 5)
        return WRONG_FORM;
    int status = change_read(&l->change, adds ? ADD : REMOVE, l->words + 4, l->count - 4);
    return status != 0 ? status : with_table(l, judge_file);
}

static int film_lesson(struct command_line *l)
{
    int status = stack_take();
    return status != 0 ? status : lesson(l->data);
}

/* The change is written as for judge. */
static int command_film(struct command_line *l)
{
    if (l->drawings && l->given & (NAMING | WAITING))
        return unfit(l, NAMING | WAITING, "film --drawings");
    if (l->drawings)
        return l->count == 1 && !l->list ? film_lesson(l) : WRONG_FORM;
    bool adds = l->count >= 5 && l->count <= 6 && strcmp(l->words[2], "+") == 0;
    bool removes = l->count == 4 && strcmp(l->words[2], "-") == 0;
    bool repairs = l->count == 3 && strcmp(l->words[2], "repair") == 0;
    if (repairs && l->given & NAMING)
        return unfit(l, NAMING, "film repair");
    if (!adds && !removes && !repairs)
        return WRONG_FORM;
    int status = change_read(&l->change, adds ? ADD : removes ? REMOVE : REPAIR, l->words + 3, l->count - 3);
    return status != 0 ? status : with_table(l, film_change);
}

/* A search needs little stack, and takes none before. */
static int command_find(struct command_line *l)
{
    struct opened o;
    if (l->by_recording)
        return with_file(l, false, find);
    if (l->open)
        return find(l->open, l);
    int status = opened_begin(&o, l->words[1], false, &l->opening);
    if (status == 0)
        status = find(&o, l);
    opened_end(&o);
    return status;
}

static int command_list(struct command_line *l)
{
    int status = list_range(l);
    return status != 0 ? status : with_table(l, list);
}

static int command_load(struct command_line *l)
{
    return with_file(l, true, load_file);
}

static int command_check(struct command_line *l)
{
    return with_table(l, check_table);
}

static int command_stat(struct command_line *l)
{
    return with_table(l, stat_table);
}

static int command_salvage(struct command_line *l)
{
    if (!(l->given & RESCUING))
        return with_file(l, false, salvage_table);
    int status = stack_take();
    if (status != 0)
        return status;
    outlive_readers();
    status = rescue(l->words[1], l->rescue, l->words[2]);
    if (status == 0)
        l->made = "the new table is made";
    return status;
}

static int command_sums(struct command_line *l)
{
    bool known = strcmp(l->words[2], "on") == 0 || strcmp(l->words[2], "off") == 0;
    return known ? with_file(l, true, switch_sums) : WRONG_FORM;
}

static int command_scrub(struct command_line *l)
{
    return with_file(l, false, scrub);
}

static int command_show(struct command_line *l)
{
    return with_table(l, show_table);
}

static int command_script(struct command_line *l)
{
    uint64_t number;
    if (!read_number(l->words[1], strlen(l->words[1]), &number))
        return fail(CATALOGUE_NO_SCRIPT, "%.40s: the scripts have the numbers 0 to %d", l->words[1], CATALOGUE_SCRIPTS - 1);
    int status = stack_take();
    return status != 0 ? status : script(number);
}

/* A code's key, or a key's code. */
static int command_key(struct command_line *l)
{
    char text[KEY_TEXT];
    uint64_t key;
    const char *word = l->words[1];
    if (read_number(word, strlen(word), &key) || (word[0] == '#' && read_number(word + 1, strlen(word + 1), &key))) {
        printf("%s\n", key_text(key, text));
        return 0;
    }
    int status = read_code_word(word, &key);
    if (status == 0)
        printf("%" PRIu64 "\n", key);
    return status;
}

static int command_wear(struct command_line *l)
{
    if (l->svg && l->json)
        return WRONG_FORM;
    return with_table(l, print_wear);
}

static int command_help(struct command_line *l)
{
    const struct command *c = NULL;
    if (l->count == 2 && !(c = command_named(l->words[1])))
        return no_command(l->words[1]);
    help(commands, c);
    return 0;
}

/* What LIST is; the manual page has the same words. */
#define LIST_FORM \
    "LIST is a file, or standard input where it is -, of orders, a line each: in words, as\n" \
    "node 1 slot 2 key := AA0002600030, node 1 slot 2 pointer := 103, header root := node 2,\n" \
    "flush node 1 slots 0-3 and barrier, or plain, as store WORD VALUE and flush LINE. Capital\n" \
    "letters, commas, a number before an order and a remark behind it are passed over, and\n" \
    "so are empty lines, those that begin with #, and lines done, refused and not made,\n" \
    "which end a list"

const struct command commands[] = {
    {"make", "NEW NODES", "a new, empty table of 1 to 65535 nodes; allow one for every 4 codes", "make room.cat 100", 3, 3, MAKING,
     command_make},
    {"add", "TABLE CODE RECORDING [CLASS]", "a new code, with its recording's class: open (if none is given), room or closed",
     "add room.cat AA-000-19-12345 7 room", 4, 5, NAMING | DOCKING | CUT | CARRYING | WAITING, command_add},
    {"remove", "TABLE CODE", "a code taken out", "remove room.cat AA-000-19-12345", 3, 3, NAMING | DOCKING | CUT | CARRYING | WAITING,
     command_remove},
    {"class", "TABLE CODE CLASS, or FOLDER",
     "another class for a code's recording: open, room or closed. Of a FOLDER: judges each list\n"
     "NAME.txt in it, as the lesson's board saves them, and prints one page for the teacher:\n"
     "who, yes or no, the first count that fails, which mistake, and a film of each",
     "class room.cat AA-000-19-12345 closed", 2, 4, NAMING | DOCKING | CUT | CARRYING | WAITING | FILMING | WRITING, command_class},
    {"find", "TABLE CODE ..",
     "prints the code's recording,class, of several codes code,recording,class. For - it reads\n"
     "codes from standard input, one a line. If a code is absent it says the next one up and\n"
     "ends with status 1. A slot with recording 0 or a class that there is not is refused with\n"
     "4: it must not play",
     "find room.cat AA0001912345", 3, INT_MAX, NAMING | FINDING | STRUCTURED, command_find},
    {"list", "TABLE [FROM TO | BEGINNING]",
     "prints the codes from FROM to TO, those that begin so, or all, as lines\n"
     "code,recording,class that load reads",
     "list room.cat AA-000", 2, 4, NAMING | WAITING | LISTING | STRUCTURED | WRITING, command_list},
    {"load", "TABLE FILE.csv",
     "adds the lines code,recording or code,recording,class of a file, or of standard input\n"
     "where it is -; a line without a class is open. A byte-order mark, a header line, empty\n"
     "lines, spaces and quotes around the fields are passed over. Loading stops at the first\n"
     "bad line and prints the first 20. Into an empty collection the lines are packed, by a new\n"
     "file in the table's place; into one with codes they go by batches",
     "load room.cat codes.csv", 3, 3, NAMING | DOCKING | LOADING | CARRYING | WAITING, command_load},
    {"repair", "TABLE",
     "finishes what a power cut left unfinished, in either collection (add, remove, class and\nload do so first)", "repair room.cat", 2, 2,
     DOCKING | CUT | CARRYING | WAITING, command_repair},
    {"copy", "TABLE NEW [NODES]", "a new table of NODES nodes, or of as many as are needed, with the same codes, packed",
     "copy room.cat larger.cat 200", 3, 4, WAITING, command_copy},
    {"salvage", "TABLE NEW",
     "a new table of as many nodes with what can be read of TABLE, which is damaged and stays\n"
     "as it is; prints each slot that is dropped, and why. If the header is damaged, or the file\n"
     "was cut short, --nodes and --root say what the header said",
     "salvage room.cat saved.cat", 3, 3, WAITING | RESCUING, command_salvage},
    {"orders", "TABLE CHANGE ..",
     "prints the stores and flushes of a change, for dock 1 its barriers too, without making it:\n"
     "add CODE RECORDING [CLASS], remove CODE, class CODE CLASS, or repair; list LIST prints\n"
     "those of a file. Plain with the place of each, or in words",
     "orders room.cat add AA0001912345 7", 3, 6, NAMING | DOCKING | WAITING | WRITING | WORDING, command_orders},
    {"judge", "TABLE LIST + CODE RECORDING [CLASS], or - CODE",
     "says whether the orders in LIST make this change, in a settled table that stays as it is,\n"
     "so that a power cut may come after any of them: yes, or no with the first order that\n"
     "fails, its place, and what a cut there may leave. One list, for dock 0.\n" LIST_FORM,
     "judge room.cat orders.txt + AA0001912345 7", 5, 7, NAMING | WAITING | STRUCTURED, command_judge},
    {"film", "TABLE + CODE RECORDING [CLASS], - CODE, or repair",
     "a page for a browser that goes through every order of this change, and through every cut,\n"
     "without making it: nodes, lines and slots, working copy and memory, the way of a search.\n"
     "It needs nothing else. With --drawings, and no table, the whole lesson. For dock 0",
     "film room.cat + AA0001912345 7 > split.html", 1, 6, FILMING | NAMING | WAITING | WRITING, command_film},
    {"wear", "TABLE LIST",
     "prints how often the orders in LIST store to each line of the table, and which words they\n"
     "store to, as words OFFSET LENGTH; the table stays as it is.\n" LIST_FORM,
     "wear room.cat orders.txt", 3, 3, DRAWING | WAITING | STRUCTURED | WRITING, command_wear},
    {"check", "TABLE", "says whether the table is settled, sound with a leftover, or not sound, and how many\nnodes are free for more codes",
     "check room.cat", 2, 2, WAITING | STRUCTURED, command_check},
    {"sums", "TABLE on | off",
     "on: makes the file TABLE.sums, with a sum for each line of the table, which every change\n"
     "keeps from then on; find, list and every change refuse words that do not fit. off: takes\n"
     "it away; the table is then taken as it stands",
     "sums room.cat on", 3, 3, WAITING, command_sums},
    {"scrub", "TABLE",
     "looks at every word of a table that has sums, and names the nodes that do not fit: a bit\n"
     "has decayed there, or a program that keeps no sums has changed them",
     "scrub room.cat", 2, 2, WAITING, command_scrub},
    {"stat", "TABLE",
     "prints what the table has: its bytes, its nodes and those that are free, and for each\n"
     "collection its codes, levels, nodes and fill: how many it has of the 11 codes for each\n"
     "node. A packed collection has about 91 %, since some of its nodes hold no codes",
     "stat room.cat", 2, 2, WAITING | STRUCTURED, command_stat},
    {"show", "TABLE",
     "draws each collection's tree by level, with hidden and trailing slots and the leftover;\n#N is a key that no code has",
     "show room.cat", 2, 2, WAITING | WRITING, command_show},
    {"key", "CODE, or NUMBER", "prints the key of a code, as order lists have it, or the code of a key", "key AA0001912345", 2, 2, 0,
     command_key},
    {"script", "NUMBER",
     "prints the tester's short script with this number, 0 to 1554, and what each of its\nactions does to an empty table of 4 nodes",
     "script 1000", 2, 2, 0, command_script},
    {"help", "[COMMAND]", "this text, or that of one command", "help load", 1, 2, 0, command_help},
    {NULL, NULL, NULL, NULL, 0, 0, 0, NULL},
};

const struct command *command_named(const char *name)
{
    const struct command *c = commands;
    while (c->name && strcmp(c->name, name) != 0)
        c++;
    return c->name ? c : NULL;
}

int no_command(const char *word)
{
    char text[GUESS_TEXT];
    struct guess g = guess_begin(word, strlen(word));
    for (const struct command *c = commands; c->name; c++)
        guess_try(&g, c->name);
    const char *other = guess_command(word);
    return fail(BAD_USAGE, "there is no command %.40s%s (catalogue --help lists them)", word, guess_text(other ? other : g.name, text));
}

static int usage(const struct command *c)
{
    return fail(BAD_USAGE, "usage: catalogue %s %s (catalogue help %s says more)", c->name, c->form, c->name);
}

/* The words fit: with standard output where the options ask for it. */
static int run(const struct command *c, struct command_line *l)
{
    if (c->takes & DOCKING && !(l->given & DOCKING))
        l->opening.dock = CATALOGUE_FILE_DOCK;
    struct output o;
    int status = output_begin(&o, l->output, l->count > 1 ? l->words[1] : NULL);
    if (status == 0)
        status = c->run(l);
    if (status == WRONG_FORM)
        status = usage(c);
    return output_end(&o, status);
}

int command_run(struct command_line *l)
{
    const struct command *c = l->count > 0 ? command_named(l->words[0]) : NULL;
    if (l->version) {
        printf("catalogue %s\n", PROGRAM_VERSION);
        return 0;
    }
    if (l->count > 0 && !c)
        return no_command(l->words[0]);
    if (l->help) {
        help(commands, c);
        return 0;
    }
    if (!c)
        return fail(BAD_USAGE, "usage: catalogue COMMAND TABLE .. (catalogue --help says more)");
    if (l->given & ~c->takes)
        return unfit(l, ~c->takes, c->name);
    return l->count >= c->least && l->count <= c->most ? run(c, l) : usage(c);
}

int command_finish(const struct command_line *l, int status)
{
    if (fflush(stdout) == 0 && !ferror(stdout))
        return status;
    int failed = fail(BAD_FILE, "%s%s cannot be printed", l->made ? l->made : "the answer", l->made ? ", but the answer" : "");
    /* That of an absent code would say that the others are answered. */
    bool answered = status == 0 || status == CATALOGUE_NO_CODE || status == l->absent;
    return answered ? failed : status;
}
