/*
 * A writer, two readers, a writer that is killed at any store and its successor, and a file that is replaced. A search's copy stands for its
 * answer: it must have been the table at one moment between start and end. A table is a word that is read first, a link, and two nodes
 * of one word; a search reads the first word, the link, and the node that is linked. A bracket stores to each word that readers come to once at
 * most, in any order, and a node that is not linked may be stored to before it is: every such run of stores is tried.
 *
 * A step is one load or one store of a shared word, with all that a process does by itself before or after it. What keeps the states few, and
 * leaves no error out:
 * - A reader begins its next round as soon as the counter says that more than one bracket ran. The real one loads the rest first and then finds
 *   that out, for the counter never goes back; a round stores nothing, and the next one begins at any later moment here too.
 * - A find begins with its first load, and only tables since its last round began count as true, with that of a file that lost its name since
 *   the find began. That asks for more than docs/READERS.md does. Of these tables a reader remembers those alone that agree with what it copied.
 * - A round whose whole copy has been the table is not compared: it ends the find or another one begins, at any moment.
 * - The readers are alike: the second begins its first find after the first has begun one.
 *
 * A processor that does not keep stores in order: a store waits until it is delivered, and one that is not a release may pass those before it,
 * but for a store to the same word. All stores of the protocol are releases, and all loads acquires: those are made in order, and a store that is
 * delivered later is a slower writer's. So unless stores may pass, each is delivered at once. They may for the faults of that kind, and with
 * STORES_PASS: then a bracket's stores to words pass each other, its first store to the counter is followed by a barrier, and its last one is a
 * release. That is less than the protocol keeps, and readers need no more.
 *
 * Each fault below is planted by its name.
 */
#ifndef BRACKETS
#define BRACKETS 2 /* of all writers together */
#endif
#ifndef STORES
#define STORES 2 /* of one bracket */
#endif
#ifndef FINDS
#define FINDS 1 /* of each reader */
#endif
#ifndef READERS
#define READERS 2
#endif

/* What a store goes to. */
#define COUNTER 0
#define FIRST 1
#define LINK 2
#define NODE 3 /* and the next one */
#define MARK 5
#define WORDS 6
#define NAME 6

/* ---- the faults */

#if defined(FENCE_MISSING_AT_BEGIN) || defined(FENCE_MISSING_AT_END) || defined(STORES_PASS)
#define WEAK
#endif
#if defined(FENCE_MISSING_AT_BEGIN) || defined(STORES_PASS)
#define WORD_RELEASE 0
#else
#define WORD_RELEASE 1
#endif
#ifdef FENCE_MISSING_AT_END
#define END_RELEASE 0
#else
#define END_RELEASE 1
#endif
#ifdef WORD_COMES_BACK
#define ONCE 0
#else
#define ONCE 1
#endif
#ifdef RULE_TOO_WIDE
#define AT_MOST_ONE(s, e) (e - s <= 4)
#else
#define AT_MOST_ONE(s, e) (e - s <= 2 - s % 2)
#endif

/* Two files; the name leads to one of them. */
byte file[12];
bit name;
#define AT(f, w) file[(f) * WORDS + (w)]

/* ---- what is true, and what was since a round began: sets of tables. None are possible if no round is under way. */

byte possible[READERS], since[READERS];
#define TABLE(f) (AT(f, FIRST) + 2 * AT(f, LINK) + 4 * AT(f, NODE + AT(f, LINK)))
#define SET(table) (1 << (table))

inline note()
{
    since[0] = since[0] | (SET(TABLE(name)) & possible[0]);
#if READERS > 1
    since[1] = since[1] | (SET(TABLE(name)) & possible[1])
#endif
}

/* ---- stores, by the writer; f is its file */

#ifdef WEAK
#define WAITING 3
byte waiting;
byte to_word[WAITING], value[WAITING];
bit release[WAITING];
byte mine[WORDS]; /* what it stored last to each word, delivered or not */
#define MINE(w) mine[w]
bit to_file; /* all that wait go to one file: a writer begins when none do */

inline put(w, v, r)
{
    waiting < WAITING;
    to_file = f;
    to_word[waiting] = w;
    value[waiting] = v;
    release[waiting] = r;
    mine[w] = value[waiting];
    waiting++
}

inline put_name()
{
    waiting == 0;
    name = 1;
    note()
}

/* Store i, and those behind it move up. */
inline deliver(i)
{
    AT(to_file, to_word[i]) = value[i];
    note();
    waiting--;
    j = i;
    do
    :: j < WAITING - 1 ->
        to_word[j] = to_word[j + 1];
        value[j] = value[j + 1];
        release[j] = release[j + 1];
        j++
    :: else -> break
    od;
    to_word[WAITING - 1] = 0;
    value[WAITING - 1] = 0;
    release[WAITING - 1] = 0;
    j = 0
}

active proctype memory()
{
    byte j;
end:
    do
    :: d_step { waiting > 0 -> deliver(0) }
    :: d_step { waiting > 1 && !release[1] && to_word[1] != to_word[0] -> deliver(1) }
    :: d_step { waiting > 2 && !release[2] && to_word[2] != to_word[0] && to_word[2] != to_word[1] -> deliver(2) }
    od
}
#else
#define MINE(w) AT(f, w)

inline put(w, v, r)
{
    AT(f, w) = v;
    note()
}

inline put_name()
{
    name = 1;
    note()
}
#endif

inline raise(r)
{
#ifndef BRACKET_MISSING
    put(COUNTER, MINE(COUNTER) + 1, r)
#else
    skip
#endif
}

/* ---- the writer */

byte left_over = BRACKETS;
bit may_die = 1, may_replace = 1;

active proctype writer()
{
    bit f;
    bit first_done, link_done, node_done, stale_done;
    byte stores;

opened:
    /* The lock is had when the one before it has ended: its stores have been delivered. The name is looked at under the lock. */
    atomic {
        first_done = 0; link_done = 0; node_done = 0; stale_done = 0; stores = 0;
#ifdef WEAK
        waiting == 0;
        f = name;
        stores = 0;
        do
        :: stores < WORDS -> mine[stores] = AT(f, stores); stores++
        :: else -> stores = 0; break
        od;
#else
        f = name;
#endif
#ifndef BRACKET_GOES_ON
        if
        :: MINE(COUNTER) % 2 == 1 -> raise(1)
        :: else
        fi
#endif
    };
    atomic {
        if
        :: MINE(MARK) == 1 -> put(MARK, 0, 1)
        :: else
        fi
    };

end:
    do
    :: atomic {
           left_over > 0 -> left_over--;
           if
           :: MINE(COUNTER) % 2 == 0 -> raise(1)
           :: else
           fi
       };
#ifdef STORES_PASS
       atomic { waiting == 0 };
#endif
       do
       :: atomic { stores < STORES && !first_done -> stores++; put(FIRST, 1 - MINE(FIRST), WORD_RELEASE); first_done = 1 }
       :: atomic { stores < STORES && !node_done -> stores++; put(NODE + MINE(LINK), 1 - MINE(NODE + MINE(LINK)), WORD_RELEASE); node_done = 1 }
       :: atomic {
              stores < STORES && !link_done && !stale_done -> stores++;
              put(NODE + 1 - MINE(LINK), 1 - MINE(NODE + 1 - MINE(LINK)), WORD_RELEASE);
              stale_done = 1
          }
       :: atomic { stores < STORES && !link_done -> stores++; put(LINK, 1 - MINE(LINK), WORD_RELEASE); link_done = ONCE; node_done = 0 }
       :: atomic { may_die -> may_die = 0; goto opened }
       :: atomic {
              stores > 0 -> first_done = 0; link_done = 0; node_done = 0; stale_done = 0; stores = 0;
              raise(END_RELEASE);
              break
          }
       od
    :: atomic {
           may_replace -> may_replace = 0;
           /* The new file is whole before it has the name. */
           AT(1, FIRST) = 1 - MINE(FIRST);
           AT(1, LINK) = MINE(LINK);
           AT(1, NODE) = MINE(NODE);
           AT(1, NODE + 1) = MINE(NODE + 1);
#ifdef MARK_AFTER_THE_RENAME
           put_name()
       };
       atomic { put(MARK, 1, 1); goto opened }
#else
           put(MARK, 1, 1)
       };
       if
       :: atomic { put_name(); goto opened }
       :: atomic { may_die -> may_die = 0; may_replace = 1; goto opened }
       fi
#endif
    od
}

/* ---- a reader */

bit begun;

/* The copy agrees with these tables alone. */
inline keep(tables)
{
    possible[r] = possible[r] & (tables);
    since[r] = since[r] & possible[r]
}

inline forget()
{
    possible[r] = 0;
    since[r] = 0;
    start = 0;
    first = 0;
    link = 0;
    node = 0
}

#define DOOMED (!AT_MOST_ONE(start, AT(f, COUNTER)))
#ifdef COUNTER_READ_TOO_SOON
#define DOOMED_LATE 0
#else
#define DOOMED_LATE DOOMED
#endif

proctype reader(bit r)
{
    bit f;     /* the file that is open */
    bit named; /* it had the name at some moment of the find */
    bit first, link, node;
    bit holds; /* copies are kept, for the counter start */
    byte start;
    byte finds = FINDS;

end:
    do
    :: atomic {
           finds > 0 && (r == 0 || begun) -> finds--; begun = 1;
           named = (f == name);
#ifndef MARK_NOT_LOOKED_AT
           if
           :: AT(f, MARK) == 1
           :: else -> goto again
           fi
       };
       atomic {
           if
           :: f != name -> f = name; holds = 0; forget()
           :: else
           fi;
           named = 1
#endif
       };
again:
       atomic {
           possible[r] = 255;
           since[r] = SET(TABLE(name)) | (named -> SET(TABLE(f)) : 0);
           if
#ifdef COPIES_NOT_FORGOTTEN
           :: holds -> goto answered
#else
           :: holds && start == AT(f, COUNTER) -> goto answered
#endif
           :: else -> holds = 0; first = 0; link = 0; node = 0; start = AT(f, COUNTER)
           fi
       };
       atomic {
           if
           :: DOOMED -> forget(); goto again
           :: else -> first = AT(f, FIRST); keep((first -> 170 : 85))
           fi
       };
#ifdef NODE_BEFORE_LINK
       node = AT(f, NODE + 1);
       atomic { link = AT(f, LINK); keep((link -> 204 : 51)) };
       atomic { node = (link -> node : AT(f, NODE)); keep((node -> 240 : 15)) };
#else
       atomic {
           if
           :: DOOMED -> forget(); goto again
           :: else -> link = AT(f, LINK); keep((link -> 204 : 51))
           fi
       };
       atomic {
           if
           :: DOOMED -> forget(); goto again
           :: else -> node = AT(f, NODE + link); keep((node -> 240 : 15))
           fi
       };
#endif
       atomic {
           if
           :: start % 2 == 0 && AT(f, COUNTER) == start -> holds = 1; goto answered
           :: DOOMED -> forget(); goto again
#ifdef ONE_PASS
           :: else -> goto answered
#else
           :: else ->
               if
               :: since[r] != 0 -> goto answered
               :: since[r] != 0 -> forget(); goto again
               :: else
               fi
#endif
           fi
       };
       atomic {
           if
           :: DOOMED_LATE || first != AT(f, FIRST) -> forget(); goto again
           :: else
           fi
       };
       atomic {
           if
           :: DOOMED_LATE || link != AT(f, LINK) -> forget(); goto again
           :: else
           fi
       };
       atomic {
           if
           :: DOOMED_LATE || node != AT(f, NODE + link) -> forget(); goto again
           :: else
           fi
       };
       atomic {
           if
           :: DOOMED_LATE -> forget(); goto again
           :: else -> goto answered
           fi
       };
answered:
       atomic {
           assert((since[r] & SET(first + 2 * link + 4 * node)) != 0);
           named = 0;
           if
           :: holds -> possible[r] = 0; since[r] = 0
           :: else -> forget()
           fi
       }
    od
}

init
{
    atomic {
        run reader(0);
#if READERS > 1
        run reader(1)
#endif
    }
}
