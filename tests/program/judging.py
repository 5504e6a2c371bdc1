"""Judging order lists: the drawings, lists of ours in every form, spoilt ones, and what is refused."""
import glob
import os
import re
import subprocess

from drive import *

DRAWINGS = os.path.join(os.path.dirname(os.path.abspath(__file__)), "..", "..", "samples", "drawings")
NOT_SETTLED, CHANGE_REFUSED, NO = 20, 21, 254
BAD_ORDERS = 13


def write(path, text):
    with open(path, "w") as f:
        f.write(text)


def judged(program, t, text, *change):
    """Exit status and answer for the list of that text; the table stays as it is."""
    before, path = contents(t), f"{t}.list"
    write(path, text)
    status, out, err = program("judge", t, path, *change)
    assert status in (0, NO) and err == "", (status, out, err)
    assert contents(t) == before, "the table was changed"
    return status, out


def says_no(program, t, text, pattern, *change):
    status, out = judged(program, t, text, *change)
    assert status == NO and re.fullmatch(pattern, out), (pattern, out)


def text_of(orders):
    """As the order printer prints them: a store is a pair, a flush its line in a list."""
    return "".join(f"store {o[0]} {o[1]}\n" if isinstance(o, tuple) else f"flush {o[0]}\n" for o in orders)


def plain_orders(out):
    """What the command orders prints, as pairs and lines; without barriers."""
    parts = [line.split() for line in out.splitlines()[:-1]]
    return [(int(p[2]), int(p[3])) if p[1] == "store" else [int(p[2])] for p in parts if p[1] != "barrier"]


def the_drawings(program, folder):
    """Each list in samples/drawings has its command and the answer above its orders."""
    seen = 0
    for path in sorted(glob.glob(f"{DRAWINGS}/*.txt")):
        with open(path) as f:
            lines = f.read().splitlines()
        told = [line[2:] for line in lines if line.startswith("# ")]
        at = next(i for i, line in enumerate(told) if line.startswith("catalogue judge "))
        table, name, *change = told[at].split()[2:]
        assert name == os.path.basename(path)
        t = f"{folder}/{table}"
        if not os.path.exists(t):
            program.done("make", t, 6)
            program.done("load", t, f"{DRAWINGS}/{table.replace('.cat', '.csv')}")
        status, out, err = program("judge", t, path, *change)
        assert (out.splitlines(), err) == (told[at + 1:], ""), (path, out, err)
        assert status == (0 if name == "right.txt" else NO), (path, status)
        seen += 1
    assert seen == 8


def changes(program, t, collection):
    """A table whose first collection has leaves full of codes, and changes of each kind: of one leaf, with a split, freeing a leaf."""
    pairs = [(code(i), i) for i in range(10, 22)] + [(code(30), 30)]
    fill(program, t, 9, pairs, [(code(i), i) for i in range(10, 24)])
    return [["+", code(25), 25], ["+", code(9), 9, "closed"], ["-", code(12)], ["-", code(30 if collection == 1 else 23)]]


def our_lists(program, folder):
    """Yes to each, in the form of orders and of the order printer, for both docks, from a file and from standard input."""
    for collection in (1, 2):
        t = f"{folder}/t{collection}"
        for change in changes(program, t, collection):
            named = naming(collection)
            words = ["add" if change[0] == "+" else "remove", *change[1:]]
            out = program.done("orders", t, *words, *named)
            orders = plain_orders(out)
            yes = f"yes: a cut after any of its {len(orders)} orders leaves the codes as before or as after\n"
            for text in (out, text_of(orders), text_of(orders) + f"done {len(orders)} 0\n"):
                assert judged(program, t, text, *change, *named) == (0, yes)
            barred = program.done("orders", t, *words, *named, "--dock", 1)
            status, said = judged(program, t, barred, *change, *named)
            assert status == 0 and said.startswith("yes"), said
            write(f"{t}.list", out)
            with open(f"{t}.list") as f:
                command = program.command + ["judge", t, "-", *map(str, change), *map(str, named)]
                run = subprocess.run(command, stdin=f, env=program.environment, text=True, capture_output=True)
            assert (run.returncode, run.stdout, run.stderr) == (0, yes, ""), run


def spoilt_lists(program, folder):
    """What judge prints for a no."""
    t = f"{folder}/t"
    fill(program, t, 6, [(code(i), i) for i in (20, 30, 40)], [(code(50), 50)])
    add = ["+", code(35), 35]
    orders = plain_orders(program.done("orders", t, "add", code(35), 35))
    total, shown = len(orders), re.escape(code(35))
    says_no(program, t, "", f"no: after 0 of 0 orders\nall orders leave {shown} as it was\n", *add)
    says_no(program, t, text_of(orders[:-1]), rf"no: after {total - 1} of {total - 1} orders, the last of them store \d+ 35 \(node 1, pointer \d+\)\n"
            r"all orders leave a store unflushed: line \d+, node 1, slots \d+ to \d+\n", *add)
    # Undone again.
    program.done("add", t, code(35), 35)
    back = plain_orders(program.done("orders", t, "remove", code(35)))
    program.done("remove", t, code(35))
    says_no(program, t, text_of(orders + back), rf"no: after (\d+) of \1 orders, the last of them flush \d+\nall orders leave {shown} as it was\n", *add)
    # Gone by the first store, which hides its slot and leaves that to repair.
    gone = plain_orders(program.done("orders", t, "remove", code(30)))[0]
    says_no(program, t, text_of([gone, [gone[0] // 8]]), r"no: after 2 of 2 orders, the last of them flush 2\nall orders leave a table that is not settled\n",
            "-", code(30))
    # A code that is lost, and the way to all of them.
    says_no(program, t, "store 17 0\nflush 2\n", rf"no: after 1 of 2 orders, the last of them store 17 0 \(node 1, pointer 0\)\n"
            rf"a cut there may leave {code(20)} absent, and 2 codes more not as before\n", *add)
    says_no(program, t, "store 1 9\nflush 0\n", r"no: after 1 of 2 orders, the last of them store 1 9 \(the root's number\)\n"
            r"a cut there may leave no way to .*\na cut there may leave a table that is not sound: every change of it is refused with 2\n", *add)
    # A code too many, another recording, another class.
    says_no(program, t, text_of(orders).replace(" 35\n", " 36\n"), rf"no: after \d+ of {total} orders, .*\na cut there may leave {shown} with 36,open\n", *add)
    says_no(program, t, text_of(orders), rf"no: after \d+ of {total} orders, .*\na cut there may leave {shown} with 35,open\n", *add, "room")
    other = plain_orders(program.done("orders", t, "add", code(36), 36))
    says_no(program, t, text_of(other), rf"no: after \d+ of {len(other)} orders, .*\na cut there may leave {code(36)} with 36,open\n", *add)
    # The other collection's code, and its lack.
    loan = plain_orders(program.done("orders", t, "remove", code(50), *naming(2)))
    says_no(program, t, text_of(loan + orders), rf"no: after \d+ of {len(loan) + total} orders, .*\na cut there may leave {code(50)} absent\n", *add)
    says_no(program, t, "store 3 0\nflush 0\n" + text_of(orders), rf"no: after 1 of {total + 2} orders, .*\na cut there may leave no way to {code(50)}\n", *add)
    u = f"{folder}/u"
    fill(program, u, 6, [(code(i), i) for i in (20, 30, 40)])
    says_no(program, u, f"store 40 {MARK}\nflush 5\nstore 3 2\nflush 0\n" + text_of(orders), r"no: after 3 of \d+ orders, .*collection 2\)\n"
            r"a cut there may leave another number of collections\n", *add)
    # Two lines with unflushed stores, though nothing is lost.
    says_no(program, u, "store 72 0\nstore 104 0\n" + text_of(orders), r"no: after 2 of \d+ orders, the last of them store 104 0 \(node 4, left\)\n"
            r"two lines hold unflushed stores, 9 \(node 3, left to fence\) and 13 \(node 4, left to fence\)\n", *add)


def write_to(path, text):
    write(path, text)
    return path


def forms_of_lists(program, folder):
    """Judge and wear read the same lists."""
    t, list = f"{folder}/t", f"{folder}/list"
    program.done("make", t, 4)
    program.done("add", t, code(1), 1)
    orders = program.done("orders", t, "add", code(2), 2)
    plain = text_of(plain_orders(orders))
    add = ["+", code(2), 2]
    said = program.done("wear", t, write_to(list, plain))
    forms = [orders, plain + "done 5 1\n", "# drawn on Monday\n\n" + plain.replace("\n", " # why\n"), plain.replace("\n", "\r\n"), plain.replace(" ", "\t "),
             "\n".join(f"{i} {line}" for i, line in enumerate(plain.splitlines())), plain.replace("\nflush", "\n4 barrier (none is needed)\nflush"),
             "refused 7\n" + plain, "# " + "x" * 1000 + "\n" + plain]
    for text in forms:
        assert program.done("wear", t, write_to(list, text)) == said, text
        status, out = judged(program, t, text, *add)
        assert status == 0 and out.startswith("yes"), (text, out)
    for line in ("store 1", "store 1 2 3", "store x 1", "store 1 -1", "flush", "flush 1 2", "store 18446744073709551616 0", "stores 1 2", "3",
                 "3 4 store 1 2", "1 flush 2 3", "barrier 0", "barriers", "nothing", "store 1 2" + " " * 17000):
        write(list, f"flush 0\n{line}\nstore 0 0\n")
        wrong = 'line 2, ".*": (".*" cannot stand there; wanted: |it ends too soon; wanted: |it is too long; )'
        program.refuses(BAD_LINE, wrong, "wear", t, list)
        program.refuses(BAD_LINE, wrong, "judge", t, list, *add)


def refusals(program, folder):
    t, list = f"{folder}/t", f"{folder}/list"
    fill(program, t, 4, [(code(i), i) for i in (20, 30)])
    write(list, program.done("orders", t, "add", code(25), 25))
    add = ["judge", t, list, "+", code(25), 25]
    program.refuses(BAD_USAGE, "usage: catalogue judge TABLE LIST", "judge", t, list)
    for words in (["+", code(25)], ["-"], ["-", code(25), 25], ["*", code(25), 25], ["add", code(25), 25], ["+", code(25), 25, "open", "x"]):
        program.refuses(BAD_USAGE, "usage: catalogue judge", "judge", t, list, *words)
    program.refuses(BAD_USAGE, "judge takes no --dock", *add, "--dock", 1)
    program.refuses(NO_CODE, "not a code", "judge", t, list, "-", "AA")
    program.refuses(BAD_FILE, "cannot be opened", "judge", t, f"{folder}/none", "-", code(20))
    program.refuses(NO_TABLE, "is not a table", "judge", list, list, "-", code(20))
    program.refuses(NO_COLLECTION, "no collection 2", *add, *naming(2))
    for change, why in ((["+", code(20), 25], "7: .* already$"), (["+", code(25), 20], f"8: .*under {code(20)}$"), (["-", code(25)], "9: "), (["+", code(25), 0], "6: ")):
        program.refuses(CHANGE_REFUSED, f"the change itself is refused with {why}", "judge", t, list, *change)
    for text, place in (("store 136 1\n", 1), ("flush 0\nflush 17\n", 2), (f"store 0 1\nstore {MARK} 1\n", 2), (f"barrier\nstore {MARK - 1} 0\n", 2),
                        (f"store {MARK - 1} 1\nflush 99\n", 1), (f"flush {MARK}\n", 1)):
        write(list, text)
        program.refuses(BAD_ORDERS, f"order {place} lies outside of .*t$", *add)
    write(list, "store 16 1\ndone 1 0\nstore 16 2\ndone 1 0\n")
    program.refuses(BAD_LINE, "has the lists of 2 changes; one is judged at a time$", *add)
    # 20 and 4 come before 13.
    write(list, "store 136 1\n")
    assert program.done("add", t, code(10), 10, "--cut", 3).startswith("cut off")
    program.refuses(NOT_SETTLED, "has an unfinished change; catalogue repair .*t finishes it$", *add)
    words = read_words(t)
    write_words(t, words[:9] + [9] + words[10:])
    program.refuses(NOT_SOUND, "is not sound", *add)


TESTS = [the_drawings, our_lists, spoilt_lists, forms_of_lists, refusals]
