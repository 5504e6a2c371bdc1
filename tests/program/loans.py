"""The loan collection: tables of two collections, every command with and without one named, and tables of one as before."""
import os
import re
import shutil

from commands import BEFORE, HUNDRED
from cuts import cut_everywhere, state
from drive import *

TWO = naming(2)
# Commands that name a collection, with a table and a file to load.
NAMING = [["find", "t", code(1)], ["list", "t"], ["list", "t", code(1), code(9)], ["add", "t", code(50), 50], ["remove", "t", code(1)],
          ["class", "t", code(1), "room"], ["load", "t", "csv"], ["orders", "t", "add", code(50), 50], ["orders", "t", "remove", code(1)],
          ["orders", "t", "class", code(1), "room"]]


def both(program, t):
    """What each collection's list prints."""
    return [program.done("list", t, *naming(n)) for n in (1, 2)]


def making_two(program, folder):
    t = f"{folder}/t"
    assert program.done("make", t, 2, "--loan") == f"made {t} with 2 nodes and two collections\n"
    assert read_words(t) == [1, 1, 2, 2, 0, 0, 0, 0] + 2 * ([MARK] + 31 * [0])
    assert program.done("check", t) == f"{t} is settled: 0 codes in 2 of 2 nodes, 0 free\ncollection 1: 0 codes in 1 node\ncollection 2: 0 codes in 1 node\n"
    u = f"{folder}/u"
    for nodes in (0, 1, 65536):
        program.refuses(NO_TABLE, f"a table of two collections has 2 to 65535 nodes, not {nodes}$", "make", u, nodes, "--loan")
    program.refuses(BAD_USAGE, "--loan takes no value", "make", u, 4, "--loan=2")
    assert not os.path.exists(u)
    program.done("make", u, 65535, "--loan")
    assert " 0 codes in 2 of 65535 nodes, 65533 free\n" in program.done("check", u)
    os.remove(u)


def wrong_command_lines(program, folder):
    """A collection where none is named, one that is no number, and --loan where nothing is made."""
    t = f"{folder}/t"
    program.done("make", t, 4, "--loan")
    for words in (["make", f"{folder}/u", 4], ["check", t], ["show", t], ["repair", t], ["copy", t, f"{folder}/u", 9],
                  ["salvage", t, f"{folder}/u"], ["orders", t, "repair"], ["help"]):
        program.refuses(BAD_USAGE, f"{words[0]}( repair)? takes no --collection", *words, *TWO)
    for words in (["add", t, code(1), 1], ["check", t], ["copy", t, f"{folder}/u", 9]):
        program.refuses(BAD_USAGE, f"{words[0]} takes no --loan", *words, "--loan")
    for collection in ("", "two", "-1", "1.0", 2**64):
        program.refuses(BAD_USAGE, "--collection takes a number, 1 or 2", "list", t, f"--collection={collection}")
    program.refuses(BAD_USAGE, "--collection takes a number", "list", t, "--collection")


def every_command(program, folder):
    """Each command on one collection, and the other as it was; if none is named it is collection 1."""
    t, csv = f"{folder}/t", f"{folder}/csv"
    program.done("make", t, 40, "--loan")
    program.done("load", t, HUNDRED)
    first = program.done("list", t)
    # A code and a recording of collection 1, both in collection 2 as well.
    c, r = listed(first)[3]
    assert program.done("add", t, c, r, "room", *TWO) == f"added {c},{r},room (4 stores, 1 flush)\n"
    assert program.done("find", t, c, *TWO) == f"{r},room\n" and program.done("find", t, c) == program.done("find", t, c, *naming(1)) == f"{r},open\n"
    assert both(program, t) == [first, f"{c},{r},room\n"]
    program.refuses(CODE_THERE, f"{c} is in collection 2 of {t} already$", "add", t, c, 5, *TWO)
    program.refuses(RECORDING_THERE, f"recording {r} is in collection 2 of {t} under {c}$", "add", t, code(5), r, *TWO)
    other, s = listed(first)[7]
    program.refuses(RECORDING_THERE, f"recording {s} is in collection 1 of {t} under {other}$", "add", t, code(5), s)
    program.refuses(NOT_THERE, f"{other} is not in collection 2 of {t}$", "remove", t, other, *TWO)
    program.refuses(NOT_THERE, f"{other} is not in collection 2 of {t}$", "class", t, other, "room", *TWO)
    program.refuses(NOT_THERE, f"{code(5)} is not in collection 1 of {t}$", "remove", t, code(5))
    program.refuses(ABSENT, f"{other} is not in collection 2 of {t}, and no code there is higher$", "find", t, other, *TWO)
    program.refuses(ABSENT, f"{code(0)} is not in collection 2 of {t}; the next code up is {c}$", "find", t, code(0), *TWO)
    assert program.done("class", t, c, "closed", *TWO).endswith(" is closed (1 store, 1 flush)\n")
    assert both(program, t) == [first, f"{c},{r},closed\n"]
    with open(csv, "w") as f:
        f.write("".join(f"{code(10 * i)},{2000 + i},{CLASSES[i % 3]}\n" for i in range(30)))
    assert program.done("load", t, csv, *TWO) == "30 added, 0 there already\n"
    assert program.done("load", t, csv, "--again", "--each", *TWO) == contents(csv).decode() + "0 added, 30 there already\n"
    status, out, err = program("load", t, csv, *TWO)
    assert status == CODE_THERE and f'code "{code(0)}": in collection 2 of {t} already with this recording' in err, (status, err)
    assert program.done("list", t, code(100), code(120), *TWO) == "".join(contents(csv).decode().splitlines(True)[10:13])
    assert both(program, t) == [first, contents(csv).decode() + f"{c},{r},closed\n"]
    orders = orders_of(program.done("orders", t, "remove", code(100), *TWO))
    words = read_words(t)
    assert program.done("remove", t, code(100), *TWO).startswith(f"removed {code(100)} (")
    assert read_words(t) == carried_out(words, orders) and program.done("list", t) == first
    # What is in one is taken out of that one.
    program.done("remove", t, c)
    assert program.done("find", t, c, *TWO) == f"{r},closed\n" and program("find", t, c)[0] == ABSENT
    said = program.done("check", t)
    assert re.search(r"settled: 129 codes in (\d+) of 40 nodes, \d+ free\ncollection 1: 99 codes in \d+ nodes\ncollection 2: 30 codes in \d+ nodes\n$", said), said


def no_such_collection(program, folder):
    """17, and every file as it was: 2 if the table has one, and any other number."""
    t = f"{folder}/t"
    with open(f"{folder}/csv", "w") as f:
        f.write(f"{code(60)},60\n")
    pairs = [(code(i), i) for i in range(1, 20)]
    for loans, numbers in ((None, (0, 2, 3, MARK)), ([(code(1), 1)], (0, 3, 17, MARK))):
        fill(program, t, 6, pairs, loans)
        for words in NAMING:
            for n in numbers:
                pattern = f"^catalogue: {t} has no collection {n}; a table has collection 1, and 2 if it was made with --loan$"
                program.refuses(NO_COLLECTION, pattern, *[f"{folder}/{w}" if w in ("t", "csv") else w for w in words], *naming(n))
        # It is reported before what the table is refused for, and after a code that is none.
        words = read_words(t)
        words[8 + 4] = 1
        write_words(t, words)
        program.refuses(NO_COLLECTION, "has no collection 3;", "add", t, code(50), 0, *naming(3))
        program.refuses(NO_CODE, "not a code", "add", t, "x", 0, *naming(3))
        os.remove(t)
    # No lines to load.
    program.done("make", t, 1)
    open(f"{folder}/csv", "w").close()
    program.refuses(NO_COLLECTION, "has no collection 2;", "load", t, f"{folder}/csv", *TWO)


def one_collection_as_before(program, folder):
    """Tables without --loan, one of them by an older program: the same bytes and the same answers, with collection 1 named or not."""
    t, u = f"{folder}/t", f"{folder}/u"
    fill(program, t, 9, [(code(10 * i), 100 + i) for i in range(1, 31)])
    assert read_words(t)[3:8] == 5 * [0]
    shutil.copy(f"{BEFORE}.cat", u)
    os.chmod(u, 0o644)
    for table in (t, u):
        for command in ("check", "show"):
            assert "collection" not in program.done(command, table)
        c, _ = listed(program.done("list", table))[4]
        for words in (["find", table, c], ["list", table], ["orders", table, "remove", c], ["orders", table, "add", code(5), 5000]):
            assert program.done(*words) == program.done(*words, *naming(1)), words
        for change in (["add", code(5), 5000], ["class", code(5), "room"], ["remove", c]):
            shutil.copy(table, f"{table}2")
            said = program.done(change[0], table, *change[1:])
            assert program.done(change[0], f"{table}2", *change[1:], *naming(1)) == said and contents(f"{table}2") == contents(table)
        program.refuses(CODE_THERE, f"^catalogue: {code(5)} is in {table} already$", "add", table, code(5), 5000)
        program.refuses(ABSENT, f"^catalogue: {c} is not in {table}; the next code up is ", "find", table, c, *naming(1))
        program.refuses(NO_COLLECTION, "has no collection 2;", "list", table, *TWO)
        assert read_words(table)[3:8] == 5 * [0]


def drawing_both(program, folder):
    """Both trees to the letter, the second unfinished; then the first."""
    t = f"{folder}/t"
    fill(program, t, 6, [(code(1), 1)], [(code(10 * i), 100 + i) for i in range(1, 12)])
    orders = orders_of(program.done("orders", t, "add", code(115), 112, *TWO))
    linked = 1 + orders.index((8 + 32 + 1, 4))
    said = program.done("orders", t, "add", code(115), 112, *TWO)
    assert re.search(r"^ *\d+  store 3 3 +the root's number of collection 2$", said, re.M), said
    program.done("add", t, code(115), 112, "--cut", linked, *TWO)
    moved = [(code(60 + 10 * i), 106 + i) for i in range(6)]
    want = (
        f"{t} is sound: 12 codes in 4 of 6 nodes, 2 free\ncollection 1: 1 code in 1 node\ncollection 2: 11 codes in 3 nodes\n"
        "leftover (b) in collection 2: node 4, the sibling of node 2, lacks its slot in node 3; node 2 has 6 trailing slots\n"
        f"\ncollection 1\n\nlevel 0: code, recording and class\n  node 1, the root, fence #0\n     0  {code(1)}  1,open\n"
        "\ncollection 2\n\nlevel 1\n  node 3, the root, fence #0\n        left          -> node 2\n"
        "\nlevel 0: code, recording and class\n  node 2, fence #0, sibling -> node 4\n"
        + "".join(f"    {i:2}  {code(10 + 10 * i)}  {101 + i},open\n" for i in range(5))
        + "".join(f"    {i + 5:2}  {c}  {r},open   trailing\n" for i, (c, r) in enumerate(moved))
        + f"  node 4, fence {code(60)}, lacks its slot\n"
        + "".join(f"    {i:2}  {c}  {r},open\n" for i, (c, r) in enumerate(moved)))
    assert program.done("show", t) == want, program.done("show", t)
    assert want.startswith(program.done("check", t))
    program.done("repair", t)
    program.done("add", t, code(2), 2)
    program.done("remove", t, code(1), "--cut", 1)
    said = program.done("check", t)
    assert said.endswith("collection 2: 11 codes in 3 nodes\nleftover (a) in collection 1: node 1 has a hidden slot, slot 0\n"), said
    # A node of both trees, which is not sound, is drawn in each.
    words = read_words(t)
    words[3] = 4
    write_words(t, words)
    status, out, err = program("show", t)
    assert status == NOT_SOUND and "is not sound" in err and out.count("  node 4, the root, ") == 1, (status, out)
    words[3] = words[1]
    write_words(t, words)
    status, out, err = program("show", t)
    assert status == NOT_SOUND and out.count("  node 1, the root, ") == 2, (status, out)


def second_roots(program, folder):
    """A second root above N is no table; one in the first tree is not sound, and a search in either does not notice."""
    t = f"{folder}/t"
    fill(program, t, 9, [(code(i), i) for i in range(30)][1:], [(code(i), i) for i in range(30, 40)])
    good = read_words(t)
    for root, status in [(10, NO_TABLE), (MARK, NO_TABLE), (good[1], NOT_SOUND), (0, 0)]:
        words = list(good)
        words[3] = root
        write_words(t, words)
        if status == NO_TABLE:
            for command in (["find", t, code(1)], ["list", t], ["check", t], ["add", t, code(50), 50], ["repair", t]):
                program.refuses(NO_TABLE, "is not a table", *command)
        elif status == NOT_SOUND:
            assert program.done("find", t, code(1)) == program.done("find", t, code(1), *TWO) == "1,open\n"
            for command in (["list", t], ["list", t, *TWO], ["check", t], ["add", t, code(50), 50], ["add", t, code(50), 50, *TWO], ["repair", t]):
                program.refuses(NOT_SOUND, "is not sound", *command)
        else:
            # Nodes that no root leads to any more are free.
            assert program.done("check", t).startswith(f"{t} is settled: 29 codes ")
            program.refuses(NO_COLLECTION, "has no collection 2", "list", t, *TWO)
    # A damaged first tree: searches in the second go on.
    words = list(good)
    words[8 + 32 * (good[1] - 1) + 2] = 99
    write_words(t, words)
    program.refuses(LOST, "is damaged on the way to", "find", t, code(1))
    assert program.done("find", t, code(31), *TWO) == "31,open\n"
    program.refuses(NOT_SOUND, "is not sound", "list", t, *TWO)


def cuts_in_either(program, folder):
    """A split of each collection, cut everywhere: the states as in a table of one, the other's list as ever."""
    t, orders = f"{folder}/t", 0
    pairs = [(code(10 * i), 100 + i) for i in range(1, 12)]
    fill(program, t, 6, pairs, [(c, r + 50) for c, r in pairs])
    for collection in (1, 2):
        codes = [c for c, _ in pairs[::3]] + [code(115)]
        states, some = cut_everywhere(program, folder, t, ["add", code(115), 112], codes, collection)
        assert not program.quick or states == ["settled", "b6", "b", "c", "settled", "a", "settled"], states
        orders += len(some)
    return f"{orders} orders"


def finished_by_the_other(program, folder):
    """A change cut off at every count, then a change of the other collection: it begins with the repair, and both have all that is theirs."""
    t, u, finished = f"{folder}/t", f"{folder}/u", set()
    pairs = [(code(10 * i), 100 + i) for i in range(1, 12)]
    fill(program, t, 9, pairs, pairs)
    for collection, other in ((1, 2), (2, 1)):
        cut = ["add", code(115), 112]
        count = len(orders_of(program.done("orders", t, *cut, *naming(collection))))
        for c in range(0, count + 1, 1 if program.quick else 11):
            changes = [["add", code(5), 500 + c, "closed"], ["remove", code(10 + 10 * (c % 11))], ["class", code(20), "room"]]
            change = changes[c % 3]
            shutil.copy(t, u)
            program.done(cut[0], u, *cut[1:], "--cut", c, *naming(collection))
            left = state(program, u)
            finished.add(left)
            before = both(program, u)
            repair = orders_of(program.done("orders", u, "repair"))
            orders = orders_of(program.done("orders", u, *change, *naming(other)))
            stores = [o for o in orders if o]
            assert stores[:sum(o is not None for o in repair)] == [o for o in repair if o] and (left == "settled") == (repair == []), (c, left)
            program.done(change[0], u, *change[1:], *naming(other))
            assert state(program, u) == "settled"
            after = both(program, u)
            assert after[collection - 1] == before[collection - 1] and after[other - 1] != before[other - 1], (c, change)
    return ", ".join(sorted(finished))


def nodes_are_shared(program, folder):
    """What one collection takes the other lacks, and a leaf that comes free in one serves the other."""
    t = f"{folder}/t"
    fill(program, t, 4, [(code(10 * i), i) for i in range(1, 17)], [(code(i), i) for i in range(1, 12)])
    assert f"{t} is settled: 27 codes in 4 of 4 nodes, 0 free\n" in program.done("check", t)
    for words in (["add", t, code(165), 99], ["add", t, code(165), 99, *TWO]):
        program.refuses(NO_NODES, f"{t} is full: .* more nodes than are free; catalogue copy {t} NEW NODES", *words)
    larger = f"{folder}/larger"
    program.done("copy", t, larger, 5)
    program.refuses(NO_NODES, "is full", "add", larger, code(165), 99, *TWO)
    for i in range(6, 17):
        program.done("remove", larger, code(10 * i))
    assert "16 codes in 3 of 5 nodes, 2 free\n" in program.done("check", larger)
    program.done("add", larger, code(165), 99, *TWO)
    assert "17 codes in 5 of 5 nodes, 0 free\ncollection 1: 5 codes in 2 nodes\ncollection 2: 12 codes in 3 nodes\n" in program.done("check", larger)


def copies(program, folder):
    """Both collections, with the leftover of either finished in the copy."""
    t, u = f"{folder}/t", f"{folder}/u"
    pairs = [(code(10 * i), 100 + i) for i in range(1, 12)]
    fill(program, t, 6, pairs, [(c, r + 50) for c, r in pairs])
    whole = contents(t)
    for collection, linked in ((1, (9, 4)), (2, (8 + 32 + 1, 4))):
        cut = 1 + orders_of(program.done("orders", t, "add", code(115), 112, *naming(collection))).index(linked)
        program.done("add", t, code(115), 112, "--cut", cut, *naming(collection))
        before = contents(t)
        assert state(program, t) == "b6"
        assert program.done("copy", t, u, 9) == f"made {u} with 9 nodes\n" and contents(t) == before
        assert both(program, u) == both(program, t) and state(program, u) == "settled"
        os.remove(u)
        # Eleven codes each: a leaf each, collection 1's first.
        assert program.done("copy", t, u) == f"made {u} with 2 nodes\n" and read_words(u)[:4] == [1, 1, 2, 2]
        assert both(program, u) == both(program, t) and state(program, u) == "settled"
        program.refuses(NO_TABLE, "a table of two collections has 2 to 65535 nodes, not 1", "copy", t, f"{folder}/v", 1)
        os.remove(u)
        with open(t, "wb") as f:
            f.write(whole)


def leaf(sibling, fence, slots, left=MARK, level=0):
    return [left, sibling, level, fence, 0, 0, 0, 0] + [w for s in slots for w in s] + (24 - 2 * len(slots)) * [0]


def salvages_of_two(program, folder):
    """Both collections are kept, collection 1 first, and what is there twice is judged in each by itself."""
    t, u = f"{folder}/t", f"{folder}/u"
    # Sound: nothing is lost, whatever is unfinished where.
    fill(program, t, 40, [(code(7 * i % 199), f"{1 + i},{CLASSES[i % 3]}") for i in range(100)], [(code(i), 1 + i) for i in range(50)])
    for change in ([], ["add", code(500), 5000, "--cut", 2], ["add", code(60), 5000, "--cut", 2, *TWO], ["remove", code(7), "--cut", 1, *TWO]):
        if change:
            program.done("repair", t)
            program.done(change[0], t, *change[1:])
        want = both(program, t)
        codes = [w.count("\n") for w in want]
        said = program.done("salvage", t, u).splitlines()
        assert said[0].startswith(f"made {u} with 40 nodes: {sum(codes)} codes kept, 0 slots dropped, ") and len(said) == 3, said
        assert [int(line.split()[2]) for line in said[1:]] == codes, said
        assert both(program, u) == want and state(program, u) == "settled"
        os.remove(u)
    # Damaged: the same code and the same recording twice in each, and once in both.
    a, b, c = (key(code(i)) for i in (10, 20, 30))
    slots = [(a, 1), (b, 2), (c, 1), (a, 3)]
    write_words(t, [1, 2, 4, 1, 0, 0, 0, 0] + leaf(0, 0, slots) + leaf(0, 0, slots) + 2 * leaf(0, 0, [], left=0))
    program.refuses(NOT_SOUND, "is not sound", "check", t)
    dropped = [f"dropped {code(k)},{r},open (node {n}, slot {p}): {why} already kept\n" for n in (2, 1) for k, r, p, why in ((30, 1, 2, "recording"), (10, 3, 3, "code"))]
    each = "".join(f"collection {n}: 2 codes in 1 node\n" for n in (1, 2))
    assert program.done("salvage", t, u) == "".join(dropped) + f"made {u} with 4 nodes: 4 codes kept, 4 slots dropped, 2 nodes used\n" + each
    assert both(program, u) == 2 * [f"{code(10)},1,open\n{code(20)},2,open\n"]
    assert read_words(u)[:4] == [1, 1, 4, 2]
    os.remove(u)
    # A root in the midst of the other tree: what the first came to is the first's, and the second is one empty leaf.
    write_words(t, [1, 3, 4, 2, 0, 0, 0, 0] + leaf(2, 0, [(a, 1)]) + leaf(0, b, [(b, 2)]) + leaf(0, 0, [(b, 2)], left=1, level=1) + leaf(0, 0, []))
    assert program.done("salvage", t, u).endswith("2 codes kept, 0 slots dropped, 2 nodes used\ncollection 1: 2 codes in 1 node\ncollection 2: 0 codes in 1 node\n")
    os.remove(u)
    # Ten, by the nodes of both.
    twelve = [(key(code(i)), 1 + i) for i in range(12)]
    write_words(t, [1, 1, 3, 2, 0, 0, 0, 0] + leaf(0, 0, twelve) + leaf(0, 0, []) + leaf(0, 0, []))
    program.refuses(NO_NODES, f"the codes of {t}, packed anew, take more nodes than its 3$", "salvage", t, u)


TESTS = [making_two, wrong_command_lines, every_command, no_such_collection, one_collection_as_before, drawing_both, second_roots, cuts_in_either,
         finished_by_the_other, nodes_are_shared, copies, salvages_of_two]
