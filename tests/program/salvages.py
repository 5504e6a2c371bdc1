"""Salvage of damaged tables: what is kept, what is dropped and how it is reported, and when no file is made."""
import os
import random
import re
import resource
import struct
import subprocess

from drive import *

RANGE, CODE, RECORDING = "recording number or class out of range", "code already kept", "recording already kept"


def word_of(node, word):
    return 8 + 32 * (node - 1) + word


def leaf(sibling, fence, slots, left=MARK, level=0):
    """A node's words; its slots are pairs of key and pointer."""
    return [left, sibling, level, fence, 0, 0, 0, 0] + [w for s in slots for w in s] + (24 - 2 * len(slots)) * [0]


def write_table(path, root, *nodes):
    write_words(path, [1, root, len(nodes), 0, 0, 0, 0, 0] + [w for n in nodes for w in n])


def plural(n, what):
    return f"{n} {what}{'' if n == 1 else 's'}"


def salvages(program, t, u, lines, kept, used, dropped):
    """A salvage's whole answer; the new table is settled with these lines of code, recording and class, and the old one as it was."""
    before, nodes = contents(t), read_words(t)[2]
    said = f"made {u} with {plural(nodes, 'node')}: {plural(kept, 'code')} kept, {plural(len(dropped), 'slot')} dropped, {plural(used, 'node')} used\n"
    out = program.done("salvage", t, u)
    assert out == "".join(f"dropped {d}\n" for d in dropped) + said, out
    assert contents(t) == before and os.listdir(os.path.dirname(u)).count(os.path.basename(u)) == 1
    assert program.done("check", u) == f"{u} is settled: {plural(kept, 'code')} in {used} of {nodes} nodes, {nodes - used} free\n"
    assert program.done("list", u) == lines, lines
    os.remove(u)


def nothing_lost(program, folder):
    """Sound tables, settled and with each leftover: nothing is dropped, and the list is the same."""
    t, u = f"{folder}/t", f"{folder}/u"
    program.done("make", t, 1)
    salvages(program, t, u, "", 0, 1, [])
    os.remove(t)
    fill(program, t, 40, [(code(7 * i % 199), f"{1 + i},{CLASSES[i % 3]}") for i in range(150)])
    program.done("add", t, "#7", 1000)
    # 151 pairs: 14 leaves, 2 inner nodes and the root.
    salvages(program, t, u, program.done("list", t), 151, 17, [])
    # A full leaf under a full root: two splits and a new root; and a code taken out.
    os.remove(t)
    fill(program, t, 16, [(code(10 * i), 100 + i) for i in range(1, 67)])
    whole, cuts = contents(t), 0
    for change in (["add", code(701), 99], ["remove", code(200)]):
        for c in range(0, len(orders_of(program.done("orders", t, *change))), 2 if program.quick else 25):
            program.done(change[0], t, *change[1:], "--cut", c)
            lines = program.done("list", t)
            salvages(program, t, u, lines, lines.count("\n"), 8 if lines.count("\n") > 66 else 7, [])
            cuts += 1
            with open(t, "wb") as f:
                f.write(whole)
    return f"{cuts} cuts"


def damaged_slots(program, folder):
    """Recordings and classes out of range, codes and recordings twice, in the order met; places count from 0, hidden slots included."""
    t, u = f"{folder}/t", f"{folder}/u"
    keys = [key(code(10 * i)) for i in range(1, 20)]
    good = [(keys[i], 100 + i) for i in range(10)]
    line = lambda i, pointer: f"{code(10 * (i + 1))},{pointer}"

    def told(damage, dropped, missing, **other):
        """The good slots but for some; the pairs lost, and those that are kept with other recordings."""
        slots = list(good)
        for place, slot in damage:
            slots[place] = slot
        write_table(t, 1, leaf(0, 0, slots), leaf(0, 0, []))
        lines = "".join(f"{line(i, other.get(f'of_{i}', 100 + i))},open\n" for i in range(10) if i not in missing)
        salvages(program, t, u, lines, lines.count("\n"), 1, dropped)

    told([], [], [])
    told([(3, (keys[3], 2**56))], [f"{line(3, '0,room')} (node 1, slot 3): {RANGE}"], [3])
    told([(3, (keys[3], 3 * 2**56 + 5))], [f"{line(3, '5,3')} (node 1, slot 3): {RANGE}"], [3])
    told([(9, (keys[9], MARK))], [f"{line(9, f'{MOST_RECORDING},255')} (node 1, slot 9): {RANGE}"], [9])
    told([(4, (keys[2], 104))], [f"{line(2, '104,open')} (node 1, slot 4): {CODE}"], [4])
    told([(6, (keys[6], 102 + 2**56))], [f"{line(6, '102,room')} (node 1, slot 6): {RECORDING}"], [6])
    # The first reason that holds.
    told([(5, (keys[1], 2**56)), (6, (keys[1], 103)), (7, (keys[7], 104)), (8, (keys[8], 104 + 2**57))],
         [f"{line(1, '0,room')} (node 1, slot 5): {RANGE}", f"{line(1, '103,open')} (node 1, slot 6): {CODE}",
          f"{line(7, '104,open')} (node 1, slot 7): {RECORDING}", f"{line(8, '104,closed')} (node 1, slot 8): {RECORDING}"], [5, 6, 7, 8])
    # A code that is dropped for its recording is not kept: the next one with it is.
    told([(7, (keys[7], 104)), (8, (keys[7], 108))], [f"{line(7, '104,open')} (node 1, slot 7): {RECORDING}"], [8], of_7=108)
    # A hidden slot has a place and is not reported.
    told([(0, (keys[0], MARK)), (2, (keys[1], 102))], [f"{line(1, '102,open')} (node 1, slot 2): {CODE}"], [0, 2])
    # A key that no code has.
    write_table(t, 1, leaf(0, 0, [(5, 1), (7, 2), (7, 3)]))
    salvages(program, t, u, "#5,1,open\n#7,2,open\n", 2, 1, [f"#7,3,open (node 1, slot 2): {CODE}"])


def damaged_ways(program, folder):
    """Rings of siblings, nodes met twice, numbers and levels that are wrong: what can still be come to is kept, and each leaf once."""
    t, u = f"{folder}/t", f"{folder}/u"
    pairs = [(key(code(i)), 100 + i) for i in range(30)]
    lines = lambda *ranges: "".join(f"{code(i)},{100 + i},open\n" for r in ranges for i in r)
    leaves = lambda last: [leaf(2, 0, pairs[:10]), leaf(3, pairs[10][0], pairs[10:20]), leaf(last, pairs[20][0], pairs[20:])]
    root = lambda *slots: leaf(0, 0, slots, left=1, level=1)
    ways = (pairs[10][0], 2), (pairs[20][0], 3)

    def kept(last, top, *ranges):
        write_table(t, 4, *leaves(last), top)
        salvages(program, t, u, lines(*ranges), sum(map(len, ranges)), sum(map(len, ranges)) // 11 + 2, [])

    kept(0, root(*ways), range(30))
    # The siblings alone lead to every leaf, whatever the root's slots and its sibling are.
    kept(0, root(), range(30))
    kept(0, root((pairs[10][0], 9), (pairs[20][0], 4)), range(30))
    kept(0, leaf(7, 0, [], left=1, level=1), range(30))
    # A ring; its last leaf then ends below the fence of its sibling, so that all its slots are past it.
    kept(1, root(*ways), range(20))
    # From a leaf's own number, and from a node on another level: the fence counts all the same.
    kept(3, root(*ways), range(20))
    kept(4, root(*ways), range(20))
    # From a number that the table has no node for: none does.
    kept(5, root(*ways), range(30))
    # A chain that is cut: the parent's slot leads on.
    whole = leaves(0)
    write_table(t, 4, whole[0], leaf(0, pairs[10][0], pairs[10:20]), whole[2], root(*ways))
    salvages(program, t, u, lines(range(30)), 30, 4, [])
    # Neither does: that leaf is lost, without a word of it.
    write_table(t, 4, whole[0], leaf(0, pairs[10][0], pairs[10:20]), whole[2], root(ways[0]))
    salvages(program, t, u, lines(range(20)), 20, 3, [])
    # A leaf of a wrong level, with both ways to it.
    write_table(t, 4, whole[0], leaf(3, pairs[10][0], pairs[10:20], level=2**63), whole[2], root(*ways))
    salvages(program, t, u, lines(range(10), range(20, 30)), 20, 3, [])
    # The root is its own child and sibling.
    write_table(t, 1, leaf(1, 0, [(key(code(5)), 1)], left=1, level=1))
    salvages(program, t, u, "", 0, 1, [])


def writes_again(program, folder):
    """A damaged table that every change refuses: the new one takes changes, and has the codes that were kept."""
    t, u = f"{folder}/t", f"{folder}/u"
    fill(program, t, 40, [(code(10 * i), 100 + i) for i in range(100)])
    words = read_words(t)
    words[word_of(1, 4)] = 77
    write_words(t, words)
    program.refuses(NOT_SOUND, f"find still answers .*, and catalogue salvage {t} NEW keeps what can be read$", "add", t, code(5), 7)
    program.refuses(NOT_SOUND, "is not sound", "list", t)
    assert program.done("salvage", t, u, "--wait", 5).endswith(f"made {u} with 40 nodes: 100 codes kept, 0 slots dropped, 11 nodes used\n")
    program.done("add", u, code(5), 7)
    program.done("remove", u, code(10))
    assert listed(program.done("list", u)) == [(code(0), 100), (code(5), 7)] + [(code(10 * i), 100 + i) for i in range(2, 100)]


def refusals_of_a_salvage(program, folder):
    """10, and every reason for which no file is made; a file that is there stays."""
    t, u = f"{folder}/t", f"{folder}/u"
    twelve = [(key(code(i)), 100 + i) for i in range(12)]
    write_table(t, 1, leaf(0, 0, twelve))
    program.refuses(NO_NODES, f"the codes of {t}, packed anew, take more nodes than its 1$", "salvage", t, u)
    write_table(t, 1, leaf(2, 0, twelve), leaf(0, key(code(12)), [(key(code(20)), 1)]), leaf(0, 0, []))
    assert program.done("salvage", t, u).endswith(f"made {u} with 3 nodes: 13 codes kept, 0 slots dropped, 3 nodes used\n")
    saved = contents(u)
    program.refuses(BAD_FILE, f"{u} exists already and stays as it is$", "salvage", t, u)
    program.refuses(BAD_FILE, f"{t} exists already and stays as it is$", "salvage", t, t)
    assert contents(u) == saved
    os.remove(u)
    os.symlink("none", u)
    program.refuses(BAD_FILE, "exists already and stays as it is", "salvage", t, u)
    os.remove(u)
    program.refuses(BAD_FILE, "cannot be made", "salvage", t, f"{folder}/none/u")
    program.refuses(BAD_FILE, "cannot be made: File name too long", "salvage", t, f"{folder}/{'u' * 300}")
    program.refuses(BAD_FILE, "there is no file", "salvage", u, f"{folder}/v")
    for words in (["salvage", t], ["salvage"], ["salvage", t, u, 3]):
        program.refuses(BAD_USAGE, "usage: catalogue salvage TABLE NEW ", *words)
    for option in (["--fast"], ["--cut", 1]):
        program.refuses(BAD_USAGE, f"salvage takes no {option[0]}", "salvage", t, u, *option)

    def small_files():
        resource.setrlimit(resource.RLIMIT_FSIZE, (100, 100))
    program.refuses(BAD_FILE, "cannot be written: File too large", "salvage", t, u, preexec_fn=small_files, restore_signals=False)
    with open("/dev/full", "w") as full:
        run = program.start("salvage", t, u, stdout=full, stderr=subprocess.PIPE)
        _, err = run.communicate(timeout=120)
    assert run.returncode == BAD_FILE and "cannot be printed" in err, (run.returncode, err)
    os.remove(u)
    assert os.listdir(folder) == ["t"], os.listdir(folder)


def no_table_any_more(program, folder):
    """A damaged header, and a file cut short: with the nodes and the root that the header had everything that is there is kept."""
    t, u = f"{folder}/t", f"{folder}/u"
    fill(program, t, 40, [(code(10 * i), 100 + i) for i in range(100)])
    whole, good = contents(t), read_words(t)
    lines, root = program.done("list", t), good[1]
    last = "made {} with 40 nodes: 100 codes kept, 0 slots dropped, 11 nodes used\n".format(u)

    def damaged(data):
        with open(t, "wb") as f:
            f.write(data)

    for at, word in ((0, 0), (0, 77), (1, 0), (1, 41), (1, MARK), (2, 0), (2, 39), (2, MARK), (4, 1), (7, MARK)):
        damaged(struct.pack("<Q", word).join((whole[:8 * at], whole[8 * at + 8:])))
        for command in (["salvage", t, u], ["check", t], ["find", t, code(10)]):
            program.refuses(NO_TABLE, "is not a table|its header says", *command)
        assert program.done("salvage", t, u, "--root", root) == last and program.done("list", u) == lines, (at, word)
        os.remove(u)
        if at != 1:
            assert program.done("salvage", t, u, "--nodes", 40) == last and program.done("list", u) == lines, (at, word)
            os.remove(u)
        assert contents(t)[:8] == (whole[:8] if at else struct.pack("<Q", word))
    # No header at all: the highest node is named, and is the root.
    damaged(bytes(64) + whole[64:])
    program.refuses(NO_TABLE, f"the header of {t} names no root: say it with --root; the highest node is {root}$", "salvage", t, u, "--nodes", 40)
    assert program.done("salvage", t, u, "--root", root, "--nodes", 40) == last and program.done("list", u) == lines
    program.refuses(BAD_FILE, f"{u} exists already and stays as it is$", "salvage", t, u, "--root", root)
    os.remove(u)
    # Cut short: what is left of the leaves, each code with its own recording. The trailer, or half a node, counts for nothing.
    for nodes in range(1, 41) if program.quick else (5, 20):
        for more in (0, 64, 100):
            damaged(whole[:64 + 256 * nodes + more])
            out = program.done("salvage", t, u, "--nodes", 40, "--root", root if root <= nodes else 1)
            kept = program.done("list", u)
            assert set(kept.splitlines()) <= set(lines.splitlines()) and f"{kept.count(chr(10))} codes kept" in out.replace("code kept", "codes kept"), out
            assert kept.count("\n") >= min(nodes - 1, 8), (nodes, out)
            if nodes == 40 or nodes >= 22 and more:
                assert nodes < 40 or kept == lines, (nodes, more)
            os.remove(u)
    damaged(whole[:100])
    assert "0 codes kept" in program.done("salvage", t, u, "--nodes", 40, "--root", 3)
    os.remove(u)
    damaged(whole)
    assert program.done("salvage", t, u, "--nodes", 40) == last
    os.remove(u)
    for option in (["--nodes", 0], ["--nodes", 65536], ["--nodes", "x"], ["--root", 0], ["--root", 65536], ["--loan-root", "x"]):
        program.refuses(BAD_USAGE, f"{option[0]} takes a n", "salvage", t, u, *option)
    program.refuses(NO_TABLE, "a root is one of them", "salvage", t, u, "--root", 41)
    program.refuses(NO_TABLE, "a root is one of them", "salvage", t, u, "--root", 3, "--loan-root", 3)
    program.refuses(BAD_FILE, "cannot be read: No such file", "salvage", f"{folder}/none", u, "--root", 3)
    program.refuses(BAD_FILE, "cannot be read: ", "salvage", folder, u, "--root", 3)
    # Two collections.
    os.remove(t)
    fill(program, t, 40, [(code(10 * i), 100 + i) for i in range(30)], [(code(i), 100 + i) for i in range(50)])
    both, roots = [program.done("list", t, *naming(n)) for n in (1, 2)], read_words(t)[1:4:2]
    damaged(bytes(64) + contents(t)[64:])
    program.done("salvage", t, u, "--root", roots[0], "--loan-root", roots[1])
    assert [program.done("list", u, *naming(n)) for n in (1, 2)] == both
    os.remove(u)
    program.done("salvage", t, u, "--root", roots[0], "--loan-root", 0)
    assert program.done("list", u) == both[0]
    program.refuses(NO_COLLECTION, "no collection 2", "list", u, *naming(2))
    return None


def words_that_changed(program, folder):
    """Some words of a table changed at random: a new table that is settled, each of its pairs a slot of the old one, each slot that is reported
    as dropped one of the old one too; or the header is not a table's."""
    t, u, chance = f"{folder}/t", f"{folder}/u", random.Random(20261116)
    fill(program, t, 60, [(code(7 * i % 307), 1 + i) for i in range(240)])
    whole, ended, reasons = read_words(t), {0: 0, NO_TABLE: 0}, dict.fromkeys((RANGE, CODE, RECORDING), 0)
    for _ in range(60 if program.quick else 10):
        words = list(whole)
        for _ in range(chance.choice([1, 10, 100])):
            value = chance.choice([chance.randrange(2**64), chance.randrange(61), chance.choice(whole), chance.choice(whole) ^ 1 << chance.randrange(64)])
            words[chance.randrange(len(words))] = value
        write_words(t, words)
        status, out, err = program("salvage", t, u)
        ended[status] += 1
        if status != 0:
            continue
        slots = {(words[w], words[w + 1]) for n in range(1, 61) for w in range(word_of(n, 8), word_of(n, 32), 2)}
        new = {(int(k[1:]) if k[0] == "#" else key(k), r + 2**56 * CLASSES.index(a)) for k, (r, a) in everything(program.done("list", u)).items()}
        assert new <= slots, new - slots
        told = [re.fullmatch(r"dropped (\w+|#\d+),(\d+),(\w+) \(node (\d+), slot (\d+)\): (.*)", line).groups() for line in out.splitlines()[:-1]]
        for k, r, _, n, p, reason in told:
            at = word_of(int(n), 8 + 2 * int(p))
            assert (key(k) if k[0] != "#" else int(k[1:])) == words[at] and int(r) == words[at + 1] & MOST_RECORDING, (k, r, n, p)
            reasons[reason] += 1
        assert f": {plural(len(new), 'code')} kept, {plural(len(told), 'slot')} dropped, " in out.splitlines()[-1], out
        assert " is settled: " in program.done("check", u)
        os.remove(u)
    assert ended[0] > 0 and (not program.quick or all(reasons.values())), (ended, reasons)
    return f"{sum(ended.values())} tables, dropped {list(reasons.values())}"


TESTS = [nothing_lost, damaged_slots, damaged_ways, writes_again, refusals_of_a_salvage, no_table_any_more, words_that_changed]
