"""Changes cut off: at every count of orders, and by kill -9 at any moment."""
import itertools
import os
import random
import re
import shutil
import signal
import subprocess
import time

from drive import *


def state(program, t):
    """What check says: 'settled', or the leftover's letter with the number of trailing slots. show says the same."""
    said = program.done("check", t)
    drawn = program.done("show", t)
    assert drawn.startswith(said)
    hidden, trailing = drawn.count("   hidden\n"), drawn.count("   trailing\n")
    if " is settled: " in said:
        lines = 3 if "\ncollection 1: " in said else 1
        assert (hidden, trailing) == (0, 0) and "lacks its slot" not in drawn and said.count("\n") == lines, drawn
        return "settled"
    assert " is sound: " in said, said
    letter = re.search(r"^leftover \((.)\)", said, re.M)[1]
    assert hidden == (letter != "b") and drawn.count(", lacks its slot\n") == (letter != "a"), drawn
    assert trailing == 0 if letter != "b" else (f" {trailing} trailing slot" in said) == (trailing > 0), drawn
    return letter + (str(trailing) if trailing else "")


def found(program, t, codes, *words):
    """What find says of each code, None if it is absent."""
    answers = {}
    for c in codes:
        status, out, err = program("find", t, c, *words)
        assert status in (0, ABSENT), (status, out, err)
        answers[c] = (int(out.split(",")[0]), out.strip().split(",")[1]) if status == 0 else None
    return answers


def cut_everywhere(program, folder, t, change, codes, collection=None, dock=None):
    """The change cut at every count, or at every ninth for a slow program: the words of the first orders, every other code as before, the
    changed one as before or as after, the same once repaired, for dock 0; with a collection named, the other one as ever. The states that
    were met, in order, and the orders."""
    own = naming(collection) if collection else []
    named = (own if change[0] != "repair" else []) + (docked(dock) if dock is not None else [])
    others = lambda table: program.done("list", table, *naming(3 - collection)) if collection else None
    before, words, beside = everything(program.done("list", t, *own)), read_words(t), others(t)
    orders = orders_of(program.done("orders", t, *change, *named))
    after = dict(before)
    if change[0] == "add":
        after[change[1]] = (change[2], change[3] if len(change) > 3 else "open")
    elif change[0] == "remove":
        del after[change[1]]
    elif change[0] == "class":
        after[change[1]] = (before[change[1]][0], change[2])
    states, u, made = [], f"{folder}/cut", False
    for c in range(len(orders), -1, -1 if program.quick else -9)[::-1]:
        shutil.copy(t, u)
        out = program.done(change[0], u, *change[1:], "--cut", c, *named)
        assert out.startswith(f"cut off after {c} of {len(orders)} orders") == (c < len(orders)), out
        assert read_words(u) == carried_out(words, orders[:c]), c
        states.append(state(program, u))
        answers = found(program, u, codes, *own)
        now = everything(program.done("list", u, *own))
        assert others(u) == beside, c
        assert now == after if made or c == len(orders) else now == before if c == 0 else now in (before, after), c
        made = made or now != before
        assert answers == {k: now.get(k) for k in codes}, c
        settled = states[-1] == "settled"
        assert program.done("repair", u).startswith("nothing to repair (0 " if settled else "repaired ("), c
        assert state(program, u) == "settled" and everything(program.done("list", u, *own)) == now and others(u) == beside, c
        assert settled or found(program, u, codes, *own) == answers, c
    return [s for s, _ in itertools.groupby(states)], orders


def a_leaf_that_splits(program, folder):
    """Document 01's root leaf with eleven keys: a new root, a split and the leaf."""
    t = f"{folder}/t"
    pairs = [(code(10 * i), 100 + i) for i in range(1, 12)]
    fill(program, t, 3, pairs)
    states, orders = cut_everywhere(program, folder, t, ["add", code(115), 112], [c for c, _ in pairs] + [code(115)])
    assert not program.quick or states == ["settled", "b6", "b", "c", "settled", "a", "settled"], states
    assert sum(o is not None for o in orders) == 75 and len(orders) == 88
    return f"{len(orders)} orders"


def two_levels_that_split(program, folder):
    """A full leaf under a full root: two splits and a new root."""
    t = f"{folder}/t"
    pairs = [(code(10 * i), 100 + i) for i in range(1, 67)]
    fill(program, t, 16, pairs)
    some = [c for c, _ in pairs[::15] + pairs[-3:]] + [code(701)]
    states, orders = cut_everywhere(program, folder, t, ["add", code(701), 99], some)
    assert not program.quick or states == ["settled", "b6", "b", "c", "settled", "b6", "b", "c", "settled", "a", "settled"], states
    return f"{len(orders)} orders"


def removals_and_repairs(program, folder):
    t = f"{folder}/t"
    pairs = [(code(10 * i), 100 + i) for i in range(1, 12)]
    codes = [c for c, _ in pairs] + [code(115)]
    fill(program, t, 3, pairs)
    cuts = 0
    for c in (10, 60, 110):
        states, orders = cut_everywhere(program, folder, t, ["remove", code(c)], codes)
        assert not program.quick or states == ["settled", "a", "settled"], states
        cuts += len(orders) + 1
    # A repair is a change too, and may be cut.
    whole, add = f"{folder}/whole", ["add", code(115), 112]
    shutil.copy(t, whole)
    orders = orders_of(program.done("orders", t, *add))
    for c in range(0, len(orders) + 1, 1 if program.quick else 9):
        shutil.copy(whole, t)
        program.done(add[0], t, *add[1:], "--cut", c)
        if state(program, t) != "settled":
            states, orders_of_repair = cut_everywhere(program, folder, t, ["repair"], codes[::3])
            assert states[-1] == "settled", states
            cuts += len(orders_of_repair) + 1
    return f"{cuts} cuts"


def a_leaf_that_comes_back(program, folder):
    """The last code of a leaf under a parent with one slot, with two at either place: the leaf's slot and the leaf go; a cut in between
    leaves an ordinary leftover, and repair attaches the leaf again."""
    t, cuts = f"{folder}/t", 0
    for leaves, emptied in ((2, 1), (3, 1), (3, 2)):
        # Rising codes leave five to a leaf and seven to the last.
        pairs = [(code(10 * i), 100 + i) for i in range(1, 5 * leaves + 3)]
        fill(program, t, 9, pairs)
        codes = [c for c, _ in pairs[5 * emptied:]][:5 if emptied + 1 < leaves else None]
        for c in codes[1:]:
            program.done("remove", t, c)
        before = program.done("check", t)
        assert f" in {leaves + 1} of 9 nodes, {8 - leaves} free\n" in before, before
        states, orders = cut_everywhere(program, folder, t, ["remove", codes[0]], [c for c, _ in pairs[::2]] + [codes[0]])
        assert not program.quick or states == ["settled", "a", "settled", "c", "b", "settled"], states
        cuts += len(orders) + 1
        program.done("remove", t, codes[0])
        assert f" in {leaves} of 9 nodes, {9 - leaves} free\n" in program.done("check", t)
        os.remove(t)
    return f"{cuts} cuts"


def classes_that_change(program, folder):
    """On a settled table one store, and its flush; on one that a cut left unfinished, the repair's before it."""
    t = f"{folder}/t"
    fill(program, t, 3, [(code(10 * i), f"{100 + i},{CLASSES[i % 3]}") for i in range(1, 12)])
    codes, whole, cuts = [code(10 * i) for i in range(1, 12)] + [code(115)], contents(t), 0
    for c, access in ((10, "open"), (10, "room"), (60, "closed"), (110, "open")):
        states, orders = cut_everywhere(program, folder, t, ["class", code(c), access], codes)
        assert states == ["settled"] and len(orders) == 2, (states, orders)
    for c in range(33, 87, 5 if program.quick else 18):
        with open(t, "wb") as f:
            f.write(whole)
        program.done("add", t, code(115), 112, "room", "--cut", c)
        left = state(program, t)
        states, orders = cut_everywhere(program, folder, t, ["class", code(70), "closed"], codes[::3] + [code(70)])
        assert states[-1] == "settled" and (len(orders) == 2) == (left == "settled"), (c, left, states)
        cuts += len(orders) + 1
    return f"{cuts} cuts"


def killed(program, t, csv, chance):
    """A load killed at some moment, so slow that this is in the middle of an order list: the lines that it acknowledged. With a pause it
    goes line by line; batches are killed in scale.py."""
    load = program.start("load", t, csv, "--each", "--pause", chance.choice((1, 50)), stdout=subprocess.PIPE)
    acknowledged = "".join(load.stdout.readline() for _ in range(chance.randrange(12)))
    time.sleep(0.01 * chance.random())
    load.send_signal(signal.SIGKILL)
    acknowledged += load.stdout.read()
    load.stdout.close()
    assert load.wait() == -signal.SIGKILL, load.returncode
    return listed(acknowledged[:acknowledged.rfind("\n") + 1])


def killed_while_it_loads(program, folder):
    """kill -9 at any moment of a load: the table is sound, repair settles it, and it has every line that was acknowledged and at most the
    one that was under way. This shows that the program orders its work, not that the processor flushes: the words of a killed program are
    in the system's memory, flushed or not."""
    chance = random.Random(20261115)
    t, csv = f"{folder}/t", f"{folder}/csv"
    lines = [(code(i), 1 + i) for i in range(4000)]
    chance.shuffle(lines)
    program.done("make", t, 1200)
    have, kills, states = {}, 120 if program.quick else 15, []
    for _ in range(kills):
        left = [p for p in lines if p[0] not in have]
        # It must not come to its end: then a new table.
        if len(left) < 1500:
            os.remove(t)
            program.done("make", t, 1200)
            have, left = {}, lines
        with open(csv, "w") as f:
            f.writelines(f"{c},{r}\n" for c, r in left)
        acknowledged = killed(program, t, csv, chance)
        assert acknowledged == left[:len(acknowledged)]
        states.append(state(program, t))
        program.done("repair", t)
        assert state(program, t) == "settled"
        had, have = dict(have, **dict(acknowledged)), dict(listed(program.done("list", t)))
        under_way = dict(left[len(acknowledged):][:1])
        assert have in (had, dict(had, **under_way)), (len(have), len(had))
    return f"{kills} kills, {len(have)} lines, " + ", ".join(f"{states.count(s)} {s}" for s in sorted(set(states)))


TESTS = [a_leaf_that_splits, two_levels_that_split, removals_and_repairs, a_leaf_that_comes_back, classes_that_change,
         killed_while_it_loads]
