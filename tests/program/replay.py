"""Long random runs: commands against a plain list, and damaged tables."""
import random
import re

from drive import *

CODES = [code(7 * i) for i in range(300)]


def expected(plain, change, words):
    """The exit status that a plain list gives a change."""
    if change != "add":
        return 0 if words[0] in plain else NOT_THERE
    c, r, _ = words
    if not 1 <= r <= MOST_RECORDING:
        return BAD_RECORDING
    if c in plain:
        return CODE_THERE
    return RECORDING_THERE if r in [there for there, _ in plain.values()] else 0


def some_change(plain, beside, chance):
    """Recordings of the other collection are as good as any."""
    kind, c = chance.random(), chance.choice(CODES)
    if plain and kind < 0.4 and chance.random() < 0.7:
        c = chance.choice(list(plain))
    if kind < 0.25:
        return "remove", [c]
    if kind < 0.4:
        return "class", [c, chance.choice(CLASSES)]
    some = [0, MOST_RECORDING + 1, MARK] + [r for r, _ in plain.values()][:3] + [r for r, _ in beside.values()]
    return "add", [c, chance.choice(some) if chance.random() < 0.1 else chance.randrange(1, 10**6), chance.choice(CLASSES)]


def after(plain, change, words):
    then = dict(plain)
    if change == "add":
        then[words[0]] = (words[1], words[2])
    elif change == "class":
        then[words[0]] = (then[words[0]][0], words[1])
    else:
        del then[words[0]]
    return then


def step(program, t, plain, chance, *named, beside={}):
    """One command and its answer by the plain list of the collection named; the list after it. Beside it is the other collection's."""
    kind = chance.randrange(10)
    change, words = some_change(plain, beside, chance)
    status = expected(plain, change, words)
    if kind < 5:
        got, out, err = program(change, t, *words, *named)
        assert got == status, (change, words, got, status, err)
        return after(plain, change, words) if status == 0 else plain
    if kind == 5:
        got, out, err = program(change, t, *words, "--cut", chance.randrange(30), *named)
        if got == BAD_USAGE or status != 0:
            assert got == (status or BAD_USAGE), (change, words, got, err)
            return plain
        now = everything(program.done("list", t, *named))
        assert now in (plain, after(plain, change, words)), (change, words)
        return now
    if kind == 6:
        low, high = chance.choice(CODES), chance.choice(CODES)
        assert everything(program.done("list", t, low, high, *named)) == {c: x for c, x in plain.items() if low <= c <= high}
    elif kind == 7:
        got, out, err = program("orders", t, change, *words, *named)
        assert got == status, (change, words, got, status, err)
    elif kind == 8:
        out = program.done(chance.choice(["check", "show"]), t)
        nodes = re.search(rf": {len(plain) + len(beside)} codes? in (\d+) of 300 nodes, (\d+) free\n", out)
        assert int(nodes[1]) + int(nodes[2]) == 300, out
        if chance.random() < 0.3:
            program.done("repair", t)
            assert "settled" in program.done("check", t)
    else:
        finds(program, t, plain, chance.choice(CODES + [code(7 * chance.randrange(300) + 3)]), *named)
    return plain


def finds(program, t, plain, c, *named):
    """A search by the plain list: the recording and its class, or the next code up."""
    got, out, err = program("find", t, c, *named)
    if c in plain:
        assert (got, out, err) == (0, f"{plain[c][0]},{plain[c][1]}\n", ""), (c, got, out, err)
        return
    above = min((k for k in plain if k > c), default=None)
    said = f"; the next code up is {above}" if above else ", and no code there is higher"
    part = f"collection {named[1]} of " if named else ""
    assert (got, out, err) == (ABSENT, "", f"catalogue: {c} is not in {part}{t}{said}\n"), (c, got, out, err)


def a_long_run(program, folder):
    chance = random.Random(2026)
    t = f"{folder}/t"
    program.done("make", t, 300)
    plain, most, count = {}, 0, 3000 if program.quick else 300
    for _ in range(count):
        plain = step(program, t, plain, chance)
        most = max(most, len(plain))
    out = program.done("list", t)
    assert everything(out) == plain and [c for c, _ in listed(out)] == sorted(plain)
    for c in CODES[::1 if program.quick else 6]:
        finds(program, t, plain, c)
    return f"{count} commands, {most} codes at most"


def a_long_run_over_both(program, folder):
    """Two collections and a plain list for each; a command of one, whole or cut off, leaves the other's list."""
    chance = random.Random(2027)
    t = f"{folder}/t"
    program.done("make", t, 300, "--loan")
    plain, most, count = [{}, {}], 0, 3000 if program.quick else 300
    for _ in range(count):
        which = chance.randrange(2)
        plain[which] = step(program, t, plain[which], chance, *naming(which + 1), beside=plain[1 - which])
        most = max(most, len(plain[0]) + len(plain[1]))
    for which, own in enumerate(plain):
        assert everything(program.done("list", t, *naming(which + 1))) == own
        for c in CODES[::2 if program.quick else 12]:
            finds(program, t, own, c, *naming(which + 1))
    shared = {r for r, _ in plain[0].values()} & {r for r, _ in plain[1].values()}
    assert shared or not program.quick
    return f"{count} commands, {most} codes at most, {len(shared)} recordings in both"


def damaged_tables(program, folder):
    """Words changed at random: every command comes to an end without a crash; those that look at the whole table agree; none changes a
    table that is not sound."""
    chance = random.Random(1115)
    t = f"{folder}/t"
    fill(program, t, 40, [(code(i), 1 + i) for i in range(120)])
    good = read_words(t)
    unsound = 0
    for _ in range(250 if program.quick else 60):
        words = list(good)
        for _ in range(chance.randrange(1, 4)):
            # Mostly words of nodes in use, so that the damage is met.
            at = chance.randrange(8, 8 + 32 * 28)
            some = [0, MARK, 2**32 + 1, chance.randrange(42), chance.choice(good), words[at] ^ 1, chance.randrange(2**64)]
            words[at] = chance.choice(some)
        write_words(t, words)
        before = contents(t)
        status = program("check", t)[0]
        assert status in (0, NOT_SOUND), status
        unsound += status != 0
        assert program("list", t)[0] == status and program("show", t)[0] == status
        assert program("orders", t, "add", code(500), 500)[0] == status
        assert program("find", t, code(chance.randrange(120)))[0] in (0, ABSENT, LOST)
        assert contents(t) == before
        if status != 0:
            for change in (["repair"], ["add", code(500), 500], ["remove", code(3)], ["class", code(3), "room"]):
                program.refuses(NOT_SOUND, "is not sound", change[0], t, *change[1:])
        else:
            program.done("repair", t)
            assert "settled" in program.done("check", t)
    return f"{unsound} not sound"


def nodes_that_are_not_there(program, folder):
    """Refusal 3: a root whose left child, slot or sibling is no node of the table, in every way that a number can be wrong."""
    t = f"{folder}/t"
    fill(program, t, 3, [(code(i), 1 + i) for i in range(12)])
    good = read_words(t)
    root = 8 + 32 * (good[1] - 1)
    left, sibling, pointer = root, root + 1, root + 9
    for n in (4, 5, 2**16, 2**32 + 1, 2**58 + 1, 2**63, MARK):
        for at, lost, other in ((left, code(0), code(11)), (pointer, code(11), code(0)), (sibling, code(0), None)):
            words = list(good)
            words[at] = n
            write_words(t, words)
            program.refuses(LOST, f"is damaged on the way to {lost}", "find", t, lost)
            program.refuses(NOT_SOUND, "is not sound", "list", t)
            status, out, err = program("show", t)
            assert status == NOT_SOUND and f"-> node {n}, which the table does not have" in out and "is not sound" in err, out
            if other:
                assert program.done("find", t, other) == f"{int(other[-5:]) + 1},open\n"


TESTS = [a_long_run, a_long_run_over_both, damaged_tables, nodes_that_are_not_there]
