"""Docks: lists with barriers and without, and tables that go from one dock to the other."""
import os
import re
import shutil
import subprocess

from commands import HUNDRED
from cuts import cut_everywhere, state
from drive import *

ONE = docked(1)


def both_lists(program, t, change, *words):
    """The orders of a change for each dock: the first is the second without its barriers, one of which follows each store."""
    plain = program.done("orders", t, *change, *words)
    assert program.done("orders", t, *change, *words, *docked(0)) == plain
    plain, barred = orders_of(plain), orders_of(program.done("orders", t, *change, *words, *ONE))
    assert BARRIER not in plain and [o for o in barred if o != BARRIER] == plain, change
    assert all((o == BARRIER) == (i > 0 and bool(barred[i - 1])) for i, o in enumerate(barred)), change
    return plain, barred


def the_worked_orders(program, folder):
    """Document 01's printed example for dock 1, to the letter."""
    t = f"{folder}/t"
    program.done("make", t, 4)
    assert program.done("orders", t, "add", "AA-000-19-12345", 7, *ONE) == (
        "   1  store 19 0                        node 1, pointer 1\n   2  barrier\n"
        f"   3  store 17 {MARK}     node 1, pointer 0\n   4  barrier\n"
        "   5  store 16 172627201912345          node 1, key 0\n   6  barrier\n"
        "   7  store 17 7                        node 1, pointer 0\n   8  barrier\n   9  flush 2\n"
        "not made (4 stores, 1 flush, 4 barriers)\n")
    assert program.done("add", t, "AA-000-19-12345", 7, *ONE) == "added AA0001912345,7,open (4 stores, 1 flush, 4 barriers)\n"
    assert program.done("class", t, "AA0001912345", "room", *ONE) == "class of AA0001912345 is room (1 store, 1 flush, 1 barrier)\n"
    assert program.done("repair", t, *ONE) == "nothing to repair (0 stores, 0 flushes)\n"
    assert program.done("remove", t, "AA0001912345", "--cut", 2, *ONE).startswith("cut off after 2 of 5 orders")
    assert program.done("repair", t, *ONE) == "repaired (1 store, 1 flush, 1 barrier)\n"
    assert program.done("add", t, "AA-000-19-12345", 7, *docked(0), "--force") == "added AA0001912345,7,open (4 stores, 1 flush)\n"


def wrong_docks(program, folder):
    t, u = f"{folder}/t", f"{folder}/u"
    program.done("make", t, 4)
    for dock in ("", "one", "-1", 2, 18, MARK, 2**64):
        for words in (["add", t, code(1), 1], ["repair", t], ["orders", t, "add", code(1), 1], ["load", t, HUNDRED]):
            program.refuses(BAD_USAGE, "^catalogue: --dock takes 0 or 1$", *words, f"--dock={dock}")
    for words in (["make", u, 4], ["find", t, code(1)], ["list", t], ["check", t], ["show", t], ["copy", t, u, 9], ["salvage", t, u], ["help"]):
        program.refuses(BAD_USAGE, f"{words[0]} takes no --dock", *words, *ONE)
    for words in (["orders", t, "repair"], ["find", t, code(1)], ["make", u, 4]):
        program.refuses(BAD_USAGE, f"{words[0]} takes no --force", *words, "--force")
    assert not os.path.exists(u)


def the_same_table_on_both(program, folder):
    """Changes and a load, on each dock a table of its own: byte by byte the same, and the orders are what is carried out."""
    t, u, csv = f"{folder}/t", f"{folder}/u", f"{folder}/csv"
    for table in (t, u):
        program.done("make", table, 60, "--loan")
    assert program.done("load", u, HUNDRED, *ONE) == program.done("load", t, HUNDRED)
    assert contents(t) == contents(u)
    codes = [c for c, _ in listed(program.done("list", t))]
    changes = [["add", code(i), 5000 + i, CLASSES[i % 3]] for i in range(30)] + [["class", c, "closed"] for c in codes[::9]]
    changes += [["remove", c] for c in codes[:40:2]] + [["add", codes[4], 7000]]
    for i, change in enumerate(changes):
        named = naming(2) if change[0] == "add" and i % 2 else []
        words = read_words(t)
        plain, barred = both_lists(program, t, change, *named)
        program.done(change[0], t, *change[1:], *named)
        program.done(change[0], u, *change[1:], *named, *ONE)
        assert contents(t) == contents(u) and read_words(u) == carried_out(words, barred) == carried_out(words, plain), change


def cuts_on_either(program, folder):
    """A split cut everywhere on dock 1, each cut repaired on dock 0; then each kind of cut on dock 0, finished by a change on dock 1."""
    t, u = f"{folder}/t", f"{folder}/u"
    pairs = [(code(10 * i), 100 + i) for i in range(1, 12)]
    fill(program, t, 3, pairs)
    codes = [c for c, _ in pairs[::3]] + [code(115)]
    states, orders = cut_everywhere(program, folder, t, ["add", code(115), 112], codes, dock=1)
    assert not program.quick or states == ["settled", "b6", "b", "c", "settled", "a", "settled"], states
    assert len(orders) == 88 + 75 and orders.count(BARRIER) == 75, len(orders)
    finished = set()
    for c in range(0, 89, 1 if program.quick else 11):
        shutil.copy(t, u)
        program.done("add", u, code(115), 112, "--cut", c)
        before = everything(program.done("list", u))
        finished.add(state(program, u))
        both_lists(program, u, ["repair"])
        both_lists(program, u, ["class", code(50), "room"])
        program.done("class", u, code(50), "room", *ONE)
        assert state(program, u) == "settled"
        assert everything(program.done("list", u)) == dict(before, **{code(50): (105, "room")}), c
    return f"{len(orders)} orders; finished on the other dock: " + ", ".join(sorted(finished))


def a_barrier_is_a_fence(program, folder):
    """The processor's store fence is in what carries orders out, whichever way lines are flushed; on others than x86-64 not looked for."""
    if os.uname().machine != "x86_64" or not shutil.which("objdump"):
        return "not looked for"
    code_of = subprocess.run(["objdump", "-d", "--no-show-raw-insn", program.command[-1]], text=True, capture_output=True, check=True).stdout
    parts = re.findall(r"^[0-9a-f]+ <(carry_out|carry_one|flush_barrier)(?:\.[a-z.0-9]+)?>:\n((?:.+\n)+)", code_of, re.M)
    assert any(re.search(r"\bsfence\b", text) for _, text in parts), [name for name, _ in parts]


TESTS = [the_worked_orders, wrong_docks, the_same_table_on_both, cuts_on_either, a_barrier_is_a_fence]
