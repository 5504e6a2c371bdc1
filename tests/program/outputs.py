"""JSON, stat, the parts of a listing, and answers that go to a file."""
import json
import os
import sqlite3
import stat
import subprocess
import xml.dom.minidom

from commands import HUNDRED
from drive import *
from questions import piped

NO = 254


def as_json(program, status, *words):
    """What a command prints with --json, read as JSON; it ends with this status and says nothing else."""
    got, out, err = program(*words, "--json")
    assert (got, err) == (status, ""), (words, got, err)
    return json.loads(out)


def json_of_find_and_list(program, folder):
    t = f"{folder}/t"
    fill(program, t, 9, [(code(i), f"{MOST_RECORDING - i},{CLASSES[i % 3]}") for i in range(1, 30)])
    found = lambda i: {"asked": code(i), "status": 0, "code": code(i), "recording": str(MOST_RECORDING - i), "class": CLASSES[i % 3]}
    assert as_json(program, 0, "find", t, code(5)) == [found(5)]
    assert as_json(program, 0, "find", t, code(5), code(6)) == [found(5), found(6)]
    none, last, wrong = as_json(program, ABSENT, "find", t, code(0), code(30), 'a"\\\n\x01\u00e4')
    assert none == {"asked": code(0), "status": 1, "code": code(0), "next": code(1), "why": f"{code(0)} is not in {t}; the next code up is {code(1)}"}
    assert last["next"] is None and last["code"] == code(30) and wrong["asked"] == 'a"\\\n\x01\u00e4' and "not a code" in wrong["why"], (last, wrong)
    assert as_json(program, 0, "find", t, "--recording", MOST_RECORDING - 5)[0]["code"] == code(5)
    assert as_json(program, 255, "find", t, "--recording", 5, "--absent", 255)[0]["status"] == 255
    assert as_json(program, BAD_RECORDING, "find", t, "--recording", 0)[0]["status"] == BAD_RECORDING
    assert piped(program, "", "find", t, "-", "--json") == (0, "[]\n", "")
    pairs = [{k: found(i)[k] for k in ("code", "recording", "class")} for i in range(1, 30)]
    assert as_json(program, 0, "list", t) == pairs and as_json(program, 0, "list", t, code(40), code(50)) == []
    assert as_json(program, 0, "list", t, code(3), code(4)) == pairs[2:4]
    # A word that no text has: bytes that are no UTF-8.
    for word in (b"\xff", b"\xc3", b"\xe2\x82", b"\xed\xa0\x80", b"\xf5\x80\x80\x80"):
        run = subprocess.run([*program.command, "find", t, word, "--json"], capture_output=True, env=program.environment)
        assert run.returncode == NO_CODE and "\ufffd" in json.loads(run.stdout)[0]["asked"], run
    words = read_words(t)
    at = words.index(key(code(2))) + 1
    write_words(t, words[:at] + [9 << 56 | 77] + words[at + 1:])
    assert as_json(program, NOT_SOUND, "find", t, code(2))[0]["status"] == NOT_SOUND
    # A failure of the whole command is said as ever, and prints no half of a list.
    program.refuses(NOT_SOUND, "is not sound", "list", t, "--json")
    program.refuses(BAD_FILE, "there is no file", "find", f"{folder}/none", code(1), "--json")


def what_a_table_has(program, folder):
    """stat and the JSON of stat and check, against the file and its listing."""
    t, u = f"{folder}/t", f"{folder}/u"
    program.done("make", t, 40)
    program.done("load", t, HUNDRED)
    assert program.done("stat", t) == (f"{t}\n  state   settled\n  bytes   {os.path.getsize(t)}\n  nodes   40\n  free    29\n"
                                       "collection 1\n  codes   100\n  levels  2\n  nodes   11\n  fill    82.6 %\n")
    one = {"collection": 1, "codes": 100, "levels": 2, "nodes": 11, "fill_permille": 826}
    whole = {"table": t, "status": 0, "state": "settled", "bytes": os.path.getsize(t), "codes": 100, "nodes": 40, "free": 29, "leftover": None}
    assert as_json(program, 0, "stat", t) == as_json(program, 0, "check", t) == dict(whole, collections=[one])
    program.done("make", u, 9, "--loan")
    program.done("add", u, code(1), 1, *naming(2))
    assert program.done("stat", u).endswith("collection 1\n  codes   0\n  levels  1\n  nodes   1\n  fill    0.0 %\n"
                                            "collection 2\n  codes   1\n  levels  1\n  nodes   1\n  fill    9.1 %\n")
    assert [c["codes"] for c in as_json(program, 0, "stat", u)["collections"]] == [0, 1]
    # What is unfinished, of each kind, with the nodes that check names.
    kinds, before = set(), contents(t)
    for change in (["add", "XK-A04-74-99991", 2002], ["remove", "AA0001904334"]):
        for cut in range(1, len(orders_of(program.done("orders", t, *change)))):
            program.done(change[0], t, *change[1:], "--cut", cut)
            left, said = as_json(program, 0, "check", t)["leftover"], program.done("check", t)
            assert (left is None) == ("leftover" not in said), said
            if left:
                kinds.add(left["kind"])
                assert f"leftover ({left['kind']}): node {left.get('node') or left['hidden_node']}" in said and left["collection"] == 1, (left, said)
            with open(t, "wb") as f:
                f.write(before)
    assert kinds >= {"a", "b"}, kinds
    os.remove(t)
    fill(program, t, 9, [(code(i), i) for i in range(1, 9)])
    words = read_words(t)
    write_words(t, words[:12] + [5] + words[13:])
    program.refuses(NOT_SOUND, "is not sound", "stat", t)
    damaged = as_json(program, NOT_SOUND, "check", t)
    assert damaged["state"] == "not sound" and damaged["status"] == NOT_SOUND and "is not sound" in damaged["why"], damaged


def json_of_orders(program, folder):
    """The wear and the verdict, against what they print without it."""
    t, orders = f"{folder}/t", f"{folder}/orders"
    fill(program, t, 6, [(code(10 * i), i) for i in range(1, 12)])
    change = ["+", code(115), 99]
    program.done("orders", t, "add", *change[1:], "--output", orders)
    worn, said = as_json(program, 0, "wear", t, orders), program.done("wear", t, orders).splitlines()
    assert said[:4] == [f"total {worn['total']}", f"largest {worn['largest']}", f"first line {worn['first_line']}", f"pairs {len(worn['words'])}"]
    assert [line.split()[1:3] for line in said if line.startswith("line ")] == [[str(w["line"]), str(w["stores"])] for w in worn["lines"]]
    assert [line.split()[1:] for line in said if line.startswith("words ")] == [[str(w["offset"]), str(w["length"])] for w in worn["words"]]
    count = len(orders_of(program.done("orders", t, "add", *change[1:])))
    assert as_json(program, 0, "judge", t, orders, *change) == {"verdict": "yes", "orders": count}
    with open(orders) as f:
        lines = f.read().splitlines()
    with open(orders, "w") as f:
        f.write("\n".join(line for line in lines if " flush" not in line))
    no = as_json(program, NO, "judge", t, orders, *change)
    status, out, _ = program("judge", t, orders, *change)
    assert status == NO and no["verdict"] == "no" and [no["says"]] + no["reasons"] == out.splitlines() and f"after {no['after']} of {no['orders']} " in out
    program.refuses(BAD_USAGE, "usage: catalogue wear", "wear", t, orders, "--svg", "--json")


def parts_of_a_listing(program, folder):
    t = f"{folder}/t"
    codes = ["AA0001900001", "AA0001999999", "AA0002000000", "AA0ZZ2000000", "AB0000000000", "GBAYE6800011", "ISRC12345678", "ZZZZZ9999999"]
    fill(program, t, 9, [(c, i + 1) for i, c in enumerate(codes)])
    lines = {c: f"{c},{i + 1},open\n" for i, c in enumerate(codes)}
    listing = lambda chosen: "".join(lines[c] for c in codes if chosen(c))
    for prefix in ("A", "AA", "AA0", "AA000", "AA00019", "AA-000-19", "aa 000 19", "AA000199999", "AA0001999999", "Z", "IS", "ISRC", "GB-AYE-68", "BB", "AA0Z"):
        plain = prefix.replace("-", "").replace(" ", "").upper()
        assert program.done("list", t, prefix) == listing(lambda c: c.startswith(plain)), prefix
    for prefix in ("", "1", "A1", "AA0001X", "AA00019999991", "AA_", "-"):
        program.refuses(NO_CODE, "not a code or the beginning of one", "list", t, prefix)
    program.done("add", t, "#7", 99)
    assert program.done("list", t, "#7") == "#7,99,open\n" and program.done("list", t, "#8") == ""
    program.done("remove", t, "#7")
    middle = codes[3]
    assert program.done("list", t, "--from", middle) == listing(lambda c: c >= middle)
    assert program.done("list", t, "--to", middle) == listing(lambda c: c <= middle)
    assert program.done("list", t, "--from", codes[2], "--to", middle) == lines[codes[2]] + lines[middle] == program.done("list", t, codes[2], middle)
    program.refuses(NO_CODE, "not a code", "list", t, "--from", "AA0")
    program.refuses(BAD_USAGE, "--to takes a code", "list", t, "--to")
    program.refuses(BAD_USAGE, "usage: catalogue list", "list", t, "AA", "--from", middle)
    assert program.done("list", t, "--header") == "code,recording,class\n" + listing(lambda c: True)
    assert program.done("list", t, "BB", "--header") == "code,recording,class\n"
    # SQLite, as Python has it, takes the lines, and keeps codes and recordings unique.
    base = sqlite3.connect(":memory:")
    base.executescript(program.done("list", t, "--schema"))
    insert = "INSERT INTO recordings VALUES (?, ?, ?)"
    base.executemany(insert, [line.split(",") for line in program.done("list", t).splitlines()])
    assert base.execute("SELECT code, recording, class FROM recordings ORDER BY code").fetchall() == [(c, i + 1, "open") for i, c in enumerate(codes)]
    for row in ((codes[0], 99, "open"), ("AA0001900009", 1, "open"), ("AA0001900009", 99, "shut"), ("AA0001900009", 0, "open"), ("AA0001900009", 2**56, "open"),
                (None, 99, "open"), ("AA0001900009", None, "open"), ("AA0001900009", 99, None)):
        try:
            base.execute(insert, row)
            raise AssertionError(row)
        except sqlite3.IntegrityError:
            pass
    program.done("make", f"{folder}/both", 2, "--loan")
    assert program.done("list", f"{folder}/both", "--schema", *naming(2)) == program.done("list", t, "--schema").replace("recordings", "loans")
    with open(f"{folder}/csv", "w") as f:
        f.write(program.done("list", t, "--header"))
    program.done("make", f"{folder}/u", 9)
    assert program.done("load", f"{folder}/u", f"{folder}/csv") == "8 added, 0 there already\n"


def answers_in_a_file(program, folder):
    """Whole, or not at all: an older file stays while the new one is made, and if nothing comes of it."""
    t, page = f"{folder}/t", f"{folder}/page"
    fill(program, t, 9, [(code(i), i) for i in range(1, 20)])
    with open(f"{folder}/orders", "w") as f:
        f.write(program.done("orders", t, "add", code(50), 50))
    names = sorted(os.listdir(folder)) + ["page"]
    for words in (["list", t], ["show", t], ["orders", t, "add", code(50), 50], ["film", t, "-", code(3)], ["film", "--drawings"],
                  ["wear", t, f"{folder}/orders", "--svg"], ["wear", t, f"{folder}/orders", "--json"], ["list", t, "BB"]):
        for option in (["-o", page], ["--output", page], [f"--output={page}"]):
            assert program.done(*words, *option) == ""
            assert contents(page).decode() == program.done(*words), words
            assert sorted(os.listdir(folder)) == sorted(names), os.listdir(folder)
    mask = os.umask(0)
    os.umask(mask)
    assert stat.S_IMODE(os.stat(page).st_mode) == 0o666 & ~mask, "its rights"
    program.done("wear", t, f"{folder}/orders", "--svg", "-o", page)
    xml.dom.minidom.parse(page)
    # Refused: the older file stays. A damaged table is drawn with its status.
    before = contents(page)
    program.refuses(NOT_THERE, "is not in", "film", t, "-", code(77), "-o", page)
    program.refuses(BAD_FILE, f"{t} is the table itself: nothing was done$", "list", t, "-o", t)
    os.link(t, f"{folder}/link")
    program.refuses(BAD_FILE, "is the table itself", "list", t, "-o", f"{folder}/link")
    program.refuses(BAD_FILE, "none/page cannot be written: No such file", "list", t, "-o", f"{folder}/none/page")
    program.refuses(BAD_USAGE, "--output takes a file's name", "list", t, "-o")
    program.refuses(BAD_USAGE, "find takes no --output", "find", t, code(1), "-o", page)
    assert contents(page) == before
    status, out, err = program("list", t, "-o", "/dev/full")
    assert (status, out) == (BAD_FILE, "") and "cannot be written: No space left" in err and os.path.exists("/dev/full"), (status, out, err)
    assert program.done("list", t, "-o", "/dev/null") == "" and stat.S_ISCHR(os.stat("/dev/null").st_mode)
    # A link stays one.
    os.symlink("page", f"{folder}/to")
    program.done("list", t, "-o", f"{folder}/to")
    assert os.path.islink(f"{folder}/to") and contents(page).decode() == program.done("list", t)
    words = read_words(t)
    write_words(t, words[:12] + [5] + words[13:])
    status, out, err = program("show", t, "-o", page)
    assert (status, out) == (NOT_SOUND, "") and b"level 0" in contents(page), (status, out, err)


TESTS = [json_of_find_and_list, what_a_table_has, json_of_orders, parts_of_a_listing, answers_in_a_file]
