"""Order lists in words: printed by orders, read by judge, film, wear and orders itself, in both directions with the plain form; wrong lines; keys of codes."""
import json
import random

from drive import *
from judging import DRAWINGS, NO, text_of, write


def both_directions(program, folder):
    """Every kind of change, with splits and freed leaves, in either collection and for either dock: words and plain form say the same."""
    t, list = f"{folder}/t", f"{folder}/list"
    pairs = [(code(i), i) for i in range(10, 22)] + [(code(30), 30)]
    fill(program, t, 12, pairs, [(code(i), i) for i in range(10, 24)])
    lines = 0
    for collection in (1, 2):
        for change in (["add", code(25), 25], ["add", code(9), 9, "closed"], ["remove", code(12)], ["remove", code(30 if collection == 1 else 23)], ["class", code(11), "room"]):
            for dock in (0, 1):
                named = [*naming(collection), *docked(dock)]
                plain = program.done("orders", t, *change, *named).splitlines()[:-1]
                worded = program.done("orders", t, *change, *named, "--words")
                write(list, worded)
                assert program.done("orders", t, "list", list).splitlines() == plain
                write(list, "\n".join(plain))
                assert program.done("orders", t, "list", list, "--words").splitlines() == worded.splitlines()[:-1]
                lines += len(plain)
    for name in sorted(os.listdir(DRAWINGS)):
        if name.endswith(".txt"):
            write(list, program.done("orders", t, "list", f"{DRAWINGS}/{name}", "--words"))
            assert program.done("orders", t, "list", list) == program.done("orders", t, "list", f"{DRAWINGS}/{name}"), name
    return f"{lines} orders"


def any_orders(program, folder):
    """Stores of any value to any word, and flushes of any line: what is printed in words is read as it was."""
    t, list, choose = f"{folder}/t", f"{folder}/list", random.Random(42)
    program.done("make", t, 6)
    values = [0, 1, 7, MARK, MARK - 1, 2**56 - 1, 2**56 + 5, 2 * 2**56 + 5, 3 * 2**56 + 5, key(code(10)), 60466176 * 10**7, 115]
    orders = [(w, choose.choice(values)) for w in range(8 + 32 * 6)] + [[line] for line in range(25)]
    orders += [(choose.randrange(200), choose.getrandbits(choose.randrange(1, 65))) for _ in range(2000)] + [(8 + 32 * 65535, 3), (MARK - 1, 1), [4 * 65535 + 1], [MARK]]
    write(list, text_of(orders))
    write(list + "2", program.done("orders", t, "list", list, "--words"))
    assert program.done("orders", t, "list", list + "2") == program.done("orders", t, "list", list)


def as_people_write(program, folder):
    """Capital letters, commas, numbering, remarks and the film's own words are forgiven."""
    t, list = f"{folder}/t", f"{folder}/list"
    fill(program, t, 6, [(code(i), i) for i in (20, 30, 40)])
    for wanted, forms in {
            f"store 16 {key(code(10))}": [f"node 1 slot 0 key := {code(10)}", f"Node 1, Slot 0, Key = {code(10)}", f"3. node 1 slot 0 key := {code(10)[:2]}-{code(10)[2:5]}-{code(10)[5:7]}-{code(10)[7:]}",
                                          f"store 16 {code(10)}", f"n1 s0 key={code(10)}", f"store node 1, slot 0, key := {code(10)}", f"node 1, key 0 := {code(10).lower()} # mine", f"NODE 1 SLOT 0 KEY := #{key(code(10))}",
                                          f"4) node 1 slot 0 key := {key(code(10))} (the new one)", f"  12: store node 1 slot 0 key := {code(10)}"],
            f"store 17 {MARK}": ["store 17 MARK", "node 1 slot 0 pointer := mark", "n1 s0 ptr=MARK", "store node 1, slot 0, pointer := MARK, as left: the slot is hidden"],
            "store 17 102": ["STORE 17 102", "store node 1, slot 0, pointer := recording 102", "node 1 slot 0 pointer := 102 open", "node 1 pointer 0 := node 102", "Node 1 slot 0 recording := 102"],
            f"store 17 {2**56 + 7}": ["node 1 slot 0 pointer := 7 room", "node 1 slot 0 pointer := recording 7, Room"],
            f"store 8 {MARK}": ["node 1 left := MARK", "n1 left=MARK", "store node 1, left := MARK, as in every leaf"],
            "store 9 3": ["node 1 sibling := node 3", "node 1 sibling = 3", "store node 1, sibling := node 3"],
            "store 9 0": ["node 1 sibling := none", "node 1 sibling := 0"],
            "store 10 1": ["node 1 level := 1"],
            f"store 11 {key(code(20))}": [f"node 1 fence := {code(20)}"],
            "store 1 2": ["header root := node 2", "header root=2", "store header, the root's number := node 2", "header root 1 := 2"],
            "store 3 2": ["header root 2 := node 2", "header the root's number of collection 2 := node 2"],
            "store 12 5": ["node 1 word 4 := 5"], "store 5 6": ["header word 5 := 6"],
            "flush 2": ["flush node 1 slots 0-3", "FLUSH NODE 1, SLOTS 0 TO 3", "flush n1 s0-3", "flush line 2", "flush line 2 (node 1, slots 0 to 3)", "flush node 1 slot 2", "flush node 1, slots 0-3 # done"],
            "flush 1": ["flush node 1 head", "flush n1 head", "flush node 1, left to fence", "flush node 1 fence"],
            "flush 0": ["flush header", "Flush Header", "flush line 0"],
            "barrier": ["barrier", "BARRIER", "7 barrier, for docks whose processor needs it"]}.items():
        for form in forms:
            write(list, form + "\n")
            out = program.done("orders", t, "list", list).split()
            assert " ".join(out[1:1 + len(wanted.split())]) == wanted, (form, out)


def wrong_lines(program, folder):
    """The line, its wrong word and what could stand there; the same by judge, film, wear and orders."""
    t, list = f"{folder}/t", f"{folder}/list"
    fill(program, t, 6, [(code(i), i) for i in (20, 30, 40)])
    add = ["+", code(10), 10]
    for line, word, wanted in (("stores 1 2", "stores", "an order begins with store, node and a number, header, flush or barrier"), ("n1 s0 key=010", "010", "a key is a code"),
                               ("node 1 slot 12 key := 0", "12", "a slot is 0 to 11"), ("node 1 slot 2 kay := 0", "kay", "key or pointer"), ("node 1 slott 2 key := 0", "slott", "a slot is"),
                               ("node 1 slot 2 pointer 103", "103", ":="), ("node 0 left := MARK", "0", "a node is"), ("node 1 frence := 0", "frence", "left, sibling, level, fence"),
                               ("node 1 slot 0 key := AA00026", "AA00026", "a key is"), ("node 1 slot 0 pointer := x", "x", "a pointer is"), ("node 1 sibling := slot 3", "slot", "node and a number"),
                               ("node 1 level := leaf", "leaf", "a number"), ("header rot := 2", "rot", "root"), ("flush node 1 slots 2-5", "2-5", "the lines with slots are"),
                               ("flush node 1 slotz", "slotz", "head"), ("flush nodes", "nodes", "a node is"), ("flush everything", "everything", "a line's number"),
                               ("store 1 2 3", "3", "the order ends before it"), ("barrier 0", "0", "the order ends before it"), ("store 18446744073709551616 0", "18446744073709551616", "64 bits")):
        write(list, f"flush 0\n{line}\n")
        for words in (["judge", t, list, *add], ["film", t, *add, "--list", list], ["wear", t, list], ["orders", t, "list", list]):
            program.refuses(BAD_LINE, f'line 2, "{re.escape(line)}": "{re.escape(word)}" cannot stand there; wanted: .*{re.escape(wanted)}', *words)
    for line in ("store", "store 1", "flush", "node 1", "node 1 slot 2", "node 1 slot 2 key", "node 1 slot 2 key :=", "header", "3", "flush node 1"):
        write(list, f"flush 0\n{line}\n")
        program.refuses(BAD_LINE, f'line 2, "{line}": it ends too soon; wanted: ', "judge", t, list, *add)
    program.refuses(BAD_LINE, "it is too long; a line has at most 16384 letters$", "wear", t, write_to(list, "store 1 2" + " " * 20000 + "\n"))
    for words in (["orders", t, "list"], ["orders", t, "list", list, "x"], ["orders", t, "list", list, *naming(1)], ["orders", t, "list", list, "--dock", 1], ["judge", t, list, *add, "--words"]):
        program.refuses(BAD_USAGE, "usage: catalogue|judge takes no --words", *words)


def write_to(path, text):
    write(path, text)
    return path


def keys_of_codes(program, folder):
    for text, said in ((code(10), key(code(10))), ("AA-000-19-12345", 172627201912345), (key(code(10)), code(10)), ("172627201912345", "AA0001912345"), ("#172627201912345", "AA0001912345"), (115, "#115"), (0, "#0"),
                       (MARK, f"#{MARK}")):
        assert program.done("key", text) == f"{said}\n", text
    for text in ("AA", "18446744073709551616", "1A0001912345", "#"):
        program.refuses(NO_CODE, "not a code", "key", text)
    program.refuses(BAD_USAGE, "usage: catalogue key", "key")


def the_nearest_list(program, folder):
    """A film of a list has the nearest right one beside it: nothing is marked if the judge accepts the list, else what breaks is said of few orders."""
    for table in ("leaf", "full"):
        program.done("make", f"{folder}/{table}.cat", 6)
        program.done("load", f"{folder}/{table}.cat", f"{DRAWINGS}/{table}.csv")
    marked = {}
    for name in sorted(os.listdir(DRAWINGS)):
        if not name.endswith(".txt"):
            continue
        with open(f"{DRAWINGS}/{name}") as f:
            table, _, *change = re.search(r"^# catalogue judge (.*)$", f.read(), re.M)[1].split()
        scenes = json.loads(program.done("film", f"{folder}/{table}", *change, "--list", f"{DRAWINGS}/{name}", "--data"))["scenes"]
        drawn, right = scenes[1], scenes[scenes[1]["beside"]]
        assert right["judge"] == -1 and right["lost"] is None
        broken = [h for h in drawn["hunks"] if h[4] is not None]
        marked[name] = sum(h[1] for h in broken), sum(h[3] for h in broken)
        assert (drawn["judge"] == -1) == (not drawn["hunks"]), name
        # What is said of a difference is what the judge says of the right list with it.
        for at, length, there, there_length, breaks in broken:
            assert breaks.startswith("no: after "), breaks
            orders = right["orders"][:there] + drawn["orders"][at:at + length] + right["orders"][there + there_length:]
            write(f"{folder}/list", "".join(" ".join(map(str, o)) + "\n" for o in orders))
            assert program("judge", f"{folder}/{table}", f"{folder}/list", *change) == (NO, breaks, ""), name
    assert marked["right.txt"] == (0, 0) and all(sum(m) <= 16 for m in marked.values()), marked
    assert sum(marked["one-movement.txt"]) <= 5 and sum(marked["linked-before-flush.txt"]) <= 1, marked
    return ", ".join(f"{name[:-4]} {sum(m)}" for name, m in marked.items())


def a_class(program, folder):
    """Each list of a folder judged: the known mistakes by name, what is not judged with its reason; the table from the list's own lines, from the folder or the lesson's."""
    known = {"key-before-pointer": "shift order", "one-movement": "one movement", "flush-at-the-end": "flush at the end", "linked-before-flush": "linked before flushed",
             "sibling-by-first-key": "first key", "hidden-by-equal-keys": "equal keys", "search-tidies": "a search that tidies", "right": ""}
    counts = {}
    for name in known:
        with open(f"{DRAWINGS}/{name}.txt") as f:
            text = f.read()
        counts[name] = int((re.search(r"^# no: after (\d+) of", text, re.M) or [0, -1])[1])
        write(f"{folder}/{name}.txt", text)
    head = "# catalogue judge leaf.cat x.txt + AA0002600010 101\n"
    own = "# catalogue judge mine.cat x.txt + #15 9\n# table #10,1\n# table #20,2\n"
    write(f"{folder}/mine.csv", "#10,1\n#20,2\n#30,3\n")
    others = {"empty": (head, "not finished", 0), "own": (own, "not finished", 0), "folder": (own.split("\n")[0] + "\nnode 1 slot 0 pointer := 0\nflush node 1 slots 0-3\n", "one movement", 1)}
    wrong = {"nothing": ("node 1 left := MARK\n", "does not name its table"), "line": (head + "node 1 slot 12 key := 0\n", '"12" cannot stand there'), "far": (head + "store 9999 1\n", "outside of its table"),
             "table": (head.replace("leaf", "none"), "its table is not there"), "there": (head.replace("010 101", "020 101"), "its change is refused"), "long": (head + "flush 0\n" * 4097, "more orders than")}
    for name, (text, *_) in {**others, **wrong}.items():
        write(f"{folder}/{name}.txt", text)
    write(f"{folder}/notes.md", "no list")
    page, data = program.done("class", folder), program.done("class", folder, "--data")
    data = json.loads(data)
    rows = {r["who"]: r for r in data["class"]}
    assert sorted(rows) == sorted([*known, *others, *wrong]) and '<section id="class"' in page
    for name, mistake in known.items():
        r = rows[name]
        assert (r["mistake"], r["judge"]) == (mistake, counts[name]), r
        scene = data["scenes"][r["scene"]]
        assert scene["judge"] == r["judge"] and len(scene["orders"]) == r["orders"] and name in scene["title"]
        assert scene["beside"] == (-1 if name == "right" else r["scene"] + 1) and (name == "right" or data["scenes"][scene["beside"]]["judge"] == -1)
    for name, (_, mistake, count) in others.items():
        assert (rows[name]["mistake"], rows[name]["judge"]) == (mistake, count), rows[name]
    for name, (_, why) in wrong.items():
        assert why in rows[name]["wrong"] and "scene" not in rows[name], rows[name]
    os.mkdir(f"{folder}/none")
    program.refuses(BAD_FILE, "has no lists", "class", f"{folder}/none")
    program.refuses(BAD_FILE, "cannot be opened", "class", f"{folder}/nowhere")
    write(f"{folder}/none/a.txt", "flush 0\n")
    program.refuses(BAD_LINE, "no list of the folder can be judged", "class", f"{folder}/none")


TESTS = [both_directions, any_orders, as_people_write, wrong_lines, keys_of_codes, the_nearest_list, a_class]
