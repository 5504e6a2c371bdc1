"""Films of changes: the forms of the command, what is refused, and that a page needs nothing else. What is in a film: tests/film."""
import json
import os
import re

from drive import *
from judging import BAD_ORDERS, DRAWINGS, write


def states(out):
    """The scenes of a page, or of its data alone."""
    inside = re.search(r'<script type="application/json" id="data">\n(.*)\n</script>\n<script>', out, re.S)
    data = json.loads(inside[1] if inside else out)
    assert data["format"] == 1
    return data["scenes"]


def a_small_film(program, folder):
    """Of an addition, a removal and a repair: a page, its data, and the table as it was."""
    t = f"{folder}/a <b>&\"c"
    fill(program, t, 6, [(code(i), i) for i in (20, 30, 40)], [(code(50), 20)])
    before = contents(t)
    for words, title in ((["+", code(25), 25, "room"], rf"Adding {code(25)} with 25,room to collection 1 of"), (["-", code(30)], f"Removing {code(30)} from collection 1 of"),
                         (["repair"], "Repair of "), (["+", code(25), 25, *naming(2)], "with 25,open to collection 2 of")):
        page, data = program.done("film", t, *words), program.done("film", t, *words, "--data")
        assert page.startswith("<!DOCTYPE html>\n") and page.endswith("</html>\n") and "<b>&\"c" not in page
        assert states(page) == states(data) and len(states(page)) == 1
        scene = states(page)[0]
        assert title in scene["title"] and scene["title"].endswith(t) and scene["own"] and scene["lost"] is None, scene["title"]
        orders = orders_of(program.done("orders", t, *([{"+": "add", "-": "remove"}.get(words[0], words[0])] + words[1:])))
        assert [(int(o[1]), int(o[2])) if o[0] == "store" else None for o in scene["orders"]] == orders
    assert contents(t) == before


def a_film_of_a_list(program, folder):
    """Of the orders in a file, with ours beside them; a list for dock 1 has its barriers."""
    t, list = f"{folder}/t", f"{folder}/list"
    fill(program, t, 6, [(code(i), i) for i in (20, 30, 40)])
    add = ["+", code(25), 25]
    for dock in (0, 1):
        write(list, program.done("orders", t, "add", code(25), 25, *docked(dock)))
        own, given = states(program.done("film", t, *add, "--list", list))
        assert own["own"] and not given["own"] and (own["beside"], given["beside"], given["list"]) == (-1, 0, list)
        barriers = sum(o[0] == "barrier" for o in given["orders"])
        assert barriers == dock * sum(o[0] == "store" for o in own["orders"]) and given["judge"] == -1 and given["lost"] is None
    # The same with another recording, another class, or another code: no cut leaves the new map.
    kinds = lambda scene: {m[0] for m in scene["maps"]}
    for wrong in ([code(25), 26], [code(25), 25, "closed"], [code(26), 25]):
        write(list, program.done("orders", t, "add", *wrong))
        own, given, *_ = states(program.done("film", t, *add, "--list", list))
        assert kinds(own) == {"old", "new"} and kinds(given) == {"old", "neither"}, (wrong, kinds(own), kinds(given))
    write(list, "store 17 0\nflush 2\n")
    given = states(program.done("film", t, *add, "--list", list))[1]
    assert (given["judge"], given["lost"]["order"], given["lost"]["key"]) == (1, 1, str(key(code(20))))
    # A header that is none, and a second collection from nowhere.
    for text, number in (("store 2 9\n", 2), ("store 0 0\nstore 16 5\n", 2), ("store 1 7\n", 2), ("store 3 7\n", 2), ("store 3 1\n", 4), (f"store 8 {MARK - 7}\nstore 10 3\n", 4)):
        write(list, text + "flush 0\nflush 1\n")
        given = states(program.done("film", t, *add, "--list", list))[1]
        assert given["unsound"] and any(v["number"] == number for v in given["sound"]), (text, given["sound"])


def the_lesson(program, folder):
    """It is in the program: no file is read."""
    scenes = states(program.done("film", "--drawings", cwd=folder))
    names = sorted(f for f in os.listdir(DRAWINGS) if f.endswith(".txt"))
    assert sorted(s["list"] for s in scenes if not s["own"]) == names and len(scenes) == len(names) + 3
    assert states(program.done("film", "--drawings", "--data", cwd=folder)) == scenes and os.listdir(folder) == []


def very_many_images(program, folder):
    """A film has 20,000 images of a list at most, and one of each store at least: if even the short rows are more, the one with all stores."""
    t, list = f"{folder}/t", f"{folder}/list"
    fill(program, t, 3, [(code(i), i) for i in (20, 30, 40)])
    write(list, "".join(f"store {17 + 8 * (i % 2)} {1000 + i % 7}\n" for i in range(300)))
    scene = states(program.done("film", t, "+", code(25), 25, "--list", list, "--data"))[1]
    counts = [len(four) // 4 for four in scene["images"]]
    assert sum(counts) <= 20000 and min(counts) == 1 and len(counts) == 301, (sum(counts), min(counts))
    alone = [c for c in scene["some"] if counts[c] == 1]
    assert alone and counts[1:scene["some"][0]] == [1 + (c - 1) // 2 + (c - 1) % 2 for c in range(1, scene["some"][0])], counts
    return f"{sum(counts)} images, {len(alone)} orders with one of theirs alone"


def refusals(program, folder):
    t, list = f"{folder}/t", f"{folder}/list"
    fill(program, t, 4, [(code(i), i) for i in (20, 30)])
    write(list, program.done("orders", t, "add", code(25), 25))
    for words in ([], [t], [t, "+", code(25)], [t, "-"], [t, "-", code(25), 25], [t, "*", code(25), 25], [t, "repair", code(20)], [t, "--drawings"],
                  ["--drawings", "--list", list], [t, "+", code(25), 25, "open", "x"], ["--data"]):
        program.refuses(BAD_USAGE, "usage: catalogue film TABLE", "film", *words)
    for words, said in (([t, "repair", *naming(1)], "film repair takes no --collection"), (["--drawings", *naming(1)], "film --drawings takes no --collection"),
                        ([t, "-", code(20), "--dock", 1], "film takes no --dock")):
        program.refuses(BAD_USAGE, said, "film", *words)
    program.refuses(BAD_USAGE, "check takes no --data", "check", t, "--data")
    program.refuses(BAD_USAGE, "--list takes a file", "film", t, "-", code(20), "--list")
    for words, status, why in ((["+", code(20), 25], CODE_THERE, "already$"), (["+", code(25), 20], RECORDING_THERE, f"under {code(20)}$"), (["-", code(25)], NOT_THERE, "is not in"),
                               (["+", code(25), 0], BAD_RECORDING, "a recording is"), (["-", "AA"], NO_CODE, "not a code"), (["-", code(20), *naming(2)], NO_COLLECTION, "no collection 2")):
        program.refuses(status, why, "film", t, *words)
    program.refuses(BAD_FILE, "there is no file", "film", f"{folder}/none", "repair")
    program.refuses(NO_TABLE, "is not a table", "film", list, "repair")
    add = ["film", t, "+", code(25), 25, "--list"]
    program.refuses(BAD_FILE, "cannot be opened", *add, f"{folder}/none")
    for text, status, why in (("store 136 1\n", BAD_ORDERS, "an order lies outside"), ("flush 17\n", BAD_ORDERS, "an order lies outside"), ("stored 1 2\n", BAD_LINE, 'line 1, "stored 1 2"'),
                              ("store 16 1\ndone 1 0\nstore 16 2\n", BAD_LINE, "lists of 2 changes; a film is of one$"), ("flush 1\n" * 4097, BAD_LINE, "4097 orders; a film has at most 4096$")):
        write(list, text)
        program.refuses(status, why, *add, list)
    words = read_words(t)
    write_words(t, words[:9] + [9] + words[10:])
    for change in (["repair"], ["-", code(20)]):
        program.refuses(NOT_SOUND, "is not sound", "film", t, *change)


TESTS = [a_small_film, a_film_of_a_list, the_lesson, very_many_images, refusals]
