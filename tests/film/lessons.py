"""The lesson: `catalogue film --drawings` shows the worked split and every list of samples/drawings with what the judge says of it.

lessons.py PROGRAM LIBRARY FOLDER. Its page must be in FOLDER already. The last line is 'N passed, 0 failed'."""
import base64
import glob
import json
import os
import re
import subprocess
import sys

from library import MARK, Library

DRAWINGS = os.path.join(os.path.dirname(os.path.abspath(__file__)), "..", "..", "samples", "drawings")
PROGRAM, FOLDER = sys.argv[1], sys.argv[3]
library = Library(sys.argv[2])
passed = 0


def done(what):
    global passed
    passed += 1
    print(f"{what}")


def run(*words):
    return subprocess.run([PROGRAM, *map(str, words)], check=True, text=True, stdout=subprocess.PIPE, cwd=FOLDER).stdout


def orders_of(text):
    """Of a list as a file has it."""
    parts = [line.split() for line in text.splitlines() if line and not line.startswith("#")]
    return [["store", int(p[1]), p[2]] if p[0] == "store" else ["flush", int(p[1])] for p in parts]


def worked(scene):
    """Document 01: keys 10, 20 .. 110, N = 3, insert 115: new root 2, sibling 3, fence 60; 75 stores, 13 flushes."""
    words = library.make(3, 1)
    for i in range(1, 12):
        words = library.write(words, "insert", 1, 10 * i, i, 0)[1]
    number, after, orders = library.write(words, "insert", 1, 115, 12, 0)
    assert number == 0 and scene["orders"] == [["flush", v] if w == MARK else ["store", w, str(v)] for w, v in orders]
    kinds = [o[0] for o in scene["orders"]]
    assert (kinds.count("store"), kinds.count("flush")) == (75, 13) and scene["nodes"] == 3
    assert after[1] == 2 and after[8 + 1] == 3 and after[8 + 64 + 3] == 60
    assert scene["judge"] == -1 and scene["lost"] is None and scene["own"]
    done("the worked split")


def drawing(scene, scenes):
    """A drawing as its file has it, with the judge's count, beside the right list of the same change."""
    with open(f"{DRAWINGS}/{scene['list']}") as f:
        text = f.read()
    assert scene["orders"] == orders_of(text), scene["list"]
    no = re.search(r"^# no: after (\d+) of", text, re.M)
    assert scene["judge"] == (int(no[1]) if no else -1) and (no or re.search(r"^# yes: ", text, re.M)), scene["list"]
    table, _, *change = re.search(r"^# catalogue judge (.*)$", text, re.M)[1].split()
    if not os.path.exists(f"{FOLDER}/{table}"):
        run("make", table, 6)
        run("load", table, f"{os.path.abspath(DRAWINGS)}/{table.replace('.cat', '.csv')}")
    alone = json.loads(run("film", table, *change, "--data", "--list", f"{os.path.abspath(DRAWINGS)}/{scene['list']}"))["scenes"][1]
    for part in set(alone) - {"title", "told", "list", "beside", "hunks"}:
        assert alone[part] == scene[part], (scene["list"], part)
    if not no:
        assert scene["lost"] is None and scene["unsound"] is None and scene["beside"] == -1
        done("right.txt")
        return
    right = scenes[scene["beside"]]
    assert right["judge"] == -1 and right["change"] == scene["change"] and right["header"] == scene["header"] and right["places"][0]["words"] is not None
    assert min(x["order"] for x in (scene["lost"], scene["unsound"]) if x) == int(no[1]), "the judge names another count"
    lost = scene["lost"]
    assert lost and not scene["some"], scene["list"]
    told = [scene["maps"][i] for i in scene["images"][lost["order"]][1::4]]
    assert any(lost["key"] in [d[1] for d in map[2] if d[2] != d[3]] for map in told if map[0] == "neither"), scene["list"]
    assert scene["title"].startswith("Drawn wrong: "), scene["title"]
    done(f"{scene['list']}: the first cut that loses a code is after order {lost['order']}")


def answers(scene, key):
    """By order, how the working copy of a list without two dirty lines answers for a key: its node and slot, or None."""
    out, image = [], 0
    digits = "0123456789ABCDEFGHIJKLMNOPQRSTUVWXYZabcdefghijklmnopqrstuvwxyz-_"
    mark = max(i for i, m in enumerate(scene["marks"]) if int(m) <= key)
    for c in range(len(scene["orders"]) + 1):
        image = c if scene["images"][c] else image
        number = 0
        for digit in scene["rows"][scene["images"][image][2]][3 * mark:3 * mark + 3]:
            number = 64 * number + digits.index(digit)
        found, _, slot, steps = scene["ways"][number]
        out.append((steps[::2], slot) if found == 0 else None)
    return out


def the_lessons_words(scenes):
    """What docs/LESSON.md says of orders is so."""
    with open(os.path.join(DRAWINGS, "..", "..", "docs", "LESSON.md")) as f:
        text = f.read()
    for said in ("eleven scenes", "75 stores and 13 flushes", "Scene 5", "scene 6", "scene 7", "Scene 8", "Scene 10", "order 25", "order 74", "order 75", "order 77", "order 82", "order 9 ",
                 "12 orders", "It opens at order 3", "It opens at order 5", "opens at order 1,", "It opens at order 22"):
        assert said.lower() in text.lower(), said
    lists = [s["list"] for s in scenes]
    assert len(scenes) == 11 and [lists.index(f"{n}.txt") + 1 for n in ("key-before-pointer", "one-movement", "flush-at-the-end", "linked-before-flush", "hidden-by-equal-keys", "search-tidies")] == [5, 6, 7, 8, 10, 11]
    assert [scenes[i - 1]["lost"]["order"] for i in (5, 6, 7, 8, 11)] == [5, 1, 3, 22, 6] and len(scenes[1]["orders"]) == 12
    split = scenes[0]["orders"]
    assert (split[8][0], split[74], split[76], split[81]) == ("flush", ["store", 9, "3"], ["store", 27, "0"], ["store", 49, "3"])
    assert answers(scenes[0], 90) == 37 * [([1], 8)] + 38 * [([2, 1], 8)] + 7 * [([2, 1, 3], 3)] + 7 * [([2, 3], 3)]
    key = int("AA000", 36) * 10**7 + 2600000
    found = answers(scenes[5], key + 60)
    assert found[0] and not any(found[1:25]) and all(found[25:])
    assert all(answers(scenes[1], key + 40)), "a code is not found at some moment of the right insertion"
    done("what the lesson says of orders")


def page_of(name, table, code):
    with open(f"{FOLDER}/{name}.html", "w") as f:
        f.write(run("film", table, "+", code, 99999))
    return os.path.getsize(f"{FOLDER}/{name}.html")


def split_of_many():
    """A table of 2,000 codes, and a code that splits its last leaf."""
    with open(f"{FOLDER}/many.csv", "w") as f:
        f.writelines(f"AA00026{i:05},{i}\n" for i in range(10, 20000, 10))
    run("make", "many.cat", 600)
    run("load", "many.cat", "many.csv")
    for i in range(20010, 20200, 10):
        code = f"AA00026{i:05}"
        if run("orders", "many.cat", "add", code, i).count("store") > 30:
            return "many.cat", code
        run("add", "many.cat", code, i)
    raise AssertionError("no split")


def main():
    data = json.loads(run("film", "--drawings", "--data"))
    scenes = data["scenes"]
    worked(scenes[0])
    files = {os.path.basename(p) for p in glob.glob(f"{DRAWINGS}/*.txt")}
    assert {s["list"] for s in scenes if not s["own"]} == files, "a drawing is missing in the lesson"
    assert all(s["told"] for s in scenes), "a scene has no sentence"
    assert [i for i, s in enumerate(scenes) if "ask" in s] == [0] and "75" not in scenes[0]["ask"], "scene 1 answers the first question"
    for scene in scenes:
        if not scene["own"]:
            drawing(scene, scenes)
        else:
            assert scene["judge"] == -1 and scene["lost"] is None and scene["unsound"] is None
    the_lessons_words(scenes)
    with open(f"{FOLDER}/lesson.html") as f:
        page = f.read()
    inside = re.search(r'<script type="application/json" id="data">(.*?)</script>', page, re.S)[1]
    assert json.loads(inside) == data and page.count("@") == page.count("@media") + page.count("@page")
    assert len(page) < 700_000, len(page)
    module = re.search(r'<script type="text/plain" id="module">\n(.*?)</script>', page, re.S)[1].strip()
    assert module == "" or base64.b64decode(module)[:4] == b"\0asm"
    done(f"the page holds the same data, {len(page)} bytes, {'with' if module else 'without'} the library inside")
    sizes = {"split": page_of("split", "full.cat", "AA0002600120"), "of many": page_of("large", *split_of_many())}
    with open(f"{FOLDER}/settled.html", "w") as f:
        f.write(run("film", "full.cat", "repair"))
    assert all(size < 2_000_000 for size in sizes.values()) and sizes["of many"] < 100_000, sizes
    done(f"bytes of a page of a split: {sizes}")
    print(f"{passed} passed, 0 failed")


main()
