"""A hundred changes: what `catalogue film --data` says of every order and every choice of a cut, compared with the library's answers.

compare.py PROGRAM LIBRARY FOLDER. Pages of some of them are left in FOLDER for the page's script. The last line is 'N passed, 0 failed'."""
import itertools
import json
import random
import struct
import subprocess
import sys

from library import ABSENT, MARK, Library, Words
from tree import Table

DIGITS = "0123456789ABCDEFGHIJKLMNOPQRSTUVWXYZabcdefghijklmnopqrstuvwxyz-_"
PROGRAM, FOLDER = sys.argv[1], sys.argv[3]
library = Library(sys.argv[2])
BARRIER = MARK - 1
checked = {"moments": 0, "choices": 0, "images": 0, "searches": 0}
met = {}

# Images of one list that a film has at most.
MOST_IMAGES = 20000
# Choices of one moment that are all tried; of more, some.
MOST_CHOICES = 2000


# ---- document 01's rule: what a cut may leave

def stores_of(orders):
    """By line: the places of its stores in the list, from 1."""
    by_line = {}
    for i, (word, _) in enumerate(orders, 1):
        if word < BARRIER:
            by_line.setdefault(word // 8, []).append(i)
    return by_line


def choices_at(orders, c):
    """After c orders, by line: the stores since its last flush, of which any first part may be in memory; and those before it."""
    sure, late = {}, {}
    for i, (word, value) in enumerate(orders[:c], 1):
        if word == MARK:
            sure[value] = sure.get(value, []) + late.pop(value, [])
        elif word != BARRIER:
            late.setdefault(word // 8, []).append(i)
    return sure, late


def some_parts(late, chance):
    """First parts of each line's stores: every choice, or if they are very many all, none, those that lack some of one line, and others."""
    lines, product = list(late.values()), 1
    for line in lines:
        product *= len(line) + 1
    if product <= MOST_CHOICES:
        yield from itertools.product(*([line[:k] for k in range(len(line) + 1)] for line in lines))
        return
    yield lines
    yield [[] for _ in lines]
    for i, line in enumerate(lines):
        for k in range(len(line)):
            yield [*lines[:i], line[:k], *lines[i + 1:]]
    for _ in range(30):
        yield [line[:chance.randrange(len(line) + 1)] for line in lines]


def image_with(base, orders, numbers):
    words = list(base)
    for i in sorted(numbers):
        words[orders[i - 1][0]] = orders[i - 1][1]
    return words


# ---- what the film says

class Scene:
    def __init__(self, scene):
        self.scene = scene
        self.orders = [(int(o[1]), int(o[2])) if o[0] == "store" else (MARK, o[1]) if o[0] == "flush" else (BARRIER, 0) for o in scene["orders"]]
        self.by_line = stores_of(self.orders)
        self.lines = sorted(self.by_line)

    def told(self, numbers):
        """The four parts that the film has of the image with these stores, at the last of them. None if it is left out."""
        birth = max(numbers, default=0)
        place = 0
        if birth:
            own = self.orders[birth - 1][0] // 8
            _, late = choices_at(self.orders, birth)
            others = [(line, late[line], [i for i in late[line] if i in numbers]) for line in sorted(late) if line != own]
            if birth in self.scene["some"]:
                lacking = [k for k, (_, all, has) in enumerate(others) if len(has) < len(all)]
                if lacking and len(self.scene["images"][birth]) == 4:
                    return None
                if len(lacking) > 1:
                    if any(has for _, _, has in others):
                        return None
                    place = len(self.scene["images"][birth]) // 4 - 1
                elif lacking:
                    place = 1 + sum(len(all) for _, all, _ in others[:lacking[0]]) + len(others[lacking[0]][2])
            else:
                for _, all, has in others:
                    place = place * (len(all) + 1) + len(has)
        four = self.scene["images"][birth][4 * place:4 * place + 4]
        assert len(four) == 4, (birth, place)
        return [self.scene[name][i] for name, i in zip(("sound", "maps", "rows", "kinds"), four)]

    def way(self, row, mark):
        number = 0
        for digit in row[3 * mark:3 * mark + 3]:
            number = 64 * number + DIGITS.index(digit)
        return self.scene["ways"][number]


def check_sound(words, sound):
    number, _, orders = library.write(words, "repair")
    assert sound["number"] == number, (sound, number)
    if number != 0:
        met["unsound"] = met.get("unsound", 0) + 1
        assert set(sound) == {"number"}, sound
        return
    told = [(int(o[1]), int(o[2])) if o[0] == "store" else (MARK, o[1]) for o in sound.get("repair", [])]
    assert told == orders, (told, orders)
    letter = Table(words, words[2]).letter([r for r in (words[1], words[3]) if r])
    assert sound.get("letter", "") == letter and (letter == "") == (not orders), (sound, letter)
    assert letter == "" or sound["left"].startswith(f"leftover ({letter})"), sound
    met[letter or "settled"] = met.get(letter or "settled", 0) + 1


def check_map(words, before, change, collection, map):
    """Both collections as searches answer for every code, and the change's."""
    kind, count, told = map
    lent, found = Words(words), []
    for n in (1, 2):
        if n == 2 and not before[1] and words[3] == 0:
            continue
        now = dict(library.list(words, n) or [])
        keys = {k for k, _ in before[n - 1]} | set(now) | ({change[1]} if change[0] != "repair" and n == collection else set())
        for key in sorted(keys):
            number, pointer = library.search(lent, n, key)
            old = dict(before[n - 1]).get(key, 0)
            if not (number in (0, ABSENT) and (pointer if number == 0 else 0) == old):
                found.append([n, str(key), str(old), str(pointer if number == 0 else 0), number])
    assert count == len(found) and told == found[:40], (map, found)
    wanted = change[0] != "repair" and len(found) == 1 and found[0][:2] == [collection, str(change[1])] \
        and (found[0][3:] == [str(change[3] << 56 | change[2]), 0] if change[0] == "+" else found[0][3:] == ["0", ABSENT])
    assert kind == ("old" if not found else "new" if wanted else "neither"), (map, found)
    met[kind] = met.get(kind, 0) + 1


def keys_between(scene, mark, chance):
    """Both ends of what a mark stands for, and one between."""
    low, high = int(scene["marks"][mark]), int(scene["marks"][mark + 1]) - 1 if mark + 1 < len(scene["marks"]) else int(scene["high"])
    return {low, high, chance.randint(low, high)}


def check_ways(film, words, row, collection, chance):
    assert len(row) == 3 * len(film.scene["marks"])
    lent, table, root = Words(words), Table(words, words[2]), words[1 if collection == 1 else 3]
    for mark in range(len(film.scene["marks"])):
        number, value, slot, flat = film.way(row, mark)
        steps = list(zip(flat[::2], flat[1::2]))
        for key in keys_between(film.scene, mark, chance):
            checked["searches"] += 1
            said, pointer = library.search(lent, collection, key)
            assert (number, value) == (said, "" if pointer is None else str(pointer)), (key, number, value, said, pointer)
            if said in (2, 17):
                continue
            went, at, whole = table.way(root, key)
            assert (steps, slot) == (went, at) and (whole or said == 3), (key, steps, slot, went, at)
    assert list(lent) == words, "a search changed a word"


def check_kinds(film, words, nodes, kinds):
    table, parts = Table(words, nodes), kinds.split("|")
    good = words[0] == 1 and words[2] == nodes and 1 <= words[1] <= nodes and words[3] <= nodes and words[4:8] == [0] * 4
    reached = [table.reached(root) for root in (words[1], words[3]) if root] if good else []
    for place, said in zip(film.scene["places"], parts):
        n = place["node"]
        assert (said[0] == "r") == any(n in seen for seen in reached), (n, said)
        if place["words"] is not None:
            assert said[1:] == "".join(kind for _, _, kind in table.slots(n)), (n, said)


def check_image(film, base, numbers, before, change, collection, chance):
    words = image_with(base, film.orders, numbers)
    told = film.told(numbers)
    if told is None:
        return None
    sound, map, row, kinds = told
    check_sound(words, sound)
    check_map(words, before, change, collection, map)
    check_ways(film, words, row, collection, chance)
    check_kinds(film, words, base[2], kinds)
    checked["images"] += 1
    return sound["number"] != 0, map[0] == "neither"


def check_base(film, base):
    """The words drawn are the table's; every node that is stored to is drawn."""
    scene = film.scene
    assert scene["header"] == [str(w) for w in base[:8]]
    for place in scene["places"]:
        start = 8 + 32 * (place["node"] - 1)
        assert place["words"] is None or place["words"] == [str(w) for w in base[start:start + 32]]
    drawn = {p["node"] for p in scene["places"] if p["words"] is not None}
    assert {(w - 8) // 32 + 1 for w, _ in film.orders if 8 <= w < BARRIER} <= drawn


def check_scene(scene, base, orders, change, collection, chance, own, whole=True):
    film = Scene(scene)
    assert film.orders == orders, "other orders"
    assert scene["own"] == own and scene["judge"] == library.judge(base, orders, change, collection)
    check_base(film, base)
    before = [library.list(base, n) or [] for n in (1, 2)]
    assert scene["codes"] == [len(pairs) for pairs in before]
    seen, first = {}, {"unsound": None, "lost": None}
    for c in range(len(orders) + 1):
        sure, late = choices_at(orders, c)
        kept = [i for line in sure.values() for i in line]
        # All stores so far are the working copy.
        assert image_with(base, orders, kept + [i for line in late.values() for i in line]) == library.carry_out(base, orders, c)
        assert not own or len(late) <= 1, "our list has two lines unflushed"
        checked["moments"] += 1
        for parts in some_parts(late, chance):
            numbers = frozenset(kept + [i for part in parts for i in part])
            checked["choices"] += 1
            if numbers not in seen:
                seen[numbers] = check_image(film, base, numbers, before, change, collection, chance)
            for bad, what in zip(seen[numbers] or (False, False), ("unsound", "lost")):
                if bad and first[what] is None:
                    first[what] = c
    for what in first if whole else []:
        assert (scene[what]["order"] if scene[what] else None) == first[what], (what, scene[what], first)
    if scene["lost"]:
        numbers = frozenset(i for line, k in zip(film.lines, scene["lost"]["kept"]) for i in film.by_line[line][:k])
        assert numbers not in seen or seen[numbers][1], "the cut that is named loses nothing"
        assert scene["lost"]["key"] in [d[1] for d in film.told(numbers)[1][2]]
    assert not own or first == {"unsound": None, "lost": None}, "a cut of our list loses a code"
    assert whole == (not scene["some"]), scene["some"]
    left_out = sum(told is None for told in seen.values())
    assert (left_out == 0) == whole, left_out


# ---- changes

def code_key(i):
    return int("AA000", 36) * 10**7 + 2600000 + i


def grown(chance, nodes, collections, count):
    """A table with codes put in at random, and some taken out."""
    words, held = library.make(nodes, collections), [{}, {}]
    for _ in range(count):
        n = chance.randrange(collections)
        key, recording = code_key(10 * chance.randrange(1, 60)), chance.randrange(1, 10**4)
        if chance.random() < 0.25 and held[n]:
            key = chance.choice(sorted(held[n]))
            number, words, _ = library.write(words, "delete", n + 1, key)
            held[n].pop(key)
        else:
            number, after, _ = library.write(words, "insert", n + 1, key, recording, chance.randrange(3))
            if number == 0:
                words, held[n][key] = after, recording
    return words, held


def split_ready(chance, nodes, top):
    """Leaves that are full: rising codes, then the last leaf filled."""
    words = library.make(nodes, 1)
    for i in range(1, top):
        number, after, _ = library.write(words, "insert", 1, code_key(10 * i), i, 0)
        words = after if number == 0 else words
    return words


def leftover(words, chance):
    """A cut of some change: what it leaves is not settled if there is such a cut."""
    keys = [k for k, _ in library.list(words, 1)]
    calls = [("insert", 1, chance.choice(keys) + 3, 99999, 0), ("delete", 1, chance.choice(keys))]
    for name, *rest in chance.sample(calls, 2):
        number, _, orders = library.write(words, name, *rest)
        for c in chance.sample(range(1, len(orders)), len(orders) - 1) if number == 0 else []:
            cut = library.carry_out(words, orders, c)
            if library.write(cut, "repair")[2]:
                return cut
    return words


def plan(words, change, collection):
    if change[0] == "+":
        return library.write(words, "insert", collection, *change[1:])
    return library.write(words, "delete", collection, change[1]) if change[0] == "-" else library.write(words, "repair")


def some_change(words, collections, chance):
    collection = chance.randrange(collections) + 1
    pairs = library.list(words, collection)
    kind = chance.random()
    if kind < 0.35 and pairs:
        return ("-", chance.choice(pairs)[0]), collection
    return ("+", code_key(chance.randrange(1, 620)), chance.randrange(10**4, 10**6), chance.randrange(3)), collection


def changes(chance):
    """A hundred: of every kind, on small tables and large ones, of one collection and of two, on settled tables and on leftovers."""
    for i in range(60):
        collections = 1 + (i % 3 == 0)
        words, _ = grown(chance, 8 + i % 20, collections, 8 + 2 * i)
        if i % 4 == 3 and library.list(words, 1):
            words = leftover(words, chance)
        change, collection = some_change(words, collections, chance)
        yield words, change, collection
    for i in range(15):
        # A full leaf, a new root, and runs of splits.
        words = split_ready(chance, 40, [12, 12, 18, 24, 66, 78][i % 6])
        number, after, orders = plan(words, ("+", code_key(10 * 500), 777, 0), 1)
        yield words, ("+", code_key(chance.choice([5, 65, 10 * 500])), 777, chance.randrange(3)), 1
    for i in range(10):
        # A leaf that is not the leftmost, emptied up to its last code: the deletion frees it.
        words = split_ready(chance, 12, 14 + i)
        while True:
            pairs = library.list(words, 1)
            number, after, orders = library.write(words, "delete", 1, pairs[-1][0])
            if any(w < BARRIER and (w - 8) % 32 == 1 for w, _ in orders):
                break
            words = after
        yield words, ("-", pairs[-1][0]), 1
    for i in range(15):
        words, _ = grown(chance, 12, 1 + i % 2, 30 + i)
        yield leftover(words, chance), ("repair",), 1


def spoilt(orders, chance):
    """A list drawn wrong: orders left out, moved, or flushed at the end."""
    orders = list(orders)
    for _ in range(chance.randrange(1, 3)):
        kind = chance.randrange(3)
        if kind == 0 and len(orders) > 1:
            orders.insert(chance.randrange(len(orders)), orders.pop(chance.randrange(len(orders))))
        elif kind == 1 and orders:
            orders.pop(chance.randrange(len(orders)))
        else:
            flushes = [i for i, o in enumerate(orders) if o[0] == MARK]
            if flushes:
                orders.append(orders.pop(chance.choice(flushes)))
    return orders


# ---- the program

def film(words, change, collection, *more, page=None):
    table = f"{FOLDER}/t.cat"
    with open(table, "wb") as f:
        f.write(struct.pack(f"<{len(words)}Q", *words))
    said = {"+": lambda: ["+", f"#{change[1]}", str(change[2]), ["open", "room", "closed"][change[3]]], "-": lambda: ["-", f"#{change[1]}"],
            "repair": lambda: ["repair"]}[change[0]]()
    named = ["--collection", str(collection)] if collection == 2 else []
    out = subprocess.run([PROGRAM, "film", table, *said, *named, *more], check=True, stdout=subprocess.PIPE).stdout
    with open(table, "rb") as f:
        assert f.read() == struct.pack(f"<{len(words)}Q", *words), "the table was changed"
    if page:
        with open(page, "wb") as f:
            f.write(out)
        return None
    data = json.loads(out)
    assert data["format"] == 1
    return data["scenes"]


def too_many(chance):
    """A split whose flushes all come at the end has more images than a page holds: some are left out, and the others are right."""
    words, change = split_ready(chance, 6, 12), ("+", code_key(500), 777, 0)
    orders = plan(words, change, 1)[2]
    late = [o for o in orders if o[0] != MARK] + [o for o in orders if o[0] == MARK]
    with open(f"{FOLDER}/list.txt", "w") as f:
        f.writelines(f"flush {v}\n" if w == MARK else f"store {w} {v}\n" for w, v in late)
    scenes = film(words, change, 1, "--data", "--list", f"{FOLDER}/list.txt")
    check_scene(scenes[1], words, late, change, 1, chance, False, whole=False)
    assert scenes[1]["lost"]["order"] < 40
    film(words, change, 1, "--list", f"{FOLDER}/list.txt", page=f"{FOLDER}/list-long.html")
    told = sum(len(x) // 4 for x in scenes[1]["images"])
    assert told <= MOST_IMAGES, told
    return told


def far_too_many(chance):
    """Stores to two lines in turn, and no flush: of the last orders there is one image alone."""
    words, change = grown(chance, 3, 1, 5)[0], ("+", code_key(500), 777, 0)
    orders = [(17 + 8 * (i % 2), 1000 + i % 7) for i in range(300)]
    with open(f"{FOLDER}/list.txt", "w") as f:
        f.writelines(f"store {w} {v}\n" for w, v in orders)
    scene = film(words, change, 1, "--data", "--list", f"{FOLDER}/list.txt")[1]
    told = sum(len(x) // 4 for x in scene["images"])
    assert told <= MOST_IMAGES and all(scene["images"]) and any(len(scene["images"][c]) == 4 for c in scene["some"]), told
    return told


def main():
    chance, passed, kinds, sizes = random.Random(20261117), 0, {}, []
    for i, (words, change, collection) in enumerate(changes(chance)):
        number, after, orders = plan(words, change, collection)
        if number != 0:
            change = ("+", code_key(611), 10**7 + i, 0)
            number, after, orders = plan(words, change, collection)
        assert number == 0, (i, change, number)
        scenes = film(words, change, collection, "--data")
        assert len(scenes) == 1
        check_scene(scenes[0], words, orders, change, collection, chance, True)
        kinds[change[0]] = kinds.get(change[0], 0) + 1
        passed += 1
        if i % 9 == 0 or i in (60, 75, 76):
            film(words, change, collection, page=f"{FOLDER}/change-{i}.html")
    for i in range(30):
        words = split_ready(chance, 6, 12) if i % 2 else grown(chance, 6, 1, 14)[0]
        change, _ = some_change(words, 1, chance)
        number, _, orders = plan(words, change, 1)
        if number != 0:
            continue
        wrong = spoilt(orders, chance)
        with open(f"{FOLDER}/list.txt", "w") as f:
            f.writelines(f"flush {v}\n" if w == MARK else f"store {w} {v}\n" for w, v in wrong)
        scenes = film(words, change, 1, "--data", "--list", f"{FOLDER}/list.txt")
        # Beside it the nearest right list: the library's, or another.
        assert len(scenes) == (3 if scenes[1]["beside"] == 2 else 2) and scenes[1]["beside"] in (0, 2)
        for right in scenes[2:]:
            assert right["judge"] == -1 and right["lost"] is None and right["unsound"] is None
            check_scene(right, words, [(o[1], int(o[2])) if o[0] == "store" else (MARK, o[1]) for o in right["orders"]], change, 1, chance, False)
        check_scene(scenes[0], words, orders, change, 1, chance, True)
        check_scene(scenes[1], words, wrong, change, 1, chance, False)
        passed += 1
        if i % 6 == 0:
            film(words, change, 1, "--list", f"{FOLDER}/list.txt", page=f"{FOLDER}/list-{i}.html")
    assert kinds["+"] + kinds["-"] + kinds["repair"] == 100 and min(kinds.values()) >= 15, kinds
    print(f"{kinds} and {passed - 100} spoilt lists: {checked}, {met}")
    assert set(met) == {"settled", "a", "b", "c", "unsound", "old", "new", "neither"}, met
    print(f"a list with too many images: {too_many(chance)} kept; one with far too many: {far_too_many(chance)}")
    passed += 2
    print(f"{passed} passed, 0 failed")


main()
