"""What is done while the power may fail: every command of the program and every call of the file library that writes, and two one after another,
of which the first is killed."""
import os

from trial import NODES, Pressing, changed, code, frozen

FAST = 2
BY_ORDERS, IN_PLACE = 4, 8
WRITING = 1


def lines_of(folder, name, numbers, first):
    path = f"{folder}/{name}"
    with open(path, "w") as f:
        f.writelines(f"{code(n)},{first + k}\n" for k, n in enumerate(numbers))
    return path


def tables(judge, folder):
    """Contents of files to begin with. full: two collections whose leaves are full, over several pages; old: without a trailer; damaged: a
    leaf's slot leads nowhere, and beheaded: so does the header."""
    t = f"{folder}/full"
    rising = [30 * leaf + 6 * i for leaf in range(8) for i in range(5)]
    between = [30 * leaf + i for leaf in range(8) for i in (1, 2, 3, 4, 5, 7)]
    judge.run("make", t, NODES, "--loan")
    for collection in (1, 2):
        judge.run("add", t, code(rising[0]), 1, "--collection", collection)
        judge.run("load", t, lines_of(folder, "csv", rising[1:] + between, 2), "--collection", collection)
    with open(t, "rb") as f:
        full = f.read()
    words = bytearray(full)
    root = int.from_bytes(full[8:16], "little")
    leaf = int.from_bytes(full[64 + 256 * (root - 1):][:8], "little")
    # The recording of the leaf's first slot is 0 now.
    at = 64 + 256 * (leaf - 1) + 64 + 8
    words[at:at + 8] = bytes(8)
    judge.run("make", f"{folder}/empty", NODES, "--loan")
    with open(f"{folder}/empty", "rb") as f:
        empty = f.read()
    roots = [int.from_bytes(full[8 * w:8 * w + 8], "little") for w in (1, 3)]
    return {"full": full, "empty": empty, "damaged": bytes(words), "old": full[:-64], "beheaded": bytes(64) + full[64:], "roots": roots}


# ---- commands

def single_changes(t, tables, _):
    t.begin({"t": tables["full"]})
    for kind, collection, more in (("add", 1, []), ("remove", 2, []), ("class", 1, []), ("add", 2, ["--dock", 1]), ("remove", 1, ["--dock", 1]),
                                   ("class", 2, []), ("add", 1, []), ("add", 1, ["--dock", 1])):
        t.change(kind, collection, more)


def changes_while_the_system_writes(t, tables, _):
    t.begin({"t": tables["full"]})
    with Pressing(t.place):
        for kind in ("add", "add", "remove", "add"):
            t.change(kind, 1, ["--pause", 500])


def a_session(t, tables, _):
    t.begin({"t": tables["full"]})
    typed, states, now = [], [], t.now
    for kind in ("add", "remove", "add", "class"):
        words, t.now = t.some_change(kind)
        typed.append(" ".join(str(w) for w in [words[0], *words[2:]]))
        states.append(t.now)
    t.now = now
    t.command([t.path("t")], states, typed="\n".join(typed) + "\n")


def cut_off_and_repaired(t, tables, _):
    """What --cut leaves is on the disk as far as its last flush; a repair and a change finish it."""
    t.begin({"t": tables["full"]})
    for _ in range(2):
        t.cut_change()
        t.command(["repair", t.path("t")], [t.now])
        t.cut_change()
        t.change("add", 1)


def made(t, tables, _):
    t.begin({"other": tables["full"]})
    t.command(["make", t.path("t"), NODES], [t.with_table(frozen([{}, {}]))])
    t.change("add", 1)
    t.command(["make", t.path("loan"), 30, "--loan"], [t.with_table(frozen([{}, {}]), "loan")])


def loaded_packed(t, tables, _):
    """Into an empty collection, beside an empty one and beside a full one."""
    t.begin({"t": tables["empty"]})
    for collection in (1, 2):
        csv, new = t.lines(40)
        states = t.states_of(new, collection)
        t.command(["load", t.path("t"), csv, "--each", "--collection", collection], [states[-1]])


def loaded_by_batches(t, tables, _):
    t.begin({"t": tables["full"]})
    csv, new = t.lines(60)
    t.command(["load", t.path("t"), csv, "--each"], t.states_of(new))
    csv, new = t.lines(30, 700)
    t.command(["load", t.path("t"), csv, "--each", "--again", "--keep-going", "--collection", 2], t.states_of(new, 2))


def loaded_in_place(t, tables, _):
    """A table with a second name is changed in place, flush by flush."""
    t.begin({"t": tables["full"]}, [("t", "second")])
    csv, new = t.lines(8)
    states = [{**s, "second": s["t"]} for s in t.states_of(new)]
    t.command(["load", t.path("t"), csv, "--each"], states)


def copied_and_salvaged(t, tables, _):
    t.begin({"t": tables["full"], "damaged": tables["damaged"], "beheaded": tables["beheaded"]})
    t.command(["copy", t.path("t"), t.path("copy")], [t.with_table(t.now["t"], "copy")])
    t.command(["copy", t.path("t"), t.path("larger"), 200], [t.with_table(t.now["t"], "larger")])
    judge, folder = t.judge, t.folder
    for name, words in (("damaged", []), ("beheaded", ["--nodes", NODES, "--root", tables["roots"][0], "--loan-root", tables["roots"][1]])):
        saved = f"{folder}/saved-{name}"
        # What a salvage makes of it, in a folder that loses nothing.
        judge.run("salvage", t.path(name), saved, *words)
        maps = judge.maps(saved)
        os.remove(saved)
        assert maps and any(maps)
        t.command(["salvage", t.path(name), t.path(f"saved-{name}"), *words], [t.with_table(maps, f"saved-{name}")])


def fast(t, tables, _):
    """Before the end of such a command anything may be there, after it everything."""
    t.begin({"t": tables["full"]})
    t.change("add", 1, ["--fast"], loose=True)
    csv, new = t.lines(60)
    t.command(["load", t.path("t"), csv, "--fast"], [t.states_of(new)[-1]], loose=True)
    t.change("remove", 2)


# ---- twice

def changed_twice(t, tables, _):
    """A change is killed, then another one is made."""
    t.begin({"t": tables["full"]})
    for kind in ("add", "remove", "class", "add"):
        t.change("add", 1, ["--pause", 3000], kill=t.chance.uniform(0.01, 0.15))
        t.change(kind, 1)


def loaded_twice(t, tables, _):
    """A load is killed, then a change is made. By batches or in place."""
    for_place = [("t", "second")] if t.chance.random() < 0.5 else []
    t.begin({"t": tables["full"]}, for_place)
    both = lambda states: [{**s, "second": s["t"]} for s in states] if for_place else states
    for first in (400, 500):
        csv, new = t.lines(12, first)
        t.command(["load", t.path("t"), csv, "--each", "--pause", 100], both(t.states_of(new)), kill=t.chance.uniform(0.005, 0.06))
        words, after = t.some_change()
        t.command(words, both([after]))


def packed_twice(t, tables, _):
    """A packed load is killed, perhaps once its new file has the name, then a change is made."""
    t.begin({"t": tables["empty"]})
    for collection in (1, 2):
        csv, new = t.lines(40)
        t.command(["load", t.path("t"), csv, "--collection", collection], [t.states_of(new, collection)[-1]], kill=t.chance.uniform(0.001, 0.006))
        t.change("add", collection)


def made_twice(t, tables, _):
    """A file that is being made is killed, then it is made again."""
    t.begin({"t": tables["full"]})
    for name, words in (("copy", ["copy", t.path("t"), t.path("copy")]), ("new", ["make", t.path("new"), 30])):
        maps = t.now["t"] if name == "copy" else frozen([{}, {}])
        t.command(words, [t.with_table(maps, name)], kill=t.chance.uniform(0.001, 0.006))
        # Under the same name, if the kill came before it was taken.
        again = name if name not in t.now else name + "2"
        t.command([t.path(again) if word == t.path(name) else word for word in words], [t.with_table(maps, again)])
        t.change("add", 1)


# ---- calls of the file library

def library_changes(t, tables, library):
    """On a table without a trailer, which the first handle that writes adds."""
    t.begin({"t": tables["old"]})
    maps, steps = t.now["t"], [(("open", t.path("t")), [])]
    new = [(c, (t.next_number(), "room")) for c in (code(8), code(40), code(70))]
    for call, collection, what in ((("add", 1, new[0][0], *new[0][1]), 1, dict(new[:1])), (("remove", 2, code(0)), 2, {code(0): None}),
                                   (("set_class", 1, code(8), "closed"), 1, {code(8): (new[0][1][0], "closed")}),
                                   (("change", 1, new[1][0], *new[1][1], 7), 1, {}), (("repair",), 1, {}),
                                   (("add", 1, new[2][0], *new[2][1]), 1, dict(new[2:])), (("sync",), 1, {}), (("close",), 1, {})):
        maps = changed(maps, collection, what)
        steps.append((call, [t.with_table(maps)]))
    t.call_all(library, steps)


def library_loads(t, tables, library):
    """Packed, by batches, by orders, in place; by pairs and line by line."""
    t.begin({"t": tables["full"], "e": tables["empty"]})
    steps = []
    for name, collection, flags, call, count in (("e", 1, 0, "load", 40), ("e", 2, 0, "load_pairs", 20), ("t", 1, 0, "load", 30),
                                                 ("t", 2, BY_ORDERS, "load_pairs", 20), ("t", 1, IN_PLACE, "load", 4)):
        _, new = t.lines(count, 400 + 100 * len(steps))
        states = t.states_of(new, collection, name)
        packed = name == "e"
        steps += [(("open", t.path(name)), []), ((call, collection, flags, list(new.items())), states[-1:] if packed and call == "load_pairs" else states)]
        steps.append((("close",), []))
        t.now = states[-1]
    t.now = t.states[0]
    t.call_all(library, steps)


def library_files(t, tables, library):
    t.begin({"t": tables["full"], "damaged": tables["damaged"], "beheaded": tables["beheaded"]})
    maps, judge, saved = t.now["t"], t.judge, {}
    for name, words in (("damaged", []), ("beheaded", ["--nodes", NODES, "--root", tables["roots"][0], "--loan-root", tables["roots"][1]])):
        judge.run("salvage", t.path(name), f"{t.folder}/saved", *words)
        saved[name] = judge.maps(f"{t.folder}/saved")
        os.remove(f"{t.folder}/saved")
    steps, now = [], t.now
    for call, name, what in ((("create", t.path("new"), 40, 2), "new", frozen([{}, {}])), (("open", t.path("t"), 0), None, None),
                             (("copy", t.path("copy"), 0), "copy", maps), (("open", t.path("damaged"), 0), None, None),
                             (("salvage", t.path("saved")), "saved", saved["damaged"]),
                             (("rescue", t.path("beheaded"), NODES, tables["roots"], t.path("rescued")), "rescued", saved["beheaded"])):
        now = {**now, name: what} if name else now
        steps.append((call, [now] if name else []))
    t.call_all(library, steps)


def library_fast(t, tables, library):
    t.begin({"t": tables["full"]})
    maps, steps = t.now["t"], [(("open", t.path("t"), WRITING | FAST), [])]
    for i in (8, 40, 70, 100):
        value = (t.next_number(), "open")
        maps = changed(maps, 1, {code(i): value})
        steps.append((("add", 1, code(i), *value), [t.with_table(maps)]))
        if i == 40:
            t.call_all(library, [*steps, (("sync",), []), (("close",), [])], loose=True)
            steps = [(("open", t.path("t"), WRITING | FAST), [])]
    t.call_all(library, [*steps, (("close",), [])], loose=True)


def library_twice(t, tables, library):
    """A handle is killed within a change or a load, and another one goes on."""
    t.begin({"t": tables["full"]})
    for call, first in (("add", 400), ("load", 500)):
        _, new = t.lines(1 if call == "add" else 12, first)
        c, value = next(iter(new.items()))
        what = ("add", 1, c, *value) if call == "add" else ("load", 1, IN_PLACE, list(new.items()))
        t.call_all(library, [(("open", t.path("t"), WRITING, 2000), []), (what, t.states_of(new))], kill=(1, t.chance.uniform(0.01, 0.1)))
        c, value = t.unused(), (t.next_number(), "closed")
        t.call_all(library, [(("open", t.path("t")), []), (("add", 1, c, *value), [t.with_table(changed(t.now["t"], 1, {c: value}))]), (("close",), [])])


ALL = [(f.__name__.replace("_", " "), f) for f in (
    single_changes, changes_while_the_system_writes, a_session, cut_off_and_repaired, made, loaded_packed, loaded_by_batches, loaded_in_place,
    copied_and_salvaged, fast, changed_twice, loaded_twice, packed_twice, made_twice, library_changes, library_loads, library_files, library_fast,
    library_twice)]
