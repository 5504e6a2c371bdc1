"""Large loads: packed into an empty collection, by batches into one with codes; copies that pack; and what a kill, a full disk, another
writer or little memory do to them."""
import ctypes
import errno
import fcntl
import itertools
import os
import random
import re
import resource
import shutil
import signal
import stat
import struct
import subprocess
import sys
import tempfile
import threading
import time

from drive import *

NODE = 32


# ---- a plain model, from the text of the requests: rows of nodes from the leaves up, 11 pairs to a leaf, 12 children to an inner node

def parts(items, size):
    return [items[i:i + size] for i in range(0, len(items), size)]


def packed_tree(pairs, first):
    """The nodes' words of one collection, the first node having this number."""
    row = [(0 if i == 0 else some[0][0], MARK, some) for i, some in enumerate(parts(pairs, 11) or [[]])]
    words, level = [], 0
    while True:
        for i, (fence, left, slots) in enumerate(row):
            sibling = first + i + 1 if i + 1 < len(row) else 0
            words += [left, sibling, level, fence, 0, 0, 0, 0] + [w for s in slots for w in s] + (24 - 2 * len(slots)) * [0]
        if len(row) == 1:
            return words
        children = [(fence, first + i) for i, (fence, _, _) in enumerate(row)]
        first, level = first + len(row), level + 1
        row = [(some[0][0], some[0][1], some[1:]) for some in parts(children, 12)]


def packed_table(nodes, *collections):
    """A table's words, from each collection's map of code to recording and class."""
    words, roots = [], []
    for found in collections:
        pairs = sorted((key(c), CLASSES.index(access) << 56 | r) for c, (r, access) in found.items())
        words += packed_tree(pairs, len(words) // NODE + 1)
        roots.append(len(words) // NODE)
    assert len(words) <= NODE * nodes
    return [1, roots[0], nodes, roots[1] if len(roots) > 1 else 0, 0, 0, 0, 0] + words + (NODE * nodes - len(words)) * [0]


def nodes_for(count):
    return len(packed_tree([(i, i) for i in range(count)], 1)) // NODE


def some_lines(chance, count, first=0):
    """Codes and recordings in no order, with classes: as lines and as a map."""
    codes = chance.sample(range(first, first + 4 * count), count)
    recordings = chance.sample(range(1, 5 * count), count)
    found = {code(c): (r, chance.choice(CLASSES)) for c, r in zip(codes, recordings)}
    return [f"{c},{r},{access}" for c, (r, access) in found.items()], found


def write(path, lines):
    with open(path, "w") as f:
        f.writelines(line + "\n" for line in lines)


def loaded(program, t, csv, *words):
    """What a load that adds all its lines says."""
    return program.done("load", t, csv, *words)


def left_over(folder):
    return [name for name in os.listdir(folder) if name.endswith(".new")]


# ---- packed

def packed_words(program, folder):
    """Shuffled, sorted and quoted lines come to the same words: those of a packing written from the request's text."""
    t, csv, chance = f"{folder}/t", f"{folder}/csv", random.Random(1)
    for count in (0, 1, 11, 12, 22, 23, 131, 132, 133, 1000, 2000) if program.quick else (0, 12, 133):
        lines, found = some_lines(chance, count)
        least = nodes_for(count)
        for nodes in (least, least + 7):
            for order in (lines, sorted(lines), ["code,recording,class"] + [",".join(f'"{w}"' for w in line.split(",")) for line in lines]):
                write(csv, order)
                program.done("make", t, nodes)
                empty = read_words(t)
                assert loaded(program, t, csv) == f"{count} added, 0 there already\n"
                # Without a line the file stays as it is.
                assert read_words(t) == (packed_table(nodes, found) if count > 0 else empty), (count, nodes)
                os.remove(t)
    assert os.listdir(folder) == ["csv"]


def packed_beside_another(program, folder):
    """Into an empty collection, whatever the other one has: both are packed anew, and the other keeps its codes."""
    t, csv, chance = f"{folder}/t", f"{folder}/csv", random.Random(2)
    for counts in ((30, 200), (200, 30), (11, 11), (0, 150)):
        mine, theirs = some_lines(chance, counts[0]), some_lines(chance, counts[1])
        for first in (1, 2):
            nodes = nodes_for(counts[0]) + nodes_for(counts[1])
            program.done("make", t, nodes, "--loan")
            for collection, (lines, _) in ((first, mine), (3 - first, theirs)):
                write(csv, lines)
                assert loaded(program, t, csv, *naming(collection)) == f"{len(lines)} added, 0 there already\n"
            both = (mine[1], theirs[1]) if first == 1 else (theirs[1], mine[1])
            assert read_words(t) == packed_table(nodes, *both)
            os.remove(t)
    # One that was grown is packed with it.
    pairs = [(code(i), 1 + i) for i in range(60)]
    fill(program, t, 30, [], pairs)
    write(csv, [f"{c},{r}" for c, r in pairs])
    loaded(program, t, csv)
    found = {c: (r, "open") for c, r in pairs}
    assert read_words(t) == packed_table(30, found, found)


def emptied_tables(program, folder):
    """A collection is empty when it has no codes, however many nodes it has and whatever a cut left."""
    t, csv = f"{folder}/t", f"{folder}/csv"
    fill(program, t, 9, [(code(i), 1 + i) for i in range(30)])
    for i in range(29):
        program.done("remove", t, code(i))
    cut = orders_of(program.done("orders", t, "remove", code(29)))
    program.done("remove", t, code(29), "--cut", len(cut) - 1)
    assert program.done("list", t) == ""
    lines, found = some_lines(random.Random(3), 80)
    write(csv, lines)
    assert loaded(program, t, csv) == "80 added, 0 there already\n" and read_words(t) == packed_table(9, found)


def full_tables(program, folder):
    """The first line that does not fit is refused as before, with 10; what came before is kept. Single additions never come further."""
    t, u, csv, chance = f"{folder}/t", f"{folder}/u", f"{folder}/csv", random.Random(4)
    for nodes in (1, 2, 3, 13, 14, 15, 40):
        most = max(n for n in range(11 * nodes + 1) if nodes_for(n) <= nodes)
        lines, _ = some_lines(chance, most + 20)
        lines.insert(most // 2, "x")
        write(csv, lines)
        for table in (t, u):
            program.done("make", table, nodes)
        status, out, err = program("load", t, csv, "--keep-going")
        assert (status, out) == (NO_NODES, f"{most} added, 0 there already, 1 bad line\n"), (nodes, status, out)
        last = err.splitlines()[1:]
        assert f"{t} is full: adding {lines[most + 1].split(',')[0]} takes more nodes" in last[0], err
        assert last[1:] == [f"catalogue: {csv}: stopped before line {most + 2}; what came before is kept"], err
        found = {c: (int(r), access) for c, r, access in (line.split(",") for line in lines[:most + 1] if line != "x")}
        assert read_words(t) == packed_table(nodes, found)
        status, out, _ = program("load", u, csv, "--keep-going", "--pause", 1)
        assert status == NO_NODES and int(out.split()[0]) <= most, (status, out)
        os.remove(t), os.remove(u)


def full_beside_another(program, folder):
    """The same beside a second collection that has codes, whichever of the two is loaded into: as many lines as there are nodes for beside the other's."""
    t, csv, chance = f"{folder}/t", f"{folder}/csv", random.Random(20)
    for there in (1, 11, 12, 140, 300):
        held, theirs = some_lines(chance, there)
        for free in (1, 2, 3, 13, 14, 30):
            nodes = nodes_for(there) + free
            most = max(n for n in range(11 * free + 1) if nodes_for(n) <= free)
            lines, _ = some_lines(chance, most + 5, 9000)
            found = everything("\n".join(lines[:most]))
            for first in (1, 2):
                program.done("make", t, nodes, "--loan")
                write(csv, held)
                loaded(program, t, csv, *naming(3 - first))
                write(csv, lines)
                status, out, err = program("load", t, csv, *naming(first))
                assert (status, out) == (NO_NODES, f"{most} added, 0 there already\n"), (there, free, first, status, out, err)
                assert f"stopped before line {most + 1}; what came before is kept" in err, err
                assert read_words(t) == packed_table(nodes, *((found, theirs) if first == 1 else (theirs, found))), (there, free, first)
                os.remove(t)


# ---- judged line by line

def spoilt_lines(chance, count, there):
    """Lines of all sorts: good ones, codes and recordings there twice, before or in the table, wrong numbers, no codes, no lines."""
    lines, codes, recordings = [], list(there), list(there.values())
    for i in range(count):
        what = chance.random()
        c, r = code(chance.randrange(10 * count)), chance.randrange(1, 10 * count)
        if what < 0.08 and codes:
            c = chance.choice(codes)
        elif what < 0.16 and codes:
            r = chance.choice(recordings)
        elif what < 0.24 and codes:
            i = chance.randrange(len(codes))
            c, r = codes[i], recordings[i]
        elif what < 0.27:
            r = chance.choice((0, 2**56, 2**56 + 5, 2**64 - 1))
        line = f"{c},{r}" + (f",{chance.choice(CLASSES)}" if chance.random() < 0.5 else "")
        if 0.27 <= what < 0.3:
            line = chance.choice(("", "x", "AA00019,6", f"{c},", f"{c},{r},shut", "  "))
        elif r in range(1, 2**56):
            codes.append(c), recordings.append(r)
        lines.append(line)
    return lines


def judged(lines, there, again, keep_going):
    """What single additions in the file's order come to: the map, counts of added and there, and (line, status) of the bad ones."""
    found, added, known, bad = dict(there), 0, 0, []
    stopped = False
    for number, line in enumerate(lines, 1):
        if not line.strip():
            continue
        c, _, rest = line.partition(",")
        r, _, access = rest.partition(",")
        status = 0
        if not r:
            status = BAD_LINE
        elif len(c) != 12:
            status = NO_CODE
        elif not r.isdigit() or not 0 < int(r) < 2**56:
            status = BAD_RECORDING
        elif access not in CLASSES + [""]:
            status = BAD_CLASS
        elif stopped:
            continue
        elif again and c in found and found[c][0] == int(r) and access in ("", found[c][1]):
            known += 1
            continue
        elif c in found:
            status = CODE_THERE
        elif int(r) in {recording for recording, _ in found.values()}:
            status = RECORDING_THERE
        if status == 0:
            found[c] = (int(r), access or "open")
            added += 1
        else:
            bad.append((number, status))
            stopped = not keep_going
    return found, added, known, bad


def refused_lines(program, folder):
    """Packed, by batches and line by line, into an empty table and into one with codes: the same numbers for the same lines, the same
    messages, counts and map, as single additions in the file's order would have."""
    t, csv, chance, seen = f"{folder}/t", f"{folder}/csv", random.Random(5), set()
    for round in range(12 if program.quick else 3):
        there = {} if round % 3 == 0 else some_lines(chance, 40)[1]
        lines = spoilt_lines(chance, chance.choice((12, 60, 250)), {c: r for c, (r, _) in there.items()})
        write(csv, lines)
        for options in ([], ["--again"], ["--keep-going"], ["--again", "--keep-going"]):
            found, added, known, bad = judged(lines, there, "--again" in options, "--keep-going" in options)
            ends = []
            for way in ([], ["--fast"], ["--pause", 1], ["--wear"]):
                fill(program, t, 400, [(c, f"{r},{access}") for c, (r, access) in there.items()])
                status, out, err = program("load", t, csv, "--each", *options, *way)
                err = re.sub("^.*--fast: .*\n", "", err)
                said = out.splitlines()
                closing = next(i for i, line in enumerate(said) if " added, " in line)
                assert status == (bad[0][1] if bad else 0), (status, bad[:1])
                count = f", {len(bad)} bad line{'s' if len(bad) > 1 else ''}" if bad else ""
                assert said[closing] == f"{added} added, {known} there already{count}", (said[closing], added, known, len(bad))
                assert closing == added + known
                assert [int(n) for n in re.findall(r", line (\d+), ", err)] == [n for n, _ in bad[:20]], err
                assert everything(program.done("list", t)) == found
                ends.append((said[:closing + 1], err))
                os.remove(t)
            assert ends.count(ends[0]) == len(ends), ends
            seen.update(s for _, s in bad)
    assert not program.quick or seen == {NO_CODE, BAD_RECORDING, BAD_CLASS, CODE_THERE, RECORDING_THERE, BAD_LINE}, seen


def batches_are_single_additions(program, folder):
    """The words of a table after batches are those after single additions, on either dock, also if lists are many."""
    t, csv, chance = f"{folder}/t", f"{folder}/csv", random.Random(6)
    lines, found = some_lines(chance, 1500 if program.quick else 100)
    write(csv, lines[20:])
    for dock in (0, 1):
        ends = []
        for way in (["--pause", 1], [], ["--fast"], ["--wear"]):
            fill(program, t, 400, [(c, f"{r},{access}") for c, (r, access) in list(found.items())[:20]])
            status, out, err = program("load", t, csv, *way, *docked(dock))
            assert status == 0 and out.startswith(f"{len(lines) - 20} added, "), (status, out, err)
            ends.append(read_words(t))
            os.remove(t)
        assert ends.count(ends[0]) == len(ends)


def acknowledged_one_by_one(program, folder):
    """A program that writes a line and waits for its acknowledgement gets it: a batch ends if the next line is not there yet. Half a line is none."""
    t = f"{folder}/t"
    fill(program, t, 40, [(code(0), 9999)])
    run = program.start("load", t, "-", "--each", stdin=subprocess.PIPE, stdout=subprocess.PIPE, stderr=subprocess.PIPE)
    for i in range(1, 30):
        run.stdin.write("".join(f"{code(100 * i + k)},{100 * i + k}\n" for k in range(i % 4 + 1)) + code(5000 + i)[:7])
        run.stdin.flush()
        for k in range(i % 4 + 1):
            assert run.stdout.readline() == f"{code(100 * i + k)},{100 * i + k},open\n"
        run.stdin.write(code(5000 + i)[7:] + f",{50000 + i}\n")
        run.stdin.flush()
        assert run.stdout.readline() == f"{code(5000 + i)},{50000 + i},open\n"
    out, err = run.communicate(timeout=60)
    assert run.returncode == 0 and out.endswith(" added, 0 there already\n") and err == "", (out, err)


# ---- what list prints loads back

def loads_back(program, folder):
    """What list prints of a table that random additions have filled, of one collection and of two, goes into one of as many nodes; so does
    its copy, and as few nodes as that takes are enough."""
    t, u, csv, chance = f"{folder}/t", f"{folder}/u", f"{folder}/csv", random.Random(7)
    for nodes, collections in ((60, 1), (90, 2), (7, 2)):
        lines = [some_lines(chance, 8 * nodes)[0] for _ in range(collections)]
        fill(program, t, nodes, [lines[0][0].split(",", 1)], [lines[1][0].split(",", 1)] if collections > 1 else None)
        for n, some in enumerate(lines, 1):
            for part in parts(some[1:], 5 * nodes)[:3 - n]:
                write(csv, part)
                program("load", t, csv, *naming(n))
        program.done("make", u, nodes, *["--loan"] if collections > 1 else [])
        maps = []
        for n in range(collections, 0, -1):
            printed = program.done("list", t, *naming(n))
            with open(csv, "w") as f:
                f.write(printed)
            assert loaded(program, u, csv, *naming(n)) == f"{printed.count(chr(10))} added, 0 there already\n"
            maps.insert(0, everything(printed))
        assert read_words(u) == packed_table(nodes, *maps)
        for n, found in enumerate(maps, 1):
            assert everything(program.done("list", u, *naming(n))) == found
        used = int(re.search(r" in (\d+) of", program.done("check", t))[1])
        least = sum(nodes_for(len(found)) for found in maps)
        assert least < used <= nodes, (least, used)
        copies = {words: f"{folder}/copy{i}" for i, words in enumerate(((), (least,), (nodes,), (nodes + 9,)))}
        for words, copy in copies.items():
            made = words[0] if words else least
            assert program.done("copy", t, copy, *words) == f"made {copy} with {made} nodes\n"
            assert read_words(copy) == packed_table(made, *maps)
        program.refuses(NO_NODES, f"packed, take {least} nodes, more than {least - 1}$", "copy", t, f"{folder}/none", least - 1)
        for path in [t, u, *copies.values()]:
            os.remove(path)


# ---- in the table's place

def the_same_rights(program, folder):
    """The new file has the old one's owner, group and rights; a link to the table stays one; nothing is left beside it."""
    t, csv, link = f"{folder}/t", f"{folder}/csv", f"{folder}/link"
    write(csv, some_lines(random.Random(8), 50)[0])
    for mode in (0o644, 0o600, 0o664, 0o640, 0o750, 0o2755):
        program.done("make", t, 20)
        os.chmod(t, mode)
        if os.geteuid() == 0:
            os.chown(t, 1234, 4321)
            os.chmod(t, mode)
        before = os.stat(t)
        os.symlink("t", link)
        loaded(program, link, csv)
        after = os.stat(t)
        assert os.readlink(link) == "t" and after.st_ino != before.st_ino and after.st_nlink == 1
        assert (after.st_mode, after.st_uid, after.st_gid) == (before.st_mode, before.st_uid, before.st_gid)
        assert stat.S_IMODE(after.st_mode) == mode and sorted(os.listdir(folder)) == ["csv", "link", "t"]
        os.remove(t), os.remove(link)


def access_list(*entries):
    """An access list as an extended attribute: version 2, and of each entry its kind, its rights and the user or group that it names."""
    return struct.pack("<I", 2) + b"".join(struct.pack("<HHI", *e) for e in entries)


OWNER, USER, GROUP, NAMED_GROUP, MASK, OTHERS, NOBODY = 1, 2, 4, 8, 16, 32, 2**32 - 1


def attributes(path):
    return {name: os.getxattr(path, name) for name in os.listxattr(path)}


def the_same_attributes(program, folder):
    """Access lists and extended attributes are the old file's, and no list that the folder gives to new files. Packed, and by batches."""
    csv = f"{folder}/csv"
    lines, found = some_lines(random.Random(17), 300)
    write(csv, lines)
    named = access_list((OWNER, 6, NOBODY), (USER, 6, 1234), (GROUP, 0, NOBODY), (NAMED_GROUP, 4, 4321), (MASK, 6, NOBODY), (OTHERS, 0, NOBODY))
    default = access_list((OWNER, 7, NOBODY), (USER, 7, 65534), (GROUP, 7, NOBODY), (MASK, 7, NOBODY), (OTHERS, 7, NOBODY))
    given = {"user.shelf": b"7", "user.empty": b"", "user.long": bytes(range(256)) * 8}
    if os.geteuid() == 0:
        given["trusted.mark"] = b"1"
    tried = 0
    for there, in_folder, on_file in itertools.product(([], [(code(90000), 99999)]), (False, True), (False, True)):
        within = tempfile.mkdtemp(dir=folder)
        t = f"{within}/t"
        fill(program, t, 200, there)
        os.chmod(t, 0o640)
        try:
            for name, value in given.items():
                os.setxattr(t, name, value)
            if on_file:
                os.setxattr(t, "system.posix_acl_access", named)
            if in_folder:
                os.setxattr(within, "system.posix_acl_default", default)
        except OSError as error:
            assert error.errno == errno.ENOTSUP, error
            return "no such attributes here"
        before, had = os.stat(t), attributes(t)
        assert ("system.posix_acl_access" in had) == on_file
        assert loaded(program, t, csv) == "300 added, 0 there already\n"
        after = os.stat(t)
        assert after.st_ino != before.st_ino and attributes(t) == had, (in_folder, on_file, attributes(t), had)
        assert (after.st_mode, after.st_uid, after.st_gid) == (before.st_mode, before.st_uid, before.st_gid)
        tried += 1
    return f"{tried} loads"


def a_file_of_the_same_name(program, folder):
    """What a killed load has left does not hinder one that gets its number."""
    t, csv = f"{folder}/t", f"{folder}/csv"
    lines, found = some_lines(random.Random(15), 50)
    write(csv, lines)
    program.done("make", t, 20)
    words = ["sh", "-c", 'echo left > "$1.$$.new" && exec "$0" load "$1" "$2"', program.command[-1], t, csv]
    out = subprocess.run(words, env=program.environment, capture_output=True, text=True, check=True).stdout
    assert out == "50 added, 0 there already\n" and read_words(t) == packed_table(20, found) and left_over(folder) == []


def files_of_dead_programs(program, folder):
    """Who makes a new file for a name removes those that dead programs have left for it, and no other file. The names are not for tables."""
    t, csv = f"{folder}/t", f"{folder}/csv"
    lines, found = some_lines(random.Random(16), 50)
    write(csv, lines)
    dead, others = ["t.1.new", "t.4194303.new"], ["t.5.newer", "t.x.new", "t.new", "t..new", "u.1.new", "t.1.2.new", "t.9.new"]
    commands = [["load", t, csv], ["load", f"{folder}/link", csv], ["make", t, 20], ["copy", f"{folder}/u", t], ["salvage", f"{folder}/u", t]]
    program.done("make", f"{folder}/u", 20)
    os.symlink("t", f"{folder}/link")
    for words in commands:
        if words[0] == "load":
            program.done("make", t, 20)
        for name in dead + others:
            write(f"{folder}/{name}", ["left"])
        os.mkdir(f"{t}.2.new"), os.symlink("u", f"{t}.3.new")
        with open(f"{t}.9.new") as living:
            fcntl.flock(living, fcntl.LOCK_SH)
            program.done(*words)
        stay = sorted(others + ["t.2.new", "t.3.new", "csv", "link", "t", "u"])
        assert sorted(os.listdir(folder)) == stay, (words, set(os.listdir(folder)) ^ set(stay))
        os.rmdir(f"{t}.2.new"), os.remove(f"{t}.3.new"), os.remove(t)
    for name in ("t.5.new", "a.t.123456.new"):
        program.refuses(BAD_FILE, "names that end in .NUMBER.new are for files that are being made", "make", f"{folder}/{name}", 9)
    program.done("make", f"{folder}/5.new", 9)


def changed_in_place(program, folder):
    """A table with a second name, in a folder that takes no files, or of another user stays the same file, and is loaded by batches."""
    t, csv = f"{folder}/t", f"{folder}/csv"
    lines, found = some_lines(random.Random(9), 50)
    write(csv, lines)
    program.done("make", t, 40)
    os.link(t, f"{folder}/second")
    before = os.stat(t).st_ino
    assert loaded(program, t, csv) == "50 added, 0 there already\n" and os.stat(t).st_ino == before
    assert contents(t) == contents(f"{folder}/second") and everything(program.done("list", t)) == found
    if os.geteuid() != 0:
        return None
    other = {"user": 65534, "group": 65534}
    try:
        program.done("--help", **other)
    except (OSError, subprocess.SubprocessError):
        return None
    within = f"{folder}/within"
    for mode, owner in ((0o555, 65534), (0o777, 0)):
        os.mkdir(within)
        os.chmod(folder, 0o755), os.chmod(csv, 0o644)
        u = f"{within}/u"
        program.done("make", u, 40)
        os.chown(u, owner, 65534), os.chmod(u, 0o664), os.chmod(within, mode)
        before = os.stat(u).st_ino
        status, out, err = program("load", u, csv, **other)
        assert (status, out, err) == (0, "50 added, 0 there already\n", "") and os.stat(u).st_ino == before, (status, out, err)
        assert everything(program.done("list", u)) == found and os.listdir(within) == ["u"]
        shutil.rmtree(within)
    return "also as another user"


def no_room_for_a_file(program, folder):
    """Where a new file cannot be written, a load goes on in the table itself, packed or by batches; of an empty table as many lines as there
    are nodes for, with those of them that were there already."""
    t, csv = f"{folder}/t", f"{folder}/csv"
    lines, found = some_lines(random.Random(10), 100)
    write(csv, lines)
    program.done("make", t, 40)
    how = {"preexec_fn": lambda: resource.setrlimit(resource.RLIMIT_FSIZE, (1000, 1000)), "restore_signals": False}
    same = os.stat(t).st_ino
    assert program.done("load", t, csv, "--each", **how) == "".join(line + "\n" for line in lines) + "100 added, 0 there already\n"
    assert os.stat(t).st_ino == same and everything(program.done("list", t)) == found and sorted(os.listdir(folder)) == ["csv", "t"]
    # Rising codes that fit packed, and not one by one; each line is there twice.
    u, rising = f"{folder}/u", f"{folder}/rising"
    write(rising, [f"{code(i)},{i},room" for i in range(1, 101) for _ in range(2)])
    for each in ([], ["--each"]):
        program.done("make", u, nodes_for(100))
        status, out, err = program("load", u, rising, "--again", *each, **how)
        have = everything(program.done("list", u))
        count = len(have)
        assert 40 < count < 100 and have == {code(i): (i, "room") for i in range(1, count + 1)}, count
        acknowledged = "".join(f"{code(i)},{i},room\n" for i in range(1, count + 1) for _ in range(2)) if each else ""
        assert (status, out) == (NO_NODES, f"{acknowledged}{count} added, {count} there already\n"), (status, out)
        assert f"{u} is full" in err and f"stopped before line {2 * count + 1}; what came before is kept\n" in err, err
        os.remove(u)
    os.remove(rising), os.remove(t)
    program.done("make", t, 40)
    c, (r, access) = next(iter(found.items()))
    program.done("add", t, c, r, access)
    same = os.stat(t).st_ino
    assert program.done("load", t, csv, "--again", **how) == "99 added, 1 there already\n"
    assert os.stat(t).st_ino == same and everything(program.done("list", t)) == found and sorted(os.listdir(folder)) == ["csv", "t"]


def in_other_places(program, folder):
    """Where no new file can take the table's place a load into an empty table goes on in the table itself: a file that is mounted by itself,
    a group that the user is not in, a sticky folder of another user, a folder that only grows. Nothing else is left."""
    csv, tried = f"{folder}/csv", []
    lines, found = some_lines(random.Random(18), 100)
    write(csv, lines)
    if os.geteuid() != 0:
        return "not the superuser"
    os.chmod(folder, 0o755), os.chmod(csv, 0o644)

    def in_place(name, prepare, undo=lambda within: None, **how):
        within = f"{folder}/{name}"
        os.mkdir(within)
        t = f"{within}/t"
        program.done("make", t, 100)
        try:
            prepare(within, t)
        except (OSError, subprocess.CalledProcessError):
            return
        try:
            same = os.stat(t).st_ino
            status, out, err = program("load", t, csv, **how)
            assert (status, out, err) == (0, "100 added, 0 there already\n", ""), (name, status, out, err)
            assert os.stat(t).st_ino == same and everything(program.done("list", t)) == found and os.listdir(within) == ["t"], name
            tried.append(name)
        finally:
            undo(within)

    def without(capability):
        """The superuser, without one of its powers."""
        return {"preexec_fn": lambda: ctypes.CDLL(None).prctl(24, capability, 0, 0, 0)}

    def mounted(within, t):
        shutil.copy(t, f"{folder}/elsewhere")
        subprocess.run(["mount", "--bind", f"{folder}/elsewhere", t], check=True, capture_output=True)

    def grows(on):
        def mark(within, *_):
            place = os.open(within, os.O_RDONLY)
            fcntl.ioctl(place, 0x40086602, struct.pack("<l", 0x20 if on else 0))
            os.close(place)
        return mark

    in_place("mounted", mounted, lambda within: subprocess.run(["umount", f"{within}/t"], check=True))
    in_place("group", lambda within, t: (os.chown(t, 65534, 1234), os.chown(within, 65534, 65534)), user=65534, group=65534)
    in_place("owner", lambda within, t: os.chown(t, 1234, 1234), **without(0))
    in_place("sticky", lambda within, t: (os.chown(t, 1234, 1234), os.chown(within, 1234, 1234), os.chmod(within, 0o1777)), **without(3))
    in_place("grows", grows(True), grows(False))
    return ", ".join(tried)


def others_that_wait(program, folder):
    """A writer that waits for the lock of a table that a load replaces goes on with the new one: nothing is lost. A list beside it has the table of one
    moment."""
    t, csv = f"{folder}/t", f"{folder}/csv"
    lines, found = some_lines(random.Random(11), 300)
    for there in ([], [(code(90000), 99999)]):
        for round in range(3):
            fill(program, t, 200, there)
            load = program.start("load", t, "-", stdin=subprocess.PIPE, stdout=subprocess.PIPE, stderr=subprocess.PIPE)
            load.stdin.write(lines[0] + "\n")
            load.stdin.flush()
            time.sleep(0.05)
            waiting = [["add", t, code(90001 + i), 100001 + i, "--wait", 60] for i in range(3)] + [["list", t]]
            runs = [program.start(*words, stdout=subprocess.PIPE, stderr=subprocess.PIPE) for words in waiting]
            time.sleep(0.1 * round)
            before = os.stat(t).st_ino
            out, err = load.communicate("".join(line + "\n" for line in lines[1:]), timeout=60)
            assert load.returncode == 0 and out == "300 added, 0 there already\n", (out, err)
            for run in runs:
                out, err = run.communicate(timeout=60)
                assert run.returncode == 0, (run.args, out, err)
            seen = everything(out)
            assert os.stat(t).st_ino != before
            now = everything(program.done("list", t))
            assert now == {**found, **{c: (r, "open") for c, r in there}, **{code(90001 + i): (100001 + i, "open") for i in range(3)}}
            assert seen.items() <= now.items(), len(seen)
            assert "settled" in program.done("check", t)
            os.remove(t)
    # The file of a load is replaced by somebody else meanwhile: it is noticed, and stays.
    program.done("make", t, 20)
    load = program.start("load", t, "-", stdin=subprocess.PIPE, stdout=subprocess.PIPE, stderr=subprocess.PIPE)
    load.stdin.write(f"{code(1)},1\n")
    load.stdin.flush()
    time.sleep(0.2)
    shutil.copy(t, f"{t}.other")
    os.rename(f"{t}.other", t)
    before = contents(t)
    out, err = load.communicate(f"{code(2)},2\n", timeout=60)
    assert load.returncode == BAD_FILE and "was removed or replaced by another program" in err and contents(t) == before, err
    assert out == "0 added, 0 there already\n" and left_over(folder) == [], out


def writers_between_batches(program, folder):
    """Each batch of a load puts a new file in the table's place, which is locked from the first: while the load waits for its next lines no other
    writer comes in, neither one that began to wait for an older file nor a new one."""
    t = f"{folder}/t"
    rising = [(code(30 * leaf + 6 * i), 1 + 30 * leaf + 6 * i) for leaf in range(60) for i in range(5)]
    between = [(code(30 * leaf + i), 1 + 30 * leaf + i) for leaf in range(60) for i in (1, 2, 3, 4, 5, 7)]
    fill(program, t, 200, rising + between)
    lines = [(code(30 * leaf + 13), 10001 + leaf) for leaf in range(60)]
    load = program.start("load", t, "-", "--each", stdin=subprocess.PIPE, stdout=subprocess.PIPE, stderr=subprocess.PIPE)
    waiting, files = [], {os.stat(t).st_ino}
    for piece in parts(lines, 20):
        load.stdin.write("".join(f"{c},{r}\n" for c, r in piece))
        load.stdin.flush()
        assert [load.stdout.readline() for _ in piece] == [f"{c},{r},open\n" for c, r in piece]
        files.add(os.stat(t).st_ino)
        i = len(waiting)
        program.refuses(BAD_FILE, "is in use by another writer", "add", t, code(90000 + i), 90000 + i)
        waiting.append(program.start("add", t, code(91000 + i), 91000 + i, "--wait", 60, stdout=subprocess.PIPE, stderr=subprocess.PIPE))
        time.sleep(0.1)
        assert all(run.poll() is None for run in waiting), "a writer came in between two batches"
    out, err = load.communicate(timeout=60)
    assert (load.returncode, out, err) == (0, "60 added, 0 there already\n", ""), (out, err)
    # Files of one folder may have numbers that come back.
    assert len(files) >= 2, files
    for run in waiting:
        out, err = run.communicate(timeout=60)
        assert run.returncode == 0 and out.startswith("added "), (out, err)
    some = rising + between + lines + [(code(91000 + i), 91000 + i) for i in range(len(waiting))]
    assert everything(program.done("list", t)) == {c: (r, "open") for c, r in some}


# ---- killed

def kill(program, chance, most, *words):
    """A load killed at some moment of the most seconds, or that much after some of its acknowledgements: those that it printed whole."""
    load = program.start(*words, "--each", stdout=subprocess.PIPE, stderr=subprocess.DEVNULL)
    some = "".join(load.stdout.readline() for _ in range(chance.randrange(40))) if chance.random() < 0.2 else ""
    killer = threading.Timer(most * chance.random(), load.kill)
    killer.start()
    printed = some + load.stdout.read()
    killer.cancel()
    load.stdout.close()
    assert load.wait() in (0, -signal.SIGKILL), load.returncode
    return printed[:printed.rfind("\n") + 1].splitlines(), load.returncode != 0


def killed_while_it_packs(program, folder):
    """The old table or the new one, whole; before the new one is there no line is acknowledged."""
    t, csv, chance = f"{folder}/t", f"{folder}/csv", random.Random(12)
    lines, found = some_lines(chance, 8000)
    write(csv, lines)
    program.done("make", f"{folder}/empty", 900)
    shutil.copy(f"{folder}/empty", t)
    began = time.monotonic()
    program.done("load", t, csv)
    took = time.monotonic() - began
    empty, full, ends = contents(f"{folder}/empty"), contents(t), {}
    for _ in range(60 if program.quick else 6):
        shutil.copy(f"{folder}/empty", t)
        acknowledged, ended_early = kill(program, chance, 1.5 * took, "load", t, csv)
        now = contents(t)
        assert now in (empty, full), f"neither the old table nor the new one: {now and len(now)} bytes"
        assert now == full or acknowledged == [], acknowledged
        assert acknowledged == (lines + [f"{len(lines)} added, 0 there already"])[:len(acknowledged)]
        end = ("new" if now == full else "old", "killed" if ended_early else "ended", bool(acknowledged))
        ends[end] = ends.get(end, 0) + 1
        for name in left_over(folder):
            os.remove(f"{folder}/{name}")
    return ", ".join(f"{n} {' '.join(e[:2])}{' acknowledged' if e[2] else ''}" for e, n in sorted(ends.items()))


def killed_between_batches(program, folder):
    """By new files and in place: every acknowledged line is there, and of the others a first part; the table is sound."""
    t, csv, chance = f"{folder}/t", f"{folder}/csv", random.Random(13)
    lines, _ = some_lines(chance, 3000)
    write(csv, lines)
    said = []
    for in_place in (False, True):
        kills = early = partly = took = 0
        for round in range(26 if program.quick else 5):
            fill(program, t, 900, [(code(90000), 99999)])
            if in_place:
                os.link(t, f"{folder}/second")
            # The first one is not killed, and shows how long a load takes.
            began = time.monotonic()
            acknowledged, killed = kill(program, chance, 1.1 * took if round > 0 else 60, "load", t, csv)
            took = took or time.monotonic() - began
            done = [line for line in acknowledged if " added, " not in line]
            assert done == lines[:len(done)]
            program.done("repair", t)
            assert "settled" in program.done("check", t)
            have = everything(program.done("list", t))
            count = len(have) - 1
            assert count >= len(done) and have == {code(90000): (99999, "open"), **everything("\n".join(lines[:count]))}, (count, len(done))
            kills, early, partly = kills + killed, early + (killed and not done), partly + (killed and len(done) < count)
            for name in set(os.listdir(folder)) - {"csv"}:
                os.remove(f"{folder}/{name}")
        said.append(f"{kills} kills {'in place' if in_place else 'by new files'}, {early} before a line, {partly} in a batch")
    return "; ".join(said)


def a_signal_while_it_packs(program, folder):
    """What was read by then is packed."""
    t = f"{folder}/t"
    for number in (signal.SIGINT, signal.SIGTERM):
        program.done("make", t, 40)
        run = program.start("load", t, "-", "--each", stdin=subprocess.PIPE, stdout=subprocess.PIPE, stderr=subprocess.PIPE)
        run.stdin.write(f"{code(2)},2\n{code(1)},1\n{code(3)}")
        run.stdin.flush()
        time.sleep(0.3)
        run.send_signal(number)
        run.wait(timeout=60)
        out, err = run.communicate()
        assert run.returncode == 128 + number and out == f"{code(2)},2,open\n{code(1)},1,open\n2 added, 0 there already\n", (out, err)
        assert err == "catalogue: standard input: ended by a signal after line 2; what came before is kept\n", err
        assert read_words(t) == packed_table(40, {code(1): (1, "open"), code(2): (2, "open")})
        os.remove(t)


# ---- at size

LARGE = 400000
MOST_MEMORY = 64 << 20


# A child's memory counts from its fork on: a small program of its own starts the command and prints what it used.
STARTER = """import os, sys
child = os.posix_spawn(sys.argv[1], sys.argv[1:], os.environ, file_actions=[(os.POSIX_SPAWN_OPEN, 2, os.devnull, os.O_WRONLY, 0)])
_, status, used = os.wait4(child, 0)
print(os.waitstatus_to_exitcode(status), used.ru_maxrss, file=sys.stderr)"""


def measured(program, *words):
    """Seconds and bytes of memory of a command that succeeds, and what it printed."""
    began = time.monotonic()
    command = [sys.executable, "-I", "-S", "-c", STARTER] + program.command + [str(word) for word in words]
    run = subprocess.run(command, env=program.environment, stdin=subprocess.DEVNULL, capture_output=True, text=True, check=True)
    status, kilobytes = map(int, run.stderr.split())
    assert status == 0, (words, status)
    return time.monotonic() - began, 1024 * kilobytes, run.stdout


def large_file(path, first, count):
    """Codes and recordings in no order, from one on, made on the fly: a generator that meets each number once, its bits mixed."""
    letters, bits = "0123456789ABCDEFGHIJKLMNOPQRSTUVWXYZ", 2**33 - 1
    number = first
    with open(path, "w") as f:
        for i in range(first, first + count):
            number = (i * 6364136223846793005 + 1442695040888963407) & bits
            number = (number ^ number >> 17) * 0x9e3779b97f4a7c15 & bits
            prefix, digits = divmod(number ^ number >> 15, 10**7)
            f.write(f"A{letters[10 + prefix // 36]}{letters[prefix % 36]}00{digits:07},{1 + (i * 40503 & 2**24 - 1)}\n")


def large_loads(program, folder):
    """400,000 random codes in a table of the most nodes, packed and, as far as the library is quick enough, by batches: 64 MB of memory."""
    t, u, csv, made = f"{folder}/t", f"{folder}/u", f"{folder}/csv", f"{folder}/list"
    large_file(csv, 0, LARGE)
    program.done("make", t, 65535)
    seconds, memory, out = measured(program, "load", t, csv)
    said = [f"packed: {seconds:.1f} s, {memory >> 20} MB"]
    assert out == f"{LARGE} added, 0 there already\n" and memory <= MOST_MEMORY, (out, memory)
    assert program.done("check", t) == f"{t} is settled: {LARGE} codes in 39673 of 65535 nodes, 25862 free\n"
    with open(made, "w") as f:
        subprocess.run(program.command + ["list", t], stdout=f, check=True)
    subprocess.run(f"LC_ALL=C sort {csv} | sed 's/$/,open/' | cmp - {made}", shell=True, check=True)
    seconds, memory, _ = measured(program, "copy", t, u)
    said.append(f"copy: {seconds:.1f} s, {memory >> 20} MB")
    assert memory <= MOST_MEMORY and os.path.getsize(u) == 8 * (8 + NODE * 39673 + TRAILER), memory
    # As many lines as take some seconds.
    at = LARGE
    for count in (10, 1000, 5000):
        large_file(csv, at, count)
        seconds, memory, out = measured(program, "load", t, csv)
        at += count
        assert out == f"{count} added, 0 there already\n" and memory <= MOST_MEMORY, (out, memory)
        said.append(f"{count} more by batches: {seconds:.1f} s, {memory >> 20} MB")
        if seconds > 0.5 + 0.002 * count:
            break
    return ", ".join(said)


def little_memory_for_a_load(program, folder):
    """However little memory there is: all lines, or a clear error and the table as it was."""
    t, csv = f"{folder}/t", f"{folder}/csv"
    program.done("make", f"{folder}/empty", 65535)
    shutil.copy(f"{folder}/empty", f"{folder}/one")
    program.done("add", f"{folder}/one", code(1), 1)
    large_file(csv, 10, 500)
    ended = {0: 0, BAD_FILE: 0}
    for base in ("empty", "one"):
        before = contents(f"{folder}/{base}")
        for kilobytes in range(16 << 10, 80 << 10, 700):
            shutil.copy(f"{folder}/{base}", t)
            status, out, err = program("load", t, csv, preexec_fn=lambda: resource.setrlimit(resource.RLIMIT_AS, (kilobytes << 10,) * 2))
            assert status == 0 and err == "" or status == BAD_FILE and re.fullmatch("(catalogue: .*\n)+", err), (kilobytes, status, err)
            assert (contents(t) == before) == (status != 0), (kilobytes, status, out)
            ended[status] += 1
    assert all(ended.values()), ended
    return f"{ended[0]} loads, {ended[BAD_FILE]} errors"


TESTS = [packed_words, packed_beside_another, emptied_tables, full_tables, full_beside_another, writers_between_batches, refused_lines, batches_are_single_additions,
         acknowledged_one_by_one, loads_back, the_same_rights, the_same_attributes, a_file_of_the_same_name, files_of_dead_programs,
         changed_in_place, no_room_for_a_file, in_other_places, others_that_wait, killed_while_it_packs, killed_between_batches,
         a_signal_while_it_packs]
# Too large for a program with sanitizers, or against its own use of memory.
ONCE = [large_loads, little_memory_for_a_load]
