"""What an ordinary disk may hold after a power cut. The system writes the pages of a mapped file back whenever it likes and in any order;
only a sync makes sure of some. Between any two syncs of the program every mix of old and new pages must be a sound table with the map
before the change or after it, and must have all that was acknowledged."""
import itertools
import os
import random
import re
import shutil
import subprocess
from mmap import PAGESIZE as PAGE

from drive import *

MIXES = 32
SYNCS = os.environ.get("SYNCS_LIBRARY", "")


def preloaded(program, folder, *words, **environment):
    """Runs a command with its syncs written down: the exit status, what it printed, and its messages."""
    printed, log = f"{folder}/printed", f"{folder}/syncs"
    if os.path.exists(log):
        os.remove(log)
    with open(printed, "w") as out:
        environment = dict(program.environment, SYNCS=log, LD_PRELOAD=SYNCS, **environment)
        run = subprocess.Popen(program.command + [str(w) for w in words], env=environment, stdout=out, stderr=subprocess.PIPE, text=True)
        err = run.communicate(timeout=120)[1]
    return run.returncode, contents(printed).decode(), err


def recorded(program, folder, *words):
    """Runs a command that succeeds; the syncs that it made, in order: the words of each, and for an msync, or if a file takes another
    one's place, what the file held."""
    status, printed, err = preloaded(program, folder, *words)
    assert status == 0, (words, status, err)
    found, log = [], f"{folder}/syncs"
    with open(log, "rb") as f:
        for line in f:
            call = line.decode().split()
            image = f.read(int(call[4])) if call[0] in ("msync", "replace") else None
            found.append((call, image))
    os.remove(log)
    return found, printed


class Disk:
    """A file's pages, each with the contents that it may have on the disk, oldest first. The trailer does not count: after a power cut nobody
    is left who compares it."""

    def __init__(self, data):
        data = without_trailer(data)
        self.pages = [[data[i:i + PAGE]] for i in range(0, len(data), PAGE)]

    def written(self, data):
        """The program has stored this; any page of it may be on its way."""
        data = without_trailer(data)
        for i, versions in enumerate(self.pages):
            page = data[PAGE * i:PAGE * i + PAGE]
            if page != versions[-1]:
                versions.append(page)

    def synced(self, start, length):
        for i in range(start // PAGE, min(-(-(start + length) // PAGE), len(self.pages))):
            del self.pages[i][:-1]

    def mixes(self, chance):
        """Every mix, or some at random."""
        count = 1
        for versions in self.pages:
            count *= len(versions)
        if count <= MIXES:
            return [b"".join(mix) for mix in itertools.product(*self.pages)]
        return [b"".join(chance.choice(versions) for versions in self.pages) for _ in range(MIXES)]


class Judge:
    """The map of each mix, as the program lists it, of two collections both; None if it is not sound."""

    def __init__(self, program, folder, collections=1):
        self.program, self.path, self.known, self.collections = program, f"{folder}/mix", {}, collections

    def listing(self, *words):
        status, out, err = self.program("list", self.path, *words)
        assert status in (0, NOT_SOUND, NO_TABLE), (status, err)
        return everything(out) if status == 0 else None

    def map_of(self, mix):
        if mix not in self.known:
            with open(self.path, "wb") as f:
                f.write(mix)
            maps = [self.listing(*naming(n) if self.collections > 1 else []) for n in range(1, self.collections + 1)]
            self.known[mix] = None if None in maps else maps if self.collections > 1 else maps[0]
        return self.known[mix]


def full_leaves(program, t, leaves, nodes):
    """A table of several pages in which nearly every addition splits a leaf: rising codes leave five to a leaf, six more fill it. Codes and
    free nodes lie on pages far from each other."""
    rising = [30 * leaf + 6 * i for leaf in range(leaves) for i in range(5)]
    between = [30 * leaf + i for leaf in range(leaves) for i in (1, 2, 3, 4, 5, 7)]
    random.Random(7).shuffle(between)
    fill(program, t, nodes, [(code(i), 1 + i) for i in rising + between])
    return everything(program.done("list", t))


def cut_between_syncs(program, folder, t, before, after, command, chance, collections=1):
    """The mixes of pages that a cut in the midst of a change may leave, and those whose map is neither the one before nor the one after."""
    judge, disk, mixes, wrong = Judge(program, folder, collections), Disk(contents(t)), set(), set()
    syncs, _ = recorded(program, folder, *command)
    for call, image in [s for s in syncs if s[0][0] == "msync"]:
        disk.written(image)
        here = disk.mixes(chance)
        mixes.update(here)
        wrong.update(m for m in here if judge.map_of(m) not in (before, after))
        disk.synced(int(call[1]), int(call[2]))
    # The program has answered: the change is on the disk.
    disk.written(contents(t))
    last = disk.mixes(chance)
    wrong.update(m for m in last if judge.map_of(m) != after)
    return mixes | set(last), wrong


def some_changes(program, folder, count, *options):
    """Additions, deletions and class changes one after another: how many changes, mixes, and mixes that a power cut must not leave."""
    chance, t = random.Random(20261116), f"{folder}/t"
    now = full_leaves(program, t, 60, 300)
    seen = wrong = 0
    for i in range(count):
        if i % 3 == 2:
            c = chance.choice(list(now))
            after = {k: r for k, r in now.items() if k != c}
            command = ["remove", t, c]
        elif i % 5 == 4:
            c, access = chance.choice(list(now)), chance.choice(CLASSES)
            after = dict(now, **{c: (now[c][0], access)})
            command = ["class", t, c, access]
        else:
            c = chance.choice([code(k) for k in range(1800) if code(k) not in now])
            after = dict(now, **{c: (10000 + i, chance.choice(CLASSES))})
            command = ["add", t, c, *after[c]]
        mixes, bad = cut_between_syncs(program, folder, t, now, after, command + list(options), chance)
        seen, wrong, now = seen + len(mixes), wrong + len(bad), after
    assert everything(program.done("list", t)) == now
    return f"{count} changes, {seen} mixes of pages", wrong


def leaves_that_come_back(program, folder):
    """Codes of some leaves taken out one by one, the last ones with the leaf; parent and neighbour lie on pages of their own."""
    chance, t = random.Random(11), f"{folder}/t"
    now = full_leaves(program, t, 60, 300)
    seen, free = 0, []
    for leaf in (7, 31, 59):
        for c in [c for c in now if code(30 * leaf) <= c < code(30 * leaf + 30)]:
            after = {k: r for k, r in now.items() if k != c}
            mixes, bad = cut_between_syncs(program, folder, t, now, after, ["remove", t, c], chance)
            assert not bad, f"{len(bad)} of {len(mixes)} mixes not sound, or without what was acknowledged"
            seen, now = seen + len(mixes), after
        free.append(int(re.search(r" (\d+) free$", program.done("check", t), re.M)[1]))
    assert free[0] < free[1] < free[2], free
    return f"{seen} mixes of pages"


def changes_of_two_collections(program, folder):
    """Additions to either collection, most of which split a leaf; each mix has the map of the one before or after, and the other's as it was."""
    chance, t, seen = random.Random(13), f"{folder}/t", 0
    lines = lambda first: [(code(30 * leaf + i), 1 + 30 * leaf + i) for leaf in range(first, first + 30) for i in (0, 6, 12, 18, 24, 1, 2, 3, 4, 5, 7)]
    fill(program, t, 300, lines(0), lines(10))
    now = [everything(program.done("list", t, *naming(n))) for n in (1, 2)]
    for i in range(40):
        which = i % 2
        c = chance.choice([code(k) for k in range(1200) if code(k) not in now[which]])
        after = list(now)
        after[which] = dict(now[which], **{c: (10000 + i, chance.choice(CLASSES))})
        mixes, bad = cut_between_syncs(program, folder, t, now, after, ["add", t, c, *after[which][c], *naming(which + 1)], chance, 2)
        assert not bad, f"{len(bad)} of {len(mixes)} mixes not sound, or without what was acknowledged"
        seen, now = seen + len(mixes), after
    return f"{seen} mixes of pages"


def any_mix_of_pages(program, folder):
    said, wrong = some_changes(program, folder, 150)
    assert wrong == 0, f"{said}, {wrong} of them not sound, or without what was acknowledged"
    return said


def mixes_on_the_unordered_dock(program, folder):
    said, wrong = some_changes(program, folder, 40, *docked(1))
    assert wrong == 0, f"{said}, {wrong} of them not sound, or without what was acknowledged"
    return said


def mixes_with_fast(program, folder):
    """What --fast risks is there, and the test sees it."""
    said, wrong = some_changes(program, folder, 30, "--fast")
    assert wrong > 0, said
    return f"{said}, {wrong} of them not sound"


def fast_lasts_in_the_end(program, folder):
    """What --fast answers has been waited for by then, all of it: after the last sync no page may be older than what was answered. In place
    and by a new file."""
    t, second, csv, tried = f"{folder}/t", f"{folder}/second", f"{folder}/csv", 0
    lines_to_load(program, folder, t, csv)
    whole = contents(t)
    changes = [["add", t, code(8), 9000], ["remove", t, code(5)], ["class", t, code(0), "room"], ["repair", t], ["load", t, csv], ["load", t, csv, "--pause", 1],
               ["add", t, code(8), 9000, *docked(1)], ["add", t, code(8), 9000, "--flush", "none"]]
    for cut in range(0, 60, 11):
        changes += [["add", t, code(8), 9000, "--cut", cut]]
    for in_place in (True, False):
        for command in changes:
            with open(t, "wb") as f:
                f.write(whole)
            if in_place:
                os.link(t, second)
            disk = Disk(whole)
            syncs, _ = recorded(program, folder, *command, "--fast")
            for call, image in syncs:
                # A new file was written and synced before it took the place.
                disk = Disk(image) if call[0] == "replace" else disk
                if call[0] == "msync":
                    assert call[3] == "0", (command, "answered before it was waited for")
                    disk.written(image)
                    disk.synced(int(call[1]), int(call[2]))
            disk.written(contents(t))
            assert disk.mixes(random.Random(1)) == [without_trailer(contents(t))], (command, "answered before it lasts")
            tried += 1
            os.remove(t)
            if in_place:
                os.remove(second)
    return f"{tried} changes"


def lines_to_load(program, folder, t, csv):
    """A table with codes, and lines most of which split a leaf: the map before, and the lines."""
    have = full_leaves(program, t, 30, 200)
    lines = [(code(30 * leaf + 13 + i), 10000 + 30 * leaf + i) for leaf in range(30) for i in range(3)]
    random.Random(5).shuffle(lines)
    with open(csv, "w") as f:
        f.writelines(f"{c},{r}\n" for c, r in lines)
    return have, [(c, (r, "open")) for c, r in lines]


def a_load_and_its_acknowledgements(program, folder):
    """Each line that a load has printed by a sync is in every mix of pages there, and beside them at most the one under way if the load
    goes line by line, else a first part of the lines after it. A table with a second name is changed in place."""
    t, csv, seen, synced = f"{folder}/t", f"{folder}/csv", 0, 0
    have, lines = lines_to_load(program, folder, t, csv)
    os.link(t, t + ".second")
    whole = contents(t)
    for slow in (["--pause", 1], []):
        with open(t, "r+b") as f:
            f.write(whole)
        judge, disk, chance = Judge(program, folder), Disk(whole), random.Random(5)
        syncs, printed = recorded(program, folder, "load", t, csv, "--each", *slow)
        assert syncs.pop(0)[0][:2] == ["fsync", folder]
        for call, image in syncs:
            assert call[0] == "msync", call
            done = printed[:int(call[3])].count("\n")
            disk.written(image)
            most = done + 1 if slow else len(lines)
            some = [dict(have, **dict(lines[:n])) for n in range(done, most + 1)]
            for mix in disk.mixes(chance):
                assert judge.map_of(mix) in some, (done, call)
                seen += 1
            disk.synced(int(call[1]), int(call[2]))
        disk.written(contents(t))
        assert [judge.map_of(m) for m in disk.mixes(chance)] == [dict(have, **dict(lines))]
        synced += len(syncs)
    assert contents(t) == contents(t + ".second")
    return f"{synced} syncs, {seen} mixes"


def a_load_by_new_files(program, folder):
    """Where a flush is a wait for the disk a batch comes in by a new file: written, synced, put in the table's place, the folder synced;
    before that nothing of it is acknowledged. Each such file has the lines up to one of the batch, and of an empty table all at once."""
    t, csv = f"{folder}/t", f"{folder}/csv"
    have, lines = lines_to_load(program, folder, t, csv)
    program.done("make", f"{folder}/empty", 200)
    replaced = 0
    for table, before, batches in ((t, have, 30), (f"{folder}/empty", {}, 1)):
        judge, lasting, coming = Judge(program, folder), 0, 0
        syncs, printed = recorded(program, folder, "load", table, csv, "--each")
        assert [call[0] for call, _ in syncs] == ["fsync", "msync"] + (len(syncs) - 2) // 3 * ["fsync", "replace", "fsync"], syncs
        for call, image in syncs:
            assert printed[:int(call[3 if call[0] != "fsync" else 2])].count("\n") <= lasting, call
            if call[0] == "replace":
                assert call[1].startswith(table + ".") and call[2] == table, call
                coming = next(n for n in range(lasting + 1, len(lines) + 1) if judge.map_of(image) == dict(before, **dict(lines[:n])))
                replaced += 1
            elif call[:2] == ["fsync", folder]:
                lasting = coming
        assert lasting == len(lines) and everything(program.done("list", table)) == dict(before, **dict(lines))
        assert (len(syncs) - 2) // 3 <= batches, len(syncs)
    return f"{replaced} new files"


def what_a_killed_program_left(program, folder):
    """Before its first store a change waits for all that is on its way to the disk, whoever stored it: the file's name, by its folder, and
    its words. Also by a link from elsewhere, and by a name without a folder."""
    t, other = f"{folder}/t", f"{folder}/other"
    full_leaves(program, t, 30, 200)
    os.mkdir(other)
    os.symlink("../t", f"{other}/link")
    for command in (["add", t, code(8), 9000], ["remove", t, code(5)], ["class", f"{other}/link", code(8), "room"], ["repair", t]):
        before = contents(t)
        (call, _), (then, image) = recorded(program, folder, *command)[0][:2]
        assert call[:2] == ["fsync", folder], call
        assert then[:2] == ["msync", "0"] and int(then[2]) >= len(before) and image == before, then


def killed_before_the_folder(program, folder):
    """A load that is killed once its new file has the name, and before the folder is on the disk: the next change syncs the folder before it
    stores, so that its answer does not stand on a name that a cut takes back. What a load leaves that is killed before, the next one removes."""
    t, csv = f"{folder}/t", f"{folder}/csv"
    for killed, there in ((2, 1), (1, 0)):
        program.done("make", t, 40)
        with open(csv, "w") as f:
            f.write(f"{code(1)},1\n")
        status, out, _ = preloaded(program, folder, "load", t, csv, "--each", SYNCS_KILL=str(1 + killed))
        assert (status, out) == (-9, "") and len(listed(program.done("list", t))) == there, (status, out)
        left = [name for name in os.listdir(folder) if name.endswith(".new")]
        assert len(left) == 1 - there, left
        calls = [call for call, _ in recorded(program, folder, "add", t, code(2), 2)[0]]
        assert calls[0][:2] == ["fsync", folder] and calls[1][0] == "msync", calls
        program.done("remove", t, code(2))
        if there:
            program.done("remove", t, code(1))
        program.done("load", t, csv)
        assert not [name for name in os.listdir(folder) if name.endswith(".new")]
        os.remove(t)


class FailingDisk:
    """A table and what the disk has of it: a write that fails leaves the page old there, and clean in the system's memory."""

    def __init__(self, program, folder, t, before):
        self.program, self.folder, self.t, self.before = program, folder, t, before
        self.u, self.disk = f"{folder}/u", f"{folder}/disk"

    def anew(self):
        for path in (self.u, self.disk):
            shutil.copy(self.t, path)
        if os.path.exists(self.disk + ".dirty"):
            os.remove(self.disk + ".dirty")

    def run(self, *words, **environment):
        return preloaded(self.program, self.folder, words[0], self.u, *words[1:], SYNCS_DISK=self.disk, **environment)

    def syncs(self, *words):
        """How many msyncs a change makes."""
        self.anew()
        return len([s for s in recorded(self.program, self.folder, words[0], self.u, *words[1:])[0] if s[0][0] == "msync"])

    def answers(self, *words):
        """A change that is answered: the disk has it all, whatever failed before."""
        status, out, err = self.run(*words)
        assert status == 0, (words, status, out, err)
        assert table_bytes(self.disk) == table_bytes(self.u), f"{words} was answered, and the disk has other words"
        assert "settled" in self.program.done("check", self.disk)


CHANGES = [["add", code(8), 9000], ["remove", code(31)], ["class", code(61), "room"], ["add", code(8), 9000, *docked(1)], ["add", code(8), 9000, "--fast"]]


def a_write_error_that_passes(program, folder):
    """A write that fails ends the change where it is, with a message and no answer; what a cut leaves then is sound, with the map before or
    after. The page that was not written is not taken for written: once a further change is answered the disk has every word."""
    t, tried = f"{folder}/t", 0
    before = full_leaves(program, t, 30, 200)
    d = FailingDisk(program, folder, t, before)
    for words in CHANGES:
        syncs = d.syncs(*words)
        after = everything(program.done("list", d.u))
        for failing in range(1, syncs + 1):
            for more in ({}, {"SYNCS_FAIL_ALL": "1"}):
                d.anew()
                status, out, err = d.run(*words, SYNCS_FAIL=str(failing), **more)
                assert status == BAD_FILE and out == "" and "did not reach the disk: Input/output error" in err, (failing, status, out, err)
                assert contents(d.u) == contents(t) if failing == 1 else everything(program.done("list", d.u)) in (before, after)
                assert everything(program.done("list", d.disk)) in (before, after)
                for next in (["remove", code(870)], ["add", code(400), 9400], ["class", code(0), "closed"]):
                    d.answers(*next)
                tried += 1
    return f"{tried} syncs"


def a_write_error_of_the_sync_before(program, folder):
    """What a killed program has left is waited for first; the error of that wait is not the last word on its pages."""
    t = f"{folder}/t"
    before = full_leaves(program, t, 30, 200)
    d = FailingDisk(program, folder, t, before)
    d.anew()
    # Several pages are on their way: the program is killed in its one wait, before any is written.
    status, _, _ = d.run("add", code(8), 9000, "--fast", SYNCS_FAIL="2", SYNCS_DIE="1")
    assert status == -9, status
    with open(d.disk + ".dirty", "r+b") as f:
        f.write(bytes([1] * os.path.getsize(d.disk + ".dirty")))
    assert contents(d.u) != contents(d.disk)
    status, out, err = d.run("add", code(400), 9400, SYNCS_FAIL="1")
    assert status == BAD_FILE and out == "" and "did not reach the disk: Input/output error; nothing was changed now" in err, (status, out, err)
    d.answers("add", code(400), 9400)


def killed_before_it_knew(program, folder):
    """A program that is killed in the wait that fails cannot store to the page again. The disk has a table as a cut leaves it, and repair
    writes every page."""
    t = f"{folder}/t"
    before = full_leaves(program, t, 30, 200)
    d = FailingDisk(program, folder, t, before)
    words = ["add", code(8), 9000]
    syncs = d.syncs(*words)
    after = everything(program.done("list", d.u))
    for failing in range(2, syncs + 1):
        d.anew()
        status, out, _ = d.run(*words, SYNCS_FAIL=str(failing), SYNCS_DIE="1")
        assert (status, out) == (-9, ""), (status, out)
        assert everything(program.done("list", d.disk)) in (before, after)
        d.answers("repair")
        d.answers("remove", code(870))
    return f"{syncs - 1} syncs"


def counts_after_a_failure(program, folder):
    """A load that a disk ends: the lines that it counts are those that are in the table, whatever failed; it stops before the next one and
    acknowledges none that may not last. Into an empty table and by batches, by new files and in place."""
    t, csv, tried = f"{folder}/t", f"{folder}/csv", 0
    have, lines = lines_to_load(program, folder, f"{folder}/full", csv)
    program.done("make", f"{folder}/empty", 200)
    for base, before, in_place in (("full", have, False), ("full", have, True), ("empty", {}, False), ("empty", {}, True)):
        for fails, step in (("SYNCS_FAIL", 7), ("SYNCS_FAIL_FSYNC", 1)):
            for failing in range(1, 1000, step):
                for name in set(os.listdir(folder)) - {"full", "empty", "csv"}:
                    os.remove(f"{folder}/{name}")
                shutil.copy(f"{folder}/{base}", t)
                if in_place:
                    os.link(t, f"{folder}/second")
                status, out, err = preloaded(program, folder, "load", t, csv, "--each", **{fails: str(failing)})
                now = everything(program.done("list", t))
                count = len(now) - len(before)
                assert now == dict(before, **dict(lines[:count])), (fails, failing)
                printed = out.splitlines()
                if status == 0:
                    assert count == len(lines), (fails, failing, count)
                    break
                assert status == BAD_FILE and err, (fails, failing, status, err)
                if count == 0 and not printed:
                    assert "nothing was changed" in err, err
                    continue
                assert printed[-1] == f"{count} added, 0 there already", (fails, failing, printed[-1], count, err)
                assert printed[:-1] == [f"{c},{r},{a}" for c, (r, a) in lines[:len(printed) - 1]] and len(printed) - 1 <= count
                assert ("nothing was loaded" in err) <= (count == 0), err
                if base == "full" or in_place:
                    assert f"stopped before line {count + 1}; what came before is kept" in err, (count, err)
                else:
                    assert "is changed, but its folder did not reach the disk" in err or count == 0 or count == len(lines), (count, err)
                tried += 1
    return f"{tried} failures"


def counts_without_memory(program, folder):
    """An allocation that fails, each one of a load: the lines that it counts, and no others, are in the table, and its message is true."""
    t, csv, failures = f"{folder}/t", f"{folder}/csv", 0
    lines = [(code(i), (i, "open")) for i in random.Random(19).sample(range(1, 5000), 900)]
    with open(csv, "w") as f:
        f.writelines(f"{c},{r}\n" for c, (r, _) in lines)
    fill(program, f"{folder}/full", 500, [(code(90000), 90000)])
    have = {code(90000): (90000, "open")}
    program.done("make", f"{folder}/empty", 500)
    for base, before, more in (("full", have, []), ("full", have, ["--wear"]), ("empty", {}, []), ("empty", {}, ["--wear"])):
        for failing in range(1, 200):
            shutil.copy(f"{folder}/{base}", t)
            status, out, err = preloaded(program, folder, "load", t, csv, *more, SYNCS_FAIL_MEMORY=str(failing))
            now = everything(program.done("list", t))
            count = len(now) - len(before)
            assert now == dict(before, **dict(lines[:count])), failing
            assert out == "" and count == 0 or f"{count} added, 0 there already\n" in out, (failing, count, out, err)
            # Figures of its wear are of all orders, or are not there.
            assert ("0 stores to 0 of" in out) <= (count == 0), (failing, count, out)
            assert status in (0, BAD_FILE) and (status == 0) <= (count == len(lines)), (failing, status, count)
            if status == BAD_FILE:
                assert "not enough memory" in err and (count == 0) >= ("nothing was loaded" in err), err
                assert not 0 < count < len(lines) or f"stopped before line {count + 1};" in err, (count, err)
                failures += 1
            elif failing > 60:
                break
    return f"{failures} failures"


def a_read_that_fails(program, folder):
    """It is called that, and not a change by another program; what was changed by then is said."""
    t = f"{folder}/t"
    program.done("make", t, 9)
    program.done("add", t, code(1), 1)
    before = contents(t)
    status, out, err = preloaded(program, folder, "add", t, code(2), 2, SYNCS_FAIL_READ="1")
    assert (status, out, err) == (BAD_FILE, "", f"catalogue: {t} cannot be read: Input/output error; nothing was changed now\n") and contents(t) == before, err
    status, out, err = preloaded(program, folder, "add", t, code(2), 2, SYNCS_FAIL_READ="2")
    assert status == BAD_FILE and out == "" and f"{t} cannot be read: Input/output error; what this command changed is made" in err, err
    assert listed(program.done("list", t)) == [(code(1), 1), (code(2), 2)]


def a_file_that_appears(program, folder):
    """A file that comes to the name of a new table while that is being made stays as it is; also where a rename cannot keep it."""
    t, u = f"{folder}/t", f"{folder}/u"
    fill(program, t, 9, [(code(i), i) for i in range(1, 20)])
    for more in ({}, {"SYNCS_NO_RENAME": "1"}):
        for command in (["make", u, 9], ["copy", t, u], ["salvage", t, u]):
            status, out, err = preloaded(program, folder, *command, SYNCS_APPEARS="1", **more)
            assert (status, out) == (BAD_FILE, "") and err == f"catalogue: {u} exists already and stays as it is\n", (command, status, out, err)
            assert contents(u) == b"" and sorted(os.listdir(folder)) == ["printed", "syncs", "t", "u"], os.listdir(folder)
            os.remove(u)


def a_new_table_is_there_whole(program, folder):
    """Written under another name, synced, renamed, the folder synced; nothing else stays."""
    t = f"{folder}/t"
    for command, name in ((["make", t, 50], t), (["copy", t, f"{t}2", 90], f"{t}2"), (["salvage", t, f"{t}4"], f"{t}4")):
        calls = [call[:-1] for call, _ in recorded(program, folder, *command)[0]]
        other = calls[0][1]
        assert other.startswith(name + ".") and calls == [["fsync", other], ["rename", other, name], ["fsync", folder]], calls
    # Where there is no such rename.
    assert preloaded(program, folder, "make", f"{t}3", 50, SYNCS_NO_RENAME="1")[0] == 0
    assert contents(f"{t}3") == contents(t)
    assert preloaded(program, folder, "make", t, 9, SYNCS_NO_RENAME="1")[0] == BAD_FILE
    assert preloaded(program, folder, "salvage", f"{t}2", t, SYNCS_NO_RENAME="1")[0] == BAD_FILE
    assert sorted(set(os.listdir(folder)) - {"printed", "syncs"}) == ["t", "t2", "t3", "t4"]


TESTS = [any_mix_of_pages, mixes_on_the_unordered_dock, changes_of_two_collections, leaves_that_come_back, mixes_with_fast,
         fast_lasts_in_the_end, a_file_that_appears, a_load_and_its_acknowledgements, a_load_by_new_files, what_a_killed_program_left, killed_before_the_folder, a_write_error_that_passes,
         a_write_error_of_the_sync_before, killed_before_it_knew, counts_after_a_failure,
         counts_without_memory, a_read_that_fails, a_new_table_is_there_whole]
