"""One history on a file system whose disk writes down each write and each flush, and what a power cut may leave of it. Each image that the disk may
hold (kept.py) is mounted, as after the power comes back. The table must be sound, with a map that the history allows: everything that was
acknowledged, and beside it the change under way as a whole or not at all; other files whole or absent. From then on a repair and a change must
work on it."""
import collections
import os
import random
import re
import subprocess
import threading
import time

import calls
from disk import LIBC, Image, Recording, mounted, unmount
from kept import images

CLASSES = ("open", "room", "closed")
NODES = 60
FILE_SYSTEMS = {"ext4": "", "xfs": "", "btrfs": "nodiscard"}
MAKE = {
    "ext4": (16, "mkfs.ext4 -q -F -b 4096 -J size=4 -E lazy_itable_init=0,lazy_journal_init=0,nodiscard"),
    "xfs": (32, "mkfs.xfs -q -f -K"),
    "btrfs": (128, "mkfs.btrfs -q -f -K"),
}
# mkfs.xfs makes a small file system, with a small log, for the tests of its makers alone: that is what these say.
SMALL = {"TEST_DIR": "/", "TEST_DEV": "/", "QA_CHECK_FS": "1"}
ANSWER = re.compile(r"(added|removed|class of) |\w+,\d+,\w+$")
MEANWHILE = re.compile(r"\.\d+\.new$")
# Of a stretch between two flushes: so many choices of its writes at random, and so many torn ones.
MORE = 3


class Wrong(Exception):
    """An image that a disk may hold, and should not."""


def code(i):
    """Codes in rising order."""
    return f"AA00019{i:05}"


def pairs(text):
    return {c: (int(r), a) for c, r, a in (row.split(",") for row in text.split())}


def frozen(maps):
    return tuple(tuple(sorted(m.items())) for m in maps)


def changed(maps, collection, new):
    """The maps with these codes; None takes a code out."""
    after = [dict(m) for m in maps]
    for c, value in new.items():
        after[collection - 1].pop(c, None)
        if value:
            after[collection - 1][c] = value
    return frozen(after)


class Judge:
    """What files hold, as the program reads them; each content is looked at once."""

    def __init__(self, program, folder):
        self.program, self.path, self.known, self.tried = program, f"{folder}/judged", {}, 0

    def run(self, *words, **how):
        return subprocess.run([self.program, *map(str, words)], capture_output=True, text=True, timeout=120, **how)

    def maps(self, path, two=True):
        """A table's maps, of collection 2 an empty one if there is none; None if it is not sound."""
        runs = [self.run("list", path, *(["--collection", n] if n > 1 else [])) for n in (1, 2)]
        if runs[0].returncode or runs[1].returncode not in (0, 17):
            return None
        return frozen(pairs(r.stdout) if r.returncode == 0 else {} for r in runs)

    def maps_of(self, data):
        if data not in self.known:
            with open(self.path, "wb") as f:
                f.write(data)
            self.known[data] = found = self.maps(self.path)
            if found is not None:
                self.goes_on(found)
        return self.known[data]

    def goes_on(self, found):
        """After the cut: what was unfinished is repaired, and a further change is made."""
        new = {code(99999): (999999, "room")}
        assert self.run("repair", self.path).returncode == 0 and self.maps(self.path) == found, "a repair changed the map"
        added = self.run("add", self.path, code(99999), 999999, "room")
        if added.returncode != 10:
            assert added.returncode == 0 and self.maps(self.path) == changed(found, 1, new), added.stderr
        self.tried += 1


class Trial:
    """One history on one file system: what was done, and from which place of the log on each state may be there, and must."""

    def __init__(self, judge, folder, fs, seed, preload=None):
        self.judge, self.folder, self.fs, self.seed, self.words = judge, folder, fs, seed, FILE_SYSTEMS[fs]
        self.chance, self.number, self.killed, self.recording = random.Random(seed), 1000, 0, None
        self.environment = {**os.environ, **({"LD_PRELOAD": preload} if preload else {})}

    def begin(self, files, links=()):
        """A new file system with these files, whose contents or maps are the first state."""
        blank, place = f"{self.folder}/blank", f"{self.folder}/place"
        os.makedirs(place, exist_ok=True)
        with open(blank, "wb") as f:
            f.truncate(MAKE[self.fs][0] << 20)
        subprocess.run([*MAKE[self.fs][1].split(), blank], check=True, capture_output=True, env={**os.environ, **SMALL})
        mounted(blank, place, self.fs, self.words)
        for name, data in files.items():
            with open(f"{place}/{name}", "wb") as f:
                f.write(data)
        for old, new in links:
            os.link(f"{place}/{old}", f"{place}/{new}")
        unmount(place)
        self.base = Image.of(blank)
        self.recording = Recording(self.folder, self.base, self.fs, self.words)
        self.place = self.recording.place
        self.now = self.live()
        self.states, self.started, self.lasting, self.loose = [self.now], [(-1, 0)], [(-1, 0)], []

    def path(self, name):
        return f"{self.place}/{name}"

    def files(self):
        found = {}
        for name in os.listdir(self.place):
            if name != "lost+found" and not MEANWHILE.search(name):
                with open(self.path(name), "rb") as f:
                    found[name] = f.read()
        return found

    def value(self, data):
        """The maps of a table, else the bytes."""
        maps = self.judge.maps_of(data)
        return data if maps is None else maps

    def live(self):
        return {name: self.value(data) for name, data in self.files().items()}

    def starts(self, states):
        """Before a step that goes through these states: the number of the first."""
        first = len(self.states)
        self.states += states
        self.started.append((self.recording.position(), len(self.states) - 1))
        return first

    def lasts(self, number):
        self.lasting.append((self.recording.position(), number))

    def ends(self, killed, cut=False):
        """After a step. What a killed one left, or one that was cut off, goes on from what there is, and is not acknowledged."""
        self.killed += killed
        if killed or cut:
            self.now = self.live()
            self.states.append(self.now)
            self.started.append((self.recording.position(), len(self.states) - 1))
        else:
            self.now = self.states[-1]
            self.lasts(len(self.states) - 1)

    # ---- what is done

    def command(self, words, states, kill=None, loose=False, typed=None, cut=False):
        """A command of the program. Each line of answer acknowledges one state more, if there are several; its end acknowledges all."""
        begin, first, answered = self.recording.position(), self.starts(states), 0
        run = subprocess.Popen([self.judge.program, *map(str, words)], stdin=subprocess.PIPE, stdout=subprocess.PIPE, stderr=subprocess.PIPE, text=True,
                               env=self.environment)
        if kill is not None:
            time.sleep(kill)
            run.kill()
        run.stdin.write(typed or "") if kill is None else None
        try:
            run.stdin.close()
        except BrokenPipeError:
            pass
        for line in run.stdout:
            if ANSWER.match(line) and len(states) > 1 and not loose:
                self.lasts(first + answered)
                answered += 1
        said = run.stderr.read()
        killed = run.wait() == -9
        assert killed or run.returncode == 0, (words, run.returncode, said)
        self.ends(killed, cut)
        if loose:
            self.loose.append((begin, self.recording.position()))
        return killed

    def call_all(self, library, steps, kill=None, loose=False):
        """Calls of the file library, each with the states that it goes through, in one process; killed so long after the call of a number began."""
        begin = self.recording.position()
        process, number, first, counted = calls.Process(library, [call for call, _ in steps]), -1, 0, 0
        killed = False
        while said := os.read(process.said, 1):
            if said == b"?":
                number, counted = number + 1, 0
                first = self.starts(steps[number][1])
                os.write(process.answers, b"!")
                if kill and number == kill[0]:
                    time.sleep(kill[1])
                    os.kill(process.number, 9)
                    killed = True
            elif said == b".":
                self.lasts(first + counted)
                counted += 1
            elif not killed and not loose:
                self.lasts(len(self.states) - 1)
        status = process.ended()
        killed = status == -9
        assert killed or status == 0, status
        self.ends(killed)
        if loose:
            self.loose.append((begin, self.recording.position()))
        return killed

    # ---- changes of the table t

    def unused(self, collection=1):
        there = {c for m in self.now["t"] for c, _ in m}
        return self.chance.choice([code(i) for i in range(400) if code(i) not in there])

    def next_number(self):
        self.number += 1
        return self.number

    def with_table(self, maps, name="t"):
        return {**self.now, name: maps}

    def some_change(self, kind=None, collection=None):
        """Words of a change of t, and the state after it."""
        collection = collection or self.chance.choice((1, 1, 2))
        there = dict(self.now["t"][collection - 1])
        kind = kind or self.chance.choice(("add", "add", "remove", "class"))
        if kind == "add" or not there:
            c, value = self.unused(), (self.next_number(), self.chance.choice(CLASSES))
            words = ["add", self.path("t"), c, *value]
        else:
            c = self.chance.choice(sorted(there))
            value = None if kind == "remove" else (there[c][0], self.chance.choice(CLASSES))
            words = [kind, self.path("t"), c, *([value[1]] if value else [])]
        if collection == 2:
            words += ["--collection", 2]
        return words, self.with_table(changed(self.now["t"], collection, {c: value}))

    def cut_change(self):
        """An addition that is cut off somewhere."""
        words, after = self.some_change("add", 1)
        orders = self.judge.run("orders", words[1], "add", *words[2:]).stdout.count("\n") - 1
        self.command([*words, "--cut", self.chance.randrange(1, orders)], [after], cut=True)

    def change(self, kind=None, collection=None, more=(), **how):
        words, after = self.some_change(kind, collection)
        self.command([*words, *more], [after], **how)

    def lines(self, count, first=400):
        """Lines of a load, and a file outside with them."""
        new = {}
        for i in self.chance.sample(range(first, first + 3 * count), count):
            new[code(i)] = (self.next_number(), self.chance.choice(CLASSES))
        csv = f"{self.folder}/csv"
        with open(csv, "w") as f:
            f.writelines(f"{c},{r},{a}\n" for c, (r, a) in new.items())
        return csv, new

    def states_of(self, new, collection=1, name="t"):
        maps, states = self.now[name], []
        for c, value in new.items():
            maps = changed(maps, collection, {c: value})
            states.append(self.with_table(maps, name))
        return states

    # ---- the images

    def allowed(self, end):
        """The states that may be there if the power fails before the flush that ends there; None if anything may."""
        if any(begin < end <= last for begin, last in self.loose):
            return None
        low = max(number for position, number in self.lasting if position < end)
        high = max(number for position, number in self.started if position < end)
        return self.states[low:high + 1]

    def tried(self, log, most):
        """All images that the disk may hold, or most of them, at random."""
        every = lambda: images(self.base, log, random.Random(self.seed), MORE)
        if most == 0:
            return every()
        count = sum(1 for _ in every())
        chosen = set(self.chance.sample(range(count), min(most, count)))
        return (image for i, image in enumerate(every()) if i in chosen)

    def files_of(self, image, kind):
        """What an image has once it is mounted; None if the file system refuses it."""
        path = f"{self.folder}/image"
        image.put(path)
        try:
            mounted(path, self.place, self.fs, self.words)
        except OSError:
            # A block of the file system's own, torn: not for a program to mend.
            if kind != "torn":
                raise
            return None
        try:
            return self.files()
        finally:
            unmount(self.place)

    def try_all(self, most):
        log, seen = self.recording.end(), collections.Counter()
        for kind, image, end in self.tried(log, most):
            seen[kind] += 1
            files, states = self.files_of(image, kind), self.allowed(end)
            if files is None or states is None:
                seen["refused" if files is None else "fast"] += 1
                continue
            values = {name: self.value(data) for name, data in files.items()}
            if values not in states:
                raise Wrong(f"{self.fs}: an image ({kind}, until {end}) has none of the {len(states)} states that it may have: "
                            + self.differs(values, states[0]))
        return seen

    @staticmethod
    def differs(values, state):
        said = []
        for name in set(values) | set(state):
            have, want = values.get(name), state.get(name)
            if have != want:
                said.append(f"{name}: " + (f"{len(have)} bytes, no sound table" if isinstance(have, bytes) else "another map" if have else "absent"))
        return ", ".join(said)


class Pressing:
    """The system writes by itself, as often as it can, while a step is done."""

    def __init__(self, place):
        self.file, self.stopped = os.open(place, os.O_RDONLY), False
        self.thread = threading.Thread(target=self.press)

    def press(self):
        while not self.stopped:
            LIBC.syncfs(self.file)
            time.sleep(0.01)

    def __enter__(self):
        self.thread.start()

    def __exit__(self, *_):
        self.stopped = True
        self.thread.join()
        os.close(self.file)
