"""images.py BUILT CHANGES SEED: what persistent memory may hold after a power cut, by the instructions that the built program retires (trace.c).
The stores to one line last in their order; for certain those that were made before the line's last flush, once a fence has followed it. After every
instruction every image that this allows must be sound, and have the maps of before the change or of after it; after the acknowledgement those
of after it. A change follows a kill too: what the killed program had not flushed is on its way until the next one's msync. Without that msync
some image must be wrong, or it would not be needed."""
import collections
import itertools
import os
import random
import re
import struct
import subprocess
import sys
import tempfile

NODES = 40
BYTES = 64 + 256 * NODES
CLASSES = ("open", "room", "closed")
FULL = 10
KILLED = 9
# How a change is carried out.
WAYS = ([], [], ["--dock", "1"], ["--flush", "clflushopt"], ["--flush", "clflush"])


def pairs(text):
    return {c: (int(r), a) for c, r, a in (row.split(",") for row in text.split())}


def frozen(maps):
    return tuple(tuple(sorted(m.items())) for m in maps)


class Memory:
    """What is certain, and what is on its way: of each line the stores that a cut may lose, the last ones first."""

    def __init__(self, data):
        self.certain = list(struct.unpack(f"<{BYTES // 8}Q", data[:BYTES]))
        self.stores = collections.defaultdict(list)
        self.flushed = {}

    def store(self, word, value):
        self.stores[word // 8].append((word, value))

    def flush(self, line):
        self.flushed[line] = len(self.stores[line])

    def fence(self):
        for line, count in self.flushed.items():
            self.certain = self.with_stores({line: count})
            del self.stores[line][:count]
        self.flushed = {}
        self.stores = collections.defaultdict(list, {line: s for line, s in self.stores.items() if s})

    def sync(self):
        for line in self.stores:
            self.flush(line)
        self.fence()

    def with_stores(self, kept):
        words = list(self.certain)
        for line, count in kept.items():
            for word, value in self.stores[line][:count]:
                words[word] = value
        return words

    def images(self):
        counts = [range(len(s) + 1) for s in self.stores.values()]
        for kept in itertools.product(*counts):
            yield struct.pack(f"<{BYTES // 8}Q", *self.with_stores(dict(zip(self.stores, kept))))


class Trial:
    def __init__(self, built, folder, seed):
        self.built, self.folder, self.chance = built, folder, random.Random(seed)
        self.table, self.known, self.seen = f"{folder}/t", {}, collections.Counter()
        symbols = subprocess.check_output(["nm", f"{built}/catalogue"], text=True)
        self.address = re.search(r"^(\w+) [tT] carry_out$", symbols, re.M)[1]
        self.maps, self.recording = [{}, {}], 0

    def run(self, *words):
        return subprocess.run([f"{self.built}/catalogue", *map(str, words)], capture_output=True, text=True, timeout=60)

    def listed(self, path):
        """Both collections' maps; None if the table is not sound."""
        runs = [self.run("list", path, "--collection", n) for n in (1, 2)]
        return None if any(r.returncode for r in runs) else frozen(pairs(r.stdout) for r in runs)

    def maps_of(self, image):
        if image not in self.known:
            with open(f"{self.folder}/image", "wb") as f:
                f.write(image)
            self.known[image] = self.listed(f"{self.folder}/image")
        return self.known[image]

    def contents(self):
        with open(self.table, "rb") as f:
            return f.read()[:BYTES]

    def trace(self, words, options=()):
        """The events of a command, and its status."""
        log = f"{self.folder}/trace"
        command = [f"{self.built}/trace", "-g", *options, self.address, str(BYTES), log, f"{self.built}/catalogue", *map(str, words)]
        done = subprocess.run(command, capture_output=True, text=True, timeout=300)
        with open(log) as f:
            events = [line.split() for line in f]
        assert done.returncode in (0, FULL, KILLED), (words, done)
        return done.returncode, events

    def follow(self, memory, events, before, after, syncs=True):
        """How many images of a command are not allowed. Before its msync the maps of what was killed are, then its own, and from its
        acknowledgement on its last ones. syncs: whether the msync does anything."""
        wrong, allowed = 0, before
        for event, *rest in events:
            if event == "M":
                self.seen["msyncs"] += syncs
                if syncs:
                    memory.sync()
                    allowed = after
            elif event == "S":
                memory.store(int(rest[0]), int(rest[1]))
                self.seen["stores"] += syncs
            elif event == "F":
                memory.flush(int(rest[0]))
                self.seen[rest[1]] += syncs
            elif event == "B":
                memory.fence()
            elif event == "A":
                # Lines of a load are acknowledged one by one: how far it is only its end says.
                assert not syncs or not memory.stores, "acknowledged before it lasts"
            images = list(memory.images())
            self.seen["images"] += syncs * len(images)
            wrong += sum(self.maps_of(image) not in allowed for image in images)
            self.seen["most lines on their way"] = max(self.seen["most lines on their way"], syncs * len(memory.stores))
        return wrong

    # ---- changes

    def code(self):
        return f"AA{self.chance.choice('AB')}00{self.chance.randrange(10**7):07}"

    def lines(self, count):
        new = {}
        while len(new) < count:
            self.recording += 1
            new[self.code()] = (self.recording, self.chance.choice(CLASSES))
        return {c: v for c, v in new.items() if c not in self.maps[0] and c not in self.maps[1]}

    def change(self):
        """A command, and the maps that it passes through."""
        which = self.chance.randrange(2)
        now, after = self.maps[which], [dict(m) for m in self.maps]
        kind = self.chance.choice(["add"] * 4 + ["remove", "class", "load"]) if len(now) > 3 else "add"
        if len(self.maps[0]) + len(self.maps[1]) > 130:
            kind = self.chance.choice(["remove", "class"])
        steps = [frozen(self.maps)]
        if kind in ("add", "load"):
            new = self.lines(self.chance.choice((3, 12)) if kind == "load" else 1)
            for c, v in new.items():
                after[which][c] = v
                steps.append(frozen(after))
            with open(f"{self.folder}/csv", "w") as f:
                f.writelines(f"{c},{r},{a}\n" for c, (r, a) in new.items())
            words = ["load", self.table, f"{self.folder}/csv", "--each"] if kind == "load" else ["add", self.table, c, *v]
        else:
            c = self.chance.choice(sorted(now))
            if kind == "remove":
                del after[which][c]
                words = ["remove", self.table, c]
            else:
                after[which][c] = (now[c][0], self.chance.choice(CLASSES))
                words = ["class", self.table, c, after[which][c][1]]
            steps.append(frozen(after))
        return kind, [*words, "--collection", which + 1, *self.chance.choice(WAYS)], steps, after

    def whole(self):
        kind, words, steps, after = self.change()
        memory = Memory(self.contents())
        status, events = self.trace(words)
        if status == FULL:
            self.maps = [dict(m) for m in self.listed(self.table)]
            self.seen["full"] += 1
            return
        wrong = self.follow(memory, events, steps, steps)
        assert wrong == 0, (words, f"{wrong} images that are neither before nor after")
        self.lasts(memory, after)
        self.seen[kind] += 1

    def lasts(self, memory, after):
        assert not memory.stores and struct.pack(f"<{BYTES // 8}Q", *memory.certain) == self.contents(), "the trace lacks a store"
        assert self.maps_of(self.contents()) == frozen(after), "acknowledged, and not there"
        self.maps = after

    def killed(self):
        """A change that is killed, perhaps between a store and its flush, then another one. Whether it would be wrong without the msync."""
        _, words, steps, _ = self.change()
        before = self.contents()
        status, events = self.trace(words, ["-k", str(self.chance.randrange(1, 40))])
        if status != KILLED:
            self.maps = [dict(m) for m in self.listed(self.table)]
            return
        memory, without = Memory(before), Memory(before)
        assert self.follow(memory, events, steps, steps) == 0, words
        self.follow(without, events, steps, steps, False)
        self.maps = [dict(m) for m in self.listed(self.table)]
        _, words, own, after = self.change()
        status, events = self.trace(words)
        if status == FULL:
            self.maps = [dict(m) for m in self.listed(self.table)]
            return
        assert self.follow(memory, events, steps, own) == 0, (words, "after a kill")
        self.seen["changes after a kill"] += 1
        # What the kill left may be lost or not; what the second change did, and what was there, not.
        some = [frozen(self.unlike(step, own[0], last)) for step in steps for last in own]
        self.seen["wrong without the msync"] += self.follow(without, events, steps + own + some, [], False) > 0
        self.lasts(memory, after)

    @staticmethod
    def unlike(step, first, last):
        """The maps of a step with what the second change does to the first ones."""
        maps = []
        for there, old, new in zip(step, first, last):
            m, old, new = dict(there), dict(old), dict(new)
            for c in set(old) | set(new):
                if old.get(c) != new.get(c):
                    m.pop(c, None)
                    m.update({c: new[c]} if c in new else {})
            maps.append(m)
        return maps


def main(built, count, seed):
    with tempfile.TemporaryDirectory(dir="/dev/shm" if os.path.isdir("/dev/shm") else None) as folder:
        trial = Trial(built, folder, int(seed))
        trial.run("make", trial.table, NODES, "--loan")
        for i in range(int(count)):
            trial.killed() if i % 3 == 2 else trial.whole()
        seen = trial.seen
        assert seen["changes after a kill"] > 0 and seen["wrong without the msync"] > 0 and seen["most lines on their way"] == 1, seen
        print(", ".join(f"{n} {what}" for what, n in sorted(seen.items())))
        print(f"{seen['images']} images after {seen['stores']} stores, {len(trial.known)} of them different, none wrong: passed")
        print(f"{seen['changes after a kill']} changes after a kill; {seen['wrong without the msync']} would be wrong without the msync: passed")


main(*sys.argv[1:])
