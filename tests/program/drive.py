"""Runs the program and reads its tables: what the tests share."""
import os
import re
import struct
import subprocess

MARK = 2**64 - 1
# Exit statuses.
NO_CODE, NO_TABLE, LOST, NOT_SOUND = 1, 2, 3, 4
BAD_RECORDING, CODE_THERE, RECORDING_THERE, NOT_THERE, NO_NODES, TOO_HIGH = 6, 7, 8, 9, 10, 11
BAD_CLASS, NO_COLLECTION, NO_SCRIPT = 14, 17, 22
# Of find: as a word that is no code.
ABSENT = 1
BAD_USAGE, BAD_LINE, BAD_FILE = 64, 65, 74
MOST_RECORDING = 2**56 - 1
CLASSES = ["open", "room", "closed"]
# What a sanitizer or valgrind that found something ends a program with.
FOUND_SOMETHING = 99


class Program:
    """A build of the program, perhaps under valgrind."""

    def __init__(self, command, name, quick):
        self.command, self.name, self.quick = command, name, quick
        options = f"exitcode={FOUND_SOMETHING}"
        self.environment = dict(os.environ, ASAN_OPTIONS=options, UBSAN_OPTIONS="halt_on_error=1:" + options, LSAN_OPTIONS=options)

    def start(self, *words, **how):
        return subprocess.Popen(self.command + [str(w) for w in words], env=self.environment, text=True, **how)

    def __call__(self, *words, **how):
        """Exit status, standard output and standard error."""
        run = self.start(*words, stdout=subprocess.PIPE, stderr=subprocess.PIPE, stdin=subprocess.DEVNULL, **how)
        out, err = run.communicate(timeout=120)
        check_ending(run.returncode, err, words)
        return run.returncode, out, err

    def done(self, *words, **how):
        """What a command that succeeds prints."""
        status, out, err = self(*words, **how)
        assert status == 0 and err == "", (words, status, out, err)
        return out

    def refuses(self, status, pattern, *words, **how):
        """A refusal: its status, one line of message that the pattern fits, no answer, and every file named as it was."""
        before = [table_bytes(w) for w in words]
        got, out, err = self(*words, **how)
        assert got == status and re.search(pattern, err) and out == "", (words, status, pattern, got, out, err)
        assert err.startswith("catalogue: ") and err.count("\n") == 1, err
        assert [table_bytes(w) for w in words] == before, (words, "a file was changed")


def check_ending(status, err, words):
    assert status >= 0 and status != FOUND_SOMETHING, (words, status, err)


def contents(path):
    if not os.path.isfile(str(path)):
        return None
    with open(path, "rb") as f:
        return f.read()


# Words of the trailer, which lies behind the table's words.
TRAILER = 8


def without_trailer(data):
    """The bytes of a table: its header says how many nodes it has. Another file as it is."""
    words = 8 + 32 * int.from_bytes(data[16:24], "little")
    return data[:8 * words] if len(data) == 8 * (words + TRAILER) else data


def table_bytes(path):
    """A file's contents, but of a table without its trailer: a writer adds that, and counts in it."""
    data = contents(path)
    return data and without_trailer(data)


def read_words(path):
    """A table's words, without its trailer."""
    data = table_bytes(path)
    return list(struct.unpack(f"<{len(data) // 8}Q", data))


def write_words(path, words):
    with open(path, "wb") as f:
        f.write(struct.pack(f"<{len(words)}Q", *words))


def key(code):
    return int(code[:5], 36) * 10**7 + int(code[5:])


def code(i):
    """Codes in rising order."""
    return f"AA00019{i:05}"


def listed(out):
    """The codes and recordings that list prints, in its order; also from lines that have no class."""
    return [(c, int(r)) for c, r, *_ in (line.split(",") for line in out.splitlines())]


def everything(out):
    """What list prints: each code's recording and class."""
    return {c: (int(r), access) for c, r, access in (line.split(",") for line in out.splitlines())}


def classes_of(out):
    """The class of each code that list prints."""
    return {c: access for c, (_, access) in everything(out).items()}


# A barrier among orders.
BARRIER = ()


def orders_of(out):
    """The orders that the command orders prints, a store as its word and value and a flush as None; its last line has their counts."""
    found = []
    lines = out.splitlines()
    for number, line in enumerate(lines[:-1], 1):
        parts = line.split()
        assert int(parts[0]) == number and parts[1] in ("store", "flush", "barrier"), line
        found.append((int(parts[2]), int(parts[3])) if parts[1] == "store" else None if parts[1] == "flush" else BARRIER)
    counts = re.fullmatch(r"not made \((\d+) stores?, (\d+) flush(?:es)?(?:, (\d+) barriers?)?\)", lines[-1])
    assert counts, lines[-1]
    stores, flushes, barriers = (int(n or 0) for n in counts.groups())
    assert (stores, flushes, barriers) == (sum(map(bool, found)), found.count(None), found.count(BARRIER)), out
    return found


def carried_out(words, orders):
    """The table's words after these orders."""
    after = list(words)
    for order in orders:
        if order:
            after[order[0]] = order[1]
    return after


def docked(dock):
    """The words that name a dock."""
    return ["--dock", dock]


def naming(collection):
    """The words that name a collection."""
    return ["--collection", collection]


def fill(program, path, nodes, pairs, loans=None):
    """A new table with these pairs, added in this order; of two collections if the second's are given. An empty collection would be
    packed: the first pair is added by itself."""
    csv = path + ".csv"
    program.done("make", path, nodes, *[] if loans is None else ["--loan"])
    for named, lines in (([], pairs), (naming(2), loans)):
        if lines:
            program.done("add", path, lines[0][0], *str(lines[0][1]).split(","), *named)
            with open(csv, "w") as f:
                f.writelines(f"{c},{r}\n" for c, r in lines[1:])
            program.done("load", path, csv, *named)
            os.remove(csv)
