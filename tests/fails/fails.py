"""Everything fails once: each system call and each allocation of every command and of every call of the file library fails at its nth occurrence,
for every n. Then the answer must be true, nothing that was answered may be lost, no half-made file may have the table's name, and a handle must
be usable or say plainly that it is not.

fails.py PROGRAM [--gate | --all | WORD ..]: WORD names one of them, as 'add', 'call:add' or 'disk:add'. FAILING_PROGRAM, CALLS_PROGRAM, SYNCS_LIBRARY and
ALLOCATIONS_LIBRARY name what run builds. The last line is 'N passed, 0 failed'."""
import multiprocessing
import os
import pathlib
import re
import shutil
import subprocess
import sys
import tempfile
import traceback

HERE = pathlib.Path(__file__).resolve().parent
sys.path.insert(0, str(HERE.parent / "program"))
from drive import BAD_FILE, Program, code, contents, everything, fill, table_bytes  # noqa: E402

FAILING, CALLS = os.environ["FAILING_PROGRAM"], os.environ["CALLS_PROGRAM"]
OWN = 300  # the file library's own numbers begin here
OTHER_ANSWER = "998"  # what calls.c makes of 0 with another answer than the table's
NOT_MADE, MADE, UNKNOWN = 0, 1, 2
DISK, FOLDER = 308, 309

# The errors of each call: the gate tries the first.
ERRORS = {
    "openat": ["EMFILE", "EACCES", "EIO", "ENOMEM", "EROFS"], "open": ["EMFILE", "EACCES"], "close": ["EIO"], "read": ["EIO", "EINTR", "SHORT"], "pread": ["EIO", "EINTR", "SHORT"],
    "write": ["ENOSPC", "EIO", "EINTR", "EDQUOT", "EFBIG", "SHORT"], "writev": ["ENOSPC", "EIO"], "fstatat": ["EIO", "ENOMEM", "EACCES"], "fstat": ["EIO"], "stat": ["EIO"],
    "lstat": ["EIO"], "statx": ["ENOSYS", "EIO"], "mmap": ["ENOMEM", "EAGAIN"], "munmap": ["ENOMEM"], "mremap": ["ENOMEM"], "flock": ["ENOLCK", "EINTR"],
    "fcntl": ["EMFILE"], "msync": ["EIO", "ENOSPC", "EINTR", "ENOMEM"], "fsync": ["EIO", "ENOSPC", "EDQUOT"], "syncfs": ["EIO"], "ftruncate": ["ENOSPC", "EIO", "EFBIG"],
    "rename": ["EIO", "ENOSPC", "EXDEV", "EACCES"], "renameat2": ["EIO", "EINVAL", "ENOSYS", "ENOSPC"], "link": ["EIO", "EPERM"], "unlink": ["EIO", "EACCES"], "unlinkat": ["EIO"],
    "readlink": ["EIO", "EACCES"], "access": ["EACCES"], "faccessat": ["EACCES", "EIO"], "faccessat2": ["EACCES", "EIO", "ENOSYS"], "getdents": ["EIO"],
    "getcwd": ["ENOENT", "EACCES"], "lseek": ["EINVAL"], "fchmod": ["EPERM", "EIO"], "fchown": ["EPERM"], "flistxattr": ["EIO"], "fgetxattr": ["EIO"], "fsetxattr": ["ENOSPC"],
    "dup2": ["EMFILE"], "poll": ["EINTR", "ENOMEM"], "ioctl": ["EINVAL"], "nanosleep": ["EINTR"], "rt_sigaction": ["EINVAL"], "prlimit": ["EPERM"]}
# Of a disk that is full, of a quota that is reached, from a moment on.
FROM_THEN_ON = [("write", "ENOSPC"), ("write", "EDQUOT"), ("fsync", "EIO"), ("msync", "EIO"), ("pread", "EIO"), ("openat", "EMFILE"), ("mmap", "ENOMEM"), ("ftruncate", "ENOSPC")]

def table_with_tens(program, t):
    """Keys 10, 20, .. 600 with recordings 1000 + key, added in this order."""
    program.done("make", t, 60)
    program.done("add", t, "#10", 1010)
    lines = "".join(f"#{key},{1000 + key}\n" for key in range(20, 601, 10))
    run = program.start("load", t, "-", stdin=subprocess.PIPE, stdout=subprocess.PIPE, stderr=subprocess.PIPE)
    out, err = run.communicate(lines)
    assert run.returncode == 0, (out, err)


# ---- commands

LOADED = {code(700 + i): (7000 + i, "open") for i in range(50)}


def commands(program, folder):
    """What each begins with, and its words: T is the table, N a new file, B the folder of what is there before."""
    t, b = "T", folder
    add = ["+", code(305), 9005]
    return {
        "add": ("base", ["add", t, code(305), 9005, "room"]), "add split": ("full", ["add", t, code(305), 9005]), "add barriers": ("full", ["add", t, code(305), 9005, "--dock", 1]),
        "add fast": ("full", ["add", t, code(305), 9005, "--fast"]), "add after a cut": ("cut", ["add", t, code(309), 9006]), "remove": ("base", ["remove", t, code(7)]),
        "class": ("base", ["class", t, code(7), "closed"]), "repair": ("cut", ["repair", t]), "load": ("base", ["load", t, f"{b}/lines", "--each"]),
        "load packed": ("empty", ["load", t, f"{b}/lines", "--each"]), "load in place": ("linked", ["load", t, f"{b}/lines", "--each"]),
        "load fast": ("linked", ["load", t, f"{b}/lines", "--each", "--fast"]), "load wear": ("empty", ["load", t, f"{b}/lines", "--wear"]),
        "load keep going": ("base", ["load", t, f"{b}/spoilt", "--keep-going"]), "make": ("base", ["make", "N", 30]), "copy": ("base", ["copy", t, "N"]),
        "salvage": ("base", ["salvage", t, "N"]), "rescue": ("base", ["salvage", t, "N", "--nodes", 60, "--root", 3]), "find": ("base", ["find", t, code(7), code(305)]),
        "find recording": ("base", ["find", t, "--recording", 1007]), "list": ("base", ["list", t]), "list output": ("base", ["list", t, "--output", "N"]),
        "check": ("base", ["check", t]), "stat": ("base", ["stat", t, "--json"]), "show": ("base", ["show", t]), "orders": ("full", ["orders", t, "add", code(305), 9005]),
        "judge": ("base", ["judge", t, f"{b}/orders", *add]), "film": ("base", ["film", t, *add, "--list", f"{b}/orders"]), "lesson": ("base", ["film", "--drawings", "--data"]),
        "wear": ("base", ["wear", t, f"{b}/orders", "--svg"]), "class page": ("base", ["class", f"{b}/class"]), "script": ("base", ["script", 1000]), "key": ("base", ["key", code(7)])}


def begin(program, folder):
    """What the commands begin with."""
    pairs = [(code(30 * leaf + 6 * i), 1000 + 30 * leaf + 6 * i) for leaf in range(20) for i in range(5)] + [(code(7), 1007)]
    fill(program, f"{folder}/base", 60, pairs)
    more = [(code(300 + i), 1300 + i) for i in (1, 2, 3, 4, 7, 8)]
    fill(program, f"{folder}/full", 60, pairs + more)
    program.done("make", f"{folder}/empty", 60)
    shutil.copy(f"{folder}/base", f"{folder}/linked")
    for cut in range(1, 60):
        shutil.copy(f"{folder}/full", f"{folder}/cut")
        status, _, _ = program("add", f"{folder}/cut", code(305), 9005, "--cut", cut)
        if status == 0 and "leftover" in program.done("check", f"{folder}/cut"):
            break
    with open(f"{folder}/lines", "w") as f:
        f.writelines(f"{c},{r}\n" for c, (r, _) in LOADED.items())
    with open(f"{folder}/spoilt", "w") as f:
        f.writelines(f"{c},{r}\n{c}x,1\n" for c, (r, _) in list(LOADED.items())[:30])
    with open(f"{folder}/orders", "w") as f:
        f.write(program.done("orders", f"{folder}/base", "add", code(305), 9005))
    os.mkdir(f"{folder}/class")
    shutil.copy(HERE.parent.parent / "samples/drawings/right.txt", f"{folder}/class/ada.txt")


class Command:
    """A command, and what is true of it when nothing fails."""

    def __init__(self, program, name, start, words, base, place):
        self.program, self.name, self.start, self.words, self.base, self.place = program, name, start, words, base, place

    def prepare(self):
        shutil.rmtree(self.place, ignore_errors=True)
        os.mkdir(self.place)
        self.t, self.n = f"{self.place}/T", f"{self.place}/N"
        shutil.copy(f"{self.base}/{self.start}", self.t)
        if self.start == "linked":
            os.link(self.t, f"{self.place}/second")
        self.before = everything(self.program.done("list", self.t))
        return [{"T": self.t, "N": self.n}.get(word, str(word)) for word in self.words]

    def run(self, words, call="-", which="0", error="EIO", **environment):
        self.error = error
        with open(f"{self.place}/out", "w") as out, open(f"{self.place}/err", "w") as err:
            # What is loaded before the program would be loaded before what follows it.
            follow = [] if environment else [FAILING, f"{self.place}/report", call, which, error]
            command = [*follow, *self.program.command, *map(str, words)]
            status = subprocess.run(command, stdin=subprocess.DEVNULL, stdout=out, stderr=err, timeout=60, env=dict(self.program.environment, **environment)).returncode
        self.report = []
        if follow:
            with open(f"{self.place}/report", errors="replace") as f:
                self.report = [line.split() for line in f]
        return status, contents(f"{self.place}/out").decode(), contents(f"{self.place}/err").decode(errors="replace")

    def unspoilt(self):
        words = self.prepare()
        self.good = self.run(words)
        assert self.good[0] in (0, 1, 65), self.good
        self.after, self.new = everything(self.program.done("list", self.t)), table_bytes(self.n)
        met = {}
        for name, *_ in self.report:
            met[name] = met.get(name, 0) + 1
        return met

    def allocations(self):
        words = self.prepare()
        self.run(words, LD_PRELOAD=os.environ["ALLOCATIONS_LIBRARY"], ALLOCATIONS_COUNTED=f"{self.place}/counted")
        return int(contents(f"{self.place}/counted"))

    def wrong(self, status, out, err, failed):
        """What is not true of an end; nothing if all is."""
        whole = self.good[1]
        to_error = [line for line in failed if line[0] == "write" and line[-1] == f"{self.place}/err"]
        if status < 0 or status >= 99:
            return f"status {status}"
        if status == self.good[0] and out != whole and "load" not in self.name:
            return "another answer with the same status"
        if status != self.good[0] and not to_error and not re.match("(catalogue: [^\n]*\n)+", err):
            return "no message"
        try:
            now = everything(self.program.done("list", self.t))
        except AssertionError as e:
            return f"the table is not sound: {e}"
        loads = self.name.startswith("load")
        if loads and (wrong := self.wrong_load(status, out, err if not to_error else "cannot be printed", now)):
            return wrong
        if not loads and now not in (self.before, self.after):
            return "neither the map before nor the one after"
        if status == self.good[0] and now != self.after:
            return "the status of success, and another map"
        if re.search("nothing (was|more was) changed now|nothing was (changed|done|loaded)", err) and not loads and now != self.before:
            return "it says that nothing was changed"
        if "the change is made" in err and now != self.after:
            return "it says that the change is made"
        return self.wrong_files(status)

    def wrong_load(self, status, out, err, now):
        acknowledged = everything("\n".join(line for line in out.splitlines() if line.count(",") == 2 and " " not in line))
        added = {c for c in now if c not in self.before}
        closing = re.search(r"^(\d+) added", out, re.M)
        if any(now.get(c) != pair for c, pair in {**self.before, **acknowledged}.items()):
            return "a code is lost"
        if any(LOADED.get(c) != now[c] for c in added):
            return "a code that nobody asked for"
        if closing and int(closing[1]) != len(added):
            return f"it says {closing[0]}, and {len(added)} are there"
        if status == self.good[0] and out != self.good[1]:
            return "the status of success, and another answer"
        if added and not closing and "cannot be printed" not in err:
            return "lines were added, and it does not say so"
        if "nothing was loaded" in err and added and "from line" not in err:
            return "it says that nothing was loaded"
        return None

    def wrong_files(self, status):
        new, left = table_bytes(self.n), [name for name in os.listdir(self.place) if name.endswith((".new", ".part"))]
        removing = any(line[0] in ("unlink", "unlinkat") and line[1] == "failed" for line in self.report)
        if new is not None and new != self.new:
            return "the new file is not whole"
        if status == self.good[0] and new != self.new:
            return "the status of success, and no new file"
        if left and not removing:
            return f"left behind: {left}"
        if self.start == "linked" and table_bytes(self.t) != table_bytes(f"{self.place}/second"):
            return "the second name leads elsewhere"
        spoilt = set()
        for name, made, *files in self.report:
            if made == "failed" and name in ("write", "fsync") and files and self.error not in ("EINTR", "SHORT"):
                spoilt.add(files[0])
            if made == "made" and name in ("rename", "renameat2") and files and files[0] in spoilt:
                return "a file that could not be written got the name"
        return None

    def tries(self, met, every):
        """Which call fails, at which time, with which error."""
        for name, count in sorted(met.items()):
            for error in ERRORS.get(name, ["EIO"])[:None if every else 1]:
                for which in range(1, count + 1):
                    yield name, str(which), error
        if every:
            for name, error in FROM_THEN_ON:
                for which in range(1, met.get(name, 0) + 1):
                    yield name, f"{which}+", error

    def all_tries(self, every):
        """How many were made, and what is wrong of them."""
        tried, wrong = 0, []
        for call, which, error in self.tries(self.unspoilt(), every):
            status, out, err = self.run(self.prepare(), call, which, error)
            failed = [line for line in self.report if line[1] == "failed"]
            tried += 1
            if failed and (why := self.wrong(status, out, err, failed)):
                wrong.append((self.name, call, which, error, why, status, out[-60:], err[-200:], failed[:1]))
        count = self.allocations()
        numbers = range(1, count + 1) if every or count <= 40 else sorted({*range(1, 16), *range(1, count + 1, -(-count // 24))})
        for number in numbers:
            for more in ({}, {"ALLOCATIONS_AFTER": "1"}) if every else ({},):
                status, out, err = self.run(self.prepare(), LD_PRELOAD=os.environ["ALLOCATIONS_LIBRARY"], ALLOCATION=str(number), **more)
                tried += 1
                if why := self.wrong(status, out, err, []):
                    wrong.append((self.name, "allocation", number, more, why, status, out[-60:], err[-200:]))
        return tried, wrong


# ---- calls of the file library

CALL_NAMES = ["create", "open_to_read", "open_to_write", "rescue", "find", "find_by_a_writer", "next", "walk", "table", "table_of_a_writer", "about", "plan", "plan_by_a_writer",
              "check", "copy", "copy_by_a_writer", "salvage", "add", "remove", "class", "repair", "load", "load_in_place", "load_packed", "fast_add", "fast_load", "sync", "compare", "close"]
CHANGING = {"add", "remove", "class", "repair", "load", "load_in_place", "load_packed", "fast_add", "fast_load"}


class Call:
    """A call of the file library by tests/fails/calls.c."""

    def __init__(self, program, name, base, place):
        self.program, self.name, self.base, self.place = program, name, base, place

    def run(self, call="-", which="0", error="EIO", **environment):
        shutil.rmtree(self.place, ignore_errors=True)
        os.mkdir(self.place)
        start = "empty" if self.name == "load_packed" else "tens"
        shutil.copy(f"{self.base}/{start}", f"{self.place}/T")
        follow = [] if "LD_PRELOAD" in environment else [FAILING, f"{self.place}/report", call, which, error]
        words = [*follow, CALLS, self.name.replace("_packed", ""), f"{self.place}/T", f"{self.place}/N"]
        run = subprocess.run(words, capture_output=True, text=True, timeout=60, env=dict(self.program.environment, **environment))
        self.report = []
        if follow:
            with open(f"{self.place}/report", errors="replace") as f:
                self.report = [line.split() for line in f]
        said = {"lines": [], "pairs": []}
        for line in run.stdout.splitlines():
            word, *rest = line.split(" ")
            if word == "line":
                said["lines"].append(int(rest[1]))
            elif word == "pairs":
                said["pairs"].append({tuple(map(int, pair.split(":"))) for pair in rest})
            else:
                said[word] = rest
        return run.returncode, said, run.stderr

    def unspoilt(self):
        status, said, err = self.run()
        assert status == 0 and int(said["call"][0]) in (0, 10), (self.name, status, said, err)
        self.good, self.new = said, table_bytes(f"{self.place}/N")
        shutil.copy(f"{self.base}/{'empty' if self.name == 'load_packed' else 'tens'}", f"{self.place}/B")
        self.before = {(10 * i, 1000 + 10 * i, 0) for i in range(1, 61)} if self.name != "load_packed" else set()
        met = {}
        for name, *_ in self.report:
            met[name] = met.get(name, 0) + 1
        return met, int(said["allocations"][0])

    def wrong(self, status, said, err):
        if status != 0 or "close" not in said:
            return f"status {status}"
        number, outcome, message = int(said["call"][0]), int(said["call"][1]), " ".join(said["call"][3:])
        good_number, after = int(self.good["call"][0]), self.good["pairs"][0]
        now, last = (said["pairs"] + [None, None])[:2]
        if "unreadable" in said:
            return "the table cannot be read"
        if number not in (0, good_number) and (number < OWN or number == 998):
            return f"number {number}"
        if number != 0 and not message:
            return "no message"
        if self.name in CHANGING:
            loads = "load" in self.name
            if loads:
                half = len(said["lines"]) // 2
                keys = [13 + 10 * (i * 7 % 60) for i in range(60)]
                there = {(keys[i], 5000 + i, i % 3) for i, n in enumerate(said["lines"][:half]) if n in (0, DISK, FOLDER)}
                if now != self.before | there:
                    return "the lines' numbers are not true"
                if (outcome == NOT_MADE) != (not there):
                    return f"outcome {outcome}, {len(there)} lines"
            elif now != (self.before if outcome == NOT_MADE else after):
                return f"outcome {outcome} is not true"
            if number == 0 and now != after:
                return "it gives 0, and the change is not there"
        elif self.name not in ("sync", "compare", "close") and now != self.before:
            return "a call that changes nothing did"
        elif self.name in ("sync", "compare", "close") and now != after:
            return "a change is gone"
        # Nothing fails any more: the same call does its work, or says what it says of work that is done; or the handle says plainly that it is not usable.
        again, good_again = int(said["again"][0]), int(self.good["again"][0])
        if again not in (0, good_again) and again < OWN:
            return f"the same call again gives {again}"
        if self.name in CHANGING and again in (0, good_again) and last != after:
            return "the same call again gives 0, and the change is not there"
        there, recording = map(int, said["find"])
        if there < OWN and (there, recording) != ((0, 1010) if self.name != "load_packed" else tuple(map(int, self.good["find"]))):
            return f"a find on the handle gives {there}, {recording}"
        if there >= OWN and int(self.good["find"][0]) == 0 and again in (0, good_again):
            return f"the handle is not usable: find gives {there}"
        return self.wrong_files(number)

    def wrong_files(self, number):
        new, left = table_bytes(f"{self.place}/N"), [name for name in os.listdir(self.place) if name.endswith(".new")]
        removing = any(line[0] in ("unlink", "unlinkat") and line[1] == "failed" for line in self.report)
        if new is not None and new != self.new:
            return "the new file is not whole"
        return f"left behind: {left}" if left and not removing else None

    def all_tries(self, every):
        tried, wrong = 0, []
        met, allocations = self.unspoilt()
        for call, which, error in Command.tries(self, met, every):
            status, said, err = self.run(call, which, error)
            tried += 1
            if any(line[1] == "failed" for line in self.report) and (why := self.wrong(status, said, err)):
                wrong.append((f"call:{self.name}", call, which, error, why, said.get("call"), said.get("again"), said.get("find"), err[-200:]))
        for number in range(1, allocations + 1):
            for more in ("", "+"):
                status, said, err = self.run(FAIL_MEMORY=f"{number}{more}")
                tried += 1
                if why := self.wrong(status, said, err):
                    wrong.append((f"call:{self.name}", "allocation", f"{number}{more}", why, said.get("call"), said.get("again"), said.get("find"), err[-200:]))
        return tried, wrong


# ---- a disk as a kernel gives it: a page that could not be written is old there, and clean in memory

IN_PLACE = ["add", "add split", "add barriers", "add fast", "add after a cut", "remove", "class", "repair", "load in place", "load fast"]


class Disk(Command):
    """A command that changes a table in its place, on a disk that fails (tests/program/syncs.c): the nth wait for it does, or the first that meets
    any page which the system had tried to write."""

    def on_disk(self, words, **environment):
        how = {"LD_PRELOAD": os.environ["SYNCS_LIBRARY"], "SYNCS": f"{self.place}/syncs", "SYNCS_DISK": f"{self.place}/disk", **environment}
        return self.run(words, **how)

    def prepare(self):
        words = super().prepare()
        shutil.copy(self.t, f"{self.place}/disk")
        return words

    def wrong_disk(self, status, out):
        disk = everything(self.program.done("list", f"{self.place}/disk"))
        acknowledged = everything("\n".join(line for line in out.splitlines() if line.count(",") == 2 and " " not in line))
        if "load" in self.name:
            some = [{**self.before, **dict(list(LOADED.items())[:n])} for n in range(len(LOADED) + 1)]
            if disk not in some or not acknowledged.items() <= disk.items():
                return "the disk lacks a line that was acknowledged, or has others"
        elif disk not in (self.before, self.after):
            return "the disk has neither the map before nor the one after"
        if status == self.good[0] and disk != self.after:
            return "it was answered, and the disk has it not"
        # The next change waits for all that is not there.
        status, out, err = self.on_disk(["add", self.t, code(20000), 20000])
        if status != 0 or table_bytes(self.t) != table_bytes(f"{self.place}/disk"):
            return f"the next change ends with {status}, and the disk has other words: {err}"
        return None

    def all_tries(self, every):
        self.unspoilt()
        tried, wrong = 0, []
        for more in ({}, {"SYNCS_FAIL_ALL": "1"}):
            failing, status = 0, None
            while status != self.good[0]:
                failing += 1
                status, out, err = self.on_disk(self.prepare(), SYNCS_FAIL=str(failing), **more)
                tried += 1
                if status not in (self.good[0], BAD_FILE) or (status == BAD_FILE and "did not reach the disk: Input/output error" not in err):
                    wrong.append((f"disk:{self.name}", failing, more, "another end", status, err[-200:]))
                elif why := self.wrong_disk(status, out):
                    wrong.append((f"disk:{self.name}", failing, more, why, status, err[-200:]))
        return tried, wrong


class DiskCall(Call):
    """A call on the same disk; once nothing fails, and the handle is synced, the disk has every word."""

    def all_tries(self, every):
        self.unspoilt()
        tried, wrong, failing, met = 0, [], 0, True
        while met:
            failing += 1
            shutil.copy(f"{self.base}/tens", f"{self.base}/disk-{self.name}")
            for left in (f"{self.base}/disk-{self.name}.dirty", f"{self.base}/syncs-{self.name}"):
                if os.path.exists(left):
                    os.remove(left)
            status, said, err = self.run(LD_PRELOAD=os.environ["SYNCS_LIBRARY"], SYNCS=f"{self.base}/syncs-{self.name}", SYNCS_DISK=f"{self.base}/disk-{self.name}",
                                         SYNCS_FAIL=str(failing))
            tried += 1
            met = status == 0 and said["call"][0] != self.good["call"][0]
            why = self.wrong(status, said, err) if status != 3 else None
            synced = status == 0 and ((said["sync"], said["close"]) == (["0"], ["0"]) or (self.name == "close" and said["call"][0] == "0"))
            if not why and synced and table_bytes(f"{self.place}/T") != table_bytes(f"{self.base}/disk-{self.name}"):
                why = "it was synced, and the disk has other words"
            if why:
                wrong.append((f"diskcall:{self.name}", failing, why, said.get("call"), said.get("again"), said.get("find"), err[-200:]))
            # The handle is opened before the call: that fails, and says so.
            met = met or status == 3
        return tried, wrong


# ---- files that change meanwhile

# What another program does to the table T, by the shell, at the moment of any system call of ours.
MEDDLING = {
    "cut to nothing": "truncate -s 0 T", "cut in half": "truncate -s 8192 T", "cut by a node": "truncate -s -256 T", "made longer": "truncate -s +4096 T",
    "replaced": "cp OTHER T.o && mv T.o T", "removed": "rm T", "read-only": "chmod 0444 T", "overwritten": "head -c 4000 /dev/zero | dd of=T conv=notrunc bs=4000 2>/dev/null",
    "a folder": "rm T && mkdir T", "a link to itself": "rm T && ln -s T T"}
# In the gate.
SOME = ["cut to nothing", "cut by a node", "replaced", "removed"]


class Changed(Command):
    """A command whose table changes meanwhile: an end by a number, with a message if it is none of success; no file that another program put there
    is spoilt."""

    def all_tries(self, every):
        self.unspoilt()
        count = len(self.report) + 3
        tried, wrong = 0, []
        for name in MEDDLING if every else SOME:
            for which in range(1, count + 1, 1 if every else 5):
                words = self.prepare()
                does = MEDDLING[name].replace("OTHER", f"{self.base}/{self.start}").replace("T", self.t)
                os.environ["FAILING_DOES"] = self.program.environment["FAILING_DOES"] = does
                status, out, err = self.run(words, "any", str(which), "DOES")
                tried += 1
                why = None
                if status < 0 or status >= 99 and status != 255:
                    why = f"status {status}"
                elif status not in (0, self.good[0]) and not re.match("(catalogue: [^\n]*\n)+", err):
                    why = "no message"
                elif name == "replaced" and self.name in IN_PLACE and everything(self.program.done("list", self.t)) not in (self.before, self.after) and "load" not in self.name:
                    why = "the file that came is spoilt"
                elif [left for left in os.listdir(self.place) if left.endswith((".new", ".part"))]:
                    why = "left behind"
                if why:
                    wrong.append((f"changed:{self.name}", name, which, why, status, out[-60:], err[-200:]))
        return tried, wrong


class ChangedCall(Call):
    """A call whose table is cut short before it or meanwhile: a number with a message, and a call that looks at the name first is never ended by
    SIGBUS."""

    def all_tries(self, every):
        self.unspoilt()
        count = len(self.report) + 1
        tried, wrong, buses = 0, [], 0
        for name in MEDDLING if every else SOME:
            for which in range(1, count + 1, 1 if every else 3):
                does = MEDDLING[name].replace("OTHER", f"{self.base}/tens").replace("T", f"{self.place}/T")
                waits = which == 1
                os.environ["FAILING_DOES"] = self.program.environment["FAILING_DOES"] = does
                status, said, err = self.run("any", str(which), "DOES", **({"WAIT": "1"} if waits else {}))
                tried += 1
                buses += "bus" in said
                why = None
                if status != 0:
                    why = f"status {status}"
                elif "bus" in said and (waits or "cut" not in name):
                    why = "SIGBUS"
                elif name == "overwritten" and said["call"][0] == OTHER_ANSWER:
                    pass  # what a program stores without raising the counter is not noticed (docs/READERS.md)
                elif "bus" not in said and int(said["call"][0]) >= OWN and len(said["call"]) < 5:
                    why = "no message"
                if why:
                    wrong.append((f"changedcall:{self.name}", name, which, why, said.get("call"), err[-200:]))
        return tried, wrong


# ---- running

KINDS = {"command": Command, "call": Call, "disk": Disk, "diskcall": DiskCall, "changed": Changed, "changedcall": ChangedCall}


def work(job):
    kind, name, words, base, place, every, path = job
    program = Program([path], "plain", True)
    one = KINDS[kind](program, name, base, place) if "call" in kind else KINDS[kind](program, name, words[0], words[1], base, place)
    name = name if kind == "command" else f"{kind}:{name}"
    try:
        return name, *one.all_tries(every)
    except Exception:
        return name, 1, [(name, traceback.format_exc())]


def main(path, words):
    every, named = "--all" in words, [word for word in words if not word.startswith("--")]
    program = Program([path], "plain", True)
    place = tempfile.mkdtemp(prefix="catalogue-", dir="/dev/shm" if os.access("/dev/shm", os.W_OK) else None)
    base = f"{place}/base"
    os.mkdir(base)
    begin(program, base)
    table_with_tens(program, f"{base}/tens")
    jobs = [("command", name, words, base) for name, words in commands(program, base).items() if not named or name in named]
    jobs += [("call", name, None, base) for name in CALL_NAMES if not named or f"call:{name}" in named]
    all_commands = commands(program, base)
    jobs += [("disk", name, all_commands[name], base) for name in IN_PLACE if not named or f"disk:{name}" in named]
    jobs += [("diskcall", name, None, base) for name in ("add", "remove", "class", "repair", "load_in_place", "fast_add", "sync", "close") if not named or f"diskcall:{name}" in named]
    jobs += [("changed", name, words, base) for name, words in all_commands.items() if "T" in words[1] and (not named or f"changed:{name}" in named)]
    jobs += [("changedcall", name, None, base) for name in CALL_NAMES if name != "create" and (not named or f"changedcall:{name}" in named)]
    jobs = [(*job, f"{place}/{i}", every, path) for i, job in enumerate(jobs)]
    failed = tried = 0
    with multiprocessing.Pool(os.cpu_count()) as pool:
        for name, count, wrong in pool.imap_unordered(work, jobs):
            print(f"{name}: {count} failures", flush=True)
            for line in wrong[:6]:
                print("    FAILED:", *line, flush=True)
            tried, failed = tried + count, failed + len(wrong)
    shutil.rmtree(place)
    print(f"{tried - failed} passed, {failed} failed")
    return failed != 0


if __name__ == "__main__":
    sys.exit(main(os.path.abspath(sys.argv[1]), sys.argv[2:]))
