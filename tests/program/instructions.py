"""The instructions by which a change reaches memory: a flush is that of its line, with a fence before anything after it; each barrier is a fence.
The program is followed instruction by instruction through what carries orders out (steps.c), and what it retires is compared with the list
that it prints; and what its flush functions consist of is read, also of those that this machine's processor has not."""
import os
import re
import shutil
import subprocess

from drive import *

STEPS = os.environ.get("STEPS_PROGRAM", "")
# Best first, as the processor announces them.
WAYS = ["clwb", "clflushopt", "clflush"]


def none():
    """Why there is nothing to follow."""
    return None if os.uname().machine == "x86_64" and STEPS else "not looked for"


def announced():
    with open("/proc/cpuinfo") as f:
        flags = re.search(r"^flags\s*:(.*)$", f.read(), re.M)[1].split()
    return [way for way in WAYS if way in flags]


def retired(program, folder, *words):
    """A change as it is carried out: what each order comes to."""
    with_steps = subprocess.run([STEPS, f"{folder}/steps", *program.command, *map(str, words)], env=program.environment, capture_output=True, text=True, timeout=120)
    assert with_steps.returncode == 0, (words, with_steps.returncode, with_steps.stderr)
    with open(f"{folder}/steps") as f:
        return [line.split() for line in f]


def matches(words, orders, steps, way):
    """The steps are those of the orders on these words: of each flush the instruction, then a fence; of each barrier a fence. Stores to the
    trailer, in which readers find a counter, do not count, and one of the value that is there is not seen."""
    steps = [s for s in steps if s[0] not in ("list", "end") and not (s[0] == "store" and int(s[1]) >= len(words))]
    at = 0
    for i, order in enumerate(orders):
        if order and words[order[0]] == order[1]:
            continue
        assert at < len(steps), (i, "orders are missing")
        if order is None:
            assert steps[at][0] == "flush" and steps[at][2] == way, (i, order, steps[at], way)
            assert steps[at + 1:at + 2] == [["fence"]], (i, "a flush without its fence", steps[at:at + 2])
            at += 2
        elif order == BARRIER:
            assert steps[at] == ["fence"], (i, "a barrier without a fence", steps[at])
            at += 1
        else:
            assert steps[at] == ["store", str(order[0]), str(order[1])], (i, order, steps[at])
            words[order[0]] = order[1]
            at += 1
    assert at == len(steps) and at > 0, steps[at:]


def flushed_lines(out):
    """The lines that a printed list flushes, in order."""
    return [int(line.split()[2]) for line in out.splitlines() if " flush " in line]


def each_way(program, folder):
    """A split by each flush that the processor has, and by the best one when none is named; with barriers too."""
    t, tried = f"{folder}/t", []
    if none():
        return none()
    there = announced()
    for way in there + [None]:
        for dock in (0, 1):
            fill(program, t, 3, [(code(10 * i), 100 + i) for i in range(1, 12)])
            printed = program.done("orders", t, "add", code(115), 112, *docked(dock))
            named, words = ["--flush", way] if way else [], read_words(t)
            steps = retired(program, folder, "add", t, code(115), 112, "--fast", *named, *docked(dock))
            matches(words, orders_of(printed), steps, way or there[0])
            assert [int(s[1]) for s in steps if s[0] == "flush"] == flushed_lines(printed)
            tried.append(f"{way or 'the best'} on dock {dock}")
            os.remove(t)
    return ", ".join(tried)


def flush_functions(program, folder):
    """Each consists of its instruction on the line that it is given, a fence, and its answer."""
    if none() or not shutil.which("objdump"):
        return "not looked for"
    text = subprocess.run(["objdump", "-d", "--no-show-raw-insn", program.command[-1]], text=True, capture_output=True, check=True).stdout
    for way in WAYS:
        body = re.search(rf"^[0-9a-f]+ <by_{way}>:\n((?:.+\n)+)", text, re.M)
        assert body, way
        code_of = [re.sub(r"\s+", " ", line.split("\t")[1].split("#")[0].strip()) for line in body[1].splitlines() if "\t" in line]
        code_of = code_of[:code_of.index("ret") + 1]
        at = [i for i, line in enumerate(code_of) if line == f"{way} (%rdi)"]
        fences = [i for i, line in enumerate(code_of) if line in ("sfence", "mfence")]
        assert len(at) == 1 and fences and fences[0] > at[0], (way, code_of)
        assert not [line for line in code_of[:at[0]] if "%rdi" in line or "%edi" in line], (way, code_of)
    return ", ".join(WAYS)


TESTS = [each_way, flush_functions]
