"""Runs tests of the program on the one for ARM, by the script `emulated`: program.py NATIVE [--all], with the program of this machine to compare it
with. The last line is 'N passed, 0 failed'."""
import os
import re
import shutil
import subprocess
import sys
import tempfile

HERE = os.path.dirname(os.path.abspath(__file__))
sys.path.insert(0, os.path.join(HERE, "..", "program"))

import commands
import cuts
import docks
import files
import films
import judging
import loads
import loans
import readers
import replay
import salvages
import scale
import scripts
import wears
from all import run
from drive import *

FLUSHES = "^catalogue: --flush takes clwb, clflushopt or clflush, on ARM cvadp, cvap or civac, if the processor has it, or none$"


class Emulated(Program):
    """A program that takes its time."""

    def __call__(self, *words, **how):
        run = self.start(*words, stdout=subprocess.PIPE, stderr=subprocess.PIPE, stdin=subprocess.DEVNULL, **how)
        out, err = run.communicate(timeout=1200)
        check_ending(run.returncode, err, words)
        return run.returncode, out, err


def as_it_is(program):
    """The same program with no words added to what a test gives it."""
    other = Emulated(program.command, program.name, program.quick)
    other.environment = dict(program.environment, EMULATED_AS_IT_IS="yes")
    return other


def the_docks_of_arm(program, folder):
    """Lists are for dock 1 if none is named; one for dock 0 is printed, but not carried out unless --force asks for it too."""
    program, t = as_it_is(program), f"{folder}/t"
    program.done("make", t, 9)
    assert program.done("add", t, code(1), 7) == f"added {code(1)},7,open (4 stores, 1 flush, 4 barriers)\n"
    assert program.done("add", t, code(2), 8, "--force").endswith("4 barriers)\n")
    for words in (["add", t, code(3), 9], ["remove", t, code(1)], ["class", t, code(1), "room"], ["repair", t], ["load", t, commands.HUNDRED]):
        program.refuses(18, "dock 0 is not this processor's, which may reorder its stores; --force with it", *words, "--dock", 0)
    assert program.done("add", t, code(3), 9, "--dock", 0, "--force") == f"added {code(3)},9,open (4 stores, 1 flush)\n"
    plain, barred = (orders_of(program.done("orders", t, "remove", code(1), *more)) for more in (["--dock", 0], []))
    assert BARRIER not in plain and plain == [o for o in barred if o != BARRIER] and BARRIER in barred
    program.refuses(BAD_USAGE, "orders takes no --force", "orders", t, "remove", code(1), "--force")
    film = program.done("film", t, "-", code(1), "--data")
    assert "barrier" not in film
    program.refuses(BAD_USAGE, "--dock takes 0 or 1", "add", t, code(4), 10, "--dock", 2, "--force")


def the_flushes_of_arm(program, folder):
    """Of a processor without DC CVAP: each way leaves the same words, those of the printed orders."""
    t = f"{folder}/t"
    fill(program, t, 9, [(code(i), i) for i in range(10, 40)])
    for i, how in enumerate(("civac", "none")):
        for change in (["add", code(50 + i), 50 + i], ["remove", code(10 + i)]):
            before = read_words(t)
            orders = orders_of(program.done("orders", t, *change))
            status, _, err = program(change[0], t, *change[1:], "--fast", "--flush", how)
            assert status == 0 and err.startswith("catalogue: --fast: "), err
            assert read_words(t) == carried_out(before, orders), how
    for how in ("cvadp", "cvap", "clwb", "clflush", ""):
        program.refuses(BAD_USAGE, FLUSHES, "repair", t, "--flush", how)
    assert program.done("--help").endswith("flushed by: civac (to the point of coherency: memory, if no cache lies behind it).\n")


def the_same_as_on_x86(program, folder):
    """A table of one is a table of the other, and the two print the same: finds, lists, drawings, films, the lesson, what the judge says."""
    other, t, u = Program([sys.argv[1]], "x86-64", True), f"{folder}/t", f"{folder}/u"
    other.done("make", t, 60, "--loan")
    other.done("load", t, commands.HUNDRED)
    shutil.copy(t, u)
    for words in (["add", "{}", code(5), 5005, "room"], ["add", "{}", code(6), 5005, "--collection", 2], ["remove", "{}", code(5)], ["add", "{}", code(7), 5007, "--cut", 3]):
        here, there = [w.format(t) if w == "{}" else w for w in words], [w.format(u) if w == "{}" else w for w in words]
        assert program.done(*here) == other.done(*there), words
        assert table_bytes(t) == table_bytes(u), words
    changes = [["film", t, "+", code(8), 5008], ["film", t, "repair", "--data"], ["film", "--drawings"], ["show", t], ["list", t], ["check", t], ["script", 1000]]
    for words in changes:
        printed = other.done(*words)
        assert program.done(*words) == printed, words
        assert words[1:] != ["--drawings"] or len(printed) > 100000 and printed.rstrip().endswith("</html>")


def instructions(program, folder):
    """Stores and loads of shared words, flushes and the barrier are the instructions that docs/READERS.md and docs/DURABILITY.md name."""
    place = os.path.join(os.path.dirname(os.environ["EMULATED"]), "file")
    for name, wanted in (("counter", ["stlr"]), ("looks", ["ldar|ldapr"]), ("flush", ["dc\\s+cvadp|sys\\s+#3, c7, c13, #1", "dc\\s+cvap|sys\\s+#3, c7, c12, #1",
                                                                                 "dc\\s+civac", "dsb\\s+sy", "dmb\\s+ishst", "mrs\\s+x\\d+, ctr_el0"])):
        text = subprocess.run(["aarch64-linux-gnu-objdump", "-d", "--no-show-raw-insn", f"{place}/{name}.o"], text=True, capture_output=True, check=True).stdout
        for pattern in wanted:
            assert re.search(rf"\t({pattern})\b", text), (name, pattern)


OWN = [the_docks_of_arm, the_flushes_of_arm, the_same_as_on_x86, instructions]
SOME = [commands.the_worked_orders, commands.making, docks.the_worked_orders, loads.lines_from_standard_input, salvages.damaged_slots, loans.drawing_both,
        films.a_film_of_a_list]
ALL = commands.TESTS + loads.TESTS + files.TESTS + loans.TESTS + docks.TESTS + salvages.TESTS + scripts.TESTS + cuts.TESTS + replay.TESTS + readers.TESTS
ALL += wears.TESTS + judging.TESTS + films.TESTS + scale.TESTS
# Two look for instructions of x86 in the program or in the system's file about the processor; one waits until the program catches a signal, which
# the emulator does from its start.
OTHERS = [commands.orders_are_what_is_carried_out, docks.a_barrier_is_a_fence, loads.a_line_without_an_end]


def main():
    everything = sys.argv[2:] == ["--all"]
    program = Emulated([os.path.join(HERE, "emulated")], "on ARM", False)
    tests = OWN + ([t for t in ALL if t not in OTHERS] if everything else SOME)
    place = tempfile.mkdtemp(prefix="catalogue-arm-", dir="/dev/shm" if os.access("/dev/shm", os.W_OK) else None)
    os.chmod(place, 0o755)
    failed = 0
    for test in tests:
        line, passed = run((program, test, place))
        print(line, flush=True)
        failed += not passed
        if failed and not everything:
            sys.exit(1)
    if not failed:
        shutil.rmtree(place)
    print(f"{len(tests) - failed} passed, {failed} failed")
    sys.exit(failed != 0)


if __name__ == "__main__":
    main()
