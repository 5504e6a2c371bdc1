"""Runs the tests of the program: all.py PLAIN SANITIZED [words for make]. The last line is 'N passed, 0 failed'."""
import multiprocessing
import os
import shutil
import signal
import sys
import tempfile
import time
import traceback

import commands
import cuts
import disks
import docks
import files
import films
import installing
import instructions
import judging
import loads
import loans
import memory
import outputs
import pages
import questions
import readers
import replay
import salvages
import scale
import scripts
import sessions
import sheets
import wears
import words
from drive import FOUND_SOMETHING, Program


def run(work):
    """A test in a folder of its own: a line about it, and whether it passed."""
    program, test, place = work
    folder = tempfile.mkdtemp(dir=place)
    began = time.monotonic()
    name = f"{program.name}: {test.__name__}"
    try:
        said = test(program, folder)
    except Exception:
        return f"{traceback.format_exc()}FAILED: {name}; its files are in {folder}", False
    shutil.rmtree(folder)
    return f"{name} ({time.monotonic() - began:.1f} s){': ' + said if said else ''}", True


def roomy(folder):
    """Whether the tests' files may go there."""
    if not os.access(folder, os.W_OK):
        return False
    about = os.statvfs(folder)
    return about.f_bavail * about.f_frsize > 1 << 28


def main():
    # Whoever runs the tests may have had signals ignored, which what is started here would ignore too.
    signal.signal(signal.SIGINT, signal.default_int_handler)
    signal.signal(signal.SIGTERM, signal.SIG_DFL)
    plain = Program([sys.argv[1]], "plain", True)
    sanitized = Program([sys.argv[2]], "with sanitizers", False)
    watched = ["valgrind", "-q", "--leak-check=full", "--errors-for-leak-kinds=all", f"--error-exitcode={FOUND_SOMETHING}", sys.argv[1]]
    valgrind = Program(watched, "under valgrind", False)
    everything = commands.TESTS + loads.TESTS + files.TESTS + loans.TESTS + docks.TESTS + salvages.TESTS + scripts.TESTS + cuts.TESTS + replay.TESTS
    everything += questions.TESTS + outputs.TESTS + sessions.TESTS + sheets.TESTS + readers.TESTS + wears.TESTS + judging.TESTS + words.TESTS + films.TESTS + scale.TESTS
    # valgrind takes half a second to start: each kind of work once.
    once = [commands.the_worked_orders, commands.drawing, loads.lines_from_standard_input, loads.larger_copies,
            commands.a_tree_of_sixteen_levels, salvages.damaged_slots, loans.drawing_both, loans.salvages_of_two,
            wears.figures_of_printed_orders, wears.wear_of_a_load, judging.spoilt_lists, words.a_class, films.a_small_film, films.a_film_of_a_list,
            scale.the_same_rights, scale.acknowledged_one_by_one]
    # Files in memory if there is such a place: the tests say nothing of a disk.
    place = tempfile.mkdtemp(prefix="catalogue-", dir="/dev/shm" if roomy("/dev/shm") else None)
    os.chmod(place, 0o755)
    works = [(plain, loads.progress_elsewhere, place)] + [(valgrind, t, place) for t in once]
    works += [(plain, t, place) for t in everything + pages.TESTS + installing.TESTS + instructions.TESTS + disks.TESTS + [questions.no_word_unset] + readers.ONCE + memory.ONCE + scale.ONCE + [files.little_memory, files.little_memory_for_a_salvage]]
    works += [(sanitized, t, place) for t in everything]
    # One more than there are processors: some tests wait for the clock.
    with multiprocessing.Pool(os.cpu_count() + 1) as pool:
        for line, passed in pool.imap(run, works):
            print(line, flush=True)
            if not passed:
                sys.exit(1)
    shutil.rmtree(place)
    print(f"{len(works)} passed, 0 failed")


if __name__ == "__main__":
    main()
