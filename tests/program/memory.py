"""Short memory: each allocation of a command that reads fails, by itself and with all after it; and limits of memory and stack."""
import os
import random
import re
import shutil
import subprocess

from drive import *

# Of commands with more allocations, so many are made to fail.
MOST_TRIED = 16


def run(program, words, **environment):
    how = dict(program.environment, LD_PRELOAD=os.environ["ALLOCATIONS_LIBRARY"], **environment)
    return subprocess.run(program.command + [str(w) for w in words], env=how, capture_output=True, text=True, timeout=120)


def tables(program, folder):
    t, list = f"{folder}/t", f"{folder}/list"
    fill(program, t, 60, [(code(i), 1 + i) for i in range(120)])
    with open(list, "w") as f:
        f.write(program.done("orders", t, "add", code(500), 500))
    return t, list


def reading(t, list):
    """Every command that changes nothing."""
    add = ["+", code(500), 500]
    return [["find", t, code(7)], ["find", t, code(700)], ["list", t], ["check", t], ["show", t], ["orders", t, "add", code(500), 500], ["judge", t, list, *add], ["wear", t, list],
            ["wear", t, list, "--svg"], ["film", t, *add], ["film", t, "--list", list, *add], ["film", t, "repair"], ["film", "--drawings"], ["script", 7], ["help"]]


def allocations_that_fail(program, folder):
    """The answer is the whole one with status 0, or there is a message with another; the table is as it was."""
    t, list = tables(program, folder)
    before, counted, tried, chance = contents(t), f"{folder}/counted", 0, random.Random(7)
    for words in reading(t, list):
        good = run(program, words, ALLOCATIONS_COUNTED=counted)
        count = int(contents(counted))
        numbers = range(1, count + 1) if count <= MOST_TRIED else sorted([*range(1, 9), *chance.sample(range(9, count + 1), MOST_TRIED - 8)])
        for number in numbers:
            for after in ({}, {"ALLOCATIONS_AFTER": "1"}):
                got = run(program, words, ALLOCATION=str(number), **after)
                tried += 1
                what = words, number, after, got.returncode, got.stderr
                if got.returncode == good.returncode:
                    assert (got.stdout, got.stderr) == (good.stdout, good.stderr), what
                else:
                    assert got.returncode == BAD_FILE and re.fullmatch("catalogue: [^\n]*memory[^\n]*\n", got.stderr), what
                    assert words[0] == "film" or got.stdout == "", what
                    assert words[0] != "film" or got.stdout == "" or "is not whole" in got.stderr, what
    assert contents(t) == before
    return f"{tried} runs with allocations that failed"


def wear_of_a_load(program, folder):
    """Wear figures that are printed after an allocation failed are those of the lines that were loaded."""
    t, csv, counted = f"{folder}/t", f"{folder}/csv", f"{folder}/counted"
    program.done("make", f"{folder}/empty", 200)

    def load(lines, **environment):
        shutil.copy(f"{folder}/empty", t)
        with open(csv, "w") as f:
            f.writelines(f"{code(i)},{1 + i}\n" for i in range(lines))
        got = run(program, ["load", t, csv, "--wear"], **environment)
        return got, got.stdout.partition("there already\n")[2], len(listed(program.done("list", t)))

    good, figures, _ = load(300, ALLOCATIONS_COUNTED=counted)
    assert good.returncode == 0 and " stores to " in figures, good
    for number in range(1, int(contents(counted)) + 1):
        for after in ({}, {"ALLOCATIONS_AFTER": "1"}):
            got, told, loaded = load(300, ALLOCATION=str(number), **after)
            assert got.returncode >= 0 and (got.returncode != 0 or got.stdout == good.stdout), (number, got)
            assert told == "" or told == (figures if loaded == 300 else load(loaded)[1]), (number, after, loaded, got)


def little_of_each(program, folder):
    """Limits of memory and of the stack: an answer or a message, never a crash."""
    t, list = tables(program, folder)
    statuses = {}
    limits = [f"--as={size << 20}" for size in (5, 7, 10)] + [f"--stack={size << 10}" for size in (64, 320, 2048)]
    for words in reading(t, list):
        status, out, _ = program(*words)
        for limit in limits:
            got = subprocess.run(["prlimit", limit, *program.command, *map(str, words)], capture_output=True, text=True, timeout=120)
            statuses[got.returncode] = statuses.get(got.returncode, 0) + 1
            assert got.returncode in (status, BAD_FILE) and (got.returncode != status or got.stdout == out), (words, limit, got)
            assert got.returncode == status or re.search("not enough memory|the stack is limited|cannot be mapped", got.stderr), (words, limit, got.stderr)
    assert statuses.get(BAD_FILE, 0) >= 20, statuses
    return f"by status: {statuses}"


ONCE = [allocations_that_fail, wear_of_a_load, little_of_each]
