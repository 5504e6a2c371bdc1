"""Request 10: find takes no lock and runs while another program loads; a search of damaged words, and of the largest table."""
import json
import re
import resource
import subprocess

from drive import *

# Codes that are in the table before, that a load adds, and that are never there.
OLD, NEW, NEVER = range(0, 90, 3), range(1, 900, 3), range(2, 900, 3)


def recording(i):
    return 1000 + i


def finds_while_it_loads(program, folder):
    """A code that was there is found all the while, one that is loaded is absent until it is found, and each with its own recording."""
    t, csv = f"{folder}/t", f"{folder}/csv"
    fill(program, t, 200, [(code(i), recording(i)) for i in OLD])
    with open(csv, "w") as f:
        f.writelines(f"{code(i)},{recording(i)}\n" for i in NEW)
    load = program.start("load", t, csv, "--pause", 300, stdout=subprocess.PIPE, stderr=subprocess.PIPE)
    found, absent, there = 0, 0, set()
    rounds = 0
    while load.poll() is None:
        rounds += 1
        for i, comes in ((OLD[rounds % len(OLD)], True), (NEW[7 * rounds % len(NEW)], None), (NEVER[rounds % len(NEVER)], False)):
            status, out, err = program("find", t, code(i))
            if load.poll() is not None:
                break
            if status == 0:
                assert out == f"{recording(i)},open\n" and comes is not False, (i, out)
                there.add(i)
                found += 1
            else:
                assert status == ABSENT and f"{code(i)} is not in " in err and comes is not True and i not in there, (i, status, err)
                absent += 1
    out, err = load.communicate()
    check_ending(load.returncode, err, ["load"])
    assert load.returncode == 0 and out == f"{len(NEW)} added, 0 there already\n", (out, err)
    assert found >= 5 and absent >= 5, (found, absent)
    assert len(listed(program.done("list", t))) == len(OLD) + len(NEW)
    return f"{found} found and {absent} absent while it loaded"


def whole_tables_while_it_loads(program, folder):
    """list, check, show, stat and a search by recording beside a load: each has the table of one moment, so that of the lines that are loaded
    one after another, in no order of the codes, a first part is there and nothing else."""
    t, csv = f"{folder}/t", f"{folder}/csv"
    fill(program, t, 400, [(code(i), recording(i)) for i in OLD])
    order = [NEW[7 * i % len(NEW)] for i in range(len(NEW))]
    with open(csv, "w") as f:
        f.writelines(f"{code(i)},{recording(i)}\n" for i in order)
    load = program.start("load", t, csv, "--pause", 200, stdout=subprocess.PIPE, stderr=subprocess.PIPE)
    seen, states = [], set()
    while load.poll() is None:
        there = {i for i in (int(c[7:]) for c, _ in listed(program.done("list", t)))}
        count = len(there) - len(OLD)
        assert there == set(OLD) | set(order[:count]) and count >= (seen[-1] if seen else 0), "no moment of the load"
        seen.append(count)
        state = json.loads(program.done("check", t, "--json"))
        states.add(state["state"])
        assert seen[-1] <= state["codes"] - len(OLD) <= len(NEW), state
        assert re.match(rf"{t} is (settled|sound): \d+ codes in ", program.done("show", t))
        assert program.done("find", t, "--recording", recording(OLD[3])) == f"{code(OLD[3])},open\n"
    out, err = load.communicate()
    check_ending(load.returncode, err, ["load"])
    assert load.returncode == 0 and out == f"{len(NEW)} added, 0 there already\n", (out, err)
    between = sorted({count for count in seen if 0 < count < len(NEW)})
    assert len(between) >= 3, seen
    return f"{len(seen)} moments, {len(between)} of them in the midst of the load, {' and '.join(sorted(states))}"


def looked_at_once(program, folder):
    """A word of a table cannot stand for the mark of a node that was not looked at: each node in turn with every bit of its level set, and
    others of its words; and a chain of inner nodes whose sibling is such a node. A code that is found has its own recording."""
    t, bad = f"{folder}/t", f"{folder}/bad"
    fill(program, t, 12, [(code(i), recording(i)) for i in range(40)])
    words = read_words(t)
    statuses = set()
    for node in range(1, words[2] + 1):
        for word, value in ((2, MARK), (1, node), (1, node % words[2] + 1), (3, MARK)):
            at = 8 + 32 * (node - 1) + word
            write_words(bad, words[:at] + [value] + words[at + 1:])
            for i in range(0, 40, 1 if program.quick and word == 2 else 13):
                status, out, _ = program("find", bad, code(i))
                assert status in (0, LOST, ABSENT) and (status != 0 or out == f"{recording(i)},open\n"), (node, word, i, status, out)
                statuses.add(status)
    assert statuses >= {0, LOST}, statuses
    for nodes in (2, 3, 12, 200):
        chain = [1, 1, nodes] + 5 * [0]
        for n in range(1, nodes):
            chain += [n + 1, nodes, nodes - n, 0] + 28 * [0]
        write_words(bad, chain + [0, 0, MARK, MARK] + 28 * [0])
        program.refuses(LOST, "damaged on the way to #5", "find", bad, "#5")


def faults(program, *words):
    """The page faults of a command that succeeds."""
    before = resource.getrusage(resource.RUSAGE_CHILDREN).ru_minflt
    program.done(*words)
    return resource.getrusage(resource.RUSAGE_CHILDREN).ru_minflt - before


def few_pages(program, folder):
    """A find in the largest table touches the pages of its way, and no others: some dozens, of 4,096 that the table has."""
    t, csv = f"{folder}/t", f"{folder}/csv"
    program.done("make", t, 65535)
    with open(csv, "w") as f:
        f.writelines(f"AA0{i % 100:02}{i // 100:07},{i + 1}\n" for i in range(100000))
    program.done("load", t, csv)
    least = faults(program, "--version")
    most = max(faults(program, "find", t, f"AA0{i % 100:02}{i // 100:07}") for i in range(0, 100000, 9973))
    assert most < least + 150, (least, most)
    return f"{most} page faults, of which {least} are the program's start"


TESTS = [finds_while_it_loads, whole_tables_while_it_loads, looked_at_once]
ONCE = [few_pages]
