"""Many questions in one find, by code and by recording; the exit status of each mistake; guesses at mistyped words."""
import json
import os
import shutil
import subprocess

from drive import *


def piped(program, text, *words):
    """Exit status, standard output and standard error of a command that reads this text."""
    run = program.start(*words, stdin=subprocess.PIPE, stdout=subprocess.PIPE, stderr=subprocess.PIPE)
    out, err = run.communicate(text, timeout=120)
    check_ending(run.returncode, err, words)
    return run.returncode, out, err


def many_codes(program, folder):
    """Of several codes each answer names its code; those that are absent go to standard error, and the others are answered all the same."""
    t = f"{folder}/t"
    fill(program, t, 9, [(code(i), f"{100 + i},{CLASSES[i % 3]}") for i in range(1, 40)])
    line = lambda i: f"{code(i)},{100 + i},{CLASSES[i % 3]}\n"
    assert program.done("find", t, code(7)) == "107,room\n"
    assert program.done("find", t, code(7), code(3), "aa-000-19-00007") == line(7) + line(3) + line(7)
    assert program.done("find", t, *[code(i) for i in range(39, 0, -1)]) == "".join(map(line, range(39, 0, -1)))
    status, out, err = program("find", t, code(1), code(40), code(2), code(41))
    assert (status, out) == (ABSENT, line(1) + line(2)), (status, out, err)
    assert err == "".join(f"catalogue: {code(i)} is not in {t}, and no code there is higher\n" for i in (40, 41)), err
    status, out, err = program("find", t, "x", code(1))
    assert (status, out) == (NO_CODE, line(1)) and err.startswith("catalogue: x: not a code, "), (status, out, err)
    # From standard input: a line each, empty ones passed over.
    assert piped(program, f"{code(5)}\n\n  \n AA-000-19-00006 \r\n{code(7)}", "find", t, "-") == (0, line(5) + line(6) + line(7), "")
    assert piped(program, "", "find", t, "-") == (0, "", "")
    assert piped(program, f"{code(5)}\n", "find", t, "-") == (0, line(5), "")
    status, out, err = piped(program, f"{code(50)}\n{code(5)}\n", "find", t, "-")
    assert (status, out) == (ABSENT, line(5)) and f"{code(50)} is not in {t}" in err, (status, out, err)


def a_next_code_far_away(program, folder):
    """The next code up is found however many empty leaves are between: a table whose codes are all removed but the first and the last keeps the
    leaf of each parent that is its leftmost child. In either collection."""
    t, count = f"{folder}/t", 300
    for named in ([], naming(2)):
        pairs = [(code(2 * i), 1 + i) for i in range(count)]
        fill(program, t, 120, *([pairs] if not named else [[], pairs]))
        gone = pairs[1:-1]
        for c, _ in gone:
            program.done("remove", t, c, *named)
        assert len(listed(program.done("list", t, *named))) == 2 and "settled" in program.done("check", t)
        leaves = max(part.count("\n  node ") for part in program.done("show", t).split("level 0:")[1:])
        assert leaves >= 8, leaves
        for i in (1, 2, 101, 2 * count - 3):
            status, out, err = program("find", t, code(i), *named)
            assert (status, out) == (ABSENT, "") and f"the next code up is {code(2 * count - 2)}\n" in err, (i, status, out, err)
        assert program("find", t, code(2 * count - 1), *named)[0] == ABSENT
        os.remove(t)
    return f"{leaves} leaves"


def no_word_unset(program, folder):
    """What a find prints depends on no word that was never set: codes that are there and absent ones, in either collection, one and several."""
    if not shutil.which("valgrind"):
        return "valgrind is not there"
    t = f"{folder}/t"
    fill(program, t, 9, [(code(i), f"{100 + i},{CLASSES[i % 3]}") for i in range(1, 40)], [(code(i), i) for i in range(1, 5)])
    watched = Program(["valgrind", "-q", f"--error-exitcode={FOUND_SOMETHING}", program.command[-1]], "under valgrind", False)
    for words in ([code(7)], [code(7), code(50)], [code(3), *naming(2)], [code(9), *naming(2)], ["--recording", 105], [code(7), "--json"], [code(50), "--json"]):
        watched("find", t, *words)
    return "under valgrind"


def answers_before_the_next_question(program, folder):
    """Whoever writes a code to a pipe and waits for its answer gets it."""
    t = f"{folder}/t"
    fill(program, t, 9, [(code(i), i) for i in range(1, 30)])
    run = program.start("find", t, "-", stdin=subprocess.PIPE, stdout=subprocess.PIPE, stderr=subprocess.PIPE)
    for i in (3, 29, 1):
        run.stdin.write(f"{code(i)}\n")
        run.stdin.flush()
        assert run.stdout.readline() == f"{code(i)},{i},open\n"
    run.stdin.write(f"{code(77)}\n")
    run.stdin.flush()
    assert "is not in" in run.stderr.readline()
    out, err = run.communicate(timeout=60)
    assert (run.returncode, out, err) == (ABSENT, "", ""), (run.returncode, out, err)


def the_status_of_an_absent_code(program, folder):
    """1, or what --absent says; damage counts before it, in whatever order they come."""
    t = f"{folder}/t"
    fill(program, t, 4, [(code(i), 70 + i) for i in range(5)])
    for status in (0, 2, 255):
        got, out, err = program("find", t, code(9), "--absent", status)
        assert (got, out) == (status, "") and f"{code(9)} is not in {t}" in err, (status, got, err)
        assert program("find", t, code(9), code(1), f"--absent={status}")[:2] == (status, f"{code(1)},71,open\n")
    assert program("find", t, "x", "--absent", 255)[0] == NO_CODE
    for status in ("", "x", "-1", 256, 2**64):
        program.refuses(BAD_USAGE, "--absent takes a number from 0 to 255", "find", t, code(1), f"--absent={status}")
    words = read_words(t)
    at = words.index(key(code(2))) + 1
    write_words(t, words[:at] + [9 << 56 | 77] + words[at + 1:])
    for codes in ([9, 2], [2, 9], [1, 2], [9, 2, 1]):
        assert program("find", t, *map(code, codes), "--absent", 255)[0] == NOT_SOUND, codes
    # xargs goes on after an absent code, and stops at once after 255.
    for words, answers in (([], 2), (["--absent", "255"], 0)):
        run = subprocess.run(["xargs", "-n1", *program.command, "find", *words, t], input=f"{code(9)}\n{code(1)}\n{code(0)}\n", text=True,
                             capture_output=True, env=program.environment)
        assert run.stdout.count(",open\n") == answers, (words, run)


def by_recording(program, folder):
    t = f"{folder}/t"
    fill(program, t, 30, [(code(3 * i % 101), f"{1000 - i},{CLASSES[i % 3]}") for i in range(100)], [(code(7), 1000)])
    for i in (0, 1, 50, 99):
        assert program.done("find", t, "--recording", 1000 - i) == f"{code(3 * i % 101)},{CLASSES[i % 3]}\n"
    assert program.done("find", t, "--recording", 1000, *naming(2)) == f"{code(7)},open\n"
    assert program.done("find", t, "--recording", 999, 901) == f"{code(3)},999,room\n{code(297 % 101)},901,open\n"
    assert piped(program, "999\n1000\n", "find", t, "-", "--recording") == (0, f"{code(3)},999,room\n{code(0)},1000,open\n", "")
    program.refuses(ABSENT, f"^catalogue: recording 5 is not in collection 1 of {t}$", "find", t, "--recording", 5)
    for recording in (0, "x", "", 2**56, 2**64, "1.0"):
        program.refuses(BAD_RECORDING, "a recording is a whole number from 1 to", "find", t, "--recording", recording)
    status, out, _ = program("find", t, "--recording", 5, 1000, "--absent", 255)
    assert (status, out) == (255, f"{code(0)},1000,open\n"), (status, out)
    words = read_words(t)
    write_words(t, words[:12] + [5] + words[13:])
    program.refuses(NOT_SOUND, "is not sound", "find", t, "--recording", 1000)


def one_mistake_one_status(program, folder):
    """However it is written, and wherever: on the command line or in a file."""
    t, csv = f"{folder}/t", f"{folder}/csv"
    fill(program, t, 9, [(code(1), 1)])

    def loaded(line):
        with open(csv, "w") as f:
            f.write(f"{code(2)},2\n{line}\n")
        return program("load", t, csv, "--keep-going", "--again")[0]

    for recording in (0, 2**56, 2**63, 2**64, 10**30, "x", "-1", "1.5"):
        for words in (["add", t, code(5), recording], ["orders", t, "add", code(5), recording], ["film", t, "+", code(5), recording]):
            program.refuses(BAD_RECORDING, "a recording is a whole number from 1 to 72057594037927935", *words)
        assert loaded(f"{code(5)},{recording}") == BAD_RECORDING, recording
    for access in ("shut", "1", "openly"):
        for words in (["add", t, code(5), 5, access], ["class", t, code(1), access], ["orders", t, "class", code(1), access], ["film", t, "+", code(5), 5, access]):
            program.refuses(BAD_CLASS, "a class is open, room or closed", *words)
        assert loaded(f"{code(5)},5,{access}") == BAD_CLASS, access
    for number in (1555, 2**64, "x"):
        program.refuses(NO_SCRIPT, "the scripts have the numbers 0 to 1554", "script", number)
    for nodes in (0, 65536, 2**64, "x"):
        program.refuses(NO_TABLE, "1 to 65535 nodes", "make", f"{folder}/u", nodes)
        program.refuses(NO_TABLE, "1 to 65535 nodes", "copy", t, f"{folder}/u", nodes)
    for word in ("x", "#x", f"#{2**64}"):
        for words in (["find", t, word], ["remove", t, word], ["add", t, word, 5]):
            program.refuses(NO_CODE, "not a code", *words)
        assert loaded(f"{word},5") == NO_CODE


def guesses(program, folder):
    """A word that is near a command or an option, that begins one, or that other programs use; and words that are near none."""
    t = f"{folder}/t"
    program.done("make", t, 2)
    for typed, meant in (("fnid", "find"), ("lst", "list"), ("chek", "check"), ("sal", "salvage"), ("salvaeg", "salvage"), ("delete", "remove"),
                         ("insert", "add"), ("search", "find"), ("import", "load"), ("repiar", "repair"), ("Remove", "remove")):
        program.refuses(BAD_USAGE, f"^catalogue: there is no command {typed}; did you mean {meant}[?] .catalogue --help lists them.$", typed, t)
        program.refuses(BAD_USAGE, f"did you mean {meant}[?]", "help", typed)
    for typed in ("fly", "x", "frobnicate", "l", 200 * "f", "", "ä"):
        program.refuses(BAD_USAGE, r"^catalogue: there is no command .{0,40} .catalogue --help lists them.$", typed, t)
    for typed, meant in (("--agian", "--again"), ("--keep", "--keep-going"), ("--collections=2", "--collection"), ("--colection", "--collection"),
                         ("--wiat=3", "--wait")):
        program.refuses(BAD_USAGE, f"there is no option {typed}; did you mean {meant}[?]", "load", t, "x", typed)
    program.refuses(BAD_USAGE, r"there is no option --frobnicate \(catalogue --help lists them\)$", "load", t, "x", "--frobnicate")


TESTS = [many_codes, answers_before_the_next_question, the_status_of_an_absent_code, by_recording, one_mistake_one_status, guesses,
         a_next_code_far_away]
