"""Loading: the forms of a line, bad lines, standard input, progress, signals; and tables of other sizes."""
import itertools
import os
import pty
import re
import shutil
import signal
import subprocess
import time

from commands import HUNDRED
from drive import *

NUMBER = "a recording is a whole number from 1 to 72057594037927935"
CLASS = "a class is open, room or closed"
NOT_A_CODE = "not a code, .*"


def write(path, text, encoding="utf-8"):
    with open(path, "w", newline="", encoding=encoding) as f:
        f.write(text)


def stops(program, t, csv, status, told, text, added):
    """Bad lines are printed with their number, field and reason; the lines before the first are in the table, none after it."""
    write(csv, text)
    got, out, err = program("load", t, csv)
    count = f"{len(told)} bad line{'s' if len(told) > 1 else ''}"
    assert (got, out) == (status, f"{added} added, 0 there already, {count}\n"), (text, got, out, err)
    lines = err.splitlines()
    for line, (number, shown, why) in zip(lines, told):
        assert re.fullmatch(f'catalogue: {csv}, line {number}, {shown}: {why}', line), (line, number, shown, why)
    last = f"catalogue: {csv}: {count}; nothing was loaded from line {told[0][0]} on .--keep-going loads the good lines."
    assert len(lines) == len(told) + 1 and re.fullmatch(last, lines[-1]), err


def bad_lines(program, folder):
    t, csv = f"{folder}/t", f"{folder}/csv"
    program.done("make", t, 3)

    def one(status, number, shown, why, text, added):
        stops(program, t, csv, status, [(number, shown, why)], text, added)

    quoted = lambda what, text: f'{what} "{re.escape(text)}"'
    line = lambda text: f'"{re.escape(text)}"'
    one(BAD_LINE, 1, line(code(5)), "the line has no recording", f"{code(5)}\n", 0)
    one(BAD_LINE, 1, line(f"{code(5)},"), "the line has no recording", f"{code(5)},\n", 0)
    one(BAD_LINE, 1, line("x"), "the line has no recording", "x\n", 0)
    one(BAD_RECORDING, 1, quoted("recording", "x"), NUMBER, f"{code(5)},x\n", 0)
    for third in ("6", "0", "shut", "open room"):
        one(BAD_CLASS, 1, quoted("class", third), CLASS, f"{code(5)},5,{third}\n", 0)
    for rest in ("open,open", "open,,,x"):
        one(BAD_LINE, 1, line(f"{code(5)},5,{rest}"), "the line has more fields than .*; --columns says which of them these are", f"{code(5)},5,{rest}\n", 0)
    one(BAD_LINE, 1, line(f'{code(5)},5,"'), "a quote is not closed", f'{code(5)},5,"\n', 0)
    one(BAD_RECORDING, 1, quoted("recording", ""), NUMBER, f"{code(5)},,open\n", 0)
    one(BAD_RECORDING, 1, quoted("recording", "5?"), NUMBER, f"{code(5)},5\0\n", 0)
    one(BAD_RECORDING, 1, quoted("recording", str(2**64)), NUMBER, f"{code(5)},{2**64}\n", 0)
    one(BAD_LINE, 2, line(61 * "x" + ".."), "the line has no recording", f"{code(5)},5\n" + 5000 * "x", 1)
    one(BAD_LINE, 1, line(f"{code(9)},"), "the line is too long", f"{code(9)},{16384 * ' '}12345\n", 0)
    one(NO_CODE, 2, quoted("code", "code"), NOT_A_CODE, f"{code(1)},1\ncode,recording\n", 1)
    one(NO_CODE, 1, quoted("code", "AA00019"), NOT_A_CODE, "AA00019,6\n", 0)
    one(BAD_RECORDING, 2, quoted("recording", "0"), NUMBER, f"{code(6)},6\n{code(7)},0\n{code(8)},8\n", 1)
    one(BAD_RECORDING, 1, quoted("recording", str(2**56)), NUMBER, f"{code(7)},{2**56},room\n", 0)
    one(RECORDING_THERE, 1, quoted("recording", "6"), f"in {t} already, under {code(6)}", f"{code(7)},6\n", 0)
    one(CODE_THERE, 1, quoted("code", code(6)), f"in {t} already", f"{code(6)},7\n", 0)
    another = "already with this recording, and is open .catalogue class changes that."
    one(CODE_THERE, 1, quoted("code", code(6)), f"in {t} {another}", f"{code(6)},6,room\n", 0)
    there = "already with this recording .--again passes over such lines."
    one(CODE_THERE, 2, quoted("code", code(6)), f"in {t} {there}", f"{code(7)},7\n{code(6)},6\n{code(8)},8\n", 1)
    assert program.done("load", t, csv, "--again") == "1 added, 2 there already\n"
    # Every bad line is printed, the first status is the exit status.
    some = [(2, line("x"), "the line has no recording"), (4, quoted("code", "AA1"), NOT_A_CODE), (5, line(","), "the line has no recording")]
    stops(program, t, csv, BAD_LINE, some, f"{code(2)},2\nx\n{code(3)},3\nAA1,4\n,\n{code(4)},4\n", 1)
    program.refuses(BAD_FILE, "cannot be opened", "load", t, f"{folder}/none")
    before = contents(t)
    status, _, err = program("load", t, folder)
    assert status == BAD_FILE and "cannot be read" in err and contents(t) == before, err


def many_bad_lines(program, folder):
    """Twenty are shown, all are counted; --keep-going loads the rest."""
    t, csv = f"{folder}/t", f"{folder}/csv"
    program.done("make", t, 30)
    write(csv, "".join(f"{code(i)},{i if i % 2 else 'x'}\n" for i in range(1, 51)))
    status, out, err = program("load", t, csv)
    assert (status, out) == (BAD_RECORDING, "1 added, 0 there already, 25 bad lines\n"), (status, out)
    assert err.count(', recording "x": a recording is') == 20 and "line 40, " in err and "line 42, " not in err, err
    assert err.endswith(f"{csv}: 25 bad lines, the first 20 shown; nothing was loaded from line 2 on (--keep-going loads the good lines)\n")
    status, out, err = program("load", t, csv, "--keep-going", "--again")
    assert (status, out) == (BAD_RECORDING, "24 added, 1 there already, 25 bad lines\n"), (status, out)
    assert err.count("\n") == 21 and err.endswith(": 25 bad lines, the first 20 shown\n"), err
    assert listed(program.done("list", t)) == [(code(i), i) for i in range(1, 51, 2)]
    # Refusals of single lines are bad lines too; a full table ends the load all the same.
    write(csv, f"{code(1)},9\n{code(60)},0\n{code(61)},3\nAA,1\n{code(62)},62\n")
    status, out, err = program("load", t, csv, "--keep-going")
    assert (status, out) == (CODE_THERE, "1 added, 0 there already, 4 bad lines\n") and err.count("\n") == 4, (status, out, err)
    program.done("make", f"{folder}/u", 1)
    write(csv, "x\n" + "".join(f"{code(i)},{i}\n" for i in range(1, 30)))
    status, out, err = program("load", f"{folder}/u", csv, "--keep-going")
    assert (status, out) == (NO_NODES, "11 added, 0 there already, 1 bad line\n"), (status, out)
    assert err.endswith(f"catalogue: {csv}: stopped before line 13; what came before is kept\n") and "is full" in err, err


def lines_as_people_write_them(program, folder):
    t, csv = f"{folder}/t", f"{folder}/csv"
    rows = [f"{code(1)},1", " AA-000-19-00002 , 2 ", f"{code(3)},003", f'"{code(4)}","4"', f'"aa-000-19-00005",5', f'{code(6)}," 6 "', "",
            "  ", f"\taa 000 19 00007\t,\t7\t", "#5,8", f"{code(8)},9,room", f'"{code(9)}", 10 , " Closed "', f"{code(10)},11,OPEN\t"]
    want = {"#5": "open", **{code(i): "open" for i in range(1, 8)}, code(8): "room", code(9): "closed", code(10): "open"}
    heads = ("", "code,recording\n", "ISRC,Recording,Class\n", '\n"ISRC code","Recording number","Who may hear it"\n')
    files = list(itertools.product(heads, ("utf-8", "utf-8-sig"), ("\n", "\r\n"), (True, False)))
    for head, encoding, end, ended in files if program.quick else files[::5]:
        write(csv, head.replace("\n", end) + end.join(rows) + (end if ended else ""), encoding)
        program.done("make", t, 3)
        assert program.done("load", t, csv) == "11 added, 0 there already\n"
        out = program.done("list", t)
        assert classes_of(out) == want and [r for _, r in listed(out)] == [8, 1, 2, 3, 4, 5, 6, 7, 9, 10, 11], out
        os.remove(t)
    program.done("make", t, 3)
    for text in ("", "\n\r\n", "code,recording\n", "\ufeff"):
        write(csv, text)
        assert program.done("load", t, csv) == "0 added, 0 there already\n"


def lines_from_standard_input(program, folder):
    t = f"{folder}/t"
    program.done("make", t, 40)
    with open(HUNDRED) as lines:
        run = program.start("load", t, "-", stdin=lines, stdout=subprocess.PIPE, stderr=subprocess.PIPE)
        assert run.communicate(timeout=120) == ("100 added, 0 there already\n", "")
    run = program.start("load", t, "-", stdin=subprocess.PIPE, stdout=subprocess.PIPE, stderr=subprocess.PIPE)
    out, err = run.communicate(f"{code(1)},1\nx\n", timeout=120)
    assert run.returncode == BAD_LINE and out == "1 added, 0 there already, 1 bad line\n", (run.returncode, out)
    assert err.startswith('catalogue: standard input, line 2, "x": the line has no recording'), err


def acknowledging(program, folder):
    t = f"{folder}/t"
    program.done("make", t, 40)
    with open(HUNDRED) as f:
        lines = f.read().replace("\n", ",open\n")
    assert program.done("load", t, HUNDRED, "--each") == lines + "100 added, 0 there already\n"
    assert program.done("list", t) == lines
    assert program.done("load", t, HUNDRED, "--each", "--again") == lines + "0 added, 100 there already\n"
    # A line without a class is there already whatever the class is there, and is acknowledged with that one.
    first = lines.split(",")[0]
    program.done("class", t, first, "closed")
    closed = lines.replace(",open", ",closed", 1)
    assert program.done("load", t, HUNDRED, "--each", "--again") == closed + "0 added, 100 there already\n"


def passing_over_what_is_there(program, folder):
    """--again looks a code up before it tries to add it: lines that are there need no sound table, and another recording is still reported."""
    t, csv = f"{folder}/t", f"{folder}/csv"
    fill(program, t, 9, [(code(i), i) for i in range(1, 30)])
    write(csv, "".join(f"{code(i)},{i}\n" for i in range(1, 30)) + f"{code(5)},6\n")
    status, out, err = program("load", t, csv, "--again")
    assert (status, out) == (CODE_THERE, "0 added, 29 there already, 1 bad line\n"), (status, out, err)
    # One with another class is not there already.
    program.done("class", t, code(7), "room")
    write(csv, f"{code(6)},6,open\n{code(7)},7,room\n{code(7)},7\n{code(8)},8,room\n")
    status, out, err = program("load", t, csv, "--again")
    assert (status, out) == (CODE_THERE, "0 added, 3 there already, 1 bad line\n") and "and is open (catalogue class" in err, (status, out, err)
    write(csv, f"{code(1)},1\n")
    words = read_words(t)
    words[8 + 32 * (words[1] - 1) + 4] = 1
    write_words(t, words)
    assert program.done("load", t, csv, "--again") == "0 added, 1 there already\n"
    write(csv, f"{code(50)},50\n")
    status, out, err = program("load", t, csv, "--again")
    assert status == NOT_SOUND and "is not sound" in err and "stopped before line 1" in err and out == "0 added, 0 there already\n", err


def progress_on_a_terminal(program, folder):
    t = f"{folder}/t"
    program.done("make", t, 40)
    ours, theirs = pty.openpty()
    run = program.start("load", t, HUNDRED, "--pause", 1000, stdout=subprocess.PIPE, stderr=theirs, stdin=subprocess.DEVNULL)
    os.close(theirs)
    drawn = ""
    try:
        while part := os.read(ours, 65536):
            drawn += part.decode()
    except OSError:
        pass  # the terminal's other end is closed
    os.close(ours)
    out, _ = run.communicate(timeout=120)
    assert run.returncode == 0 and out == "100 added, 0 there already\n", (run.returncode, out)
    assert drawn.startswith("1 of 100 lines, ") and drawn.endswith("\r\033[K"), drawn
    some = drawn.split("\r")[1:-1]
    assert some and all(re.fullmatch(r"\d+ of 100 lines, \d+(\.\d)? a second(, \d+ s left)?\033\[K", d) for d in some), drawn


def progress_elsewhere(program, folder):
    """A line every ten seconds, with what is known: of a pipe not how many lines there are."""
    t = f"{folder}/t"
    program.done("make", t, 40)
    shutil.copy(t, t + "2")
    began = time.monotonic()
    how = {"stdin": subprocess.PIPE, "stdout": subprocess.PIPE, "stderr": subprocess.PIPE}
    runs = [program.start("load", *words, "--pause", 250000, **how) for words in ((t, HUNDRED), (t + "2", "-"))]
    with open(HUNDRED) as f:
        runs[1].stdin.write(f.read())
        runs[1].stdin.flush()
    for run, all_of_them in zip(runs, (" of 100", "")):
        line = run.stderr.readline()
        name = "standard input" if run == runs[1] else HUNDRED
        left = r", \d+ (s|min) left" if all_of_them else ""
        assert re.fullmatch(rf"catalogue: {name}: \d+{all_of_them} lines, \d+\.\d a second{left}\n", line), line
        assert 9.5 < time.monotonic() - began < 30
        run.send_signal(signal.SIGTERM)
    for run in runs:
        run.communicate(timeout=120)
        assert run.returncode == 128 + signal.SIGTERM


def ended_by_a_signal(program, folder):
    """Between two changes, with a closing line; also while it waits for a line."""
    t, csv = f"{folder}/t", f"{folder}/csv"
    for number in (signal.SIGINT, signal.SIGTERM):
        for waiting in (False, True):
            # With a code in the table it goes by batches.
            fill(program, t, 40, [(code(0), 9999)])
            if waiting:
                run = program.start("load", t, "-", "--each", stdin=subprocess.PIPE, stdout=subprocess.PIPE, stderr=subprocess.PIPE)
                run.stdin.write(f"{code(1)},1\n{code(2)},2\n")
                run.stdin.flush()
            else:
                run = program.start("load", t, HUNDRED, "--each", "--pause", 20000, stdout=subprocess.PIPE, stderr=subprocess.PIPE)
            first = run.stdout.readline() + run.stdout.readline()
            # It waits for the third line, or is in the midst of its orders.
            time.sleep(0.05)
            run.send_signal(number)
            run.wait(timeout=60)
            lines, err = (first + run.stdout.read()).splitlines(), run.stderr.read()
            assert run.returncode == 128 + number and lines[-1] == f"{len(lines) - 1} added, 0 there already", (run.returncode, lines)
            assert re.fullmatch(f"catalogue: .*: ended by a signal after line {len(lines) - 1}; what came before is kept\n", err), err
            assert "settled" in program.done("check", t)
            assert listed(program.done("list", t)) == [(code(0), 9999)] + sorted(listed("\n".join(lines[:-1])))
            run.stdout.close(), run.stderr.close(), run.stdin and run.stdin.close()
            os.remove(t)
    # A signal that the caller has the program ignore is ignored.
    fill(program, t, 40, [(code(0), 9999)])
    run = program.start("load", t, "-", "--each", stdin=subprocess.PIPE, stdout=subprocess.PIPE, stderr=subprocess.PIPE,
                        preexec_fn=lambda: signal.signal(signal.SIGINT, signal.SIG_IGN))
    run.stdin.write(f"{code(1)},1\n")
    run.stdin.flush()
    run.stdout.readline()
    run.send_signal(signal.SIGINT)
    out, _ = run.communicate(f"{code(2)},2\n", timeout=60)
    assert run.returncode == 0 and out == f"{code(2)},2,open\n2 added, 0 there already\n", (run.returncode, out)


def catches(pid, number):
    """Whether a program has said what it does at this signal."""
    with open(f"/proc/{pid}/status") as f:
        caught = next(line for line in f if line.startswith("SigCgt:"))
    return int(caught.split()[1], 16) >> (number - 1) & 1


def a_line_without_an_end(program, folder):
    """The first signal ends the reading of a line that has none, and of a file whose lines are counted first; half a line is none."""
    t, csv = f"{folder}/t", f"{folder}/csv"
    with open(csv, "w") as f:
        f.truncate(1 << 42)
    for lines, there in itertools.product(("/dev/zero", csv), ([], [(code(0), 9999)])):
        for number in (signal.SIGINT, signal.SIGTERM):
            fill(program, t, 40, there)
            run = program.start("load", t, lines, stdout=subprocess.PIPE, stderr=subprocess.PIPE)
            while not catches(run.pid, number):
                time.sleep(0.01)
            time.sleep(0.2)
            run.send_signal(number)
            try:
                out, err = run.communicate(timeout=20)
            finally:
                run.kill()
            assert (run.returncode, out) == (128 + number, "0 added, 0 there already\n"), (lines, run.returncode, out, err)
            assert err == f"catalogue: {lines}: ended by a signal after line 0; what came before is kept\n", err
            assert listed(program.done("list", t)) == there
            os.remove(t)


def what_list_prints_loads_back(program, folder):
    """Sorted input, keys without a code and all, at the advised four codes a node; also the other way round."""
    t, u, csv = f"{folder}/t", f"{folder}/u", f"{folder}/csv"
    count = 800
    pairs = [(f"#{i}", f"{5000 + i},closed") for i in range(1, 40)] + [(code(i), f"{1 + i},{CLASSES[i % 3]}") for i in range(count - 39)]
    for order in (pairs, pairs[::-1]):
        fill(program, t, count // 4, order)
        write(csv, program.done("list", t))
        program.done("make", u, count // 4)
        assert program.done("load", u, csv) == f"{count} added, 0 there already\n"
        assert program.done("list", u) == contents(csv).decode()
        os.remove(t), os.remove(u)


def larger_copies(program, folder):
    """What a cut left unfinished is finished in the copy, the table itself stays as it is."""
    t, u = f"{folder}/t", f"{folder}/u"
    fill(program, t, 3, [(code(10 * i), 100 + i) for i in range(1, 12)])
    linked = 1 + orders_of(program.done("orders", t, "add", code(115), 112)).index((9, 3))
    program.done("add", t, code(115), 112, "--cut", linked)
    before = contents(t)
    assert program.done("copy", t, u, 9) == f"made {u} with 9 nodes\n" and contents(t) == before
    assert program.done("check", u) == f"{u} is settled: 11 codes in 1 of 9 nodes, 8 free\n"
    assert program.done("list", u) == program.done("list", t)


def copies_of_all_sorts(program, folder):
    t, u, csv = f"{folder}/t", f"{folder}/u", f"{folder}/csv"
    fill(program, t, 1, [(code(10 * i), 100 + i) for i in range(1, 12)])
    program.refuses(NO_TABLE, "1 to 65535 nodes", "copy", t, u, "many")
    program.refuses(NO_TABLE, "1 to 65535 nodes", "copy", t, u, 0)
    program.refuses(NO_TABLE, "1 to 65535 nodes, not 65536", "copy", t, u, 65536)
    program.refuses(BAD_FILE, "exists already and stays", "copy", t, t, 5)
    program.refuses(BAD_FILE, "there is no file", "copy", f"{folder}/none", u, 5)
    assert not os.path.exists(u)
    # A full table: its copy takes more codes.
    program.refuses(NO_NODES, "catalogue copy", "add", t, code(5), 5)
    program.done("copy", t, u, 40)
    write(csv, "".join(f"{code(i)},{i}\n" for i in range(1, 60) if i % 10))
    program.done("load", u, csv)
    assert listed(program.done("list", u))[:3] == [(code(1), 1), (code(2), 2), (code(3), 3)]
    # 65 codes want 6 leaves and a root: that many, or more, and no fewer.
    assert program.done("copy", u, f"{folder}/least") == f"made {folder}/least with 7 nodes\n"
    assert program.done("check", f"{folder}/least") == f"{folder}/least is settled: 65 codes in 7 of 7 nodes, 0 free\n"
    program.done("copy", u, f"{folder}/seven", 7)
    assert contents(f"{folder}/seven") == contents(f"{folder}/least")
    program.refuses(NO_NODES, "codes of .*u, packed, take 7 nodes, more than 6$", "copy", u, f"{folder}/v", 6)
    # A copy of a packed table has its words.
    program.done("copy", f"{folder}/least", f"{folder}/again")
    assert contents(f"{folder}/again") == contents(f"{folder}/least")
    words = read_words(u)
    words[8 + 4] = 1
    write_words(u, words)
    program.refuses(NOT_SOUND, "is not sound", "copy", u, f"{folder}/v", 50)


TESTS = [bad_lines, many_bad_lines, lines_as_people_write_them, lines_from_standard_input, acknowledging, passing_over_what_is_there,
         progress_on_a_terminal, ended_by_a_signal, a_line_without_an_end, what_list_prints_loads_back, larger_copies, copies_of_all_sorts]
