"""Files that are no tables, read-only, in use, or changed by another program meanwhile: a clear error, and the file stays as it is."""
import fcntl
import mmap
import os
import re
import resource
import select
import shutil
import signal
import struct
import subprocess
import time

from drive import *


def reading(t):
    return [["find", t, code(1)], ["list", t], ["check", t], ["show", t], ["orders", t, "add", code(50), 50], ["orders", t, "repair"],
            ["orders", t, "class", code(1), "room"]]


def writing(t, csv):
    return [["add", t, code(50), 50], ["remove", t, code(1)], ["class", t, code(1), "room"], ["repair", t], ["load", t, csv],
            ["add", t, code(50), 50, "--cut", 0]]


def anew(t):
    """Commands that read the table and make a new one."""
    return [["copy", t, f"{t}.made", 4], ["salvage", t, f"{t}.made"]]


def table(program, folder, nodes=4):
    """A small table, and a file to load."""
    t, csv = f"{folder}/t", f"{folder}/csv"
    fill(program, t, nodes, [(code(i), i) for i in range(1, 20)])
    with open(csv, "w") as f:
        f.write(f"{code(60)},60\n")
    return t, csv


def no_tables(program, folder):
    t, csv = table(program, folder)
    good = contents(t)
    header = read_words(t)[:8]

    def with_header(at, word):
        words = read_words(t)
        words[at] = word
        return struct.pack(f"<{len(words)}Q", *words)

    bad = [b"", b"\n", good[:100], good[:319], good[:-1], good[:-8], good[:-256], good + b"\0", good + bytes(8), good + bytes(256)]
    bad += [bytes(len(good)), b"\xff" * len(good), b"code,recording\n" * 68 + b"1234", os.urandom(len(good))]
    # One node more than a table may have.
    bad.append(bytes(8 * (8 + 32 * 65536)))
    bad += [with_header(at, word) for at in range(8) for word in (header[at] + 5, MARK)] + [with_header(1, 0), with_header(2, 0)]
    for data in bad:
        with open(t, "wb") as f:
            f.write(data)
        for words in reading(t) + anew(t) + writing(t, csv):
            program.refuses(NO_TABLE, "is not a table|bytes, but its header says", *words)
    return f"{len(bad)} files"


def other_files(program, folder):
    t, csv = table(program, folder)
    os.mkfifo(f"{folder}/pipe")
    others = [(f"{folder}/none", "there is no file .*catalogue make"), (f"{t}/x", "cannot be opened")]
    others += [(folder, "not an ordinary file|directory"), (f"{folder}/pipe", "not an ordinary file"), ("/dev/null", "not an ordinary file")]
    for path, pattern in others:
        for words in reading(path) + anew(path) + writing(path, csv):
            program.refuses(BAD_FILE, pattern, *words)


def read_only(program, folder):
    t, csv = table(program, folder)
    os.chmod(t, 0o444)
    for words in writing(t, csv):
        program.refuses(BAD_FILE, "is read-only", *words)
    for words in reading(t):
        program.done(*words)
    for words in anew(t):
        program.done(*words)
        os.remove(f"{t}.made")
    if os.geteuid() != 0:
        return None
    # Another user, whom the system refuses; if that user can run the program at all.
    other = {"user": 65534, "group": 65534}
    try:
        program.done("--help", **other)
    except (OSError, subprocess.SubprocessError):
        return None
    os.chmod(t, 0o644)
    os.chmod(folder, 0o755)
    for words in writing(t, csv):
        program.refuses(BAD_FILE, "cannot be opened for writing: Permission denied", *words, **other)
    for words in reading(t):
        program.done(*words, **other)
    for words in anew(t):
        program.refuses(BAD_FILE, "cannot be made: Permission denied", *words, **other)
    os.chmod(t, 0o600)
    for words in reading(t) + anew(t):
        program.refuses(BAD_FILE, "cannot be opened for reading: Permission denied", *words, **other)
    return "also as another user"


def a_folder_that_cannot_be_read(program, folder):
    """A user who may go through the table's folder, and not read it, changes the table all the same."""
    within, other = f"{folder}/within", {"user": 65534, "group": 65534}
    os.mkdir(within)
    t, csv = table(program, within)
    os.chmod(t, 0o666), os.chmod(csv, 0o644), os.chmod(within, 0o711), os.chmod(folder, 0o755)
    if os.geteuid() != 0:
        return "not the superuser"
    try:
        program.done("--help", **other)
    except (OSError, subprocess.SubprocessError):
        return "no other user"
    for words in (["add", t, code(50), 50], ["load", t, csv], ["remove", t, code(1)], ["repair", t]):
        program.done(*words, **other)
    assert [r for _, r in listed(program.done("list", t))] == [*range(2, 20), 50, 60]
    return None


def in_use(program, folder):
    """A table that another writer has locked: a writer is refused, or waits; commands that read take no lock and answer."""
    t, csv = table(program, folder)
    with open(t, "rb") as f:
        for lock in (fcntl.LOCK_EX, fcntl.LOCK_SH):
            fcntl.flock(f, lock)
            for words in reading(t):
                program.done(*words)
            for words in anew(t):
                program.done(*words)
                os.remove(f"{t}.made")
            for words in writing(t, csv):
                program.refuses(BAD_FILE, "is in use by another writer; try again later, or with --wait", *words)


def waiting(program, folder):
    t, csv = table(program, folder)
    with open(t, "rb") as f:
        fcntl.flock(f, fcntl.LOCK_EX)
        run = program.start("add", t, code(50), 50, "--wait", 60, stdout=subprocess.PIPE, stderr=subprocess.PIPE)
        # A reader has nothing to wait for.
        assert program.done("list", t, code(1), code(1), "--wait", 60) == f"{code(1)},1,open\n"
        began = time.monotonic()
        status, _, err = program("repair", t, "--wait=2")
        assert status == BAD_FILE and "waiting for" in err and "is in use" in err and 1.9 < time.monotonic() - began < 30, err
        assert run.poll() is None
        fcntl.flock(f, fcntl.LOCK_UN)
    out, err = run.communicate(timeout=60)
    assert run.returncode == 0 and out.startswith("added "), (out, err)
    assert err == f"catalogue: waiting for {t}, which another program uses\n", err


def a_writer_among_readers(program, folder):
    """Readers hold no writer up, whatever they wait for, and each prints the table of one moment. The readers here print more than a pipe
    takes, and go on once somebody reads that."""
    t, csv = f"{folder}/t", f"{folder}/csv"
    with open(csv, "w") as f:
        f.writelines(f"{code(i)},{i}\n" for i in range(1, 12001))
    program.done("make", t, 1300)
    program.done("load", t, csv)

    def started(*words):
        run = program.start(*words, stdout=subprocess.PIPE, stderr=subprocess.PIPE)
        assert select.select([run.stdout], [], [], 60)[0]
        return run

    readers = []
    for i in range(3):
        readers.append((started("list", t), 12000 + i))
        assert program.done("add", t, code(20000 + i), 20000 + i).startswith("added ")
    for run, count in readers:
        out, err = run.communicate(timeout=60)
        assert run.returncode == 0 and len(out.splitlines()) == count, (len(out.splitlines()), count, err)


def changed_while_it_loads(program, folder, meddle, prepare=lambda t: None):
    """A load that waits for its second line while something happens to the table: its end, and its standard error."""
    t, csv = f"{folder}/t", f"{folder}/csv"
    for path in os.listdir(folder):
        os.remove(f"{folder}/{path}")
    table(program, folder)
    os.remove(csv)
    os.mkfifo(csv)
    prepare(t)
    load = program.start("load", t, csv, "--each", stdout=subprocess.PIPE, stderr=subprocess.PIPE)
    with open(csv, "wb", buffering=0) as lines:
        lines.write(f"{code(60)},60\n".encode())
        assert load.stdout.readline() == f"{code(60)},60,open\n"
        # Past the moment to which some systems round a file's times.
        time.sleep(0.02)
        meddle(t, load.pid)
        after = contents(t)
        try:
            lines.write(f"{code(61)},61\n".encode())
        except BrokenPipeError:
            pass
    out, err = load.stdout.read(), load.stderr.read()
    load.wait()
    check_ending(load.returncode, err, ["load"])
    return load.returncode, out, err, after, contents(t)


def write_at(word, value):
    def meddle(t, _):
        with open(t, "r+b") as f:
            f.seek(8 * word)
            f.write(struct.pack("<Q", value))
    return meddle


def replace(t, _):
    shutil.copy(t, t + ".new")
    os.rename(t + ".new", t)


def changed_meanwhile(program, folder):
    words = 8 + 32 * 4
    meddling = [write_at(word, 77) for word in (0, 1, 5, 8, 20, 8 + 32 * 3, words - 1)]
    meddling += [lambda t, _, w=w: os.truncate(t, 8 * w) for w in (0, words - 32, words + 32)]
    for meddle in meddling:
        status, out, err, before, after = changed_while_it_loads(program, folder, meddle)
        assert status == BAD_FILE and err.count("\n") == 2, (status, err)
        assert "was changed by another program meanwhile" in err and "stopped before line 2" in err, err
        assert out == "1 added, 0 there already\n" and after == before, out
    for meddle in (lambda t, _: os.remove(t), replace):
        status, out, err, before, after = changed_while_it_loads(program, folder, meddle)
        assert status == BAD_FILE and "was removed or replaced by another program" in err and after == before, (status, err)
    # The signal that a mapped file gives once it is shorter.
    status, out, err, before, after = changed_while_it_loads(program, folder, lambda _, pid: os.kill(pid, signal.SIGBUS))
    assert status == BAD_FILE and "was cut short by another program" in err and after == before, (status, err)
    # Nothing happens, or nothing but a new date: both lines are added.
    for meddle in (lambda t, _: None, lambda t, _: os.utime(t, (1, 1))):
        status, out, err, _, _ = changed_while_it_loads(program, folder, meddle)
        assert status == 0 and out == f"{code(61)},61,open\n2 added, 0 there already\n", (status, out, err)

    # While it loads, others are held off, but for searches.
    def others(t, _):
        program.refuses(BAD_FILE, "in use", "add", t, code(70), 70)
        assert program.done("find", t, code(1)) == "1,open\n"
    assert changed_while_it_loads(program, folder, others)[0] == 0
    return f"{len(meddling) + 6} ways"


def changed_by_a_mapping(program, folder):
    """Stores to another program's own mapping do not move the file's times: those to a line that is stored to are noticed before, the
    others at the end."""
    nodes, maps = 4, {}

    def stored(word):
        def meddle(t, _):
            maps[t][8 * word:8 * word + 8] = struct.pack("<Q", 77)
        return meddle

    def mapped(t):
        with open(t, "r+b") as f:
            maps[t] = mmap.mmap(f.fileno(), 0)
        # The page is there for writing from now on.
        maps[t][-8:] = bytes(8)

    status, out, err, before, after = changed_while_it_loads(program, folder, stored(8 + 32 * (nodes - 1)), mapped)
    assert status == BAD_FILE and "was changed by another program meanwhile" in err and "stopped" not in err, (status, err)
    assert out == f"{code(61)},61,open\n2 added, 0 there already\n" and after != before, out
    maps.clear()
    # The line that the next code goes to.
    t = f"{folder}/u"
    fill(program, t, nodes, [(code(i), i) for i in range(1, 20)] + [(code(60), 60)])
    line = next(o[0] for o in orders_of(program.done("orders", t, "add", code(61), 61)) if o) // 8 * 8
    status, out, err, before, after = changed_while_it_loads(program, folder, stored(line), mapped)
    assert status == BAD_FILE and "was changed by another program meanwhile" in err and "stopped before line 2" in err, (status, err)
    assert out == "1 added, 0 there already\n" and after == before, out


def closed_streams(program, folder):
    """A caller that closed standard input, output or error, or all of them: no word of an answer or a message goes into the table."""
    t, csv = table(program, folder)
    with open(csv, "a") as f:
        f.write(f"{code(61)},61\nx\n")
    whole = contents(t)
    commands = reading(t) + anew(t) + writing(t, csv) + [["load", t, csv, "--each"], ["add", t, code(50), 50, "--fast"], ["find", t, code(50)]]
    for words in commands:
        ends = set()
        for closed in ([], [0], [1], [2], [1, 2], [0, 1, 2]):
            with open(t, "wb") as f:
                f.write(whole)
            run = program.start(*words, stdin=subprocess.DEVNULL, stdout=subprocess.DEVNULL, stderr=subprocess.DEVNULL,
                                preexec_fn=lambda: [os.close(stream) for stream in closed])
            run.wait(timeout=120)
            check_ending(run.returncode, "", words)
            ends.add((contents(t), contents(f"{t}.made")))
            if os.path.exists(f"{t}.made"):
                os.remove(f"{t}.made")
            assert run.returncode in (0, ABSENT, BAD_LINE, BAD_FILE), (words, closed, run.returncode)
        assert len(ends) == 1, (words, "a table depends on the streams")


def printed_into_the_table(program, folder):
    """Output or messages that the shell sends to the end of the table's own file: nothing is written there."""
    t, csv = table(program, folder)
    whole = contents(t)
    for words in reading(t) + anew(t) + writing(t, csv):
        for stream in ("stdout", "stderr"):
            with open(t, "ab") as end:
                how = dict({"stdout": subprocess.PIPE, "stderr": subprocess.PIPE, "stdin": subprocess.DEVNULL}, **{stream: end})
                run = program.start(*words, **how)
                out, err = run.communicate(timeout=120)
            check_ending(run.returncode, err or "", words)
            assert run.returncode == BAD_FILE and contents(t) == whole and not os.path.exists(f"{t}.made"), (words, stream, run.returncode)
            assert stream == "stderr" or "is where the answer would be printed" in err, err


def a_disk_that_is_full(program, folder):
    """A table that cannot be written whole is not left behind."""
    def small_files():
        resource.setrlimit(resource.RLIMIT_FSIZE, (1000, 1000))
    how = {"preexec_fn": small_files, "restore_signals": False}
    program.refuses(BAD_FILE, "cannot be written: File too large", "make", f"{folder}/t", 100, **how)
    assert os.listdir(folder) == []


def rights_of_new_files(program, folder):
    """Whoever may read and write a new file is the caller's choice, by its mask; nobody may execute it."""
    t, u = f"{folder}/t", f"{folder}/u"
    fill(program, t, 9, [(code(i), i) for i in range(1, 20)])
    for mask in (0o000, 0o022, 0o077, 0o002):
        for command in (["make", u, 9], ["copy", t, u], ["salvage", t, u], ["list", t, "--output", u]):
            program.done(*command, preexec_fn=lambda: os.umask(mask))
            mode = os.stat(u).st_mode & 0o7777
            assert mode == 0o666 & ~mask, (command, oct(mask), oct(mode))
            os.remove(u)


def little_memory(program, folder):
    """However little memory there is: the answer, or a clear error."""
    t = f"{folder}/t"
    program.done("make", t, 65535)
    program.done("add", t, code(1), 1)
    whole = [(words, program.done(*words)) for words in reading(t)]
    ended = {0: 0, BAD_FILE: 0}
    for megabytes in range(8, 88, 6):
        def limit():
            resource.setrlimit(resource.RLIMIT_AS, (megabytes << 20, megabytes << 20))
        for words, answer in whole:
            status, out, err = program(*words, preexec_fn=limit)
            assert (status, out, err) == (0, answer, "") or status == BAD_FILE and re.fullmatch("catalogue: .*\n", err), (words, status, err)
            ended[status] += 1
    assert all(ended.values()), ended
    return f"{ended[0]} answers, {ended[BAD_FILE]} errors"


def little_memory_for_a_salvage(program, folder):
    """The same, in small steps up to where it is enough: a salvage has the deepest stack."""
    t, u = f"{folder}/t", f"{folder}/u"
    program.done("make", t, 65535)
    program.done("add", t, code(1), 1)

    def ends_with(kilobytes):
        status, out, err = program("salvage", t, u, preexec_fn=lambda: resource.setrlimit(resource.RLIMIT_AS, (kilobytes << 10,) * 2))
        if os.path.exists(u):
            os.remove(u)
        assert status == 0 and err == "" or status == BAD_FILE and out == "" and re.fullmatch("catalogue: .*\n", err), (kilobytes, status, err)
        return status

    few, enough = 8 << 10, 512 << 10
    while enough - few > 256:
        middle = (few + enough) // 2
        few, enough = (few, middle) if ends_with(middle) == 0 else (middle, enough)
    for kilobytes in range(enough - (8 << 10), enough, 256):
        assert ends_with(kilobytes) == BAD_FILE, kilobytes
    return f"from {enough} KB on"


TESTS = [no_tables, other_files, read_only, a_folder_that_cannot_be_read, in_use, waiting, a_writer_among_readers, changed_meanwhile,
         changed_by_a_mapping, closed_streams, printed_into_the_table, a_disk_that_is_full,
         rights_of_new_files]
