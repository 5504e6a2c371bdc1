"""A table kept open for typed commands: at a pseudo-terminal, with each editing library that is installed and with none, and from a pipe."""
import ctypes
import os
import pty
import re
import select
import shutil
import signal
import subprocess
import time

from drive import *

EDITORS = []
for name in ("libreadline.so.8", "libedit.so.2"):
    try:
        ctypes.CDLL(name)
        EDITORS.append(name)
    except OSError:
        pass
UP = "\033[A"


class Terminal:
    """The program at a terminal of its own."""

    def __init__(self, program, *words, editor="none", history="", cwd=None):
        ours, theirs = pty.openpty()
        environment = dict(program.environment, TERM="xterm", CATALOGUE_EDITOR=editor, CATALOGUE_HISTORY=history, INPUTRC="/dev/null",
                           EDITRC="/dev/null", HOME="/nowhere", LC_ALL="C")

        def own_terminal():
            os.setsid()
            os.close(os.open(os.ttyname(0), os.O_RDWR))
        self.run = subprocess.Popen(program.command + [str(w) for w in words], env=environment, stdin=theirs, stdout=theirs, stderr=theirs, cwd=cwd,
                                    preexec_fn=own_terminal)
        os.close(theirs)
        self.ours, self.seen = ours, ""

    def expect(self, pattern, seconds=60):
        """What came up to the end of the first match."""
        end = time.monotonic() + seconds
        while not (match := re.search(pattern, self.plain())):
            assert time.monotonic() < end and select.select([self.ours], [], [], seconds)[0], (pattern, self.seen)
            try:
                part = os.read(self.ours, 65536).decode("utf-8", "replace")
            except OSError:
                part = ""
            assert part, (pattern, self.seen)
            self.seen += part
        found = self.plain()[:match.end()]
        self.seen = self.plain()[match.end():]
        return found

    def plain(self):
        """What is on the screen: a backspace takes a character away, other movements of the cursor are passed over."""
        text, before = re.sub(r"\033\[[?]?[0-9;]*[a-zA-Z]|\r|\a", "", self.seen), None
        while text != before:
            text, before = re.sub("[^\b\n]\b", "", text), text
        return text

    def type(self, text):
        os.write(self.ours, text.encode())

    def interrupt(self):
        """ctrl-C, and the next prompt. An editor that is still drawing may lose one; a person presses again."""
        for _ in range(5):
            self.type("\x03")
            try:
                self.expect("> ", 10)
                return
            except AssertionError:
                pass
        raise AssertionError(("no prompt after ctrl-C", self.seen))

    def asks(self, line, answer):
        """A line, and its answer before the next prompt."""
        self.type(line + "\n")
        self.expect(answer)
        self.expect("> ")

    def ends(self):
        self.type("quit\n")
        try:
            while os.read(self.ours, 65536):
                pass
        except OSError:
            pass
        os.close(self.ours)
        assert self.run.wait(timeout=60) == 0, self.run.returncode


def table(program, folder):
    t = f"{folder}/room.cat"
    fill(program, t, 60, [(code(10 * i), 100 + i) for i in range(1, 30)] + [("GBAYE6800011", 7), ("GBAYE6800012", 8)])
    return t


def completion(program, folder):
    """Commands, options of the command, codes of the table, classes and file names."""
    t = table(program, folder)
    open(f"{folder}/lines.csv", "w").write(f"{code(5)},5\n")
    for editor in EDITORS:
        s = Terminal(program, "room.cat", editor=editor, cwd=folder)
        s.expect("room.cat> ")
        s.asks("fin\tGB-AYE-68-00011", "GB-AYE-68-00011\n7,open\n")
        s.asks("find gb\t1", r"GBAYE6800011\n7,open\n")
        s.type("remove GB\t\t\t")
        s.expect(r"GBAYE6800011 +GBAYE6800012")
        s.expect("> remove GBAYE680001")
        # Past what is still drawn: an editor takes no interrupt then.
        time.sleep(0.5)
        s.type("\x03")
        s.expect("> $")
        s.asks("class GBAYE6800012 cl\t", r"class of GBAYE6800012 is closed")
        s.asks("load lin\t--ag\t", "(1 added, 0|0 added, 1) there already\n")
        s.asks("lis\tGB\t1 --hea\t", "code,recording,class\nGBAYE6800011,7,open\n")
        # No option that the command has not, and no file name for a code.
        s.type("find --ke\t\n")
        s.expect("no option --ke;")
        s.expect("> ")
        s.type("find roo\t\n")
        s.expect("roo: not a code")
        s.expect("> ")
        s.ends()
    return ", ".join(EDITORS) or "no editor is installed"


def history(program, folder):
    """The arrow brings the last lines back, also those of the session before."""
    t, kept = table(program, folder), f"{folder}/history"
    for editor in EDITORS:
        s = Terminal(program, t, editor=editor, history=kept)
        s.expect("> ")
        s.asks(f"find {code(10)}", "101,open\n")
        s.asks(f"find {code(20)}", "102,open\n")
        s.asks(UP, "102,open\n")
        s.asks(UP + UP + UP, "101,open\n")
        s.ends()
        s = Terminal(program, t, editor=editor, history=kept)
        s.expect("> ")
        s.asks(UP + UP, f"find {code(10)}\n101,open\n")
        s.ends()
        os.remove(kept)


def interrupts(program, folder):
    """ctrl-C gives up the line that is typed, or ends the command that runs, and the session goes on."""
    t = table(program, folder)
    for editor in EDITORS + ["none"]:
        s = Terminal(program, t, editor=editor)
        s.expect("> ")
        s.type("remove " + code(10))
        s.expect(code(10))
        s.interrupt()
        s.asks("", "")
        s.asks(f"find {code(10)}", "101,open\n")
        # While a change waits before its orders, while a load waits for a line, and while find does.
        for line, begun in ((f"add {code(5)} 5 --pause 20000000", None), ("load -", None), ("find -", None)):
            s.type(line + "\n")
            s.expect(re.escape(line) + "\n")
            time.sleep(0.5)
            s.interrupt()
            s.asks(f"find {code(10)}", "101,open\n")
        s.asks("repair", "repaired|nothing to repair")
        s.asks(f"find {code(5)}", "is not in")
        s.type("\x04") if editor != "none" else s.type("quit\n")
        assert s.run.wait(timeout=60) == 0
        os.close(s.ours)
    assert "settled" in program.done("check", t)


def a_file_that_is_replaced(program, folder):
    """By another table, by nothing, by no table and by a load of another program: the next answer is of what is there then, and says so."""
    t, other = table(program, folder), f"{folder}/other"
    fill(program, other, 9, [(code(10), 9999)])
    whole = contents(t)
    for editor in EDITORS + ["none"]:
        s = Terminal(program, t, editor=editor)
        s.expect("> ")
        s.asks(f"find {code(10)}", "101,open\n")
        shutil.copy(other, f"{folder}/new")
        os.rename(f"{folder}/new", t)
        s.asks(f"find {code(10)}", f"catalogue: {t} is another file now: the answers are about that one\n9999,open\n")
        s.asks(f"find {code(10)}", f"\n9999,open\n")
        os.remove(t)
        s.asks(f"find {code(10)}", f"there is no file {t}")
        s.asks("check", f"there is no file {t}")
        with open(t, "wb") as f:
            f.write(b"no table")
        s.asks(f"find {code(10)}", "is not a table")
        with open(f"{folder}/new", "wb") as f:
            f.write(whole)
        os.rename(f"{folder}/new", t)
        s.asks(f"find {code(10)}", "101,open\n")
        # Codes that others add are found at once.
        program.done("add", t, code(777), 777)
        s.asks(f"find {code(777)}", "\n777,open\n")
        s.ends()
        with open(t, "wb") as f:
            f.write(whole)


def a_load_of_its_own(program, folder):
    """A load in the session puts a new file in the table's place: that is no news, and the codes are found."""
    t, csv = f"{folder}/t", f"{folder}/csv"
    program.done("make", t, 60)
    with open(csv, "w") as f:
        f.writelines(f"{code(i)},{i}\n" for i in range(1, 200))
    before = os.stat(t).st_ino
    status, out, err = typed(program, t, f"find {code(7)}\nload {csv}\nfind {code(7)}\nadd {code(500)} 500\nfind {code(500)} {code(8)}\n")
    assert os.stat(t).st_ino != before and status == ABSENT, status
    assert out == f"199 added, 0 there already\n7,open\nadded {code(500)},500,open (" + out.split("500,open (")[1].split("\n")[0] + f"\n{code(500)},500,open\n{code(8)},8,open\n", out
    assert err == f"catalogue: {code(7)} is not in {t}, and no code there is higher\n", err


def typed(program, t, text):
    run = program.start(t, stdin=subprocess.PIPE, stdout=subprocess.PIPE, stderr=subprocess.PIPE)
    out, err = run.communicate(text, timeout=300)
    check_ending(run.returncode, err, [t])
    return run.returncode, out, err


def lines_from_a_pipe(program, folder):
    """Commands as on the command line, without the table's name or with it; quotes; the first failure's status; nothing is read as an answer."""
    t = table(program, folder)
    assert typed(program, t, f"find {code(10)}\n\n  find  '{code(20)}'  \nfind {t} {code(30)}\n") == (0, "101,open\n102,open\n103,open\n", "")
    assert typed(program, t, f'find "AA-000 19 00010" AA-000\\ 19\\ 00020') == (0, f"{code(10)},101,open\n{code(20)},102,open\n", "")
    assert typed(program, t, "") == (0, "", "")
    assert typed(program, t, f"quit\nfind {code(10)}\n") == (0, "", "") == typed(program, t, f"exit\nremove {code(10)}\n")
    assert typed(program, t, "check\nstat --json\n")[1] == program.done("check", t) + program.done("stat", t, "--json")
    assert typed(program, t, "list AA\nlist --from GBAYE6800011\n")[1] == program.done("list", t)
    assert typed(program, t, "help find\n--version\n")[1] == program.done("help", "find") + program.done("--version")
    for line, status, said in (("find", BAD_USAGE, "usage: catalogue find TABLE"), ("fnd x", BAD_USAGE, "did you mean find"), ("find 'x", BAD_USAGE, "a quote is not closed"),
                               (f"add {code(1)} 101", RECORDING_THERE, f"under {code(10)}"), (f"find {code(1)} --collection 2", NO_COLLECTION, "no collection 2"),
                               (f"find {code(1)} --agian", BAD_USAGE, "did you mean --again"), ("find -", 0, "")):
        got, out, err = typed(program, t, f"{line}\nfind {code(10)}\n")
        assert (got, out) == (status, "101,open\n") and said in err, (line, got, out, err)
    made = f"{folder}/made"
    assert typed(program, t, f"make {made} 3\ncopy {made}2\nfilm --drawings -o {made}.html\n")[:2] == (0, f"made {made} with 3 nodes\nmade {made}2 with 4 nodes\n")
    assert all(map(os.path.exists, (made, f"{made}2", f"{made}.html")))
    # What is no command and no file, or no table.
    program.refuses(BAD_FILE, "there is no file .*none.cat .to make one: catalogue make", f"{folder}/none.cat")
    program.refuses(BAD_USAGE, "there is no command chek; did you mean check[?]", "chek")
    program.refuses(NO_TABLE, "is not a table", f"{made}.html")
    program.refuses(BAD_FILE, "not an ordinary file", folder)


def finds_in_microseconds(program, folder):
    """The table is opened once: a hundred thousand finds from a pipe."""
    t, csv = f"{folder}/t", f"{folder}/csv"
    with open(csv, "w") as f:
        f.writelines(f"{code(i)},{i}\n" for i in range(1, 50001))
    program.done("make", t, 6000)
    program.done("load", t, csv)
    count = 100000 if program.quick else 2000
    text = "".join(f"find {code(1 + 7919 * i % 50000)}\n" for i in range(count))
    began = time.monotonic()
    status, out, err = typed(program, t, text)
    seconds = time.monotonic() - began
    assert (status, err) == (0, "") and out == "".join(f"{1 + 7919 * i % 50000},open\n" for i in range(count))
    # A process for each would take longer by far.
    assert not program.quick or seconds < 20, seconds
    return f"{1e6 * seconds / count:.1f} microseconds each"


TESTS = [completion, history, interrupts, a_file_that_is_replaced, a_load_of_its_own, lines_from_a_pipe, finds_in_microseconds]
