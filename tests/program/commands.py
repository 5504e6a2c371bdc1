"""Every command, and every refusal that a user can cause."""
import os
import re
import shutil
import signal
import struct
import subprocess

from drive import *

SHELL = os.path.join(os.path.dirname(os.path.abspath(__file__)), "..", "..", "shell")
HUNDRED = os.path.join(SHELL, "hundred.csv")
# A table and its listing, by the program as it was before there were classes.
BEFORE = os.path.join(os.path.dirname(os.path.abspath(__file__)), "before_classes")


COMMANDS = "make add remove class find list load repair copy salvage orders judge film wear check sums scrub stat show key script help".split()
OPTIONS = "--loan --collection --recording --absent --json --header --schema --from --to --output --nodes --root --loan-root --again --keep-going --columns --each --wear --svg --list --drawings --data --words --cut --dock --force --wait --fast --flush --pause --help --version".split()


def help_has_an_example_of_each(program, folder):
    text = program.done("--help")
    assert program.done("-h") == program.done("help") == text
    for command in COMMANDS:
        assert re.search(rf"^  {command} .*\n(   .*\n)*      catalogue {command} ", text, re.M), command
    for option in OPTIONS:
        assert re.search(rf"^  {option}\b.*\n(   .*\n)*      catalogue .*{option}\b", text, re.M), option
    assert max(len(line) for line in text.splitlines()) <= 120
    statuses = re.search(r"^Exit status: (.*?)\.$", text, re.M | re.S)[1]
    numbers = [int(item.split()[0]) for item in re.split(";\\s", statuses)]
    assert numbers == [n for n in range(27) if n != 12] + [64, 65, 74, 130, 143, 254], statuses


def help_of_one_command(program, folder):
    whole = program.done("--help")
    for command in COMMANDS:
        text = program.done("help", command)
        assert text == program.done(command, "--help") == program.done("-h", command), text
        assert text.startswith(f"  {command} ") and all(line in whole for line in text.splitlines()), text
    assert "--again" in program.done("help", "load") and "--again" not in program.done("help", "add")
    program.refuses(BAD_USAGE, "no command fly", "help", "fly")
    program.refuses(BAD_USAGE, "no command fly", "fly", "--help")
    assert re.fullmatch(r"catalogue \d+(\.\d+)*\n", program.done("--version"))


def the_manual_page(program, folder):
    """Everything that help lists is in the manual page."""
    with open(os.path.join(SHELL, "catalogue.1.in")) as f:
        page = f.read().replace("\\-", "-").replace("\\fR", "").replace("\\fI", "").replace("\\fB", "")
    text = program.done("--help")
    for form in re.findall(r"^  ((?:--)?[a-z].*?)(?:   .*)?$", text.split("Exit status")[0], re.M):
        name, _, rest = form.partition(" ")
        assert re.search(rf"^\.B[RI]? \"?{re.escape(name)}\b", page, re.M), form
    for number, name in re.findall(r"(\d+) ([a-z][^;]*?)[;.]\s", re.search(r"^Exit status: .*?\.$", text, re.M | re.S)[0] + " "):
        assert re.search(rf"^{number}\n{' '.join(name.split())}$", page, re.M), (number, name)


def words_and_options(program, folder):
    t, dashed = f"{folder}/t", "--cut"
    program.done("make", t, 2)
    assert program.done("add", t, code(1), 1, "--cut=3").startswith("cut off after 3 of ")
    assert program.done("add", "--cut", 4, t, code(1), 1).startswith("cut off after 4 of ")
    program.done("--wait=1", "repair", "--", t)
    program.done("make", "--", dashed, 2, cwd=folder)
    program.done("add", dashed.join(["./", ""]), code(1), 1, cwd=folder)
    assert program.done("find", "--", dashed, code(1), cwd=folder) == "1,open\n"
    program.refuses(BAD_USAGE, "--again takes no value", "load", t, "x", "--again=1")
    program.refuses(BAD_USAGE, "--cut takes a number", "repair", t, "--cut=")
    program.refuses(BAD_USAGE, "no option --cuts=3", "repair", t, "--cuts=3")
    program.refuses(BAD_USAGE, "usage: catalogue check TABLE ", "check", t, "--", "--help")


def wrong_command_lines(program, folder):
    t = f"{folder}/t"
    program.done("make", t, 2)
    program.refuses(BAD_USAGE, "usage: catalogue COMMAND")
    program.refuses(BAD_USAGE, "no command fly", "fly", t)
    program.refuses(BAD_USAGE, "no option --faster", "check", t, "--faster")
    wrong = [["make", t], ["add", t, code(1)], ["remove", t], ["find", t], ["list", t, code(1), code(2), code(3)], ["load", t], ["repair"], ["orders", t]]
    wrong += [["orders", t, "add", code(1)], ["orders", t, "load", "x"], ["check"], ["show"], ["check", t, "x"], ["add", t, code(1), 1, "open", 2]]
    wrong += [["class", t, code(1)], ["class", t, code(1), "open", "room"], ["class"], ["class", folder, "--wait", 1], ["class", folder, "--drawings"], ["class", t, code(1), "room", "--data"], ["orders", t, "class", code(1)]]
    wrong += [["orders", t, "class", code(1), "open", "x"], ["orders", t, "add", code(1), 1, "open", "x"], ["copy", t], ["help", "add", "x"]]
    wrong += [["add", t, code(1), 1] + 9 * ["x"]]
    for words in wrong:
        program.refuses(BAD_USAGE, f"usage: catalogue {words[0]} ", *words)
    unfit = [["class", t, code(1), "room", "--each"], ["check", t, "--cut", 1], ["load", t, "x", "--cut", 1], ["add", t, code(1), 1, "--each"]]
    unfit += [["find", t, code(1), "--again"], ["list", t, "--flush", "none"], ["find", t, code(1), "--fast"], ["add", t, code(1), 1, "--keep-going"]]
    unfit += [["make", f"{folder}/u", 1, "--wait", 1], ["list", t, "--absent", 1], ["list", t, "--recording"], ["find", "--wait=3", t, code(1), "--json"]]
    for words in unfit:
        option = next(w for w in words if str(w).startswith("--")).split("=")[0]
        program.refuses(BAD_USAGE, f"^catalogue: {words[0]} takes no {option} .catalogue help {words[0]} lists its options.$", *words)
    program.refuses(BAD_USAGE, "--cut takes a number", "repair", t, "--cut")
    program.refuses(BAD_USAGE, "--cut takes a number", "repair", t, "--cut", "-1")
    program.refuses(BAD_USAGE, "--wait takes a number", "repair", t, "--wait", "0.5")
    program.refuses(BAD_USAGE, "--flush takes clwb", "repair", t, "--flush", "often")
    program.refuses(BAD_USAGE, "--flush takes clwb", "repair", t, "--flush")
    program.refuses(BAD_USAGE, "--pause takes a number", "repair", t, "--pause", "long")


def slots_out_of_range(program, folder):
    """A class that there is not, or recording 0: find prints nothing to play and gives 4, as every other command does; the other codes are
    found, and a salvage drops the slot."""
    t, new = f"{folder}/t", f"{folder}/new"
    fill(program, t, 4, [(code(i), 70 + i) for i in range(5)])
    good = read_words(t)
    at = good.index(key(code(2))) + 1
    for pointer, said in ((9 << 56 | 77, "77 with class 9"), (3 << 56 | 72, "72 with class 3"), (255 << 56 | 1, "1 with class 255"), (1 << 56, "0 with class 1")):
        write_words(t, good[:at] + [pointer] + good[at + 1:])
        program.refuses(NOT_SOUND, f"the slot of {code(2)} in {t} is damaged, and must not play", "find", t, code(2))
        assert program.done("find", t, code(1)) == "71,open\n" and program.done("find", t, code(3)) == "73,open\n"
        for words in (["list", t], ["check", t], ["film", t, "-", code(1)], ["orders", t, "remove", code(2)], ["add", t, code(9), 9], ["class", t, code(2), "closed"]):
            program.refuses(NOT_SOUND, "is not sound", *words)
        status, out, err = program("show", t)
        assert status == NOT_SOUND and "is not sound" in err and code(2) in out, (status, out, err)
        program("salvage", t, new)
        assert [c for c, _ in listed(program.done("list", new))] == [code(i) for i in (0, 1, 3, 4)]
        os.remove(new)


def making(program, folder):
    t = f"{folder}/t"
    assert program.done("make", t, 1) == f"made {t} with 1 node\n"
    assert read_words(t) == [1, 1, 1, 0, 0, 0, 0, 0, MARK] + 31 * [0]
    program.refuses(BAD_FILE, "exists already", "make", t, 3)
    for nodes in (0, 65536, 2**64 - 1):
        program.refuses(NO_TABLE, f"1 to 65535 nodes, not {nodes}", "make", f"{folder}/u", nodes)
    for nodes in ("many", "", "-1", 2**64):
        program.refuses(NO_TABLE, "1 to 65535 nodes", "make", f"{folder}/u", nodes)
    program.refuses(BAD_FILE, "cannot be made", "make", f"{folder}/none/u", 1)
    assert not os.path.exists(f"{folder}/u")
    program.done("make", f"{folder}/u", 65535)
    assert os.path.getsize(f"{folder}/u") == 8 * (8 + 32 * 65535 + TRAILER)
    assert program.done("check", f"{folder}/u") == f"{folder}/u is settled: 0 codes in 1 of 65535 nodes, 65534 free\n"
    os.remove(f"{folder}/u")


def the_worked_orders(program, folder):
    """Document 01's printed example, order by order."""
    t = f"{folder}/t"
    program.done("make", t, 4)
    out = program.done("orders", t, "add", "AA-000-19-12345", 7)
    assert [" ".join(l.split()[1:4]) for l in out.splitlines()[:-1]] == [
        "store 19 0", f"store 17 {MARK}", "store 16 172627201912345", "store 17 7", "flush 2"], out
    assert program.done("add", t, "AA-000-19-12345", 7) == "added AA0001912345,7,open (4 stores, 1 flush)\n"
    out = program.done("orders", t, "remove", "AA-000-19-12345")
    assert [" ".join(l.split()[1:4]) for l in out.splitlines()[:-1]] == [f"store 17 {MARK}", "store 17 0", "flush 2"], out
    assert program.done("orders", t, "repair") == "not made (0 stores, 0 flushes)\n"
    assert program.done("remove", t, "AA0001912345") == "removed AA0001912345 (2 stores, 1 flush)\n"
    assert program.done("repair", t) == "nothing to repair (0 stores, 0 flushes)\n"


def orders_are_what_is_carried_out(program, folder):
    """Every way to flush leaves the same words: those of the printed orders. Printing them changes nothing."""
    t = f"{folder}/t"
    fill(program, t, 9, [(code(i), i) for i in range(10, 40)])
    flags = open("/proc/cpuinfo").read().split()
    here = [how for how in ("clwb", "clflushopt", "clflush", "none") if how in flags or how == "none"]
    for i, how in enumerate(here):
        for change in (["add", code(50 + i), 50 + i], ["remove", code(10 + i)]):
            before = read_words(t)
            orders = orders_of(program.done("orders", t, *change))
            assert read_words(t) == before
            program.done(change[0], t, *change[1:], "--flush", how)
            assert read_words(t) == carried_out(before, orders), how


def fast_says_what_it_risks(program, folder):
    t = f"{folder}/t"
    program.done("make", t, 1)
    status, out, err = program("add", t, code(1), 1, "--fast")
    assert status == 0 and out.startswith("added "), (status, out)
    assert err == f"catalogue: --fast: a power cut before this command ends can destroy the whole of {t}, older codes too\n", err


def codes_as_people_type_them(program, folder):
    t = f"{folder}/t"
    program.done("make", t, 1)
    program.done("add", t, "AA-000-19-12345", 7)
    for typed in ("AA0001912345", "AA-000-19-12345", "AA 000 19 12345", " AA-000 1912345 -", "aa-000-19-12345", f"#{key('AA0001912345')}"):
        assert program.done("find", t, typed) == "7,open\n"
    no_codes = ["", "1A0001912345", "AA00019123456", "AA000191234", "AA000191234X", "AA000_19_12345", "ÄA000191234"]
    for typed in no_codes + ["#", "#x", f"#{2**64}"]:
        program.refuses(NO_CODE, "not a code", "find", t, typed)
        program.refuses(NO_CODE, "not a code", "add", t, typed, 8)
        program.refuses(NO_CODE, "not a code", "remove", t, typed)
        program.refuses(NO_CODE, "not a code", "class", t, typed, "room")
        program.refuses(NO_CODE, "not a code", "list", t, typed, code(1))
        program.refuses(NO_CODE, "not a code", "list", t, code(1), typed)
        program.refuses(NO_CODE, "not a code", "orders", t, "remove", typed)
    for recording in ("", "x", "1.5", "-1", "+1", " 1", 2**64, 10**30):
        program.refuses(BAD_RECORDING, "a recording is", "add", t, code(1), recording)
        program.refuses(BAD_RECORDING, "a recording is", "orders", t, "add", code(1), recording)
    for access in ("", "x", "0", "1", "shut", "open ", "rooms", "clos"):
        program.refuses(BAD_CLASS, f"^catalogue: {access}: a class is open, room or closed$", "add", t, code(1), 1, access)
        program.refuses(BAD_CLASS, "a class is", "class", t, "AA0001912345", access)
        program.refuses(BAD_CLASS, "a class is", "orders", t, "class", "AA0001912345", access)
    assert listed(program.done("list", t)) == [("AA0001912345", 7)]


def refusals_of_changes(program, folder):
    t = f"{folder}/t"
    fill(program, t, 1, [(code(i), 100 + i) for i in range(10)])
    program.refuses(BAD_RECORDING, "^catalogue: 0: a recording is", "add", t, code(50), 0)
    for recording in (MOST_RECORDING + 1, 2**57, MARK - 1, MARK):
        program.refuses(BAD_RECORDING, f"{recording}: a recording is .* to {MOST_RECORDING}$", "add", t, code(50), recording)
    program.refuses(CODE_THERE, f"{code(3)} is in .* already", "add", t, code(3), 7)
    program.refuses(CODE_THERE, f"{code(3)} is in .* already", "add", t, code(3), 103)
    for access in CLASSES:
        program.refuses(RECORDING_THERE, f"recording 103 is in {t} under {code(3)}$", "add", t, code(50), 103, access)
        program.refuses(NOT_THERE, f"{code(50)} is not in {t}$", "class", t, code(50), access)
    program.refuses(NOT_THERE, f"{code(50)} is not in", "remove", t, code(50))
    program.refuses(ABSENT, f"{code(50)} is not in {t}, and no code there is higher$", "find", t, code(50))
    program.done("add", t, code(50), MOST_RECORDING)
    program.refuses(NO_NODES, f"is full: .* more nodes than are free; catalogue copy {t} NEW NODES", "add", t, code(51), 1)
    program.refuses(NO_NODES, "is full", "orders", t, "add", code(51), 1)
    program.refuses(BAD_USAGE, "this change has 2[0-9] orders; nothing was changed", "remove", t, code(0), "--cut", 99)
    program.refuses(BAD_USAGE, "this change has 0 orders", "repair", t, "--cut", 1)


def a_tree_of_sixteen_levels(program, folder):
    """Refusal 11: every node from the root at level 15 to the leaf is full. An inner node may have no slots: few nodes are enough."""
    nodes, rows = [], {level: [] for level in range(16)}

    def node(left, level, fence, slots):
        nodes.append([left, 0, level, fence, 0, 0, 0, 0] + [w for s in slots for w in s] + (24 - 2 * len(slots)) * [0])
        rows[level].append((fence, len(nodes)))
        return len(nodes)

    way = node(MARK, 0, 0, [(key(code(10 * i)), 1 + i) for i in range(11)])
    for level in range(1, 16):
        slots = []
        for i in range(11):
            fence, child = key("ZZ0000000000") + 1000 * level + i, MARK
            for below in range(level):
                child = node(child, below, fence, [])
            slots.append((fence, child))
        way = node(way, level, 0, slots)
    for row in rows.values():
        for (_, a), (_, b) in zip(sorted(row), sorted(row)[1:]):
            nodes[a - 1][1] = b
    t = f"{folder}/t"
    write_words(t, [1, way, len(nodes), 0, 0, 0, 0, 0] + [w for n in nodes for w in n])
    assert "settled: 11 codes" in program.done("check", t)
    assert "level 15" in program.done("show", t)
    program.refuses(TOO_HIGH, "is full: its tree has 16 levels", "add", t, code(5), 500)
    program.done("add", t, "ZZ0009999999", 500)
    program.done("remove", t, code(10))
    program.done("add", t, code(5), 501)
    assert listed(program.done("list", t, code(0), code(30))) == [(code(0), 1), (code(5), 501), (code(20), 3), (code(30), 4)]


def searching_and_listing(program, folder):
    t = f"{folder}/t"
    pairs = [(code(3 * i), 1000 - i) for i in range(60)]
    fill(program, t, 30, pairs[::2] + pairs[1::2])
    for c, r in pairs:
        assert program.done("find", t, c) == f"{r},open\n"
    program.refuses(ABSENT, f"^catalogue: {code(1)} is not in {t}; the next code up is {code(3)}$", "find", t, code(1))
    assert listed(program.done("list", t)) == pairs
    assert listed(program.done("list", t, "AA0000000000", "ZZZZZ9999999")) == pairs
    assert listed(program.done("list", t, code(10), "AA-000-19-00030")) == [p for p in pairs if code(10) <= p[0] <= code(30)]
    assert program.done("list", t, code(30), code(30)) == f"{code(30)},990,open\n"
    assert program.done("list", t, code(31), code(10)) == ""


def the_next_code_up(program, folder):
    """Of an absent code: past leaves that are empty, before the first code and after the last; a key that no code has as # and its number."""
    t = f"{folder}/t"
    fill(program, t, 30, [(code(10 * i), 1 + i) for i in range(1, 60)])
    for i in range(20, 45):
        program.done("remove", t, code(10 * i))
    up = lambda c: f"^catalogue: {c} is not in {t}; the next code up is "
    for asked, next_one in ((code(9), code(10)), (code(11), code(20)), (code(191), code(450)), (code(200), code(450)), (code(449), code(450))):
        program.refuses(ABSENT, up(asked) + next_one + "$", "find", t, asked)
    program.refuses(ABSENT, up("#0") + code(10) + "$", "find", t, "#0")
    for asked in (code(591), "ZZZZZ9999999", f"#{MARK}"):
        program.refuses(ABSENT, f"{asked} is not in {t}, and no code there is higher$", "find", t, asked)
    program.done("add", t, f"#{MARK}", 1000)
    program.done("add", t, "#7", 1001)
    program.refuses(ABSENT, up("ZZZZZ9999999") + f"#{MARK}$", "find", t, "ZZZZZ9999999")
    program.refuses(ABSENT, up("#0") + "#7$", "find", t, "#0")
    empty = f"{folder}/empty"
    program.done("make", empty, 1)
    program.refuses(ABSENT, f"{code(1)} is not in {empty}, and no code there is higher$", "find", empty, code(1))


def answers_that_cannot_be_printed(program, folder):
    t = f"{folder}/t"
    fill(program, t, 3, [(code(i), i) for i in range(1, 12)])
    for words in (["find", t, code(1)], ["list", t], ["show", t], ["--help"]):
        with open("/dev/full", "w") as full:
            run = program.start(*words, stdout=full, stderr=subprocess.PIPE)
            _, err = run.communicate(timeout=120)
        assert run.returncode == BAD_FILE and "cannot be printed" in err, (run.returncode, err)


def made_but_not_printed(program, folder):
    """A change whose answer goes to a full disk, or to a pipe that nobody reads any more: it is made, and says so."""
    t, csv = f"{folder}/t", f"{folder}/csv"
    program.done("make", t, 9)
    with open(csv, "w") as f:
        f.write(f"{code(5)},5\n")
    changes = [["add", t, code(1), 1], ["class", t, code(1), "room"], ["remove", t, code(1), "--cut", 1], ["repair", t], ["add", t, code(1), 1], ["load", t, csv],
               ["load", t, csv, "--again"], ["remove", t, code(1)], ["copy", t, f"{folder}/u"], ["salvage", t, f"{folder}/v"], ["make", f"{folder}/w", 3]]
    for words in changes:
        made = "the new table is made" if words[0] in ("copy", "salvage", "make") else "the change is made"
        expected = "the answer cannot be printed" if "--again" in words else f"{made}, but the answer cannot be printed"
        before, new = table_bytes(t), words[2] if words[0] in ("copy", "salvage") else words[1]
        for broken in ("full", "pipe"):
            if broken == "full":
                out = os.open("/dev/full", os.O_WRONLY)
            else:
                reader, out = os.pipe()
                os.close(reader)
            run = program.start(*words, stdout=out, stderr=subprocess.PIPE)
            os.close(out)
            _, err = run.communicate(timeout=120)
            assert (run.returncode, err) == (BAD_FILE, f"catalogue: {expected}\n"), (words, broken, run.returncode, err)
            assert os.path.exists(new) and (table_bytes(t) != before or "the change" not in expected), words
            if broken == "pipe":
                continue
            # Once more from the start.
            if new != t:
                os.remove(new)
            else:
                write_words(t, list(struct.unpack(f"<{len(before) // 8}Q", before)))
    # A command that only reads is ended by the pipe, without a word.
    reader, out = os.pipe()
    os.close(reader)
    run = program.start("list", t, stdout=out, stderr=subprocess.PIPE)
    os.close(out)
    _, err = run.communicate(timeout=120)
    assert (run.returncode, err) == (-signal.SIGPIPE, ""), (run.returncode, err)


def drawing(program, folder):
    """A cut split, drawn to the letter: nodes by level, fences, trailing slots, the leftover; then a hidden slot."""
    t = f"{folder}/t"
    fill(program, t, 3, [(code(10 * i), 100 + i) for i in range(1, 12)])
    orders = orders_of(program.done("orders", t, "add", code(115), 112))
    linked = 1 + orders.index((9, 3))
    program.done("add", t, code(115), 112, "--cut", linked)
    first = "".join(f"    {i:2}  {code(10 + 10 * i)}  {101 + i},open\n" for i in range(5))
    moved = [(code(60 + 10 * i), 106 + i) for i in range(6)]
    assert program.done("show", t) == (
        f"{t} is sound: 11 codes in 3 of 3 nodes, 0 free\n"
        "leftover (b): node 3, the sibling of node 1, lacks its slot in node 2; node 1 has 6 trailing slots\n"
        "\nlevel 1\n  node 2, the root, fence #0\n        left          -> node 1\n"
        "\nlevel 0: code, recording and class\n  node 1, fence #0, sibling -> node 3\n" + first
        + "".join(f"    {i + 5:2}  {c}  {r},open   trailing\n" for i, (c, r) in enumerate(moved))
        + f"  node 3, fence {code(60)}, lacks its slot\n"
        + "".join(f"    {i:2}  {c}  {r},open\n" for i, (c, r) in enumerate(moved))), program.done("show", t)
    program.done("repair", t)
    program.done("remove", t, code(20), "--cut", 1)
    out = program.done("show", t)
    assert "leftover (a): node 1 has a hidden slot, slot 1\n" in out and f"     1  {code(20)}  101,open   hidden\n" in out, out
    program.done("repair", t)
    program.done("class", t, code(10), "closed")
    program.done("remove", t, code(10), "--cut", 1)
    out = program.done("show", t)
    assert f"     0  {code(10)}  {MARK}   hidden\n     1  {code(30)}  103,open\n" in out, out


def classes(program, folder):
    """Who may hear a recording: given with it, changed, found, listed and loaded back."""
    t, u, csv = f"{folder}/t", f"{folder}/u", f"{folder}/csv"
    program.done("make", t, 9)
    for i, access in enumerate(["", "open", "room", "closed", "ROOM", "Closed"]):
        name = access.lower() or "open"
        out = program.done("add", t, code(i), 50 + i, *[access] if access else [])
        assert out.startswith(f"added {code(i)},{50 + i},{name} (4 stores, "), out
        assert program.done("find", t, code(i)) == f"{50 + i},{name}\n"
    want = dict(zip(map(code, range(6)), ["open", "open", "room", "closed", "room", "closed"]))
    assert classes_of(program.done("list", t)) == want
    for i in range(6):
        for access in CLASSES + ["open"]:
            before = read_words(t)
            # Also if it is the class already; the same line, one store.
            assert program.done("orders", t, "class", code(i), access).endswith("not made (1 store, 1 flush)\n")
            assert program.done("class", t, code(i), access) == f"class of {code(i)} is {access} (1 store, 1 flush)\n"
            assert program.done("find", t, code(i)) == f"{50 + i},{access}\n"
            changed = [w for w, (a, b) in enumerate(zip(before, read_words(t))) if a != b]
            assert len(changed) == (classes_of(program.done("list", t))[code(i)] != want[code(i)]), changed
            want[code(i)] = access
    program.done("class", t, code(2), "room")
    program.done("class", t, code(3), "closed")
    with open(csv, "w") as f:
        f.write(program.done("list", t))
    program.done("make", u, 9)
    assert program.done("load", u, csv) == "6 added, 0 there already\n"
    assert program.done("list", u) == program.done("list", t)
    # What stands in a damaged slot is drawn and not found: it must not play.
    words = read_words(t)
    for pointer, said in ((2**56 * 3 + 5, "5,3"), (2**56, "0,room"), (2**64 - 2, f"{MOST_RECORDING - 1},255")):
        words[8 + 9] = pointer
        write_words(t, words)
        program.refuses(NOT_SOUND, "must not play", "find", t, code(0))
        for command in (["list", t], ["class", t, code(0), "open"], ["class", t, code(1), "open"], ["repair", t]):
            program.refuses(NOT_SOUND, "is not sound", *command)
        assert f" {said}\n" in program("show", t)[1]


def before_there_were_classes(program, folder):
    """A table that was written before, cut off in the midst of a split: all its recordings are open, and it takes classes. Its listing of
    that time loads, as open too."""
    t, u = f"{folder}/t", f"{folder}/u"
    with open(f"{BEFORE}.csv") as f:
        pairs = listed(f.read())
    shutil.copy(f"{BEFORE}.cat", t)
    os.chmod(t, 0o644)
    assert program.done("check", t).startswith(f"{t} is sound: 31 codes in 7 of 9 nodes, 2 free\nleftover (b)")
    assert program.done("list", t) == "".join(f"{c},{r},open\n" for c, r in pairs)
    for c, r in pairs:
        assert program.done("find", t, c) == f"{r},open\n"
    out = program.done("class", t, pairs[3][0], "room")
    assert out.startswith(f"class of {pairs[3][0]} is room (") and "(1 store" not in out, out
    assert program.done("class", t, pairs[30][0], "closed").endswith(" (1 store, 1 flush)\n")
    want = dict({c: "open" for c, _ in pairs}, **{pairs[3][0]: "room", pairs[30][0]: "closed"})
    assert classes_of(program.done("list", t)) == want and listed(program.done("list", t)) == pairs
    assert program.done("load", t, f"{BEFORE}.csv", "--again") == "0 added, 31 there already\n"
    program.done("make", u, 9)
    assert program.done("load", u, f"{BEFORE}.csv") == "31 added, 0 there already\n"
    assert program.done("list", u) == "".join(f"{c},{r},open\n" for c, r in pairs)


def nodes_come_free(program, folder):
    """A full table, and one of its leaves emptied code by code: its node is free, and serves codes elsewhere that the table had no room for."""
    t = f"{folder}/t"
    fill(program, t, 3, [(code(10 * i), i) for i in range(1, 17)])
    program.refuses(NO_NODES, "is full", "add", t, code(165), 99)
    for i in range(6, 17):
        assert program.done("check", t) == f"{t} is settled: {22 - i} codes in 3 of 3 nodes, 0 free\n"
        out = program.done("remove", t, code(10 * i))
        assert out.endswith(" (5 stores, 3 flushes)\n") == (i == 16), out
    assert program.done("check", t) == f"{t} is settled: 5 codes in 2 of 3 nodes, 1 free\n"
    for i in range(1, 8):
        program.done("add", t, code(i), 100 + i)
    assert program.done("check", t) == f"{t} is settled: 12 codes in 3 of 3 nodes, 0 free\n"
    # The leftmost leaf stays, and a leaf that is the root.
    for c in [code(i) for i in range(1, 8)] + [code(10 * i) for i in range(1, 6)]:
        program.done("remove", t, c)
    assert program.done("check", t) == f"{t} is settled: 0 codes in 2 of 3 nodes, 1 free\n"


def the_first_hour(program, folder):
    """A hundred codes loaded, a change cut off, the leftover drawn, repaired; every code found again."""
    t = f"{folder}/room.cat"
    program.done("make", t, 40)
    program.done("load", t, HUNDRED)
    program.done("add", t, "AA-000-19-99990", 2001)
    assert program.done("add", t, "XK-A04-74-99991", 2002, "--cut", 40).startswith("cut off after 40 of ")
    assert "leftover (b)" in program.done("show", t)
    assert program.done("repair", t).startswith("repaired (")
    assert "settled" in program.done("check", t)
    with open(HUNDRED) as f:
        for c, r in listed(f.read()):
            assert program.done("find", t, c) == f"{r},open\n"


TESTS = [help_has_an_example_of_each, help_of_one_command, the_manual_page, words_and_options, wrong_command_lines, slots_out_of_range, making,
         the_worked_orders, orders_are_what_is_carried_out, fast_says_what_it_risks, codes_as_people_type_them, refusals_of_changes,
         a_tree_of_sixteen_levels, searching_and_listing, the_next_code_up, answers_that_cannot_be_printed, made_but_not_printed, drawing, classes,
         before_there_were_classes, nodes_come_free, the_first_hour]
