"""Wear figures: of lists in files, drawn, and of a whole load; against counts made here."""
import re
import subprocess
import xml.etree.ElementTree as tree

from commands import HUNDRED
from drive import *

BAD_ORDERS = 13


def text_of(orders):
    """As the order printer prints them: a store is a pair, a flush its line in a list."""
    return "".join(f"store {o[0]} {o[1]}\n" if isinstance(o, tuple) else f"flush {o[0]}\n" for o in orders)


def counted(orders):
    """What wear prints of them, without the places behind the lines."""
    stored = [o[0] for o in orders if isinstance(o, tuple)]
    lines = {}
    for word in stored:
        lines[word // 8] = lines.get(word // 8, 0) + 1
    largest = max(lines.values(), default=0)
    first = min((l for l, n in lines.items() if n == largest), default=0)
    extents = []
    for word in sorted(set(stored)):
        if extents and sum(extents[-1]) == word:
            extents[-1][1] += 1
        else:
            extents.append([word, 1])
    said = [f"total {len(stored)}", f"largest {largest}", f"first line {first}", f"pairs {len(extents)}"]
    return said + [f"line {l} {lines[l]}" for l in sorted(lines)] + [f"words {a} {n}" for a, n in extents]


def said(out):
    return [re.sub(r"^(line \d+ \d+)  +.*$", r"\1", line) for line in out.splitlines()]


def write(path, text):
    with open(path, "w") as f:
        f.write(text)


def figures_of_lists(program, folder):
    """The worked example, lists of all sorts, from a file and from standard input. The table stays as it is."""
    t, list = f"{folder}/t", f"{folder}/list"
    program.done("make", t, 4)
    words = read_words(t)
    worked = [(19, 0), (17, MARK), (16, 172627201912345), (17, 7), [2], (17, MARK), (17, 0), [2]]
    lists = [worked, [], [[0], [16]], [(0, 1)], [(135, 1), (0, MARK)], [(w, 1) for w in range(136)], [(w, 1) for w in range(135, -1, -2)],
             [(i * i % 136, i) if i % 5 else [i % 17] for i in range(2000)]]
    for orders in lists:
        write(list, text_of(orders))
        out = program.done("wear", t, list)
        assert said(out) == counted(orders), (orders, out)
        with open(list) as f:
            run = subprocess.run(program.command + ["wear", t, "-"], stdin=f, env=program.environment, text=True, capture_output=True)
        assert (run.returncode, run.stdout, run.stderr) == (0, out, ""), run
    assert read_words(t) == words
    write(list, text_of(worked))
    assert program.done("wear", t, list) == ("total 6\nlargest 6\nfirst line 2\npairs 2\n"
                                             "line 2 6                node 1, slots 0 to 3\nwords 16 2\nwords 19 1\n")
    # A list for the other kind of dock: barriers count for nothing.
    write(list, text_of(worked).replace("\nflush", "\n 7 barrier\nflush").replace("\nstore", "\nbarrier\nstore"))
    assert said(program.done("wear", t, list)) == counted(worked)
    write(list, "store 0 1\nstore 8 1\nstore 39 1\nstore 40 1\n")
    assert re.findall(r"^line .*?  +(.*)$", program.done("wear", t, list), re.M) == [
        "header", "node 1, left to fence", "node 1, slots 8 to 11", "node 2, left to fence"]


def figures_of_printed_orders(program, folder):
    """What orders prints is read as it is, and so is the order printer's text with its done and refused."""
    t, list = f"{folder}/t", f"{folder}/list"
    fill(program, t, 9, [(code(i), i) for i in range(10, 40)])
    for change in (["add", code(50), 50], ["remove", code(12)], ["class", code(13), "room"], ["repair"]):
        out = program.done("orders", t, *change)
        write(list, out)
        orders = [o if o else [0] for o in orders_of(out)]
        assert said(program.done("wear", t, list)) == counted(orders), change
        # For the other dock each store has its barrier, which counts for nothing.
        barred = program.done("orders", t, *change, "--dock", 1)
        assert barred.count("barrier\n") == len([o for o in orders if isinstance(o, tuple)]), barred
        write(list, barred)
        assert said(program.done("wear", t, list)) == counted(orders), change
    write(list, "store 19 0\nflush 2\ndone 1 1\nrefused 7\n\nstore 20 5\r\n  flush\t2 \n")
    assert said(program.done("wear", t, list)) == counted([(19, 0), (20, 5)])


def lists_that_are_refused(program, folder):
    t, list = f"{folder}/t", f"{folder}/list"
    program.done("make", t, 1)
    for text in ("store 40 1\n", "flush 5\n", "store 0 1\nflush 2\nflush 5\n", f"store {MARK} 1\n", f"store {MARK - 1} 0\n",
                 f"barrier\nstore {MARK - 1} 1\n", f"flush {MARK}\n"):
        write(list, text)
        program.refuses(BAD_ORDERS, "an order lies outside of .*t$", "wear", t, list)
    for line in ("store 1", "store 1 2 3", "store x 1", "store 1 -1", "flush", "flush 1 2", "store 18446744073709551616 0", "stores 1 2", "3",
                 "3 4 store 1 2", "1 flush 2 3", "barrier 0", "barriers", "nothing", "store 1 2" + " " * 17000):
        write(list, f"flush 0\n{line}\nstore 0 0\n")
        program.refuses(BAD_LINE, 'line 2, ".*": .*(cannot stand there; wanted: |ends too soon; wanted: |too long; )', "wear", t, list)
    program.refuses(BAD_FILE, "cannot be opened", "wear", t, f"{folder}/none")
    write(list, "store 0 1\n")
    program.refuses(NO_TABLE, "is not a table", "wear", list, list)
    program.refuses(BAD_USAGE, "usage: catalogue wear TABLE LIST", "wear", t)
    program.refuses(BAD_USAGE, "list takes no --svg", "list", t, "--svg")
    program.refuses(BAD_USAGE, "wear takes no --wear", "wear", t, list, "--wear")


def picture(program, folder):
    """A bar for each worn line or group of lines, as long as the most worn of it; the most worn line of all is striped and named."""
    list = f"{folder}/list"
    for nodes, orders in ((4, [(8 * l, 1) for l in range(17) for _ in range(l % 5)]), (1000, [(i * 37 % 32000, 1) for i in range(5000)]),
                          (65535, [(2097127, 1)]), (1, [])):
        t = f"{folder}/t{nodes} <&>"
        program.done("make", t, nodes)
        write(list, text_of(orders))
        svg = tree.fromstring(program.done("wear", t, list, "--svg"))
        space = "{http://www.w3.org/2000/svg}"
        assert svg.tag == space + "svg"
        lines = {}
        for word, _ in orders:
            lines[word // 8] = lines.get(word // 8, 0) + 1
        together = -(-(1 + 4 * nodes) // 160)
        groups = {}
        for line, n in lines.items():
            groups[line // together] = max(groups.get(line // together, 0), n)
        bars = [r for r in svg.iter(space + "rect") if r.find(space + "title") is not None]
        titles = [re.fullmatch(r"line (\d+): (\d+)", r.find(space + "title").text) for r in bars]
        assert [(int(m[1]) // together, int(m[2])) for m in titles] == sorted(groups.items()), (nodes, titles)
        assert all(lines[int(m[1])] == int(m[2]) for m in titles)
        most = max(lines.values(), default=0)
        for bar, m in zip(bars, titles):
            assert abs(float(bar.get("height")) - 280 * int(m[2]) / most) < 0.01
        striped = [m for bar, m in zip(bars, titles) if bar.get("fill") == "url(#stripes)"]
        told = " ".join("".join(e.itertext()) for e in svg.iter(space + "text"))
        assert f"Stores to each line of {t}" in told and f"{len(orders)} store" in told, told
        if orders:
            first = min(l for l, n in lines.items() if n == most)
            assert [int(m[1]) for m in striped] == [first] and f"the most, {most}, to line {first} (striped)" in told
        else:
            assert striped == [] and "no line is worn" in told


def wear_of_a_load(program, folder):
    """The lines that a load stored to most: those of the orders of its changes, one after the other."""
    t, u, v, csv = f"{folder}/t", f"{folder}/u", f"{folder}/v", f"{folder}/csv"
    program.done("make", t, 40)
    program.done("make", u, 40)
    # A hundred codes have more orders than the program sums at a time.
    with open(HUNDRED) as f:
        pairs = listed(f.read())[:None if program.quick else 5]
    lines = {}
    for c, r in pairs:
        for order in orders_of(program.done("orders", u, "add", c, r)):
            if order:
                lines[order[0] // 8] = lines.get(order[0] // 8, 0) + 1
        program.done("add", u, c, r)
    write(csv, "".join(f"{c},{r}\n" for c, r in pairs))
    out = said(program.done("load", t, csv, "--wear"))
    assert read_words(t) == read_words(u)
    assert re.fullmatch(r"\d+ added, 0 there already", out[0])
    end = "; the most to these:" if len(lines) > 10 else ":"
    assert out[1] == f"{sum(lines.values())} stores to {len(lines)} of 161 lines{end}", out
    most = sorted(lines.items(), key=lambda x: (-x[1], x[0]))[:10]
    assert out[2:] == [f"line {l} {n}" for l, n in most], (out, most)
    # As much on the other dock.
    program.done("make", v, 40)
    assert said(program.done("load", v, csv, "--wear", "--dock", 1)) == out
    # Nothing is worn if nothing is added; what came before a bad line is reported.
    assert program.done("load", t, csv, "--wear", "--again").splitlines()[1:] == ["0 stores to 0 of 161 lines"]
    write(csv, f"{code(1)},5001\nbad\n{code(2)},5002\n")
    status, out, err = program("load", t, csv, "--wear")
    assert status == BAD_LINE and re.match(r"1 added, 0 there already, 1 bad line\n\d+ stores to \d+ of 161 lines", out), (status, out, err)
    assert len([l for l in out.splitlines() if l.startswith("line ")]) > 0


TESTS = [figures_of_lists, figures_of_printed_orders, lists_that_are_refused, picture, wear_of_a_load]
