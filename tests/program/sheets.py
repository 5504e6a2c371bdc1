"""Loading what spreadsheets write: separators, encodings, other columns, numbers and codes as they come, and which line was first."""
import os
import random
import re

from drive import *
from questions import piped

# Code, recording, class, in the order of the codes.
ROWS = [(code(i), 100 + i, CLASSES[i % 3]) for i in range(1, 25)]


def write(path, text, encoding="utf-8"):
    with open(path, "w", newline="", encoding=encoding) as f:
        f.write(text)


def loads(program, folder, text, *words, encoding="utf-8", rows=ROWS):
    """The text loads into a new table, which then has these rows."""
    t, csv = f"{folder}/t", f"{folder}/csv"
    write(csv, text, encoding)
    program.done("make", t, 30)
    assert program.done("load", t, csv, *words) == f"{len(rows)} added, 0 there already\n", text[:200]
    assert program.done("list", t) == "".join(f"{c},{r},{access}\n" for c, r, access in rows), text[:200]
    os.remove(t)


def refused(program, folder, text, status, said, *words, encoding="utf-8"):
    """The first bad line's message, which is one short sentence, and its status."""
    t, csv = f"{folder}/t", f"{folder}/csv"
    write(csv, text, encoding)
    program.done("make", t, 30)
    got, _, err = program("load", t, csv, *words)
    first = err.splitlines()[0]
    assert got == status and re.fullmatch(f"catalogue: {csv}, line {said}", first), (text[:200], got, first)
    assert len(first) < len(csv) + 200, first
    os.remove(t)


def quoted(cell, separator):
    text = str(cell)
    return '"' + text.replace('"', '""') + '"' if any(c in text for c in '",;\t\n ') or separator in text else text


def sheet(rows, separator=",", end="\r\n", header=None):
    return "".join(separator.join(quoted(cell, separator) for cell in row) + end for row in ([header] if header else []) + rows)


def separators_and_encodings(program, folder):
    """Commas, semicolons and tabs; UTF-8 and UTF-16 of either order, with a mark and without; either end of a line; with a header and without."""
    chance, files = random.Random(1), 0
    for separator in ",;\t":
        for encoding in ("utf-8", "utf-8-sig", "utf-16", "utf-16-le", "utf-16-be"):
            for header in (None, ["ISRC", "Recording", "Class"]):
                end = chance.choice(("\n", "\r\n"))
                text = sheet(ROWS, separator, end, header)
                loads(program, folder, text, encoding=encoding)
                loads(program, folder, text.rstrip(end), encoding=encoding)
                loads(program, folder, "\ufeff" + text, encoding="utf-16-be" if encoding == "utf-16-be" else "utf-16-le")
                files += 3
                if not program.quick and files > 20:
                    return
    # Characters beyond the first 65,536, and half of one, in a column that is passed over.
    text = sheet([(c, r, "\U0001d11e \u00e4") for c, r, _ in ROWS], ";", header=["Code", "Nr.", "Title"])
    opened = [(c, r, "open") for c, r, _ in ROWS]
    loads(program, folder, text, "--columns", "code=1,recording=2", encoding="utf-16", rows=opened)
    data = text.encode("utf-16-le").replace("\U0001d11e".encode("utf-16-le"), b"\x34\xd8")
    with open(f"{folder}/half", "wb") as f:
        f.write(b"\xff\xfe" + data)
    program.done("make", f"{folder}/t", 30)
    assert program.done("load", f"{folder}/t", f"{folder}/half", "--columns", "code=1,recording=2").startswith("24 added")


def other_columns(program, folder):
    """By number, by the names in the header, and by usual names; in any order, with separators, quotes and line breaks in other cells."""
    titles = ['a "b"', "c,d", "e;f", "g\th", "i\nj", " k ", "", "\u00e4\u2013"]
    rows = [(i, titles[i % len(titles)], c, "x", r, access) for i, (c, r, access) in enumerate(ROWS)]
    header = ["", "Title, as printed", "ISRC code", "Label", "Recording No.", "Class"]
    for separator in ",;\t":
        text = sheet(rows, separator, header=header)
        loads(program, folder, text)
        loads(program, folder, text, "--columns", "code=3,recording=5,class=6")
        loads(program, folder, text, "--columns", "class=Class,recording=recording no.,code=isrc code")
        loads(program, folder, text, "--columns", "code=3,recording=Recording No.,class=6")
        loads(program, folder, sheet(rows, separator), "--columns", "code=3,recording=5,class=6")
        loads(program, folder, sheet([row[::-1] for row in rows], separator, header=header[::-1]))
    opened = [(c, r, "open") for c, r, _ in ROWS]
    loads(program, folder, sheet(rows), "--columns", "recording=5,code=3", rows=opened)
    # The number of a row, and another code, are neither.
    numbered = [(i, "x", f"B{i}", c, r) for i, (c, r, _) in enumerate(ROWS, 1)]
    loads(program, folder, sheet(numbered, ";", header=["No.", "Number", "Code", "ISRC", "Recording"]), rows=opened)
    loads(program, folder, sheet([row[::-1] for row in numbered], header=["Recording number", "isrc", "code", "nr", "no"]), rows=opened)
    refused(program, folder, sheet(numbered, header=["No.", "Number", "Code", "ISRC", "Nr."]), BAD_LINE, '1, ".*": the line has more fields than .*')
    # Other names than the usual ones.
    foreign = sheet([(r, c) for c, r, _ in ROWS], ";", header=["Aufnahme", "Kennung"])
    loads(program, folder, foreign, "--columns", "code=Kennung,recording=aufnahme", rows=opened)
    refused(program, folder, foreign, BAD_LINE, '1, column "Kenung": the first line has no such name', "--columns", "code=Kenung,recording=Aufnahme")
    refused(program, folder, sheet(rows), BAD_LINE, '1, ".*": the line has more fields than code, recording and class; --columns says .*')
    refused(program, folder, f"a,{code(1)},1\nb\n", BAD_LINE, '2, "b": the line has no code', "--columns", "code=2,recording=3")
    refused(program, folder, f"a,{code(1)},1\nb,{code(2)}\n", BAD_LINE, f'2, "b,{code(2)}": the line has no recording', "--columns", "code=2,recording=3")
    # A first line that is wrong is no header.
    refused(program, folder, f"a,AA00019,1\nb,{code(2)},2\n", NO_CODE, '1, code "AA00019": not a code, .*', "--columns", "code=2,recording=3")
    for places in ("", "code=1", "recording=2", "code=1,recording=0", "code=1,recording=", "code=1,recording", "code=1,recording=2,title=3", "code=1;recording=2",
                   "code=1,recording=257", "code=1,,recording=2"):
        program.refuses(BAD_USAGE, "--columns takes places as code=2,recording=5", "load", f"{folder}/none", "x", f"--columns={places}")


def numbers_and_codes(program, folder):
    """Whole numbers with a point and zeros, codes with ISRC before them and with dashes; and numbers that lost their digits."""
    one = [(code(7), 7000, "open")]
    for number in ("7000", "7000.0", "7000.00", "07000", " 7000 ", '"7000"'):
        loads(program, folder, f"{code(7)},{number}\n", rows=one)
    for number in ("7000,0", "7000,00"):
        loads(program, folder, f"{code(7)};{number}\n", rows=one)
        loads(program, folder, f'{code(7)}\t"{number}"\n', rows=one)
        loads(program, folder, f'{code(7)},"{number}"\n', rows=one)
    for typed in ("ISRC AA-000-19-00007", "isrc: aa0001900007", "AA\u2013000\u201319\u201300007", "AA\u2014000\u201219\u201100007", "AA\u00a0000\u00a019\u00a000007",
                  '"ISRC AA\u2013000\u201319\u201300007"'):
        loads(program, folder, f"{typed},7000\n", rows=one)
        loads(program, folder, f"{typed}\t7000\n", encoding="utf-16", rows=one)
    for number in ("7.5", "7.01", "1.234.567", "7.", ".0", "0.0", "-7", "+7", "7 000", "7e", "7.000", "7.0000"):
        refused(program, folder, f"{code(7)},{number}\n", BAD_RECORDING, f'1, recording "{re.escape(number)}": a recording is a whole number from 1 to .*')
    # Thousands, which other countries write with a comma: never 7.
    for line in (f'{code(7)},"7,000"\n', f"{code(7)};7,000\n", f"{code(7)}\t7,000\n"):
        refused(program, folder, line, BAD_RECORDING, '1, recording "7,000": a recording is a whole number from 1 to .*')
    for number in ("7.2E+16", "7E+03", "1e5"):
        refused(program, folder, f"{code(7)},{number}\n", BAD_RECORDING, f'1, recording "{re.escape(number)}": a spreadsheet has rounded this number; .*')
    # Empty cells at the end of a line; an empty class is open.
    loads(program, folder, f"{code(7)},7000,,,\n{code(8)},8,\n{code(9)},9,room,,\n", rows=one + [(code(8), 8, "open"), (code(9), 9, "room")])


def the_first_line(program, folder):
    """A code or a recording that is in the file twice: the line that has it first is named, by every way to load."""
    t, csv = f"{folder}/t", f"{folder}/csv"
    lines = ["code,recording", f"{code(1)},1", "", f"{code(2)},2", f"{code(1)},3", f"{code(3)},2", f"{code(4)},4", f"{code(50)},4", f"{code(5)},50", f"{code(4)},9",
             f"{code(2)},2,room", "AA1,5", f"{code(6)},51"]
    said = [f'line 5, code "{code(1)}": in line 2 already', f'line 6, recording "2": in line 4 already, under {code(2)}',
            f'line 8, code "{code(50)}": in {t} already', f'line 9, recording "50": in {t} already, under {code(50)}',
            f'line 10, code "{code(4)}": in line 7 already',
            f'line 11, code "{code(2)}": in line 4 already with this recording, and is open (catalogue class changes that)']
    for way in ([], ["--pause", 1], ["--wear"], ["--fast"]):
        write(csv, "\n".join(lines))
        fill(program, t, 30, [(code(50), 50), (code(51), 51)])
        status, out, err = program("load", t, csv, "--keep-going", *way)
        messages = [line for line in err.splitlines() if "--fast" not in line]
        assert [m.removeprefix(f"catalogue: {csv}, ") for m in messages[:6]] == said, (way, err)
        assert 'line 12, code "AA1"' in messages[6] and f'line 13, recording "51": in {t} already, under {code(51)}' in messages[7], (way, err)
        assert status == CODE_THERE and out.startswith("3 added, 0 there already, 8 bad lines\n"), (way, out)
        os.remove(t)
    # Into an empty table, which is packed.
    program.done("make", t, 30)
    status, out, err = program("load", t, csv, "--keep-going")
    assert 'line 5, code' in err and "in line 2 already" in err and "in line 4 already, under" in err and f"in {t}" not in err, err
    # A line that was refused has nothing.
    write(csv, f"{code(60)},1\n{code(61)},60\n{code(60)},62\n")
    status, out, err = program("load", t, csv, "--keep-going")
    assert out.startswith("2 added") and err.count("\n") == 1 and f'line 1, recording "1": in {t} already, under {code(1)}' in err, (out, err)
    write(csv, f"{code(1)},77\n{code(70)},77\n{code(71)},77\n")
    status, out, err = program("load", t, csv, "--keep-going")
    assert f'line 3, recording "77": in line 2 already, under {code(70)}\n' in err and err.count("\n") == 2, err
    # A pipe cannot be read again.
    os.remove(t)
    program.done("make", t, 30)
    status, out, err = piped(program, f"{code(1)},1\n{code(2)},2\n{code(1)},3\n{code(3)},2\n", "load", t, "-", "--keep-going")
    assert 'line 3, code' in err and err.count("in an earlier line already") == 2 and err.endswith(", under another code\n"), err


TESTS = [separators_and_encodings, other_columns, numbers_and_codes, the_first_line]
