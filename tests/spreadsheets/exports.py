"""Exports of one sheet: exports.py OFFICE PROGRAM FOLDER. The last line is 'N passed, 0 failed'."""
import os
import subprocess
import sys
from xml.sax.saxutils import escape

OFFICE, PROGRAM, FOLDER = sys.argv[1:]
CLASSES = ["open", "room", "closed"]
TITLES = ["A song", "Heroes, part 2", 'The "old" one', "a;b", "two\nlines", "", "Lied für Ä – und Ö", "tab\there", "#5", "7"]
STYLES = ["", "point", "comma", "text"]

DOCUMENT = """<?xml version="1.0" encoding="UTF-8"?>
<office:document xmlns:office="urn:oasis:names:tc:opendocument:xmlns:office:1.0" xmlns:table="urn:oasis:names:tc:opendocument:xmlns:table:1.0"
 xmlns:text="urn:oasis:names:tc:opendocument:xmlns:text:1.0" xmlns:style="urn:oasis:names:tc:opendocument:xmlns:style:1.0"
 xmlns:number="urn:oasis:names:tc:opendocument:xmlns:datastyle:1.0" office:version="1.2" office:mimetype="application/vnd.oasis.opendocument.spreadsheet">
<office:automatic-styles>
<number:number-style style:name="n1" number:language="en" number:country="US"><number:number number:decimal-places="1" number:min-decimal-places="1" number:min-integer-digits="1"/></number:number-style>
<number:number-style style:name="n2" number:language="de" number:country="DE"><number:number number:decimal-places="2" number:min-decimal-places="2" number:min-integer-digits="1"/></number:number-style>
<style:style style:name="point" style:family="table-cell" style:data-style-name="n1"/>
<style:style style:name="comma" style:family="table-cell" style:data-style-name="n2"/>
</office:automatic-styles>
<office:body><office:spreadsheet><table:table table:name="Sheet">%s</table:table></office:spreadsheet></office:body></office:document>
"""


def code(i):
    return f"AA00019{i:05}"


def written(i):
    """A code as people write it into a cell."""
    plain, c = code(i), ["-", "\u2013", " ", "\u2014", ""][i % 5]
    return ["", "ISRC ", "isrc: "][i % 3] + c.join((plain[:2], plain[2:5], plain[5:7], plain[7:]))


def cell(value, style=""):
    if isinstance(value, int):
        named = f' table:style-name="{style}"' if style else ""
        return f'<table:table-cell{named} office:value-type="float" office:value="{value}"/>'
    if value == "":
        return "<table:table-cell/>"
    paragraphs = "".join(f"<text:p>{escape(part).replace(chr(9), '<text:tab/>')}</text:p>" for part in value.split("\n"))
    return f'<table:table-cell office:value-type="string">{paragraphs}</table:table-cell>'


def sheet(rows):
    lines = []
    for cells in rows:
        lines.append("<table:table-row>" + "".join(cell(*(c if isinstance(c, tuple) else (c,))) for c in cells) + "</table:table-row>")
    return DOCUMENT % "\n".join(lines)


def export(names, separator, charset, quote_all, as_shown):
    """The sheets as LibreOffice writes them with these choices of its dialogue."""
    options = f"csv:Text - txt - csv (StarCalc):{separator},34,{charset},1,,0,{str(quote_all).lower()},{str(as_shown).lower()}"
    made = [os.path.join(FOLDER, name + ".csv") for name in names]
    for path in filter(os.path.exists, made):
        os.remove(path)
    subprocess.run([OFFICE, "--headless", f"-env:UserInstallation=file://{FOLDER}/profile", "--convert-to", options, "--outdir", FOLDER,
                    *[os.path.join(FOLDER, name + ".fods") for name in names]], check=True, stdout=subprocess.DEVNULL, stderr=subprocess.DEVNULL, timeout=300)
    return made


def loads(made, rows, *words):
    """The file loads into a new table, which then has these rows."""
    table = os.path.join(FOLDER, "table")
    if os.path.exists(table):
        os.remove(table)
    subprocess.run([PROGRAM, "make", table, "100"], check=True, stdout=subprocess.DEVNULL)
    run = subprocess.run([PROGRAM, "load", table, made, *words], capture_output=True, text=True)
    with open(made, "rb") as f:
        assert run.returncode == 0, (run.stderr, f.read()[:400])
    listed = subprocess.run([PROGRAM, "list", table], check=True, capture_output=True, text=True).stdout
    assert listed == "".join(f"{c},{r},{access}\n" for c, r, access in rows), listed


def main():
    passed, count = 0, 60
    rows = [(code(i), 1000 + i, CLASSES[i % 3]) for i in range(1, count)]
    opened = [(c, r, "open") for c, r, _ in rows]
    recording = lambda i: (1000 + i, STYLES[i % 3]) if STYLES[i % 4] != "text" else str(1000 + i)
    header = ["Title, as printed", "ISRC", "Label", "Recording No.", "Class"]
    body = [[TITLES[i % len(TITLES)], written(i), "x" if i % 2 else "", recording(i), CLASSES[i % 3] if i % 3 else ""] for i in range(1, count)]
    sheets = {"whole": (sheet([header] + body), rows, []),
              "foreign": (sheet([["Titel", "Kennung", "", "Aufnahme", ""]] + body), opened, ["--columns", "code=Kennung,recording=Aufnahme"]),
              "bare": (sheet(body), rows, ["--columns", "code=2,recording=4,class=5"]),
              "small": (sheet([["code", "recording", "class"]] + [[r[1], r[3], r[4]] for r in body]), rows, []),
              "pairs": (sheet([[r[1], r[3]] for r in body]), opened, [])}
    for name, (text, _, _) in sheets.items():
        with open(os.path.join(FOLDER, name + ".fods"), "w", encoding="utf-8") as f:
            f.write(text)
    # Commas, semicolons, tabs; UTF-8 and UTF-16; only what needs quotes, or all texts; numbers as shown, or as they are.
    for separator, charset, quote_all, as_shown in ((44, 76, False, True), (59, 76, False, True), (9, 65535, False, True), (59, 65535, True, True),
                                                    (44, 65535, True, False), (9, 76, True, False)):
        for made, (_, wanted, words) in zip(export(sheets, separator, charset, quote_all, as_shown), sheets.values()):
            loads(made, wanted, *words)
            passed += 1
    print(f"{passed} passed, 0 failed")


if __name__ == "__main__":
    main()
