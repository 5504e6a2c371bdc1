"""Faults planted in a copy of the reader or of the counter: each must be noticed. faults.py COMMAND, which builds {folder}/tried of the sources in
{folder} and the objects of {parts}, for a reader that forgets more than {few} copies at once."""
import concurrent.futures
import pathlib
import subprocess
import sys
import tempfile

HERE = pathlib.Path(__file__).resolve().parent
FILE = HERE.parent.parent / "file"

# What notices a fault: how many copies are few to its reader, its parts, its words.
PLACING = (64, "placing scenes writer", [])
AT_ONCE = (0, "placing scenes writer", [])
DAMAGED = (5, "damaged writer", ["1", "1000"])

# What is wrong, in which file, what stands there, what is put there, and what notices it if not the placings.
FAULTS = [
    ("no second pass", "looks.c", "counter_at_most_one(start, end) && unchanged(l) &&", "counter_at_most_one(start, end) &&"),
    ("no counter, two passes alone", "counter.h", "return end - start <= (start % 2 == 0 ? 2 : 1);", "return end >= start;"),
    ("one bracket too many after an even counter", "counter.h", "(start % 2 == 0 ? 2 : 1)", "(start % 2 == 0 ? 4 : 1)"),
    ("one bracket too many after an odd counter", "counter.h", "(start % 2 == 0 ? 2 : 1)", "2"),
    ("the counter is not read after the second pass", "looks.c", " && counter_at_most_one(start, shared_load(l->counter));", ";"),
    ("an odd counter that stands is taken for an even one", "looks.c", "l->holds = start % 2 == 0 && end == start;", "l->holds = end == start;"),
    ("the end is not looked at", "looks.c", "l->holds = start % 2 == 0 && end == start;", "l->holds = start % 2 == 0;"),
    ("copies are kept though the counter has moved", "looks.c", "bool kept = l->holds && start == l->valid;", "bool kept = l->holds;"),
    ("copies are used though the counter has moved", "looks.c", "if (l->holds && l->filled && shared_load(l->counter) == l->valid) {", "if (l->holds && l->filled) {"),
    ("a search passes a sibling of which it has the fence alone", "looks.c", "        words[SIBLING] = CATALOGUE_MARK;\n", ""),
    ("leaves that were not looked at are passed", "looks.c", "copy_of(l, n)[LEVEL] = NO_LEVEL;", "copy_of(l, n)[LEVEL] = 0;"),
    ("the second pass leaves the header out", "looks.c", "bool still = same(l, 0, l->count < HEADER_WORDS ? l->count : HEADER_WORDS);", "bool still = true;"),
    ("many copies are not forgotten", "looks.c", "        memset(l->state, LOOKS_UNGUARDED, l->nodes + 1);\n", "", AT_ONCE),
    ("copies that were forgotten at once are taken for zeros", "looks.c", "        l->forgot = true;\n", "", DAMAGED),
    ("copies that were forgotten one by one are passed", "looks.c", "        guard(l, n);\n    }\n}", "    }\n}", DAMAGED),
    ("the counter is not raised", "counter.c", "    if (!is_open(c->word))\n        open_bracket(c->word);\n", ""),
    ("a repair in one bracket", "counter.c", "    if (c->brackets == BRACKET_STORE)\n        counter_close(c->word);\n", ""),
    ("a batch in one bracket", "counter.c", "    if (c->brackets == BRACKET_FLUSH)\n        counter_close(c->word);\n", "    (void)c;\n"),
    ("the bracket of a killed writer goes on", "counter.c", "    counter_close(word);\n    return", "    return"),
]


def planted(fault, folder):
    name, place, old, new = fault[:4]
    for source in FILE.glob("*.[ch]"):
        text = source.read_text()
        if source.name == place:
            if text.count(old) != 1:
                sys.exit(f"{name}: {place} does not have the place once")
            text = text.replace(old, new)
        (folder / source.name).write_text(text)


def tried(fault, command):
    """What is said of it; nothing if it is not noticed."""
    few, parts, words = fault[4] if len(fault) > 4 else PLACING
    with tempfile.TemporaryDirectory() as folder:
        planted(fault, pathlib.Path(folder))
        for place, value in (("{folder}", folder), ("{few}", str(few)), ("{parts}", "{" + parts.replace(" ", ",") + "}")):
            command = command.replace(place, value)
        subprocess.run(["bash", "-c", command], check=True)
        ran = subprocess.run([pathlib.Path(folder) / "tried", *words], capture_output=True, text=True)
    return ran.stdout.strip() if ran.returncode == 1 else ""


def main(command):
    with concurrent.futures.ThreadPoolExecutor(2) as pool:
        said = list(pool.map(lambda fault: tried(fault, command), FAULTS))
    for fault, words in zip(FAULTS, said):
        print(f"   {fault[0]}: {words or 'NOT NOTICED'}")
    passed = sum(map(bool, said))
    print(f"{passed} passed, {len(FAULTS) - passed} failed")
    return passed != len(FAULTS)


if __name__ == "__main__":
    sys.exit(main(sys.argv[1]))
