"""Faults planted in a source of the file library: each must be noticed by a test of the sums. faults.py COMMAND FOLDER: the command builds
{folder}/tried of the test {test}, with the source {source} of {folder} and the library's others; the test has its files in FOLDER."""
import concurrent.futures
import pathlib
import subprocess
import sys
import tempfile

HERE = pathlib.Path(__file__).resolve().parent
FILE = HERE.parent.parent / "file"

# What is wrong, in which file, what stands there, what is put there, and which test notices it.
FAULTS = [
    ("the journal is not waited for", "sums.c", "    if (!keep(f, slot, journal_size(journal)))\n        return not_kept(f);\n", "", "cuts"),
    ("every journal in the same place", "sums.c", "    s->slot = 1 - s->slot;\n", "", "cuts"),
    ("what the change before the last has left is not known", "sums.c", "    case JOURNAL_SILENT:\n        return is_left_before(s, j.before, line, words);\n", "", "cuts"),
    ("what a cut change has left is not known", "sums.c", "return sum_of(s, line, after) != entry_of(s, line) || is_left_before(s, j.before, line, words);", "return is_left_before(s, j.before, line, words);", "cuts"),
    ("a line may be what it was before the last change", "sums.c", "return sum_of(s, line, after) != entry_of(s, line) || is_left_before(s, j.before, line, words);", "return true;", "flips"),
    ("what came back to what it was is called decay", "sums.c", "!= entry_of(s, line) || is_left_before(s, j.before, line, words);", "!= entry_of(s, line);", "cuts"),
    ("a torn journal is taken", "journal.c", "\n           && journal[JOURNAL_SUM] == sum_of(journal, crc)", " && crc", "cuts"),
    ("a journal ends within a line's stores", "journal.c", "if (room && (order[0] == CATALOGUE_MARK || i + 1 == count)) {", "if (room) {", "cuts"),
    ("sums are not stored after a change", "memory.c", "        sums_after(f);\n", "        (void)0;\n", "flips"),
    ("sums are stored though the lines are not on the disk", "memory.c", "if (f->fast || orders[2 * (*some - 1)] == CATALOGUE_MARK)", "if (*some > 0)", "cuts"),
    ("the fence of a sibling is not tested", "looks.c", "        test(l, n, words, 1);\n        words[LEFT] = 0;", "        words[LEFT] = 0;", "flips"),
    ("the header is not tested", "looks.c", "        test(l, 0, l->words, 1);\n", "", "flips"),
    ("the first line of a node alone is tested", "looks.c", "NODE_WORDS / LINE_WORDS);", "1);", "flips"),
    ("a node that does not fit is kept", "looks.c", "        l->holds = false;\n        *number", "        *number", "flips"),
    ("a writer takes lines that do not fit", "sums.c", "        if (!is_underway(s, line, words))\n            return false;\n", "", "flips"),
    ("a change of a decayed table", "moment.c", "        return number == 0 ? sums_refuse(f) : number;\n", "        return number;\n", "flips"),
    ("a line's number is not in its sum", "crc.c", "line_by_instruction(words + LINE_WORDS * i) ^ (uint32_t)(first + i);", "line_by_instruction(words + LINE_WORDS * i) ^ (uint32_t)(first * 0);", "states"),
    ("another table's sums are taken", "sums.c", " && words[HEAD_IDENTITY] == s->identity && s->identity != 0;", " && s->identity != 0;", "states"),
    ("what programs without sums have changed is called decay", "sums.c", "counter > j.last[JOURNAL_TO]", "counter > UINT64_MAX - 1", "states"),
    ("a writer's scrub looks at its old copy", "scrub.c", "    f->stale = f->stale || (f->writing && f->sums.mapped);\n", "", "states"),
    ("a writer goes on without sums that memory is short for", "sums.c", "    s->trouble = CATALOGUE_FILE_BAD_SUMS;\n    s->why = ENOMEM;\n", "", "states"),
    ("holes of a file of sums stay", "sums.c", "f->writing && !fill_holes(", "false && !fill_holes(", "states"),
    ("brackets are counted too low", "sums.c", "begun += store && !open;", "begun += store && !open && i > 0;", "flips"),
    ("sums without a cut's order: the trailer first, no other name", "scrub.c", "    number = identify(f, identity);\n    if (number == 0 && !sums_put(f))", "    if (!sums_put(f) || identify(f, identity) != 0)", "cuts"),
    ("a loaded file gets its sums after it has the name", "memory.c", "bool ready = sums == 0 || sums_prepare(f, f->working, sums, 0);", "bool ready = true;", "cuts"),
]


def planted(fault, folder):
    name, place, old, new, _ = fault
    text = (FILE / place).read_text()
    if text.count(old) != 1:
        sys.exit(f"{name}: {place} does not have the place once")
    (folder / place).write_text(text.replace(old, new))


def tried(fault, command, scratch):
    """What is said of it; nothing if it is not noticed."""
    with tempfile.TemporaryDirectory() as folder, tempfile.TemporaryDirectory(dir=scratch) as files:
        planted(fault, pathlib.Path(folder))
        built = command.replace("{folder}", folder).replace("{test}", fault[4]).replace("{source}", fault[1].removesuffix(".c"))
        subprocess.run(["bash", "-c", built], check=True)
        ran = subprocess.run([pathlib.Path(folder) / "tried", files], capture_output=True, text=True)
    failed = [line for line in ran.stdout.splitlines() if line.startswith("FAILED")]
    return failed[0] if ran.returncode == 1 and failed else ""


def main(command, scratch):
    faults = FAULTS
    with concurrent.futures.ThreadPoolExecutor(2) as pool:
        said = list(pool.map(lambda fault: tried(fault, command, scratch), faults))
    for fault, words in zip(faults, said):
        print(f"   {fault[0]}: {words[:150] or 'NOT NOTICED'}")
    passed = sum(map(bool, said))
    print(f"{passed} passed, {len(faults) - passed} failed")
    return passed != len(faults)


if __name__ == "__main__":
    sys.exit(main(*sys.argv[1:3]))
