"""Plants faults in copies of file/, shell/ and film/, one at a time, and runs the test that must notice each.

faults.py LIBRARY [--gate | NAME ..]: all edits of this folder, those that say 'gate: yes', or those named. The last line is 'N passed, 0 failed'.

An edit's first line says what is wrong; then come
    test: what must notice it, as below
    gate: yes, if the gate tries it
    file: the file below the top
    old:  text that stands there once; further lines of it begin with a bar and a space
    new:  what is put there
and as many file:, old: and new: as it takes. Tests:
    program MODULE.FUNCTION ..   of tests/program, on the program
    placing                      tests/readers/placing.c, over file/looks.c
    moments                      tests/readers/moments.c, over file/moment.c
    fails NAME ..                tests/fails/fails.py
    fuzz                         tests/fuzz, some of its inputs
Each test passes without a fault first; in the gate those of the program do so by themselves."""
import concurrent.futures
import os
import pathlib
import shutil
import subprocess
import sys
import tempfile
import time

HERE = pathlib.Path(__file__).resolve().parent
TOP = HERE.parent.parent
FLAGS = ["-std=c11", "-D_GNU_SOURCE", "-O1", "-w"]
AT_ONCE = 2


class Edit:
    def __init__(self, path):
        self.name, self.gate, self.test, self.changes = path.stem, False, None, []
        lines = path.read_text().splitlines()
        self.wrong, file, parts = lines[0], None, None
        for line in lines[1:]:
            word, _, rest = line.partition(": ")
            if line.startswith("| "):
                parts.append(line[2:])
            elif word == "test":
                self.test = rest.split()
            elif word == "gate":
                self.gate = rest == "yes"
            elif word == "file":
                file = rest
            elif word == "old":
                parts = [rest]
                self.changes.append((file, parts, []))
            elif word.rstrip(":") == "new":
                parts = self.changes[-1][2]
                parts.append(rest)
            else:
                sys.exit(f"{path}: what is this line? {line}")
        if not self.test or not self.changes or any(not new for _, _, new in self.changes):
            sys.exit(f"{path}: it lacks a test, or a change")

    def plant(self, top):
        for file, old, new in self.changes:
            place = top / file
            text = place.read_text()
            if text.count("\n".join(old)) != 1:
                return f"{file} does not have this once: {' '.join(old)}"
            place.write_text(text.replace("\n".join(old), "\n".join(new)))
        return None


class Tree:
    """The program's sources in a folder, and what is made of them. Objects of sources that are as in the first one are taken from there."""

    def __init__(self, folder, library, first=None):
        self.top, self.library, self.first = folder, library, first
        for part in ("file", "shell", "film", "include"):
            shutil.copytree(TOP / part, folder / part)
        for part in ("samples", "tests"):
            (folder / part).symlink_to(TOP / part)
        (folder / "objects").mkdir()
        (folder / "module.txt").touch()

    def changed(self, source):
        """A source, or a header of a folder that its own may use, is not as in the first tree."""
        if not self.first:
            return True
        folders = {"file": ["file"], "shell": ["shell", "film", "file"], "film": ["film", "shell", "file"]}[source.parent.name]
        others = [path for part in folders for path in (self.top / part).glob("*.h")] + [source]
        return any(path.read_bytes() != (TOP / path.relative_to(self.top)).read_bytes() for path in others)

    def compiled(self, source, *flags):
        name = f"{source.parent.name}-{source.stem}{'-shown' if not flags else ''}.o"
        if not self.changed(source):
            return self.first.top / "objects" / name
        made = self.top / "objects" / name
        defined = ['-DPROGRAM_VERSION="0"', f'-DMODULE_TEXT="{self.top}/module.txt"']
        subprocess.run(["gcc", *FLAGS, *flags, *defined, "-I", self.top / "include", "-I", self.top / "film", "-c", source, "-o", made],
                       cwd=self.top / "shell", check=True)
        return made

    def file_library(self):
        made, joined = self.top / "libcatalogue_file.a", self.top / "objects" / "file_joined.o"
        if not made.exists():
            objects = [self.compiled(source, "-fPIC", "-fvisibility=hidden") for source in sorted((self.top / "file").glob("*.c"))]
            subprocess.run(["ld", "-r", *objects, "-o", joined], check=True)
            subprocess.run(["objcopy", "--localize-hidden", joined], check=True)
            subprocess.run(["ar", "rcs", made, joined], check=True)
        return made

    def program(self):
        made = self.top / "catalogue"
        if not made.exists():
            sources = sorted((self.top / "shell").glob("*.c")) + sorted((self.top / "film").glob("*.c"))
            with concurrent.futures.ThreadPoolExecutor(AT_ONCE) as pool:
                objects = list(pool.map(self.compiled, sources + [self.top / "file" / "stack.c"]))
            subprocess.run(["gcc", *objects, self.file_library(), self.library, "-ldl", "-o", made], check=True)
        return made

    def fuzz(self):
        """As tests/fuzz/run builds it."""
        made, folder, watched = self.top / "fuzz", self.top / "watched", ["-g", "-fsanitize=address,undefined", "-fno-sanitize-recover=all"]
        folder.mkdir()
        defined = ["-Dmain=program_main", '-DPROGRAM_VERSION="0"', f'-DMODULE_TEXT="{self.top}/module.txt"', "-I", self.top / "include", "-I", self.top / "film"]

        def compiled(source, *flags):
            name = folder / f"{source.parent.name}-{source.stem}{'-shown' if not flags else ''}.o"
            subprocess.run(["gcc", *FLAGS, *watched, *flags, *defined, "-c", source, "-o", name], cwd=self.top / "shell", check=True)
            return name

        with concurrent.futures.ThreadPoolExecutor(AT_ONCE) as pool:
            hidden = list(pool.map(lambda source: compiled(source, "-fPIC", "-fvisibility=hidden"), sorted((self.top / "file").glob("*.c"))))
            shown = list(pool.map(compiled, [*(self.top / "shell").glob("*.c"), *(self.top / "film").glob("*.c"), self.top / "file/stack.c"]))
        joined = folder / "file_joined.o"
        subprocess.run(["ld", "-r", *hidden, "-o", joined], check=True)
        subprocess.run(["objcopy", "--localize-hidden", joined], check=True)
        subprocess.run(["gcc", *FLAGS, *watched, "-I", TOP / "include", TOP / "tests/fuzz/fuzz.c", TOP / "tests/fuzz/drive.c", *shown, joined, self.library, "-ldl",
                        "-o", made], check=True)
        return made

    def command(self, test):
        """What runs a test on this tree."""
        kind, *words = test
        if kind == "program":
            return [sys.executable, TOP / "tests/program/one.py", self.program(), *words]
        if kind in ("moments", "placing"):
            made, words = self.top / kind, ["1", "1000000"] if kind == "moments" else []
            names = ["moments.c"] if kind == "moments" else ["placing.c", "scenes.c", "writer.c"]
            parts = ["moment.c"] if kind == "moments" else ["looks.c", "counter.c"]
            subprocess.run(["gcc", *FLAGS, "-DSHARED_HOOKED", "-I", TOP / "include", "-I", self.top / "file", *[TOP / "tests/readers" / name for name in names],
                            *[self.top / "file" / name for name in parts], self.library, "-pthread", "-o", made], check=True)
            return [made, *words]
        if kind == "fails":
            made, sources = self.top / "calls", [TOP / "tests/fails/calls.c"]
            subprocess.run(["gcc", *FLAGS, "-I", TOP / "include", *sources, self.file_library(), self.library, "-o", made], check=True)
            return ["env", f"CALLS_PROGRAM={made}", sys.executable, TOP / "tests/fails/fails.py", self.program(), *[word if "call:" in word else word.replace("_", " ") for word in words]]
        if kind == "fuzz":
            texts = sorted((TOP / "samples/drawings").iterdir()) + sorted((TOP / "tests/fuzz/corpus").iterdir())
            return [self.fuzz(), "1", "0", "600", *texts]
        sys.exit(f"there is no test {kind}")

    def passes(self, test):
        """Whether a test passes, and what it says last."""
        try:
            ran = subprocess.run([str(word) for word in self.command(test)], capture_output=True, text=True, timeout=600, errors="replace")
        except subprocess.TimeoutExpired:
            return False, "it does not end"
        except subprocess.CalledProcessError as failed:
            return None, f"it cannot be built: {failed}"
        said = [line for line in ran.stdout.splitlines() if line]
        passed = ran.returncode == 0 and bool(said) and (said[-1].endswith("passed, 0 failed") or test[0] in ("moments", "placing"))
        wrong = [line for line in said if "Error" in line or "FAILED" in line]
        return passed, (wrong or said or [f"status {ran.returncode}: {ran.stderr[-300:]}"])[0]


def libraries(work):
    """What tests/program/run builds beside the program."""
    for name, source in (("SYNCS_LIBRARY", "syncs"), ("ALLOCATIONS_LIBRARY", "allocations")):
        os.environ[name] = f"{work}/{source}.so"
        subprocess.run(["gcc", *FLAGS, "-shared", "-fPIC", TOP / f"tests/program/{source}.c", "-o", os.environ[name]], check=True)
    os.environ["FAILING_PROGRAM"] = f"{work}/failing"
    subprocess.run(["gcc", *FLAGS, TOP / "tests/fails/failing.c", "-o", os.environ["FAILING_PROGRAM"]], check=True)
    os.environ["STEPS_PROGRAM"] = f"{work}/steps"
    subprocess.run(["gcc", *FLAGS, TOP / "tests/program/steps.c", "-o", os.environ["STEPS_PROGRAM"]], check=True)
    os.environ["PYTHONDONTWRITEBYTECODE"] = "1"


def tried(edit, work, library, first):
    """Whether the fault is noticed, and what is said of it."""
    began = time.monotonic()
    tree = Tree(work / edit.name, library, first)
    wrong = edit.plant(tree.top)
    if wrong:
        return False, f"NOT PLANTED: {wrong}"
    passed, said = tree.passes(edit.test)
    shutil.rmtree(tree.top)
    if passed is None:
        return False, f"NOT PLANTED: {said}"
    return not passed, f"{'NOT NOTICED by ' + ' '.join(edit.test) if passed else said[:150]} ({time.monotonic() - began:.1f} s)"


def unspoilt(edits, first):
    """Each test passes without a fault; those of the program all at once."""
    others = {tuple(edit.test) for edit in edits if edit.test[0] != "program"}
    names = sorted({name for edit in edits if edit.test[0] == "program" for name in edit.test[1:]})
    for test in sorted(others) + ([("program", *names)] if names else []):
        began = time.monotonic()
        passed, said = first.passes(test)
        if not passed:
            sys.exit(f"without a fault this fails already: {' '.join(test)}: {said}")
        print(f"without a fault: {' '.join(test)} ({time.monotonic() - began:.1f} s)", flush=True)


def main(library, words):
    edits = [Edit(path) for path in sorted(HERE.glob("*.edit"))]
    edits = [edit for edit in edits if words == [] or edit.name in words or ("--gate" in words and edit.gate)]
    if not edits:
        sys.exit("there is no such edit")
    if subprocess.run([TOP / "tests/program/may_follow"]).returncode != 0:
        followed = [edit for edit in edits if edit.test[0] == "fails" or any("instructions." in name for name in edit.test)]
        print(f"skipped: {len(followed)} faults whose tests follow a program, which may not be done here (ptrace)")
        edits = [edit for edit in edits if edit not in followed]
    with tempfile.TemporaryDirectory(dir="/dev/shm" if os.access("/dev/shm", os.W_OK) else None) as place:
        work = pathlib.Path(place)
        libraries(work)
        (work / "first").mkdir()
        first = Tree(work / "first" / "tree", library)
        # Its objects are the other trees' too.
        first.program()
        # In the gate the tests of the program run by themselves.
        unspoilt([edit for edit in edits if "--gate" not in words or edit.test[0] != "program"], first)
        passed = 0
        with concurrent.futures.ThreadPoolExecutor(AT_ONCE) as pool:
            for edit, (noticed, said) in zip(edits, pool.map(lambda edit: tried(edit, work, library, first), edits)):
                print(f"{edit.name}: {edit.wrong}\n    {said}", flush=True)
                passed += noticed
    print(f"{passed} passed, {len(edits) - passed} failed")
    return passed != len(edits)


if __name__ == "__main__":
    sys.exit(main(pathlib.Path(sys.argv[1]).resolve(), sys.argv[2:]))
