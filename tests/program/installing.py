"""make install, and what the Makefile builds again."""
import os
import re
import shutil
import subprocess
import sys

from commands import SHELL
from drive import *

# The header's folder: the repository's, unless the words for make name another.
INCLUDE = next((word.split("=", 1)[1] for word in sys.argv if word.startswith("INCLUDE=")), os.path.join(SHELL, "..", "include"))

EXAMPLE = r"""
#include <stdio.h>
#include "catalogue.h"
int main(void)
{
    uint64_t table[8 + 32 * 2], saved[8 + 32 * 2], report[36 * 2], orders[CATALOGUE_LONG_LIST_WORDS];
    uint64_t key, recording, access, next, higher, stores, flushes, barriers, dropped;
    size_t words = sizeof table / sizeof table[0];
    if (catalogue_version() != CATALOGUE_VERSION || catalogue_make(table, words, 2) != 0
        || catalogue_parse((const uint8_t *)"AA0001912345", 12, &key) != 0
        || catalogue_insert(table, words, 2, orders, CATALOGUE_LIST_WORDS, 2, key, 7, CATALOGUE_ROOM, &stores, &flushes, &barriers) != CATALOGUE_NO_DOCK
        || catalogue_insert(table, words, 2, orders, CATALOGUE_LONG_LIST_WORDS, CATALOGUE_UNORDERED, key, 7, CATALOGUE_ROOM, &stores, &flushes,
                            &barriers) != 0
        || stores != 4 || barriers != 4 || orders[2] != CATALOGUE_BARRIER || orders[3] != 0
        || catalogue_search(table, words, 2, key, &recording, &access, &next, &higher) != 0 || access != CATALOGUE_ROOM
        || catalogue_set_class(table, words, 2, orders, CATALOGUE_LIST_WORDS, CATALOGUE_ORDERED, key, CATALOGUE_CLOSED, &stores, &flushes,
                               &barriers) != 0
        || catalogue_search(table, words, 2, key, &recording, &access, &next, &higher) != 0 || access != CATALOGUE_CLOSED
        || catalogue_search(table, words, 2, 0, &recording, &access, &next, &higher) != CATALOGUE_ABSENT || higher != 1 || next != key
        || catalogue_search(table, words, 1, 0, &recording, &access, &next, &higher) != CATALOGUE_ABSENT || higher != 0
        || catalogue_search(table, words, 3, 0, &recording, &access, &next, &higher) != CATALOGUE_NO_COLLECTION
        || catalogue_salvage(table, words, saved, words, report, 36 * 2, &dropped) != 0 || dropped != 0
        || catalogue_search(saved, words, 2, key, &recording, &access, &next, &higher) != 0 || access != CATALOGUE_CLOSED)
        return 1;
    printf("%d\n", (int)recording);
}
"""


def make(*words):
    run = subprocess.run(["make", "--no-print-directory", "-C", SHELL, *sys.argv[3:], *words], text=True, capture_output=True)
    assert run.returncode == 0, run.stderr
    return run.stdout


def installed(program, folder):
    """Each file under its place; a C program is built with what the pkg-config file says, and the manual page is one."""
    make("install", f"PREFIX={folder}/usr")
    place = f"{folder}/usr"
    files = {os.path.relpath(os.path.join(at, f), place) for at, _, names in os.walk(place) for f in names}
    number = re.search(r"(?m)^#define CATALOGUE_VERSION (\d+)$", contents(f"{INCLUDE}/catalogue.h").decode())[1]
    assert files == {"bin/catalogue", "include/catalogue.h", "include/catalogue_file.h", "lib/libcatalogue.a", "lib/libcatalogue.so",
                     f"lib/libcatalogue.so.{number}", "lib/pkgconfig/catalogue.pc", "share/man/man1/catalogue.1",
                     "share/man/man3/catalogue_file.3", "share/bash-completion/completions/catalogue",
                     "share/catalogue/catalogue.py"}, files
    version = program.done("--version")
    assert version == f"catalogue 0.{number}\n", version
    assert Program([f"{place}/bin/catalogue"], "installed", True).done("--version") == version
    with open(f"{place}/share/man/man1/catalogue.1") as f:
        page = f.read()
    assert version.strip() in page and "@" not in page, page[:200]
    with open(f"{place}/lib/pkgconfig/catalogue.pc") as f:
        described = f.read()
    assert f"Version: {version.split()[1]}\n" in described and "@" not in described, described
    values = {"prefix": place, "libdir": f"{place}/lib", "includedir": f"{place}/include"}
    named = dict(line.split(": ", 1) for line in described.splitlines() if ": " in line)
    libs, cflags = (re.sub(r"\$\{(\w+)\}", lambda m: values[m[1]], named[which]).split() for which in ("Libs", "Cflags"))
    source, built = f"{folder}/use.c", f"{folder}/use"
    with open(source, "w") as f:
        f.write(EXAMPLE)
    # With the shared library, and with the static one.
    shared = dict(os.environ, LD_LIBRARY_PATH=f"{place}/lib")
    for named, environment in ((libs, shared), ([f"{place}/lib/libcatalogue.a"], os.environ)):
        subprocess.run(["gcc", *cflags, source, *named, "-o", built], check=True)
        assert subprocess.run([built], text=True, capture_output=True, check=True, env=environment).stdout == "7\n"


def installed_below_another_root(program, folder):
    make("install", "PREFIX=/usr", f"DESTDIR={folder}/root")
    with open(f"{folder}/root/usr/lib/pkgconfig/catalogue.pc") as f:
        assert f.read().startswith("prefix=/usr\n")


def an_edited_crate_is_built_again(program, folder):
    """As make sees it, if a file of a crate is newer than the library."""
    if any(word.startswith("LIBRARY=") for word in sys.argv[3:]):
        return "not with another library"
    assert "build-library" not in make("-n")
    for path in ("search/src/lib.rt", "model/specs/Search.antt", "search/proofs"):
        path = os.path.join("..", "crates", path)
        if os.path.isdir(os.path.join(SHELL, path)):
            path = next(os.path.join(at, f) for at, _, names in os.walk(os.path.join(SHELL, path)) for f in names)
            path = os.path.relpath(path, SHELL)
        assert "build-library" in make("-n", "-W", path), path
    return None


def a_library_of_another_version(program, folder):
    """A program that was compiled with another header than its library's says so and does nothing."""
    with open(f"{INCLUDE}/catalogue.h") as f:
        header = f.read()
    other = re.sub(r"(?m)^#define CATALOGUE_VERSION \d+$", "#define CATALOGUE_VERSION 99", header)
    assert other != header
    with open(f"{folder}/catalogue.h", "w") as f:
        f.write(other)
    shutil.copy(f"{INCLUDE}/catalogue_file.h", folder)
    make(f"OUT={folder}/out", f"INCLUDE={folder}")
    stale = Program([f"{folder}/out/catalogue"], "of another version", True)
    for words in (["make", f"{folder}/t", 1], ["--help"]):
        stale.refuses(BAD_FILE, r"^catalogue: built for version 99 of the library and linked with version \d+$", *words)
    assert not os.path.exists(f"{folder}/t")


TESTS = [installed, installed_below_another_root, an_edited_crate_is_built_again, a_library_of_another_version]
