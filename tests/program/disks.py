"""Disks that are full, quotas, tables with holes, mounts that are read-only: an error and no crash, and the table as it was. File systems in memory
are mounted for it, which takes the superuser; without that a test says so."""
import contextlib
import os
import subprocess

from drive import *

OTHER = {"user": 65534, "group": 65534}


@contextlib.contextmanager
def mounted(place, *options):
    """A file system in memory, if it can be mounted: its folder, or None."""
    os.mkdir(place)
    done = os.geteuid() == 0 and subprocess.run(["mount", "-t", "tmpfs", "-o", ",".join(options), "none", place], capture_output=True).returncode == 0
    try:
        yield place if done else None
    finally:
        if done:
            subprocess.run(["umount", place], check=True)
        os.rmdir(place)


def fill_up(place):
    """Takes all room that is left there."""
    with contextlib.suppress(OSError), open(f"{place}/full", "wb", buffering=0) as f:
        while f.write(bytes(4096)):
            pass
    assert os.statvfs(place).f_bavail == 0


def small_table(program, t):
    pairs = [(code(6 * i), 1000 + i) for i in range(100)]
    fill(program, t, 60, pairs)
    return {c: (r, "open") for c, r in pairs}


def a_full_disk(program, folder):
    """New files are refused and not left there; the table in its place takes every change, also a load that would have made a new file."""
    with mounted(f"{folder}/disk", "size=256k", "mode=0755") as disk:
        if not disk:
            return "no file system could be mounted"
        t, lines = f"{disk}/t", f"{folder}/lines"
        have = small_table(program, t)
        fill_up(disk)
        before = sorted(os.listdir(disk))
        for words in (["make", f"{disk}/new", 60], ["copy", t, f"{disk}/new"], ["salvage", t, f"{disk}/new"]):
            program.refuses(BAD_FILE, "cannot be (made|written): No space left on device", *words)
        status, out, err = program("list", t, "--output", f"{disk}/new")
        assert (status, out) == (BAD_FILE, "") and "cannot be written: No space left on device" in err, (status, out, err)
        assert sorted(os.listdir(disk)) == before
        more = {code(6 * i + 1): (2000 + i, "room") for i in range(60)}
        with open(lines, "w") as f:
            f.writelines(f"{c},{r},{access}\n" for c, (r, access) in more.items())
        same = os.stat(t).st_ino
        assert program.done("load", t, lines) == "60 added, 0 there already\n"
        program.done("add", t, code(5), 5)
        program.done("remove", t, code(0))
        now = {**have, **more, code(5): (5, "open")}
        del now[code(0)]
        assert everything(program.done("list", t)) == now and os.stat(t).st_ino == same and sorted(os.listdir(disk)) == before


def a_table_with_holes(program, folder):
    """A copy that leaves out pages of zeros: while the disk has no room for them no change is begun, and the file stays as it is; then it takes them
    first."""
    with mounted(f"{folder}/disk", "size=512k", "mode=0755") as disk:
        if not disk:
            return "no file system could be mounted"
        whole, t = f"{folder}/whole", f"{disk}/t"
        program.done("make", whole, 900)
        program.done("add", whole, code(1), 1)
        subprocess.run(["cp", "--sparse=always", whole, t], check=True)
        assert os.stat(t).st_blocks * 512 < os.stat(t).st_size, "no holes"
        fill_up(disk)
        for words in (["add", t, code(2), 2], ["add", t, code(2), 2, "--fast"], ["remove", t, code(1)], ["repair", t]):
            before = contents(t)
            status, out, err = program(*words)
            assert (status, out) == (BAD_FILE, "") and "has no room on its disk for all its words: No space left on device; nothing was changed now" in err, (words, status, out, err)
            assert contents(t) == before, words
        assert program.done("find", t, code(1)) == "1,open\n"
        os.remove(f"{disk}/full")
        program.done("add", t, code(2), 2)
        assert os.stat(t).st_blocks * 512 >= os.stat(t).st_size
        fill_up(disk)
        for i in range(3, 60):
            program.done("add", t, code(i), i)
        assert len(listed(program.done("list", t))) == 59


def a_quota(program, folder):
    """A user whose quota is reached."""
    os.chmod(folder, 0o755)
    with mounted(f"{folder}/disk", "size=1m", "mode=0777", "usrquota", "usrquota_block_hardlimit=64k") as disk:
        try:
            program.done("--help", **OTHER)
        except (OSError, subprocess.SubprocessError):
            disk = None
        if not disk:
            return "no file system with quotas could be mounted, or no other user"
        t = f"{disk}/t"
        program.done("make", t, 100, **OTHER)
        program.done("add", t, code(1), 1, **OTHER)
        for words in (["make", f"{disk}/new", 200], ["copy", t, f"{disk}/new", 200], ["salvage", t, f"{disk}/new"]):
            status, out, err = program(*words, **OTHER)
            if words[0] == "make" or status != 0:
                assert (status, out) == (BAD_FILE, "") and "Disk quota exceeded" in err, (words, status, out, err)
            assert os.listdir(disk) == ["t"] or status == 0, os.listdir(disk)
        for name in set(os.listdir(disk)) - {"t"}:
            os.remove(f"{disk}/{name}")
        # Of a table with holes.
        whole, holes = f"{folder}/whole", f"{disk}/holes"
        program.done("make", whole, 500)
        os.chmod(whole, 0o644)
        subprocess.run(["cp", "--sparse=always", whole, holes], check=True, **OTHER)
        status, out, err = program("add", holes, code(1), 1, **OTHER)
        assert (status, out) == (BAD_FILE, "") and "has no room on its disk for all its words: Disk quota exceeded" in err, (status, out, err)
        assert program.done("find", t, code(1), **OTHER) == "1,open\n"


def a_mount_that_is_read_only(program, folder):
    """A table on a file system that nothing is written to, and one that is mounted so by itself: read, and refused to writers."""
    with mounted(f"{folder}/disk", "size=1m", "mode=0755") as disk:
        if not disk:
            return "no file system could be mounted"
        t = f"{disk}/t"
        have = small_table(program, t)
        alone = f"{folder}/alone"
        open(alone, "w").close()
        subprocess.run(["mount", "--bind", t, alone], check=True)
        subprocess.run(["mount", "-o", "remount,bind,ro", alone], check=True)
        try:
            program.refuses(BAD_FILE, "cannot be opened for writing: Read-only file system", "add", alone, code(1), 1)
            assert everything(program.done("list", alone)) == have
            program.done("add", t, code(1), 1)
            assert program.done("find", alone, code(1)) == "1,open\n"
        finally:
            subprocess.run(["umount", alone], check=True)
        subprocess.run(["mount", "-o", "remount,ro", disk], check=True)
        for words in (["add", t, code(2), 2], ["remove", t, code(1)], ["repair", t], ["load", t, "/dev/null"]):
            program.refuses(BAD_FILE, "cannot be opened for writing: Read-only file system", *words)
        for words in (["make", f"{disk}/new", 9], ["copy", t, f"{disk}/new"], ["salvage", t, f"{disk}/new"]):
            program.refuses(BAD_FILE, "cannot be made: Read-only file system", *words)
        assert len(listed(program.done("list", t))) == 101


TESTS = [a_full_disk, a_table_with_holes, a_quota, a_mount_that_is_read_only]
