"""all.py BUILT FS MOST SEED: power cuts during every command and every call that writes (histories.py), on a file system whose disk writes
down each write and each flush. MOST: at most so many images of each history, taken at random; 0 for all. In the end the same with a wait for the
disk taken away, which must be noticed."""
import os
import sys
import tempfile
import time

import histories
from trial import Judge, Trial, Wrong


def said(seen):
    words = {"first": "first parts", "some": "choices", "torn": "torn", "refused": "of these refused by the file system", "fast": "before the end of --fast"}
    return ", ".join(f"{seen[kind]} {what}" for kind, what in words.items() if seen[kind])


def tried(trial, history, tables, library, most):
    """What was seen of a history's images."""
    try:
        history(trial, tables, library)
        return trial.try_all(most)
    except BaseException:
        if trial.recording:
            trial.recording.abandon()
        raise


def notices(judge, folder, fs, seed, tables, built):
    """The same with a wait for the disk that is none: some image is wrong."""
    for call, history in (("msync", histories.single_changes), ("fsync", histories.made), ("fsync", histories.loaded_packed)):
        trial = Trial(judge, folder, fs, f"{seed} {fs}", f"{built}/no-{call}.so")
        try:
            tried(trial, history, tables, None, 0)
        except Wrong:
            continue
        raise AssertionError(f"{fs}: nobody notices that there is no {call}")


def main(built, fs, most, seed):
    memory = "/dev/shm" if os.path.isdir("/dev/shm") else None
    with tempfile.TemporaryDirectory(dir=memory, ignore_cleanup_errors=True) as folder:
        judge = Judge(f"{built}/catalogue", folder)
        tables, total, kills = histories.tables(judge, folder), 0, 0
        for name, history in histories.ALL:
            began = time.monotonic()
            trial = Trial(judge, folder, fs, f"{seed} {fs} {name}")
            seen = tried(trial, history, tables, f"{built}/libcatalogue.so", int(most))
            count = seen["first"] + seen["some"] + seen["torn"]
            total += count
            kills += trial.killed
            killed = f", {trial.killed} killed at work" if trial.killed else ""
            print(f"{fs}, {name}: {count} images ({said(seen)}){killed}, {time.monotonic() - began:.0f} s: passed", flush=True)
        assert kills > 0, "nothing was killed at work"
        notices(judge, folder, fs, seed, tables, built)
        print(f"{fs}: an msync and an fsync that are none are noticed: passed")
        print(f"{fs}: {total} images, {len(judge.known)} different contents of files, {judge.tried} of them sound, repaired and changed; {kills} killed at work: passed", flush=True)


main(*sys.argv[1:])
