"""Runs single tests of the program: one.py PROGRAM MODULE.FUNCTION .. The last line is 'N passed, 0 failed'."""
import importlib
import os
import shutil
import signal
import sys
import tempfile
import traceback

from drive import Program


def main(path, names):
    signal.signal(signal.SIGINT, signal.default_int_handler)
    signal.signal(signal.SIGTERM, signal.SIG_DFL)
    program = Program([path], "plain", True)
    for name in names:
        module, function = name.split(".")
        folder = tempfile.mkdtemp(prefix="catalogue-", dir="/dev/shm" if os.access("/dev/shm", os.W_OK) else None)
        os.chmod(folder, 0o755)
        try:
            said = getattr(importlib.import_module(module), function)(program, folder)
        except Exception:
            print(f"{traceback.format_exc()}FAILED: {name}")
            return 1
        finally:
            shutil.rmtree(folder)
        print(f"{name}{': ' + said if said else ''}", flush=True)
    print(f"{len(names)} passed, 0 failed")
    return 0


if __name__ == "__main__":
    sys.exit(main(sys.argv[1], sys.argv[2:]))
