"""The short scripts by their numbers: each one's actions, and what they do, by an own reading of the request."""
import itertools

from drive import *



def all_scripts():
    """In the request's order: by length, then by the first action that differs, insert before delete, then the smaller key."""
    actions = [(kind, key) for kind in ("insert", "delete") for key in (1, 2, 3)]
    return [list(s) for length in range(5) for s in itertools.product(actions, repeat=length)]


def plural(n, what):
    return f"{n} {what}" if n == 1 else f"{n} {what}s"


def told(held, kind, key):
    """What an action does to a root leaf with these keys, all in one line of memory; the keys after it are left in the list."""
    n, p = len(held), sum(k < key for k in held)
    if kind == "insert":
        if key in held:
            return f"add #{key},{10 + key},open: refused with 7, #{key} is in the table already"
        held.add(key)
        return f"add #{key},{10 + key},open: done ({plural(4 + 2 * (n - p), 'store')}, 1 flush)"
    if key not in held:
        return f"remove #{key}: refused with 9, #{key} is not in the table"
    held.remove(key)
    return f"remove #{key}: done ({plural(2 * (n - p), 'store')}, 1 flush)"


def scripts_by_number(program, folder):
    scripts = all_scripts()
    assert len(scripts) == 1555
    chosen = range(0, 1555, 1 if program.quick else 61)
    for number in sorted({*chosen, 0, 1, 6, 7, 42, 43, 258, 259, 1554}):
        held = set()
        lines = [f"script {number}: {plural(len(scripts[number]), 'action')}"]
        lines += [f"{i}  {told(held, *action)}" for i, action in enumerate(scripts[number], 1)]
        assert program.done("script", number) == "\n".join(lines) + "\n", number
    return f"{len(chosen)} of {len(scripts)} scripts"


def numbers_without_a_script(program, folder):
    for number in (1555, 1556, 2**32, 2**64 - 1):
        program.refuses(NO_SCRIPT, f"{number}: the scripts have the numbers 0 to 1554", "script", number)
    for word in ("x", "-1", "", "1.5", 2**64, "0x10"):
        program.refuses(NO_SCRIPT, "the scripts have the numbers 0 to 1554", "script", "--", word)
    program.refuses(BAD_USAGE, "usage: catalogue script NUMBER ", "script")
    program.refuses(BAD_USAGE, "usage: catalogue script NUMBER ", "script", 1, 2)
    program.refuses(BAD_USAGE, "script takes no --wait", "script", 1, "--wait", 1)


TESTS = [scripts_by_number, numbers_without_a_script]
