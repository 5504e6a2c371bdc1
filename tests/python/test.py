"""The Python module over the shared library: test.py FOLDER. The last line is 'N passed, 0 failed'."""
import os
import sys
import threading

import catalogue

folder = sys.argv[1]
name = os.path.join(folder, "room.cat")
passed = 0


def expect(what, ok):
    global passed
    if not ok:
        sys.exit(f"FAILED: {what}")
    passed += 1


def refused(number, call, *words):
    try:
        call(*words)
    except catalogue.Error as e:
        return e.number == number and str(number) in str(e)
    return False


def code(i):
    return f"AA00026{i:05d}"


def codes():
    expect("a code as people write it", catalogue.key("isrc aa-000-19-12345") == 172627201912345)
    expect("a code with dashes", catalogue.key("AA\u2013000\u201319\u201312345") == 172627201912345)
    expect("and back", catalogue.code(172627201912345) == "AA0001912345")
    expect("a key that no code has", catalogue.code(5) == "#5" and catalogue.key("#5") == 5)
    expect("no code", refused(1, catalogue.key, "1A0001912345"))
    plays = [(a, r) for a in catalogue.CLASSES + ("odd",) for r in (False, True) if catalogue.may_play(a, r)]
    expect("what may play where", plays == [("open", False), ("open", True), ("room", True)])


def changes():
    catalogue.create(name, 40)
    expect("a file that is there stays", refused(302, catalogue.create, name, 40))
    expect("no file", refused(301, catalogue.open, name + ".not"))
    with catalogue.open(name, writing=True) as table:
        for i in range(100, 0, -1):
            table.add(code(10 * i), 1000 + i, catalogue.CLASSES[i % 3])
        expect("a code twice", refused(7, table.add, code(10), 5))
        expect("a recording twice", refused(8, table.add, code(11), 1001))
        expect("no such class", refused(14, table.add, code(11), 5, "odd"))
        expect("a second writer", refused(305, catalogue.open, name, True))
        table.set_class(code(20), "closed")
        table.remove(code(30))
        expect("a code that is not there", refused(9, table.remove, code(30)))
        table.repair()


def reads():
    with catalogue.open(name) as table:
        expect("found", table.find("aa-000-26-00010") == catalogue.Pair(code(10), 1001, "room"))
        expect("class changed", table.find(code(20)).access == "closed")
        absent = table.find(code(30))
        expect("absent, with the next code up", not absent and absent.next == code(40))
        expect("none higher", table.find("ZZZZZ9999999") == catalogue.Absent(None))
        expect("17", refused(17, table.find, code(10), 2))
        want = [catalogue.Pair(code(10 * i), 1000 + i, "closed" if i == 2 else catalogue.CLASSES[i % 3]) for i in range(1, 101) if i != 3]
        expect("walked", list(table.walk()) == want)
        expect("a part", list(table.walk(code(15), code(55))) == want[1:4])
        state = table.check()
        expect("the check", state.leftover is None and state.nodes == 40 and state.parts[0].codes == 99 and len(state.parts) == 1)
        expect("nodes", state.parts[0].nodes + state.free == 40 and state.parts[0].levels == 3)
        expect("a reader does not write", refused(313, table.add, code(1), 1))


def orders():
    with catalogue.open(name) as table:
        ours = table.orders("add", code(15), 5000)
        expect("our list", ours[-1].kind == "flush" and {o.kind for o in ours} == {"store", "flush"})
        expect("is judged yes", table.judge(ours, "add", code(15), 5000) == catalogue.Verdict(True, None))
        verdict = table.judge([o for o in ours if o.kind == "store"], "add", code(15), 5000)
        expect("without flushes no", not verdict and 0 < verdict.count <= len(ours))
        expect("of another change no", not table.judge(ours, "add", code(15), 5001))
        gone = table.orders("remove", code(10))
        expect("a removal", table.judge(gone, "remove", code(10)).yes)
        expect("21", refused(21, table.judge, ours, "add", code(10), 5000))
        expect("nothing was made", not table.find(code(15)))


def beside():
    """A reader beside a writer sees each code with its own recording."""
    wrong, stop = [], threading.Event()

    def read():
        with catalogue.open(name) as table:
            while not stop.is_set():
                found = table.find(code(500))
                if not found or found.recording != 1050:
                    wrong.append(found)

    reader = threading.Thread(target=read)
    reader.start()
    with catalogue.open(name, writing=True) as table:
        for _ in range(200):
            table.add(code(495), 9999)
            table.remove(code(495))
    stop.set()
    reader.join()
    expect("beside a writer", not wrong)


for part in codes, changes, reads, orders, beside:
    part()
print(f"{passed} passed, 0 failed")
