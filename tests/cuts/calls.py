"""The file library's calls that write, by the shared library's names, in a process of their own."""
import ctypes
import os
import sys

word = ctypes.c_uint64
WRITING, FAST = 1, 2
ALL = 2**64 - 1
CLASSES = ("open", "room", "closed")


class Change(ctypes.Structure):
    _fields_ = [(n, word) for n in ("kind", "collection", "key", "recording", "access", "cut", "stores", "flushes", "barriers", "repair", "carried")]


class Line(ctypes.Structure):
    _fields_ = [(n, word) for n in ("key", "recording", "access", "classed", "number", "tag", "there")]


NEXT = ctypes.CFUNCTYPE(ctypes.c_int, ctypes.c_void_p, ctypes.POINTER(Line), ctypes.c_int)
DONE = ctypes.CFUNCTYPE(ctypes.c_int, ctypes.c_void_p, ctypes.POINTER(Line))


class Load(ctypes.Structure):
    _fields_ = [("collection", word), ("flags", word), ("next", NEXT), ("done", DONE), ("orders", ctypes.c_void_p), ("context", ctypes.c_void_p),
                *[(n, word) for n in ("added", "there", "refused", "not_taken", "unknown", "first_refused")]]


class Options(ctypes.Structure):
    _fields_ = [("flags", word), ("wait", word), ("dock", word), ("pause", word), ("flush", ctypes.c_char_p), ("waiting", ctypes.c_void_p),
                ("context", ctypes.c_void_p)]


def key(code):
    return int(code[:5], 36) * 10**7 + int(code[5:])


class Library:
    """A handle, and every call that writes under a short name; a call that does not return 0, or what it should, raises."""

    def __init__(self, path):
        self.library = ctypes.CDLL(path)
        self.library.catalogue_file_new.restype = ctypes.c_void_p
        self.library.catalogue_file_message.restype = ctypes.c_char_p
        self.handle = ctypes.c_void_p(self.library.catalogue_file_new())

    def call(self, name, *arguments, returns=0):
        call = getattr(self.library, f"catalogue_file_{name}")
        call.restype = word
        number = call(self.handle, *arguments)
        assert number == returns, (name, number, self.library.catalogue_file_message(self.handle))

    def create(self, path, nodes, collections):
        self.call("create", path.encode(), word(nodes), word(collections))

    def open(self, path, flags=WRITING, pause=0):
        self.call("open_with", path.encode(), ctypes.byref(Options(flags=flags, pause=pause)))

    def close(self):
        self.call("close")

    def sync(self):
        self.call("sync")

    def add(self, collection, code, recording, access):
        self.call("add", word(collection), word(key(code)), word(recording), word(CLASSES.index(access)))

    def remove(self, collection, code):
        self.call("remove", word(collection), word(key(code)))

    def set_class(self, collection, code, access):
        self.call("set_class", word(collection), word(key(code)), word(CLASSES.index(access)))

    def repair(self):
        self.call("repair")

    def change(self, collection, code, recording, access, cut):
        """An addition, cut off after so many orders."""
        change = Change(0, collection, key(code), recording, CLASSES.index(access), cut)
        self.call("change", ctypes.byref(change), returns=318)

    def load_pairs(self, collection, flags, lines):
        words = [w for c, (r, a) in lines for w in (key(c), CLASSES.index(a) << 56 | r)]
        self.call("load_pairs", word(collection), word(flags), (word * len(words))(*words), ctypes.c_size_t(len(lines)), None)

    def load(self, collection, flags, lines, done):
        """Calls done for each line that the load hands back."""
        left = iter(lines)

        def next_line(_, line, __):
            c, (r, a) = next(left, (None, (None, None)))
            if c is None:
                return 0
            line.contents.key, line.contents.recording, line.contents.access, line.contents.classed = key(c), r, CLASSES.index(a), 1
            line.contents.number = 0
            return 1

        def line_done(_, line):
            assert line.contents.number == 0, line.contents.number
            done()
            return 0

        load = Load(collection, flags, NEXT(next_line), DONE(line_done))
        self.call("load", ctypes.byref(load))

    def copy(self, path, nodes):
        self.call("copy", path.encode(), ctypes.byref(word(nodes)))

    def salvage(self, path):
        self.call("salvage", path.encode(), None, None, ctypes.byref(word(0)))

    def rescue(self, table, nodes, roots, path):
        self.call("rescue", table.encode(), word(nodes), (word * 2)(*roots), path.encode(), None, None, ctypes.byref(word(0)))


class Process:
    """Does calls one after another in a process of its own. Before each it asks and waits for an answer; after each, and after each line that a load
    hands back, it says so."""

    def __init__(self, path, calls):
        self.said, says = os.pipe()
        hears, self.answers = os.pipe()
        self.number = os.fork()
        if self.number > 0:
            os.close(says)
            os.close(hears)
            return
        status = 1
        try:
            library = Library(path)
            for name, *arguments in calls:
                os.write(says, b"?")
                os.read(hears, 1)
                if name == "load":
                    arguments.append(lambda: os.write(says, b"."))
                getattr(library, name)(*arguments)
                os.write(says, b"!")
            status = 0
        except AssertionError as e:
            print(e, file=sys.stderr, flush=True)
        finally:
            os._exit(status)

    def ended(self):
        os.close(self.said)
        os.close(self.answers)
        return os.waitstatus_to_exitcode(os.waitpid(self.number, 0)[1])
