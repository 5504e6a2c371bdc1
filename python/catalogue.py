"""The catalogue index from Python, for a class: one module over the shared library, by ctypes.

    import catalogue
    with catalogue.open("room.cat") as table:
        print(table.find("AA-000-19-12345"))
        for pair in table.walk("AA-000-26-00000"):
            print(pair.code, pair.recording, pair.access)
    with catalogue.open("room.cat", writing=True) as table:
        table.add("AA-000-19-12345", 7, "room")
        orders = table.orders("add", "AA-000-19-12346", 8)
        print(table.judge(orders, "add", "AA-000-19-12346", 8))

A find beside a writer answers what was true at some moment while it ran; a change lasts when its call returns. A table is for one thread at a
time. What the library refuses raises catalogue.Error, with the number of catalogue.h or catalogue_file.h and the library's message.
The library is the one that CATALOGUE_LIBRARY names, or libcatalogue.so in the folders in which the system looks for libraries."""
import collections
import ctypes
import ctypes.util
import os

ABSENT, NO, ALL = 255, 254, 2 ** 64 - 1
MARK, BARRIER = 2 ** 64 - 1, 2 ** 64 - 2
CLASSES = ("open", "room", "closed")
KINDS = ("add", "remove", "class", "repair")
LEFTOVERS = (None, "a", "b", "c")
REPORT_WORDS = 16
READING, WRITING = 0, 1

Pair = collections.namedtuple("Pair", "code recording access")
Absent = collections.namedtuple("Absent", "next")
Absent.__bool__ = lambda self: False
Order = collections.namedtuple("Order", "kind word value")
Verdict = collections.namedtuple("Verdict", "yes count")
Verdict.__bool__ = lambda self: self.yes
Part = collections.namedtuple("Part", "codes nodes levels")
State = collections.namedtuple("State", "leftover collection node nodes free parts")


class Error(Exception):
    """A refusal: its number, and what the library says of it."""

    def __init__(self, number, message):
        super().__init__(f"{message} ({number})")
        self.number = number


# ---- the library's records and calls

word = ctypes.c_uint64


class _Pair(ctypes.Structure):
    _fields_ = [(name, word) for name in ("key", "recording", "access", "higher", "next")]


class _Change(ctypes.Structure):
    _fields_ = [(name, word) for name in ("kind", "collection", "key", "recording", "access", "cut", "stores", "flushes", "barriers", "repair", "carried")]


_EACH = ctypes.CFUNCTYPE(ctypes.c_int, ctypes.c_void_p, ctypes.POINTER(_Pair))
_WORDS = ctypes.POINTER(word)


def _declared(library):
    """Each call with its result and its parameters."""
    handle, size, text = ctypes.c_void_p, ctypes.c_size_t, ctypes.c_char_p
    calls = {
        "catalogue_file_new": (handle, []),
        "catalogue_file_free": (None, [handle]),
        "catalogue_file_message": (text, [handle]),
        "catalogue_file_strerror": (text, [word]),
        "catalogue_file_create": (word, [handle, text, word, word]),
        "catalogue_file_open": (word, [handle, text, word, word]),
        "catalogue_file_close": (word, [handle]),
        "catalogue_file_table": (word, [handle, ctypes.POINTER(_WORDS), ctypes.POINTER(size)]),
        "catalogue_file_find": (word, [handle, word, word, ctypes.POINTER(_Pair)]),
        "catalogue_file_walk": (word, [handle, word, word, word, _EACH, handle]),
        "catalogue_file_add": (word, [handle, word, word, word, word]),
        "catalogue_file_remove": (word, [handle, word, word]),
        "catalogue_file_set_class": (word, [handle, word, word, word]),
        "catalogue_file_repair": (word, [handle]),
        "catalogue_file_plan": (word, [handle, ctypes.POINTER(_Change), ctypes.POINTER(_WORDS)]),
        "catalogue_file_check": (word, [handle, _WORDS]),
        "catalogue_file_parse": (word, [text, size, _WORDS]),
        "catalogue_file_print": (text, [word, word, text]),
        "catalogue_file_may_play": (ctypes.c_int, [word, word]),
        "catalogue_judge_insert": (word, [_WORDS, size, _WORDS, size, _WORDS, size, word, word, word, word, _WORDS]),
        "catalogue_judge_delete": (word, [_WORDS, size, _WORDS, size, _WORDS, size, word, word, _WORDS]),
    }
    for name, (result, parameters) in calls.items():
        call = getattr(library, name)
        call.restype, call.argtypes = result, parameters
    return library


def _load():
    name = os.environ.get("CATALOGUE_LIBRARY") or ctypes.util.find_library("catalogue")
    if not name:
        raise ImportError("libcatalogue.so is not installed, and CATALOGUE_LIBRARY names none")
    return _declared(ctypes.CDLL(name))


_library = _load()


# ---- codes and classes

def key(code):
    """The key of a code as people write it, or of '#' and a number."""
    found, text = word(), code.encode("utf-8", "replace")
    number = _library.catalogue_file_parse(text, len(text), ctypes.byref(found))
    if number:
        raise Error(number, f"{code}: {_library.catalogue_file_strerror(number).decode()}")
    return found.value


def code(key):
    """The code of a key, or '#' and its number for a key that no code has."""
    return _library.catalogue_file_print(key, 0, ctypes.create_string_buffer(24)).decode()


def may_play(access, in_the_room):
    """Whether a recording of this class may play: open everywhere, room in the room, nothing else."""
    return access in CLASSES and bool(_library.catalogue_file_may_play(CLASSES.index(access), 1 if in_the_room else 0))


def _class(access):
    if access not in CLASSES:
        raise Error(14, f"{access!r} is none of the classes {', '.join(CLASSES)}")
    return CLASSES.index(access)


def _pair(p):
    return Pair(code(p.key), p.recording, CLASSES[p.access])


# ---- tables

def create(name, nodes, collections=1):
    """A new file with an empty table."""
    with Table() as made:
        made._answer(_library.catalogue_file_create(made._handle, os.fsencode(name), nodes, collections))


def open(name, writing=False, wait=0):
    """An open table; wait is how many milliseconds a writer waits for another one."""
    table = Table()
    try:
        table._answer(_library.catalogue_file_open(table._handle, os.fsencode(name), WRITING if writing else READING, wait))
    except Error:
        table.free()
        raise
    return table


class Table:
    def __init__(self):
        self._handle = _library.catalogue_file_new()
        if not self._handle:
            raise MemoryError

    def __enter__(self):
        return self

    def __exit__(self, *_):
        try:
            if self._handle:
                self._answer(_library.catalogue_file_close(self._handle), (312,))
        finally:
            self.free()

    def free(self):
        if self._handle:
            _library.catalogue_file_free(self._handle)
        self._handle = None

    __del__ = free

    def _answer(self, number, others=()):
        if number and number not in others:
            message = _library.catalogue_file_message(self._handle) or _library.catalogue_file_strerror(number)
            raise Error(number, message.decode())
        return number

    # ---- reading

    def find(self, code, collection=1):
        """Pair(code, recording, access), or Absent(next), which is false; next is the next code up, or None."""
        found = _Pair()
        if self._answer(_library.catalogue_file_find(self._handle, collection, key(code), ctypes.byref(found)), (ABSENT,)) == ABSENT:
            return Absent(globals()["code"](found.next) if found.higher else None)
        return _pair(found)

    def walk(self, low="#0", high=f"#{ALL}", collection=1):
        """The pairs from a code to a code, in order."""
        pairs = []

        def each(_, pair):
            pairs.append(_pair(pair.contents))
            return 0

        self._answer(_library.catalogue_file_walk(self._handle, collection, key(low), key(high), _EACH(each), None))
        return iter(pairs)

    def check(self):
        """State(leftover, collection, node, nodes, free, parts): of a sound table the leftover "a", "b" or "c" with its collection and node, or None;
        its nodes, those that are free, and Part(codes, nodes, levels) by collection. One that is not sound raises Error 4."""
        r = (word * REPORT_WORDS)()
        self._answer(_library.catalogue_file_check(self._handle, r))
        parts = [Part(r[8 + 3 * n], r[7 + 3 * n], r[9 + 3 * n]) for n in (1, 2) if r[9 + 3 * n]]
        return State(LEFTOVERS[r[0]], r[1], r[2] if r[0] == 1 else r[4], r[8], r[9], parts)

    # ---- changing

    def add(self, code, recording, access="open", collection=1):
        self._answer(_library.catalogue_file_add(self._handle, collection, key(code), recording, _class(access)))

    def remove(self, code, collection=1):
        self._answer(_library.catalogue_file_remove(self._handle, collection, key(code)))

    def set_class(self, code, access, collection=1):
        self._answer(_library.catalogue_file_set_class(self._handle, collection, key(code), _class(access)))

    def repair(self):
        self._answer(_library.catalogue_file_repair(self._handle))

    # ---- order lists

    def orders(self, kind, code="#0", recording=0, access="open", collection=1):
        """The orders of a change ("add", "remove", "class", "repair"), without making it: Order(kind, word, value) each."""
        change = _Change(kind=KINDS.index(kind), collection=collection, key=key(code), recording=recording, access=_class(access), cut=ALL)
        words = _WORDS()
        self._answer(_library.catalogue_file_plan(self._handle, ctypes.byref(change), ctypes.byref(words)))
        count = change.stores + change.flushes + change.barriers
        return [_order(words[2 * i], words[2 * i + 1]) for i in range(count)]

    def judge(self, orders, kind, code, recording=0, access="open", collection=1):
        """Verdict(yes, count): whether a list makes an "add" or a "remove" so that a cut may come after any of its orders, or the first count that fails."""
        table, words, count = _WORDS(), ctypes.c_size_t(), word()
        self._answer(_library.catalogue_file_table(self._handle, ctypes.byref(table), ctypes.byref(words)))
        flat = [x for order in orders for x in _words(order)]
        lent, out = (word * max(len(flat), 1))(*flat), (word * words.value)()
        slices = (table, words.value, lent, len(flat), out, words.value, collection, key(code))
        if kind == "add":
            number = _library.catalogue_judge_insert(*slices, recording, _class(access), ctypes.byref(count))
        elif kind == "remove":
            number = _library.catalogue_judge_delete(*slices, ctypes.byref(count))
        else:
            raise ValueError("only an 'add' or a 'remove' is judged")
        if number not in (0, NO):
            raise Error(number, _library.catalogue_file_strerror(number).decode())
        return Verdict(number == 0, None if number == 0 else count.value)


def _order(first, second):
    if first == MARK:
        return Order("flush", second, None)
    return Order("barrier", None, None) if first == BARRIER else Order("store", first, second)


def _words(order):
    if order.kind == "flush":
        return MARK, order.word
    return (BARRIER, 0) if order.kind == "barrier" else (order.word, order.value)
