"""The library's calls on lists of words."""
import ctypes

MARK = 2**64 - 1
ABSENT = 255
Words = lambda words: (ctypes.c_uint64 * len(words))(*words)
U64 = ctypes.c_uint64
LIST_WORDS = 2560


class Library:
    def __init__(self, path):
        self.calls = ctypes.CDLL(path)
        for name in ("make", "search", "list", "insert", "delete", "repair", "carry_out", "judge_insert", "judge_delete"):
            getattr(self.calls, f"catalogue_{name}").restype = U64

    def make(self, nodes, collections):
        words = Words([0] * (8 + 32 * nodes))
        assert self.calls.catalogue_make(words, ctypes.c_size_t(len(words)), U64(collections)) == 0
        return list(words)

    def search(self, lent, collection, key):
        """Of words that are lent already: the number; the pointer if it is found, the next key or None if it is absent."""
        out = [U64(0) for _ in range(4)]
        number = self.calls.catalogue_search(lent, ctypes.c_size_t(len(lent)), U64(collection), U64(key), *map(ctypes.byref, out))
        recording, access, following, higher = (o.value for o in out)
        if number == 0:
            return 0, access << 56 | recording
        return number, (following if higher else None) if number == ABSENT else None

    def list(self, words, collection):
        """The pairs, or None if it is refused."""
        room, count, more = Words([0] * (22 * len(words) // 32 + 2)), U64(0), U64(0)
        number = self.calls.catalogue_list(Words(words), ctypes.c_size_t(len(words)), U64(collection), U64(0), U64(MARK), room,
                                           ctypes.c_size_t(len(room)), ctypes.byref(count), ctypes.byref(more))
        return [(room[2 * i], room[2 * i + 1]) for i in range(count.value)] if number == 0 else None

    def write(self, words, name, *between):
        """A writing call: the number, the words after it and its orders."""
        lent, orders, counts = Words(words), Words([0] * LIST_WORDS), [U64(0) for _ in range(3)]
        before, after = between[:1] if name != "repair" else (), between[1:]
        number = getattr(self.calls, f"catalogue_{name}")(lent, ctypes.c_size_t(len(lent)), *map(U64, before), orders, ctypes.c_size_t(LIST_WORDS),
                                                           U64(0), *map(U64, after), *map(ctypes.byref, counts))
        total = sum(c.value for c in counts)
        return number, list(lent), [(orders[2 * i], orders[2 * i + 1]) for i in range(total)] if number == 0 else []

    def carry_out(self, words, orders, count):
        lent, flat = Words(words), Words([w for o in orders for w in o] or [0])
        assert self.calls.catalogue_carry_out(lent, ctypes.c_size_t(len(lent)), flat, ctypes.c_size_t(len(flat)), U64(count)) == 0
        return list(lent)

    def judge(self, words, orders, change, collection):
        """-1 for yes, the first count that fails, None if it is refused."""
        flat, out, count = Words([w for o in orders for w in o] or [0]), Words([0] * len(words)), U64(0)
        given = [Words(words), ctypes.c_size_t(len(words)), flat, ctypes.c_size_t(2 * len(orders)), out, ctypes.c_size_t(len(words)), U64(collection)]
        if change[0] == "+":
            number = self.calls.catalogue_judge_insert(*given, U64(change[1]), U64(change[2]), U64(change[3]), ctypes.byref(count))
        elif change[0] == "-":
            number = self.calls.catalogue_judge_delete(*given, U64(change[1]), ctypes.byref(count))
        else:
            return None
        return -1 if number == 0 else count.value if number == 254 else None
