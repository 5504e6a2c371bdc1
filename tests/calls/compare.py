"""The C calls three times: in the header, in the Rust declaration and in the Rattle source. Their names, their parameters in order, by name
and kind, and their return types must be the same, and so must the header's version and the one that the source answers. Then faults are
planted in each text, and each must be seen."""
import re
import sys

C_KINDS = {"uint64_t": "u64", "uint8_t": "u8", "size_t": "usize", "void": "nothing"}


class Unread(Exception):
    """A text that is not read here."""


def one(pattern, text):
    found = re.fullmatch(pattern, text.strip(), re.S)
    if not found:
        raise Unread(f"not understood: {text.strip()!r}")
    return found.groups()


def parts(text):
    return [p for p in (p.strip() for p in text.split(",")) if p]


def c_kind(const, word, star):
    kind = C_KINDS.get(word)
    if kind is None or (const and not star):
        raise Unread(f"not understood: a parameter of type {const or ''}{word} {star}")
    return ("*const " if const else "*mut ") + kind if star else kind


def from_header(text):
    """Each call of a C header: its parameters as (name, kind), and what it returns."""
    text = re.sub(r"/\*.*?\*/", "", text, flags=re.S)
    calls = {}
    for word, star, name, inside in re.findall(r"(\w+)\s+(\*?)\s*(catalogue_\w+)\s*\(([^)]*)\)\s*;", text):
        parameters = []
        for p in [] if inside.strip() == "void" else parts(inside):
            const, kind, pointer, its_name = one(r"(const\s+)?(\w+)\s*(\*?)\s*(\w+)", p)
            parameters.append((its_name, c_kind(const, kind, pointer)))
        add(calls, name, (parameters, c_kind(None, word, star)))
    return all_read(calls, r"catalogue_\w+\s*\(", text)


def from_rust(text):
    calls = {}
    for name, inside, back in re.findall(r"fn\s+(catalogue_\w+)\s*\(([^)]*)\)([^;{]*);", text):
        parameters = [one(r"(\w+)\s*:\s*(u64|usize|\*(?:const|mut) (?:u64|u8))", p) for p in parts(inside)]
        add(calls, name, (parameters, returned(back)))
    return all_read(calls, r"\bfn\b", text)


def from_rattle(text):
    """A lent slice is a pointer and a length. The length has no name in Rattle: None."""
    calls = {}
    for attribute, name, inside, back in re.findall(r'(#\[unsafe\(no_mangle\)\]\s*)?pub extern "C" fn\s+(\w+)\s*\(([^)]*)\)([^{]*?)(?:ensures|requires|\{)', text):
        if not attribute:
            raise Unread(f"{name} lacks #[unsafe(no_mangle)]")
        parameters = []
        for p in parts(inside):
            its_name, lent, kind = one(r"(\w+)\s*:\s*(&mut |&)?(.+)", p)
            pointer = "*mut " if lent == "&mut " else "*const "
            if not lent:
                parameters.append((its_name, *one(r"(u64|usize)", kind)))
                continue
            element, form = one(r"\[?(u64|u8)(\]|; \d+\])?", kind)
            parameters.append((its_name, pointer + element))
            if form == "]":
                parameters.append((None, "usize"))
        add(calls, name, (parameters, returned(back)))
    return all_read(calls, r"no_mangle", text)


def versions(header, rattle):
    """The number that the header defines, and the one that the source's body gives."""
    defined = re.findall(r"^#define CATALOGUE_VERSION (\d+)$", header, re.M)
    answered = re.findall(r"fn catalogue_version\(\).*?\n\{\s*(\d+)\s*\}", rattle, re.S)
    if len(defined) != 1 or len(answered) != 1:
        raise Unread(f"versions {defined} and {answered}")
    return defined[0], answered[0]


def returned(back):
    return one(r"-> (u64|usize)", back)[0] if back.strip() else "nothing"


def add(calls, name, call):
    if name in calls:
        raise Unread(f"{name} stands twice")
    calls[name] = call


def all_read(calls, mark, text):
    """No call has the mark and another form."""
    if len(re.findall(mark, text)) != len(calls):
        raise Unread(f"{len(calls)} calls read, {len(re.findall(mark, text))} times {mark}")
    return calls


def differences(header, rust, rattle):
    """What is not the same in the three texts; [] if they agree."""
    try:
        texts = {"the header": from_header(header), "the Rust declaration": from_rust(rust), "the Rattle source": from_rattle(rattle)}
        defined, answered = versions(header, rattle)
    except Unread as e:
        return [str(e)]
    first = texts["the header"]
    found = [] if first else ["no call in the header"]
    found += [] if defined == answered else [f"the header has version {defined}, the Rattle source {answered}"]
    for where, calls in texts.items():
        found += [f"{name} is in the header and not in {where}" for name in first.keys() - calls.keys()]
        found += [f"{name} is in {where} and not in the header" for name in calls.keys() - first.keys()]
        for name in first.keys() & calls.keys():
            same = lambda a, b: a[1] == b[1] and (b[0] is None or a[0] == b[0])
            (ours, gives), (theirs, also) = first[name], calls[name]
            if gives != also or len(ours) != len(theirs) or not all(map(same, ours, theirs)):
                found.append(f"{name}: the header has {first[name]}, {where} {calls[name]}")
    return found


# A change in the header, the declaration or the source (0, 1, 2) that must be seen.
FAULTS = [
    (0, "uint64_t key, uint64_t recording,", "uint64_t recording, uint64_t key,"),
    (0, "const uint64_t *orders", "uint64_t *orders"),
    (0, "size_t length", "uint64_t length"),
    (0, "uint64_t catalogue_make", "void catalogue_make"),
    (0, "uint8_t *text);", "uint64_t *text);"),
    (0, "uint64_t catalogue_repair", "uint64_t catalogue_mend"),
    (0, ", uint64_t c)", ")"),
    (0, "uint64_t *next, uint64_t *higher", "uint64_t *higher, uint64_t *next"),
    (0, "uint64_t access, uint64_t *stores", "uint64_t *stores, uint64_t access"),
    (0, "uint64_t collection, uint64_t key", "uint64_t key, uint64_t collection"),
    (0, ", uint64_t collections)", ")"),
    (0, "size_t order_words, uint64_t dock, uint64_t *stores", "size_t order_words, uint64_t *stores"),
    (0, "uint64_t *flushes, uint64_t *barriers", "uint64_t *barriers, uint64_t *flushes"),
    (0, "size_t out_words, uint64_t collection", "uint64_t collection, size_t out_words"),
    (0, "#define CATALOGUE_VERSION", "#define CATALOGUE_VERSION 99\n#define OTHER"),
    (0, "#define CATALOGUE_VERSION", "#define CATALOGUE_VERSIONS"),
    (1, "low: u64, high: u64", "high: u64, low: u64"),
    (1, "recording: *mut u64", "recording: *const u64"),
    (1, "text: *mut u8", "text: *mut u64"),
    (1, "out_words: usize, ", ""),
    (1, "c: u64) -> u64", "c: u64)"),
    (1, "fn catalogue_delete", "fn catalogue_remove"),
    (1, ", higher: *mut u64", ""),
    (1, "access: *mut u64", "access: u64"),
    (1, "collection: u64, orders: *mut u64, order_words: usize", "orders: *mut u64, order_words: usize, collection: u64"),
    (1, "dock: u64, key: u64", "key: u64, dock: u64"),
    (2, "table: &[u64], collection: u64", "table: &mut [u64], collection: u64"),
    (2, "collection: u64, low: u64", "low: u64"),
    (2, "text: &mut [u8; 12]", "text: &mut [u8]"),
    (2, "orders: &[u64], c: u64", "c: u64, orders: &[u64]"),
    (2, "#[unsafe(no_mangle)]\npub extern \"C\" fn catalogue_make", "pub extern \"C\" fn catalogue_make"),
    (2, "-> u64\n    ensures", "-> usize\n    ensures"),
    (2, "fn put_count", "#[unsafe(no_mangle)]\nfn put_count"),
    (2, "next: &mut u64", "next: u64"),
    (2, "out: &mut [u64], collection: u64", "collection: u64, out: &mut [u64]"),
    (2, "orders: &mut [u64], dock: u64", "dock: u64, orders: &mut [u64]"),
]


def planted(text, old, new):
    """The text with its first old as new; if it has a space or an open bracket the text may have the lines of its layout."""
    pattern = r"\s+".join(map(re.escape, old.split())).replace(r"\(", r"\(\s*")
    return re.sub(pattern, lambda _: new, text, count=1)


def main():
    texts = [open(p, encoding="utf-8").read() for p in sys.argv[1:]]
    found = differences(*texts)
    for line in found:
        print("FAILED:", line)
    if found:
        sys.exit(1)
    for which, old, new in FAULTS:
        changed = list(texts)
        changed[which] = planted(texts[which], old, new)
        if changed[which] == texts[which]:
            sys.exit(f"FAILED: {old!r} is not in {sys.argv[1 + which]}")
        if not differences(*changed):
            sys.exit(f"FAILED: {old!r} as {new!r} in {sys.argv[1 + which]} is not seen")
    print(f"{len(from_header(texts[0]))} calls the same in header, declaration and source; {len(FAULTS)} planted differences seen")
    print("2 passed, 0 failed")


main()
