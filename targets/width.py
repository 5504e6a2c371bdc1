#!/usr/bin/env python3
"""width.py FILE.ll..: is a module that was made for 64-bit pointers right where a pointer has 4 bytes (wasm32)?

What could be wrong there: an address turned into a number, but for two that are compared, or back; a pointer in a struct, a vector or a constant;
an access or a copy past the place that it is to. A pointer may be kept in a place of 8 bytes that is only ever written and read as a pointer: the
4 bytes above it are then never read. Zeros may be put over the whole of it: they are the null pointer at either width. For this each place, made by alloca or handed in, is followed through the functions that it is handed to. A
struct of numbers alone, as a small result, lies alike everywhere. Every use of every place made by alloca is followed, with its constant offsets.
The last line is what was found; the status is 1 if that is not nothing."""
import re
import sys

SIZE = {'i1': 1, 'i8': 1, 'i16': 2, 'i32': 4, 'i64': 8, 'ptr': 4}
FORBIDDEN = ('inttoptr', 'addrspacecast', 'bitcast', 'blockaddress', '<{', '{ {', ' x ptr]', 'va_arg', 'cmpxchg', 'atomicrmw')
bad, followed = [], 0


NUMBER = r'(?:i8|i16|i32|i64)(?: [\w.-]+)?'
# Of a constant each number has its value beside its kind.
NUMBERS = re.compile(r'\{ (%s(?:, %s)*) \}' % (NUMBER, NUMBER))


def size(kind):
    array = re.fullmatch(r'\[(\d+) x (.+)\]', kind)
    return int(array[1]) * size(array[2]) if array else SIZE[kind]


def parts(kind):
    """The kinds that a value of this kind has in memory, each with its offset; of a struct of numbers each of them."""
    struct, at = NUMBERS.fullmatch(kind), 0
    for part in struct[1].split(', ') if struct else [kind]:
        at += -at % size(part)
        yield part, at
        at += size(part)


def odd(text):
    """The structs of a text that are not of numbers alone."""
    return [struct for struct in re.findall(r'\{ [^{}]* \}', text) if not NUMBERS.fullmatch(struct)]


class Places:
    """The places of one function: a value that points into one, as its root, the root's bytes and the offset there (None if it is computed)."""

    def __init__(self):
        self.of = {}

    def alloca(self, line):
        m = re.match(r'(%\S+) = alloca (.+?), align (\d+)$', line)
        if m:
            self.of[m[1]] = (m[1], size(m[2]), 0)
        return m

    def offset(self, line):
        m = re.match(r'(%\S+) = getelementptr (inbounds nuw |inbounds |nuw )?i8, ptr (%\S+), i64 (\S+)$', line)
        # A constant table of numbers has the same steps everywhere.
        if not m and 'getelementptr' in line and not re.search(r'getelementptr (inbounds |nuw )*i(8|16|32|64), ptr @', line):
            bad.append(('another getelementptr', line))
        if m and m[3] in self.of:
            root, room, at = self.of[m[3]]
            self.of[m[1]] = (root, room, at + int(m[4]) if at is not None and re.fullmatch(r'-?\d+', m[4]) else None)
        return m

    def access(self, line):
        m = re.match(r'(?:%\S+ = )?(?:load (\{[^{}]*\}|\S+), ptr|store (\{[^{}]*\}|\S+) \S+, ptr) (%[^,\s]+|@\S+?),', line)
        for kind, inside in parts(m[1] or m[2]) if m and m[3] in self.of and not odd(m[1] or m[2]) else []:
            root, room, at = self.of[m[3]]
            at = at + inside if at is not None else None
            if at is not None and at + size(kind) > room:
                bad.append(('past its place', line))
        return m

    def copy(self, line):
        m = re.match(r'(?:tail )?call void @llvm\.(?:memmove|memset|memcpy)\S*\((.*)\)(?:, !.*| #\d+)?$', line)
        parts = [p.strip() for p in m[1].split(',')] if m else []
        amount = [p.split()[-1] for p in parts if p.startswith('i64')][-1] if m else ''
        for value in (p.split()[-1] for p in parts if p.startswith('ptr')):
            root, room, at = self.of.get(value, (None, 0, None))
            if amount.isdigit() and at is not None and at + int(amount) > room:
                bad.append((f'{amount} bytes copied at {at} of a place of {room}', line))
        return m


def numbered(lines):
    """The lines that use an address as a number, but for the comparison of two: each has 4 bytes and zeros above (targets/retarget), and what is
    compared is their difference."""
    low, address, apart = set(), set(), set()
    for line in map(str.strip, lines):
        taken = re.fullmatch(r'(%\S+) = ptrtoint ptr \S+ to i32', line)
        wide = re.fullmatch(r'(%\S+) = zext i32 (%\S+) to i64', line)
        minus = re.fullmatch(r'(%\S+) = sub i64 (%\S+), (%\S+)', line)
        used = set(re.findall(r'%[\w.-]+', line))
        if taken:
            low.add(taken[1])
        elif wide and wide[2] in low:
            address.add(wide[1])
        elif minus and minus[2] in address and minus[3] in address:
            apart.add(minus[1])
        elif re.search(r'\bptrto(int|addr)\b', line) or used & (low | address) or used & apart and not re.match(r'%\S+ = icmp ', line):
            yield line


def split(text):
    """The parts between commas that stand in no bracket."""
    depth, part = 0, ''
    for c in text:
        depth += (c in '([{') - (c in ')]}')
        if c == ',' and depth == 0:
            yield part.strip()
            part = ''
        else:
            part += c
    if part.strip():
        yield part.strip()


def arguments(line):
    """The function that a call or a definition names, and its arguments."""
    m = re.search(r'(@"[^"]*"|@[\w.$-]+)\((.*)', line)
    depth, end = 1, 0
    while depth:
        depth += {'(': 1, ')': -1}.get(m[2][end], 0)
        end += 1
    return m[1], list(split(m[2][:end - 1]))


class Handed:
    """The places of one function, as those that are made there or handed to it; what is done to each: (offset, bytes, kind), None if computed."""

    def __init__(self, lines):
        self.name, parameters = arguments(lines[0])
        self.shared = not re.match(r'define (?:internal|private)\b', lines[0])
        self.parameters = [p.split()[-1] if p.startswith('ptr') else None for p in parameters]
        self.of = {p: (p, 0) for p in self.parameters if p}
        self.done = {p: {} for p in self.of}
        self.calls, self.astray = [], []
        for line in map(str.strip, lines[1:]):
            self.take(line)

    def take(self, line):
        made = re.match(r'(%\S+) = alloca ', line)
        step = re.match(r'(%\S+) = getelementptr .*?, ptr (%[^,\s]+), (.*)$', line)
        access = re.match(r'(?:%\S+ = )?(?:load (?:volatile )?(\{[^{}]*\}|<[^<>]*>|\S+), ptr|store (?:volatile )?(\{[^{}]*\}|<[^<>]*>|\S+) (\S+|<[^<>]*>), ptr) ([%@][^,\s]+),', line)
        call = re.match(r'(?:%\S+ = )?(?:tail )?call ', line)
        if made:
            self.of[made[1]], self.done[made[1]] = (made[1], 0), {}
        elif step:
            if step[2] in self.of:
                root, at = self.of[step[2]]
                number = re.fullmatch(r'i64 (-?\d+)', step[3])
                self.of[step[1]] = (root, at + int(number[1]) if at is not None and number else None)
        elif access:
            vector = re.fullmatch(r'<(\d+) x (\w+)>', access[1] or access[2])
            for kind, inside in [(vector[2], i * SIZE[vector[2]]) for i in range(int(vector[1]))] if vector else parts(access[1] or access[2]):
                self.do(access[4], inside, SIZE[kind], kind, line)
            if access[3] in self.of:
                self.do(access[3], None, 0, 'elsewhere', line)
        elif 'llvm.lifetime' in line:
            pass
        elif call:
            name, given = arguments(line)
            amount = [a.split()[-1] for a in given if a.startswith('i64')]
            for i, value in enumerate(a.split()[-1] for a in given):
                if 'llvm.mem' in name:
                    kind = 'zeros' if 'llvm.memset' in name and given[1] == 'i8 0' else 'bytes'
                    self.do(value, 0, int(amount[-1]) if amount[-1].isdigit() else 1 << 60, kind, line)
                elif value in self.of:
                    self.calls.append((name, i, *self.of[value], line))
        elif not line.startswith(';'):
            for value in set(re.findall(r'%[\w.$-]+', line)) & set(self.of):
                self.do(value, None, 0, 'elsewhere', line)

    def do(self, value, inside, size, kind, line):
        if value in self.of:
            root, at = self.of[value]
            self.done[root][at + inside if at is not None and inside is not None else None, size, kind] = line
        elif kind == 'ptr':
            self.astray.append(line)


def keeps(kind, at, size, start):
    """What is done to bytes of a pointer's place from start on leaves it one: the same pointer, or zeros over all of it."""
    return kind == 'ptr' and at == start or kind == 'zeros' and at <= start and start + 8 <= at + size


def kept(functions):
    """What is wrong with the pointers that are kept in memory."""
    by_name, more = {f.name: f for f in functions}, True
    while more:
        more = False
        for f in functions:
            for name, i, root, at, line in f.calls:
                other = by_name.get(name)
                done = other.done[other.parameters[i]] if other else {(None, 0, 'elsewhere'): line}
                for (to, size, kind), where in list(done.items()):
                    new = (at + to if at is not None and to is not None else None, size, kind)
                    more |= new not in f.done[root]
                    f.done[root].setdefault(new, where)
    for f in functions:
        for line in f.astray:
            yield 'a pointer in a place that is not followed', line
        for root, done in f.done.items():
            pointers = [(at, line) for (at, size, kind), line in done.items() if kind == 'ptr']
            for start, line in pointers:
                if f.shared and root in f.parameters:
                    yield 'a pointer in a place that C hands in', line
                for (at, size, kind), where in done.items():
                    if at is None or start is None or at < start + 8 and start < at + max(size, 8 if kind == 'ptr' else 0) and not keeps(kind, at, size, start):
                        yield 'a place that holds a pointer is used otherwise', where


def look(text):
    global followed
    for word in FORBIDDEN:
        bad.extend((f'{word.strip()}', line) for line in text.split('\n') if word in line and not line.startswith(';'))
    bad.extend(('a struct type', t) for t in re.findall(r'^%\S+ = type .*', text, re.M))
    bad.extend(('a constant with a pointer', g) for g in re.findall(r'^@.* = .*', text, re.M) if 'ptr' in g)
    functions = []
    for body in re.findall(r'^define .*?^}', text, re.M | re.S):
        lines = body.split('\n')
        if re.search(r'\bx ptr', lines[0]):
            bad.append(('an aggregate by value', lines[0]))
        bad.extend(('a struct with more than numbers', line) for line in lines if odd(line))
        bad.extend(('an address as a number', line) for line in numbered(lines[1:]))
        functions.append(Handed(lines))
        places = Places()
        for line in map(str.strip, lines[1:]):
            places.alloca(line) or places.offset(line) or places.access(line) or places.copy(line)
        followed += len(places.of)
    bad.extend(kept(functions))


for name in sys.argv[1:]:
    with open(name, encoding='utf-8') as f:
        look(f.read())
for what, where in bad[:40]:
    print(f'{what}: {where}')
print(f'{followed} places followed, {len(bad)} wrong')
sys.exit(1 if bad or not followed else 0)
