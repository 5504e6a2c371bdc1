"""A table read by hand from document 01: slots, reached nodes, the leftover's letter, the way of a search. Only for this test."""
MARK = 2**64 - 1


class Table:
    def __init__(self, words, nodes):
        self.words, self.nodes = words, nodes

    def at(self, n, i):
        return self.words[8 + 32 * (n - 1) + i]

    def has(self, n):
        return 1 <= n <= self.nodes

    def slots(self, n):
        """Each slot's key, pointer and kind: s shown, h hidden, t shown but the sibling's, o old words behind the end, . nothing."""
        before, ended, out = self.at(n, 0), False, []
        sibling = self.at(n, 1)
        limit = self.at(sibling, 3) if self.has(sibling) else None
        for i in range(12):
            key, pointer = self.at(n, 8 + 2 * i), self.at(n, 9 + 2 * i)
            ended = ended or pointer == 0
            if ended:
                kind = "o" if key or pointer else "."
            else:
                kind = "h" if pointer == before else "s" if limit is None or key < limit else "t"
                before = pointer
            out.append((key, pointer, kind))
        return out

    def reached(self, root):
        """The nodes that the root leads to, each with whether a parent does."""
        seen, todo = {}, [(root, True)]
        while todo:
            n, by_parent = todo.pop(0)
            if not self.has(n):
                continue
            if n in seen:
                seen[n] = seen[n] or by_parent
                continue
            seen[n] = by_parent
            todo.append((self.at(n, 1), False))
            if self.at(n, 2) > 0:
                todo += [(self.at(n, 0), True)] + [(p, True) for _, p, kind in self.slots(n) if kind == "s"]
        return seen

    def letter(self, roots):
        hidden = missing = False
        for root in roots:
            seen = self.reached(root)
            hidden = hidden or any(kind == "h" for n in seen for _, _, kind in self.slots(n))
            missing = missing or not all(seen.values())
        return ("c" if hidden else "b") if missing else "a" if hidden else ""

    def way(self, root, key):
        """Steps as (node, how), the slot at the end or -1, and whether the way is whole."""
        n, level, steps = root, self.at(root, 2), [(root, -2)]
        if level > 15:
            return steps, -1, False
        while True:
            sibling = self.at(n, 1)
            if sibling != 0:
                if not self.has(sibling) or self.at(sibling, 2) != level:
                    return steps, -1, False
                if key >= self.at(sibling, 3):
                    steps.append((sibling, -3))
                    n = sibling
            shown = [(i, k, p) for i, (k, p, kind) in enumerate(self.slots(n)) if kind in "st"]
            if level == 0:
                return steps, next((i for i, k, _ in shown if k == key), -1), True
            below = [(i, p) for i, k, p in shown if k <= key]
            how, child = below[-1] if below else (-1, self.at(n, 0))
            if not self.has(child) or self.at(child, 2) != level - 1:
                return steps, -1, False
            steps.append((child, how))
            n, level = child, level - 1
