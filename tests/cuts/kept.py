"""What a disk may hold after a power cut, by the log of its writes and flushes. A flush makes sure of every write before it. Of those since the
last flush any may be kept and any lost, and of each any of its sectors of 512 bytes: a sector is there whole or not at all."""
import itertools

SECTOR = 512


def stretches(log):
    """What lies between two flushes: the writes (offset, data), and where the log is when the second flush ends them. Nothing that is
    acknowledged before it is lost by a cut before it."""
    writes = []
    for position, offset, data in log:
        if data is None:
            yield writes, position
            writes = []
        else:
            writes.append((offset, data))
    yield writes, log[-1][0] + 1 if log else 1


def torn(offset, data, chance):
    """Some sectors of a write: a first part, or any."""
    count = -(-len(data) // SECTOR)
    kept = range(chance.randrange(1, count)) if chance.random() < 0.5 else [i for i in range(count) if chance.random() < 0.5]
    return [(offset + SECTOR * i, data[SECTOR * i:SECTOR * i + SECTOR]) for i in kept]


def choices(writes, chance, more):
    """What is kept of a stretch's writes, as names and writes: every first part; of three or fewer writes every choice; of more each one left
    out, each one alone, and some at random; then some with torn writes."""
    count = len(writes)
    kept = {tuple(range(n)): "first" for n in range(count + 1)}
    some = set()
    if count <= 3:
        some.update(c for n in range(count) for c in itertools.combinations(range(count), n))
    else:
        some.update(tuple(i for i in range(count) if i != out) for out in range(count))
        some.update((i,) for i in range(count))
        some.update(tuple(i for i in range(count) if chance.random() < 0.5) for _ in range(more))
    some = sorted(some - set(kept))
    for choice in [*kept, *chance.sample(some, min(len(some), 2 * more))]:
        yield kept.get(choice, "some"), [writes[i] for i in choice]
    large = [i for i in range(count) if len(writes[i][1]) > SECTOR]
    for i in chance.sample(large, min(len(large), more)):
        others = range(i) if chance.random() < 0.5 else [k for k in range(count) if k != i and chance.random() < 0.5]
        yield "torn", [writes[k] for k in others] + torn(*writes[i], chance)


def images(base, log, chance, more):
    """Every image to be tried: its kind, the image, and where the log is when the flush comes that ends the stretch."""
    image, first = base.copy(), True
    for writes, end in stretches(log):
        for kind, kept in choices(writes, chance, more):
            # Nothing of this stretch: the image that the last one ended with.
            if kept or first:
                tried = image.copy()
                for offset, data in kept:
                    tried.write(offset, data)
                yield kind, tried, end
            first = False
        for offset, data in writes:
            image.write(offset, data)
