"""dax.py BUILT KERNEL_FOLDER FS KILLS SEED: the program in a virtual machine with an emulated NVDIMM, whose memory is a file here, and ext4 or xfs
with dax on it. Asked: does the program get MAP_SYNC; which flush does it take, by the processor's features, and does a fence follow each flush
before the next store; do the commands work; and after the machine is killed at a random moment of additions, removals, class changes or
loads, and started again on the same memory: sound, everything acknowledged there, nothing else than was asked for. The emulator has no caches,
so that no flush is missed here: what a lost cache leaves is worked out from the trace (images.py)."""
import os
import random
import re
import subprocess
import sys
import tempfile

from machine import Machine

CLASSES = ("open", "room", "closed")
T = "/mnt/t.cat"
NODES = 9000
MEGABYTES = {"ext4": 128, "xfs": 400}
MODULES = "fs/ext4 fs/jbd2 fs/xfs fs/mbcache.ko lib crypto arch/x86/crypto drivers/nvdimm drivers/acpi/nfit drivers/dax".split()
MAKE = {"ext4": "mkfs.ext4 -q -F -b 4096 /dev/pmem0", "xfs": "mkfs.xfs -q -f -m reflink=0 /dev/pmem0"}
MOUNT = {"ext4": "mount -t ext4 -o dax /dev/pmem0 /mnt", "xfs": "mount -t xfs -o dax=always /dev/pmem0 /mnt"}
LOAD = "modprobe nfit; modprobe nd_pmem; modprobe "
# Raw persistent memory has no page structures, without which the kernel refuses dax: it becomes "fsdax". Once; the next starts find it so.
FSDAX = """echo namespace0.0 > /sys/bus/nd/drivers/nd_pmem/unbind
(cd /sys/bus/nd/devices/pfn0.0; echo ram > mode; echo 4096 > align; echo 11111111-2222-3333-4444-555555555555 > uuid
echo namespace0.0 > namespace; echo pfn0.0 > /sys/bus/nd/drivers/nd_pmem/bind)
"""
# Commands one after another; a line "number status" once each has ended.
STEPS = "n=0; while read -r l; do $l > /dev/null 2>&1; echo $n $?; n=$((n+1)); done < /data/steps > /dev/ttyS1"
PROCESSORS = (("max,-clwb,-clflushopt", "clflush"), ("max,-clwb", "clflushopt"), ("max", "clwb"))


def codes(chance, count, but=()):
    found = {}
    while len(found) < count:
        c = "".join(chance.choice("ABCDEFGHIJKLMNOPQRSTUVWXYZ") for _ in range(5)) + f"{chance.randrange(10**7):07}"
        if c not in but:
            found[c] = None
    return list(found)


def lines(pairs):
    return "".join(f"{c},{r},{a}\n" for c, (r, a) in pairs.items())


def pairs(text):
    """The whole lines code,recording,class of a text."""
    rows = [row.split(",") for row in text.split("\n")[:-1]]
    return {row[0]: (int(row[1]), row[2]) for row in rows if len(row) == 3}


def machine_of(folder, built, unpacked, fs, processor):
    memory = f"{folder}/memory"
    with open(memory, "wb") as f:
        f.truncate(MEGABYTES[fs] << 20)
    devices = ["-machine", "q35,nvdimm=on", "-m", "768M,slots=2,maxmem=4G",
               "-object", f"memory-backend-file,id=m,share=on,mem-path={memory},size={MEGABYTES[fs]}M", "-device", "nvdimm,id=n,memdev=m"]
    return Machine(folder, unpacked, MODULES, [f"{built}/catalogue", f"{built}/trace", f"/sbin/mkfs.{fs}"], processor, devices)


def flushes_of(trace):
    """The flush instructions of a trace. At each flush and at the end nothing but that line is unflushed; a fence follows each flush."""
    dirty = set()
    for event, after in zip(trace, trace[1:]):
        if event.startswith("S "):
            dirty.add(int(event.split()[1]) // 8)
            assert len(dirty) == 1, trace
        if event.startswith("F "):
            dirty.discard(int(event.split()[1]))
            assert after == "B", trace
    assert not dirty and trace[-2:] == ["X 0", ""], trace
    return {e.split()[2] for e in trace if e.startswith("F ")}


def every_command(machine, fs, carry, base, flush, ways):
    """The first start: MAP_SYNC, the flush of a change, which of so many ways the processor has, and the commands."""
    c = next(iter(base))
    said, _, _ = machine.boot(f"""{LOAD}{fs}
{FSDAX}{MAKE[fs]} && {MOUNT[fs]} || echo MOUNT-FAILED
catalogue make {T} {NODES}; catalogue load {T} /data/base 2> /dev/null
catalogue add {T} AA0000000001 5000 --pause 300000 > /dev/null & P=$!; sleep 1
echo "FLAGS $(grep -A 25 t.cat /proc/$P/smaps | grep VmFlags)"; wait $P
trace {carry} {64 + 256 * NODES} /tmp/trace /bin/catalogue remove {T} AA0000000001; echo "TRACE $(tr '\\n' ';' < /tmp/trace)"
for how in clflush clflushopt clwb; do catalogue add {T} AA0000000001 5000 --flush $how && catalogue remove {T} AA0000000001; done
catalogue add {T} AA0000000001 5000 --flush none; echo "NONE $?"
catalogue class {T} {c} closed; catalogue find {T} {c}; catalogue class {T} {c} {base[c][1]}
catalogue copy {T} /mnt/copy; catalogue salvage {T} /mnt/saved; catalogue check /mnt/copy; catalogue check /mnt/saved; rm /mnt/copy /mnt/saved
catalogue add {T} AA0000000001 5001 --cut 1; catalogue repair {T}; catalogue check {T}
""", {"base": lines(base)})
    assert "MOUNT-FAILED" not in said, said[-2000:]
    assert re.search(r"FLAGS VmFlags:.* sf ", said), "no MAP_SYNC: " + said[-2000:]
    assert flushes_of(re.search(r"TRACE (.*)", said)[1].split(";")) == {flush}, said[-2000:]
    assert said.count(" is settled: ") == 3 and said.count("added AA0000000001") == ways and f"{base[c][0]},closed" in said, said
    assert "where a change lasts only by a flush instruction" in said and "NONE 74" in said, said


def work_of(chance, kind, now, number):
    """A script, its files, and what it asks for: (code, before, after) in order."""
    if kind != 1:
        new = {c: (number + i, chance.choice(CLASSES)) for i, c in enumerate(codes(chance, 1200, now))}
        script = f"catalogue load {T} /data/new --each{' --pause 200' if kind == 2 else ''} 2> /dev/null > /dev/ttyS1"
        return script, {"new": lines(new)}, [(c, None, v) for c, v in new.items()]
    asked, steps = [], []
    for i, c in enumerate(chance.sample(sorted(now), 60) + codes(chance, 60, now)):
        before = now.get(c)
        after = (number + i, "room") if before is None else chance.choice([None, (before[0], chance.choice(CLASSES))])
        words = f"add {T} {c} {after[0]} {after[1]}" if before is None else f"remove {T} {c}" if after is None else f"class {T} {c} {after[1]}"
        asked.append((c, before, after))
        steps.append(f"catalogue {words}{' --dock 1' if i % 3 == 0 else ''}")
    return STEPS, {"steps": "\n".join(steps) + "\n"}, asked


def kills(machine, fs, count, base, chance):
    now, maybe, acknowledged, at_work, number = dict(base), {}, 0, 0, 100000
    for i in range(count + 1):
        kind, last = i % 3, i == count
        script, files, asked = work_of(chance, kind, {c: v for c, v in now.items() if c not in maybe}, number)
        number += 2000
        said, line, killed = machine.boot(f"""{LOAD}{fs}; {MOUNT[fs]} || echo MOUNT-FAILED
catalogue check {T}; echo "CHECK $?"; echo LIST; catalogue list {T}; echo LIST-END
{'' if last else f'echo WORK; {script}; echo WORKED; sleep 1'}
""", files, kill=None if last else chance.random() * (0.8, 8, 5)[kind])
        assert "CHECK 0" in said, said[-2000:]
        have = pairs(re.search(r"LIST\n(.*)LIST-END", said, re.S)[1])
        for c in set(now) | set(maybe) | set(have):
            assert have.get(c) in maybe.get(c, {now.get(c)}), (i, c, have.get(c), maybe.get(c, now.get(c)))
        at_work += killed and "WORKED" not in said
        now, maybe = have, {}
        done = line.count("\n") if kind == 1 else len(pairs(line))
        if kind == 1:
            assert all(row.split()[1] == "0" for row in line.split("\n")[:-1]), line
        acknowledged += 0 if last else done
        for k, (c, before, after) in enumerate([] if last else asked):
            maybe[c] = {after} if k < done else {before, after}
    assert at_work > 0, "the machine was never killed at work"
    return f"{count} kills, {at_work} of them at work, {acknowledged} acknowledged, none lost"


def main(built, unpacked, fs, count, seed):
    chance = random.Random(int(seed))
    base = {c: (1 + i, chance.choice(CLASSES)) for i, c in enumerate(codes(chance, 700))}
    carry = re.search(r"^(\w+) [tT] carry_out$", subprocess.check_output(["nm", f"{built}/catalogue"], text=True), re.M)[1]
    with tempfile.TemporaryDirectory() as folder:
        for ways, (processor, flush) in enumerate(PROCESSORS, 1):
            os.mkdir(f"{folder}/{flush}")
            machine = machine_of(f"{folder}/{flush}", built, unpacked, fs, processor)
            every_command(machine, fs, carry, base, flush, ways)
            print(f"{fs}, {flush}: MAP_SYNC, every line flushed and fenced before the next, all commands: passed", flush=True)
        print(f"{fs}: {kills(machine, fs, int(count), base, chance)}: passed", flush=True)


main(*sys.argv[1:])
