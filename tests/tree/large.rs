//! Large tables: recording numbers in regular and in random order, in all classes, one of them twice, in another class too, or out of range,
//! against what the test put there.
mod calls;
mod common;
mod reference;

use common::*;
use reference::*;
use std::collections::HashSet;
use std::sync::OnceLock;

/// A kind of recording numbers: its name, the numbers by their order, and how many codes its largest table has.
type Kind = (&'static str, fn(u64) -> u64, u64);

/// A number scattered over all recordings as a random one is: some fall to one place.
fn scattered(i: u64) -> u64 {
    let x = (i + 1).wrapping_mul(0x9e37_79b9_7f4a_7c15);
    let x = (x ^ x >> 30).wrapping_mul(0xbf58_476d_1ce4_e5b9);
    let x = (x ^ x >> 27).wrapping_mul(0x94d0_49bb_1331_11eb);
    recording(x ^ x >> 31)
}

/// The primes by which numbers get their places, in the first round, the second ..
const PRIMES: [u64; 6] = [1_048_573, 906_973, 975_157, 1_011_827, 938_459, 891_287];

/// Most of these leave the rest of another by each of the primes, so that no round separates them, and all want the same few cells, which
/// get full: what is left is compared one by one.
fn hostile(i: u64) -> u64 {
    static NUMBERS: OnceLock<Vec<u64>> = OnceLock::new();
    let number = |[a, b, c]: [u64; 3]| 1 + a * PRIMES[0] * PRIMES[1] + b * PRIMES[2] * PRIMES[3] + c * PRIMES[4] * PRIMES[5];
    let cell = |n: u64| n % 2_147_483_647 * 2_246_822_519 % 4_294_967_291 % 16_384;
    let all = || (0..216_000).map(|i| number([i % 60, i / 60 % 60, i / 3_600])).filter(|&n| cell(n) < 256).collect();
    NUMBERS.get_or_init(all)[i as usize]
}

const KINDS: [Kind; 11] = [
    ("1, 2, 3 ..", |i| 1 + i, 400_000),
    ("falling from the largest", |i| MOST_RECORDING - i, 60_000),
    ("in steps of 1,000", |i| 1_000 * (1 + i), 60_000),
    ("in steps of 2,147,483,647, by which numbers get their cells", |i| 2_147_483_647 * (1 + i), 60_000),
    ("random", scattered, 400_000),
    ("half of them random, half in steps of that prime", |i| if i % 2 == 0 { 2_147_483_647 * (1 + i) } else { scattered(i) }, 60_000),
    ("eight at each place of the first round", |i| 1 + i / 8 + PRIMES[0] * (i % 8), 400_000),
    ("in steps of the first round's prime", |i| PRIMES[0] * (1 + i), 60_000),
    ("in steps of the first two rounds' primes", |i| PRIMES[0] * PRIMES[1] * (1 + i), 60_000),
    ("a quarter equal by the first two rounds' primes, the others random", |i| if i % 4 == 0 { PRIMES[0] * PRIMES[1] * (1 + i / 4) } else { scattered(i) }, 200_000),
    ("equal to others by each round's prime, all wanting few cells", hostile, 3_300),
];

/// Nodes of one level, by number: each one's fence.
type Row = Vec<(u64, u64)>;

fn put(t: &mut [u64], n: u64, head: [u64; 4], slots: &[(u64, u64)]) {
    let w = start(n);
    t[w..w + 4].copy_from_slice(&head);
    for (i, &(key, pointer)) in slots.iter().enumerate() {
        t[w + 8 + 2 * i] = key;
        t[w + 9 + 2 * i] = pointer;
    }
}

/// Nodes of eight slots over these slots, the first slot of an inner node being its left; their row.
fn level(t: &mut [u64], first: u64, level: u64, below: &[(u64, u64)]) -> Row {
    let count = below.chunks(8).len() as u64;
    let mut row = Row::new();
    for (n, part) in (first..).zip(below.chunks(8)) {
        let fence = if n == first { 0 } else { part[0].0 };
        let sibling = if n + 1 == first + count { 0 } else { n + 1 };
        let (left, slots) = if level == 0 { (MARK, part) } else { (part[0].1, &part[1..]) };
        put(t, n, [left, sibling, level, fence], slots);
        row.push((fence, n));
    }
    row
}

/// A settled table of so many codes, with a few nodes to spare. The leaves are nodes 1, 2 ..
fn packed(codes: u64, number: fn(u64) -> u64) -> Vec<u64> {
    let mut t = make(codes / 7 + 16, 1);
    let pairs: Vec<(u64, u64)> = (0..codes).map(|i| (7 * i, pointer(number(i), i * i % 3))).collect();
    let (mut first, mut l) = (1, 0);
    let mut row = level(&mut t, first, l, &pairs);
    while row.len() > 1 {
        (first, l) = (first + row.len() as u64, l + 1);
        row = level(&mut t, first, l, &row);
    }
    t[1] = row[0].1;
    t
}

/// The word of the pointer of code i.
fn place(i: u64) -> usize {
    start(1 + i / 8) + 9 + 2 * (i % 8) as usize
}

/// Whether the library takes the table as settled; else it must refuse it as not sound. No word may change.
fn taken(t: &[u64], list: &[u64]) -> bool {
    let w = calls::repair(t, list, ORDERED);
    assert!(w.table == t && w.list == list, "a repair of a settled table, or a refused one, wrote");
    assert!(matches!((w.number, w.counts), (0, [Some(0), Some(0), Some(0)]) | (4, [None, None, None])), "repair gave {} {:?}", w.number, w.counts);
    w.number == 0
}

/// One number at two places: the first and the last code, two codes of one leaf, two of neighbouring ones, and any two.
fn twice(t: &mut [u64], codes: u64, what: &dyn Fn() -> String, seed: u64, random: &mut Random, list: &[u64]) {
    for (a, b) in [(0, codes - 1), (0, 2), (codes / 2, codes / 2 + 8), (random.below(codes), random.below(codes))] {
        let (old, new) = match (t.get(place(b)), t.get(place(a))) {
            (Some(&old), Some(&other)) if a.abs_diff(b) > 1 && b < codes => (old, pointer(recording(other), class(old))),
            _ => continue,
        };
        t[place(b)] = new;
        expect(!taken(t, list), seed, &[], || format!("{}: code {b} has the recording of code {a}", what()));
        t[place(b)] = old;
    }
}

fn try_kind((name, number, _): Kind, codes: u64, seed: u64, random: &mut Random, list: &[u64]) {
    let mut t = packed(codes, number);
    let used: HashSet<u64> = (0..codes).map(number).collect();
    assert_eq!(used.len() as u64, codes, "recordings {name}: the test's own numbers are not different");
    twice(&mut t, codes, &|| format!("{codes} codes, recordings {name}"), seed, random, list);
    expect(taken(&t, list), seed, &[], || format!("{codes} codes, recordings {name}: not taken"));
    // The separately written judge looks for equal numbers its own way.
    expect(codes > 3_000 || judge(&t).is_some(), seed, &[], || format!("{codes} codes: the test's own table is not sound"));
    for _ in 0..if codes > 3_000 { 2 } else { 8 } {
        let (a, b) = (random.below(codes), random.below(codes));
        let old = t[place(b)];
        let new = match random.below(8) {
            0 => MARK,
            1 => pointer(recording(old), 3 + random.below(253)),
            2 => pointer(0, 1 + random.below(2)),
            3 => pointer(recording(old), random.below(3)),
            _ => pointer(recording(t[place(a)]), random.below(3)),
        };
        // A pointer that equals the one before it, or a leaf's left, hides its slot instead.
        if a.abs_diff(b) == 1 || (new == MARK && b % 8 == 0) {
            continue;
        }
        t[place(b)] = new;
        let sound = recording(old) == recording(new) && class(new) <= MOST_CLASS;
        expect(taken(&t, list) == sound, seed, &[], || format!("{codes} codes, recordings {name}: {b} with {new} for {old}, {a} has {}", t[place(a)]));
        t[place(b)] = old;
        let found = calls::insert(&t, 1, list, ORDERED, 7 * a + 1, recording(old), random.below(3));
        expect(found.number == 8 && found.table == t, seed, &[], || format!("{codes} codes, recordings {name}: {old} inserted again gives {}", found.number));
        let (to, line) = (random.below(3), place(b) as u64 / 8);
        let set = calls::set_class(&t, 1, list, ORDERED, 7 * b, to);
        let store = [place(b) as u64, pointer(recording(old), to), MARK, line];
        expect(set.number == 0 && set.list[..4] == store, seed, &[], || format!("{codes} codes, recordings {name}: class {to} of code {b} gives {}", set.number));
    }
    // Side by side the same recording in two classes: not hidden, and there twice.
    for b in (1..codes).filter(|b| b % 8 != 0).take(2) {
        let (old, before) = (t[place(b)], t[place(b - 1)]);
        t[place(b)] = pointer(recording(before), (class(before) + 1) % 3);
        expect(!taken(&t, list), seed, &[], || format!("{codes} codes, recordings {name}: {b} has the recording of the code before it in another class"));
        t[place(b)] = old;
    }
    let unused = (1..).find(|r| !used.contains(r)).unwrap();
    let added = calls::insert(&t, 1, list, ORDERED, 7 * (codes / 2) + 1, unused, 2);
    expect(added.number == 0 && calls::search(&added.table, 1, 7 * (codes / 2) + 1) == calls::found(unused, 2), seed, &[], || format!("{codes} codes, recordings {name}: {unused} was not added"));
}

fn main() {
    let arguments: Vec<u64> = std::env::args().skip(1).map(|a| a.parse().expect("a number")).collect();
    let seed = *arguments.first().unwrap_or(&20_261_116);
    let most = *arguments.get(1).unwrap_or(&400_000);
    println!("seed {seed}");
    let (mut random, list) = (Random(seed), vec![0; LIST_WORDS]);
    let mut passed = 0;
    for kind in KINDS {
        let mut sizes = [1, 9, 300, 3_000, 20_000, most].map(|codes| codes.min(kind.2)).to_vec();
        sizes.dedup();
        for codes in sizes {
            try_kind(kind, codes, seed, &mut random, &list);
        }
        println!("recordings {}: done", kind.0);
        passed += 1;
    }
    println!("{passed} passed, 0 failed");
}
