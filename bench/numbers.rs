//! The check on recording numbers in order, in steps, random, crowded and hostile, beside a read pass over the same nodes. Each table must be
//! taken as settled, and with one number twice be refused.
use crate::calls::{self, Orders, Words};
use crate::change::{keys_for, settled};
use crate::results::{timed, Results, Spread};
use crate::{search, NUMBERS, RUNS};
use std::hint::black_box;

/// The primes that give numbers their places, in the first round, the second .. (crates/recordings/specs/Rounds.antt).
const PRIMES: [u64; 6] = [1_048_573, 906_973, 975_157, 1_011_827, 938_459, 891_287];

/// What a call answers on a table that is not sound.
const NOT_SOUND: u64 = 4;

/// The first node, the words of a node, and its level's and first pointer's among them.
const FIRST: usize = 8;
const NODE: usize = 32;
const LEVEL: usize = 2;
const POINTER: usize = 9;

/// A kind of numbers: its name, number i from 1 on, and the most codes that it is measured with.
type Kind = (&'static str, fn(u64) -> u64, usize);

/// The finalizer of splitmix64, cut to a recording's 56 bits; 400,000 of them are different.
fn scattered(i: u64) -> u64 {
    let x = i.wrapping_mul(0x9e37_79b9_7f4a_7c15);
    let x = (x ^ x >> 30).wrapping_mul(0xbf58_476d_1ce4_e5b9);
    let x = (x ^ x >> 27).wrapping_mul(0x94d0_49bb_1331_11eb);
    (x ^ x >> 31) & 0xff_ffff_ffff_ffff
}

/// By every one of the primes each leaves the rest of others.
fn hostile(i: u64) -> u64 {
    1 + i % 74 * PRIMES[0] * PRIMES[1] + i / 74 % 74 * PRIMES[2] * PRIMES[3] + i / 5_476 * PRIMES[4] * PRIMES[5]
}

pub const KINDS: [Kind; 6] = [
    ("in order", |i| i, usize::MAX),
    ("in steps of 1,000", |i| 1_000 * i, usize::MAX),
    ("random", scattered, usize::MAX),
    ("crowded, eight to a place", |i| 1 + i / 8 + PRIMES[0] * (i % 8), usize::MAX),
    ("hostile in two rounds", |i| PRIMES[0] * PRIMES[1] * (1 + i % 70_000) + i / 70_000, usize::MAX),
    // More than the cells hold are compared one by one: 20,000 take seconds.
    ("hostile in all rounds", hostile, 10_000),
];

/// The words of all pointers of leaves; a node that is not in use has none.
fn pointers(table: &Words) -> Vec<usize> {
    let nodes = (FIRST..table.len()).step_by(NODE).filter(|node| table[node + LEVEL] == 0);
    nodes.flat_map(|node| (node + POINTER..node + NODE).step_by(2)).filter(|word| table[*word] != 0).collect()
}

/// Recording i of the packed table becomes number i of the kind.
fn numbered(table: &Words, number: fn(u64) -> u64) -> Words {
    let mut new = table.clone();
    pointers(table).into_iter().for_each(|word| new[word] = number(table[word]));
    new
}

/// One number at two places.
fn doubled(table: &Words) -> Words {
    let (mut bad, at) = (table.clone(), pointers(table));
    bad[at[at.len() / 3]] = table[at[at.len() / 2]];
    bad
}

/// A repair of a table that is not sound is the check, and writes nothing.
fn refused(bad: &mut Words) -> f64 {
    let (ns, number) = timed(|| calls::repair(black_box(bad), &mut Orders::new()));
    assert_eq!(number, NOT_SOUND, "a number that is there twice is taken");
    ns
}

/// The first run only warms up.
fn runs(mut run: impl FnMut() -> f64) -> Spread {
    run();
    Spread::of(&(0..RUNS).map(|_| run()).collect::<Vec<f64>>())
}

/// The sizes in nodes.
pub fn measure(results: &mut Results, sizes: &[usize]) {
    for &size in sizes {
        let codes = keys_for(size);
        let (table, _, reached) = search::packed(codes, 0);
        let pass = runs(|| timed(|| _ = black_box(calls::read_pass(black_box(&table), reached))).0);
        results.add(NUMBERS, "read pass", reached, "ns", pass);
        for (name, number, most) in KINDS {
            if codes > most {
                continue;
            }
            let mut of_kind = numbered(&table, number);
            let mut bad = doubled(&of_kind);
            results.add(NUMBERS, name, reached, "ns", runs(|| settled(&mut of_kind)));
            results.add(NUMBERS, &format!("{name}, one twice"), reached, "ns", runs(|| refused(&mut bad)));
        }
        eprintln!("recording numbers: {reached} nodes done");
    }
}
