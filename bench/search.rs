//! Searches that hit and searches that miss, ours beside the other ways, on the same keys and queries.
use crate::calls::{self, CppMap, FastFair, Orders, Words};
use crate::keys::{Keys, Random};
use crate::results::{timed, Results, Spread};
use crate::lines;
use crate::{CPP, FORESEEN, HITS, LED, MISSES, OURS, PLAIN, RUNS, RUST, SEED, SORTED, TABLE, TESTED, TREE, TRUSTING};
use std::collections::{BTreeMap, BTreeSet};
use std::hint::black_box;

/// Each run asks so many keys; drawn anew, so that no run of a small table is a short loop that the processor learns.
pub const QUERIES: usize = 400_000;

/// Nanoseconds that the library's check of a packed table may take.
const CHECK_CAP: f64 = 60e9;

/// A way to find a recording by its key.
trait Contender {
    fn name(&self) -> &'static str;

    /// The recording, or 0 if the key is absent.
    fn find(&self, key: u64) -> u64;

    /// The sum of the answers: keeps them alive, and is checked after each run.
    fn sum(&self, queries: &[u64]) -> u64 {
        queries.iter().fold(0, |sum, &key| sum.wrapping_add(self.find(black_box(key))))
    }
}

struct Ours<'a>(&'a Words);
/// With the table's sentinels; likewise below.
struct Led<'a>(&'a Words, &'a Words);
struct Trusting<'a>(&'a Words, &'a Words);
struct Plain<'a>(&'a Words);
struct Foreseen<'a>(&'a Words);
struct Tested<'a>(&'a Words);
struct Sorted {
    keys: Vec<u64>,
    recordings: Vec<u64>,
}

impl Contender for Ours<'_> {
    fn name(&self) -> &'static str {
        OURS
    }
    fn find(&self, key: u64) -> u64 {
        calls::search(self.0, key).0
    }
}

impl Contender for Led<'_> {
    fn name(&self) -> &'static str {
        LED
    }
    fn find(&self, key: u64) -> u64 {
        calls::search_with(self.0, self.1, key).0
    }
}

impl Contender for Trusting<'_> {
    fn name(&self) -> &'static str {
        TRUSTING
    }
    fn find(&self, key: u64) -> u64 {
        calls::search_trusting(self.0, self.1, key).0
    }
}

impl Contender for Plain<'_> {
    fn name(&self) -> &'static str {
        PLAIN
    }
    fn find(&self, key: u64) -> u64 {
        calls::search_plain(self.0, key).0
    }
}

impl Contender for Foreseen<'_> {
    fn name(&self) -> &'static str {
        FORESEEN
    }
    fn find(&self, key: u64) -> u64 {
        calls::search_foreseen(self.0, key).0
    }
}

impl Contender for Tested<'_> {
    fn name(&self) -> &'static str {
        TESTED
    }
    fn find(&self, key: u64) -> u64 {
        calls::search_tested(self.0, key).0
    }
}

impl Contender for FastFair {
    fn name(&self) -> &'static str {
        TREE
    }
    fn find(&self, key: u64) -> u64 {
        self.search(key)
    }
}

// The Rust ways are not inlined into the loop: each query is one call, as it is for the C ways.
impl Contender for BTreeMap<u64, u64> {
    fn name(&self) -> &'static str {
        RUST
    }
    #[inline(never)]
    fn find(&self, key: u64) -> u64 {
        self.get(&key).copied().unwrap_or(0)
    }
}

impl Contender for CppMap {
    fn name(&self) -> &'static str {
        CPP
    }
    fn find(&self, key: u64) -> u64 {
        self.search(key)
    }
}

impl Contender for Sorted {
    fn name(&self) -> &'static str {
        SORTED
    }
    #[inline(never)]
    fn find(&self, key: u64) -> u64 {
        self.keys.binary_search(&key).map_or(0, |i| self.recordings[i])
    }
}

/// A packed table of so many random keys, with the keys. Node numbers are scattered, as they are in a table grown by random insertions.
pub fn packed(count: usize, spare: usize) -> (Words, Keys, usize) {
    let mut random = Random::new(SEED);
    let keys = Keys::new(&mut random, count, QUERIES);
    let mut pairs = keys.pairs();
    pairs.sort_unstable();
    let reached = calls::nodes_for(count);
    let mut place: Vec<u64> = (1..=reached as u64).collect();
    random.shuffle(&mut place);
    (calls::pack(&pairs, &place, reached + spare), keys, reached)
}

/// The root's level is one less.
fn levels(table: &Words) -> u64 {
    table[calls::table_words(table[1] as usize - 1) + 2] + 1
}

/// Keys that are present, drawn with repetition.
pub fn draw(present: &[u64]) -> Vec<u64> {
    let mut random = Random::new(SEED + 1);
    (0..QUERIES).map(|_| present[random.below(present.len() as u64) as usize]).collect()
}

/// The trees that grow do so in the random order of the pairs.
fn contenders<'a>(table: &'a Words, words: &'a Words, keys: &Keys) -> Vec<Box<dyn Contender + 'a>> {
    let pairs = keys.pairs();
    let mut fastfair = FastFair::new(pairs.len());
    let mut cpp = CppMap::new();
    let mut rust = BTreeMap::new();
    for &(key, recording) in &pairs {
        fastfair.insert(key, recording);
        cpp.insert(key, recording);
        rust.insert(key, recording);
    }
    let mut rising = pairs;
    rising.sort_unstable();
    let (keys, recordings) = rising.into_iter().unzip();
    let sorted = Sorted { keys, recordings };
    let on_table: Vec<Box<dyn Contender + 'a>> =
        vec![Box::new(Ours(table)), Box::new(Led(table, words)), Box::new(Plain(table)), Box::new(Foreseen(table)), Box::new(Trusting(table, words)), Box::new(Tested(table))];
    let others: Vec<Box<dyn Contender + 'a>> = vec![Box::new(fastfair), Box::new(rust), Box::new(cpp), Box::new(sorted)];
    on_table.into_iter().chain(others).collect()
}

/// Every present key and every absent one, against the list of pairs itself. A wrong answer ends the program.
fn verify(contender: &dyn Contender, keys: &Keys) {
    for (key, recording) in keys.pairs() {
        assert_eq!(contender.find(key), recording, "{}: key {key}", contender.name());
    }
    for &key in &keys.absent {
        assert_eq!(contender.find(key), 0, "{}: absent key {key}", contender.name());
    }
}

/// The next key up of every absent key, by the ways that look for it: the library and plain C.
fn verify_next(table: &Words, words: &Words, keys: &Keys) {
    let present: BTreeSet<u64> = keys.present.iter().copied().collect();
    for &key in &keys.absent {
        let next = present.range(key..).next().copied().unwrap_or(0);
        let ours = [calls::search(table, key), calls::search_with(table, words, key)];
        let plain = [calls::search_plain(table, key), calls::search_foreseen(table, key), calls::search_trusting(table, words, key), calls::search_tested(table, key)];
        assert_eq!((ours, plain), ([(0, next); 2], [(0, next); 4]), "the next key up of {key}: ours, then plain C");
    }
}

/// The right sum of the answers to these queries.
fn expected(keys: &Keys, queries: &[u64]) -> u64 {
    let map: std::collections::HashMap<u64, u64> = keys.pairs().into_iter().collect();
    queries.iter().map(|key| map.get(key).copied().unwrap_or(0)).fold(0, u64::wrapping_add)
}

/// The contenders take turns, each run with another first, so that a slow moment of the machine meets all.
fn race(all: &[Box<dyn Contender + '_>], queries: &[u64], right: u64) -> Vec<Vec<f64>> {
    let mut times = vec![Vec::new(); all.len()];
    for run in 0..RUNS + 1 {
        for turn in 0..all.len() {
            let which = (run + turn) % all.len();
            let (ns, sum) = timed(|| all[which].sum(queries));
            assert_eq!(sum, right, "{}: wrong answers in a run", all[which].name());
            // The first run only warms up.
            if run > 0 {
                times[which].push(ns / queries.len() as f64);
            }
        }
    }
    times
}

/// The library must take the packed table as settled. Left out if the check, growing with the square, would be over the cap.
fn accepted(table: &mut Words, expected: f64) -> Option<f64> {
    if expected > CHECK_CAP {
        return None;
    }
    let mut orders = Orders::new();
    let (ns, number) = timed(|| calls::repair(table, &mut orders));
    assert!(number == 0 && orders.count() == 0, "the library does not take the packed table: {number}");
    Some(ns)
}

pub fn measure(results: &mut Results, sizes: &[usize]) {
    let mut last = (1.0, 0.0);
    for &size in sizes {
        let (mut table, keys, reached) = packed(size, 0);
        match accepted(&mut table, last.1 * (size as f64 / last.0).powi(2)) {
            Some(ns) => last = (size as f64, ns),
            None => eprintln!("search: the table of {size} keys is not put to the library's check, which would take too long"),
        }
        let words = calls::sentinels(&table);
        let all = contenders(&table, &words, &keys);
        all.iter().for_each(|c| verify(c.as_ref(), &keys));
        verify_next(&table, &words, &keys);
        results.add(TABLE, "nodes", size, "nodes", Spread::exact(reached as f64));
        results.add(TABLE, "levels", size, "levels", Spread::exact(levels(&table) as f64));
        for (part, queries) in [(HITS, draw(&keys.present)), (MISSES, keys.absent.clone())] {
            let times = race(&all, &queries, expected(&keys, &queries));
            lines::count(results, part, size, &table, &words, &queries);
            for (contender, runs) in all.iter().zip(times) {
                results.add(part, contender.name(), size, "ns", Spread::of(&runs));
            }
        }
        eprintln!("search: {size} keys done");
    }
}

/// Only the queries of one way, for a profiler: no check, no clock.
pub fn only(which: &str, size: usize, queries: usize) {
    let (table, keys, _) = packed(size, 0);
    let asked = draw(&keys.present);
    let asked = &asked[..queries.min(asked.len())];
    let sum = if which == "plain" { Plain(&table).sum(asked) } else { Ours(&table).sum(asked) };
    println!("{which}: {} queries on {size} keys, sum {sum}", asked.len());
}
