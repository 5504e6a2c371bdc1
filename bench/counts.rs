//! Stores and flushes per insertion and per deletion, for keys in random, rising and falling order: ours and the 512-byte tree.
use crate::calls::{self, FastFair, Orders, Words};
use crate::keys::{Keys, Random};
use crate::results::{Results, Spread};
use crate::{COUNTS, OURS, SEED, TREE};

pub const ORDERS: [&str; 3] = ["random", "rising", "falling"];
pub const CHANGES: [&str; 2] = ["insertion", "deletion"];

/// Sums over the insertions and over the deletions: stores, flushes.
type Sums = [(u64, u64); 2];

fn ordered(mut keys: Vec<u64>, order: &str) -> Vec<u64> {
    match order {
        "rising" => keys.sort_unstable(),
        "falling" => keys.sort_unstable_by(|a, b| b.cmp(a)),
        _ => {}
    }
    keys
}

/// From an empty table to all keys, then back to none in the same order; memory must follow the working copy all the way.
fn ours(keys: &[u64]) -> Sums {
    // Rising keys leave 5 slots in use in each node split, so that a quarter of the keys is room enough.
    let mut working = Words::zeroed(calls::table_words(keys.len() / 4 + 64));
    assert_eq!(calls::make(&mut working), 0);
    let mut memory = working.clone();
    let mut orders = Orders::new();
    let mut sums = [(0, 0); 2];
    for (which, sum) in sums.iter_mut().enumerate() {
        for (&key, recording) in keys.iter().zip(1..) {
            let number = if which == 0 { calls::insert(&mut working, &mut orders, key, recording) } else { calls::delete(&mut working, &mut orders, key) };
            assert!(number == 0 && calls::carry_plain(&mut memory, &orders) == 0, "key {key}: {number}");
            assert_eq!(calls::search(&memory, key).0, if which == 0 { recording } else { 0 }, "key {key}");
            *sum = (sum.0 + orders.stores, sum.1 + orders.flushes);
        }
        assert!(*memory == *working, "memory and working copy differ");
    }
    sums
}

fn tree(keys: &[u64]) -> Sums {
    let mut tree = FastFair::new(keys.len());
    for (&key, value) in keys.iter().zip(1..) {
        tree.insert(key, value);
        assert_eq!(tree.search(key), value, "512-byte tree, key {key}");
    }
    let (stores, flushes) = tree.counts();
    for &key in keys {
        assert!(tree.delete(key) && tree.search(key) == 0, "512-byte tree, deleted key {key}");
    }
    let all = tree.counts();
    [(stores, flushes), (all.0 - stores, all.1 - flushes)]
}

/// How a mean is named in the results.
pub fn name(who: &str, order: &str, change: &str, what: &str) -> String {
    format!("{who}: {order} {change}, {what}")
}

/// The 512-byte tree's counters on one leaf of ten keys, against the paper's rule worked out: shifting in at slot p of n is 4 + 2(n-p)
/// stores, shifting out 2(n-p), and a flush for each line that they touch. Entry i lies in line (i + 2) / 4.
fn verify_counters() {
    const KEYS: u64 = 10;
    let mut tree = FastFair::new(KEYS as usize);
    let (mut stores, mut flushes) = (0, 0);
    for n in 0..KEYS {
        tree.insert(KEYS - n, n + 1);
        (stores, flushes) = (stores + 4 + 2 * n, flushes + (n + 1 + 2) / 4 + 1);
        assert_eq!(tree.counts(), (stores, flushes), "512-byte tree, counts of insertion {n}");
    }
    for n in (1..=KEYS).rev() {
        assert!(tree.delete(KEYS + 1 - n));
        (stores, flushes) = (stores + 2 * n, flushes + (n - 1 + 2) / 4 + 1);
        assert_eq!(tree.counts(), (stores, flushes), "512-byte tree, counts of a deletion from {n}");
    }
}

fn record(results: &mut Results, who: &str, order: &str, size: usize, sums: Sums) {
    for (change, (stores, flushes)) in CHANGES.iter().zip(sums) {
        for (what, sum) in [("stores", stores), ("flushes", flushes)] {
            results.add(COUNTS, &name(who, order, change, what), size, "mean", Spread::exact(sum as f64 / size as f64));
        }
    }
}

/// Ours at one size; the 512-byte tree at that and at a larger one, since the paper's figure is of a large tree.
pub fn measure(results: &mut Results, size: usize, large: usize) {
    verify_counters();
    let keys = Keys::new(&mut Random::new(SEED + 2), large, 0).present;
    for order in ORDERS {
        let few = ordered(keys[..size].to_vec(), order);
        record(results, OURS, order, size, ours(&few));
        record(results, TREE, order, size, tree(&few));
        record(results, TREE, order, large, tree(&ordered(keys.clone(), order)));
    }
    eprintln!("counts: {size} and {large} keys done");
}
