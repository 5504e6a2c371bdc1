//! An absent code with every leaf above it empty: the search goes on along all of them for the next code up, and an insertion's tests of the
//! same code need not.
use crate::calls::{self, Orders, Words};
use crate::change::{keys_for, SHORT_LIST};
use crate::results::{timed, Results, Spread};
use crate::{search, RUNS, WALK};
use std::hint::black_box;

/// Calls in a run; the run's time is the middle one.
const CALLS: usize = 33;

/// What a call answers to a recording that is there.
const RECORDING_PRESENT: u64 = 8;

/// A settled table in which only the first leaf has codes, an absent code of that leaf above all of them, a recording that is there, and
/// how many leaves there are.
fn emptied(nodes: usize) -> (Words, u64, u64, usize) {
    let (mut table, keys, reached) = search::packed(keys_for(nodes), 0);
    let mut pairs = keys.pairs();
    pairs.sort_unstable();
    let last = pairs[7].0;
    let mut leaves = 0;
    for node in 0..reached {
        let first = calls::table_words(node);
        if table[first + 2] == 0 {
            leaves += 1;
            // Slots in use end before the first pointer 0.
            if table[first + 3] > 0 {
                table[first + 9] = 0;
            }
        }
    }
    (table, last + 1, pairs[0].1, leaves)
}

pub fn measure(results: &mut Results, sizes: &[usize]) {
    for &size in sizes {
        let (mut table, key, recording, leaves) = emptied(size);
        let (mut orders, mut brief) = (Orders::new(), Orders::too_short());
        assert!(calls::repair(&mut table, &mut orders) == 0 && orders.count() == 0, "the emptied table is not settled");
        assert_eq!(calls::search(&table, key), (0, 0), "no code is above {key}");
        let mut runs: [Vec<f64>; 3] = Default::default();
        for run in 0..RUNS + 1 {
            let mut times: [Vec<f64>; 3] = Default::default();
            for _ in 0..CALLS {
                let (walk, _) = timed(|| black_box(calls::search(black_box(&table), key)));
                let mut call = |list: &mut Orders| timed(|| calls::insert(&mut table, list, key, recording));
                // The first call finds the caches full of something else.
                call(&mut brief);
                let ((check, short), (whole, there)) = (call(&mut brief), call(&mut orders));
                assert!(short == SHORT_LIST && there == RECORDING_PRESENT, "insertions refused with {short} and {there}");
                [walk, check, whole - check].into_iter().zip(&mut times).for_each(|(ns, all)| all.push(ns));
            }
            // The first run only warms up.
            if run > 0 {
                times.iter().zip(&mut runs).for_each(|(of, all)| all.push(Spread::of(of).median));
            }
        }
        results.add(WALK, "leaves", size, "leaves", Spread::exact(leaves as f64));
        for (what, times) in ["search", "check", "tests"].into_iter().zip(&runs) {
            results.add(WALK, what, size, "ns", Spread::of(times));
        }
    }
    eprintln!("empty leaves done");
}
