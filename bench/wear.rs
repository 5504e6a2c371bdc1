//! Wear figures of order lists of growing length, beside one plain read pass over the same list.
use crate::calls::{self, Words};
use crate::keys::Random;
use crate::results::{timed, Results, Spread};
use crate::{RUNS, SEED, WEAR};
use std::hint::black_box;

pub const NODES: [usize; 2] = [1_024, 65_535];

/// How the figure of a table of so many nodes is named in the results.
pub fn name(nodes: usize) -> String {
    format!("{nodes} nodes")
}

/// Stores anywhere in a table of so many words, and a flush after each eight.
fn list(words: usize, orders: usize, random: &mut Random) -> Vec<u64> {
    let order = |i| if i % 9 == 8 { [u64::MAX, random.below((words / 8) as u64)] } else { [random.below(words as u64), 1] };
    (0..orders).flat_map(order).collect()
}

pub fn measure(results: &mut Results, sizes: &[usize]) {
    let mut random = Random::new(SEED);
    for &size in sizes {
        let mut passes = Vec::new();
        for nodes in NODES {
            let mut table = Words::zeroed(calls::table_words(nodes));
            assert_eq!(calls::make(&mut table), 0);
            let list = list(table.len(), size, &mut random);
            let (mut lines, mut extents) = (vec![0; table.len() / 8], vec![0; table.len() + 2]);
            let mut times = Vec::new();
            for run in 0..RUNS + 1 {
                let (pass, _) = timed(|| black_box(black_box(&list).iter().fold(0, |sum: u64, word| sum.wrapping_add(*word))));
                let (wear, figures) = timed(|| calls::wear(&table, black_box(&list), &mut lines, &mut extents));
                assert_eq!((figures.total, lines.iter().sum::<u64>()), ((size - size / 9) as u64, figures.total), "stores");
                assert_eq!(lines.iter().position(|&n| n == figures.largest), Some(figures.first_line as usize), "first line");
                // The first run only warms up.
                if run > 0 {
                    passes.push(pass);
                    times.push(wear);
                }
            }
            results.add(WEAR, &name(nodes), size, "ns", Spread::of(&times));
        }
        results.add(WEAR, "read pass", size, "ns", Spread::of(&passes));
    }
    eprintln!("wear done");
}
