//! A salvage of a sound table, and of the same with words changed at random, beside a plain read pass over the same nodes.
use crate::calls::{self, Orders, Words};
use crate::keys::Random;
use crate::results::{timed, Results, Spread};
use crate::{search, RUNS, SALVAGE, SEED};
use std::collections::BTreeSet;
use std::hint::black_box;

/// The two tables.
pub const TABLES: [&str; 2] = ["sound", "damaged"];

/// One word is changed for so many codes: 1,000 of a table of 400,000.
const CODES_A_WORD: usize = 400;

/// Read passes in a run.
const PASSES: usize = 16;

/// Nanoseconds that all calls of a size may take. A size that would take longer, if the call grew with the square, is left out.
const SIZE_CAP: f64 = 60e9;

/// Words of the report for each node.
const REPORT_WORDS: usize = 36;

/// What a salvage is lent, and what it answers.
struct Lent {
    out: Words,
    report: Words,
    dropped: u64,
}

impl Lent {
    fn new(table: &Words, nodes: usize) -> Lent {
        Lent { out: Words::zeroed(table.len()), report: Words::zeroed(REPORT_WORDS * nodes), dropped: 0 }
    }

    fn salvage(&mut self, table: &Words) -> f64 {
        let (ns, number) = timed(|| calls::salvage(black_box(table), &mut self.out, &mut self.report, &mut self.dropped));
        assert_eq!(number, 0, "a salvage was refused");
        ns
    }

    /// The pairs of the new table, which the library must take as settled.
    fn pairs(&mut self) -> Vec<(u64, u64)> {
        let mut orders = Orders::new();
        assert!(calls::repair(&mut self.out, &mut orders) == 0 && orders.count() == 0, "the new table is not settled");
        calls::list(&self.out)
    }
}

/// So many words of nodes changed to any others.
fn damaged(table: &Words, nodes: usize, words: usize) -> Words {
    let mut random = Random::new(SEED + 3);
    let mut changed = BTreeSet::new();
    let mut damaged = table.clone();
    while changed.len() < words {
        let place = calls::table_words(0) + random.below((calls::table_words(nodes) - calls::table_words(0)) as u64) as usize;
        let word = random.word();
        if word != table[place] && changed.insert(place) {
            damaged[place] = word;
        }
    }
    damaged
}

/// Every slot of every node, as the pair that it would be.
fn slots(table: &Words, nodes: usize) -> BTreeSet<(u64, u64)> {
    (0..nodes).flat_map(|node| table[calls::table_words(node)..calls::table_words(node + 1)][8..].chunks(2).map(|s| (s[0], s[1]))).collect()
}

/// How many codes each table keeps and how many slots it drops: a sound table keeps all, and none is kept that no slot holds.
fn verify(tables: &[Words; 2], lent: &mut Lent, mut sound: Vec<(u64, u64)>, nodes: usize) -> [(usize, u64); 2] {
    lent.salvage(&tables[0]);
    sound.sort_unstable();
    assert!(lent.pairs() == sound && lent.dropped == 0, "a sound table is not kept");
    lent.salvage(&tables[1]);
    let (kept, held) = (lent.pairs(), slots(&tables[1], nodes));
    assert!(kept.iter().all(|pair| held.contains(pair)), "a pair was kept that no slot holds");
    [(sound.len(), 0), (kept.len(), lent.dropped)]
}

fn record(results: &mut Results, size: usize, nodes: usize, runs: &[[f64; 3]], counts: &[(usize, u64); 2]) {
    results.add(SALVAGE, "nodes", size, "nodes", Spread::exact(nodes as f64));
    for (which, what) in TABLES.into_iter().chain(["read pass"]).enumerate() {
        let times: Vec<f64> = runs.iter().map(|run| run[which]).collect();
        results.add(SALVAGE, what, size, "ns", Spread::of(&times));
    }
    for (table, &(kept, dropped)) in TABLES.into_iter().zip(counts) {
        let words = if table == TABLES[0] { 0 } else { size / CODES_A_WORD };
        let figures = [("words changed", words as f64), ("codes kept", kept as f64), ("slots dropped", dropped as f64)];
        figures.into_iter().for_each(|(what, count)| results.add(SALVAGE, &format!("{table}: {what}"), size, "count", Spread::exact(count)));
    }
}

/// The sizes in codes, rising.
pub fn measure(results: &mut Results, sizes: &[usize]) {
    // Two calls in a run, and two before the runs.
    let calls_of_a_size = (2 * (RUNS + 2)) as f64;
    let mut last = (1.0, 0.0);
    for &size in sizes {
        let expected = last.1 * (size as f64 / last.0).powi(2);
        if calls_of_a_size * expected > SIZE_CAP {
            eprintln!("salvage: {size} codes left out: a call of {:.1} s would be over the cap", expected / 1e9);
            continue;
        }
        let (table, keys, nodes) = search::packed(size, 0);
        let tables = [damaged(&table, nodes, 0), damaged(&table, nodes, size / CODES_A_WORD)];
        let mut lent = Lent::new(&table, nodes);
        let counts = verify(&tables, &mut lent, keys.pairs(), nodes);
        let mut run = || {
            let [sound, damaged] = [0, 1].map(|which| lent.salvage(&tables[which]));
            let (pass, _) = timed(|| (0..PASSES).for_each(|_| _ = black_box(calls::read_pass(black_box(&table), nodes))));
            [sound, damaged, pass / PASSES as f64]
        };
        // The first run only warms up.
        let runs: Vec<[f64; 3]> = (0..RUNS + 1).map(|_| run()).skip(1).collect();
        record(results, size, nodes, &runs, &counts);
        last = (size as f64, runs[0][0].max(runs[0][1]));
        eprintln!("salvage: {size} codes done");
    }
}
