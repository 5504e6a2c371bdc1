//! The calls with a summary beside the plain ones: changes and batches carried out with each line flushed, ranges, scans; a summary worked out
//! beside a check.
use crate::calls::{self, Flusher, Orders, Words};
use crate::change::{beside, LACKING};
use crate::results::{spent, Results, Spread};
use crate::{search, CLASS_CHANGE, DELETION, INSERTION, QUICK_CALLS, RUNS, SPLITTING};
use std::hint::black_box;

pub const TEN: &str = "range of ten";
pub const TWENTY: &str = "range of twenty";
pub const SCAN: &str = "scan of all";
pub const BATCHES: [(&str, usize); 2] = [("batch of 100, a code", 100), ("batch of 3,000, a code", 3_000)];
/// What is measured both ways, in the order of the table.
pub const CALLS: [&str; 9] = [INSERTION, SPLITTING, DELETION, CLASS_CHANGE, TEN, TWENTY, SCAN, BATCHES[0].0, BATCHES[1].0];
pub const SEARCH: &str = "search that hits";
pub const CHECK: &str = "check";
pub const OPENING: &str = "summary worked out";
pub const WAYS: [&str; 2] = ["plain", "with a summary"];

/// Changes and ranges of a run, at most; and of the plain calls, each of which checks the table, in nanoseconds.
const MOST: usize = 250;
const SPLITS: usize = 50;
const PLAIN_TIME: f64 = 0.05e9;

/// Nodes for the splits of a run.
const SPARE: usize = 2_048;

/// The order list of a batch.
const BATCH_WORDS: usize = 1 << 19;

/// A table with what its orders are carried out on and its summary.
#[derive(Clone)]
struct Side {
    working: Words,
    memory: Words,
    summary: Words,
}

impl Side {
    fn new(working: Words) -> Side {
        let mut summary = calls::summary_room(&working);
        calls::summarize(&working, &mut summary);
        Side { memory: working.clone(), working, summary }
    }

    fn copy_from(&mut self, other: &Side) {
        self.working.copy_from_slice(&other.working);
        self.memory.copy_from_slice(&other.memory);
        self.summary.copy_from_slice(&other.summary);
    }
}

struct Bench {
    codes: usize,
    /// The packed table, and the same with the leaves of the splitting keys full.
    packed: Side,
    crowded: Side,
    /// What the calls change: for the plain ones and for those with a summary.
    sides: [Side; 2],
    present: Vec<u64>,
    absent: Vec<u64>,
    splitting: Vec<u64>,
    /// A change of each kind, a range and a scan by the plain call, at most in a run.
    plain: usize,
    flusher: Flusher,
    orders: Orders,
    out: Vec<u64>,
}

/// A recording that no code has.
fn unused(bench: &Bench, i: usize) -> u64 {
    (2 * bench.codes + i) as u64
}

impl Bench {
    fn new(codes: usize) -> Bench {
        let (working, keys, _) = search::packed(codes, SPARE);
        let packed = Side::new(working);
        let splitting = beside(keys.present.clone(), SPLITS);
        let mut crowded = packed.clone();
        let mut orders = Orders::with_room(BATCH_WORDS);
        let full = splitting.iter().flat_map(|key| key - LACKING..*key).zip(codes as u64 + 1..);
        let full: Vec<u64> = full.flat_map(|(key, recording)| [key, recording]).collect();
        calls::quick_insert_many(&mut crowded.working, &mut crowded.summary, &mut orders, &full);
        crowded.memory.copy_from_slice(&crowded.working);
        let (check, _) = spent(|| calls::check(&packed.working));
        let plain = ((PLAIN_TIME / (2.0 * check)) as usize).clamp(1, MOST);
        let sides = [packed.clone(), packed.clone()];
        let (flusher, out) = (Flusher::best(), vec![0; 2 * codes]);
        Bench { codes, packed, crowded, sides, present: keys.present, absent: keys.absent, splitting, plain, flusher, orders, out }
    }

    /// One change of a kind by the plain call or with the summary, carried out.
    fn change(&mut self, way: usize, kind: &str, key: u64, recording: u64) {
        let (side, orders) = (&mut self.sides[way], &mut self.orders);
        let Side { working, memory, summary } = side;
        let number = match (kind, way) {
            (DELETION, 0) => calls::delete(working, orders, key),
            (DELETION, _) => calls::quick_delete(working, summary, orders, key),
            (CLASS_CHANGE, 0) => calls::set_class(working, orders, key, 2),
            (CLASS_CHANGE, _) => calls::quick_set_class(working, summary, orders, key, 2),
            (_, 0) => calls::insert(working, orders, key, recording),
            (_, _) => calls::quick_insert(working, summary, orders, key, recording),
        };
        assert_eq!(number, 0, "{kind} of {key}, {}", WAYS[way]);
        self.flusher.carry(memory, orders);
    }

    /// The first pairs from a key on.
    fn range(&mut self, way: usize, low: u64, pairs: usize) -> usize {
        let (side, out) = (&self.sides[way], &mut self.out[..2 * pairs]);
        if way == 0 { calls::range(&side.working, low, out) } else { calls::quick_range(&side.working, &side.summary, low, out) }
    }

    fn batch(&mut self, way: usize, pairs: &[u64]) {
        let Side { working, memory, summary } = &mut self.sides[way];
        if way == 0 {
            calls::insert_many(working, &mut self.orders, pairs);
        } else {
            calls::quick_insert_many(working, summary, &mut self.orders, pairs);
        }
        self.flusher.carry(memory, &self.orders);
    }

    /// Pairs of a batch: absent keys, other ones in each run.
    fn pairs(&self, run: usize, count: usize) -> Vec<u64> {
        let keys = self.absent[run * count % (self.absent.len() - count)..].iter();
        keys.zip(unused(self, 0)..).take(count).flat_map(|(&key, recording)| [key, recording]).collect()
    }

    // ---- what is compared

    /// Both ways have changed the same: the tables, what was carried out, and a summary worked out anew.
    fn compare(&self, what: &str) {
        let [plain, quick] = &self.sides;
        assert!(*plain.working == *quick.working, "{what}: the tables differ");
        assert!(*plain.memory == *plain.working && *quick.memory == *quick.working, "{what}: memory differs");
        calls::check(&quick.working);
    }

    /// A call of each kind, both ways.
    fn rehearse(&mut self) {
        let (absent, splitting) = (self.absent[self.absent.len() - 1], self.splitting[0]);
        for kind in [INSERTION, CLASS_CHANGE, DELETION] {
            (0..2).for_each(|way| self.change(way, kind, absent, unused(self, 0)));
            self.compare(kind);
            let found = calls::search(&self.sides[1].working, absent).0;
            assert!((found == 0) == (kind == DELETION), "{kind}: the search answers {found}");
        }
        self.restore(true);
        (0..2).for_each(|way| self.change(way, SPLITTING, splitting, unused(self, 0)));
        self.compare(SPLITTING);
        self.restore(false);
        for (what, count) in BATCHES {
            let pairs = self.pairs(0, count);
            (0..2).for_each(|way| self.batch(way, &pairs));
            self.compare(what);
            self.restore(false);
        }
        for (low, pairs) in [(self.present[0], 10), (self.absent[0], 20), (0, self.codes)] {
            let found = [0, 1].map(|way| (self.range(way, low, pairs), self.out[..2 * pairs].to_vec()));
            assert!(found[0] == found[1] && found[0].0 > 0 && (low > 0 || found[0].0 == pairs), "a range differs");
        }
    }

    fn restore(&mut self, crowded: bool) {
        let from = if crowded { &self.crowded } else { &self.packed };
        self.sides.iter_mut().for_each(|side| side.copy_from(from));
    }

    // ---- what is timed

    /// So many calls of a run.
    fn count(&self, way: usize, most: usize) -> usize {
        let most = most.min(self.codes / 40);
        if way == 0 { most.min(self.plain) } else { most }
    }

    /// Nanoseconds of each of some calls, in processor time.
    fn mean(&mut self, count: usize, mut call: impl FnMut(&mut Bench, usize)) -> f64 {
        spent(|| (0..count).for_each(|i| call(self, i))).0 / count as f64
    }

    /// One run: other keys each time, so that they are no warmer than any.
    fn run(&mut self, run: usize, way: usize) -> Vec<f64> {
        let (changes, splits) = (self.count(way, MOST), self.count(way, SPLITS));
        let first = run * MOST;
        let change = |bench: &mut Bench, kind: &str| bench.mean(changes, |b, i| b.change(way, kind, b.absent[first + i], unused(b, i)));
        let insertion = change(self, INSERTION);
        let class_change = change(self, CLASS_CHANGE);
        let deletion = change(self, DELETION);
        let ranges = [(10, first), (20, first + MOST * RUNS)].map(|(pairs, first)| {
            self.mean(changes, |b, i| _ = black_box(b.range(way, b.present[(first + i) % b.codes], pairs)))
        });
        let scan = self.mean(1, |b, _| assert_eq!(b.range(way, 0, b.codes), b.codes, "a scan"));
        self.restore(true);
        let split = self.mean(splits, |b, i| b.change(way, SPLITTING, b.splitting[i], unused(b, i)));
        let batches = BATCHES.map(|(_, count)| {
            let pairs = self.pairs(run, count);
            self.restore(false);
            self.mean(1, |b, _| b.batch(way, &pairs)) / count as f64
        });
        self.restore(false);
        vec![insertion, split, deletion, class_change, ranges[0], ranges[1], scan, batches[0], batches[1]]
    }

    /// A search that hits, a check, and a summary worked out.
    fn run_others(&mut self, run: usize) -> [f64; 3] {
        let first = run * MOST;
        let find = self.mean(self.count(1, MOST), |b, i| assert!(calls::search(&b.packed.working, b.present[(first + i) % b.codes]).0 > 0));
        let Side { working, summary, .. } = &mut self.packed;
        [find, spent(|| calls::check(working)).0, spent(|| calls::summarize(working, summary)).0]
    }
}

fn measure_size(results: &mut Results, bench: &mut Bench) {
    bench.rehearse();
    // The first run only warms up. The ways take turns.
    let runs: Vec<([Vec<f64>; 2], [f64; 3])> = (0..RUNS + 1).map(|run| ([0, 1].map(|way| bench.run(run, way)), bench.run_others(run))).skip(1).collect();
    let codes = bench.codes;
    let mut add = |what: &str, times: Vec<f64>| results.add(QUICK_CALLS, what, codes, "ns", Spread::of(&times));
    for (way, name) in WAYS.into_iter().enumerate() {
        for (call, what) in CALLS.into_iter().enumerate() {
            add(&format!("{what}, {name}"), runs.iter().map(|run| run.0[way][call]).collect());
        }
    }
    for (i, what) in [SEARCH, CHECK, OPENING].into_iter().enumerate() {
        add(what, runs.iter().map(|run| run.1[i]).collect());
    }
    results.add(QUICK_CALLS, "nodes", codes, "nodes", Spread::exact(calls::nodes_for(codes) as f64));
    eprintln!("quick calls: {codes} codes done");
}

/// The sizes in codes.
pub fn measure(results: &mut Results, sizes: &[usize]) {
    sizes.iter().for_each(|&codes| measure_size(results, &mut Bench::new(codes)));
}

/// Only so many calls with a summary of one kind, for a profiler.
pub fn only(what: &str, codes: usize, count: usize) {
    let mut bench = Bench::new(codes);
    let changes = |bench: &mut Bench, kind: &str| (0..count).for_each(|i| bench.change(1, kind, bench.absent[i], unused(bench, i)));
    match what {
        "changes" => [INSERTION, CLASS_CHANGE, DELETION].iter().for_each(|kind| changes(&mut bench, kind)),
        "split" => {
            bench.restore(true);
            (0..count.min(SPLITS)).for_each(|i| bench.change(1, SPLITTING, bench.splitting[i], unused(&bench, i)));
        }
        "ten" | "twenty" => (0..count).for_each(|i| _ = black_box(bench.range(1, bench.present[i], if what == "ten" { 10 } else { 20 }))),
        _ => panic!("no call {what}"),
    }
}
