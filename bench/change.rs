//! An insertion, a deletion and a class change, split into check, plan and stores, beside a plain read pass over the same nodes.
use crate::calls::{self, Flusher, Orders, Words};
use crate::results::{timed, Results, Spread};
use crate::{search, CLASS_CHANGE, DELETION, INSERTION, NODES, RUNS, SPLITTING};
use std::hint::black_box;

/// Nanoseconds that the calls of one run may take; a run has as many changes as fit, from 1 to MOST.
const RUN_TIME: f64 = 0.5e9;
const MOST: usize = 64;

/// Nanoseconds that all calls of a size may take. A size that would take longer, if the check grew with the square, is left out.
const SIZE_CAP: f64 = 60e9;

/// What a call answers to a list that is too short.
pub const SHORT_LIST: u64 = 5;

/// Nodes that no packed table reaches, for splits to take.
pub const SPARE: usize = 64;

/// Slots of a packed leaf (bench/plain.c), and how many more make it full.
const PACKED: usize = 8;
pub const LACKING: u64 = 3;

/// The kinds of change; a splitting one inserts into a full leaf whose parent has room.
const KINDS: [&str; 4] = [INSERTION, DELETION, SPLITTING, CLASS_CHANGE];

/// The most keys that a packed table of so many nodes holds.
pub fn keys_for(nodes: usize) -> usize {
    let (mut low, mut high) = (1, 16 * nodes);
    while low + 1 < high {
        let middle = (low + high) / 2;
        if calls::nodes_for(middle) <= nodes {
            low = middle;
        } else {
            high = middle;
        }
    }
    low
}

/// Keys of full leaves' gaps: one beside the first key of each of so many leaves, spread over the table.
pub fn beside(mut present: Vec<u64>, count: usize) -> Vec<u64> {
    present.sort_unstable();
    let firsts: Vec<u64> = present.into_iter().step_by(PACKED).collect();
    let count = count.min(firsts.len());
    (0..count).map(|i| firsts[i * firsts.len() / count] + LACKING + 1).collect()
}

/// The tables that the changes are made on, and the keys to change.
struct Bench {
    working: Words,
    /// As working, with the leaves of the splitting keys full; and how it is before each split.
    crowded: Words,
    pristine: Words,
    /// What orders are carried out on.
    memory: Words,
    reached: usize,
    recording: u64,
    /// Absent keys to insert, give another class and delete again; keys that split a leaf.
    keys: Vec<u64>,
    splitting: Vec<u64>,
    /// The order lists of each kind.
    lists: [Vec<Orders>; 4],
    flusher: Flusher,
}

/// The times of one run, in nanoseconds; of each kind: check, plan and whole call; stores; stores flushed.
#[derive(Default)]
struct Run {
    calls: [[f64; 3]; 4],
    plain: [f64; 4],
    flushed: [f64; 4],
    pass: f64,
}

/// Repair lists nothing on a settled table: the library's word that it is, and how long that took.
pub fn settled(table: &mut Words) -> f64 {
    let mut orders = Orders::new();
    let (ns, number) = timed(|| calls::repair(table, &mut orders));
    assert!(number == 0 && orders.count() == 0, "the packed table is not settled: {number}");
    ns
}

impl Bench {
    fn new(nodes: usize) -> Bench {
        let count = keys_for(nodes);
        let (working, keys, reached) = search::packed(count, SPARE);
        let (crowded, pristine, memory) = (working.clone(), working.clone(), working.clone());
        let splitting = beside(keys.present, MOST);
        let (lists, flusher) = (Default::default(), Flusher::best());
        Bench { working, crowded, pristine, memory, reached, recording: count as u64 + 1, keys: keys.absent[..MOST].to_vec(), splitting, lists, flusher }
    }

    /// Fills the leaves of the splitting keys.
    fn crowd(&mut self) {
        let mut orders = Orders::new();
        let mut recording = self.recording;
        for key in self.splitting.iter().flat_map(|key| key - LACKING..*key) {
            recording += 1;
            assert_eq!(calls::insert(&mut self.crowded, &mut orders, key, recording), 0, "insertion beside {key}");
        }
        self.pristine.copy_from_slice(&self.crowded);
    }

    /// The call of a kind, timed.
    fn call(&mut self, kind: usize, key: u64, orders: &mut Orders) -> (f64, u64) {
        match kind {
            0 => timed(|| calls::insert(&mut self.working, orders, key, self.recording)),
            1 => timed(|| calls::delete(&mut self.working, orders, key)),
            3 => timed(|| calls::set_class(&mut self.working, orders, key, 2)),
            _ => timed(|| calls::insert(&mut self.crowded, orders, key, self.recording)),
        }
    }

    /// Takes a split back: a deletion would leave the new node.
    fn unsplit(&mut self, orders: &Orders) {
        orders.stored().for_each(|word| self.crowded[word] = self.pristine[word]);
    }

    /// A change untimed: memory, equal before, is carried to the same words and answers as it should. Keeps the list.
    fn rehearse(&mut self, kind: usize, key: u64) {
        let mut orders = Orders::new();
        let number = self.call(kind, key, &mut orders).1;
        let after = if kind == 2 { &self.crowded } else { &self.working };
        assert!(number == 0 && calls::carry_plain(&mut self.memory, &orders) == 0, "{}: {number}", KINDS[kind]);
        assert!(*self.memory == **after, "{}: memory differs", KINDS[kind]);
        assert_eq!(calls::search(&self.memory, key).0, if kind == 1 { 0 } else { self.recording }, "{}", KINDS[kind]);
        if kind == 2 {
            self.unsplit(&orders);
            self.flusher.carry(&mut self.memory, &orders);
            orders.stored().for_each(|word| self.memory[word] = self.pristine[word]);
        }
        self.lists[kind].push(orders.cut());
    }

    fn rehearse_all(&mut self, changes: usize) {
        self.keys.truncate(changes);
        self.splitting.truncate(changes);
        for key in self.keys.clone() {
            self.rehearse(0, key);
            self.rehearse(3, key);
            self.rehearse(1, key);
        }
        self.crowd();
        self.memory.copy_from_slice(&self.pristine);
        self.splitting.clone().into_iter().for_each(|key| self.rehearse(2, key));
        assert!(*self.crowded == *self.pristine, "a split was not taken back");
    }

    /// Check and whole call. A list that is too short is refused with 5 right after the check, by the same call in the same state.
    fn change(&mut self, kind: usize, key: u64, times: &mut [Vec<f64>; 3]) {
        let mut orders = Orders::new();
        let (check, refusal) = self.call(kind, key, &mut Orders::too_short());
        let (whole, number) = self.call(kind, key, &mut orders);
        assert!(refusal == SHORT_LIST && number == 0, "{}: answers {refusal} and {number}", KINDS[kind]);
        if kind == 2 {
            self.unsplit(&orders);
        }
        [check, whole - check, whole].into_iter().zip(times).for_each(|(ns, all)| all.push(ns));
    }

    /// The clock is read around every call, and the run's time is the middle one: a call that the system breaks into falls out. Each
    /// insertion is undone by its deletion, so that the size stays.
    fn run_calls(&mut self, run: &mut Run) {
        let mut times: [[Vec<f64>; 3]; 4] = Default::default();
        for key in self.keys.clone() {
            for kind in [0, 3, 1] {
                self.change(kind, key, &mut times[kind]);
            }
        }
        for key in self.splitting.clone() {
            self.change(2, key, &mut times[2]);
        }
        run.calls = times.map(|of| of.map(|t| Spread::of(&t).median));
    }

    /// MOST lists one after another, as one is too short for the clock; what a list stores does not depend on what memory holds.
    fn run_stores(&mut self, run: &mut Run) {
        let (memory, flusher) = (&mut self.memory, &self.flusher);
        for (kind, lists) in self.lists.iter().enumerate() {
            let lists = || lists.iter().cycle().take(MOST);
            run.plain[kind] = timed(|| lists().for_each(|l| assert!(calls::carry_plain(memory, l) == 0))).0 / MOST as f64;
            run.flushed[kind] = timed(|| lists().for_each(|l| flusher.carry(memory, l))).0 / MOST as f64;
        }
    }

    fn run(&mut self) -> Run {
        let mut run = Run::default();
        let (table, reached) = (&self.working, self.reached);
        run.pass = timed(|| (0..MOST).for_each(|_| _ = black_box(calls::read_pass(black_box(table), reached)))).0 / MOST as f64;
        self.run_calls(&mut run);
        self.run_stores(&mut run);
        run
    }

    /// The mean of a count over the lists of a kind.
    fn mean(&self, kind: usize, of: impl Fn(&Orders) -> u64) -> f64 {
        let lists = &self.lists[kind];
        lists.iter().map(|l| of(l) as f64).sum::<f64>() / lists.len() as f64
    }
}

fn record(results: &mut Results, runs: &[Run], nodes: usize) {
    let mut add = |part, what, of: &dyn Fn(&Run) -> f64| {
        let times: Vec<f64> = runs.iter().map(of).collect();
        results.add(part, what, nodes, "ns", Spread::of(&times));
    };
    add(NODES, "read pass", &|r| r.pass);
    for (kind, part) in KINDS.into_iter().enumerate() {
        add(part, "check", &|r| r.calls[kind][0]);
        add(part, "plan", &|r| r.calls[kind][1]);
        add(part, "whole call", &|r| r.calls[kind][2]);
        add(part, "stores", &|r| r.plain[kind]);
        add(part, "stores, flushed", &|r| r.flushed[kind]);
    }
}

/// One size, given what its check takes.
fn measure_size(results: &mut Results, bench: &mut Bench, check: f64) {
    let changes = ((RUN_TIME / (8.0 * check)) as usize).clamp(1, MOST);
    bench.rehearse_all(changes);
    // The first run only warms up.
    let runs: Vec<Run> = (0..RUNS + 1).map(|_| bench.run()).skip(1).collect();
    settled(&mut bench.working);
    settled(&mut bench.crowded);
    record(results, &runs, bench.reached);
    for (kind, part) in KINDS.into_iter().enumerate() {
        results.add(part, "stores listed", bench.reached, "stores", Spread::exact(bench.mean(kind, |o| o.stores)));
        results.add(part, "flushes listed", bench.reached, "flushes", Spread::exact(bench.mean(kind, |o| o.flushes)));
        results.add(part, "changes a run", bench.reached, "changes", Spread::exact(bench.lists[kind].len() as f64));
    }
    eprintln!("changes: {} nodes done, at most {changes} of each kind in a run", bench.reached);
}

/// The sizes in nodes, rising.
pub fn measure(results: &mut Results, sizes: &[usize]) {
    // Eight calls for a change of each kind, and at least one change in a run; about as many before the runs as in one.
    let calls = (8 * (RUNS + 2)) as f64;
    let mut last = (1.0, 0.0);
    for &size in sizes {
        let expected = last.1 * (size as f64 / last.0).powi(2);
        if calls * expected > SIZE_CAP {
            eprintln!("changes: {size} nodes left out: a check of {:.1} s would be over the cap", expected / 1e9);
            continue;
        }
        let mut bench = Bench::new(size);
        settled(&mut bench.working);
        let check = settled(&mut bench.working);
        measure_size(results, &mut bench, check);
        last = (bench.reached as f64, check);
    }
}
