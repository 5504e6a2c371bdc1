//! Many insertions in one call: against the single calls of the library one after another and against the reference's, on sound tables with
//! every leftover, damaged tables and any words, stopped by every number, with lists of every length around the limits; cuts everywhere in a
//! batch's list; and what a pair costs.
mod calls;
mod common;
mod reference;
mod tower;

use calls::Wrote;
use common::*;
use reference::*;
use std::collections::BTreeSet;

/// What a batch comes to: the write, the pairs taken if the count is put, and how many orders each pair taken has.
struct Batch {
    wrote: Wrote,
    taken: Option<u64>,
    stop: Option<u64>,
    parts: Vec<usize>,
}

impl Batch {
    /// The number that refused a pair, the first or a later one; 0 for none.
    fn stopped_by(&self) -> u64 {
        self.stop.unwrap_or(self.wrote.number)
    }
}

/// The words that a single call needs of its list.
fn needed(dock: u64) -> usize {
    if dock == 0 { LIST_WORDS } else { LONG_LIST_WORDS }
}

fn pairs_of(words: &[u64]) -> impl Iterator<Item = (u64, u64)> + '_ {
    words.chunks_exact(2).map(|p| (p[0], p[1]))
}

/// The pairs one by one: each call is given the table and the words of the list that the calls before it left.
fn one_by_one(t: &[u64], n: u64, list: &[u64], pairs: &[u64], mut call: impl FnMut(&[u64], &[u64], Call) -> Wrote) -> Batch {
    let (mut table, mut words, mut at) = (t.to_vec(), list.to_vec(), 0);
    let (mut number, mut sums, mut parts) = (0, [0; 3], Vec::new());
    for (key, x) in pairs_of(pairs) {
        let after = call(&table, &words[at..], Call::Insert(n, key, recording(x), class(x)));
        number = after.number;
        if number != 0 {
            break;
        }
        table = after.table.clone();
        words[at..].copy_from_slice(&after.list);
        at += 2 * after.orders() as usize;
        parts.push(after.orders() as usize);
        for (sum, count) in sums.iter_mut().zip(after.counts) {
            *sum += count.expect("a count");
        }
    }
    // Refused is a batch whose first pair is; one that stops later returns 0 and puts the number into a word.
    let put = number == 0 || !parts.is_empty();
    let counts = sums.map(|n| put.then_some(n));
    let wrote = Wrote { number: if put { 0 } else { number }, counts, table, list: words };
    Batch { wrote, taken: put.then_some(parts.len() as u64), stop: put.then_some(number), parts }
}

/// A batch is what the single calls are, the library's and the reference's.
fn same_batch(t: &[u64], n: u64, list: &[u64], dock: u64, pairs: &[u64], seed: u64) -> Batch {
    let (got, taken, stop) = calls::insert_many(t, n, list, dock, pairs);
    let ours = one_by_one(t, n, list, pairs, |t, list, call| called(t, list, dock, call));
    let theirs = one_by_one(t, n, list, pairs, |t, list, call| wanted(t, list, dock, write(t, list.len(), dock, call)).0);
    for (want, whose) in [(&ours, "the single calls"), (&theirs, "the reference")] {
        expect(got == want.wrote && taken == want.taken && stop == want.stop, seed, t, || {
            format!(
                "{} pairs {:?} into collection {n} for dock {dock} with {} words: {whose} give {} {:?} {:?} {:?}, the batch {} {:?} {:?} {:?}; same table {}, same list {}",
                pairs.len() / 2, &pairs[..pairs.len().min(60)], list.len(), want.wrote.number, want.taken, want.stop, want.wrote.counts, got.number, taken, stop, got.counts,
                got.table == want.wrote.table, got.list == want.wrote.list
            )
        });
    }
    ours
}

/// So many pairs below a span; now and then a key or a recording of one before it, a refused recording or class, and half a pair at the end.
fn some_pairs(count: u64, span: u64, random: &mut Random) -> Vec<u64> {
    let mut words: Vec<u64> = Vec::new();
    for i in 0..count {
        let old = |random: &mut Random, words: &[u64], j: usize| words[2 * random.below(i) as usize + j];
        let key = if i > 0 && random.below(60) == 0 { old(random, &words, 0) } else { random.below(span) };
        let x = match random.below(100) {
            0 if i > 0 => old(random, &words, 1),
            1 => pointer(0, random.below(3)),
            2 => pointer(1 + random.below(1_000), 3 + random.below(200)),
            3 => pointer(1 + random.below(20), random.below(3)),
            _ => some_pointer(random),
        };
        words.extend([key, x]);
    }
    if random.below(4) == 0 {
        words.push(random.next());
    }
    words
}

/// A length for a list: around the limits, or enough for some pairs or many.
fn some_length(dock: u64, random: &mut Random) -> usize {
    let least = needed(dock);
    match random.below(8) {
        0 => random.below(least as u64) as usize,
        1 => least - 1,
        2 => least,
        3 => least + random.below(80) as usize,
        _ => least + random.below(6_000) as usize,
    }
}

/// Each cut of a batch's list leaves what the calls before it whole and one call cut leave, which holds the maps before that call or after it.
fn cuts(t: &[u64], n: u64, dock: u64, pairs: &[u64], batch: &Batch, random: &mut Random, seed: u64) -> u64 {
    let orders: Vec<Order> = batch.wrote.list[..2 * batch.parts.iter().sum::<usize>()].chunks(2).map(order).collect();
    let (mut count, mut first, mut table) = (0, 0, t.to_vec());
    let mut maps = judge(t).expect("a sound table").maps;
    for (&part, (key, x)) in batch.parts.iter().zip(pairs_of(pairs)) {
        let call = Call::Insert(n, key, recording(x), class(x));
        let own = &orders[first..first + part];
        let new = changed(&maps, call);
        let asked = around([&maps, &new]);
        for c in 0..=part {
            if c > 0 && c < part && random.below(3) > 0 {
                continue;
            }
            let set = |all: Vec<Vec<u64>>| all.into_iter().collect::<BTreeSet<_>>();
            let (whole, single) = (set(images(t, &orders[..first + c], dock)), set(images(&table, &own[..c], dock)));
            expect(whole == single, seed, t, || format!("{call:?}: a cut after {} orders of the batch leaves {} images, {c} of the call {}", first + c, whole.len(), single.len()));
            for image in &whole {
                image_holds(image, [&maps, &new], (c, part), &asked, seed, call);
                count += 1;
            }
        }
        for o in own {
            if let Order::Store(w, x) = *o {
                table[w] = x;
            }
        }
        (maps, first) = (new, first + part);
    }
    expect(table == batch.wrote.table, seed, t, || "the whole list leaves another table".into());
    count
}

/// A table whose root is at level 15 and would have to split: 11, at the first pair or after one that is taken.
fn too_high(random: &mut Random, seed: u64) -> u64 {
    let floors: Vec<tower::Floor> = (0..16).map(|_| tower::Floor { slots: 11, place: random.below(11) as usize }).collect();
    let top = tower::tower(&floors, 40, random);
    let first = same_batch(&top.t, 1, &vec![7; 20_000], random.below(2), &[top.key, some_pointer(random)], seed);
    expect(first.stopped_by() == 11, seed, &[], || format!("a full path to level 15: {}", first.stopped_by()));
    first.stopped_by()
}

fn figures(random: &mut Random) {
    let mut t = make(65_535, 1);
    let mut list = vec![0; 400_000];
    let mut codes = 0;
    let mut fresh = |count: u64, codes: &mut u64| -> Vec<u64> {
        (0..count)
            .flat_map(|_| {
                *codes += 1;
                [random.next(), pointer(*codes * 7, 0)]
            })
            .collect()
    };
    while codes < 100_000 {
        let pairs = fresh(3_000, &mut codes);
        let mut at = 0;
        while 2 * at < pairs.len() {
            let (number, taken, _) = calls::insert_many_takes(&mut t, &mut list, &pairs[2 * at..]);
            assert!(number == 0 || number == 5, "{number}");
            at += taken as usize;
        }
    }
    let pass = plain_pass(&t);
    for (size, times) in [(1, 20), (100, 5), (3_000, 3)] {
        let mut best = f64::MAX;
        for _ in 0..times {
            let pairs = fresh(size, &mut codes);
            let (number, taken, time) = calls::insert_many_takes(&mut t, &mut list, &pairs);
            assert!(number == 0 || number == 5, "{number}");
            best = best.min(time.as_secs_f64() * 1e6 / taken as f64);
        }
        let passes = best * size as f64 / 1e6 / pass;
        println!("batches of {size} into {codes} codes: {best:.1} µs a pair, {passes:.0} plain passes");
        // A batch that checked the table, or looked for its free nodes or its recordings, anew for each pair would take thousands.
        assert!(passes < MOST_PASSES, "a batch of {size} takes {passes:.0} plain passes over the table");
    }
}

/// So many plain passes over the table a batch takes at most, of any size: several times what it does.
const MOST_PASSES: f64 = 400.0;

/// The seconds of one: the best of some.
fn plain_pass(t: &[u64]) -> f64 {
    let mut best = f64::MAX;
    for _ in 0..10 {
        let begun = std::time::Instant::now();
        std::hint::black_box(t.iter().fold(0u64, |sum, w| sum.wrapping_add(*w)));
        best = best.min(begun.elapsed().as_secs_f64());
    }
    best
}

/// A thread with the stack that the header asks for is enough, with splits and fresh nodes on the way.
fn on_its_stack() {
    let work = || {
        let (mut t, mut list) = (make(3_000, 1), vec![0; 400_000]);
        let pairs: Vec<u64> = (1..=3_000).flat_map(|i| [i * 7_919 % 1_000_003, pointer(i, 0)]).collect();
        let (number, taken, _) = calls::insert_many_takes(&mut t, &mut list, &pairs);
        assert!(number == 0 && taken == 3_000, "{number}, {taken} pairs");
    };
    std::thread::Builder::new().stack_size(450 << 10).spawn(work).unwrap().join().unwrap();
}

fn main() {
    let (seed, size) = arguments(4_000);
    let mut random = Random(seed);
    let random = &mut random;
    let (mut numbers, mut kinds, mut taken, mut cut, mut after_some) = (std::collections::BTreeMap::<u64, u64>::new(), [0; 5], 0, 0, 0);
    for i in 0..size {
        let collections = 1 + random.below(2);
        let grown = grown(12, collections, random);
        let t = match random.below(12) {
            0 => damaged(&grown, random),
            1 => any_words(grown.len(), collections, random),
            _ => grown,
        };
        let n = if random.below(8) == 0 { any_collection(random) } else { 1 + random.below(collections) };
        let dock = any_dock(random);
        let list: Vec<u64> = (0..some_length(dock.min(1), random)).map(|_| random.next()).collect();
        let (count, span) = (random.below(40), [60, 400, MARK][random.below(3) as usize]);
        let pairs = some_pairs(count, span, random);
        let batch = same_batch(&t, n, &list, dock, &pairs, seed);
        *numbers.entry(batch.stopped_by()).or_default() += 1;
        taken += batch.parts.len() as u64;
        after_some += (batch.stopped_by() != 0 && !batch.parts.is_empty()) as u64;
        if batch.parts.is_empty() {
            continue;
        }
        kinds[kind(judge(&t).expect("a sound table").leftover)] += 1;
        if i % 10 == 0 {
            cut += cuts(&t, n, dock, &pairs, &batch, random, seed);
        }
    }
    *numbers.entry(too_high(random, seed)).or_default() += 1;
    println!("batches {size}, pairs taken {taken}, stopped by {numbers:?}, after some pairs {after_some}, leftovers {kinds:?}, images {cut}");
    for number in [0, 2, 17, 4, 18, 5, 6, 14, 7, 8, 11, 10] {
        expect(numbers.contains_key(&number), seed, &[], || format!("no batch was stopped by {number}"));
    }
    all_met(&kinds, seed);
    expect(cut > 0 && after_some > 0, seed, &[], || "no cut, or no batch stopped after some pairs".into());
    on_its_stack();
    figures(random);
    println!("5 passed, 0 failed");
}
