//! Salvage against a tour written from document 02's paragraphs, of tables with one collection and with two: on sound tables, on every
//! leftover, on tables damaged in one to a hundred words, on any words; nodes met from two parents or from both roots, rings, deep chains,
//! levels up to 2^64 - 1; every refusal, with nothing written; and some tables worked by hand, without the tour.
mod calls;
mod common;
mod reference;

use common::*;
use reference::*;
use std::collections::{BTreeMap, BTreeSet};

/// What became of nodes and slots that a tour met and did not enter or collect.
const PASSED_OVER: [&str; 9] = [
    "number outside 1 to N",
    "child of a wrong level",
    "sibling of a wrong level",
    "child entered before",
    "child of two parents",
    "sibling entered before",
    "ring of siblings",
    "slot from the fence up",
    "entered from the other root",
];

/// What a salvage keeps and drops of a table, in the order met.
#[derive(Default)]
struct Tour {
    /// The nodes entered, and how many collections were begun then.
    entered: BTreeMap<u64, usize>,
    /// Of each collection so far; the last one is being toured, and these are its recordings.
    kept: Maps,
    recordings: BTreeSet<u64>,
    dropped: Vec<[u64; 3]>,
    /// The first parent of each child; and for each of PASSED_OVER how often.
    parents: BTreeMap<u64, u64>,
    passed: [u64; 9],
}

/// The siblings of a node lead back to it.
fn in_ring(t: &[u64], i: u64) -> bool {
    let next = |at: &u64| Some(node(t, *at).sibling).filter(|s| (1..=t[2]).contains(s));
    std::iter::successors(Some(i), next).skip(1).take(t[2] as usize).any(|s| s == i)
}

impl Tour {
    /// A node is entered once, and only if its number is in 1 to N and its level the one that it must have. By way of a parent, or of a
    /// sibling (parent 0).
    fn meet(&mut self, t: &[u64], i: u64, level: u64, parent: u64) {
        let other = parent != 0 && *self.parents.entry(i).or_insert(parent) != parent;
        if !(1..=t[2]).contains(&i) {
            self.passed[0] += (i != 0) as u64;
        } else if node(t, i).level != level {
            self.passed[if parent != 0 { 1 } else { 2 }] += 1;
        } else if !self.entered.contains_key(&i) {
            self.enter(t, i);
        } else {
            self.passed[8] += (self.entered[&i] < self.kept.len()) as u64;
            self.passed[if parent != 0 { 3 } else { 5 }] += 1;
            self.passed[4] += other as u64;
            self.passed[6] += (parent == 0 && in_ring(t, i)) as u64;
        }
    }

    /// Places of the shown slots below the sibling's fence; if the sibling number is outside 1 to N, of all shown ones.
    fn followed(&mut self, t: &[u64], x: &Node) -> Vec<usize> {
        let below = |k: u64| !(1..=t[2]).contains(&x.sibling) || k < node(t, x.sibling).fence;
        let (followed, past): (Vec<usize>, Vec<usize>) = x.places().0.into_iter().partition(|&p| below(x.slots[p].key));
        self.passed[7] += past.len() as u64;
        followed
    }

    /// Left child first, shown slots in order, then a sibling not yet entered.
    fn enter(&mut self, t: &[u64], i: u64) {
        self.entered.insert(i, self.kept.len());
        let x = node(t, i);
        let places = self.followed(t, &x);
        if x.level == 0 {
            places.iter().for_each(|&p| self.collect(i, p, x.slots[p]));
        } else {
            self.meet(t, x.left, x.level - 1, i);
            places.iter().for_each(|&p| self.meet(t, x.slots[p].pointer, x.level - 1, i));
        }
        self.meet(t, x.sibling, x.level, 0);
    }

    /// The first holder of a code or a recording in the collection keeps it; the first reason that holds is reported.
    fn collect(&mut self, i: u64, p: usize, s: Slot) {
        let r = recording(s.pointer);
        let kept = self.kept.last_mut().expect("a collection");
        let reason = if r == 0 || class(s.pointer) > MOST_CLASS {
            1
        } else if kept.contains_key(&s.key) {
            2
        } else if self.recordings.contains(&r) {
            3
        } else {
            kept.insert(s.key, s.pointer);
            self.recordings.insert(r);
            return;
        };
        self.dropped.push([i, p as u64, reason]);
    }

    /// A collection from its root, whatever its level; one that was entered before is not entered again.
    fn collection(&mut self, t: &[u64], root: u64) {
        self.kept.push(Map::new());
        self.recordings.clear();
        if self.entered.contains_key(&root) {
            self.passed[8] += 1;
        } else {
            self.enter(t, root);
        }
    }
}

/// The new table and the slots dropped, or the refusal.
fn salvaged(t: &[u64], out: usize, report: usize) -> Result<(Vec<u64>, Tour), u64> {
    if !header_ok(t) {
        return Err(2);
    }
    if out != t.len() {
        return Err(15);
    }
    if report < 36 * t[2] as usize {
        return Err(16);
    }
    let mut tour = Tour::default();
    collections(t).into_iter().for_each(|c| tour.collection(t, t[root_word(c)]));
    let new = packed(t[2], &tour.kept).ok_or(10u64)?;
    Ok((new, tour))
}

fn same_salvage(t: &[u64], out: usize, report: usize, seed: u64) -> Result<Tour, u64> {
    let lent = |len: usize, by: u64| -> Vec<u64> { (0..len as u64).map(|w| w * 3 + by).collect() };
    let (second, third) = (lent(out, 5_000_000), lent(report, 9_000_000));
    let want = salvaged(t, out, report);
    let got = calls::salvage(t, &second, &third);
    let right = match &want {
        Err(n) => got == (*n, None, second, third),
        Ok((new, tour)) => {
            let mut words = third;
            words[..3 * tour.dropped.len()].copy_from_slice(&tour.dropped.concat());
            got == (0, Some(tour.dropped.len() as u64), new.clone(), words)
        }
    };
    expect(right, seed, t, || format!("salvage into {out} words with {report} for the report: wanted {:?}", want.as_ref().map(|w| &w.1.dropped)));
    want.map(|w| w.1)
}

/// The whole call, with words to spare for the report, and the new table is settled with the kept pairs as its map.
fn salvage_all(t: &[u64], seed: u64) -> Result<Tour, u64> {
    let most = t.get(2).map_or(0, |&n| if n <= 65535 { 36 * n as usize } else { 0 });
    let tour = same_salvage(t, t.len(), most + most % 7, seed)?;
    let new = packed(t[2], &tour.kept).expect("it fits");
    let settled = judge(&new).is_some_and(|x| x.maps == tour.kept && x.leftover == Leftover::Nothing);
    expect(settled, seed, t, || "the new table is not settled with the kept pairs".into());
    Ok(tour)
}

/// What came up over many tables.
#[derive(Default)]
struct Met {
    reasons: [u64; 4],
    passed: [u64; 9],
    tens: u64,
    done: u64,
}

impl Met {
    fn count(&mut self, answer: Result<Tour, u64>) {
        match answer {
            Ok(tour) => {
                self.done += 1;
                tour.dropped.iter().for_each(|d| self.reasons[d[2] as usize] += 1);
                self.passed.iter_mut().zip(tour.passed).for_each(|(all, n)| *all += n);
            }
            Err(n) => self.tens += (n == 10) as u64,
        }
    }

    fn tell(&self, of: &str) {
        println!("{of}: {} salvaged, {} refused with 10, dropped by reason 1 to 3 {:?}", self.done, self.tens, &self.reasons[1..]);
        let passed: Vec<String> = PASSED_OVER.iter().zip(self.passed).filter(|(_, n)| *n > 0).map(|(what, n)| format!("{what} {n}")).collect();
        println!("  passed over: {}", if passed.is_empty() { "nothing".to_string() } else { passed.join(", ") });
    }
}

/// More than once in a thousand tables; nothing is asked of a short run.
fn often(n: u64, count: u64) -> bool {
    n > count / 1000 || count < 5_000
}

/// Sound tables drop nothing, keep the maps and are never refused with 10.
fn sound_tables(count: u64, random: &mut Random, seed: u64) {
    for i in 0..count {
        let t = grown(12, 1 + i % 2, random);
        let tour = salvage_all(&t, seed);
        let maps = judge(&t).expect("sound").maps;
        expect(tour.is_ok_and(|x| x.dropped.is_empty() && x.kept == maps), seed, &t, || "a sound table is not kept".into());
    }
}

/// Up to so many times one to three words changed; a header that is none then is as it was.
fn damaged_often(t: &[u64], times: u64, random: &mut Random) -> Vec<u64> {
    let mut d = (0..times).fold(t.to_vec(), |d, _| damaged(&d, random));
    if !header_ok(&d) {
        d[..8].copy_from_slice(&t[..8]);
    }
    d
}

/// Each reason, 10, and each kind of what is passed over come up; two parents, which few of these tables have, in those after them.
fn damaged_tables(count: u64, random: &mut Random, seed: u64) {
    let mut met = Met::default();
    for i in 0..count {
        let t = grown(8, 1 + i % 2, random);
        let times = [1, 1, 1, 4, 40][random.below(5) as usize];
        met.count(salvage_all(&damaged_often(&t, times, random), seed));
    }
    met.tell(&format!("{count} damaged tables"));
    expect(met.done + met.tens == count, seed, &[], || "not every table has a header".into());
    let enough = met.reasons[1..].iter().chain(&met.passed[..4]).chain(&met.passed[5..]).all(|&n| often(n, count));
    expect(enough, seed, &[], || "a reason, or something that is passed over, hardly came up".into());
}

/// Three and four levels, in the packing's own form, of one collection or of two.
fn larger_tables(count: u64, random: &mut Random, seed: u64) {
    let mut met = Met::default();
    for i in 0..count {
        let most = [300, 2000][random.below(2) as usize];
        let mut some = || -> Map { (0..133 + random.below(most)).map(|_| (random.next(), some_pointer(random))).collect() };
        let maps: Maps = (0..1 + i % 2).map(|_| some()).collect();
        let pairs: usize = maps.iter().map(|map| map.len()).sum();
        let t = packed(pairs as u64 / 8 + random.below(9), &maps).expect("it fits");
        let times = random.below(100);
        met.count(salvage_all(&damaged_often(&t, times, random), seed));
    }
    met.tell(&format!("{count} damaged tables of three and four levels"));
    expect(often(10 * met.passed.into_iter().min().unwrap_or(0), 10 * count), seed, &[], || "something that is passed over did not come up".into());
}

/// Nodes met from two parents, rings of siblings, any levels, leaves with 12 slots.
fn any_tables(count: u64, random: &mut Random, seed: u64) {
    let mut met = Met::default();
    for _ in 0..count {
        let n = 1 + random.below(6);
        let two = 1 + random.below(2);
        let mut t = any_words(8 + 32 * n as usize, two, random);
        for i in 1..=n {
            let w = start(i);
            t[w + 2] = [0, 0, 0, 1, 1, 2, MARK, MARK - 1][random.below(8) as usize];
            t[w] = [MARK, 1 + random.below(n)][random.below(2) as usize];
            t[w + 1] = random.below(n + 2);
            if random.below(2) == 0 {
                for s in 0..12 {
                    t[w + 8 + 2 * s] = 100 * i + s as u64;
                    t[w + 9 + 2 * s] = [1 + random.below(n), 1_000 * i + s as u64 + 1][random.below(2) as usize];
                }
            }
        }
        met.count(salvage_all(&t, seed));
    }
    met.tell(&format!("{count} tables of any words"));
    expect(met.passed.iter().all(|&n| often(n, count)), seed, &[], || "something that is passed over hardly came up".into());
}

/// Leaves in a row, the first ones with so many slots each.
fn row_of_leaves(slots: &[usize], random: &mut Random) -> Vec<u64> {
    let n = slots.len() as u64;
    let mut t = make(n, 1);
    for (i, &many) in (1..).zip(slots) {
        let w = start(i);
        t[w..w + 4].copy_from_slice(&[MARK, if i < n { i + 1 } else { 0 }, 0, if i == 1 { 0 } else { 100 * i }]);
        for s in 0..many {
            t[w + 8 + 2 * s..][..2].copy_from_slice(&[100 * i + s as u64, pointer(100 * i + s as u64, random.below(3))]);
        }
    }
    t
}

/// Up to 12 slots in a leaf, which no sound table has: 10 if the packing needs more nodes than there are.
fn crowded_tables(count: u64, random: &mut Random, seed: u64) {
    let mut met = Met::default();
    for _ in 0..count {
        let slots: Vec<usize> = (0..1 + random.below(16)).map(|_| [12, 12, 12, 11, 5][random.below(5) as usize]).collect();
        met.count(salvage_all(&row_of_leaves(&slots, random), seed));
    }
    met.tell(&format!("{count} rows of crowded leaves"));
    expect(often(met.tens.min(met.done) / 50, count), seed, &[], || "10 hardly came up, or hardly ever did not".into());
}

/// 2, 15, 16, 10 in that order: each before all that come after it, and nothing is written.
fn refusals(count: u64, random: &mut Random, seed: u64) {
    let mut came = BTreeMap::new();
    let mut try_one = |t: &[u64], out: usize, report: usize| *came.entry(same_salvage(t, out, report, seed).err().unwrap_or(0)).or_insert(0) += 1;
    for _ in 0..count {
        let (len, two) = (random.below(200) as usize, 1 + random.below(2));
        let t = if random.below(3) == 0 { any_words(len, two, random) } else { damaged(&grown(3, two, random), random) };
        let out = if random.below(2) == 0 { t.len() } else { random.below(300) as usize };
        try_one(&t, out, random.below(120) as usize);
    }
    // Three leaves of 12 need 5 nodes.
    let t = row_of_leaves(&[12; 3], random);
    for bad in [None, Some((0, 2)), Some((1, 0)), Some((1, 4)), Some((2, 2)), Some((5, 1))] {
        let mut t = t.clone();
        if let Some((word, value)) = bad {
            t[word] = value;
        }
        for out in [104, 0, 103, 105, 72, 136] {
            for report in [108, 109, 107, 0, 72] {
                let want = if bad.is_some() { 2 } else if out != 104 { 15 } else if report < 108 { 16 } else { 10 };
                let got = same_salvage(&t, out, report, seed).err();
                expect(got == Some(want), seed, &t, || format!("{out} and {report} words: {got:?}, not {want}"));
            }
        }
    }
    println!("lengths: {came:?} by number");
    expect([0, 2, 15, 16].iter().all(|n| often(came.get(n).copied().unwrap_or(0), count)), seed, &[], || "a number hardly came up".into());
}

/// A node's 32 words.
fn words(left: u64, sibling: u64, level: u64, fence: u64, slots: &[(u64, u64)]) -> Vec<u64> {
    let mut all = vec![left, sibling, level, fence, 0, 0, 0, 0];
    slots.iter().for_each(|&(k, p)| all.extend([k, p]));
    all.resize(32, 0);
    all
}

fn table(root: u64, n: usize, nodes: &[Vec<u64>]) -> Vec<u64> {
    let mut t = vec![1, root, n as u64, 0, 0, 0, 0, 0];
    nodes.iter().for_each(|x| t.extend(x));
    t.resize(8 + 32 * n, 0);
    t
}

type Worked = (&'static str, Vec<u64>, Vec<[u64; 3]>, Vec<(u64, u64)>);

/// Tables, the slots that are dropped of each, and the pairs that are kept: worked by hand.
fn worked() -> Vec<Worked> {
    let (leaf, inner) = (|sibling, fence, slots: &[(u64, u64)]| words(MARK, sibling, 0, fence, slots), words);
    let ring = [leaf(2, 0, &[(10, 1), (60, 2)]), leaf(3, 50, &[(50, 3), (60, 4)]), leaf(1, 70, &[(70, 5)])];
    vec![
        ("the first leaf's siblings come before the parent's slots",
         table(4, 4, &[leaf(3, 0, &[(10, 100), (60, 600)]), leaf(0, 50, &[(60, 700), (61, 100)]), leaf(0, 70, &[(70, 700), (60, 900)]), inner(1, 0, 1, 0, &[(50, 2), (70, 3)])]),
         vec![[3, 1, 2], [2, 0, 2], [2, 1, 3]],
         vec![(10, 100), (60, 600), (70, 700)]),
        ("a leaf of two parents",
         table(5, 5, &[leaf(0, 0, &[(10, 1), (20, 2)]), leaf(0, 60, &[(60, 3), (61, 2)]), inner(1, 4, 1, 0, &[]), inner(1, 0, 1, 50, &[(60, 2)]), inner(3, 0, 2, 0, &[(50, 4)])]),
         vec![[2, 1, 3]],
         vec![(10, 1), (20, 2), (60, 3)]),
        ("a ring of leaves under a root that is its own sibling",
         table(4, 4, &[ring[0].clone(), ring[1].clone(), ring[2].clone(), inner(1, 4, 1, 65, &[(50, 2), (70, 3)])]),
         vec![],
         vec![(10, 1), (50, 3), (60, 4)]),
        ("a child that leads back to its parent and to itself",
         table(1, 2, &[inner(2, 2, 2, 0, &[(5, 1), (6, 2)]), inner(1, 1, 1, 0, &[(5, 2), (6, 1)])]),
         vec![],
         vec![]),
        ("the highest levels",
         table(1, 3, &[inner(2, 0, MARK, 0, &[(5, 3)]), inner(3, 3, MARK - 1, 0, &[]), leaf(0, 0, &[(5, 1)])]),
         vec![],
         vec![]),
        ("places with hidden slots",
         table(1, 1, &[leaf(0, 0, &[(10, MARK), (20, 5), (21, 5), (22, 6), (20, 7)])]),
         vec![[1, 4, 2]],
         vec![(20, 5), (22, 6)]),
        ("the first reason that holds; recordings and classes at their bounds; any keys",
         table(1, 1, &[leaf(9, 0, &[(MARK, MOST_RECORDING), (0, pointer(MOST_RECORDING, 2)), (0, pointer(1, 2)), (0, pointer(2, 3)), (7, pointer(0, 1)), (MARK, pointer(0, 2)), (8, pointer(1, 1)), (9, pointer(5, 255))])]),
         vec![[1, 1, 3], [1, 3, 1], [1, 4, 1], [1, 5, 1], [1, 6, 3], [1, 7, 1]],
         vec![(0, pointer(1, 2)), (MARK, MOST_RECORDING)]),
        ("slots behind a pointer 0, and a sibling on another level whose fence counts",
         table(1, 2, &[leaf(2, 0, &[(10, 1), (30, 3), (20, 2), (11, 0), (12, 4)]), inner(1, 0, 1, 30, &[])]),
         vec![],
         vec![(10, 1), (20, 2)]),
    ]
}

/// With a second collection from this root.
fn loaned(mut t: Vec<u64>, root: u64) -> Vec<u64> {
    t[3] = root;
    t
}

type WorkedTwo = (&'static str, Vec<u64>, Vec<[u64; 3]>, Vec<u64>);

/// Tables of two collections, the slots that are dropped of each, and the new table.
fn worked_two() -> Vec<WorkedTwo> {
    let (leaf, inner) = (|sibling, fence, slots: &[(u64, u64)]| words(MARK, sibling, 0, fence, slots), words);
    let (empty, twelve) = (words(MARK, 0, 0, 0, &[]), (1..=12).map(|i| (10 * i, i)).collect::<Vec<_>>());
    let halves = [leaf(2, 0, &twelve[..6]), leaf(0, 70, &twelve[6..]), inner(1, 0, 1, 0, &[(70, 2)])];
    let packed = [leaf(2, 0, &twelve[..11]), leaf(0, 120, &twelve[11..]), inner(1, 0, 1, 0, &[(120, 2)])];
    let with = |nodes: &[Vec<u64>; 3], other: Vec<u64>| [nodes.to_vec(), vec![other]].concat();
    let twice = leaf(0, 0, &[(10, 1), (30, 3), (20, 1), (10, 2)]);
    vec![
        ("a code and a recording in both collections; each is judged by itself, collection 1 first",
         loaned(table(2, 4, &[twice.clone(), twice.clone()]), 1),
         vec![[2, 2, 3], [2, 3, 2], [1, 2, 3], [1, 3, 2]],
         loaned(table(1, 4, &[leaf(0, 0, &[(10, 1), (30, 3)]), leaf(0, 0, &[(10, 1), (30, 3)])]), 2)),
        ("both empty", loaned(table(2, 3, &[empty.clone(), empty.clone()]), 1), vec![], loaned(table(1, 3, &[empty.clone(), empty.clone()]), 2)),
        ("the nodes of collection 2 are numbered on",
         loaned(table(3, 9, &with(&halves, twice.clone())), 4),
         vec![[4, 2, 3], [4, 3, 2]],
         loaned(table(3, 9, &with(&packed, leaf(0, 0, &[(10, 1), (30, 3)]))), 4)),
        ("collection 1 without pairs",
         loaned(table(4, 9, &with(&halves, empty.clone())), 3),
         vec![],
         loaned(table(1, 9, &[empty.clone(), leaf(3, 0, &twelve[..11]), leaf(0, 120, &twelve[11..]), inner(2, 0, 1, 0, &[(120, 3)])]), 4)),
        ("a second root in the midst of the first tree: what the first entered is the first's",
         loaned(table(3, 4, &with(&halves, empty.clone())), 2),
         vec![],
         loaned(table(3, 4, &with(&packed, empty.clone())), 4)),
        ("equal roots",
         loaned(table(3, 4, &with(&halves, empty.clone())), 3),
         vec![],
         loaned(table(3, 4, &with(&packed, empty.clone())), 4)),
        ("a second tree that comes to a leaf of the first",
         loaned(table(3, 5, &[halves[0].clone(), halves[1].clone(), halves[2].clone(), inner(5, 0, 1, 0, &[(70, 2)]), leaf(2, 0, &[(5, 500)])]), 4),
         vec![],
         loaned(table(3, 5, &with(&packed, leaf(0, 0, &[(5, 500)]))), 4)),
    ]
}

/// Two collections worked by hand; and 10 by the nodes of both.
fn by_hand_two(seed: u64) {
    for (name, t, dropped, new) in worked_two() {
        let n = t[2] as usize;
        let mut report = dropped.concat();
        report.resize(36 * n, 7);
        let got = calls::salvage(&t, &vec![3; t.len()], &vec![7; 36 * n]);
        expect(got == (0, Some(dropped.len() as u64), new, report), seed, &t, || format!("{name}: {got:?}"));
        let _ = salvage_all(&t, seed);
    }
    // Twelve slots, which no sound leaf has, need three nodes; the other collection one.
    let twelve: Vec<(u64, u64)> = (1..=12).map(|i| (10 * i, i)).collect();
    for (n, number) in [(2, 10), (3, 10), (4, 0)] {
        for roots in [(1, 2), (2, 1)] {
            let t = loaned(table(roots.0, n, &[words(MARK, 0, 0, 0, &twelve), words(MARK, 0, 0, 0, &[])]), roots.1);
            let got = calls::salvage(&t, &vec![3; t.len()], &vec![7; 36 * n]).0;
            expect(got == number, seed, &t, || format!("twelve slots and {n} nodes: {got}"));
        }
    }
}

/// The new table of at most 11 pairs is one leaf; words past the report stay.
fn by_hand(seed: u64) {
    for (name, t, dropped, kept) in worked() {
        let n = t[2] as usize;
        let mut report = dropped.concat();
        report.resize(36 * n, 7);
        let want = (0, Some(dropped.len() as u64), table(1, n, &[words(MARK, 0, 0, 0, &kept)]), report);
        let got = calls::salvage(&t, &vec![3; t.len()], &vec![7; 36 * n]);
        expect(got == want, seed, &t, || format!("{name}: {got:?}"));
        let _ = salvage_all(&t, seed);
    }
    // 133 pairs: 13 leaves, 12 of them below the first inner node and one below the second, and a root.
    let pairs: Vec<(u64, u64)> = (0..133).map(|i| (10 * i, 1 + i)).collect();
    let leaves = pairs.chunks(11).zip(1..).map(|(c, i)| words(MARK, if i < 13 { i + 1 } else { 0 }, 0, if i == 1 { 0 } else { c[0].0 }, c));
    let below: Vec<(u64, u64)> = (1..12).map(|i| (110 * i, i + 1)).collect();
    let over = [words(1, 15, 1, 0, &below), words(13, 0, 1, 1320, &[]), words(14, 0, 2, 0, &[(1320, 15)])];
    let want = table(16, 16, &leaves.chain(over).collect::<Vec<_>>());
    let t = row_of_pairs(16, &pairs);
    let got = calls::salvage(&t, &vec![3; t.len()], &[7; 36 * 16]);
    expect(got == (0, Some(0), want, vec![7; 36 * 16]), seed, &t, || format!("133 pairs: {got:?}"));
}

/// So many leaves in a row, with the pairs spread over them, and no parent.
fn row_of_pairs(n: u64, pairs: &[(u64, u64)]) -> Vec<u64> {
    let leaves: Vec<Vec<u64>> = pairs.chunks(9).zip(1..).map(|(c, i)| words(MARK, if 9 * i < pairs.len() as u64 { i + 1 } else { 0 }, 0, if i == 1 { 0 } else { c[0].0 }, c)).collect();
    table(1, n as usize, &leaves)
}

/// Inner nodes in a chain, each below the one before by way of its left (place none) or of a slot, from a level given down; the last one is
/// a leaf with codes if the levels come to 0 there.
fn chain(n: u64, level: u64, place: Option<u64>) -> Vec<u64> {
    let nodes: Vec<Vec<u64>> = (1..=n)
        .map(|i| {
            let next = if i < n { i + 1 } else { 1 };
            let level = level.wrapping_sub(i - 1);
            // The ways before it lead nowhere.
            let slots: Vec<(u64, u64)> = place.map_or(vec![], |p| (0..p).map(|s| (s, 100_000 + s)).chain([(p, next)]).collect());
            match level {
                0 => words(MARK, 0, 0, 0, &[(5, 1)]),
                _ => words(if place.is_some() { 99_999 } else { next }, 0, level, 0, &slots),
            }
        })
        .collect();
    let mut t = table(1, n as usize, &nodes);
    let last = start(n);
    if t[last + 2] == 0 {
        t[last..last + 32].copy_from_slice(&words(MARK, 0, 0, 0, &[(5, 1), (5, 2), (4, 3), (6, 1)]));
    }
    t
}

/// Leaves in a chain of siblings, every sixteenth with a code; half of the nodes are inner ones in a chain of their own if asked for.
fn siblings(n: u64, with_parents: bool) -> Vec<u64> {
    let inner = if with_parents { n / 2 } else { 0 };
    let nodes: Vec<Vec<u64>> = (1..=n)
        .map(|i| match i {
            i if i <= inner => words(inner + i, if i < inner { i + 1 } else { 1 }, 1, MARK, &[]),
            i => words(MARK, if with_parents { 0 } else { i % n + 1 }, 0, MARK, if i % 16 == 0 { &[(7, 1), (8, 2)] } else { &[] }),
        })
        .collect();
    let mut t = table(1, n as usize, &nodes);
    for i in (inner + 1..=n).filter(|i| i % 16 == 0) {
        t[start(i) + 8..start(i) + 12].copy_from_slice(&[i, i, 70_000 - i, i % 1000 + 1]);
    }
    t
}

/// As deep and as long as a table can be; on a thread whose stack holds the reference's calls.
fn deep_tables(seed: u64) {
    let work = move || {
        let kept = |t: &[u64]| salvage_all(t, seed).map_or(0, |x| x.kept[0].len());
        for place in [None, Some(0), Some(5), Some(11)] {
            for (n, level, codes) in [(65_535, 65_534, 2), (4_000, 3_999, 2), (65_535, MARK, 0), (65_535, 65_535, 0), (300, 0, 1), (65_535, 1, 1)] {
                let t = chain(n, level, place);
                expect(kept(&t) == codes, seed, &[], || format!("a chain of {n} nodes from level {level}, {place:?}: {} codes kept", kept(&t)));
            }
        }
        for with_parents in [false, true] {
            let t = siblings(65_535, with_parents);
            expect(kept(&t) > 2_000, seed, &[], || format!("a row of siblings: {} codes kept", kept(&t)));
        }
    };
    std::thread::Builder::new().stack_size(1 << 30).spawn(work).unwrap().join().unwrap();
}

fn main() {
    let (seed, size) = arguments(100_000);
    let mut random = Random(seed);
    by_hand(seed);
    by_hand_two(seed);
    sound_tables(size / 20, &mut random, seed);
    damaged_tables(size, &mut random, seed);
    larger_tables(size / 200, &mut random, seed);
    any_tables(size / 4, &mut random, seed);
    crowded_tables(size / 20, &mut random, seed);
    refusals(size / 20, &mut random, seed);
    deep_tables(seed);
    println!("9 passed, 0 failed");
}
