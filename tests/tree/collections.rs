//! Two collections in one table, against the reference: long scripts over both, whole and cut everywhere; roots that lie anywhere; a leftover
//! of each kind in one collection finished by every write of the other; tall trees beside others; what a write does not ask of the other.
mod calls;
mod common;
mod reference;
mod rows;
mod scripts;
mod tower;

use common::*;
use reference::*;
use rows::{rows, Place, LEFTOVERS, STEP};
use std::collections::{BTreeMap, BTreeSet};
use tower::{tower, Floor};

// ---- two tables put together

/// The nodes of a sound table of one collection under new numbers, in a table that has room for them; the root's new number.
fn settle_in(from: &[u64], t: &mut [u64], numbers: &mut Vec<u64>) -> u64 {
    let reached = judge(from).expect("a sound table").reached;
    let new: BTreeMap<u64, u64> = reached.keys().map(|&i| (i, numbers.pop().expect("a number"))).collect();
    let number = |i: u64| new.get(&i).copied().unwrap_or(i);
    for (&i, x) in &reached {
        let w = start(number(i));
        t[w..w + 32].copy_from_slice(&from[start(i)..start(i) + 32]);
        t[w + 1] = number(x.sibling);
        if x.level > 0 {
            t[w] = number(x.left);
            x.slots.iter().enumerate().for_each(|(p, s)| t[w + 9 + 2 * p] = number(s.pointer));
        }
    }
    number(from[1])
}

/// Sound tables of one collection, one or two of them, as the collections of one table with so many free nodes, which hold any words; numbered
/// at random.
fn together(tables: &[&[u64]], free: u64, random: &mut Random) -> Vec<u64> {
    let taken: usize = tables.iter().map(|t| judge(t).expect("a sound table").reached.len()).sum();
    let mut numbers: Vec<u64> = (1..=taken as u64 + free).collect();
    (1..numbers.len()).rev().for_each(|i| numbers.swap(i, random.below(i as u64 + 1) as usize));
    let mut t = make(numbers.len() as u64, 0);
    t[8..].iter_mut().for_each(|w| *w = random.below(40));
    for (table, c) in tables.iter().zip(1..) {
        t[root_word(c)] = settle_in(table, &mut t, &mut numbers);
    }
    t
}

/// The first table as the collection given, the second as the other one.
fn either_way(which: u64, own: &[u64], other: &[u64], free: u64, random: &mut Random) -> Vec<u64> {
    together(&if which == 1 { [own, other] } else { [other, own] }, free, random)
}

// ---- roots that lie anywhere

/// Where word 3 was put: 0, or where a table has no second root; the first root itself, an inner node or a leaf of the first tree, the same of
/// the second, a free node.
const PLACES: [&str; 7] = ["none", "the first root", "an inner node of the first tree", "a leaf of the first tree", "an inner node of the second tree", "a leaf of the second tree", "a free node"];

fn place_of(t: &[u64], root: u64, of: &[BTreeSet<u64>]) -> usize {
    let leaf = |i: u64| (node(t, i).level == 0) as usize;
    match root {
        i if i == 0 || i > t[2] || t[2] == 1 => 0,
        i if i == t[1] => 1,
        i if of[0].contains(&i) => 2 + leaf(i),
        i if of.get(1).is_some_and(|two| two.contains(&i)) => 4 + leaf(i),
        _ => 6,
    }
}

/// The nodes of each tree of a sound table.
fn nodes_of(t: &[u64]) -> Vec<BTreeSet<u64>> {
    collections(t).into_iter().map(|c| {
        let mut alone = t.to_vec();
        (alone[1], alone[3]) = (t[root_word(c)], 0);
        judge(&alone).expect("a sound tree").reached.into_keys().collect()
    }).collect()
}

/// Every number as the second root of a table: each call as the reference's. How often at each place, and how often not sound there.
fn roots_anywhere(size: u64, random: &mut Random, seed: u64) {
    let mut met = [[0u64; 2]; 7];
    let list: Vec<u64> = (0..LIST_WORDS as u64).collect();
    for i in 0..size {
        let t = match i % 3 {
            // Three levels beside two.
            0 => together(&[&rows(&[vec![2, 1], vec![3, 2]], 0, random).t, &a_tree(random)], random.below(3), random),
            collections => grown(9, collections, random),
        };
        let of = nodes_of(&t);
        for root in (0..=t[2] + 2).chain([MARK]) {
            let mut d = t.clone();
            d[3] = root;
            let place = place_of(&d, root, &of);
            same_reading(&d, random, seed);
            let ks = keys(&d, random);
            for n in [1, 2] {
                let k = ks[random.below(ks.len() as u64) as usize];
                for call in [Call::Insert(n, k, 1 + random.below(1_000_000), random.below(3)), Call::Delete(n, k), Call::SetClass(n, k, 1), Call::Repair] {
                    let number = same_write(&d, &list, ORDERED, call, seed).0.number;
                    met[place][(number == 4) as usize] += 1;
                    // A second root in the first tree is never sound; one above N, or beside a single node, is no table.
                    let right = match place {
                        0 => root == 0 || number == 2,
                        1..=3 => number == 4,
                        _ => true,
                    };
                    expect(right, seed, &d, || format!("{call:?} with a second root {root}, {}: {number}", PLACES[place]));
                }
            }
        }
    }
    PLACES.iter().zip(met).for_each(|(place, [other, unsound])| println!("second root {place}: {unsound} of {} calls refused with 4", other + unsound));
    expect(met.iter().all(|m| m.iter().sum::<u64>() > size), seed, &[], || "a place was hardly met".into());
}

// ---- a leftover in one, a writer of the other

#[derive(Default)]
struct Finished {
    kinds: [u64; 5],
    /// Accepted calls of the collection that has the leftover, and of the other one.
    calls: [u64; 2],
    images: u64,
    /// What the cuts left, in the collection that had the leftover and in the other one.
    left: [[u64; 5]; 2],
}

/// A call on a table in which a collection may be unfinished: as the reference's; accepted, it leaves a settled table, and every cut holds with both
/// maps. What it stores first is the repair.
fn finished(t: &[u64], call: Call, met: &mut Finished, seed: u64, name: &str) {
    let sound = judge(t).expect("a sound table");
    let (after, os) = same_write(t, &[0; LIST_WORDS], ORDERED, call, seed);
    if after.number != 0 {
        return;
    }
    let mut repaired = Writer::new(t);
    repaired.repair(sound.leftover);
    let stores: Vec<(usize, u64)> = os.iter().filter_map(|o| if let Order::Store(w, x) = *o { Some((w, x)) } else { None }).collect();
    expect(stores.starts_with(&repaired.stores), seed, t, || format!("{name}: {call:?} does not begin with the repair"));
    let new = changed(&sound.maps, call);
    let settled = judge(&after.table).is_some_and(|x| x.leftover == Leftover::Nothing && x.maps == new);
    expect(settled, seed, t, || format!("{name}: {call:?} does not leave a settled table with the new maps"));
    if let Some(n) = call.collection() {
        met.calls[(n != sound.unfinished) as usize] += 1;
    }
    // Some keys, and where the maps differ.
    let held = |maps: &Maps, k: u64| maps.iter().map(|map| map.get(&k).copied()).collect::<Vec<_>>();
    let asked: BTreeSet<u64> = around([&sound.maps, &new]).into_iter().filter(|&k| k % 5 < 2 || held(&sound.maps, k) != held(&new, k)).collect();
    for c in 0..=os.len() {
        for image in images(t, &os[..c], ORDERED) {
            met.images += 1;
            let held = image_holds(&image, [&sound.maps, &new], (c, os.len()), &asked, seed, call);
            met.left[(held.unfinished != sound.unfinished) as usize][kind(held.leftover)] += 1;
        }
    }
}

/// Leaves of a few codes, a full one and one with a single code, all under a parent.
fn a_tree(random: &mut Random) -> Vec<u64> {
    rows(&[vec![11, 3, 1, random.below(12) as usize]], 0, random).t
}

/// Every kind of leftover around a leaf, in either collection; writes of the other one and of the same, and a repair.
fn finished_by_either(size: u64, random: &mut Random, seed: u64) {
    let mut met = Finished::default();
    for _ in 0..size {
        for (name, leave) in LEFTOVERS {
            for which in [1, 2] {
                let place = Place { parent: 0, child: 1 + random.below(2) as usize };
                let r = rows(&[vec![2, 1, 6, 11], vec![3, 2]], 0, random);
                let Some(unfinished) = leave(&r, place) else { continue };
                let t = either_way(which, &unfinished, &a_tree(random), 3, random);
                let sound = judge(&t);
                expect(sound.is_some(), seed, &t, || format!("{name}: the test's own table is not sound"));
                let sound = sound.unwrap();
                met.kinds[kind(sound.leftover)] += 1;
                expect(sound.unfinished == if name == "settled" { 0 } else { which }, seed, &t, || format!("{name}: in collection {}", sound.unfinished));
                for n in [3 - which, which] {
                    let map = &sound.maps[n as usize - 1];
                    let some = |random: &mut Random| *map.keys().nth(random.below(map.len() as u64) as usize).unwrap();
                    // A full leaf's first key, and the key of a leaf that has no other, in the tree whose leaves are known.
                    let splits = if n == which { 3 * STEP + 5 } else { 5 };
                    let frees = if n == which { some(random) } else { 2 * STEP };
                    let calls = [
                        Call::Insert(n, some(random) + 3, 1 << 50, random.below(3)),
                        Call::Insert(n, splits, (1 << 50) + 1, random.below(3)),
                        Call::Delete(n, some(random)),
                        Call::Delete(n, frees),
                        Call::SetClass(n, some(random), random.below(3)),
                        Call::Insert(n, splits, recording(map[&some(random)]), 0),
                        Call::Delete(n, 999 * STEP),
                        Call::Repair,
                    ];
                    calls.into_iter().for_each(|call| finished(&t, call, &mut met, seed, name));
                }
            }
        }
    }
    all_met(&met.kinds, seed);
    println!("accepted calls of the collection with the leftover {}, of the other {}; images {}, left in either {:?}", met.calls[0], met.calls[1], met.images, met.left);
    expect(met.calls[1] > 100 * size && met.left[1].iter().all(|&n| n > 0), seed, &[], || "a case was not met".into());
}

// ---- tall trees beside others

/// A run of full nodes up to the root of either collection: its new root is stored in its own header word, the other one's stays; with one
/// free node fewer 10, and 11 by the own root at level 15, whatever the other tree is.
fn tall_beside(size: u64, random: &mut Random, seed: u64) {
    let list: Vec<u64> = (0..LIST_WORDS as u64).collect();
    let gives = |t: &[u64], call: Call, number: u64| {
        let after = same_write(t, &list, ORDERED, call, seed).0;
        expect(after.number == number, seed, t, || format!("{call:?}: {number} was meant, both sides gave {}", after.number));
        after.table
    };
    for _ in 0..size {
        for level in [0, 1, 3, 9, 14, 15] {
            let full = tower(&vec![Floor { slots: 11, place: random.below(12) as usize }; level + 1], 0, random);
            let other = tower(&[Floor { slots: 4, place: 2 }, Floor { slots: [1, 11][random.below(2) as usize], place: 1 }], 0, random);
            let need = level as u64 + 2;
            for (which, free) in [(1, need), (2, need), (1, need - 1), (2, need - 1)] {
                let t = either_way(which, &full.t, &other.t, free, random);
                let number = if level == 15 { 11 } else if free < need { 10 } else { 0 };
                let after = gives(&t, Call::Insert(which, full.key, 7, 0), number);
                let (own, others) = (root_word(which), root_word(3 - which));
                expect((after[own] != t[own]) == (number == 0) && after[others] == t[others], seed, &t, || format!("roots {} and {} after {number}", after[1], after[3]));
                // The other collection takes the key, and the same recording.
                gives(&t, Call::Insert(3 - which, other.key, 7, 0), 0);
            }
        }
    }
}

// ---- what a write does not ask of the other

/// A call's number in a table of two collections is its number in the collection's own tree alone with as many free nodes; a search and a
/// listing answer as there.
fn independent(size: u64, random: &mut Random, seed: u64) {
    let mut numbers = [0u64; 19];
    for i in 0..size {
        let (own, other) = (grown(9, 1, random), grown(if i % 3 == 0 { 40 } else { 9 }, 1, random));
        // At most one leftover in the whole table.
        let settle = |t: &[u64]| calls::repair(t, &[0; LIST_WORDS], ORDERED).table;
        let (own, other) = if random.below(2) == 0 { (settle(&own), other) } else { (own, settle(&other)) };
        let (free, which) = (random.below(5), 1 + random.below(2));
        let t = either_way(which, &own, &other, free, random);
        let alone = together(&[&own], free, random);
        for k in keys(&own, random).into_iter().chain(keys(&other, random)) {
            expect(calls::search(&t, which, k) == calls::search(&own, 1, k), seed, &t, || format!("a search for {k} in collection {which} beside another"));
            for call in [Call::Insert(1, k, some_recording(random), some_class(random)), Call::Delete(1, k), Call::SetClass(1, k, some_class(random))] {
                let [with, without] = [(&t, call.naming(which)), (&alone, call)].map(|(t, call)| called(t, &[0; LIST_WORDS], ORDERED, call).number);
                expect(with == without, seed, &t, || format!("{call:?} in collection {which} gives {with} beside another, {without} alone"));
                numbers[with as usize] += 1;
            }
        }
        let out = vec![7; 2 * 11 * own[2] as usize];
        expect(calls::list(&t, which, 0, MARK, &out) == calls::list(&own, 1, 0, MARK, &out), seed, &t, || format!("a listing of collection {which} beside another"));
    }
    println!("calls beside another collection and alone, by number: {numbers:?}");
    expect([0, 6, 7, 8, 9, 10, 14].iter().all(|&n: &usize| numbers[n] >= size / 50), seed, &[], || "a number was hardly met".into());
}

fn main() {
    let (seed, size) = arguments(20);
    let mut random = Random(seed);
    let random = &mut random;
    let mut passed = 0;

    // Searches and listings on tables of two collections with every leftover in either, whole and damaged, and on any words.
    let mut kinds = [[0; 5]; 2];
    for i in 0..50 * size {
        let t = grown(if i % 4 == 0 { 40 } else { 12 }, 2, random);
        let sound = judge(&t).expect("a grown table is sound");
        kinds[(sound.unfinished == 2) as usize][kind(sound.leftover)] += 1;
        for (map, n) in sound.maps.iter().zip(1..) {
            let ks = keys(&t, random);
            for &k in map.keys().chain(&ks) {
                expect(search(&t, n, k) == lookup(map, k), seed, &t, || format!("the reference's search for {k} in collection {n} against its map"));
            }
        }
        same_reading(&t, random, seed);
        for _ in 0..6 {
            same_reading(&damaged(&t, random), random, seed);
        }
        same_reading(&any_words(8 + 32 * (1 + random.below(7)) as usize, 2, random), random, seed);
    }
    println!("read, by leftover in collection 1 and in 2: {kinds:?}");
    expect(kinds.iter().all(|of| of[1..].iter().all(|&n| n > 0)), seed, &[], || "a leftover was not met in each collection".into());
    passed += 1;

    scripts::written(2, 2_000 * size, random, seed);
    passed += 1;
    scripts::left_over(2, 40 * size, random, seed);
    passed += 1;
    scripts::damaged_by(2, 40 * size, random, seed);
    passed += 1;

    let met = scripts::cut(2, 100 * size, random, seed);
    println!("writes on a leftover of their own collection, by its kind: {:?}; of the other: {:?}", &met.finished[0][1..], &met.finished[1][1..]);
    expect(met.finished.iter().all(|of| of[1] > 0 && of[2..].iter().sum::<u64>() > 0), seed, &[], || "a leftover was not finished by a writer of each".into());
    passed += 1;

    roots_anywhere(10 * size, random, seed);
    passed += 1;
    finished_by_either(1 + size / 20, random, seed);
    passed += 1;
    tall_beside(1 + size / 20, random, seed);
    passed += 1;
    independent(50 * size, random, seed);
    passed += 1;

    println!("{passed} passed, 0 failed");
}
