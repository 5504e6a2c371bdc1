//! Deletions that empty a leaf: at parents with 1, 2 and 11 slots, at every place, at the right end of a level and with the sibling under
//! another parent, after each kind of leftover, all cut everywhere; and tables filled, emptied and filled again by other codes. Against the
//! reference.
mod calls;
mod common;
mod reference;
mod rows;

use common::*;
use reference::*;
use rows::*;
use std::collections::BTreeSet;

// ---- a leaf freed

#[derive(Default)]
struct Met {
    kinds: [u64; 5],
    /// What the cuts left.
    left: [u64; 5],
    images: u64,
    attached: u64,
}

/// The one code of the leaf is deleted: the list is the reference's, the leaf is unreachable afterwards with its words as they were but for
/// the one pointer, and every cut holds; if it left the leaf without its slot, repair attaches it again, empty.
fn freed(t: &[u64], leaf: u64, met: &mut Met, seed: u64, name: &str) {
    let tree = judge(t);
    expect(tree.is_some(), seed, t, || format!("{name}: the test's own table is not sound"));
    let tree = tree.unwrap();
    met.kinds[kind(tree.leftover)] += 1;
    let mut settled = Writer::new(t);
    settled.repair(tree.leftover);
    let slots = node(&settled.t, leaf).shown();
    expect(slots.len() == 1, seed, t, || format!("{name}: the leaf has {} codes", slots.len()));
    let call = Call::Delete(1, slots[0].key);
    let (after, os) = same_write(t, &[0; LIST_WORDS], ORDERED, call, seed);
    let (free, now) = (unreachable(t), unreachable(&after.table));
    expect(now.len() == free.len() + 1 && now.is_superset(&free) && now.contains(&leaf), seed, t, || format!("{name}: {call:?} freed {free:?} to {now:?}, not {leaf}"));
    let words = |t: &[u64]| t[start(leaf)..start(leaf) + 32].to_vec();
    let mut want = words(&settled.t);
    want[9] = 0;
    expect(words(&after.table) == want, seed, t, || format!("{name}: the freed leaf's words"));

    let new = changed(&tree.maps, call);
    let asked: BTreeSet<u64> = tree.maps[0].keys().filter(|&&k| k.abs_diff(slots[0].key) < 2 * STEP || k % 7 == 0).flat_map(|k| [k.wrapping_sub(1), *k, k + 1]).collect();
    for c in 0..=os.len() {
        for image in images(t, &os[..c], ORDERED) {
            met.images += 1;
            let held = image_holds(&image, [&tree.maps, &new], (c, os.len()), &asked, seed, call);
            met.left[kind(held.leftover)] += 1;
            let lacks = matches!(held.leftover, Leftover::Missing { a, .. } | Leftover::Both { a, .. } if node(&image, a).sibling == leaf);
            if lacks && held.maps == new {
                met.attached += 1;
                let empty = judge(&held.mended).map_or(false, |x| x.reached.get(&leaf).map_or(false, |x| x.used() == 0));
                expect(empty, seed, &image, || format!("{name}: cut after {c} orders, the leaf is not attached again"));
            }
        }
    }
}

/// How many codes each leaf has: the one asked for just one, the others any number, also none.
fn some_codes(parents: usize, slots: usize, place: Place, random: &mut Random) -> Vec<Vec<usize>> {
    let mut leaf = |q: usize, j: usize| match (q, j) {
        _ if (q, j) == (place.parent, place.child) => 1,
        _ => [0, 1, 2, 5, 9, 11][random.below(6) as usize],
    };
    (0..parents).map(|q| (0..=if q == place.parent { slots } else { 1 + q }).map(|j| leaf(q, j)).collect()).collect()
}

fn all_shapes(random: &mut Random, seed: u64) -> Met {
    let mut met = Met::default();
    for slots in [1, 2, 11] {
        for child in BTreeSet::from([1, slots / 2 + 1, slots]) {
            for (parents, parent) in [(1, 0), (2, 0), (2, 1), (3, 1)] {
                let place = Place { parent, child };
                for (name, leave) in LEFTOVERS {
                    let r = rows(&some_codes(parents, slots, place, random), random.below(3) as usize, random);
                    let name = format!("{slots} slots, child {child}, parent {parent} of {parents}, {name}");
                    if let Some(t) = leave(&r, place) {
                        freed(&t, r.leaves[parent][child], &mut met, seed, &name);
                    }
                }
            }
        }
    }
    met
}

// ---- filled again and again

/// The leaves of an emptied table: only leftmost children, or the root.
fn only_leftmost(t: &[u64]) -> bool {
    let reached = judge(t).expect("a sound table").reached;
    let lefts: BTreeSet<u64> = reached.values().filter(|x| x.level == 1).map(|x| x.left).chain([t[1]]).collect();
    reached.iter().all(|(i, x)| x.level > 0 || lefts.contains(i))
}

/// The codes that a table is filled with the next time: between the old ones, above them, or below them.
#[derive(Clone, Copy, Debug)]
enum Range {
    Between,
    Above,
    Below,
}

/// A table filled until 10, emptied, and filled again by other codes; how many codes it took each time.
fn refilled(n: u64, times: u64, order: usize, range: Range, random: &mut Random, seed: u64) -> Vec<usize> {
    let list = [0; LIST_WORDS];
    let mut t = make(n, 1);
    let mut taken = Vec::new();
    for time in 0..times {
        let first = match range {
            Range::Between => time,
            Range::Above => 2_000 * n * time,
            Range::Below => 2_000 * n * (times - time),
        };
        let mut keys: Vec<u64> = (0..12 * n).map(|i| first + 100 * i).collect();
        match order {
            0 => {}
            1 => keys.reverse(),
            _ => (1..keys.len()).rev().for_each(|i| keys.swap(i, random.below(i as u64 + 1) as usize)),
        }
        let mut inside = Vec::new();
        for k in keys {
            let (after, _) = same_write(&t, &list, ORDERED, Call::Insert(1, k, k + 1, k % 3), seed);
            match after.number {
                0 => inside.push(k),
                number => {
                    expect(number == 10, seed, &t, || format!("{k} was refused with {number}"));
                    break;
                }
            }
            t = after.table;
        }
        taken.push(inside.len());
        if random.below(2) == 0 {
            inside.reverse();
        }
        for k in inside {
            let (after, _) = same_write(&t, &list, ORDERED, Call::Delete(1, k), seed);
            expect(after.number == 0, seed, &t, || format!("the deletion of {k} gave {}", after.number));
            t = after.table;
        }
        expect(only_leftmost(&t), seed, &t, || "an emptied leaf remained that is not its parent's leftmost child".into());
    }
    taken
}

fn main() {
    let (seed, size) = arguments(1);
    let mut random = Random(seed);
    let mut passed = 0;

    for _ in 0..size {
        let met = all_shapes(&mut random, seed);
        all_met(&met.kinds, seed);
        println!("images {}, of these with the leaf to attach again {}; left: {:?}", met.images, met.attached, met.left);
        expect(met.left.iter().all(|&n| n > 0) && met.attached > 100, seed, &[], || "a kind of image was not met".into());
    }
    passed += 1;

    // Up to 12 leaves are under one root, which keeps an empty leaf: the table takes as many other codes again, any number of times. Of a
    // taller one each parent keeps a leaf, and parents do not come back.
    for (n, range) in [3, 4, 13, 40, 100].into_iter().flat_map(|n| [Range::Between, Range::Above, Range::Below].map(|r| (n, r))) {
        print!("{n} nodes, then other codes {range:?}:");
        for (order, name) in ["rising", "falling", "scattered"].into_iter().enumerate() {
            let taken = refilled(n, if n > 13 { 3 } else { 12 }, order, range, &mut random, seed);
            let (first, least) = (taken[0], *taken.iter().min().unwrap());
            print!(" {name} {first}, least {least};");
            let enough = if n > 13 { 1 } else if order == 2 { first / 2 } else { first };
            expect(least >= enough, seed, &[], || format!("a table took {taken:?} codes"));
        }
        println!();
    }
    passed += 1;

    println!("{passed} passed, 0 failed");
}
