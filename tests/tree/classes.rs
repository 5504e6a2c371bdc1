//! Class changes: of codes at every place, after each kind of leftover, all cut everywhere. Against the reference.
mod calls;
mod common;
mod reference;
mod rows;

use common::*;
use reference::*;
use rows::*;
use std::collections::BTreeSet;

#[derive(Default)]
struct Met {
    kinds: [u64; 5],
    /// What the cuts left.
    left: [u64; 5],
    /// From one class to another.
    changes: [[u64; 3]; 3],
    images: u64,
}

/// A class change after the repair that the table needs: the repair's stores and one more, whose line is flushed last. Every cut holds.
fn changed_class(t: &[u64], k: u64, to: u64, met: &mut Met, seed: u64, name: &str) {
    let tree = judge(t).expect("a sound table");
    met.kinds[kind(tree.leftover)] += 1;
    let map = &tree.maps[0];
    met.changes[class(map[&k]) as usize][to as usize] += 1;
    let call = Call::SetClass(1, k, to);
    let (after, os) = same_write(t, &[0; LIST_WORDS], ORDERED, call, seed);
    let mut repaired = Writer::new(t);
    repaired.repair(tree.leftover);
    let stores: Vec<(usize, u64)> = os.iter().filter_map(|o| if let Order::Store(w, x) = *o { Some((w, x)) } else { None }).collect();
    let (last, before) = stores.split_last().expect("a store");
    let one = after.number == 0 && before == &repaired.stores[..] && last.1 == pointer(recording(map[&k]), to);
    expect(one, seed, t, || format!("{name}: {call:?} is not the repair's {} stores and one more", repaired.stores.len()));
    expect(os.last() == Some(&Order::Flush(last.0 as u64 / 8)), seed, t, || format!("{name}: {call:?} does not end with its flush"));
    expect(tree.leftover != Leftover::Nothing || after.counts == [Some(1), Some(1), Some(0)], seed, t, || format!("{name}: {call:?} on a settled table"));

    let new = changed(&tree.maps, call);
    let only = new[0].iter().filter(|(k, x)| map[k] != **x).count();
    expect(new[0].len() == map.len() && only == (class(map[&k]) != to) as usize, seed, t, || format!("{name}: more than one code differs"));
    let asked: BTreeSet<u64> = map.keys().filter(|x| x.abs_diff(k) < 2 * STEP || *x % 7 == 0).flat_map(|k| [k.wrapping_sub(1), *k, k + 1]).collect();
    for c in 0..=os.len() {
        for image in images(t, &os[..c], ORDERED) {
            met.images += 1;
            let held = image_holds(&image, [&tree.maps, &new], (c, os.len()), &asked, seed, call);
            met.left[kind(held.leftover)] += 1;
        }
    }
}

fn main() {
    let (seed, size) = arguments(1);
    let (mut random, mut met) = (Random(seed), Met::default());
    for _ in 0..size {
        for (slots, child, parents, parent) in [(1, 1, 1, 0), (2, 1, 2, 0), (2, 2, 2, 1), (11, 6, 2, 1), (11, 11, 1, 0), (11, 1, 3, 1)] {
            let place = Place { parent, child };
            for many in [1, 2, 6, 10, 11] {
                let codes: Vec<Vec<usize>> = (0..parents).map(|q| (0..=if q == parent { slots } else { 2 }).map(|j| if (q, j) == (parent, child) { many } else { random.below(12) as usize }).collect()).collect();
                for (name, leave) in LEFTOVERS {
                    let r = rows(&codes, 1, &mut random);
                    let Some(t) = leave(&r, place) else { continue };
                    let name = format!("{slots} slots, child {child} with {many} codes, parent {parent} of {parents}, {name}");
                    let tree = judge(&t);
                    expect(tree.is_some(), seed, &t, || format!("{name}: the test's own table is not sound"));
                    let map = &tree.unwrap().maps[0];
                    // A code of the leaf, and any other.
                    let fence = node(&t, r.leaves[parent][child]).fence;
                    let own: Vec<u64> = map.range(fence..fence + STEP).map(|(&k, _)| k).collect();
                    for k in [own[random.below(own.len() as u64) as usize], *map.keys().nth(random.below(map.len() as u64) as usize).unwrap()] {
                        changed_class(&t, k, random.below(3), &mut met, seed, &name);
                    }
                }
            }
        }
    }
    all_met(&met.kinds, seed);
    println!("changes by class {:?}; images {}, left: {:?}", met.changes, met.images, met.left);
    expect(met.changes.iter().flatten().all(|&n| n > 20) && met.left.iter().all(|&n| n > 0), seed, &[], || "a case was not met".into());
    println!("1 passed, 0 failed");
}
