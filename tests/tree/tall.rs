//! Tall tables with full nodes on the way down: insertions that split runs of 1 to 15 nodes, with and without a new root, up to the levels
//! and the free nodes where they are refused; every cut of many of them; damage. All against the reference.
mod calls;
mod common;
mod reference;
mod tower;

use common::*;
use reference::*;
use std::collections::BTreeSet;
use tower::*;

/// Floors of a tower with its root at a level, and a run of so many full nodes from the leaf up.
fn floors(root: usize, run: usize, random: &mut Random) -> Vec<Floor> {
    let mut slots = |level: usize| match level.cmp(&run) {
        std::cmp::Ordering::Less => 11,
        std::cmp::Ordering::Equal => if random.below(2) == 0 { 10 } else { random.below(11) as usize },
        std::cmp::Ordering::Greater => [0, 1, 3, 11][random.below(4) as usize],
    };
    let slots: Vec<usize> = (0..=root).map(&mut slots).collect();
    slots.into_iter().map(|slots| Floor { slots, place: random.below(slots as u64 + 1) as usize }).collect()
}

fn some_insertion(key: u64, random: &mut Random) -> Call {
    Call::Insert(1, key, 1 + random.below(MOST_RECORDING), random.below(3))
}

// ---- leftovers

/// The tower's table settled, or with a leftover on or off its path, so that repair gives the path its floors again.
fn left_over(tower: &Tower, random: &mut Random) -> Vec<u64> {
    let mut t = tower.t.clone();
    let mut any = |n: usize| random.below(n as u64) as usize;
    // A node of the path above the leaf.
    let parent = tower.path[any(tower.path.len() - 1) + 1];
    let slots = node(&t, parent).used();
    match any(5) {
        1 if slots < 11 => {
            let p = any(slots + 1);
            let (key, pointer) = (random.next(), before(&t, parent, p));
            put_slot(&mut t, parent, p, key, pointer);
        }
        1 if !tower.leaves.is_empty() => {
            let leaf = tower.leaves[any(tower.leaves.len())];
            let p = any(node(&t, leaf).used());
            hide(&mut t, leaf, p);
        }
        2 | 3 if slots > 0 => {
            let p = any(slots);
            let (a, b) = (before(&t, parent, p), node(&t, parent).slots[p].pointer);
            take_slot(&mut t, parent, p);
            let (used, fence) = (node(&t, a).used(), node(&t, b).fence);
            for i in used..used + any(12 - used) {
                put_slot(&mut t, a, i, fence + (i - used) as u64, (1 << 40) + i as u64);
            }
        }
        4 if slots > 0 => hide(&mut t, parent, any(slots)),
        _ => {}
    }
    t
}

// ---- what was met

struct Met {
    numbers: [u64; 19],
    /// Accepted insertions by the length of the run split; the second with a new root.
    runs: [[u64; 16]; 2],
    cut_runs: [[u64; 16]; 2],
    kinds: [u64; 5],
    /// The longest list for each dock.
    longest: [usize; 2],
    images: u64,
    /// The order list that is lent, as short as each dock takes it.
    lists: [Vec<u64>; 2],
    seed: u64,
}

impl Met {
    /// A call on both sides, for both docks; what it left for the ordered one, and its orders.
    fn tried(&mut self, t: &[u64], call: Call) -> (calls::Wrote, Vec<Order>) {
        let answer = write(t, LIST_WORDS, ORDERED, call);
        let barred = same_as(answer.clone(), t, &self.lists[1], UNORDERED, call, self.seed).1;
        let (after, os) = same_as(answer, t, &self.lists[0], ORDERED, call, self.seed);
        self.numbers[after.number as usize] += 1;
        self.longest = [self.longest[0].max(os.len()), self.longest[1].max(barred.len())];
        if let (0, Call::Insert(1, ..)) = (after.number, call) {
            let (run, grown) = split(t, &after.table);
            self.runs[grown][run] += 1;
        }
        (after, os)
    }

    /// A call must give a number.
    fn gives(&mut self, t: &[u64], call: Call, number: u64) {
        let after = self.tried(t, call).0;
        expect(after.number == number, self.seed, t, || format!("{call:?}: {number} was meant, both sides gave {}", after.number));
    }

    /// Every cut of an accepted insertion, and some of the other images of each; each searched, judged, repaired and now and then gone on with.
    fn cuts(&mut self, t: &[u64], call: Call, after: &calls::Wrote, os: &[Order], random: &mut Random) {
        let Call::Insert(1, k, r, x) = call else { panic!("cuts of insertions") };
        let old = judge(t).expect("a sound table").maps;
        let new = changed(&old, call);
        let mut asked: BTreeSet<u64> = new[0].range(..k).rev().take(30).chain(new[0].range(k..).take(30)).map(|(&k, _)| k).collect();
        asked.extend(new[0].keys().skip(random.below(20) as usize).step_by(20).flat_map(|k| [k.wrapping_sub(1), *k, k + 1]));
        let seed = self.seed;
        for c in 0..=os.len() {
            let carried = calls::carry_out(t, &after.list, c as u64);
            expect(carried.0 == 0, seed, t, || format!("{call:?}: carry-out of {c} orders gave {}", carried.0));
            let mut seen = vec![carried.1];
            if random.below(24) == 0 {
                let all = images(t, &os[..c], ORDERED);
                expect(all.contains(&seen[0]), seed, t, || format!("{call:?}: what carry-out of {c} orders leaves is no image of the cut"));
                seen.extend(all);
            }
            for image in seen {
                self.images += 1;
                let taken = calls::search(&image, 1, k) == calls::found(r, x);
                let maps = if taken { &new } else { &old };
                let what = || format!("{call:?} cut after {c} of {} orders", os.len());
                expect(answers(&image, maps, &asked), seed, &image, || what() + ": searches agree with neither map");
                expect((c > 0 || !taken) && (c < os.len() || taken), seed, &image, || what() + ": taken or omitted wrongly");
                let tree = judge(&image).filter(|x| x.maps == *maps);
                expect(tree.is_some(), seed, &image, || what() + ": not sound with that map");
                let tree = tree.unwrap();
                self.kinds[kind(tree.leftover)] += 1;
                let (mended, _) = same_as(write_judged(&image, &tree, LIST_WORDS, ORDERED, Call::Repair), &image, &self.lists[0], ORDERED, Call::Repair, seed);
                let settled = mended.number == 0 && (random.below(8) > 0 || judge(&mended.table).map_or(false, |x| x.leftover == Leftover::Nothing && x.maps == *maps));
                expect(settled, seed, &image, || what() + ", then repaired: not settled with that map");
                if random.below(100) == 0 {
                    self.gives(&image, call, if taken { 7 } else { 0 });
                }
            }
        }
        let (run, grown) = split(t, &after.table);
        self.cut_runs[grown][run] += 1;
    }
}

/// How many nodes an insertion split, and whether it made a new root (0 or 1).
fn split(before: &[u64], after: &[u64]) -> (usize, usize) {
    let reached = |t: &[u64]| judge(t).expect("a sound table").reached.len();
    let grown = (before[1] != after[1]) as usize;
    (reached(after) - reached(before) - grown, grown)
}

fn main() {
    let (seed, size) = arguments(8);
    let mut random = Random(seed);
    let lists = [LIST_WORDS, LONG_LIST_WORDS].map(|words| (0..words as u64).collect());
    let mut met = Met { numbers: [0; 19], runs: [[0; 16]; 2], cut_runs: [[0; 16]; 2], kinds: [0; 5], longest: [0; 2], images: 0, lists, seed };
    let mut passed = 0;

    // Runs of 1 to 15 nodes below a node with room, and runs up to a root at level 0 to 14, which grows: with just the nodes that they need
    // or a few more; with one fewer, 10.
    for round in 0..size {
        for run in 1..=15 {
            for new_root in [false, true] {
                let root = if new_root { run - 1 } else { run + random.below(16 - run as u64) as usize };
                let floors = floors(root, run, &mut random);
                let need = (run + new_root as usize) as u64;
                for free in [need - 1, need + [0, random.below(4)][(round % 2) as usize]] {
                    let tower = tower(&floors, free, &mut random);
                    let t = if root > 0 { left_over(&tower, &mut random) } else { tower.t.clone() };
                    let tree = judge(&t).expect("a tower is sound");
                    met.kinds[kind(tree.leftover)] += 1;
                    let insertion = some_insertion(tower.key, &mut random);
                    if free < need {
                        met.gives(&t, insertion, 10);
                        // What is tested before 10.
                        let map = &tree.maps[0];
                        let (&k, &x) = map.iter().nth(random.below(map.len() as u64) as usize).unwrap();
                        met.gives(&t, Call::Insert(1, tower.key, recording(x), random.below(3)), 8);
                        met.gives(&t, Call::Insert(1, k, recording(x), random.below(3)), 7);
                        met.gives(&t, Call::Insert(1, k, recording(x), 3), 14);
                        met.gives(&t, Call::Insert(1, k, [0, MOST_RECORDING + 1, MARK][random.below(3) as usize], 3), 6);
                        met.gives(&t, Call::SetClass(1, tower.key, random.below(3)), 9);
                        met.gives(&t, Call::SetClass(1, tower.key, 3), 14);
                        met.gives(&t, Call::SetClass(1, k, random.below(3)), 0);
                        met.gives(&t, Call::Delete(1, tower.key), 9);
                        met.gives(&t, Call::Delete(1, k), 0);
                        let listed = calls::list(&t, 1, 0, MARK, &vec![7; 2 * map.len() + 2]);
                        let pairs: Vec<u64> = map.iter().flat_map(|(&k, &x)| [k, x]).chain([7, 7]).collect();
                        expect(listed == (0, [Some(map.len() as u64), Some(0)], pairs), seed, &t, || "a listing of all".into());
                        continue;
                    }
                    let (after, os) = met.tried(&t, insertion);
                    expect(after.number == 0 && split(&t, &after.table) == (run, new_root as usize), seed, &t, || format!("{insertion:?}: a run of {run} was meant, new root {new_root}"));
                    let new = changed(&tree.maps, insertion);
                    expect(answers(&after.table, &new, &around([&new])), seed, &after.table, || format!("searches after {insertion:?}"));
                    if round == 0 {
                        met.cuts(&t, insertion, &after, &os, &mut random);
                    }
                }
            }
        }
    }
    passed += 1;

    // A run that includes a root at level 15: 11, with enough nodes, and before 10 if there are too few.
    for i in 0..8 * size {
        let tower = tower(&floors(15, 16, &mut random), [0, 1, 16, 17, 40][(i % 5) as usize], &mut random);
        let t = left_over(&tower, &mut random);
        met.gives(&t, some_insertion(tower.key, &mut random), 11);
        let used = *judge(&t).expect("a tower is sound").maps[0].values().next().unwrap();
        met.gives(&t, Call::Insert(1, tower.key, recording(used), random.below(3)), 8);
    }
    passed += 1;

    // The longest lists: a root grown from level 14 to 15; each of the 14 nodes below goes into its parent before all slots, and so does the
    // new pair into the leaf; before that a repair closes slot 0 of a full node and puts the node that lacks it there.
    for i in 0..size {
        let mut floors = vec![Floor { slots: 11, place: 0 }; 15];
        for f in &mut floors {
            f.place = [0, 6][random.below(2) as usize];
        }
        let tower = tower(&floors, 16, &mut random);
        let mut t = tower.t.clone();
        hide(&mut t, tower.path[1 + random.below(14) as usize], 0);
        let insertion = some_insertion(tower.key, &mut random);
        let (after, os) = met.tried(&t, insertion);
        expect(after.number == 0 && os.len() == 933, seed, &t, || format!("{insertion:?} made {} orders, not 933", os.len()));
        if i == 0 {
            met.cuts(&t, insertion, &after, &os, &mut random);
        }
    }
    passed += 1;

    // Damage on a tall way.
    let mut refused = 0;
    for i in 0..size {
        let tower = tower(&floors(15, [3, 15, 16][(i % 3) as usize], &mut random), 16, &mut random);
        for _ in 0..60 {
            let mut d = left_over(&tower, &mut random);
            let n = tower.path[random.below(16) as usize];
            let w = start(n) + random.below(32) as usize;
            d[w] = [0, MARK, d[w].wrapping_add(1), d[w].wrapping_sub(1), d[random.below(d.len() as u64) as usize]][random.below(5) as usize];
            refused += (met.tried(&d, some_insertion(tower.key, &mut random)).0.number == 4) as u64;
            same_search(&d, 1, tower.key, seed);
        }
    }
    println!("damaged tables {}, not sound {refused}", 60 * size);
    passed += 1;

    println!("by number: {:?}", met.numbers);
    println!("runs split 1 to 15: {:?}; with a new root: {:?}", &met.runs[0][1..], &met.runs[1][1..]);
    println!("of these cut: {:?}; with a new root: {:?}; images {}", &met.cut_runs[0][1..], &met.cut_runs[1][1..], met.images);
    println!("longest list for each dock {:?}", met.longest);
    all_met(&met.kinds, seed);
    let each = |counts: &[[u64; 16]; 2], least: u64| counts.iter().all(|of| of[1..].iter().all(|&n| n >= least));
    expect(each(&met.runs, size) && each(&met.cut_runs, 1), seed, &[], || "a length of run was not split or cut often enough".into());
    expect([8, 10, 11].iter().all(|&n: &usize| met.numbers[n] >= 8 * size), seed, &[], || "8, 10 or 11 was not met often enough".into());
    expect(met.longest == [933, 1735], seed, &[], || format!("the longest lists have {:?} orders", met.longest));
    passed += 1;

    println!("{passed} passed, 0 failed");
}
