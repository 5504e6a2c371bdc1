//! The check's report against the reference: on settled tables, on every leftover, on damaged tables and any words, of one collection and of
//! two; and against the library's own listing and repair.
mod calls;
mod common;
mod reference;
mod tower;

use common::*;
use reference::*;
use tower::{tower, Floor};

/// Kind, collection, node with the hidden slot, slot, node that lacks its slot, neighbour, parent, trailing slots.
fn left(t: &[u64], s: &Sound) -> [u64; 8] {
    let c = s.unfinished;
    let sibling = |a| node(t, a).sibling;
    let hidden = |n| node(t, n).places().1[0] as u64;
    let trailing = |a| node(t, a).shown().iter().filter(|x| x.key >= node(t, sibling(a)).fence).count() as u64;
    match s.leftover {
        Leftover::Nothing => [0; 8],
        Leftover::Hidden { node } => [1, c, node, hidden(node), 0, 0, 0, 0],
        Leftover::Missing { parent, a, .. } => [2, c, 0, 0, sibling(a), a, parent, trailing(a)],
        Leftover::Both { parent, a } => [3, c, parent, hidden(parent), sibling(a), a, parent, 0],
    }
}

/// What the call must leave.
fn report(t: &[u64], s: &Sound) -> [u64; 16] {
    let mut words = [0; 16];
    words[..8].copy_from_slice(&left(t, s));
    words[8..10].copy_from_slice(&[t[2], t[2] - s.reached.len() as u64]);
    for (i, c) in collections(t).into_iter().enumerate() {
        let levels = node(t, t[root_word(c)]).level + 1;
        words[10 + 3 * i..13 + 3 * i].copy_from_slice(&[s.nodes[i], s.maps[i].len() as u64, levels]);
    }
    words
}

/// The call is the reference's answer; what it was, None for a refusal.
fn same_check(t: &[u64], random: &mut Random, seed: u64) -> Option<Sound> {
    let lent: [u64; 16] = std::array::from_fn(|_| random.next());
    let sound = header_ok(t).then(|| judge(t));
    let want = match &sound {
        None => (2, lent),
        Some(None) => (4, lent),
        Some(Some(s)) => (0, report(t, s)),
    };
    let got = calls::check(t, lent);
    expect(got == want, seed, t, || format!("check: wanted {want:?}, got {got:?}"));
    sound.flatten()
}

/// Repair settles the table and keeps its codes; listings have as many codes as the report.
fn same_calls(t: &[u64], seed: u64) {
    let before = calls::check(t, [0; 16]).1;
    let after = calls::check(&calls::repair(t, &[0; LIST_WORDS], ORDERED).table, [0; 16]);
    expect(after.0 == 0 && after.1[..8] == [0; 8] && (after.1[11], after.1[14]) == (before[11], before[14]), seed, t, || format!("after a repair {after:?}"));
    for c in collections(t) {
        let listed = calls::list(t, c, 0, MARK, &vec![0; 30 * t[2] as usize]).1;
        expect(listed == [Some(before[8 + 3 * c as usize]), Some(0)], seed, t, || format!("collection {c} lists {listed:?}"));
    }
}

/// The largest table, of one collection and of two, on a thread with the stack that the header asks for.
fn largest() {
    let work = || {
        for collections in [1, 2] {
            let most = 660_000 / collections;
            let pairs: Vec<u64> = (0..most).flat_map(|i| [10 * i, 1 + i * 7_919 % 1_000_003]).collect();
            let mut t = vec![0; 8 + 32 * 65_535];
            let loans = if collections == 2 { &pairs[..] } else { &[] };
            assert!(calls::pack_takes(&mut t, collections, &pairs, loans).0 == 0);
            let (number, report, took) = calls::check_takes(&t);
            let second = if collections == 2 { most } else { 0 };
            assert!(number == 0 && (report[0], report[11], report[14]) == (0, most, second), "{number}, {report:?}");
            assert!(report[9] + report[10] + report[13] == 65_535, "{report:?}");
            println!("the check of {} codes in {collections} collections: {took:?}", most * collections);
        }
    };
    std::thread::Builder::new().stack_size(300 << 10).spawn(work).unwrap().join().unwrap();
}

fn main() {
    let (seed, size) = arguments(4_000);
    let mut random = Random(seed);
    let random = &mut random;
    let mut passed = 0;

    // Any words of every length.
    let mut sound = [0; 2];
    for i in 0..420 * 12 {
        sound[same_check(&any_words(i / 12, 1 + i as u64 % 2, random), random, seed).is_some() as usize] += 1;
    }
    println!("any words: {} sound, {} not", sound[1], sound[0]);
    passed += 1;

    // Tables with every leftover in either collection, whole and damaged.
    let (mut kinds, mut second, mut sound) = ([0; 5], [0; 5], [0; 2]);
    for i in 0..size {
        let t = grown(if i % 4 == 0 { 40 } else { 12 }, 1 + i % 2, random);
        let s = same_check(&t, random, seed).expect("a grown table is sound");
        kinds[kind(s.leftover)] += 1;
        second[kind(s.leftover)] += (s.unfinished == 2) as u64;
        same_calls(&t, seed);
        for _ in 0..8 {
            sound[same_check(&damaged(&t, random), random, seed).is_some() as usize] += 1;
        }
    }
    all_met(&kinds, seed);
    println!("of these in the second collection {:?}; damaged tables: {} sound, {} not", &second[1..], sound[1], sound[0]);
    expect(second[1..].iter().chain(&sound).all(|&n| n > 0), seed, &[], || "a case was not met".into());
    passed += 1;

    // Every number of levels.
    for levels in 1..=16 {
        for _ in 0..20 {
            let free = random.below(3);
            let mut floor = |_| {
                let slots = random.below(12);
                Floor { slots: slots as usize, place: random.below(slots + 1) as usize }
            };
            let floors: Vec<Floor> = (0..levels).map(&mut floor).collect();
            let t = tower(&floors, free, random).t;
            let report = calls::check(&t, [0; 16]).1;
            expect(report[9] == free && report[12] == levels as u64, seed, &t, || format!("{levels} levels, {free} free nodes: {report:?}"));
            same_check(&t, random, seed);
        }
    }
    passed += 1;

    largest();
    passed += 1;
    println!("{passed} passed, 0 failed");
}
