//! Packing as a call, against rules and a packing written from the texts of scale 2 and of request 5: every number of pairs about the
//! borders of a leaf and of a row, in one collection and in two, into just the nodes needed, one fewer and more; each refusal before those
//! after it, with nothing written; bad pairs of each kind at every place; old table words of any sort; the packed table searched, listed,
//! salvaged, inserted into and deleted from; recording numbers that crowd; 400,000 pairs.
mod calls;
mod common;
mod reference;

use common::*;
use reference::*;
use std::collections::HashSet;

/// How many nodes so many pairs take: 11 to a leaf, an empty leaf for none, 12 children to an inner node.
fn nodes_needed(pairs: usize) -> u64 {
    let mut row = pairs.div_ceil(11).max(1);
    let mut all = row;
    while row > 1 {
        row = row.div_ceil(12);
        all += row;
    }
    all as u64
}

/// What is wrong with the pairs of a slice. Half a pair is none.
#[derive(Clone, Copy, Debug, PartialEq)]
enum Fault {
    NotRising,
    NoRecording,
    NoClass,
    Twice,
}

fn fault(slice: &[u64]) -> Option<Fault> {
    let pairs: Vec<&[u64]> = slice.chunks_exact(2).collect();
    if pairs.windows(2).any(|w| w[1][0] <= w[0][0]) {
        return Some(Fault::NotRising);
    }
    if pairs.iter().any(|p| recording(p[1]) == 0) {
        return Some(Fault::NoRecording);
    }
    if pairs.iter().any(|p| class(p[1]) > MOST_CLASS) {
        return Some(Fault::NoClass);
    }
    let mut seen = HashSet::new();
    pairs.iter().any(|p| !seen.insert(recording(p[1]))).then_some(Fault::Twice)
}

/// The slices that are looked at, one for each collection.
fn slices<'a>(collections: u64, pairs: &'a [u64], loans: &'a [u64]) -> Vec<&'a [u64]> {
    [pairs, loans].into_iter().take(collections as usize).collect()
}

/// The table that must be there, with its maps, or the refusal number.
fn wanted(len: usize, collections: u64, pairs: &[u64], loans: &[u64]) -> Result<(Vec<u64>, Maps), u64> {
    making(len, collections)?;
    let n = nodes_for(len).expect("a table's length");
    let lent = slices(collections, pairs, loans);
    if lent.iter().map(|s| nodes_needed(s.len() / 2)).sum::<u64>() > n {
        return Err(10);
    }
    if lent.iter().any(|s| fault(s).is_some()) {
        return Err(25);
    }
    let maps: Maps = lent.iter().map(|s| s.chunks_exact(2).map(|p| (p[0], p[1])).collect()).collect();
    Ok((packed(n, &maps).expect("it fits"), maps))
}

#[derive(Default)]
struct Met {
    /// By number: 0, 2, 17, 10, 25.
    numbers: [u64; 5],
    /// Of accepted calls: with two collections, with a recording in both, with odd slices, with no node to spare.
    two: u64,
    shared: u64,
    odd: u64,
    full: u64,
}

/// The call's number and table are those wanted; a refusal leaves the table as it was.
fn same_pack(t: &[u64], collections: u64, pairs: &[u64], loans: &[u64], met: &mut Met, seed: u64) -> Option<(Vec<u64>, Maps)> {
    let want = wanted(t.len(), collections, pairs, loans);
    let got = calls::pack(t, collections, pairs, loans);
    let number = want.as_ref().err().copied().unwrap_or(0);
    let table = want.as_ref().map_or(t, |(new, _)| new);
    expect(got.0 == number && got.1 == table, seed, t, || {
        let part = |s: &[u64]| s[..s.len().min(60)].to_vec();
        format!("packing {} and {} words of {collections} collections: wanted {number}, got {}, the table {}; pairs {:?} loans {:?}", pairs.len(), loans.len(), got.0, got.1 == table, part(pairs), part(loans))
    });
    met.numbers[[0, 2, 17, 10, 25].iter().position(|&n| n == number).expect("a number of this call")] += 1;
    let (new, maps) = want.ok()?;
    let recordings = |map: &Map| -> HashSet<u64> { map.values().map(|&p| recording(p)).collect() };
    met.two += (collections == 2) as u64;
    met.shared += (collections == 2 && !recordings(&maps[0]).is_disjoint(&recordings(&maps[1]))) as u64;
    met.odd += slices(collections, pairs, loans).iter().any(|s| s.len() % 2 == 1) as u64;
    met.full += (maps.iter().map(|m| nodes_needed(m.len())).sum::<u64>() == new[2]) as u64;
    Some((new, maps))
}

/// Words of a table's length that no header is in, or a table that was in use.
fn old_words(n: u64, random: &mut Random) -> Vec<u64> {
    let len = 8 + 32 * n as usize;
    match random.below(4) {
        0 => vec![MARK; len],
        1 if n > 0 => make(n, 1),
        2 => any_words(len, 2, random),
        _ => (0..len).map(|_| random.next()).collect(),
    }
}

/// So many pairs in order. Keys are dense, scattered or at the ends; recordings are all different.
fn some_pairs(count: usize, random: &mut Random) -> Vec<u64> {
    let step = [1, 3, 1 << 40][random.below(3) as usize];
    let first = random.below(5);
    let mut numbers = HashSet::new();
    let mut pairs = Vec::new();
    for i in 0..count as u64 {
        let r = loop {
            let r = if random.below(2) == 0 { 1 + random.below(4 * count as u64) } else { 1 + random.below(MOST_RECORDING) };
            if numbers.insert(r) {
                break r;
            }
        };
        let last = i + 1 == count as u64 && random.below(3) == 0;
        pairs.extend([if last { MARK } else { first + i * step }, pointer(r, random.below(3))]);
    }
    pairs
}

/// A packed table is settled with these maps; searches and listings agree, a salvage packs it as it is, and writes go on from it.
fn goes_on(t: &[u64], maps: &Maps, random: &mut Random, seed: u64) {
    let settled = judge(t).is_some_and(|x| x.maps == *maps && x.leftover == Leftover::Nothing);
    expect(settled, seed, t, || "the packed table is not settled with the pairs".into());
    expect(answers(t, maps, &around([maps])), seed, t, || "a search of the packed table does not answer as the pairs".into());
    same_reading(t, random, seed);
    for (map, c) in maps.iter().zip(1..) {
        let (n, counts, out) = calls::list(t, c, 0, MARK, &vec![7; 2 * map.len()]);
        let flat: Vec<u64> = map.iter().flat_map(|(&k, &p)| [k, p]).collect();
        expect(n == 0 && counts == [Some(map.len() as u64), Some(0)] && out == flat, seed, t, || "the packed table does not list the pairs".into());
    }
    let (n, dropped, out, _) = calls::salvage(t, &vec![3; t.len()], &vec![9; 36 * t[2] as usize]);
    expect(n == 0 && dropped == Some(0) && out == t, seed, t, || "a salvage of the packed table is another table".into());
    let repaired = calls::repair(t, &[0; LIST_WORDS], ORDERED);
    expect(repaired.counts == [Some(0); 3] && repaired.table == t, seed, t, || "the packed table has something to repair".into());
    let (mut t, list) = (t.to_vec(), vec![0; LIST_WORDS]);
    for i in 0..24 {
        let call = some_call(&t, [60, MARK][random.below(2) as usize], i % 12 > 7, random);
        t = same_write(&t, &list, ORDERED, call, seed).0.table;
    }
}

/// Numbers of pairs about the borders of a leaf, a row and a level; and of nodes: one too few, just enough, some to spare.
fn every_size(met: &mut Met, random: &mut Random, seed: u64) {
    const COUNTS: [usize; 22] = [0, 1, 2, 10, 11, 12, 13, 21, 22, 23, 120, 121, 122, 131, 132, 133, 143, 144, 1451, 1452, 1584, 1585];
    for (i, count) in COUNTS.into_iter().enumerate() {
        let (pairs, needed) = (some_pairs(count, random), nodes_needed(count));
        for n in [needed - 1, needed, needed + 1, needed + 40] {
            let old = old_words(n, random);
            // A last word that is no pair; a second slice that is not looked at.
            for tail in [vec![], vec![0], vec![MARK]] {
                let accepted = same_pack(&old, 1, &[&pairs[..], &tail].concat(), &[5, 5, 5, 0, 5, 5, 1], met, seed);
                expect(accepted.is_some() == (n >= needed), seed, &[], || format!("{count} pairs into {n} nodes"));
                if let (Some((t, maps)), true) = (accepted, tail.is_empty() && n > needed) {
                    goes_on(&t, &maps, random, seed);
                }
            }
        }
        let other = COUNTS[(5 * i + 3) % COUNTS.len()];
        let (loans, both) = (some_pairs(other, random), needed + nodes_needed(other));
        for n in [both - 1, both, both + 1, both + 40] {
            let old = old_words(n, random);
            let accepted = same_pack(&old, 2, &pairs, &[&loans[..], &[3][..count % 2]].concat(), met, seed);
            expect(accepted.is_some() == (n >= both), seed, &[], || format!("{count} and {other} pairs into {n} nodes"));
            if let (Some((t, maps)), true) = (accepted, n > both) {
                goes_on(&t, &maps, random, seed);
            }
        }
        // The same recordings, and the same pairs, in both collections.
        same_pack(&old_words(2 * needed, random), 2, &pairs, &pairs, met, seed);
    }
    // With no pairs the table is the one that is made.
    for c in [1, 2] {
        let made = calls::pack(&old_words(9, random), c, &[], &[]);
        expect(made == calls::make(&vec![1; 8 + 32 * 9], c), seed, &[], || "without pairs the table is not the empty one".into());
    }
}

/// A slice spoilt at a place.
fn spoilt(pairs: &[u64], at: usize, kind: u64, random: &mut Random) -> Vec<u64> {
    let (mut p, count) = (pairs.to_vec(), pairs.len() as u64 / 2);
    let other = 2 * random.below(count) as usize;
    let k = 2 * at;
    match kind {
        0 => p[k] = p[other],
        1 => p[k] = random.below(p[k].max(1)),
        2 => p[k] = p[k].wrapping_add(1 + random.below(3)),
        3 => p[k + 1] = pointer(0, random.below(3)),
        4 => p[k + 1] = pointer(recording(p[k + 1]), [3, 4, 128, 255][random.below(4) as usize]),
        5 => p[k + 1] = p[other + 1],
        6 => p[k + 1] = pointer(recording(p[other + 1]), random.below(3)),
        7 => p[k + 1] = [0, MARK, 1 << CLASS][random.below(3) as usize],
        _ => p.swap(k, other),
    }
    p
}

/// Each kind of a bad pair at each place, in either slice.
fn every_fault(met: &mut Met, random: &mut Random, seed: u64) {
    let mut faults = [0u64; 4];
    for count in [1, 2, 11, 12, 40] {
        let (good, n) = (some_pairs(count, random), 2 * nodes_needed(40));
        let t = old_words(n, random);
        for at in 0..count {
            for kind in 0..9 {
                let bad = spoilt(&good, at, kind, random);
                if let Some(f) = fault(&bad) {
                    faults[[Fault::NotRising, Fault::NoRecording, Fault::NoClass, Fault::Twice].iter().position(|&x| x == f).unwrap()] += 1;
                }
                same_pack(&t, 1, &bad, &good, met, seed);
                same_pack(&t, 2, &bad, &good, met, seed);
                same_pack(&t, 2, &good, &bad, met, seed);
                // Not looked at.
                same_pack(&t, 1, &good, &bad, met, seed);
            }
        }
    }
    println!("bad pairs: not rising {}, recording 0 {}, class out of range {}, recording twice {}", faults[0], faults[1], faults[2], faults[3]);
    expect(faults.iter().all(|&n| n > 30), seed, &[], || "a kind of bad pairs hardly came up".into());
}

/// Any length, number of collections, number of pairs and fault at once: the first number that holds is answered.
fn any_calls(count: u64, met: &mut Met, random: &mut Random, seed: u64) {
    for _ in 0..count {
        let n = 1 + random.below(5);
        let mut t = old_words(n, random);
        if random.below(6) == 0 {
            t.resize((t.len() as i64 + [-1, 1, 16, -32, 31][random.below(5) as usize]).max(0) as usize, 7);
        }
        let collections = if random.below(8) == 0 { any_collection(random) } else { 1 + random.below(2) };
        let most = if random.below(4) == 0 { 60 } else { 11 * n };
        let some = |random: &mut Random| {
            let count = random.below(most) as usize;
            let pairs = some_pairs(count, random);
            if pairs.is_empty() || random.below(3) > 0 {
                return pairs;
            }
            let (at, kind) = (random.below(pairs.len() as u64 / 2) as usize, random.below(9));
            spoilt(&pairs, at, kind, random)
        };
        let (mut pairs, mut loans) = (some(random), some(random));
        // A last word that is no pair.
        pairs.extend((random.below(4) == 0).then_some(random.below(3)));
        loans.extend((random.below(4) == 0).then_some(MARK));
        if let Some((t, maps)) = same_pack(&t, collections, &pairs, &loans, met, seed) {
            if random.below(20) == 0 {
                goes_on(&t, &maps, random, seed);
            }
        }
    }
}

/// A number scattered over all recordings; different for different numbers.
fn scattered(i: u64) -> u64 {
    recording((i + 1).wrapping_mul(0x9e37_79b9_7f4a_7c15) ^ 0x1234_5678)
}

/// A kind of recording numbers: its name, the numbers by their order, and how many pairs.
type Kind = (&'static str, fn(u64) -> u64, u64);

const KINDS: [Kind; 8] = [
    ("1, 2, 3 ..", |i| 1 + i, 400_000),
    ("falling from the largest", |i| MOST_RECORDING - i, 100_000),
    ("in steps of 1,000", |i| 1_000 * (1 + i), 100_000),
    ("in steps of a prime that places are counted by", |i| 32_749 * (1 + i), 100_000),
    ("random", scattered, 400_000),
    // Those of the last three fall into one place: each is compared with all after it.
    ("in steps of the first prime that numbers are divided by", |i| 2_147_483_647 * (1 + i), 3_000),
    ("half of them so, half random", |i| if i % 2 == 0 { 2_147_483_647 * (1 + i) } else { scattered(i) }, 6_000),
    ("some of them so, among many", |i| if i % 50 == 0 { 2_147_483_647 * (1 + i) } else { scattered(i) }, 10_000),
];

/// Large slices, all different and with one number twice; with the time of the call.
fn large((name, number, count): Kind, random: &mut Random, seed: u64) {
    let mut pairs: Vec<u64> = (0..count).flat_map(|i| [3 * i, pointer(number(i), i % 3)]).collect();
    let n = nodes_needed(count as usize);
    let mut t: Vec<u64> = (0..8 + 32 * n).collect();
    let want = wanted(t.len(), 1, &pairs, &[]).expect("accepted").0;
    let (got, took) = calls::pack_takes(&mut t, 1, &pairs, &[]);
    expect(got == 0 && t == want, seed, &[], || format!("{count} pairs, recordings {name}: {got}"));
    let mut slowest = took;
    for _ in 0..3 {
        let (a, b) = (random.below(count), random.below(count));
        if a != b {
            let old = pairs[2 * b as usize + 1];
            pairs[2 * b as usize + 1] = pointer(number(a), random.below(3));
            let (got, took) = calls::pack_takes(&mut t, 1, &pairs, &[]);
            expect(got == 25 && t == want, seed, &[], || format!("{count} pairs, recordings {name}, {a} again at {b}: {got}"));
            (pairs[2 * b as usize + 1], slowest) = (old, slowest.max(took));
        }
    }
    println!("{count} pairs, recordings {name}: {:.0} ms, at most {:.0} ms with one twice", took.as_secs_f64() * 1e3, slowest.as_secs_f64() * 1e3);
}

/// More pairs than any table holds, which are then not looked at: these words are never touched.
fn too_many(seed: u64) {
    let many = vec![0u64; 2 * (16_777_216 + 1)];
    for (pairs, loans) in [(&many[..], &[][..]), (&[], &many), (&many, &many), (&many[..2 * 720_000], &[]), (&many[..2 * 16_777_216 + 1], &[])] {
        for (n, collections) in [(1, 1), (65_535, 1), (65_535, 2)] {
            let mut t = vec![9; 8 + 32 * n];
            // Of the second slice, in a table of one collection, nothing is seen; no pairs at all fit.
            let number = if collections == 1 && pairs.is_empty() { 0 } else { 10 };
            let (got, _) = calls::pack_takes(&mut t, collections, pairs, loans);
            expect(got == number && (number == 0 || t.iter().all(|&w| w == 9)), seed, &[], || format!("{} and {} words into {n} nodes: {got}", pairs.len(), loans.len()));
        }
    }
}

fn main() {
    let (seed, size) = arguments(100_000);
    let (mut random, mut met) = (Random(seed), Met::default());
    every_size(&mut met, &mut random, seed);
    every_fault(&mut met, &mut random, seed);
    any_calls(size, &mut met, &mut random, seed);
    for kind in KINDS {
        large(kind, &mut random, seed);
    }
    too_many(seed);
    let [done, two, seventeen, ten, bad] = met.numbers;
    println!("answered 0: {done}, 2: {two}, 17: {seventeen}, 10: {ten}, 25: {bad}; of two collections {}, a recording in both {}, odd {}, no node to spare {}", met.two, met.shared, met.odd, met.full);
    let all = met.numbers.iter().chain(&[met.two, met.shared, met.odd, met.full]).all(|&n| n > size / 200);
    expect(all, seed, &[], || "a case hardly came up".into());
    println!("5 passed, 0 failed");
}
