//! Making, search and listing against the reference: on settled tables, on every leftover, on tables damaged in every field, on any words,
//! and on leaves joined in any way, for the next code up.
mod calls;
mod common;
mod reference;

use common::*;
use reference::*;

// ---- leaves joined in any way

/// Leaves with few slots or none, mostly joined to a ring, some with a sibling that is no leaf of the table, or none at all; the root is
/// one of them, or a node above one.
fn joined(random: &mut Random) -> Vec<u64> {
    let n = 1 + random.below(7);
    let mut t = make(n, 1);
    let sound_siblings = random.below(2) == 0;
    for i in 1..=n {
        let w = start(i);
        let sibling = match random.below(if sound_siblings { 8 } else { 12 }) {
            0..=6 => i % n + 1,
            7 => 1 + random.below(n),
            8 | 9 => 0,
            10 => n + 1,
            _ => MARK,
        };
        let level = (!sound_siblings && random.below(12) == 0) as u64;
        let fence = [0, 10 * i, random.below(100), MARK][random.below(4) as usize];
        t[w..w + 4].copy_from_slice(&[MARK, sibling, level, fence]);
        for s in 0..[0, 0, 1, 3, 12][random.below(5) as usize] {
            t[w + 8 + 2 * s] = [random.below(100), 10 * i + s as u64, MARK][random.below(3) as usize];
            // Now and then hidden.
            t[w + 9 + 2 * s] = if random.below(4) == 0 { before(&t, i, s) } else { 1 + random.below(1_000) };
        }
    }
    t[1] = 1 + random.below(n);
    if random.below(4) == 0 {
        let w = start(t[1]);
        t[w] = 1 + random.below(n);
        t[w + 2] = 1;
    }
    t
}

/// How often the neighbour was found or known to be none in the first leaf, and further on; and how often the search was refused by the
/// count of leaves alone, and otherwise.
#[derive(Debug, Default)]
struct Joined {
    found: [u64; 2],
    none: [u64; 2],
    too_many: u64,
    lost: u64,
}

impl Joined {
    fn tally(&mut self, t: &[u64], k: u64, answer: &Answer) {
        let further = || (next_up(t, last_leaf(t, 1, k).expect("a leaf").1, k).expect("a neighbour or none").1 > 1) as usize;
        let ring = (1..=t[2]).all(|i| node(t, i).level == 0 && (1..=t[2]).contains(&node(t, i).sibling));
        match answer {
            Answer::Found(..) => {}
            Answer::Absent(Some(_)) => self.found[further()] += 1,
            Answer::Absent(None) => self.none[further()] += 1,
            Answer::Refused(_) if ring => self.too_many += 1,
            Answer::Refused(_) => self.lost += 1,
        }
    }

    fn least(&self) -> u64 {
        *self.found.iter().chain(&self.none).chain([&self.too_many, &self.lost]).min().unwrap()
    }
}

fn main() {
    let (seed, size) = arguments(6_000);
    let mut random = Random(seed);
    let mut passed = 0;

    // Making: every length from 0 to some hundreds.
    for len in 0..600 {
        for collections in [1, 2, 0, 3, MARK] {
            let before: Vec<u64> = (0..len as u64).map(|w| w * 7 + 1).collect();
            let got = calls::make(&before, collections);
            let want = making(len, collections).map_or_else(|number| (number, before), |t| (0, t));
            expect(got == want, seed, &got.1, || format!("making {collections} collections in {len} words"));
        }
    }
    passed += 1;

    // Codes: random ones read and print back, and one character changed is judged as the form says.
    for _ in 0..100_000 {
        let letters = b"ABCDEFGHIJKLMNOPQRSTUVWXYZ0123456789";
        let mut code: Vec<u8> = (0..12).map(|i| letters[random.below([26, 26, 36, 36, 36, 10, 10, 10, 10, 10, 10, 10][i]) as usize + if i > 4 { 26 } else { 0 }]).collect();
        let value = |c: &u8| letters.iter().position(|l| l == c).map_or(0, |i| if i < 26 { i as u64 + 10 } else { i as u64 - 26 });
        let key = code[..5].iter().fold(0, |n, c| n * 36 + value(c)) * 10_000_000 + code[5..].iter().fold(0, |n, c| n * 10 + value(c));
        expect(calls::parse(&code) == (0, Some(key)), seed, &[key], || format!("reading {code:?}"));
        let (number, text) = calls::print(key);
        expect(number == 0 && text[..] == code[..], seed, &[key], || format!("printing {key}"));
        let (i, c) = (random.below(12) as usize, random.below(256) as u8);
        code[i] = c;
        let fits = if i < 2 { c.is_ascii_uppercase() } else if i < 5 { c.is_ascii_uppercase() || c.is_ascii_digit() } else { c.is_ascii_digit() };
        expect((calls::parse(&code).0 == 0) == fits, seed, &[c as u64], || format!("reading {code:?}"));
    }
    expect(calls::print(604_661_760_000_000) == (1, [0; 12]), seed, &[], || "the key after the last code".into());
    passed += 1;

    // Any words of every length.
    for len in 0..420 {
        for _ in 0..6 {
            let t = any_words(len, 1, &mut random);
            same_reading(&t, &mut random, seed);
        }
    }
    passed += 1;

    // Tables with every leftover, whole and damaged.
    let mut kinds = [0; 5];
    for i in 0..size {
        let t = grown(if i % 4 == 0 { 60 } else { 14 }, 1, &mut random);
        let tree = judge(&t).expect("a grown table is sound");
        kinds[kind(tree.leftover)] += 1;
        let ks = keys(&t, &mut random);
        for &k in tree.maps[0].keys().chain(&ks) {
            expect(search(&t, 1, k) == lookup(&tree.maps[0], k), seed, &t, || format!("the reference's search for {k} against its map"));
        }
        same_reading(&t, &mut random, seed);
        for _ in 0..8 {
            let d = damaged(&t, &mut random);
            same_reading(&d, &mut random, seed);
        }
    }
    all_met(&kinds, seed);
    passed += 1;

    // Leaves joined in any way.
    let mut met = Joined::default();
    for _ in 0..size {
        let t = joined(&mut random);
        let mut ks: Vec<u64> = keys(&t, &mut random);
        ks.extend((0..10).map(|_| random.below(100)));
        for k in ks {
            let answer = same_search(&t, 1, k, seed);
            met.tally(&t, k, &answer);
        }
    }
    println!("the neighbour of an absent key: {met:?}");
    expect(met.least() >= size / 2, seed, &[], || "a case of the neighbour was not met often enough".into());
    passed += 1;

    println!("{passed} passed, 0 failed");
}
