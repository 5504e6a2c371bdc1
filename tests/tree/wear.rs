//! Wear figures, against figures counted here from request 12's text: lists of the calls' own orders, lists of any orders, tables of any
//! words, slices of every length about the one needed; each refusal in its order; lists of a million orders.
mod calls;
mod common;
mod reference;

use calls::Wore;
use common::*;
use reference::*;
use std::collections::{BTreeMap, BTreeSet};
use std::time::Duration;

/// The stores to each line, and the words that have a store as pairs of offset and length.
struct Figures {
    total: u64,
    by_line: BTreeMap<u64, u64>,
    extents: Vec<(u64, u64)>,
}

/// A barrier's two words.
const BETWEEN: [u64; 2] = [BARRIER, 0];

/// Each two words are an order; a single last word is none. Flushes and barriers count for nothing.
fn figures(list: &[u64]) -> Figures {
    let stored: Vec<u64> = list.chunks_exact(2).filter(|o| o[0] != MARK && *o != BETWEEN).map(|o| o[0]).collect();
    let mut by_line = BTreeMap::new();
    for w in &stored {
        *by_line.entry(w / 8).or_insert(0) += 1;
    }
    let mut extents: Vec<(u64, u64)> = vec![];
    for w in stored.iter().copied().collect::<BTreeSet<u64>>() {
        match extents.last_mut() {
            Some((offset, length)) if *offset + *length == w => *length += 1,
            _ => extents.push((w, 1)),
        }
    }
    Figures { total: stored.len() as u64, by_line, extents }
}

/// Every order lies in a table of so many words, as a barrier does in each.
fn inside(words: usize, list: &[u64]) -> bool {
    let words = words as u64;
    list.chunks_exact(2).all(|o| *o == BETWEEN || if o[0] == MARK { o[1] < words / 8 } else { o[0] < words })
}

/// What the call must leave.
fn wanted(t: &[u64], list: &[u64], lines: &[u64], extents: &[u64]) -> Wore {
    let refused = |number| Wore { number, figures: [None; 4], lines: lines.to_vec(), extents: extents.to_vec() };
    if !header_ok(t) {
        return refused(2);
    }
    if !inside(t.len(), list) {
        return refused(13);
    }
    let f = figures(list);
    let pairs: Vec<u64> = f.extents.iter().flat_map(|&(offset, length)| [offset, length]).collect();
    if lines.len() < t.len() / 8 || extents.len() < pairs.len() {
        return refused(24);
    }
    let mut want = refused(0);
    for l in 0..t.len() / 8 {
        want.lines[l] = f.by_line.get(&(l as u64)).copied().unwrap_or(0);
    }
    want.extents[..pairs.len()].copy_from_slice(&pairs);
    let largest = f.by_line.values().max().copied().unwrap_or(0);
    let first = f.by_line.iter().find(|(_, &n)| n == largest).map_or(0, |(&l, _)| l);
    want.figures = [f.total, largest, first, f.extents.len() as u64].map(Some);
    want
}

#[derive(Default)]
struct Met {
    /// By number: 0, 2, 13, 24.
    numbers: [u64; 4],
    longest: usize,
    most_pairs: u64,
    no_store: u64,
    one_pair: u64,
    odd: u64,
    every_line: u64,
    barriers: u64,
}

fn same_wear(t: &[u64], list: &[u64], lines: &[u64], extents: &[u64], met: &mut Met, seed: u64) -> Wore {
    let want = wanted(t, list, lines, extents);
    let got = calls::wear(t, list, lines, extents);
    expect(got == want, seed, t, || {
        let part = &list[..list.len().min(60)];
        format!("{} words for lines, {} for pairs: wanted {} {:?}, got {} {:?}; list {part:?}", lines.len(), extents.len(), want.number, want.figures, got.number, got.figures)
    });
    let place = [0, 2, 13, 24].iter().position(|&n| n == want.number).expect("a number of this call");
    met.numbers[place] += 1;
    if let [Some(total), _, _, Some(pairs)] = want.figures {
        met.longest = met.longest.max(list.len() / 2);
        met.most_pairs = met.most_pairs.max(pairs);
        met.no_store += (total == 0) as u64;
        met.one_pair += (pairs == 1) as u64;
        met.odd += (list.len() % 2) as u64;
        met.barriers += list.chunks_exact(2).any(|o| *o == BETWEEN) as u64;
        met.every_line += want.lines[..t.len() / 8].iter().all(|&n| n > 0) as u64;
    }
    want
}

/// Words to lend, with contents by which a stray store is seen.
fn filled(len: usize, random: &mut Random) -> Vec<u64> {
    (0..len).map(|_| random.next()).collect()
}

/// With slices of just the length needed, one shorter, longer, and of any length.
fn all_lengths(t: &[u64], list: &[u64], met: &mut Met, random: &mut Random, seed: u64) {
    let (of_lines, of_pairs) = (t.len() / 8, 2 * figures(list).extents.len());
    let more = random.below(20) as usize;
    let some = random.below(of_lines as u64 + of_pairs as u64 + 1) as usize;
    for (a, b) in [(of_lines, of_pairs), (of_lines + more, of_pairs + more), (of_lines, of_pairs + 1), (of_lines.saturating_sub(1), of_pairs + more), (of_lines + more, of_pairs.saturating_sub(1)), (some, of_pairs), (of_lines, some), (0, 0)] {
        same_wear(t, list, &filled(a, random), &filled(b, random), met, seed);
    }
}

/// A list of orders inside a table of so many words: single words, runs of words rising or falling, words again and again, flushes, barriers.
fn some_list(words: usize, most: u64, random: &mut Random) -> Vec<u64> {
    let words = words as u64;
    let mut list = vec![];
    let few: Vec<u64> = (0..1 + random.below(6)).map(|_| random.below(words)).collect();
    for _ in 0..random.below(most) {
        match random.below(9) {
            0 => list.extend([MARK, random.below(words / 8)]),
            8 => list.extend(BETWEEN),
            1 => {
                let (from, length) = (random.below(words), 1 + random.below(40));
                (from..words.min(from + length)).for_each(|w| list.extend([w, w]));
            }
            2 => {
                let (from, length) = (random.below(words), 1 + random.below(20));
                (from.saturating_sub(length)..=from).rev().for_each(|w| list.extend([w, MARK]));
            }
            3 | 4 => list.extend([few[random.below(few.len() as u64) as usize], random.next()]),
            5 => list.extend([[0, 7, 8, words - 1, words / 2][random.below(5) as usize], 0]),
            _ => list.extend([random.below(words), random.next()]),
        }
    }
    if random.below(3) == 0 {
        list.push([0, MARK, words, random.next()][random.below(4) as usize]);
    }
    list
}

/// One order of the list, if it has any, put outside a table of so many words.
fn with_stray(list: &[u64], words: usize, random: &mut Random) -> Vec<u64> {
    let mut stray = list.to_vec();
    let words = words as u64;
    let order = match random.below(6) {
        0 => [words, 0],
        1 => [MARK, words / 8],
        2 => [MARK, MARK],
        // A barrier's first word with another second one.
        3 => [BARRIER, 1 + random.below(MARK)],
        4 => [words + random.below(MARK - words), random.next()],
        _ => [MARK, words / 8 + random.below(MARK - words / 8)],
    };
    if stray.len() < 2 {
        stray = order.to_vec();
    } else {
        let orders = stray.len() / 2;
        let at = [0, orders - 1, random.below(orders as u64) as usize][random.below(3) as usize];
        stray[2 * at..2 * at + 2].copy_from_slice(&order);
    }
    stray
}

/// A table with as many collections as it may have, or with one.
fn some_table(most: u64, random: &mut Random) -> Vec<u64> {
    let n = 1 + random.below(most);
    make(n, 1 + random.below(n.min(2)))
}

/// The orders that a working copy's writes answered, for one dock or the other, one list after another.
fn of_writes(random: &mut Random) -> (Vec<u64>, Vec<u64>) {
    let mut t = some_table(30, random);
    let mut list = vec![];
    let span = [30, 200, MARK][random.below(3) as usize];
    for i in 0..random.below(300) {
        let call = some_call(&t, span, i / 30 % 3 == 2, random);
        if let Ok(w) = write(&t, LIST_WORDS, ORDERED, call) {
            let dock = [ORDERED, UNORDERED][random.below(2) as usize];
            list.extend(encode(&orders(&w.stores, dock)));
            store(&mut t, &w.stores);
        }
    }
    (t, list)
}

/// Each of the refusals holds or not, in every combination: the first that holds is answered. (24 for the pairs asks for a list inside.)
fn every_refusal(met: &mut Met, random: &mut Random, seed: u64) {
    let t = some_table(20, random);
    // At least one store, so that pairs are needed.
    let list = [vec![t.len() as u64 - 1, 5], some_list(t.len(), 40, random)].concat();
    for holds in 0..16 {
        let [two, thirteen, lines, pairs] = std::array::from_fn(|i| holds >> i & 1 == 1);
        let table = if two { any_of(&t, random) } else { t.clone() };
        let orders = if thirteen { with_stray(&list, t.len(), random) } else { list.clone() };
        let needed = 2 * figures(&list).extents.len();
        let a = filled(t.len() / 8 - lines as usize, random);
        let b = filled(if pairs { needed - 1 } else { needed }, random);
        let got = same_wear(&table, &orders, &a, &b, met, seed);
        let first = if two { 2 } else if thirteen { 13 } else if lines || pairs { 24 } else { 0 };
        expect(got.number == first, seed, &table, || format!("2, 13, 24 by lines, 24 by pairs: {two} {thirteen} {lines} {pairs}; answered {}", got.number));
    }
}

/// The table with a header, a root or a length that is refused.
fn any_of(t: &[u64], random: &mut Random) -> Vec<u64> {
    let mut bad = t.to_vec();
    match random.below(6) {
        0 => bad[0] = [0, 2, MARK][random.below(3) as usize],
        1 => bad[1] = [0, t[2] + 1, MARK][random.below(3) as usize],
        2 => bad[2] = [0, t[2] + 1, MARK][random.below(3) as usize],
        3 if random.below(2) == 0 => bad[3] = [t[2] + 1, MARK][random.below(2) as usize],
        3 => bad[4 + random.below(4) as usize] = 1,
        4 => bad.truncate(random.below(t.len() as u64) as usize / 32 * 32 + 7),
        _ => bad.push(0),
    }
    bad
}

/// A list of a million orders on a table of n nodes: the figures, and that the time is near linear. A quadratic way would take hours.
fn long_list(n: u64, name: &str, next: impl Fn(u64, &mut Random) -> [u64; 2], met: &mut Met, random: &mut Random, seed: u64) {
    let t = make(n, 1);
    let words = t.len() as u64;
    let list: Vec<u64> = (0..1_000_000).flat_map(|_| next(words, random)).collect();
    let (mut lines, mut extents) = (filled(t.len() / 8, random), filled(t.len() + 2, random));
    same_wear(&t, &list, &lines, &extents, met, seed);
    let took = calls::wear_takes(&t, &list, &mut lines, &mut extents);
    println!("{name}, {n} nodes, a million orders: {:.1} ms", took.as_secs_f64() * 1000.0);
    expect(took < Duration::from_secs(5), seed, &[], || format!("{name}: {took:?}"));
}

fn main() {
    let (seed, size) = arguments(1000);
    let (mut random, mut met) = (Random(seed), Met::default());
    for i in 0..size {
        let (t, list) = of_writes(&mut random);
        if i % 10 == 0 {
            all_lengths(&t, &list, &mut met, &mut random, seed);
        }
        // Any words with a right header serve: only the header is looked at.
        let collections = 1 + random.below(2);
        let t = match random.below(3) {
            0 => grown(12, collections, &mut random),
            1 => damaged(&grown(6, collections, &mut random), &mut random),
            _ => any_words(8 + 32 * (1 + random.below(40) as usize), collections, &mut random),
        };
        let list = some_list(t.len(), [2, 20, 400][random.below(3) as usize], &mut random);
        all_lengths(&t, &list, &mut met, &mut random, seed);
        let stray = with_stray(&list, t.len(), &mut random);
        same_wear(&t, &stray, &filled(t.len(), &mut random), &filled(t.len() + 1, &mut random), &mut met, seed);
        // A last word that is no order is not looked at.
        let even = &list[..list.len() / 2 * 2];
        for last in [0, MARK, t.len() as u64] {
            same_wear(&t, &[even, &[last]].concat(), &filled(t.len() / 8, &mut random), &filled(t.len() + 1, &mut random), &mut met, seed);
        }
        // Any length of a table.
        let other = any_words(random.below(400) as usize, collections, &mut random);
        same_wear(&other, &list, &filled(60, &mut random), &filled(500, &mut random), &mut met, seed);
        every_refusal(&mut met, &mut random, seed);
    }
    for n in [1, 2, 65_535] {
        let t = make(n, 1);
        let words = t.len() as u64;
        let lists: [Vec<u64>; 6] = [
            vec![],
            BETWEEN.repeat(50),
            (0..words / 8).flat_map(|l| [MARK, l]).collect(),
            (0..words).rev().flat_map(|w| [w, w]).collect(),
            (0..words / 2).flat_map(|i| [2 * i, i]).collect(),
            (0..words).filter(|w| w % 8 != 7).flat_map(|w| [w, 1]).collect(),
        ];
        for list in lists {
            all_lengths(&t, &list, &mut met, &mut random, seed);
        }
    }
    long_list(65_535, "stores anywhere", |words, random| [random.below(words), 1], &mut met, &mut random, seed);
    long_list(65_535, "stores to one line, and flushes", |_, random| if random.below(9) == 0 { [MARK, 5] } else { [40 + random.below(8), 1] }, &mut met, &mut random, seed);
    long_list(65_535, "stores and barriers", |words, random| if random.below(2) == 0 { BETWEEN } else { [random.below(words), 1] }, &mut met, &mut random, seed);
    long_list(1, "stores anywhere", |words, random| [random.below(words), 1], &mut met, &mut random, seed);
    println!("answered 0: {}, 2: {}, 13: {}, 24: {}", met.numbers[0], met.numbers[1], met.numbers[2], met.numbers[3]);
    println!("longest list {}, most pairs {}; no store {}, one pair {}, odd lists {}, with barriers {}, every line worn {}", met.longest, met.most_pairs, met.no_store, met.one_pair, met.odd, met.barriers, met.every_line);
    let all = met.numbers.iter().all(|&n| n > size) && met.longest >= 1_000_000 && met.most_pairs > 1_000_000;
    expect(all && [met.no_store, met.one_pair, met.odd, met.barriers, met.every_line].iter().all(|&n| n > 10), seed, &[], || "a case was not met".into());
    println!("1 passed, 0 failed");
}
