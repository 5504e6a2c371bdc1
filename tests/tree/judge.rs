//! Judging order lists, against a judge written from document 02's text and document 01's cut rule: it builds every image of a cut after every
//! count of orders. Our lists, and lists spoilt in every way that a supplier or a student may think of.
mod calls;
mod common;
mod reference;

use common::*;
use reference::*;
use std::collections::BTreeSet;

/// The lines that hold unflushed stores.
fn unflushed(happened: &[Order]) -> BTreeSet<u64> {
    let mut lines = BTreeSet::new();
    for o in happened {
        match *o {
            Order::Store(w, _) => {
                lines.insert((w / 8) as u64);
            }
            Order::Flush(l) => {
                lines.remove(&l);
            }
            Order::Barrier => {}
        }
    }
    lines
}

/// The maps of a table, and whether it is settled, if it is sound; any header may have been stored.
fn held(m: &[u64]) -> Option<(Maps, bool)> {
    if !header_ok(m) {
        return None;
    }
    judge(m).map(|s| (s.maps, s.leftover == Leftover::Nothing))
}

/// Whether these orders, all or the first of a list, are as request 9 asks of a count.
fn count_holds(t: &[u64], happened: &[Order], all: bool, old: &Maps, new: &Maps) -> bool {
    if unflushed(happened).len() > 1 {
        return false;
    }
    let fair = |m: &Vec<u64>| held(m).is_some_and(|(maps, _)| maps == *old || maps == *new);
    if !images(t, happened, ORDERED).iter().all(fair) {
        return false;
    }
    let mut whole = t.to_vec();
    happened.iter().for_each(|o| if let Order::Store(w, x) = *o { whole[w] = x });
    !all || unflushed(happened).is_empty() && held(&whole) == Some((new.clone(), true))
}

/// Yes is None, no has the first count that fails; or the refusal number.
fn verdict(t: &[u64], list: &[u64], out: usize, call: Call) -> Result<Option<usize>, u64> {
    if !header_ok(t) {
        return Err(2);
    }
    if call.collection().is_some_and(|n| no_collection(t, n)) {
        return Err(17);
    }
    let sound = judge(t).ok_or(4u64)?;
    if sound.leftover != Leftover::Nothing {
        return Err(20);
    }
    carry_out(t, list, (list.len() / 2) as u64)?;
    if out != t.len() {
        return Err(15);
    }
    write_judged(t, &sound, LIST_WORDS, ORDERED, call).map_err(|_| 21u64)?;
    let orders: Vec<Order> = list.chunks_exact(2).map(order).collect();
    let new = changed(&sound.maps, call);
    Ok((0..=orders.len()).find(|&c| !count_holds(t, &orders[..c], c == orders.len(), &sound.maps, &new)))
}

/// The call's answer, and the second slice after it, as the verdict asks.
fn same_verdict(t: &[u64], list: &[u64], out: &[u64], call: Call, seed: u64, what: &str) -> Result<Option<usize>, u64> {
    let want = verdict(t, list, out.len(), call);
    let all = (list.len() / 2) as u64;
    let (number, count, second) = match want {
        Ok(None) => (0, None, carry_out(t, list, all).unwrap()),
        Ok(Some(c)) => (254, Some(c as u64), carry_out(t, list, c as u64).unwrap()),
        Err(n) => (n, None, out.to_vec()),
    };
    let got = match call {
        Call::Insert(n, k, r, c) => calls::judge(t, list, out, n, k, Some((r, c))),
        Call::Delete(n, k) => calls::judge(t, list, out, n, k, None),
        _ => panic!("no call that is judged: {call:?}"),
    };
    expect(got.0 == number && got.1 == count, seed, t, || format!("{what}, {call:?}: wanted {want:?}, got {:?} {:?}; list {list:?}", got.0, got.1));
    expect(got.2 == second, seed, t, || format!("{what}, {call:?}: {want:?}, but another second slice; list {list:?}"));
    want
}

/// A settled table of one collection or two.
fn settled(collections: u64, random: &mut Random) -> Vec<u64> {
    let t = grown(6, collections, random);
    write(&t, LIST_WORDS, ORDERED, Call::Repair).map_or(t, |w| w.t)
}

/// An insertion or a deletion that the table accepts; if asked for one that frees a leaf, once others were made, if any does.
fn accepted(t: &mut Vec<u64>, frees: bool, random: &mut Random) -> Option<Call> {
    let n = some_collection(t, random);
    while frees {
        let Some(k) = scarce_key(t, n, random) else { break };
        let call = Call::Delete(n, k);
        let after = write(t, LIST_WORDS, ORDERED, call).ok()?.t;
        if unreachable(&after).len() > unreachable(t).len() {
            return Some(call);
        }
        *t = after;
    }
    for _ in 0..20 {
        let call = some_call(t, 300, random.below(2) == 0, random);
        if matches!(call, Call::Insert(..) | Call::Delete(..)) && write(t, LIST_WORDS, ORDERED, call).is_ok() {
            return Some(call);
        }
    }
    None
}

/// Another word in the place of one that a store has.
fn other_word(t: &[u64], x: u64, random: &mut Random) -> u64 {
    match random.below(4) {
        0 => 0,
        1 => MARK,
        2 => x.wrapping_add(1),
        _ => t[random.below(t.len() as u64) as usize],
    }
}

/// The places of the stores, and of the flushes, in a list.
fn places(os: &[Order], stores: bool) -> Vec<usize> {
    (0..os.len()).filter(|&i| matches!(os[i], Order::Store(..)) == stores && os[i] != Order::Barrier).collect()
}

fn one_of<T: Copy>(xs: &[T], random: &mut Random) -> Option<T> {
    (!xs.is_empty()).then(|| xs[random.below(xs.len() as u64) as usize])
}

/// Where no line holds unflushed stores: before the first order, and behind each flush of our lists.
fn gaps(os: &[Order]) -> Vec<usize> {
    (0..=os.len()).filter(|&i| unflushed(&os[..i]).is_empty()).collect()
}

/// A store and the flush of its line, put in at a place.
fn put_in(os: &mut Vec<Order>, at: usize, w: usize, x: u64) {
    os.splice(at..at, [Order::Store(w, x), Order::Flush((w / 8) as u64)]);
}

const WAYS: [&str; 16] = [
    "a store dropped",
    "two stores swapped",
    "a flush dropped",
    "flushes at the end only",
    "a key before its pointer",
    "linked before the last line is flushed",
    "a store to the other collection",
    "a harmless store to a free node",
    "no orders",
    "done, undone and done again",
    "done and undone",
    "another value",
    "a store to the header",
    "what changes nothing",
    "cut short",
    "any order of the orders",
];

/// Our list, spoilt in one of the ways; None if the way does not apply.
fn spoilt(way: usize, t: &[u64], os: &[Order], call: Call, random: &mut Random) -> Option<Vec<Order>> {
    let mut list = os.to_vec();
    let (stores, flushes) = (places(os, true), places(os, false));
    match way {
        0 => {
            list.remove(one_of(&stores, random)?);
        }
        1 => {
            let i = random.below(stores.len() as u64) as usize;
            let near = if random.below(2) == 0 { (i + 1) % stores.len() } else { random.below(stores.len() as u64) as usize };
            list.swap(stores[i], stores[near]);
        }
        2 => {
            list.remove(one_of(&flushes, random)?);
        }
        3 => {
            let lines: BTreeSet<u64> = os.iter().filter_map(|o| if let Order::Flush(l) = *o { Some(l) } else { None }).collect();
            list.retain(|o| !matches!(o, Order::Flush(_)));
            list.extend(lines.into_iter().map(Order::Flush));
        }
        4 => {
            let pairs: Vec<usize> = stores.iter().copied().filter(|&i| matches!((os[i], os.get(i + 1)), (Order::Store(w, _), Some(&Order::Store(v, _))) if w == v + 1)).collect();
            let i = one_of(&pairs, random)?;
            list.swap(i, i + 1);
        }
        5 => {
            let links: Vec<usize> = stores.iter().copied().filter(|&i| i > 0 && matches!(os[i], Order::Store(w, _) if w > 8 && w % 32 == 9) && matches!(os[i - 1], Order::Flush(_))).collect();
            let i = one_of(&links, random)?;
            list.swap(i - 1, i);
        }
        6 => {
            let n = 3 - call.collection()?;
            let tree: Vec<u64> = judge(t)?.reached.into_keys().filter(|i| tree_of(t, n).contains(i)).collect();
            let node = one_of(&tree, random)?;
            let w = start(node) + random.below(32) as usize;
            put_in(&mut list, one_of(&gaps(os), random)?, w, other_word(t, t[w], random));
        }
        7 => {
            let mut after = t.to_vec();
            os.iter().for_each(|o| if let Order::Store(w, x) = *o { after[w] = x });
            let both: Vec<u64> = unreachable(t).intersection(&unreachable(&after)).copied().collect();
            let w = start(one_of(&both, random)?) + random.below(32) as usize;
            put_in(&mut list, one_of(&gaps(os), random)?, w, random.next());
        }
        8 => list.clear(),
        9 | 10 => {
            let done = write(t, LIST_WORDS, ORDERED, call).ok()?.t;
            let back = match call {
                Call::Insert(n, k, ..) => Call::Delete(n, k),
                Call::Delete(n, k) => {
                    let x = judge(t)?.maps[n as usize - 1][&k];
                    Call::Insert(n, k, recording(x), class(x))
                }
                _ => return None,
            };
            let undone = write(&done, LIST_WORDS, ORDERED, back).ok()?;
            list.extend(orders(&undone.stores, ORDERED));
            if way == 9 {
                list.extend(orders(&write(&undone.t, LIST_WORDS, ORDERED, call).ok()?.stores, ORDERED));
            }
        }
        11 => {
            let i = one_of(&stores, random)?;
            let Order::Store(w, x) = os[i] else { return None };
            list[i] = Order::Store(w, other_word(t, x, random));
        }
        12 => {
            let w = random.below(8) as usize;
            let x = if random.below(2) == 0 { t[w] } else { random.below(t[2] + 3) };
            put_in(&mut list, one_of(&gaps(os), random)?, w, x);
        }
        13 => match random.below(3) {
            0 => list.insert(random.below(os.len() as u64 + 1) as usize, Order::Barrier),
            1 => list.insert(random.below(os.len() as u64 + 1) as usize, Order::Flush(random.below((t.len() / 8) as u64))),
            // The store of a value that is there already counts as unflushed.
            _ => {
                let i = random.below(os.len() as u64 + 1) as usize;
                let mut now = t.to_vec();
                os[..i].iter().for_each(|o| if let Order::Store(w, x) = *o { now[w] = x });
                let w = random.below(t.len() as u64) as usize;
                list.insert(i, Order::Store(w, now[w]));
            }
        },
        14 => list.truncate(random.below(os.len() as u64) as usize),
        _ => {
            for i in (1..list.len()).rev() {
                list.swap(i, random.below(i as u64 + 1) as usize);
            }
        }
    }
    Some(list)
}

/// The nodes that a way leads to from a collection's root, on a settled table.
fn tree_of(t: &[u64], n: u64) -> BTreeSet<u64> {
    let (mut found, mut todo) = (BTreeSet::new(), if no_collection(t, n) { vec![] } else { vec![t[root_word(n)]] });
    while let Some(i) = todo.pop() {
        let x = node(t, i);
        if found.insert(i) && x.level > 0 {
            todo.push(x.left);
            todo.extend(x.shown().iter().map(|s| s.pointer));
        }
    }
    found
}

/// Our lists, for both docks, and each spoilt in every way.
fn lists(size: u64, random: &mut Random, seed: u64) -> u64 {
    let mut said = [[0u64; 2]; WAYS.len()];
    let (mut ours, mut splits, mut frees) = (0, 0, 0);
    while ours < size {
        let mut t = settled(1 + random.below(2), random);
        let Some(call) = accepted(&mut t, ours % 4 == 0, random) else { continue };
        let out: Vec<u64> = (0..t.len()).map(|_| random.next()).collect();
        for dock in [ORDERED, UNORDERED] {
            let w = write(&t, LONG_LIST_WORDS, dock, call).unwrap();
            let words = encode(&orders(&w.stores, dock));
            let said = same_verdict(&t, &words, &out, call, seed, "ours");
            expect(said == Ok(None), seed, &t, || format!("{call:?} for dock {dock}: our list is not accepted"));
        }
        let w = write(&t, LIST_WORDS, ORDERED, call).unwrap();
        let before = unreachable(&t).len();
        (splits, frees) = (splits + (unreachable(&w.t).len() < before) as u64, frees + (unreachable(&w.t).len() > before) as u64);
        let os = orders(&w.stores, ORDERED);
        for way in 0..WAYS.len() {
            let Some(list) = spoilt(way, &t, &os, call, random) else { continue };
            let answer = same_verdict(&t, &encode(&list), &out, call, seed, WAYS[way]);
            match answer {
                Ok(c) => said[way][c.is_some() as usize] += 1,
                Err(n) => expect(n == 13, seed, &t, || format!("{}: refused with {n}", WAYS[way])),
            }
        }
        ours += 1;
    }
    println!("{ours} lists of ours, {splits} with a split, {frees} that free a leaf: yes to each, for both docks");
    for (way, [yes, no]) in said.iter().enumerate() {
        println!("{}: yes {yes}, no {no}", WAYS[way]);
        let only_no = [2, 5, 8, 10].contains(&way);
        let only_yes = [7, 9].contains(&way);
        expect((only_yes || *no > 0) && (!only_no || *yes == 0) && (!only_yes || *no == 0), seed, &[], || format!("{}: not as it should be", WAYS[way]));
    }
    expect(splits > 0 && frees > 0, seed, &[], || "no list with a split, or none that frees a leaf".into());
    2 * ours + said.iter().flatten().sum::<u64>()
}

/// Each refusal, alone and before those after it; nothing is written.
fn refusals(size: u64, random: &mut Random, seed: u64) -> u64 {
    let mut seen: std::collections::BTreeMap<u64, u64> = Default::default();
    for _ in 0..size {
        let mut t = if random.below(3) == 0 { grown(5, 1 + random.below(2), random) } else { settled(1 + random.below(2), random) };
        if random.below(4) == 0 {
            t = damaged(&t, random);
        }
        let sane = header_ok(&t) && judge(&t).is_some();
        let call = if sane { some_call(&t, 60, false, random) } else { Call::Insert(1, 5, 6, 0) };
        let call = match call {
            Call::Insert(..) | Call::Delete(..) => call,
            _ => Call::Delete(1, random.below(40)),
        };
        let call = if random.below(5) == 0 { call.naming(any_collection(random)) } else { call };
        let mut list: Vec<u64> = match write(&t, LIST_WORDS, ORDERED, call) {
            Ok(w) => encode(&orders(&w.stores, ORDERED)),
            Err(_) => vec![MARK, 0],
        };
        match random.below(6) {
            0 => list.extend([t.len() as u64, 1]),
            1 => list.extend([MARK, (t.len() / 8) as u64]),
            2 => list.extend([BARRIER, 1]),
            // Half an order is none.
            3 => list.push(random.next()),
            _ => {}
        }
        let length = if random.below(4) == 0 { t.len() + 1 - 2 * random.below(2) as usize } else { t.len() };
        let out: Vec<u64> = (0..length).map(|_| random.next()).collect();
        let number = same_verdict(&t, &list, &out, call, seed, "refusals").err().unwrap_or(0);
        *seen.entry(number).or_default() += 1;
    }
    println!("refusals {seen:?}");
    expect([0, 2, 4, 13, 15, 17, 20, 21].iter().all(|n| seen.contains_key(n)), seed, &[], || "a refusal was not met".into());
    size
}

fn main() {
    let (seed, size) = arguments(1200);
    let mut random = Random(seed);
    let judged = lists(size, &mut random, seed);
    let refused = refusals(20 * size, &mut random, seed);
    println!("{judged} lists judged, {refused} tables and lists for the refusals");
    println!("2 passed, 0 failed");
}
