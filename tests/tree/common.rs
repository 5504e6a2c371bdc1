//! What the test programs share: failing with a script that reproduces, keys to ask for, tables grown and damaged.
#![allow(dead_code)]
use crate::calls::{self, Lent, Looked, Wrote};
use crate::reference::*;
use std::collections::BTreeSet;
use std::ops::Bound;

/// A check that failed says what and how to reproduce it, and ends the run.
pub fn expect(ok: bool, seed: u64, t: &[u64], what: impl FnOnce() -> String) {
    if !ok {
        println!("FAILED: {}\nseed {seed}\ntable {t:?}", what());
        std::process::exit(1);
    }
}

/// Keys worth asking for: those in the table's words, their neighbours, and the ends.
pub fn keys(t: &[u64], random: &mut Random) -> Vec<u64> {
    let mut ks = vec![0, 1, MARK - 1, MARK];
    for _ in 0..if t.is_empty() { 0 } else { 12 } {
        let w = t[random.below(t.len() as u64) as usize];
        ks.extend([w.wrapping_sub(1), w, w.wrapping_add(1)]);
    }
    ks
}

/// A call in one of a sound table's collections, with keys below the span. While it shrinks most calls delete a key of the leaf that will be
/// empty soonest.
pub fn some_call(t: &[u64], span: u64, shrinks: bool, random: &mut Random) -> Call {
    let n = some_collection(t, random);
    let k = random.below(span);
    match random.below(8) {
        0 | 1 => Call::Delete(n, k),
        3..=7 if shrinks => Call::Delete(n, scarce_key(t, n, random).unwrap_or(k)),
        2 if random.below(8) == 0 => Call::Repair,
        2 | 3 if random.below(3) == 0 => Call::SetClass(n, if random.below(3) == 0 { k } else { some_key(t, random) }, some_class(random)),
        _ => Call::Insert(n, k, some_recording(random), some_class(random)),
    }
}

/// A collection that the table has.
pub fn some_collection(t: &[u64], random: &mut Random) -> u64 {
    if t[3] == 0 { 1 } else { 1 + random.below(2) }
}

/// A collection of any number, most often 1 or 2.
pub fn any_collection(random: &mut Random) -> u64 {
    [1, 1, 1, 2, 2, 2, 0, 3, 1 << 32, MARK][random.below(10) as usize]
}

/// A dock of any number, most often 0 or 1.
pub fn any_dock(random: &mut Random) -> u64 {
    if random.below(40) == 0 { [2, 3, 1 << 32, MARK][random.below(4) as usize] } else { random.below(2) }
}

/// Now and then a recording that is refused, or one that is often in the map already.
pub fn some_recording(random: &mut Random) -> u64 {
    match random.below(40) {
        0 => [0, MOST_RECORDING + 1, MARK][random.below(3) as usize],
        1..=6 => [1, 2, 3, 4, 5, MOST_RECORDING][random.below(6) as usize],
        _ => 1 + random.below(1_000_000),
    }
}

/// A class, now and then one that is refused.
pub fn some_class(random: &mut Random) -> u64 {
    if random.below(40) == 0 { [3, 255, 256, 1 << CLASS, MARK][random.below(5) as usize] } else { random.below(3) }
}

/// A pointer of a class that there is, of a recording that hardly any other has.
pub fn some_pointer(random: &mut Random) -> u64 {
    pointer(1 + random.below(MOST_RECORDING), random.below(3))
}

/// A key word of a node, often of a slot in use.
fn some_key(t: &[u64], random: &mut Random) -> u64 {
    t[start(1 + random.below(t[2])) + 8 + 2 * random.below(5) as usize]
}

/// The leaves of a sound table's collection that have slots in use.
fn leaves(t: &[u64], collection: u64) -> impl Iterator<Item = Node> + '_ {
    let mut first = node(t, t[root_word(collection)]);
    while first.level > 0 {
        first = node(t, first.left);
    }
    std::iter::successors(Some(first), |x| (x.sibling != 0).then(|| node(t, x.sibling))).filter(|x| x.used() > 0)
}

/// A key of a leaf other than the first, with fewer slots in use than the others.
pub fn scarce_key(t: &[u64], collection: u64, random: &mut Random) -> Option<u64> {
    let x = leaves(t, collection).filter(|x| x.fence > 0).min_by_key(|x| x.used())?;
    Some(x.slots[random.below(x.used() as u64) as usize].key)
}

/// A key beside one of the leaf with the most slots in use.
fn crowded_key(t: &[u64], collection: u64, random: &mut Random) -> Option<u64> {
    let x = leaves(t, collection).max_by_key(|x| x.used())?;
    Some(x.slots[random.below(x.used() as u64) as usize].key.wrapping_add(1 + random.below(3)))
}

/// How many nodes the stores go to.
fn nodes_stored(stores: &[(usize, u64)]) -> usize {
    stores.iter().filter(|s| s.0 >= 8).map(|s| (s.0 - 8) / 32).collect::<BTreeSet<usize>>().len()
}

/// A split, or a deletion that frees a leaf, cut off at a store to another node than its first.
fn cut_off(t: &mut [u64], splits: bool, random: &mut Random) {
    let n = some_collection(t, random);
    for _ in 0..24 {
        let key = if splits { crowded_key(t, n, random) } else { scarce_key(t, n, random) };
        let Some(k) = key else { return };
        let call = if splits { Call::Insert(n, k, 1 + random.below(1_000_000), random.below(3)) } else { Call::Delete(n, k) };
        let Ok(w) = write(t, LIST_WORDS, ORDERED, call) else { continue };
        let other = w.stores.iter().position(|s| s.0 / 32 != w.stores[0].0 / 32);
        match other.filter(|_| nodes_stored(&w.stores) > 2) {
            Some(first) => return store(t, &w.stores[..first + random.below((w.stores.len() - first) as u64) as usize]),
            None => store(t, &w.stores),
        }
    }
}

/// A table of one collection or two by random insertions and deletions, some of them cut off: settled, or with any leftover.
pub fn grown(most: u64, collections: u64, random: &mut Random) -> Vec<u64> {
    let n = collections * (1 + random.below(most));
    let mut t = make(n, collections);
    let span = [30, 200, MARK][random.below(3) as usize];
    for i in 0..random.below(14 * n) {
        let call = some_call(&t, span, i / (30 * collections) % 3 == 2, random);
        if let Ok(w) = write(&t, LIST_WORDS, ORDERED, call) {
            let part = if random.below(8) == 0 { random.below(w.stores.len() as u64 + 1) as usize } else { w.stores.len() };
            store(&mut t, &w.stores[..part]);
        }
    }
    if random.below(2) == 0 {
        cut_off(&mut t, random.below(2) == 0, random);
    }
    t
}

pub fn store(t: &mut [u64], stores: &[(usize, u64)]) {
    for &(w, x) in stores {
        t[w] = x;
    }
}

/// Slot p put into a node, the ones from p on moved up by one.
pub fn put_slot(t: &mut [u64], n: u64, p: usize, key: u64, pointer: u64) {
    let (from, to) = (start(n) + 8 + 2 * p, start(n) + 30);
    t.copy_within(from..to, from + 2);
    t[from] = key;
    t[from + 1] = pointer;
}

/// Slot p taken out of a node, the ones after it moved down by one.
pub fn take_slot(t: &mut [u64], n: u64, p: usize) {
    let (from, to) = (start(n) + 8 + 2 * p, start(n) + 32);
    t.copy_within(from + 2..to, from);
}

/// The pointer before slot p.
pub fn before(t: &[u64], n: u64, p: usize) -> u64 {
    if p == 0 { t[start(n)] } else { t[start(n) + 7 + 2 * p] }
}

/// Slot p is hidden; if the node is an inner one its child then lacks its slot, (c).
pub fn hide(t: &mut [u64], n: u64, p: usize) {
    t[start(n) + 9 + 2 * p] = before(t, n, p);
}

/// One to three words changed.
pub fn damaged(t: &[u64], random: &mut Random) -> Vec<u64> {
    let mut d = t.to_vec();
    for _ in 0..1 + random.below(3) {
        let w = random.below(d.len() as u64) as usize;
        let other = d[random.below(d.len() as u64) as usize];
        d[w] = match random.below(10) {
            0 => 0,
            1 => MARK,
            2 => random.below(d[2].wrapping_add(2).max(1)),
            3 => other,
            // Another class, or another word's recording under another class.
            8 => d[w] ^ [1, 2, 3, 4, 255][random.below(5) as usize] << CLASS,
            9 => other ^ [1, 2, 3][random.below(3) as usize] << CLASS,
            4 => d[w].wrapping_add(1),
            5 => d[w].wrapping_sub(1),
            6 => random.below(20),
            _ => random.next(),
        };
    }
    d
}

/// Any words of a length; mostly with a right header, so that the calls look further: of two collections if asked for and if it can be.
pub fn any_words(len: usize, collections: u64, random: &mut Random) -> Vec<u64> {
    let most = [1, 4, 40, MARK][random.below(4) as usize];
    let mut t: Vec<u64> = (0..len).map(|_| random.below(most)).collect();
    if let Some(n) = nodes_for(len).filter(|_| most > 1) {
        t[..8].copy_from_slice(&[1, 1 + random.below(n), n, 0, 0, 0, 0, 0]);
        if collections == 2 && n > 1 {
            t[3] = 1 + random.below(n);
        }
    }
    t
}

/// What a call for a dock must leave, by the reference's answer to it.
pub fn wanted(t: &[u64], list: &[u64], dock: u64, answer: Result<Writer, u64>) -> (Wrote, Vec<Order>) {
    match answer {
        Err(number) => (Wrote { number, counts: [None; 3], table: t.to_vec(), list: list.to_vec() }, vec![]),
        Ok(w) => {
            let os = orders(&w.stores, dock);
            let mut words = list.to_vec();
            let listed = encode(&os);
            words[..listed.len()].copy_from_slice(&listed);
            let count = |kind: fn(&Order) -> bool| Some(os.iter().filter(|o| kind(o)).count() as u64);
            let counts = [count(|o| matches!(o, Order::Store(..))), count(|o| matches!(o, Order::Flush(_))), count(|o| *o == Order::Barrier)];
            (Wrote { number: 0, counts, table: w.t, list: words }, os)
        }
    }
}

pub fn called(t: &[u64], list: &[u64], dock: u64, call: Call) -> Wrote {
    match call {
        Call::Insert(n, k, r, c) => calls::insert(t, n, list, dock, k, r, c),
        Call::Delete(n, k) => calls::delete(t, n, list, dock, k),
        Call::SetClass(n, k, c) => calls::set_class(t, n, list, dock, k, c),
        Call::Repair => calls::repair(t, list, dock),
    }
}

/// The call's answer, table and list are the reference's; its orders.
pub fn same_write(t: &[u64], list: &[u64], dock: u64, call: Call, seed: u64) -> (Wrote, Vec<Order>) {
    same_as(write(t, list.len(), dock, call), t, list, dock, call, seed)
}

pub fn same_as(answer: Result<Writer, u64>, t: &[u64], list: &[u64], dock: u64, call: Call, seed: u64) -> (Wrote, Vec<Order>) {
    let (want, os) = wanted(t, list, dock, answer);
    let got = called(t, list, dock, call);
    expect(got == want, seed, t, || {
        format!("{call:?} for dock {dock} with {} words for orders: wanted {:?} {:?}, got {:?} {:?}; first orders {:?}", list.len(), want.number, want.counts, got.number, got.counts, &got.list[..got.list.len().min(40)])
    });
    let listed: u64 = want.counts[..2].iter().flatten().sum();
    expect(listed <= 1121, seed, t, || format!("{call:?} made {listed} stores and flushes"));
    (want, os)
}

/// What a call must leave of this answer.
pub fn looked(answer: &Answer) -> Looked {
    match *answer {
        Answer::Found(r, c) => calls::found(r, c),
        Answer::Absent(next) => calls::absent(next),
        Answer::Refused(number) => calls::refused(number),
    }
}

/// What a map of whole pointers answers.
pub fn lookup(map: &Map, k: u64) -> Answer {
    let above = || map.range((Bound::Excluded(k), Bound::Unbounded)).next().map(|(&next, _)| next);
    map.get(&k).map_or_else(|| Answer::Absent(above()), |&x| Answer::Found(recording(x), class(x)))
}

/// A search as the reference's.
pub fn same_search(t: &[u64], collection: u64, k: u64, seed: u64) -> Answer {
    let want = search(t, collection, k);
    let got = calls::search(t, collection, k);
    expect(got == looked(&want), seed, t, || format!("search for {k} in collection {collection}: wanted {want:?}, got {got:?}"));
    want
}

/// A listing into so many words as the reference's.
pub fn same_list(t: &[u64], collection: u64, low: u64, high: u64, len: usize, seed: u64) {
    let out: Vec<u64> = (0..len as u64).map(|w| w + 7_000_000).collect();
    let want = list(t, collection, low, high, &out);
    let got = calls::list(t, collection, low, high, &out);
    let right = match want.0 {
        Listed::Pairs { count, more } => got == (0, [Some(count), Some(more as u64)], want.1.clone()),
        Listed::Refused(n) => got == (n, [None; 2], out),
    };
    expect(right, seed, t, || format!("list {low} to {high} of collection {collection} into {len} words: wanted {want:?}, got {got:?}"));
}

/// Searches and listings of these words in both collections, and now and then in one that there is not.
pub fn same_reading(t: &[u64], random: &mut Random, seed: u64) {
    let ks = keys(t, random);
    for n in [1, 2, any_collection(random)] {
        for &k in &ks {
            same_search(t, n, k, seed);
        }
        let mut any = || ks[random.below(ks.len() as u64) as usize];
        let (low, high) = (any(), any());
        same_list(t, n, low, high, random.below(40) as usize, seed);
        same_list(t, n, 0, MARK, random.below(40) as usize, seed);
    }
}

/// Every search of these words for the keys asked answers as the map of its collection.
pub fn answers(t: &[u64], maps: &Maps, asked: &BTreeSet<u64>) -> bool {
    let mut table = Lent::new(t);
    let right = maps.iter().zip(1..).all(|(map, n)| asked.iter().all(|&k| table.search(n, k) == looked(&lookup(map, k))));
    table.back();
    right
}

/// What an image of a cut holds: its maps, what is left over and in which collection (0 for nothing), and the table that a repair leaves.
pub struct Held {
    pub maps: Maps,
    pub leftover: Leftover,
    pub unfinished: u64,
    pub mended: Vec<u64>,
}

/// An image of a cut after c of a call's orders is as the cut rule says: sound with the maps before the call or after it, by every search
/// asked; before it if c is 0, after it if c is all; and repair settles it with the same maps.
pub fn image_holds(image: &[u64], maps: [&Maps; 2], cut: (usize, usize), asked: &BTreeSet<u64>, seed: u64, call: Call) -> Held {
    let [old, new] = maps;
    let (c, all) = cut;
    let what = || format!("{call:?} cut after {c} of {all} orders");
    let maps = if answers(image, new, asked) { new } else { old };
    expect(answers(image, maps, asked), seed, image, || what() + ": searches agree with the maps neither before nor after");
    let sound = judge(image).filter(|x| x.maps == *maps);
    expect(sound.is_some(), seed, image, || what() + ": not sound with these maps");
    expect(c > 0 || maps == old, seed, image, || what() + ": is taken");
    expect(c < all || maps == new, seed, image, || what() + ": is omitted");
    let mended = calls::repair(image, &[0; LIST_WORDS], ORDERED);
    let settled = mended.number == 0 && judge(&mended.table).is_some_and(|x| x.leftover == Leftover::Nothing && x.maps == *maps);
    expect(settled, seed, image, || what() + ", then repaired: not settled with these maps");
    let sound = sound.unwrap();
    Held { maps: maps.clone(), leftover: sound.leftover, unfinished: sound.unfinished, mended: mended.table }
}

/// An order of two words.
pub fn order(words: &[u64]) -> Order {
    match (words[0], words[1]) {
        (MARK, line) => Order::Flush(line),
        (BARRIER, 0) => Order::Barrier,
        (word, value) => Order::Store(word as usize, value),
    }
}

/// The orders of an accepted call's list.
pub fn decode(after: &Wrote) -> Vec<Order> {
    after.list[..2 * after.orders() as usize].chunks(2).map(order).collect()
}

/// The maps after an accepted call: that of its collection has changed, the other one stays.
pub fn changed(maps: &Maps, call: Call) -> Maps {
    let mut new = maps.clone();
    let Some(map) = call.collection().map(|n| &mut new[n as usize - 1]) else { return new };
    match call {
        Call::Insert(_, k, r, c) => {
            map.insert(k, pointer(r, c));
        }
        Call::Delete(_, k) => {
            map.remove(&k);
        }
        Call::SetClass(_, k, c) => {
            map.insert(k, pointer(recording(map[&k]), c));
        }
        Call::Repair => {}
    }
    new
}

/// The keys of these maps and those beside them.
pub fn around<'a>(maps: impl IntoIterator<Item = &'a Maps>) -> BTreeSet<u64> {
    maps.into_iter().flatten().flat_map(|map| map.keys()).flat_map(|k| [k.wrapping_sub(1), *k, k.wrapping_add(1)]).collect()
}

pub fn kind(leftover: Leftover) -> usize {
    match leftover {
        Leftover::Nothing => 0,
        Leftover::Hidden { .. } => 1,
        Leftover::Missing { trailing: false, .. } => 2,
        Leftover::Missing { trailing: true, .. } => 3,
        Leftover::Both { .. } => 4,
    }
}

/// Every leftover was met, so that the test says something of each.
pub fn all_met(kinds: &[u64; 5], seed: u64) {
    println!("tables: settled {}, (a) {}, (b) {}, (b) with trailing slots {}, (c) {}", kinds[0], kinds[1], kinds[2], kinds[3], kinds[4]);
    expect(kinds.iter().all(|&n| n > 0), seed, &[], || "a leftover was not met".into());
}

/// Seed and size of a run, from the command line.
pub fn arguments(default: u64) -> (u64, u64) {
    let number = |i, other| std::env::args().nth(i).map_or(other, |s: String| s.parse().expect("a number"));
    let (seed, size) = (number(1, 20261115), number(2, default));
    println!("seed {seed}, size {size}");
    (seed, size)
}
