//! The two docks side by side: without its barriers a list for the unordered dock is the ordered one's, a cut leaves the same images on both,
//! and codes are lost if the barriers are left out.
mod calls;
mod common;
mod reference;

use common::*;
use reference::*;
use std::collections::BTreeSet;

/// What a call lists for each dock, if it is accepted: the same number and the same table; one list is the other with a barrier after each
/// store and nowhere else, and so are its counts; the words after it stay; carried out they leave the same.
fn listed(t: &[u64], call: Call, seed: u64) -> Option<[Vec<Order>; 2]> {
    let [plain, barred] = [(ORDERED, LIST_WORDS), (UNORDERED, LONG_LIST_WORDS)].map(|(dock, words)| called(t, &vec![7; words], dock, call));
    let what = || format!("{call:?}: {} {:?} and {} {:?}", plain.number, plain.counts, barred.number, barred.counts);
    expect(plain.number == barred.number && plain.table == barred.table, seed, t, what);
    if plain.number != 0 {
        return None;
    }
    let lists = [decode(&plain), decode(&barred)];
    let (is_store, is_barrier) = (|o: &Order| matches!(o, Order::Store(..)), |o: &Order| *o == Order::Barrier);
    let without: Vec<Order> = lists[1].iter().copied().filter(|o| !is_barrier(o)).collect();
    expect(without == lists[0] && !lists[0].iter().any(is_barrier), seed, t, || what() + ": other stores or flushes");
    let after_stores = (0..lists[1].len()).all(|i| is_barrier(&lists[1][i]) == (i > 0 && is_store(&lists[1][i - 1])));
    expect(after_stores, seed, t, || what() + ": not a barrier after each store alone");
    let [stores, flushes, barriers] = plain.counts.map(|n| n.expect("a count"));
    expect(barriers == 0 && stores + flushes <= 1121 && barred.counts == [stores, flushes, stores].map(Some), seed, t, || what() + ": the counts");
    for after in [&plain, &barred] {
        expect(after.list[2 * after.orders() as usize..].iter().all(|&w| w == 7), seed, t, || what() + ": words after the orders");
        expect(calls::carry_out(t, &after.list, after.orders()) == (0, after.table.clone()), seed, t, || what() + ": carried out");
    }
    Some(lists)
}

/// A cut of the list with barriers leaves the images that a cut of the other does on the ordered dock, after as many stores and flushes. How
/// many there are.
fn same_images(t: &[u64], [plain, barred]: &[Vec<Order>; 2], call: Call, seed: u64) -> u64 {
    let mut count = 0;
    for c in 0..=barred.len() {
        let happened = barred[..c].iter().filter(|o| **o != Order::Barrier).count();
        let set = |all: Vec<Vec<u64>>| all.into_iter().collect::<BTreeSet<_>>();
        let (ours, theirs) = (set(images(t, &barred[..c], UNORDERED)), set(images(t, &plain[..happened], ORDERED)));
        count += ours.len() as u64;
        expect(ours == theirs, seed, t, || format!("{call:?} cut after {c} orders on the unordered dock: {} images, {} on the other", ours.len(), theirs.len()));
    }
    count
}

/// Whether a cut on the unordered dock may lose a code that was there and stays, if the list has no barriers. All choices of a line's stores
/// are those just before its flush.
fn loses_a_code(t: &[u64], plain: &[Order], kept: &[(u64, u64)]) -> bool {
    let flushes = (0..plain.len()).filter(|&c| matches!(plain[c], Order::Flush(_)));
    flushes.flat_map(|c| images(t, &plain[..c], UNORDERED)).any(|image| kept.iter().any(|&(n, k)| matches!(calls::search(&image, n, k).number, 255 | 3)))
}

/// The codes of each collection before a call and after it.
fn kept(old: &Maps, new: &Maps) -> Vec<(u64, u64)> {
    old.iter().zip(new).zip(1..).flat_map(|((old, new), n)| old.keys().filter(|&k| new.contains_key(k)).map(move |&k| (n, k))).collect()
}

fn main() {
    let (seed, size) = arguments(12_000);
    let mut random = Random(seed);
    let random = &mut random;
    let (mut writes, mut count, mut tried, mut lost) = (0, 0, 0, 0);
    while writes < size {
        let collections = 1 + random.below(2);
        let n = collections * (1 + random.below(7));
        let span = [12, 60, MARK][random.below(3) as usize];
        let mut t = make(n, collections);
        for i in 0..20 + random.below(30 * n) {
            let call = some_call(&t, span, i / 30 % 2 == 1, random);
            let Some(lists) = listed(&t, call, seed) else { continue };
            writes += 1;
            count += same_images(&t, &lists, call, seed);
            let maps = judge(&t).expect("a sound table").maps;
            if random.below(20) == 0 {
                tried += 1;
                lost += loses_a_code(&t, &lists[0], &kept(&maps, &changed(&maps, call))) as u64;
            }
            // Now and then a cut, on the unordered dock.
            let c = if random.below(4) == 0 { random.below(lists[1].len() as u64 + 1) as usize } else { lists[1].len() };
            let all = images(&t, &lists[1][..c], UNORDERED);
            t = all[random.below(all.len() as u64) as usize].clone();
        }
    }
    println!("writes {writes}, images of each dock {count}; without barriers {lost} of {tried} writes may lose a code");
    expect(lost > tried / 4, seed, &[], || "barriers were hardly needed".into());
    println!("2 passed, 0 failed");
}
