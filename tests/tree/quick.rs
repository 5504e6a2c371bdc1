//! Quick calls, which take a summary, beside the plain calls and the reference: with true summaries on long scripts in one collection and in two,
//! for both docks, with recordings that crowd, on towers; every cut of their lists; and with false summaries on damaged tables and any words,
//! where a call is as the text has it as far as the text goes.
mod calls;
mod common;
mod reference;
mod rows;
mod tower;

use calls::{Kept, Wrote};
use common::*;
use reference::*;
use std::collections::{BTreeMap, BTreeSet};
use tower::*;

// ---- the text once more

/// Marks, a bit for each node; then 16 cells for each node.
fn mark_words(n: u64) -> usize {
    n as usize / 64 + 1
}

fn summary_words(n: u64) -> usize {
    mark_words(n) + 16 * n as usize
}

/// What a summary says: the nodes that are marked, and the cells that are not free, in order.
#[derive(Clone, Debug, PartialEq)]
struct Says {
    marked: BTreeSet<u64>,
    cells: Vec<u64>,
}

fn says(n: u64, words: &[u64]) -> Says {
    let (marks, cells) = words.split_at(mark_words(n));
    let marked = (0..64 * marks.len() as u64).filter(|i| marks[*i as usize / 64] >> (i % 64) & 1 == 1).collect();
    let mut cells: Vec<u64> = cells.iter().copied().filter(|&x| x != 0).collect();
    cells.sort();
    Says { marked, cells }
}

/// A recording of a collection, as a cell holds it.
fn cell(collection: u64, recording: u64) -> u64 {
    collection << CLASS | recording
}

/// What the summary of a settled table must say.
fn must_say(sound: &Sound) -> Says {
    let mut cells: Vec<u64> = sound.maps.iter().zip(1..).flat_map(|(map, n)| map.values().map(move |&x| cell(n, recording(x)))).collect();
    cells.sort();
    Says { marked: sound.reached.keys().copied().collect(), cells }
}

fn is_true(t: &[u64], words: &[u64]) -> bool {
    let Some(sound) = judge_header(t).and_then(|_| judge(t)).filter(|x| x.leftover == Leftover::Nothing) else { return false };
    words.len() == summary_words(t[2]) && says(t[2], words) == must_say(&sound)
}

/// What opening gives with a slice of so many words.
fn open_number(t: &[u64], len: usize) -> u64 {
    match judge_header(t) {
        None => 2,
        Some(n) if len != summary_words(n) => 26,
        _ => judge(t).map_or(4, |x| if x.leftover == Leftover::Nothing { 0 } else { 20 }),
    }
}

/// N of a table whose header is right.
fn judge_header(t: &[u64]) -> Option<u64> {
    header_ok(t).then(|| t[2])
}

/// The nodes that the search for k stands on, from the root down, if each passes a search's tests, is marked, hides nothing and shows at most 11.
fn way(t: &[u64], marked: &BTreeSet<u64>, collection: u64, k: u64) -> Option<Vec<u64>> {
    let stands = |i: u64, level: u64| (1..=t[2]).contains(&i) && node(t, i).level == level;
    let mut at = t[root_word(collection)];
    let top = node(t, at).level;
    if top > 15 {
        return None;
    }
    let mut path = vec![];
    for level in (0..=top).rev() {
        if !stands(at, level) {
            return None;
        }
        let sibling = node(t, at).sibling;
        if sibling != 0 {
            if !stands(sibling, level) {
                return None;
            }
            if k >= node(t, sibling).fence {
                at = sibling;
            }
        }
        let x = node(t, at);
        let (shown, hidden) = x.places();
        if !marked.contains(&at) || !hidden.is_empty() || shown.len() > 11 {
            return None;
        }
        path.push(at);
        at = x.shown().iter().filter(|s| s.key <= k).last().map_or(x.left, |s| s.pointer);
    }
    Some(path)
}

/// The left neighbour of a leaf that a deletion of k on this way frees; none if it frees none. Err if the parent has no slot from the leaf's fence
/// up, or what comes before that is no node.
fn neighbour(t: &[u64], path: &[u64], k: u64) -> Result<Option<u64>, ()> {
    let x = node(t, *path.last().unwrap());
    let Some(&parent) = path.iter().rev().nth(1) else { return Ok(None) };
    let up = node(t, parent);
    if x.shown().len() != 1 || x.shown()[0].key != k || up.left == *path.last().unwrap() {
        return Ok(None);
    }
    let place = up.shown().iter().filter(|s| s.key < x.fence).count();
    if place >= up.shown().len() {
        return Err(());
    }
    let before = if place == 0 { up.left } else { up.shown()[place - 1].pointer };
    if (1..=t[2]).contains(&before) { Ok(Some(before)) } else { Err(()) }
}

/// The numbers that a quick call with these words may give: one alone, but that a recording is only looked for on its path through the cells.
fn numbers(t: &[u64], words: &[u64], list: usize, dock: u64, call: Call) -> Vec<u64> {
    let Some(n) = judge_header(t) else { return vec![2] };
    if call.collection().is_some_and(|c| no_collection(t, c)) {
        return vec![17];
    }
    if words.len() != summary_words(n) {
        return vec![26];
    }
    let Says { marked, cells } = says(n, words);
    let found = match call {
        Call::Insert(c, k, ..) | Call::Delete(c, k) | Call::SetClass(c, k, _) => way(t, &marked, c, k).map(|path| (path, k)),
        Call::Repair => Some((vec![], 0)),
    };
    let Some((path, k)) = found else { return vec![4] };
    if matches!(call, Call::Delete(..)) && neighbour(t, &path, k).is_err() {
        return vec![4];
    }
    if dock > 1 {
        return vec![18];
    }
    if list < [LIST_WORDS, LONG_LIST_WORDS][dock as usize] {
        return vec![5];
    }
    let there = path.last().is_some_and(|&leaf| node(t, leaf).shown().iter().any(|s| s.key == k));
    match call {
        Call::Insert(_, _, r, _) if r == 0 || r > MOST_RECORDING => vec![6],
        Call::Insert(.., x) | Call::SetClass(.., x) if x > MOST_CLASS => vec![14],
        Call::Insert(..) if there => vec![7],
        Call::Insert(c, _, r, _) => {
            let run = path.iter().rev().take_while(|&&i| node(t, i).shown().len() == 11).count();
            let whole = run == path.len();
            let free = (1..=n).filter(|i| !marked.contains(i)).count();
            let later = if whole && run == 16 {
                11
            } else if free < run + whole as usize {
                10
            } else {
                0
            };
            if cells.contains(&cell(c, r)) { vec![8, later] } else { vec![later] }
        }
        Call::Delete(..) | Call::SetClass(..) if !there => vec![9],
        _ => vec![0],
    }
}

/// The pairs of a page: of the leaf for the lowest key and those along the siblings, at most N, up to one whose fence is above the highest, the
/// slots below its own sibling's fence.
fn page(t: &[u64], leaf: u64, low: u64, high: u64) -> Vec<(u64, u64)> {
    let inside = |i: u64| (1..=t[2]).contains(&i);
    let (mut at, mut pairs) = (leaf, vec![]);
    for _ in 0..t[2] {
        if !inside(at) || node(t, at).fence > high {
            break;
        }
        let x = node(t, at);
        let end = if inside(x.sibling) { node(t, x.sibling).fence } else { 0 };
        let kept = x.shown().into_iter().filter(|s| x.sibling == 0 || s.key < end);
        pairs.extend(kept.filter(|s| (low..=high).contains(&s.key)).map(|s| (s.key, s.pointer)));
        at = x.sibling;
    }
    pairs
}

// ---- the calls

fn quick(t: &[u64], words: &[u64], list: &[u64], dock: u64, call: Call) -> Kept {
    match call {
        Call::Insert(n, k, r, c) => calls::quick_insert(t, words, n, list, dock, k, r, c),
        Call::Delete(n, k) => calls::quick_delete(t, words, n, list, dock, k),
        Call::SetClass(n, k, c) => calls::quick_set_class(t, words, n, list, dock, k, c),
        Call::Repair => calls::quick_repair(t, words, list, dock),
    }
}

#[derive(Default)]
struct Met {
    seed: u64,
    opened: BTreeMap<u64, u64>,
    /// Calls with a true summary, and with any words, by number.
    given: BTreeMap<u64, u64>,
    any: BTreeMap<u64, u64>,
    listed: BTreeMap<u64, u64>,
    /// Batches by the number that stopped them, and how many had a true summary.
    batched: BTreeMap<u64, u64>,
    true_batches: u64,
    splits: u64,
    roots: u64,
    freed: u64,
    docks: [u64; 2],
    pages: u64,
    images: u64,
    kinds: [u64; 5],
}

impl Met {
    /// Opening: the summary of a settled table; else 2, 26, 4 or 20, and no word is changed. The words if there are any.
    fn open(&mut self, t: &[u64], random: &mut Random) -> Option<Vec<u64>> {
        let right = summary_words(judge_header(t).unwrap_or(2));
        let mut words = None;
        for len in [[0, right - 1, right + 1, 2 * right, right / 2][random.below(5) as usize], right] {
            let lent: Vec<u64> = (0..len).map(|_| random.next()).collect();
            let number = open_number(t, len);
            let got = calls::summary(t, &lent);
            expect(got.0 == number, self.seed, t, || format!("opening with {len} words: wanted {number}, got {}", got.0));
            expect(if number == 0 { is_true(t, &got.1) } else { got.1 == lent }, self.seed, t, || format!("opening with {len} words ({number}) left {:?}", got.1));
            *self.opened.entry(number).or_default() += 1;
            words = (number == 0).then_some(got.1);
        }
        words
    }

    /// With a true summary: number, counts, table and list are the reference's, and the plain call's; the summary stays true, a refusal leaves it.
    fn same(&mut self, t: &[u64], words: &[u64], list: &[u64], dock: u64, call: Call) -> (Vec<u64>, Vec<u64>) {
        let (want, _) = same_write(t, list, dock, call, self.seed);
        let (got, slice) = quick(t, words, list, dock, call);
        expect(got == want, self.seed, t, || {
            format!("{call:?} for dock {dock} with a summary: {} {:?}, without {} {:?}; same table {}, same list {}", got.number, got.counts, want.number, want.counts, got.table == want.table, got.list == want.list)
        });
        let kept = if got.number == 0 { is_true(&got.table, &slice) } else { slice == words };
        expect(kept, self.seed, t, || format!("{call:?} ({}): the summary {:?} became {:?}", got.number, says(t[2], words), says(t[2], &slice)));
        self.tally(t, &got, dock, call);
        (got.table, slice)
    }

    fn tally(&mut self, t: &[u64], got: &Wrote, dock: u64, call: Call) {
        *self.given.entry(got.number).or_default() += 1;
        if got.number == 0 {
            self.docks[dock as usize] += 1;
            self.roots += (got.table[1] != t[1] || got.table[3] != t[3]) as u64;
            match call {
                Call::Insert(..) => self.splits += (got.counts[0] > Some(40)) as u64,
                Call::Delete(..) => self.freed += (judge(&got.table).map(|x| x.reached.len()) < judge(t).map(|x| x.reached.len())) as u64,
                _ => {}
            }
        }
    }

    /// With a slice of another length: 26 after 2 and 17, and no word is changed.
    fn other_length(&mut self, t: &[u64], list: &[u64], dock: u64, call: Call, random: &mut Random) {
        let right = summary_words(judge_header(t).unwrap_or(2));
        let words = vec![7; [0, right - 1, right + 1, 2 * right][random.below(4) as usize]];
        self.as_text(t, &words, list, dock, call);
        let n = call.collection().unwrap_or(1);
        self.same_page(t, &words, n, 0, MARK, 8);
    }

    /// On any words: a number that the text allows; a refusal changes nothing; what an accepted call stored is in its list, and nothing else.
    fn as_text(&mut self, t: &[u64], words: &[u64], list: &[u64], dock: u64, call: Call) -> Kept {
        let allowed = numbers(t, words, list.len(), dock, call);
        let (got, slice) = quick(t, words, list, dock, call);
        let seed = self.seed;
        let what = || format!("{call:?} for dock {dock} with {} words for orders and {words:?}", list.len());
        expect(allowed.contains(&got.number), seed, t, || format!("{}: {} is not one of {allowed:?}", what(), got.number));
        *self.any.entry(got.number).or_default() += 1;
        if got.number != 0 {
            let same = got.counts == [None; 3] && got.table == t && got.list == list && slice == words;
            expect(same, seed, t, || format!("{}: refused with {}, and a word changed", what(), got.number));
            return (got, slice);
        }
        let os = decode(&got);
        let stores: Vec<(usize, u64)> = os.iter().filter_map(|o| if let Order::Store(w, x) = *o { Some((w, x)) } else { None }).collect();
        expect(os == orders(&stores, dock), seed, t, || format!("{}: flushes and barriers of {os:?}", what()));
        expect(os.iter().filter(|o| **o != Order::Barrier).count() <= 1137, seed, t, || format!("{}: {} orders", what(), os.len()));
        expect(carry_out(t, &got.list, os.len() as u64) == Ok(got.table.clone()), seed, t, || format!("{}: the list is not what was stored", what()));
        expect(got.list[2 * os.len()..] == list[2 * os.len()..], seed, t, || format!("{}: a word behind the list", what()));
        self.on_its_way(t, words, call, &stores, &what);
        self.exactly(t, words, call, &stores, &slice, what);
        (got, slice)
    }

    /// An accepted call stores to the nodes on its way alone, to nodes without a mark, to the neighbour of a leaf that it frees and to its root's word.
    fn on_its_way(&self, t: &[u64], words: &[u64], call: Call, stores: &[(usize, u64)], what: impl Fn() -> String) {
        let marked = says(t[2], words).marked;
        let mut nodes: BTreeSet<u64> = (1..=t[2]).filter(|i| !marked.contains(i)).collect();
        let mut root = 0;
        if let Some(c) = call.collection() {
            let path = way(t, &marked, c, key_of(call)).expect("an accepted call has a way");
            nodes.extend(neighbour(t, &path, key_of(call)).ok().flatten());
            nodes.extend(path);
            root = root_word(c);
        }
        let inside = |w: usize| if w < 8 { w == root } else { nodes.contains(&((w as u64 - 8) / 32 + 1)) };
        expect(stores.iter().all(|s| inside(s.0)), self.seed, t, || format!("{}: a store besides {nodes:?} in {stores:?}", what()));
    }

    /// The stores and the summary of an accepted call that splits no node, as the text has them. It has nodes whose keys rise; of others a call need
    /// only keep what `as_text` looks at.
    fn exactly(&self, t: &[u64], words: &[u64], call: Call, stores: &[(usize, u64)], slice: &[u64], what: impl Fn() -> String) {
        let before = says(t[2], words);
        let mut after = before.clone();
        let path = call.collection().map(|c| way(t, &before.marked, c, key_of(call)).expect("an accepted call has a way"));
        let leaf = path.as_ref().map_or(1, |p| *p.last().unwrap());
        if path.iter().flat_map(|p| p.iter().rev().take(2)).any(|&i| !rises(t, i)) {
            return;
        }
        let mut w = Writer::new(t);
        match call {
            Call::Insert(c, k, r, x) => {
                if node(t, leaf).shown().len() == 11 {
                    return;
                }
                w.shift_in(leaf, k, pointer(r, x));
                if after.cells.len() < slice.len() - mark_words(t[2]) {
                    after.cells.push(cell(c, r));
                    after.cells.sort();
                }
            }
            Call::Delete(c, k) => {
                let path = path.unwrap();
                let slot = node(t, leaf).shown().into_iter().find(|s| s.key == k).unwrap();
                w.shift_out(leaf, k);
                if let Ok(Some(left)) = neighbour(t, &path, k) {
                    let parent = path[path.len() - 2];
                    let fence = node(t, leaf).fence;
                    let ways = node(t, parent).shown();
                    let k = ways.iter().find(|s| s.key >= fence).unwrap().key;
                    w.shift_out(parent, k);
                    w.store(start(left) + 1, node(t, leaf).sibling);
                    after.marked.remove(&leaf);
                }
                let gone = cell(c, recording(slot.pointer));
                let now = says(t[2], slice);
                // Taken out where its path leads to it, once.
                if now.cells.len() < before.cells.len() {
                    let at = after.cells.iter().position(|&x| x == gone);
                    expect(at.is_some(), self.seed, t, || format!("{}: another cell than that of {gone} is free", what()));
                    after.cells.remove(at.unwrap());
                }
            }
            Call::SetClass(_, k, x) => {
                let place = node(t, leaf).slots.iter().position(|s| s.key == k).unwrap();
                let p = node(t, leaf).slots[place].pointer;
                w.store(start(leaf) + 9 + 2 * place, pointer(recording(p), x));
            }
            Call::Repair => {}
        }
        expect(stores == w.stores, self.seed, t, || format!("{}: wanted {:?}, stored {stores:?}", what(), w.stores));
        expect(says(t[2], slice) == after, self.seed, t, || format!("{}: wanted {after:?}, the summary is {:?}", what(), says(t[2], slice)));
    }

    /// A listing as the text has it: 2, 17, 26, then 4 by the nodes on the way; then the pairs while whole ones fit, and whether more are left.
    fn same_page(&mut self, t: &[u64], words: &[u64], n: u64, low: u64, high: u64, len: usize) {
        let out: Vec<u64> = (0..len as u64).map(|w| w + 7_000_000).collect();
        let number = match judge_header(t) {
            None => 2,
            Some(_) if no_collection(t, n) => 17,
            Some(nodes) if words.len() != summary_words(nodes) => 26,
            Some(nodes) if way(t, &says(nodes, words).marked, n, low).is_none() => 4,
            _ => 0,
        };
        let mut want = (number, [None; 2], out.clone());
        if number == 0 {
            let leaf = *way(t, &says(t[2], words).marked, n, low).unwrap().last().unwrap();
            let pairs = page(t, leaf, low, high);
            let count = pairs.len().min(len / 2);
            want.1 = [Some(count as u64), Some((count < pairs.len()) as u64)];
            for (i, &(k, x)) in pairs[..count].iter().enumerate() {
                want.2[2 * i..2 * i + 2].copy_from_slice(&[k, x]);
            }
        }
        let got = calls::quick_list(t, words, n, low, high, &out);
        expect(got == want, self.seed, t, || format!("list {low} to {high} of collection {n} into {len} words with {words:?}: wanted {want:?}, got {got:?}"));
        *self.listed.entry(number).or_default() += 1;
    }

    /// Listings with a true summary are the plain ones.
    fn same_pages(&mut self, t: &[u64], words: &[u64], random: &mut Random) {
        let ks = keys(t, random);
        for n in [1, 2, any_collection(random)] {
            let mut any = || ks[random.below(ks.len() as u64) as usize];
            for (low, high) in [(any(), any()), (0, MARK), (any(), MARK)] {
                let len = random.below(50) as usize;
                self.same_page(t, words, n, low, high, len);
                let out = vec![5; len];
                let (with, plain) = (calls::quick_list(t, words, n, low, high, &out), calls::list(t, n, low, high, &out));
                expect(with == plain, self.seed, t, || format!("list {low} to {high} of collection {n} into {len} words: with a summary {with:?}, without {plain:?}"));
            }
        }
    }

    /// Page by page, each from the last key plus 1: the whole map.
    fn walk(&mut self, t: &[u64], words: &[u64], n: u64, pairs: usize) {
        let map = judge(t).expect("a sound table").maps[n as usize - 1].clone();
        let (mut from, mut met) = (0, vec![]);
        loop {
            let (number, [count, more], out) = calls::quick_list(t, words, n, from, MARK, &vec![0; 2 * pairs]);
            expect(number == 0 && count.is_some() && more.is_some(), self.seed, t, || format!("a page from {from}: {number}"));
            met.extend(out.chunks(2).take(count.unwrap() as usize).map(|p| (p[0], p[1])));
            self.pages += 1;
            if more == Some(0) {
                break;
            }
            from = met.last().expect("a page with more behind it has pairs").0 + 1;
        }
        expect(met == map.into_iter().collect::<Vec<_>>(), self.seed, t, || format!("pages of {pairs}: {met:?}"));
    }
}

/// The keys that a node shows rise.
fn rises(t: &[u64], i: u64) -> bool {
    node(t, i).shown().windows(2).all(|s| s[0].key < s[1].key)
}

fn key_of(call: Call) -> u64 {
    match call {
        Call::Insert(_, k, ..) | Call::Delete(_, k) | Call::SetClass(_, k, _) => k,
        Call::Repair => 0,
    }
}

fn some_list(random: &mut Random) -> Vec<u64> {
    let len = [LIST_WORDS - 1, LIST_WORDS, LONG_LIST_WORDS - 1, LONG_LIST_WORDS, LONG_LIST_WORDS][random.below(5) as usize];
    (0..len).map(|_| random.next()).collect()
}

// ---- true summaries

/// A script on a growing and shrinking table. Some calls are cut off: then the summary is out of date; a table with a leftover gives 20, and after a
/// repair there is a new one.
fn script(collections: u64, random: &mut Random, met: &mut Met) {
    let mut t = make(collections * (1 + random.below(10)).max(1), collections);
    let mut words = met.open(&t, random).expect("an empty table is settled");
    let span = [40, 300, MARK][random.below(3) as usize];
    for i in 0..300 {
        let mut call = some_call(&t, span, i / 40 % 3 == 2, random);
        if random.below(15) == 0 {
            call = call.naming(any_collection(random));
        }
        let (dock, list) = (any_dock(random), some_list(random));
        match random.below(24) {
            0 => met.other_length(&t, &list, dock, call, random),
            1 => met.same_pages(&t, &words, random),
            2 => {
                let after = quick(&t, &words, &vec![0; LONG_LIST_WORDS], dock.min(1), call).0;
                if after.number == 0 {
                    let part = random.below(after.orders() + 1);
                    t = calls::carry_out(&t, &after.list, part).1;
                    if met.open(&t, random).is_none() {
                        t = calls::repair(&t, &vec![0; LIST_WORDS], ORDERED).table;
                    }
                    words = met.open(&t, random).expect("a repaired table is settled");
                }
            }
            3 => {
                let n = some_collection(&t, random);
                met.walk(&t, &words, n, 1 + random.below(20) as usize);
            }
            _ => (t, words) = met.same(&t, &words, &list, dock, call),
        }
    }
}

fn scripts(size: u64, random: &mut Random, met: &mut Met) {
    for i in 0..size {
        script(1 + i % 2, random, met);
    }
}

/// So many steps of a prime by which numbers get their cells: in a collection all of these want the same one, and so do those of the other one.
fn crowded(collection: u64, i: u64) -> u64 {
    const PRIME: u64 = 2_147_483_647;
    let shift = PRIME - (collection << CLASS) % PRIME;
    shift + 5 + PRIME * (i + 1)
}

/// Recordings that all want one cell, in tables of few nodes, whose cells go round soon.
fn crowd(random: &mut Random, met: &mut Met) {
    let n = 2 + random.below(6);
    let mut t = make(n, 2);
    let mut words = met.open(&t, random).expect("an empty table is settled");
    for i in 0..300 {
        let c = 1 + random.below(2);
        let r = match random.below(8) {
            0 => 1 + random.below(40),
            _ => crowded(c, random.below(12 * n)),
        };
        let k = random.below(9 * n);
        let call = if random.below(if i % 100 < 60 { 4 } else { 2 }) == 0 { Call::Delete(c, k) } else { Call::Insert(c, k, r, random.below(3)) };
        (t, words) = met.same(&t, &words, &vec![i; LIST_WORDS], ORDERED, call);
    }
}

fn crowds(size: u64, random: &mut Random, met: &mut Met) {
    for _ in 0..size {
        crowd(random, met);
    }
}

/// A long churn of recordings beside the library's plain calls; the summary is looked at now and then.
fn churn(size: u64, random: &mut Random, met: &mut Met) {
    let n = 300;
    let mut t = make(n, 2);
    let mut words = met.open(&t, random).expect("an empty table is settled");
    let list = vec![0; LONG_LIST_WORDS];
    for i in 0..size {
        let c = 1 + random.below(2);
        let k = random.below(1_500);
        let call = match (random.below(10), i / 4_000 % 2) {
            (0, _) => Call::SetClass(c, k, random.below(3)),
            (1..=6, 0) | (1..=3, 1) => Call::Insert(c, k, if random.below(3) == 0 { crowded(c, random.below(4_000)) } else { 1 + random.below(6_000) }, random.below(3)),
            _ => Call::Delete(c, k),
        };
        let dock = random.below(2);
        let plain = called(&t, &list, dock, call);
        let (got, slice) = quick(&t, &words, &list, dock, call);
        expect(got == plain, met.seed, &t, || format!("{call:?} after {i} calls: {} {:?}, without a summary {} {:?}", got.number, got.counts, plain.number, plain.counts));
        *met.given.entry(got.number).or_default() += 1;
        expect(i % 500 != 0 || is_true(&got.table, &slice), met.seed, &t, || format!("{call:?} after {i} calls: the summary is not true"));
        (t, words) = (got.table, slice);
    }
}

/// Runs of 1 to 15 full nodes below a node with room and up to a root that grows, with just the free nodes that they need: accepted; with one fewer:
/// 10. A run up to a root at level 15: 11.
fn towers(size: u64, random: &mut Random, met: &mut Met) {
    for run in (0..size).flat_map(|_| 1..=16) {
        for new_root in [false, true] {
            let root = if new_root { run - 1 } else { run };
            if root > 15 {
                continue;
            }
            let floors: Vec<Floor> = (0..=root).map(|level| if level < run { 11 } else { random.below(11) as usize }).map(|slots| Floor { slots, place: slots / 2 }).collect();
            let need = (run + new_root as usize) as u64;
            for free in [need - 1, need] {
                let built = tower(&floors, free, random);
                let words = met.open(&built.t, random).expect("a tower is settled");
                let number = if run == 16 { 11 } else if free < need { 10 } else { 0 };
                let call = Call::Insert(1, built.key, 1 + random.below(MOST_RECORDING), random.below(3));
                let used = judge(&built.t).unwrap().maps[0].iter().next().map(|(&k, &x)| (k, recording(x))).unwrap();
                for (call, number) in [(call, number), (Call::Insert(1, built.key, used.1, 0), 8), (Call::Insert(1, used.0, used.1, 0), 7), (Call::Delete(1, built.key), 9), (Call::Delete(1, used.0), 0)] {
                    let list = vec![3; LONG_LIST_WORDS];
                    let got = met.same(&built.t, &words, &list, random.below(2), call);
                    expect((got.0 == built.t) == (number != 0), met.seed, &built.t, || format!("{call:?}: {number} was meant"));
                }
                expect(*met.given.get(&number).unwrap_or(&0) > 0, met.seed, &built.t, || format!("{number} was meant"));
            }
        }
    }
}

/// Every cut of a quick call's list, on small tables: each image holds the maps before or after the call; after a repair it has a true summary.
fn cuts(size: u64, random: &mut Random, met: &mut Met) {
    let mut writes = 0;
    while writes < size {
        let collections = 1 + random.below(2);
        let mut t = make(collections * (1 + random.below(5)), collections);
        let mut words = met.open(&t, random).expect("an empty table is settled");
        for i in 0..60 {
            let call = some_call(&t, 60, i / 30 % 2 == 1, random);
            let dock = random.below(2);
            let (after, slice) = quick(&t, &words, &vec![0; LONG_LIST_WORDS], dock, call);
            if after.number != 0 {
                continue;
            }
            writes += 1;
            let old = judge(&t).expect("a sound table").maps;
            let new = changed(&old, call);
            let plain = called(&t, &vec![0; LONG_LIST_WORDS], dock, call);
            let (os, asked) = (decode(&after), around([&old, &new]));
            for c in 0..=os.len() {
                let one = calls::carry_out(&t, &after.list, c as u64);
                expect(one == calls::carry_out(&t, &plain.list, c as u64), met.seed, &t, || format!("{call:?}: {c} orders with a summary and without"));
                for image in images(&t, &os[..c], dock) {
                    met.images += 1;
                    let held = image_holds(&image, [&old, &new], (c, os.len()), &asked, met.seed, call);
                    met.kinds[kind(held.leftover)] += 1;
                    expect(met.open(&image, random).is_some() == (held.leftover == Leftover::Nothing), met.seed, &image, || "an image's summary".into());
                    expect(met.open(&held.mended, random).is_some(), met.seed, &held.mended, || "a repaired image has no summary".into());
                }
            }
            (t, words) = (after.table, slice);
        }
    }
}

// ---- any words

/// Words for a table of n nodes: true ones of a table, a few of them changed, or others.
fn some_words(n: u64, right: Option<&[u64]>, random: &mut Random) -> Vec<u64> {
    let (marks, len) = (mark_words(n), summary_words(n));
    let all = |random: &mut Random| -> Vec<u64> { (0..len).map(|_| random.next()).collect() };
    let mut words = match right.filter(|w| w.len() == len) {
        Some(w) => w.to_vec(),
        None => {
            let mut w = all(random);
            w[..marks].fill(MARK);
            w
        }
    };
    match random.below(8) {
        0 => return all(random),
        1 => return vec![0; len],
        2 => return vec![MARK; len],
        // No free cell; and all of them with one number.
        3 => words[marks..].iter_mut().for_each(|w| *w |= 1 << 63),
        4 => {
            let x = cell(1 + random.below(2), 1 + random.below(1_000_000));
            words[marks..].fill(x);
        }
        // Some marks, or some cells, are others.
        5 => {
            let i = random.below(n + 1) as usize;
            words[i / 64] ^= 1 << (i % 64);
        }
        6 => {
            let i = marks + random.below(16 * n) as usize;
            words[i] = [0, random.next(), cell(1, 1 + random.below(20))][random.below(3) as usize];
        }
        _ => {}
    }
    words
}

/// Batches: number, stop, counts, table, list and summary are those of the quick insertions of their pairs, one after another; with a true summary
/// those of the plain batch too, and the summary stays true.
fn batches(size: u64, random: &mut Random, met: &mut Met) {
    for i in 0..size {
        let collections = 1 + random.below(2);
        let grown = grown(9, collections, random);
        let right = met.open(&grown, random);
        let t = if i % 4 == 3 { damaged(&grown, random) } else { grown };
        let n = judge_header(&t).unwrap_or(2);
        let words = match &right {
            Some(w) if i % 2 == 0 => w.clone(),
            _ => some_words(n, right.as_deref(), random),
        };
        let words = if random.below(20) == 0 { vec![7; summary_words(n) + 1] } else { words };
        let (c, dock) = (if random.below(8) == 0 { any_collection(random) } else { 1 + random.below(collections) }, any_dock(random));
        let list: Vec<u64> = (0..LIST_WORDS + random.below(9_000) as usize).map(|_| random.next()).collect();
        let mut pairs: Vec<u64> = vec![];
        for _ in 0..random.below(60) {
            let x = match random.below(100) {
                0 => pointer(0, random.below(3)),
                1 => random.next(),
                2 => pairs.last().copied().unwrap_or(1),
                _ => some_pointer(random),
            };
            pairs.extend([random.below(400), x]);
        }
        batch(&t, &words, c, &list, dock, &pairs, met);
    }
}

fn batch(t: &[u64], words: &[u64], c: u64, list: &[u64], dock: u64, pairs: &[u64], met: &mut Met) {
    let (mut table, mut summary, mut lent, mut at) = (t.to_vec(), words.to_vec(), list.to_vec(), 0);
    let (mut number, mut sums, mut count) = (0, [0; 3], 0);
    for pair in pairs.chunks(2) {
        let call = Call::Insert(c, pair[0], recording(pair[1]), class(pair[1]));
        let (after, slice) = quick(&table, &summary, &lent[at..], dock, call);
        number = after.number;
        if number != 0 {
            break;
        }
        lent[at..].copy_from_slice(&after.list);
        at += 2 * after.orders() as usize;
        count += 1;
        sums = std::array::from_fn(|i| sums[i] + after.counts[i].expect("a count"));
        (table, summary) = (after.table, slice);
    }
    // Refused is a batch whose first pair is; one that stops later returns 0 and puts the number into a word.
    let put = number == 0 || count > 0;
    let want = (if put { 0 } else { number }, put.then_some(count), put.then_some(number), sums.map(|n| put.then_some(n)));
    let ((got, slice), taken, stop) = calls::quick_insert_many(t, words, c, list, dock, pairs);
    let seed = met.seed;
    let what = || format!("{} pairs {pairs:?} into collection {c} for dock {dock} with {} words for orders and {words:?}", pairs.len() / 2, list.len());
    expect((got.number, taken, stop, got.counts) == want, seed, t, || format!("{}: wanted {want:?}, got {} {taken:?} {stop:?} {:?}", what(), got.number, got.counts));
    expect(got.table == table && got.list == lent && slice == summary, seed, t, || format!("{}: table, list or summary of the single calls are others", what()));
    *met.batched.entry(number).or_default() += 1;
    if is_true(t, words) {
        let plain = calls::insert_many(t, c, list, dock, pairs);
        expect(plain == (got, taken, stop), seed, t, || format!("{}: the plain batch is another", what()));
        expect(is_true(&table, &slice), seed, t, || format!("{}: the summary is not true", what()));
        met.true_batches += 1;
    }
}

/// Tables sound, with leftovers, damaged and of any words, with summaries true of them, true of another table, and of any words.
fn any(size: u64, random: &mut Random, met: &mut Met) {
    for i in 0..size {
        let collections = 1 + random.below(2);
        let grown = grown(if i % 40 == 0 { 40 } else { 9 }, collections, random);
        let right = met.open(&grown, random);
        let mut tables = vec![grown.clone()];
        tables.extend((0..4).map(|_| damaged(&grown, random)));
        tables.push(any_words(grown.len(), collections, random));
        tables.push(any_words(random.below(300) as usize, collections, random));
        for t in tables {
            met.open(&t, random);
            let words = some_words(judge_header(&t).unwrap_or(2), right.as_deref(), random);
            let ks = keys(&t, random);
            let mut any = || ks[random.below(ks.len() as u64) as usize];
            let (k, low, high) = (any(), any(), any());
            let n = any_collection(random);
            met.same_page(&t, &words, n, low, high, random.below(30) as usize);
            met.same_page(&t, &words, n, 0, MARK, random.below(60) as usize);
            let r = some_recording(random);
            for call in [Call::Insert(n, k, r, some_class(random)), Call::Insert(n, random.next(), 1 + random.below(MOST_RECORDING), 0), Call::Delete(n, k), Call::SetClass(n, k, some_class(random)), Call::Repair] {
                let (dock, list) = (any_dock(random), some_list(random));
                met.as_text(&t, &words, &list, dock, call);
            }
        }
    }
}

/// A table changed by a false summary, further and further: full leaves split into nodes that are in use, leaves freed that are others.
fn astray(size: u64, random: &mut Random, met: &mut Met) {
    for _ in 0..size {
        let collections = 1 + random.below(2);
        let mut t = grown(9, collections, random);
        let right = calls::summary(&t, &vec![0; summary_words(t[2])]).1;
        let mut words = some_words(t[2], Some(&right), random);
        for _ in 0..60 {
            let call = Call::Insert(1 + random.below(collections), random.below(200), 1 + random.below(MOST_RECORDING), 0);
            let call = if random.below(3) == 0 { Call::Delete(1 + random.below(collections), some_slot_key(&t, random)) } else { call };
            let (after, slice) = met.as_text(&t, &words, &vec![0; LIST_WORDS], ORDERED, call);
            (t, words) = (after.table, slice);
        }
    }
}

/// Deletions that free a leaf beside a neighbour: one that is no node, and a parent without a slot from the leaf's fence up, give 4; so does no other
/// deletion there.
fn beside(size: u64, random: &mut Random, met: &mut Met) {
    let fours = |met: &Met| met.any.get(&4).copied().unwrap_or(0);
    for _ in 0..size {
        let codes: Vec<usize> = (0..3 + random.below(3)).map(|_| 1 + random.below(2) as usize).collect();
        let r = rows::rows(&[codes.clone()], 2, random);
        let words = met.open(&r.t, random).expect("rows are settled");
        let child = 1 + random.below(codes.len() as u64 - 1) as usize;
        let (parent, leaf) = (r.parents[0], r.leaves[0][child]);
        let (key, list) = (r.t[start(leaf) + 8], vec![0; LIST_WORDS]);
        met.same(&r.t, &words, &list, ORDERED, Call::Delete(1, key));
        // The pointer before the leaf's own, and the leaf's fence.
        let before = if child == 1 { start(parent) } else { start(parent) + 5 + 2 * child };
        for (w, x) in [(before, r.t[2] + 1), (before, MARK), (start(leaf) + 3, MARK)] {
            let (mut t, met_before) = (r.t.clone(), fours(met));
            t[w] = x;
            met.as_text(&t, &words, &list, ORDERED, Call::Delete(1, key));
            expect((fours(met) > met_before) == (codes[child] == 1), met.seed, &t, || format!("word {w} is {x}: 4 if leaf {leaf} is freed"));
            met.as_text(&t, &words, &list, ORDERED, Call::Delete(1, key + 1));
            met.as_text(&t, &words, &list, ORDERED, Call::SetClass(1, key, 1));
        }
    }
}

fn some_slot_key(t: &[u64], random: &mut Random) -> u64 {
    t[start(1 + random.below(t[2])) + 8 + 2 * random.below(4) as usize]
}

/// A small table by hand.
fn by_hand(_: u64, _: &mut Random, met: &mut Met) {
    let words: Vec<usize> = [0, 1, 63, 64, 65_535, 65_536, MARK].into_iter().map(calls::summary_words).collect();
    expect(words == [0, 17, 1_009, 1_026, 1_049_584, 0, 0], met.seed, &[], || format!("the words of summaries: {words:?}"));
    // Key 5 with recording 7 in collection 1, the leaf is node 1; collection 2's leaf is node 2.
    let t = write(&make(3, 2), LIST_WORDS, ORDERED, Call::Insert(1, 5, 7, 2)).expect("room").t;
    let (number, words) = calls::summary(&t, &vec![9; 49]);
    let cells: Vec<u64> = words[1..].iter().copied().filter(|&x| x != 0).collect();
    expect(number == 0 && words[0] == 0b110 && cells == [1 << 56 | 7], met.seed, &t, || format!("{number} {words:?}"));
    // Recording 7 is in use in collection 1, and is not in collection 2. A cleared mark stops the way to its leaf.
    let list = vec![0; LIST_WORDS];
    let number = |got: Kept| got.0.number;
    expect(number(quick(&t, &words, &list, 0, Call::Insert(1, 6, 7, 0))) == 8, met.seed, &t, || "8".into());
    expect(number(quick(&t, &words, &list, 0, Call::Insert(2, 6, 7, 0))) == 0, met.seed, &t, || "7 in the other collection".into());
    let unmarked = [&[0b100], &words[1..]].concat();
    expect(number(quick(&t, &unmarked, &list, 0, Call::Delete(1, 5))) == 4, met.seed, &t, || "4".into());
    expect(number(quick(&t, &unmarked, &list, 0, Call::Insert(2, 5, 7, 0))) == 0, met.seed, &t, || "another way".into());
    // A page of one pair, and the page after it.
    let two = write(&t, LIST_WORDS, ORDERED, Call::Insert(1, MARK, 8, 0)).expect("room").t;
    let words = calls::summary(&two, &vec![0; 49]).1;
    expect(calls::quick_list(&two, &words, 1, 0, MARK, &[0, 0]) == (0, [Some(1), Some(1)], vec![5, 2 << 56 | 7]), met.seed, &two, || "a page".into());
    expect(calls::quick_list(&two, &words, 1, 6, MARK, &[0, 0]) == (0, [Some(1), Some(0)], vec![MARK, 8]), met.seed, &two, || "the last page".into());
}

fn main() {
    let (seed, size) = arguments(5_000);
    let mut random = Random(seed);
    let mut met = Met { seed, ..Met::default() };

    let random = &mut random;
    let parts: [(u64, fn(u64, &mut Random, &mut Met)); 10] = [
        (1, by_hand),
        (size / 40, scripts),
        (size / 60, crowds),
        (10 * size, churn),
        ((size / 1_000).max(2), towers),
        (size / 10, cuts),
        (size, batches),
        (size, any),
        (size / 20, beside),
        (size / 10, astray),
    ];
    let mut passed = 0;
    for (size, part) in parts {
        part(size, random, &mut met);
        passed += 1;
    }

    println!("opened by number: {:?}", met.opened);
    println!("quick calls with a true summary by number: {:?}; by dock {:?}; {} split, {} with a new root, {} freed a leaf", met.given, met.docks, met.splits, met.roots, met.freed);
    println!("with any words by number: {:?}; batches {:?}, of these {} with a true summary", met.any, met.batched, met.true_batches);
    println!("listings by number: {:?}, pages of walks {}; images of cuts {}", met.listed, met.pages, met.images);
    all_met(&met.kinds, seed);
    let all = |of: &BTreeMap<u64, u64>, numbers: &[u64]| numbers.iter().all(|n| of.get(n).is_some_and(|&count| count > 2));
    expect(all(&met.opened, &[0, 2, 26, 4, 20]), seed, &[], || "a number of opening was not met".into());
    expect(all(&met.given, &[0, 17, 18, 5, 6, 14, 7, 8, 9, 11, 10]), seed, &[], || "a number was not met with a true summary".into());
    expect(!met.given.contains_key(&4), seed, &[], || "4 with a true summary".into());
    expect(all(&met.any, &[0, 2, 17, 26, 4, 18, 5, 6, 14, 7, 8, 9, 10]), seed, &[], || "a number was not met with any words".into());
    expect(all(&met.batched, &[0, 2, 17, 26, 4, 18, 5, 6, 14, 7, 8, 10]) && met.true_batches > 0, seed, &[], || "a number of a batch was not met".into());
    expect(all(&met.listed, &[0, 2, 17, 26, 4]), seed, &[], || "a number of a listing was not met".into());
    expect(met.splits > 0 && met.roots > 0 && met.freed > 0 && met.docks.iter().all(|&n| n > 0), seed, &[], || "a case was not met".into());
    println!("{passed} passed, 0 failed");
}
