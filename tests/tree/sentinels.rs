//! Sentinels against a reading of the request's own: worked out, taken by searches of sound, damaged and any tables with true, false and any
//! words, and kept by writes of every kind, whole and after every leftover; 19 and where it stands.
mod calls;
mod common;
mod reference;
mod rows;

use calls::Kept;
use common::*;
use reference::*;
use rows::{rows, Place, Rows, LEFTOVERS};
use std::collections::BTreeSet;

// ---- the request once more

/// For each slot line of a leaf, the key of its first shown slot, else MARK.
fn lines(x: &Node) -> [u64; 3] {
    let shown = x.places().0;
    std::array::from_fn(|j| shown.iter().find(|&&p| p / 4 == j).map_or(MARK, |&p| x.slots[p].key))
}

/// Three words a node, 0 for those that are no leaf that a root reaches; of a sound table.
fn true_words(t: &[u64]) -> Vec<u64> {
    let reached = judge(t).expect("a sound table").reached;
    (1..=t[2]).flat_map(|i| reached.get(&i).filter(|x| x.level == 0).map_or([0; 3], lines)).collect()
}

fn fits(t: &[u64], words: &[u64]) -> bool {
    words.len() as u64 == 3 * t[2]
}

/// First the leaf's last line whose word is at most the key, for its first shown slot with that key; then the whole leaf.
fn search_by(t: &[u64], words: &[u64], collection: u64, k: u64) -> Answer {
    if header_ok(t) && !no_collection(t, collection) && !fits(t, words) {
        return Answer::Refused(19);
    }
    let Ok((leaf, x)) = last_leaf(t, collection, k) else { return search(t, collection, k) };
    let first = 3 * (leaf as usize - 1);
    let line = (0..3).rev().find(|&j| words[first + j] <= k);
    let slot = line.and_then(|j| x.places().0.into_iter().find(|&p| p / 4 == j && x.slots[p].key == k));
    slot.map_or_else(|| search(t, collection, k), |p| Answer::Found(recording(x.slots[p].pointer), class(x.slots[p].pointer)))
}

/// The slice after an accepted write: the words of the nodes stored to are set, by the table that it left.
fn set_words(after: &Writer, words: &[u64]) -> Vec<u64> {
    let stored: BTreeSet<usize> = after.stores.iter().filter(|s| s.0 >= 8).map(|s| (s.0 - 8) / 32).collect();
    let all = true_words(&after.t);
    (0..words.len()).map(|w| if stored.contains(&(w / 3)) { all[w] } else { words[w] }).collect()
}

// ---- words to take

/// True words, or false ones of several kinds, for a table of n nodes; the true ones are given if there are any.
fn some_words(n: u64, right: Option<&[u64]>, keys: &[u64], random: &mut Random) -> Vec<u64> {
    let len = 3 * n as usize;
    let any = |random: &mut Random| keys[random.below(keys.len() as u64) as usize];
    match (random.below(7), right) {
        (0 | 1, Some(words)) => words.to_vec(),
        // A few of them false.
        (2, Some(words)) => words.iter().map(|&w| if random.below(8) == 0 { any(random) } else { w }).collect(),
        // Each node's words moved to another line.
        (3, Some(words)) => (0..len).map(|w| words[w / 3 * 3 + (w + 1) % 3]).collect(),
        (4, _) => vec![0; len],
        (5, _) => vec![MARK; len],
        _ => (0..len).map(|_| any(random)).collect(),
    }
}

fn wrong_length(n: u64, random: &mut Random) -> usize {
    let len = 3 * n as usize;
    [0, len - 1, len + 1, len / 3, len + 3, 2 * len][random.below(6) as usize]
}

// ---- what was met

#[derive(Default)]
struct Met {
    searches: u64,
    led: u64,
    other_slot: u64,
    absent: u64,
    hidden: [u64; 12],
    ignored: u64,
    mark: u64,
    stale: u64,
    writes: u64,
    splits: u64,
    freed: u64,
    false_kept: u64,
    nineteen: [u64; 4],
}

impl Met {
    /// The kinds of leaves that a sound table has.
    fn leaves(&mut self, t: &[u64]) {
        for x in judge(t).expect("a sound table").reached.values().filter(|x| x.level == 0) {
            let (shown, hidden) = x.places();
            hidden.iter().for_each(|&p| self.hidden[p] += 1);
            self.ignored += shown.iter().any(|&p| x.sibling != 0 && x.slots[p].key >= node(t, x.sibling).fence) as u64;
            self.mark += shown.iter().any(|&p| x.slots[p].key == MARK) as u64;
            self.stale += x.slots[x.used()..].iter().any(|s| s.pointer != 0) as u64;
        }
    }

    fn report(&self, seed: u64) {
        println!("{} searches with sentinels: {} led to the slot by a line, {} absent, {} of another slot than the plain search's", self.searches, self.led, self.absent, self.other_slot);
        println!("leaves with a hidden slot at place 0 to 11: {:?}; with ignored slots {}, with the key MARK {}, with stale slots {}", self.hidden, self.ignored, self.mark, self.stale);
        println!("{} accepted writes with sentinels: {} with splits, {} that freed a leaf, {} with false words of nodes not stored to", self.writes, self.splits, self.freed, self.false_kept);
        println!("19 in {:?} searches, insertions, deletions and class changes, and repairs", self.nineteen);
        let places = [0, 1, 3, 4, 7, 8, 10];
        let enough = self.led > 0 && self.other_slot > 0 && self.absent > 0 && places.iter().all(|&p| self.hidden[p] > 0) && self.ignored > 0 && self.mark > 0 && self.stale > 0;
        expect(enough && self.splits > 0 && self.freed > 0 && self.false_kept > 0 && self.nineteen.iter().all(|&n| n > 0), seed, &[], || "a case was not met".into());
    }
}

// ---- searches

/// Searches with these words for keys of the table, in both collections and in one that there is not: each as the request reads; on a sound
/// table as the plain search whatever the words are; on another one the plain search finds too if the slot differs.
fn same_searches(t: &[u64], words: &[u64], sound: bool, random: &mut Random, met: &mut Met, seed: u64) {
    for n in [1, 2, any_collection(random)] {
        for k in keys(t, random) {
            let want = search_by(t, words, n, k);
            let plain = search(t, n, k);
            let got = calls::search_with(t, words, n, k);
            expect(got == looked(&want), seed, t, || format!("search for {k} in collection {n} with {words:?}: wanted {want:?}, got {got:?}"));
            expect(calls::search(t, n, k) == looked(&plain), seed, t, || format!("search for {k} in collection {n}"));
            met.searches += 1;
            met.absent += matches!(want, Answer::Absent(_)) as u64;
            if want == Answer::Refused(19) {
                met.nineteen[0] += 1;
            } else if want != plain {
                let both = matches!((&want, &plain), (Answer::Found(..), Answer::Found(..)));
                expect(both && !sound, seed, t, || format!("search for {k} in collection {n} with {words:?}: {want:?}, without {plain:?}"));
                met.other_slot += 1;
            }
            met.led += (header_ok(t) && fits(t, words) && led(t, words, n, k)) as u64;
        }
    }
}

/// The line that the words name has a shown slot with the key.
fn led(t: &[u64], words: &[u64], collection: u64, k: u64) -> bool {
    last_leaf(t, collection, k).is_ok_and(|(leaf, x)| {
        let first = 3 * (leaf as usize - 1);
        (0..3).rev().find(|&j| words[first + j] <= k).is_some_and(|j| x.places().0.iter().any(|&p| p / 4 == j && x.slots[p].key == k))
    })
}

/// Working them out: the true words of a sound table; else 2, 19 or 4, and no word changed.
fn worked_out(t: &[u64], random: &mut Random, seed: u64) {
    let n = t.get(2).copied().filter(|_| header_ok(t)).unwrap_or(2);
    for len in [3 * n as usize, wrong_length(n, random)] {
        let words: Vec<u64> = (0..len as u64).map(|w| w + 7_000_000).collect();
        let want = match () {
            _ if !header_ok(t) => (2, words.clone()),
            _ if !fits(t, &words) => (19, words.clone()),
            _ if judge(t).is_none() => (4, words.clone()),
            _ => (0, true_words(t)),
        };
        let got = calls::sentinels(t, &words);
        expect(got == want, seed, t, || format!("sentinels into {len} words: wanted {want:?}, got {got:?}"));
    }
}

// ---- writes

fn called_with(t: &[u64], words: &[u64], list: &[u64], dock: u64, call: Call) -> Kept {
    match call {
        Call::Insert(n, k, r, c) => calls::insert_with(t, words, n, list, dock, k, r, c),
        Call::Delete(n, k) => calls::delete_with(t, words, n, list, dock, k),
        Call::SetClass(n, k, c) => calls::set_class_with(t, words, n, list, dock, k, c),
        Call::Repair => calls::repair_with(t, words, list, dock),
    }
}

/// Number, counts, table and list are the plain call's, or 19 after 2 and 17 with nothing changed; the slice is as the request reads. True words
/// stay true. The table and the words after it.
fn same_keeping(t: &[u64], words: &[u64], list: &[u64], dock: u64, call: Call, met: &mut Met, seed: u64) -> (Vec<u64>, Vec<u64>) {
    let answer = write(t, list.len(), dock, call);
    let nineteen = header_ok(t) && !call.collection().is_some_and(|n| no_collection(t, n)) && !fits(t, words);
    let (got, slice) = called_with(t, words, list, dock, call);
    if nineteen {
        let same = got.number == 19 && got.counts == [None; 3] && got.table == t && got.list == list && slice == words;
        expect(same, seed, t, || format!("{call:?} with {} sentinels: {}", words.len(), got.number));
        met.nineteen[if call == Call::Repair { 3 } else if matches!(call, Call::Insert(..)) { 1 } else { 2 }] += 1;
        return (t.to_vec(), words.to_vec());
    }
    let plain = called(t, list, dock, call);
    expect(got == plain, seed, t, || format!("{call:?} with sentinels {} {:?}, without {} {:?}", got.number, got.counts, plain.number, plain.counts));
    let Ok(after) = answer else {
        expect(got.number != 0 && slice == words, seed, t, || format!("{call:?} with sentinels: refused with {}", got.number));
        return (t.to_vec(), words.to_vec());
    };
    let want = set_words(&after, words);
    expect(got.number == 0 && slice == want, seed, t, || format!("{call:?} with {words:?}: wanted {want:?}, got {slice:?}"));
    let all = true_words(&after.t);
    expect(words != true_words(t) || slice == all, seed, t, || format!("{call:?}: true words {words:?} became {slice:?}"));
    met.writes += 1;
    met.false_kept += (slice != all) as u64;
    let count = |t: &[u64]| judge(t).expect("a sound table").reached.len();
    met.splits += (count(&after.t) > count(t)) as u64;
    met.freed += (count(&after.t) < count(t)) as u64;
    (after.t, slice)
}

/// A script on a growing and shrinking table whose words are kept all along, with a search of many keys now and then; some calls are cut off,
/// after which the words are worked out again, and some start from false words.
fn script(collections: u64, size: u64, random: &mut Random, met: &mut Met, seed: u64) {
    let mut t = make(collections * (2 + random.below(10)), collections);
    let mut words = true_words(&t);
    let span = [40, 300, MARK][random.below(3) as usize];
    for i in 0..size {
        let call = some_call(&t, span, i / 40 % 3 == 2, random);
        let dock = any_dock(random);
        let list = vec![i; [LIST_WORDS - 1, LIST_WORDS, LONG_LIST_WORDS, LONG_LIST_WORDS][random.below(4) as usize]];
        if random.below(10) == 0 {
            let other = some_words(t[2], Some(&words), &keys(&t, random), random);
            same_keeping(&t, &other, &list, dock, call, met, seed);
        }
        if random.below(20) == 0 {
            same_keeping(&t, &vec![7; wrong_length(t[2], random)], &list, dock, call, met, seed);
        }
        if random.below(12) == 0 {
            if let Ok(w) = write(&t, LIST_WORDS, ORDERED, call) {
                store(&mut t, &w.stores[..random.below(w.stores.len() as u64 + 1) as usize]);
                words = calls::sentinels(&t, &words).1;
                met.leaves(&t);
            }
        } else {
            (t, words) = same_keeping(&t, &words, &list, dock, call, met, seed);
        }
        expect(words == true_words(&t), seed, &t, || format!("after {call:?} the words are {words:?}"));
        if random.below(8) == 0 {
            let taken = some_words(t[2], Some(&words), &keys(&t, random), random);
            same_searches(&t, &taken, true, random, met, seed);
        }
    }
}

// ---- leaves of every kind

/// A root leaf with so many slots in use, one of them hidden or none, others past the end, and perhaps the key MARK last.
fn a_leaf(random: &mut Random) -> Vec<u64> {
    let mut t = make(1, 1);
    let used = random.below(12) as usize;
    let step = 1 + random.below(5);
    for p in 0..used {
        let key = if p + 1 == used && random.below(3) == 0 { MARK } else { step * p as u64 };
        t[start(1) + 8 + 2 * p..start(1) + 10 + 2 * p].copy_from_slice(&[key, pointer(100 + p as u64, random.below(3))]);
    }
    for p in used + 1..11 {
        let stale = [MARK, step * p as u64, random.below(60)][random.below(3) as usize];
        t[start(1) + 8 + 2 * p..start(1) + 10 + 2 * p].copy_from_slice(&[stale, random.below(200)]);
    }
    if used > 0 && random.below(2) == 0 {
        hide(&mut t, 1, random.below(used as u64) as usize);
    }
    t
}

/// A table of two or three levels unfinished in this way, or settled; None if it has no room or no matter for that.
fn left_over(unfinished: fn(&Rows, Place) -> Option<Vec<u64>>, random: &mut Random) -> Option<Vec<u64>> {
    let codes: Vec<Vec<usize>> = (0..1 + random.below(2)).map(|_| (0..2 + random.below(3)).map(|_| 1 + random.below(11) as usize).collect()).collect();
    let r = rows(&codes, 1 + random.below(4) as usize, random);
    let parent = random.below(codes.len() as u64) as usize;
    let child = 1 + random.below(codes[parent].len() as u64 - 1) as usize;
    unfinished(&r, Place { parent, child })
}

fn main() {
    let (seed, size) = arguments(3_000);
    let mut random = Random(seed);
    let mut met = Met::default();
    let mut passed = 0;

    // The trap of the reading: an empty leaf with (MARK, 5) left over in slot 9.
    let mut stale = make(1, 1);
    stale[start(1) + 26..start(1) + 28].copy_from_slice(&[MARK, 5]);
    expect(calls::sentinels(&stale, &[7; 3]) == (0, vec![MARK; 3]), seed, &stale, || "the words of an empty leaf".into());
    expect(calls::search_with(&stale, &[MARK; 3], 1, MARK) == calls::absent(None), seed, &stale, || "a slot past the end".into());
    // Keys 5, 6 and 7 in collection 1, keys 1 to 11 in collection 2.
    let mut two = make(6, 2);
    for (n, ks) in [(1, 5..8), (2, 1..12)] {
        for k in ks {
            two = write(&two, LIST_WORDS, ORDERED, Call::Insert(n, k, 100 + k, 0)).expect("room").t;
        }
    }
    let words = [vec![5, MARK, MARK, 1, 5, 9], vec![0; 12]].concat();
    expect(calls::sentinels(&two, &[7; 18]) == (0, words.clone()), seed, &two, || "the words of two leaves".into());
    expect(calls::search_with(&two, &words, 2, 6) == calls::found(106, 0), seed, &two, || "a key on the second line".into());
    passed += 1;

    // Leaves of every kind, with words of every kind.
    for _ in 0..size {
        let t = a_leaf(&mut random);
        met.leaves(&t);
        worked_out(&t, &mut random, seed);
        for _ in 0..3 {
            let words = some_words(1, Some(&true_words(&t)), &keys(&t, &mut random), &mut random);
            same_searches(&t, &words, true, &mut random, &mut met, seed);
        }
    }
    passed += 1;

    // Tables grown, with every leftover; the same damaged; any words.
    let mut kinds = [0; 5];
    for i in 0..size {
        let t = grown(9, 1 + i % 2, &mut random);
        let sound = judge(&t).expect("a sound table");
        kinds[kind(sound.leftover)] += 1;
        met.leaves(&t);
        worked_out(&t, &mut random, seed);
        let right = true_words(&t);
        let words = some_words(t[2], Some(&right), &keys(&t, &mut random), &mut random);
        same_searches(&t, &words, true, &mut random, &mut met, seed);
        same_searches(&t, &vec![3; wrong_length(t[2], &mut random)], true, &mut random, &mut met, seed);
        let d = damaged(&t, &mut random);
        worked_out(&d, &mut random, seed);
        let sound = header_ok(&d) && judge(&d).is_some();
        for words in [right, some_words(t[2], None, &keys(&d, &mut random), &mut random)] {
            same_searches(&d, &words, sound, &mut random, &mut met, seed);
            let call = some_call(&t, 200, false, &mut random);
            if !sound {
                same_keeping(&d, &words, &vec![i; LIST_WORDS], ORDERED, call, &mut met, seed);
            }
        }
        let a = any_words(random.below(140) as usize, 1 + i % 2, &mut random);
        worked_out(&a, &mut random, seed);
        let n = nodes_for(a.len()).unwrap_or(1);
        let words = some_words(n, None, &keys(&a, &mut random), &mut random);
        same_searches(&a, &words, header_ok(&a) && judge(&a).is_some(), &mut random, &mut met, seed);
    }
    all_met(&kinds, seed);
    passed += 1;

    // Every leftover at every kind of place, finished by each call with true words.
    for (name, unfinished) in LEFTOVERS {
        let mut some = 0;
        for _ in 0..size / 50 {
            let Some(t) = left_over(unfinished, &mut random) else { continue };
            some += 1;
            met.leaves(&t);
            let words = true_words(&t);
            let k = keys(&t, &mut random)[4];
            for call in [Call::Repair, Call::Insert(1, k, 1 << 40, 1), Call::Delete(1, k), Call::SetClass(1, k, 2)] {
                same_keeping(&t, &words, &vec![9; LONG_LIST_WORDS], random.below(2), call, &mut met, seed);
            }
        }
        expect(some > 0, seed, &[], || format!("{name} was not met"));
    }
    passed += 1;

    // Scripts.
    for i in 0..size / 60 {
        script(1 + i % 2, 400, &mut random, &mut met, seed);
    }
    passed += 1;

    met.report(seed);
    println!("{passed} passed, 0 failed");
}
