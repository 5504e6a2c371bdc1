//! The C entry points, wrapped for tests: every lent slice and every lent word has guard words on both sides, and a call that touches one
//! fails the test.
#![allow(dead_code)]

#[path = "../calls/declared.rs"]
mod declared;
use declared::*;

const GUARD: u64 = 0x5a5a_a5a5_0ff0_f00f;
const GUARDS: usize = 16;
const UNTOUCHED: u64 = 0xdead_beef_dead_beef;

/// Words with guards around them.
pub struct Lent {
    words: Vec<u64>,
    len: usize,
}

impl Lent {
    pub fn new(words: &[u64]) -> Lent {
        let mut all = vec![GUARD; GUARDS];
        all.extend_from_slice(words);
        all.extend([GUARD; GUARDS]);
        Lent { words: all, len: words.len() }
    }

    fn pointer(&mut self) -> *mut u64 {
        self.words[GUARDS..].as_mut_ptr()
    }

    /// The words after the calls; the guards must be whole.
    pub fn back(&self) -> &[u64] {
        let whole = |part: &[u64]| part.iter().all(|&w| w == GUARD);
        assert!(whole(&self.words[..GUARDS]) && whole(&self.words[GUARDS + self.len..]), "a guard word was written");
        &self.words[GUARDS..GUARDS + self.len]
    }

    pub fn search(&mut self, collection: u64, key: u64) -> Looked {
        let (table, len) = (self.pointer(), self.len);
        looked(|r, a, n, h| unsafe { catalogue_search(table, len, collection, key, r, a, n, h) })
    }
}

/// What a search left in the words lent for its answer.
fn looked(call: impl FnOnce(*mut u64, *mut u64, *mut u64, *mut u64) -> u64) -> Looked {
    let [mut recording, mut access, mut next, mut higher] = std::array::from_fn(|_| Word::new());
    let number = call(recording.pointer(), access.pointer(), next.pointer(), higher.pointer());
    Looked { number, recording: recording.put(), access: access.put(), next: next.put(), higher: higher.put() }
}

/// A word that an answer is put into, with guards around it.
struct Word([u64; 5]);

impl Word {
    fn new() -> Word {
        Word([GUARD, GUARD, UNTOUCHED, GUARD, GUARD])
    }

    fn pointer(&mut self) -> *mut u64 {
        self.0[2..].as_mut_ptr()
    }

    /// What the word holds, if something was put into it.
    fn put(&self) -> Option<u64> {
        let [a, b, word, c, d] = self.0;
        assert!([a, b, c, d] == [GUARD; 4], "a guard word was written");
        (word != UNTOUCHED).then_some(word)
    }
}

/// What a search left: its number, and each lent word if it put something there.
#[derive(Clone, Copy, Debug, PartialEq)]
pub struct Looked {
    pub number: u64,
    pub recording: Option<u64>,
    pub access: Option<u64>,
    pub next: Option<u64>,
    pub higher: Option<u64>,
}

/// The key is there: its recording and class alone are put.
pub fn found(recording: u64, access: u64) -> Looked {
    Looked { number: 0, recording: Some(recording), access: Some(access), next: None, higher: None }
}

/// The key is absent: with the next key up, or with none, and then only that there is none is put.
pub fn absent(next: Option<u64>) -> Looked {
    Looked { number: 255, recording: None, access: None, next, higher: Some(next.is_some() as u64) }
}

/// Every lent word stays.
pub fn refused(number: u64) -> Looked {
    Looked { number, recording: None, access: None, next: None, higher: None }
}

pub fn version() -> u64 {
    unsafe { catalogue_version() }
}

pub fn search(t: &[u64], collection: u64, key: u64) -> Looked {
    let mut table = Lent::new(t);
    let answer = table.search(collection, key);
    assert!(table.back() == t, "a search wrote to the table");
    answer
}

pub fn make(t: &[u64], collections: u64) -> (u64, Vec<u64>) {
    let mut table = Lent::new(t);
    let n = unsafe { catalogue_make(table.pointer(), t.len(), collections) };
    (n, table.back().to_vec())
}

/// The number, and the table after it.
pub fn pack(t: &[u64], collections: u64, pairs: &[u64], loans: &[u64]) -> (u64, Vec<u64>) {
    let [mut table, mut first, mut second] = [t, pairs, loans].map(Lent::new);
    let n = unsafe { catalogue_pack(table.pointer(), t.len(), collections, first.pointer(), pairs.len(), second.pointer(), loans.len()) };
    assert!(first.back() == pairs && second.back() == loans, "packing wrote to the pairs");
    (n, table.back().to_vec())
}

/// The number, without guards and without a copy, and how long the call alone takes.
pub fn pack_takes(t: &mut [u64], collections: u64, pairs: &[u64], loans: &[u64]) -> (u64, std::time::Duration) {
    let started = std::time::Instant::now();
    let n = unsafe { catalogue_pack(t.as_mut_ptr(), t.len(), collections, pairs.as_ptr(), pairs.len(), loans.as_ptr(), loans.len()) };
    (n, started.elapsed())
}

pub fn parse(text: &[u8]) -> (u64, Option<u64>) {
    let mut key = Word::new();
    let n = unsafe { catalogue_parse(text.as_ptr(), text.len(), key.pointer()) };
    (n, key.put())
}

pub fn print(key: u64) -> (u64, [u8; 12]) {
    let mut text = [0xa5u8; 28];
    let n = unsafe { catalogue_print(key, text[8..].as_mut_ptr()) };
    assert!(text[..8].iter().chain(&text[20..]).all(|&b| b == 0xa5), "a guard byte was written");
    (n, text[8..20].try_into().unwrap())
}

/// The number, and the 16 words after it.
pub fn check(t: &[u64], lent: [u64; 16]) -> (u64, [u64; 16]) {
    let (mut table, mut report) = (Lent::new(t), Lent::new(&lent));
    let n = unsafe { catalogue_check(table.pointer(), t.len(), report.pointer()) };
    assert!(table.back() == t, "a check wrote to the table");
    (n, report.back().try_into().unwrap())
}

/// The number, the report, and how long the call alone takes, without a copy of the table.
pub fn check_takes(t: &[u64]) -> (u64, [u64; 16], std::time::Duration) {
    let mut report = [0; 16];
    let started = std::time::Instant::now();
    let n = unsafe { catalogue_check(t.as_ptr(), t.len(), report.as_mut_ptr()) };
    (n, report, started.elapsed())
}

/// The number; the count and whether more were left, each if the call put it; and the slice after it.
pub fn list(t: &[u64], collection: u64, low: u64, high: u64, out: &[u64]) -> (u64, [Option<u64>; 2], Vec<u64>) {
    let (mut table, mut slice) = (Lent::new(t), Lent::new(out));
    let (mut pairs, mut more) = (Word::new(), Word::new());
    let n = unsafe { catalogue_list(table.pointer(), t.len(), collection, low, high, slice.pointer(), out.len(), pairs.pointer(), more.pointer()) };
    assert!(table.back() == t, "a listing wrote to the table");
    (n, [pairs.put(), more.put()], slice.back().to_vec())
}

/// What a write left: its number, its stores, its flushes and its barriers, each if it put it, the table and the order list.
#[derive(Debug, PartialEq)]
pub struct Wrote {
    pub number: u64,
    pub counts: [Option<u64>; 3],
    pub table: Vec<u64>,
    pub list: Vec<u64>,
}

fn wrote(t: &[u64], list: &[u64], call: impl FnOnce(*mut u64, *mut u64, *mut u64, *mut u64, *mut u64) -> u64) -> Wrote {
    let (mut table, mut orders) = (Lent::new(t), Lent::new(list));
    let [mut stores, mut flushes, mut barriers] = std::array::from_fn(|_| Word::new());
    let number = call(table.pointer(), orders.pointer(), stores.pointer(), flushes.pointer(), barriers.pointer());
    Wrote { number, counts: [stores.put(), flushes.put(), barriers.put()], table: table.back().to_vec(), list: orders.back().to_vec() }
}

impl Wrote {
    /// How many orders an accepted write answered.
    pub fn orders(&self) -> u64 {
        self.counts.iter().map(|n| n.expect("a count")).sum()
    }
}

pub fn insert(t: &[u64], collection: u64, list: &[u64], dock: u64, key: u64, recording: u64, access: u64) -> Wrote {
    wrote(t, list, |a, b, s, f, r| unsafe { catalogue_insert(a, t.len(), collection, b, list.len(), dock, key, recording, access, s, f, r) })
}

/// What many insertions left: the write, and the pairs taken and the number that stopped them, each if it was put.
pub fn insert_many(t: &[u64], collection: u64, list: &[u64], dock: u64, pairs: &[u64]) -> (Wrote, Option<u64>, Option<u64>) {
    let (mut lent, mut taken, mut stop) = (Lent::new(pairs), Word::new(), Word::new());
    let (p, n, e) = (lent.pointer(), taken.pointer(), stop.pointer());
    let after = wrote(t, list, |a, b, s, f, r| unsafe { catalogue_insert_many(a, t.len(), collection, b, list.len(), dock, p, pairs.len(), n, e, s, f, r) });
    assert!(lent.back() == pairs, "a batch wrote to its pairs");
    (after, taken.put(), stop.put())
}

/// The pairs taken, the number that stopped them or refused the first, and the time that it takes, on these slices.
pub fn insert_many_takes(t: &mut [u64], list: &mut [u64], pairs: &[u64]) -> (u64, u64, std::time::Duration) {
    let [mut taken, mut stop, mut stores, mut flushes, mut barriers] = [0; 5];
    let begun = std::time::Instant::now();
    let n = unsafe { catalogue_insert_many(t.as_mut_ptr(), t.len(), 1, list.as_mut_ptr(), list.len(), 0, pairs.as_ptr(), pairs.len(), &mut taken, &mut stop, &mut stores, &mut flushes, &mut barriers) };
    (if n == 0 { stop } else { n }, taken, begun.elapsed())
}

pub fn delete(t: &[u64], collection: u64, list: &[u64], dock: u64, key: u64) -> Wrote {
    wrote(t, list, |a, b, s, f, r| unsafe { catalogue_delete(a, t.len(), collection, b, list.len(), dock, key, s, f, r) })
}

pub fn set_class(t: &[u64], collection: u64, list: &[u64], dock: u64, key: u64, access: u64) -> Wrote {
    wrote(t, list, |a, b, s, f, r| unsafe { catalogue_set_class(a, t.len(), collection, b, list.len(), dock, key, access, s, f, r) })
}

pub fn repair(t: &[u64], list: &[u64], dock: u64) -> Wrote {
    wrote(t, list, |a, b, s, f, r| unsafe { catalogue_repair(a, t.len(), b, list.len(), dock, s, f, r) })
}

/// The number, the count of dropped slots if it was put, the second slice and the report.
pub fn salvage(t: &[u64], out: &[u64], report: &[u64]) -> (u64, Option<u64>, Vec<u64>, Vec<u64>) {
    let (mut table, mut second, mut third) = (Lent::new(t), Lent::new(out), Lent::new(report));
    let mut dropped = Word::new();
    let n = unsafe { catalogue_salvage(table.pointer(), t.len(), second.pointer(), out.len(), third.pointer(), report.len(), dropped.pointer()) };
    assert!(table.back() == t, "a salvage wrote to the table");
    (n, dropped.put(), second.back().to_vec(), third.back().to_vec())
}

pub fn carry_out(t: &[u64], list: &[u64], c: u64) -> (u64, Vec<u64>) {
    let (mut table, mut orders) = (Lent::new(t), Lent::new(list));
    let n = unsafe { catalogue_carry_out(table.pointer(), t.len(), orders.pointer(), list.len(), c) };
    assert!(orders.back() == list, "carry-out wrote to the list");
    (n, table.back().to_vec())
}

// ---- with sentinels

/// The number, and the sentinels after it.
pub fn sentinels(t: &[u64], words: &[u64]) -> (u64, Vec<u64>) {
    let (mut table, mut slice) = (Lent::new(t), Lent::new(words));
    let n = unsafe { catalogue_sentinels(table.pointer(), t.len(), slice.pointer(), words.len()) };
    assert!(table.back() == t, "working sentinels out wrote to the table");
    (n, slice.back().to_vec())
}

pub fn search_with(t: &[u64], words: &[u64], collection: u64, key: u64) -> Looked {
    let (mut table, mut slice) = (Lent::new(t), Lent::new(words));
    let answer = looked(|r, a, n, h| unsafe { catalogue_search_with(table.pointer(), t.len(), slice.pointer(), words.len(), collection, key, r, a, n, h) });
    assert!(table.back() == t && slice.back() == words, "a search wrote to the table or to the sentinels");
    answer
}

/// What a write with sentinels or a summary left, and that slice after it.
pub type Kept = (Wrote, Vec<u64>);

fn kept(t: &[u64], words: &[u64], list: &[u64], call: impl FnOnce(*mut u64, *mut u64, *mut u64, *mut u64, *mut u64, *mut u64) -> u64) -> Kept {
    let mut slice = Lent::new(words);
    let after = wrote(t, list, |a, b, s, f, r| call(a, slice.pointer(), b, s, f, r));
    (after, slice.back().to_vec())
}

pub fn insert_with(t: &[u64], words: &[u64], collection: u64, list: &[u64], dock: u64, key: u64, recording: u64, access: u64) -> Kept {
    kept(t, words, list, |a, w, b, s, f, r| unsafe {
        catalogue_insert_with(a, t.len(), w, words.len(), collection, b, list.len(), dock, key, recording, access, s, f, r)
    })
}

pub fn delete_with(t: &[u64], words: &[u64], collection: u64, list: &[u64], dock: u64, key: u64) -> Kept {
    kept(t, words, list, |a, w, b, s, f, r| unsafe { catalogue_delete_with(a, t.len(), w, words.len(), collection, b, list.len(), dock, key, s, f, r) })
}

pub fn set_class_with(t: &[u64], words: &[u64], collection: u64, list: &[u64], dock: u64, key: u64, access: u64) -> Kept {
    kept(t, words, list, |a, w, b, s, f, r| unsafe {
        catalogue_set_class_with(a, t.len(), w, words.len(), collection, b, list.len(), dock, key, access, s, f, r)
    })
}

pub fn repair_with(t: &[u64], words: &[u64], list: &[u64], dock: u64) -> Kept {
    kept(t, words, list, |a, w, b, s, f, r| unsafe { catalogue_repair_with(a, t.len(), w, words.len(), b, list.len(), dock, s, f, r) })
}

// ---- with a summary

pub fn summary_words(nodes: u64) -> usize {
    unsafe { catalogue_summary_words(nodes) as usize }
}

/// The number, and the summary after it.
pub fn summary(t: &[u64], words: &[u64]) -> (u64, Vec<u64>) {
    let (mut table, mut slice) = (Lent::new(t), Lent::new(words));
    let n = unsafe { catalogue_summary(table.pointer(), t.len(), slice.pointer(), words.len()) };
    assert!(table.back() == t, "working a summary out wrote to the table");
    (n, slice.back().to_vec())
}

pub fn quick_insert(t: &[u64], words: &[u64], collection: u64, list: &[u64], dock: u64, key: u64, recording: u64, access: u64) -> Kept {
    kept(t, words, list, |a, w, b, s, f, r| unsafe {
        catalogue_quick_insert(a, t.len(), w, words.len(), collection, b, list.len(), dock, key, recording, access, s, f, r)
    })
}

/// What many insertions left: the write with its summary, and the pairs taken and the number that stopped them, each if it was put.
pub fn quick_insert_many(t: &[u64], words: &[u64], collection: u64, list: &[u64], dock: u64, pairs: &[u64]) -> (Kept, Option<u64>, Option<u64>) {
    let (mut lent, mut taken, mut stop) = (Lent::new(pairs), Word::new(), Word::new());
    let (p, n, e) = (lent.pointer(), taken.pointer(), stop.pointer());
    let after = kept(t, words, list, |a, w, b, s, f, r| unsafe {
        catalogue_quick_insert_many(a, t.len(), w, words.len(), collection, b, list.len(), dock, p, pairs.len(), n, e, s, f, r)
    });
    assert!(lent.back() == pairs, "a batch wrote to its pairs");
    (after, taken.put(), stop.put())
}

pub fn quick_delete(t: &[u64], words: &[u64], collection: u64, list: &[u64], dock: u64, key: u64) -> Kept {
    kept(t, words, list, |a, w, b, s, f, r| unsafe { catalogue_quick_delete(a, t.len(), w, words.len(), collection, b, list.len(), dock, key, s, f, r) })
}

pub fn quick_set_class(t: &[u64], words: &[u64], collection: u64, list: &[u64], dock: u64, key: u64, access: u64) -> Kept {
    kept(t, words, list, |a, w, b, s, f, r| unsafe {
        catalogue_quick_set_class(a, t.len(), w, words.len(), collection, b, list.len(), dock, key, access, s, f, r)
    })
}

pub fn quick_repair(t: &[u64], words: &[u64], list: &[u64], dock: u64) -> Kept {
    kept(t, words, list, |a, w, b, s, f, r| unsafe { catalogue_quick_repair(a, t.len(), w, words.len(), b, list.len(), dock, s, f, r) })
}

/// The number; the count and whether more were left, each if the call put it; and the slice after it.
pub fn quick_list(t: &[u64], words: &[u64], collection: u64, low: u64, high: u64, out: &[u64]) -> (u64, [Option<u64>; 2], Vec<u64>) {
    let (mut table, mut summary, mut slice) = (Lent::new(t), Lent::new(words), Lent::new(out));
    let (mut pairs, mut more) = (Word::new(), Word::new());
    let n = unsafe {
        let (a, w, o) = (table.pointer(), summary.pointer(), slice.pointer());
        catalogue_quick_list(a, t.len(), w, words.len(), collection, low, high, o, out.len(), pairs.pointer(), more.pointer())
    };
    assert!(table.back() == t && summary.back() == words, "a listing wrote to the table or to the summary");
    (n, [pairs.put(), more.put()], slice.back().to_vec())
}

/// The number, the count if it was put, and the second slice: of a list for an insertion of a recording and a class, or for a deletion.
pub fn judge(t: &[u64], list: &[u64], out: &[u64], collection: u64, key: u64, wanted: Option<(u64, u64)>) -> (u64, Option<u64>, Vec<u64>) {
    let (mut table, mut orders, mut second) = (Lent::new(t), Lent::new(list), Lent::new(out));
    let mut count = Word::new();
    let (a, b, o, c) = (table.pointer(), orders.pointer(), second.pointer(), count.pointer());
    let n = match wanted {
        Some((r, x)) => unsafe { catalogue_judge_insert(a, t.len(), b, list.len(), o, out.len(), collection, key, r, x, c) },
        None => unsafe { catalogue_judge_delete(a, t.len(), b, list.len(), o, out.len(), collection, key, c) },
    };
    assert!(table.back() == t && orders.back() == list, "the judge wrote to the table or the list");
    (n, count.put(), second.back().to_vec())
}

/// The number, and the five words after it.
pub fn script(number: u64, lent: [u64; 5]) -> (u64, [u64; 5]) {
    let mut script = Lent::new(&lent);
    let n = unsafe { catalogue_script(number, script.pointer()) };
    (n, script.back().try_into().unwrap())
}

/// The number, and the script's number if it was put.
pub fn script_number(words: [u64; 5]) -> (u64, Option<u64>) {
    let (mut script, mut number) = (Lent::new(&words), Word::new());
    let n = unsafe { catalogue_script_number(script.pointer(), number.pointer()) };
    assert!(script.back() == words, "a script's words were written");
    (n, number.put())
}

/// What the wear figures left: the number; total, largest, first line and pairs, each if the call put it; and the two slices.
#[derive(Debug, PartialEq)]
pub struct Wore {
    pub number: u64,
    pub figures: [Option<u64>; 4],
    pub lines: Vec<u64>,
    pub extents: Vec<u64>,
}

pub fn wear(t: &[u64], list: &[u64], lines: &[u64], extents: &[u64]) -> Wore {
    let [mut table, mut orders, mut of_lines, mut of_extents] = [t, list, lines, extents].map(Lent::new);
    let [mut total, mut largest, mut first_line, mut pairs] = std::array::from_fn(|_| Word::new());
    let number = unsafe {
        let (a, b, c, d) = (table.pointer(), orders.pointer(), of_lines.pointer(), of_extents.pointer());
        catalogue_wear(a, t.len(), b, list.len(), c, lines.len(), d, extents.len(), total.pointer(), largest.pointer(), first_line.pointer(), pairs.pointer())
    };
    assert!(table.back() == t && orders.back() == list, "the wear figures wrote to the table or to the list");
    Wore { number, figures: [total.put(), largest.put(), first_line.put(), pairs.put()], lines: of_lines.back().to_vec(), extents: of_extents.back().to_vec() }
}

/// How long the call alone takes.
pub fn wear_takes(t: &[u64], list: &[u64], lines: &mut [u64], extents: &mut [u64]) -> std::time::Duration {
    let mut figures = [0u64; 4];
    let [total, largest, first_line, pairs] = figures.each_mut();
    let started = std::time::Instant::now();
    let number = unsafe {
        let (a, b) = (lines.as_mut_ptr(), extents.as_mut_ptr());
        catalogue_wear(t.as_ptr(), t.len(), list.as_ptr(), list.len(), a, lines.len(), b, extents.len(), total, largest, first_line, pairs)
    };
    let took = started.elapsed();
    assert!(number == 0, "refused with {number}");
    took
}
