//! What is linked from C and C++: the library (include/catalogue.h), plain.c, fastfair.c, map.cpp and the host's flush.c.
use std::alloc::{alloc_zeroed, dealloc, handle_alloc_error, Layout};
use std::ffi::{c_char, c_int, c_void, CStr};
use std::ops::{Deref, DerefMut};

#[path = "../tests/calls/declared.rs"]
mod declared;
use declared::*;

const LIST_WORDS: usize = 2560;
const NODE_WORDS: usize = 32;
const HEADER_WORDS: usize = 8;
/// Pairs in a leaf of a sound table, at most.
const SLOTS: usize = 11;
const ABSENT: u64 = 255;
/// Tables have one collection, and the dock keeps its stores in order.
const COLLECTION: u64 = 1;
const DOCK: u64 = 0;
const LINE_BYTES: usize = 64;

#[repr(C)]
struct Flush {
    name: *const c_char,
    line: extern "C" fn(*mut c_void),
}

#[repr(C)]
struct Carrying {
    flush: *const Flush,
    pause: u64,
}

extern "C" {
    fn plain_nodes(keys: usize) -> usize;
    fn plain_pack(table: *mut u64, nodes: usize, place: *const u64, keys: *const u64, recordings: *const u64, count: usize);
    fn plain_search(table: *const u64, key: u64, next: *mut u64) -> u64;
    fn plain_foreseen_search(table: *const u64, key: u64, next: *mut u64) -> u64;
    fn plain_trusting_search(table: *const u64, sentinels: *const u64, key: u64, next: *mut u64) -> u64;
    fn plain_tested_search(table: *const u64, words: usize, collection: u64, key: u64, next: *mut u64) -> u64;
    fn plain_read_pass(table: *const u64, nodes: usize) -> u64;

    fn fastfair_new(keys: usize) -> *mut c_void;
    fn fastfair_free(tree: *mut c_void);
    fn fastfair_search(tree: *const c_void, key: u64) -> u64;
    fn fastfair_insert(tree: *mut c_void, key: u64, value: u64);
    fn fastfair_delete(tree: *mut c_void, key: u64) -> c_int;
    fn fastfair_stores(tree: *const c_void) -> u64;
    fn fastfair_flushes(tree: *const c_void) -> u64;

    fn map_new() -> *mut c_void;
    fn map_free(map: *mut c_void);
    fn map_insert(map: *mut c_void, key: u64, value: u64);
    fn map_search(map: *const c_void, key: u64) -> u64;

    fn flush_best() -> *const Flush;
    fn carry_one_list(memory: *mut u64, orders: *const u64, count: u64, how: *const Carrying);
}

/// Words that begin at a multiple of 64 bytes, so that a line of the table is a cache line.
pub struct Words {
    first: *mut u64,
    len: usize,
}

impl Words {
    fn layout(len: usize) -> Layout {
        Layout::from_size_align(8 * len, LINE_BYTES).expect("a table's layout")
    }

    pub fn zeroed(len: usize) -> Words {
        let layout = Words::layout(len);
        let first = unsafe { alloc_zeroed(layout) } as *mut u64;
        if first.is_null() {
            handle_alloc_error(layout);
        }
        Words { first, len }
    }
}

impl Clone for Words {
    fn clone(&self) -> Words {
        let mut copy = Words::zeroed(self.len);
        copy.copy_from_slice(self);
        copy
    }
}

impl Drop for Words {
    fn drop(&mut self) {
        unsafe { dealloc(self.first as *mut u8, Words::layout(self.len)) }
    }
}

impl Deref for Words {
    type Target = [u64];
    fn deref(&self) -> &[u64] {
        unsafe { std::slice::from_raw_parts(self.first, self.len) }
    }
}

impl DerefMut for Words {
    fn deref_mut(&mut self) -> &mut [u64] {
        unsafe { std::slice::from_raw_parts_mut(self.first, self.len) }
    }
}

pub fn table_words(nodes: usize) -> usize {
    HEADER_WORDS + NODE_WORDS * nodes
}

// ---- the library

/// An order list with the counts of the call that filled it.
pub struct Orders {
    words: Vec<u64>,
    pub stores: u64,
    pub flushes: u64,
    barriers: u64,
}

impl Orders {
    pub fn new() -> Orders {
        Orders { words: vec![0; LIST_WORDS], stores: 0, flushes: 0, barriers: 0 }
    }

    /// Room for so many words, for a batch.
    pub fn with_room(words: usize) -> Orders {
        Orders { words: vec![0; words], stores: 0, flushes: 0, barriers: 0 }
    }

    pub fn too_short() -> Orders {
        Orders { words: vec![0; LIST_WORDS - 1], stores: 0, flushes: 0, barriers: 0 }
    }

    pub fn count(&self) -> u64 {
        self.stores + self.flushes + self.barriers
    }

    /// The indices of the words that the stores are to; a flush begins with MARK.
    pub fn stored(&self) -> impl Iterator<Item = usize> + '_ {
        self.words.chunks_exact(2).take(self.count() as usize).filter(|order| order[0] != u64::MAX).map(|order| order[0] as usize)
    }

    /// The line numbers of the flushes, in order.
    pub fn flushed(&self) -> impl Iterator<Item = u64> + '_ {
        self.words.chunks_exact(2).take(self.count() as usize).filter(|order| order[0] == u64::MAX).map(|order| order[1])
    }

    /// Only the orders, so that many lists lie close together. Not for another call.
    pub fn cut(mut self) -> Orders {
        self.words.truncate(2 * self.count() as usize);
        self.words.shrink_to_fit();
        self
    }
}

pub fn make(table: &mut [u64]) -> u64 {
    unsafe { catalogue_make(table.as_mut_ptr(), table.len(), COLLECTION) }
}

/// A recording, or 0 and the next key up; that is 0 if none is higher.
pub type Found = (u64, u64);

/// The answer of the library. A refusal ends the program.
#[inline(always)]
pub fn search(table: &[u64], key: u64) -> Found {
    let (mut recording, mut access, mut next, mut higher) = (0, 0, 0, 0);
    let number = unsafe { catalogue_search(table.as_ptr(), table.len(), COLLECTION, key, &mut recording, &mut access, &mut next, &mut higher) };
    assert!(number == 0 || number == ABSENT, "a search was refused");
    (recording, next)
}

/// The sentinels of a sound table, from the beginning of a line on.
pub fn sentinels(table: &[u64]) -> Words {
    let mut words = Words::zeroed(3 * table[2] as usize);
    let number = unsafe { catalogue_sentinels(table.as_ptr(), table.len(), words.as_mut_ptr(), words.len()) };
    assert_eq!(number, 0, "the sentinels were refused");
    words
}

/// The answer of the library with sentinels.
#[inline(always)]
pub fn search_with(table: &[u64], sentinels: &[u64], key: u64) -> Found {
    let (mut recording, mut access, mut next, mut higher) = (0, 0, 0, 0);
    let number = unsafe { catalogue_search_with(table.as_ptr(), table.len(), sentinels.as_ptr(), sentinels.len(), COLLECTION, key, &mut recording, &mut access, &mut next, &mut higher) };
    assert!(number == 0 || number == ABSENT, "a search was refused");
    (recording, next)
}

/// With class 0.
pub fn insert(table: &mut [u64], orders: &mut Orders, key: u64, recording: u64) -> u64 {
    let list = orders.words.as_mut_ptr();
    unsafe { catalogue_insert(table.as_mut_ptr(), table.len(), COLLECTION, list, orders.words.len(), DOCK, key, recording, 0, &mut orders.stores, &mut orders.flushes, &mut orders.barriers) }
}

pub fn set_class(table: &mut [u64], orders: &mut Orders, key: u64, access: u64) -> u64 {
    let list = orders.words.as_mut_ptr();
    unsafe { catalogue_set_class(table.as_mut_ptr(), table.len(), COLLECTION, list, orders.words.len(), DOCK, key, access, &mut orders.stores, &mut orders.flushes, &mut orders.barriers) }
}

pub fn delete(table: &mut [u64], orders: &mut Orders, key: u64) -> u64 {
    let list = orders.words.as_mut_ptr();
    unsafe { catalogue_delete(table.as_mut_ptr(), table.len(), COLLECTION, list, orders.words.len(), DOCK, key, &mut orders.stores, &mut orders.flushes, &mut orders.barriers) }
}

pub fn repair(table: &mut [u64], orders: &mut Orders) -> u64 {
    let list = orders.words.as_mut_ptr();
    unsafe { catalogue_repair(table.as_mut_ptr(), table.len(), list, orders.words.len(), DOCK, &mut orders.stores, &mut orders.flushes, &mut orders.barriers) }
}

/// The whole map, as pairs of key and pointer.
pub fn list(table: &[u64]) -> Vec<(u64, u64)> {
    let mut words = vec![0; 2 * SLOTS * (table.len() / NODE_WORDS)];
    let (mut pairs, mut more) = (0, 1);
    let number = unsafe { catalogue_list(table.as_ptr(), table.len(), COLLECTION, 0, u64::MAX, words.as_mut_ptr(), words.len(), &mut pairs, &mut more) };
    assert!(number == 0 && more == 0, "a listing answers {number}, {more} for more");
    words.chunks(2).take(pairs as usize).map(|pair| (pair[0], pair[1])).collect()
}

/// Pairs from a key on, as key and pointer in turn, as many as out has room for; their number.
pub fn range(table: &[u64], low: u64, out: &mut [u64]) -> usize {
    let (mut pairs, mut more) = (0, 0);
    let number = unsafe { catalogue_list(table.as_ptr(), table.len(), COLLECTION, low, u64::MAX, out.as_mut_ptr(), out.len(), &mut pairs, &mut more) };
    assert_eq!(number, 0, "a range was refused");
    pairs as usize
}

/// Many insertions, all of which must be taken; pairs are key and pointer in turn.
pub fn insert_many(table: &mut [u64], orders: &mut Orders, pairs: &[u64]) {
    let (mut taken, mut stop) = (0, 0);
    let list = orders.words.as_mut_ptr();
    let number = unsafe { catalogue_insert_many(table.as_mut_ptr(), table.len(), COLLECTION, list, orders.words.len(), DOCK, pairs.as_ptr(), pairs.len(), &mut taken, &mut stop, &mut orders.stores, &mut orders.flushes, &mut orders.barriers) };
    assert_eq!((number, stop, taken as usize), (0, 0, pairs.len() / 2), "a batch was refused");
}

pub fn check(table: &[u64]) {
    let mut report = [0; 16];
    assert_eq!(unsafe { catalogue_check(table.as_ptr(), table.len(), report.as_mut_ptr()) }, 0, "the table is not sound");
}

// ---- with a summary

/// Room for the summary of a table.
pub fn summary_room(table: &[u64]) -> Words {
    Words::zeroed(unsafe { catalogue_summary_words(table[2]) } as usize)
}

pub fn summarize(table: &[u64], summary: &mut [u64]) {
    let number = unsafe { catalogue_summary(table.as_ptr(), table.len(), summary.as_mut_ptr(), summary.len()) };
    assert_eq!(number, 0, "a summary was refused");
}

/// With class 0.
pub fn quick_insert(table: &mut [u64], summary: &mut [u64], orders: &mut Orders, key: u64, recording: u64) -> u64 {
    let list = orders.words.as_mut_ptr();
    unsafe { catalogue_quick_insert(table.as_mut_ptr(), table.len(), summary.as_mut_ptr(), summary.len(), COLLECTION, list, orders.words.len(), DOCK, key, recording, 0, &mut orders.stores, &mut orders.flushes, &mut orders.barriers) }
}

pub fn quick_set_class(table: &mut [u64], summary: &[u64], orders: &mut Orders, key: u64, access: u64) -> u64 {
    let list = orders.words.as_mut_ptr();
    unsafe { catalogue_quick_set_class(table.as_mut_ptr(), table.len(), summary.as_ptr(), summary.len(), COLLECTION, list, orders.words.len(), DOCK, key, access, &mut orders.stores, &mut orders.flushes, &mut orders.barriers) }
}

pub fn quick_delete(table: &mut [u64], summary: &mut [u64], orders: &mut Orders, key: u64) -> u64 {
    let list = orders.words.as_mut_ptr();
    unsafe { catalogue_quick_delete(table.as_mut_ptr(), table.len(), summary.as_mut_ptr(), summary.len(), COLLECTION, list, orders.words.len(), DOCK, key, &mut orders.stores, &mut orders.flushes, &mut orders.barriers) }
}

pub fn quick_range(table: &[u64], summary: &[u64], low: u64, out: &mut [u64]) -> usize {
    let (mut pairs, mut more) = (0, 0);
    let number = unsafe { catalogue_quick_list(table.as_ptr(), table.len(), summary.as_ptr(), summary.len(), COLLECTION, low, u64::MAX, out.as_mut_ptr(), out.len(), &mut pairs, &mut more) };
    assert_eq!(number, 0, "a range was refused");
    pairs as usize
}

pub fn quick_insert_many(table: &mut [u64], summary: &mut [u64], orders: &mut Orders, pairs: &[u64]) {
    let (mut taken, mut stop) = (0, 0);
    let list = orders.words.as_mut_ptr();
    let number = unsafe { catalogue_quick_insert_many(table.as_mut_ptr(), table.len(), summary.as_mut_ptr(), summary.len(), COLLECTION, list, orders.words.len(), DOCK, pairs.as_ptr(), pairs.len(), &mut taken, &mut stop, &mut orders.stores, &mut orders.flushes, &mut orders.barriers) };
    assert_eq!((number, stop, taken as usize), (0, 0, pairs.len() / 2), "a batch was refused");
}

pub fn salvage(table: &[u64], out: &mut [u64], report: &mut [u64], dropped: &mut u64) -> u64 {
    unsafe { catalogue_salvage(table.as_ptr(), table.len(), out.as_mut_ptr(), out.len(), report.as_mut_ptr(), report.len(), dropped) }
}

/// The verdict on a list that was cut, for the insertion of a key with a recording of class 0.
pub fn judge_insert(table: &[u64], orders: &Orders, out: &mut [u64], key: u64, recording: u64) -> u64 {
    let mut count = 0;
    let list = orders.words.as_ptr();
    unsafe { catalogue_judge_insert(table.as_ptr(), table.len(), list, orders.words.len(), out.as_mut_ptr(), out.len(), COLLECTION, key, recording, 0, &mut count) }
}

/// All orders of the list on plain memory.
pub fn carry_plain(table: &mut [u64], orders: &Orders) -> u64 {
    unsafe { catalogue_carry_out(table.as_mut_ptr(), table.len(), orders.words.as_ptr(), orders.words.len(), orders.count()) }
}

/// The host's carry-out, each line written back and fenced. Found once: asking the processor costs more than a list.
pub struct Flusher(Carrying);

impl Flusher {
    pub fn best() -> Flusher {
        Flusher(Carrying { flush: unsafe { flush_best() }, pause: 0 })
    }

    pub fn carry(&self, table: &mut [u64], orders: &Orders) {
        unsafe { carry_one_list(table.as_mut_ptr(), orders.words.as_ptr(), orders.count(), &self.0) }
    }

    /// The instruction that a line is written back with.
    pub fn name(&self) -> String {
        unsafe { CStr::from_ptr((*self.0.flush).name) }.to_string_lossy().into_owned()
    }
}

// ---- plain C on the same table

pub fn nodes_for(keys: usize) -> usize {
    unsafe { plain_nodes(keys) }
}

/// A packed table of the pairs, with nodes numbered by place and room for so many nodes. The pairs must rise.
pub fn pack(pairs: &[(u64, u64)], place: &[u64], nodes: usize) -> Words {
    let (keys, recordings): (Vec<u64>, Vec<u64>) = pairs.iter().copied().unzip();
    assert!(place.len() == nodes_for(keys.len()) && place.len() <= nodes);
    let mut table = Words::zeroed(table_words(nodes));
    unsafe { plain_pack(table.as_mut_ptr(), nodes, place.as_ptr(), keys.as_ptr(), recordings.as_ptr(), keys.len()) }
    table
}

/// As `search`, by plain C.
#[inline(always)]
pub fn search_plain(table: &[u64], key: u64) -> Found {
    let mut next = 0;
    (unsafe { plain_search(table.as_ptr(), key, &mut next) }, next)
}

/// The same with the move to a sibling as a branch.
#[inline(always)]
pub fn search_foreseen(table: &[u64], key: u64) -> Found {
    let mut next = 0;
    (unsafe { plain_foreseen_search(table.as_ptr(), key, &mut next) }, next)
}

/// That one with sentinels, which it trusts.
#[inline(always)]
pub fn search_trusting(table: &[u64], sentinels: &[u64], key: u64) -> Found {
    let mut next = 0;
    (unsafe { plain_trusting_search(table.as_ptr(), sentinels.as_ptr(), key, &mut next) }, next)
}

/// As `search`, by C with the same tests.
#[inline(always)]
pub fn search_tested(table: &[u64], key: u64) -> Found {
    let mut next = 0;
    (unsafe { plain_tested_search(table.as_ptr(), table.len(), COLLECTION, key, &mut next) }, next)
}

/// The sum of all words of nodes 1 .. nodes.
pub fn read_pass(table: &[u64], nodes: usize) -> u64 {
    assert!(table_words(nodes) <= table.len());
    unsafe { plain_read_pass(table.as_ptr(), nodes) }
}

// ---- the other trees

pub struct FastFair(*mut c_void);

impl FastFair {
    pub fn new(keys: usize) -> FastFair {
        let tree = unsafe { fastfair_new(keys) };
        assert!(!tree.is_null(), "no memory for the FAST+FAIR tree");
        FastFair(tree)
    }

    #[inline(always)]
    pub fn search(&self, key: u64) -> u64 {
        unsafe { fastfair_search(self.0, key) }
    }

    pub fn insert(&mut self, key: u64, value: u64) {
        unsafe { fastfair_insert(self.0, key, value) }
    }

    pub fn delete(&mut self, key: u64) -> bool {
        unsafe { fastfair_delete(self.0, key) == 1 }
    }

    /// Stores and flushes since the tree was made.
    pub fn counts(&self) -> (u64, u64) {
        unsafe { (fastfair_stores(self.0), fastfair_flushes(self.0)) }
    }
}

impl Drop for FastFair {
    fn drop(&mut self) {
        unsafe { fastfair_free(self.0) }
    }
}

pub struct CppMap(*mut c_void);

impl CppMap {
    pub fn new() -> CppMap {
        CppMap(unsafe { map_new() })
    }

    pub fn insert(&mut self, key: u64, value: u64) {
        unsafe { map_insert(self.0, key, value) }
    }

    #[inline(always)]
    pub fn search(&self, key: u64) -> u64 {
        unsafe { map_search(self.0, key) }
    }
}

impl Drop for CppMap {
    fn drop(&mut self) {
        unsafe { map_free(self.0) }
    }
}

/// The wear figures of a list.
pub struct Worn {
    pub total: u64,
    pub largest: u64,
    pub first_line: u64,
}

pub fn wear(table: &Words, list: &[u64], lines: &mut [u64], extents: &mut [u64]) -> Worn {
    let (mut total, mut largest, mut first_line, mut pairs) = (0, 0, 0, 0);
    let number = unsafe {
        let (a, b) = (lines.as_mut_ptr(), extents.as_mut_ptr());
        catalogue_wear(table.as_ptr(), table.len(), list.as_ptr(), list.len(), a, lines.len(), b, extents.len(), &mut total, &mut largest, &mut first_line, &mut pairs)
    };
    assert_eq!(number, 0, "wear figures refused");
    Worn { total, largest, first_line }
}
