//! Every call of include/catalogue.h on a stack of just the size that the header states for it, with pages below that nobody may touch: a call
//! that takes more ends the program. The header is the one place of the figures; how much of each was used is printed.
mod calls;
mod common;
#[path = "../calls/declared.rs"]
mod declared;
mod reference;
mod tower;

use declared::*;
use reference::*;
use std::collections::BTreeMap;
use std::ffi::c_void;
use tower::{tower, Floor};

const HEADER: &str = include_str!("../../include/catalogue.h");
/// Below the stack: more than any frame, so that none steps over it.
const GUARD: usize = 8 << 20;
const PAGE: usize = 4096;
const FRESH: u8 = 0xa5;

// ---- what the header states

/// The names that the header declares.
fn declared_names() -> Vec<&'static str> {
    let named = HEADER.lines().filter_map(|l| l.strip_prefix("uint64_t "));
    named.map(|l| l.split('(').next().unwrap()).collect()
}

/// Bytes by call, from the rows "N KB: names" behind the sentence about the stack.
fn stated() -> BTreeMap<&'static str, usize> {
    let mut found = BTreeMap::new();
    let mut bytes = 0;
    let behind = HEADER.split("Stack that a call takes").nth(1).expect("the header says nothing of the stack");
    for line in behind.lines().skip(1).map(|l| l.trim_start_matches(" *").trim()).skip_while(|l| !l.contains(" KB: ")) {
        if line.is_empty() {
            break;
        }
        let names = match line.split_once(" KB: ") {
            Some((size, names)) => {
                bytes = 1024 * size.trim().parse::<usize>().expect("a number of KB");
                names
            }
            None => line,
        };
        for name in names.split(',').map(str::trim).filter(|n| !n.is_empty()) {
            assert!(found.insert(name, bytes).is_none(), "{name} is there twice");
        }
    }
    found
}

// ---- a stack of so many bytes

extern "C" {
    fn mmap(at: *mut c_void, bytes: usize, access: i32, how: i32, file: i32, from: i64) -> *mut c_void;
    fn mprotect(at: *mut c_void, bytes: usize, access: i32) -> i32;
}

/// The most that any call has, mapped once; the pages below a size are closed.
struct Stack {
    base: *mut u8,
    bytes: usize,
}

impl Stack {
    fn new(most: usize) -> Stack {
        let bytes = most.next_multiple_of(PAGE);
        let base = unsafe { mmap(std::ptr::null_mut(), GUARD + bytes, 3, 0x22, -1, 0) } as *mut u8;
        assert!(base as isize != -1, "no memory");
        assert!(unsafe { mprotect(base as *mut c_void, GUARD, 0) } == 0, "no guard");
        Stack { base: unsafe { base.add(GUARD) }, bytes }
    }

    /// Runs a job on the lowest `bytes` of it: the guard begins where they end. How many of them were touched.
    fn run(&self, bytes: usize, job: &mut Job) -> usize {
        assert!(bytes <= self.bytes && bytes % 16 == 0);
        unsafe {
            std::ptr::write_bytes(self.base, FRESH, bytes);
            let top = self.base.add(bytes);
            std::arch::asm!("mov r12, rsp", "mov rsp, rsi", "call rax", "mov rsp, r12",
                in("rax") enter as extern "C" fn(*mut Job), in("rdi") job as *mut Job, in("rsi") top, out("r12") _, clobber_abi("C"));
            let fresh = std::slice::from_raw_parts(self.base, bytes).iter().take_while(|&&b| b == FRESH).count();
            bytes - fresh
        }
    }
}

struct Job {
    call: fn(&mut Lent) -> u64,
    lent: Lent,
    number: u64,
}

extern "C" fn enter(job: *mut Job) {
    unsafe { (*job).number = ((*job).call)(&mut (*job).lent) }
}

// ---- the calls

/// What is lent to them.
#[derive(Clone, Default)]
struct Lent {
    table: Vec<u64>,
    sentinels: Vec<u64>,
    summary: Vec<u64>,
    collection: u64,
    dock: u64,
    key: u64,
    recording: u64,
    access: u64,
    orders: Vec<u64>,
    list: Vec<u64>,
    pairs: Vec<u64>,
    out: Vec<u64>,
    room: Vec<u64>,
    text: [u8; 12],
    script: [u64; 5],
    /* For the answers. */
    a: u64,
    b: u64,
    c: u64,
    d: u64,
    e: u64,
    report: [u64; 16],
}

macro_rules! call {
    ($name:ident, $l:ident, $($argument:expr),*) => {
        (stringify!($name), |$l| unsafe { $name($($argument),*) })
    };
}

#[rustfmt::skip]
const CALLS: &[(&str, fn(&mut Lent) -> u64)] = &[
    ("catalogue_version", |_| unsafe { catalogue_version() - catalogue_version() }),
    call!(catalogue_parse, l, l.text.as_ptr(), 12, &mut l.a),
    call!(catalogue_print, l, 172_627_200_000_000 + l.key % 10_000_000, l.text.as_mut_ptr()),
    call!(catalogue_make, l, l.table.as_mut_ptr(), l.table.len(), l.collection),
    call!(catalogue_pack, l, l.out.as_mut_ptr(), l.out.len(), l.collection, l.pairs.as_ptr(), l.pairs.len(), l.pairs.as_ptr(), l.pairs.len()),
    call!(catalogue_search, l, l.table.as_ptr(), l.table.len(), l.collection, l.key, &mut l.a, &mut l.b, &mut l.c, &mut l.d),
    call!(catalogue_list, l, l.table.as_ptr(), l.table.len(), l.collection, 0, MARK, l.room.as_mut_ptr(), l.room.len(), &mut l.a, &mut l.b),
    call!(catalogue_check, l, l.table.as_ptr(), l.table.len(), l.report.as_mut_ptr()),
    call!(catalogue_insert, l, l.table.as_mut_ptr(), l.table.len(), l.collection, l.orders.as_mut_ptr(), l.orders.len(), l.dock, l.key, l.recording, l.access, &mut l.a, &mut l.b, &mut l.c),
    call!(catalogue_insert_many, l, l.table.as_mut_ptr(), l.table.len(), l.collection, l.orders.as_mut_ptr(), l.orders.len(), l.dock, l.pairs.as_ptr(), l.pairs.len(), &mut l.a, &mut l.e, &mut l.b, &mut l.c, &mut l.d),
    call!(catalogue_delete, l, l.table.as_mut_ptr(), l.table.len(), l.collection, l.orders.as_mut_ptr(), l.orders.len(), l.dock, l.key, &mut l.a, &mut l.b, &mut l.c),
    call!(catalogue_set_class, l, l.table.as_mut_ptr(), l.table.len(), l.collection, l.orders.as_mut_ptr(), l.orders.len(), l.dock, l.key, l.access, &mut l.a, &mut l.b, &mut l.c),
    call!(catalogue_repair, l, l.table.as_mut_ptr(), l.table.len(), l.orders.as_mut_ptr(), l.orders.len(), l.dock, &mut l.a, &mut l.b, &mut l.c),
    call!(catalogue_sentinels, l, l.table.as_ptr(), l.table.len(), l.sentinels.as_mut_ptr(), l.sentinels.len()),
    call!(catalogue_search_with, l, l.table.as_ptr(), l.table.len(), l.sentinels.as_ptr(), l.sentinels.len(), l.collection, l.key, &mut l.a, &mut l.b, &mut l.c, &mut l.d),
    call!(catalogue_insert_with, l, l.table.as_mut_ptr(), l.table.len(), l.sentinels.as_mut_ptr(), l.sentinels.len(), l.collection, l.orders.as_mut_ptr(), l.orders.len(), l.dock, l.key, l.recording, l.access, &mut l.a, &mut l.b, &mut l.c),
    call!(catalogue_delete_with, l, l.table.as_mut_ptr(), l.table.len(), l.sentinels.as_mut_ptr(), l.sentinels.len(), l.collection, l.orders.as_mut_ptr(), l.orders.len(), l.dock, l.key, &mut l.a, &mut l.b, &mut l.c),
    call!(catalogue_set_class_with, l, l.table.as_mut_ptr(), l.table.len(), l.sentinels.as_mut_ptr(), l.sentinels.len(), l.collection, l.orders.as_mut_ptr(), l.orders.len(), l.dock, l.key, l.access, &mut l.a, &mut l.b, &mut l.c),
    call!(catalogue_repair_with, l, l.table.as_mut_ptr(), l.table.len(), l.sentinels.as_mut_ptr(), l.sentinels.len(), l.orders.as_mut_ptr(), l.orders.len(), l.dock, &mut l.a, &mut l.b, &mut l.c),
    ("catalogue_summary_words", |l| unsafe { (catalogue_summary_words(l.table.len() as u64 / 32) == 0) as u64 }),
    call!(catalogue_summary, l, l.table.as_ptr(), l.table.len(), l.summary.as_mut_ptr(), l.summary.len()),
    call!(catalogue_quick_insert, l, l.table.as_mut_ptr(), l.table.len(), l.summary.as_mut_ptr(), l.summary.len(), l.collection, l.orders.as_mut_ptr(), l.orders.len(), l.dock, l.key, l.recording, l.access, &mut l.a, &mut l.b, &mut l.c),
    call!(catalogue_quick_insert_many, l, l.table.as_mut_ptr(), l.table.len(), l.summary.as_mut_ptr(), l.summary.len(), l.collection, l.orders.as_mut_ptr(), l.orders.len(), l.dock, l.pairs.as_ptr(), l.pairs.len(), &mut l.a, &mut l.e, &mut l.b, &mut l.c, &mut l.d),
    call!(catalogue_quick_delete, l, l.table.as_mut_ptr(), l.table.len(), l.summary.as_mut_ptr(), l.summary.len(), l.collection, l.orders.as_mut_ptr(), l.orders.len(), l.dock, l.key, &mut l.a, &mut l.b, &mut l.c),
    call!(catalogue_quick_set_class, l, l.table.as_mut_ptr(), l.table.len(), l.summary.as_ptr(), l.summary.len(), l.collection, l.orders.as_mut_ptr(), l.orders.len(), l.dock, l.key, l.access, &mut l.a, &mut l.b, &mut l.c),
    call!(catalogue_quick_repair, l, l.table.as_ptr(), l.table.len(), l.summary.as_ptr(), l.summary.len(), l.orders.as_ptr(), l.orders.len(), l.dock, &mut l.a, &mut l.b, &mut l.c),
    call!(catalogue_quick_list, l, l.table.as_ptr(), l.table.len(), l.summary.as_ptr(), l.summary.len(), l.collection, 0, MARK, l.room.as_mut_ptr(), l.room.len(), &mut l.a, &mut l.b),
    call!(catalogue_carry_out, l, l.table.as_mut_ptr(), l.table.len(), l.list.as_ptr(), l.list.len(), l.list.len() as u64 / 2),
    call!(catalogue_salvage, l, l.table.as_ptr(), l.table.len(), l.out.as_mut_ptr(), l.out.len(), l.room.as_mut_ptr(), l.room.len(), &mut l.a),
    call!(catalogue_judge_insert, l, l.table.as_ptr(), l.table.len(), l.list.as_ptr(), l.list.len(), l.out.as_mut_ptr(), l.out.len(), l.collection, l.key, l.recording, l.access, &mut l.a),
    call!(catalogue_judge_delete, l, l.table.as_ptr(), l.table.len(), l.list.as_ptr(), l.list.len(), l.out.as_mut_ptr(), l.out.len(), l.collection, l.key, &mut l.a),
    call!(catalogue_script, l, l.key % 2000, l.script.as_mut_ptr()),
    call!(catalogue_script_number, l, l.script.as_ptr(), &mut l.a),
    call!(catalogue_wear, l, l.table.as_ptr(), l.table.len(), l.list.as_ptr(), l.list.len(), l.out.as_mut_ptr(), l.out.len(), l.room.as_mut_ptr(), l.room.len(), &mut l.a, &mut l.b, &mut l.c, &mut l.d),
];

// ---- tables

/// A list of the call's own, for the calls that take one; of a deletion if it is to be judged.
fn own_list(lent: &Lent, deletes: bool) -> Vec<u64> {
    let mut l = lent.clone();
    l.dock = 0;
    let (t, n, o, m) = (l.table.as_mut_ptr(), l.table.len(), l.orders.as_mut_ptr(), l.orders.len());
    let number = unsafe {
        if deletes {
            catalogue_delete(t, n, l.collection, o, m, 0, l.key, &mut l.a, &mut l.b, &mut l.c)
        } else {
            catalogue_insert(t, n, l.collection, o, m, 0, l.key, l.recording, l.access, &mut l.a, &mut l.b, &mut l.c)
        }
    };
    let count = if number == 0 { l.a + l.b } else { 0 };
    l.orders[..2 * count as usize].to_vec()
}

/// Rising keys, with recordings by a step that no two share.
fn pairs(count: u64, random: &mut Random) -> Vec<u64> {
    let first = random.below(1 << 40);
    (0..count).flat_map(|i| [first + 3 * i, 1 + (i * 0x9e37_79b9_7f4a_7c15) % MOST_RECORDING]).collect()
}

fn packed(nodes: usize, count: u64, random: &mut Random) -> Vec<u64> {
    let (mut t, p) = (vec![0; 8 + 32 * nodes], pairs(count, random));
    let number = unsafe { catalogue_pack(t.as_mut_ptr(), t.len(), 1, p.as_ptr(), p.len(), p.as_ptr(), 0) };
    assert!(number == 0, "{count} pairs into {nodes} nodes: {number}");
    t
}

/// A root over twelve leaves of twelve slots each, all distinct: a salvage has to count what it keeps, for the packing needs more nodes.
fn overfull(random: &mut Random) -> Vec<u64> {
    let (mut t, pairs) = (vec![0; 8 + 32 * 13], pairs(144, random));
    t[..3].copy_from_slice(&[1, 1, 13]);
    t[8..12].copy_from_slice(&[2, 0, 1, 0]);
    for leaf in 0..12 {
        let (at, first) = (8 + 32 * (leaf + 1), if leaf == 0 { 0 } else { pairs[24 * leaf] });
        if leaf > 0 {
            t[14 + 2 * leaf..16 + 2 * leaf].copy_from_slice(&[first, leaf as u64 + 2]);
        }
        t[at..at + 4].copy_from_slice(&[MARK, if leaf < 11 { leaf as u64 + 3 } else { 0 }, 0, first]);
        t[at + 8..at + 32].copy_from_slice(&pairs[24 * leaf..24 * leaf + 24]);
    }
    t
}

/// A key of the table, or another.
fn some_key(t: &[u64], random: &mut Random) -> u64 {
    let w = t[random.below(t.len() as u64) as usize];
    [w, w.wrapping_add(1), random.below(1 << 40)][random.below(3) as usize]
}

fn lend(t: Vec<u64>, key: Option<u64>, random: &mut Random) -> Lent {
    let nodes = t.len() / 32;
    let mut lent = Lent { key: key.unwrap_or_else(|| some_key(&t, random)), collection: 1 + random.below(2), dock: random.below(2), recording: 1 + random.below(MOST_RECORDING), access: random.below(3), ..Lent::default() };
    lent.sentinels = vec![0; 3 * nodes];
    lent.summary = vec![0; nodes / 64 + 1 + 16 * nodes];
    lent.orders = vec![0; 5120 + 2 * random.below(20000) as usize];
    lent.out = vec![0; t.len()];
    lent.room = vec![0; 36 * nodes + 4096];
    lent.pairs = pairs(random.below(1 + 3 * nodes as u64).min(4096), random);
    lent.text = *b"AA0001912345";
    lent.script = [3, 0, 1, 3, 0];
    lent.table = t;
    lent
}

/// Tables small and large, settled, with any leftover, damaged, of any words, and towers of up to sixteen levels whose every node on the way to
/// a key is full.
fn tables(random: &mut Random) -> Vec<(Vec<u64>, Option<u64>)> {
    let mut all = vec![(overfull(random), None)];
    for (nodes, count) in [(1, 0), (4, 0), (4, 30), (65_535, 600_000), (65_535, 100_000)] {
        all.push((packed(nodes, count, random), None));
    }
    for i in 0..120 {
        let t = common::grown(2 + random.below(60), 1 + i % 2, random);
        all.push((if i % 4 == 3 { common::damaged(&t, random) } else { t }, None));
    }
    for i in 0..40 {
        all.push((common::any_words(8 + 32 * (1 + random.below(30) as usize), 1 + i % 2, random), None));
    }
    for levels in 1..=16 {
        let floors: Vec<Floor> = (0..levels).map(|_| Floor { slots: 11, place: random.below(12) as usize }).collect();
        let built = tower(&floors, 40, random);
        all.push((built.t, Some(built.key)));
    }
    all
}

fn main() {
    let (stated, names, random) = (stated(), declared_names(), &mut Random(20261117));
    assert!(names.len() == CALLS.len() && stated.len() == names.len(), "{} declared, {} here, {} stated", names.len(), CALLS.len(), stated.len());
    let stack = Stack::new(*stated.values().max().unwrap());
    let mut used: BTreeMap<&str, (usize, u64, u64)> = BTreeMap::new();
    for (t, key) in tables(random) {
        for _ in 0..if t.len() > 1 << 20 { 2 } else { 6 } {
            let mut lent = lend(t.clone(), key, random);
            for (name, call) in CALLS {
                let bytes = *stated.get(name).unwrap_or_else(|| panic!("the header states no stack for {name}"));
                assert!(names.contains(name), "{name} is not declared");
                if ["catalogue_carry_out", "catalogue_judge_delete", "catalogue_wear"].contains(name) {
                    lent.list = own_list(&lent, name.ends_with("judge_delete"));
                }
                let mut job = Job { call: *call, lent: lent.clone(), number: 0 };
                let touched = stack.run(bytes, &mut job);
                let (most, calls, accepted) = used.entry(name).or_default();
                *most = touched.max(*most);
                *calls += 1;
                *accepted += (job.number == 0) as u64;
                if *name == "catalogue_sentinels" && job.number == 0 {
                    lent.sentinels = job.lent.sentinels;
                } else if *name == "catalogue_summary" && job.number == 0 {
                    lent.summary = job.lent.summary;
                }
            }
        }
    }
    let mut passed = 0;
    for (name, (most, calls, accepted)) in &used {
        println!("{name}: {most} of {} bytes in {calls} calls, {accepted} accepted", stated[name]);
        assert!(*accepted > 0, "{name} was never accepted");
        passed += calls;
    }
    println!("{passed} passed, 0 failed");
}
