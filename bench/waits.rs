//! How often a change waits for an ordinary disk, by the orders of a table that grows by random insertions: each flush is a wait. Beside it two
//! counts of fewer waits: the lines of a node that was free share one, or all that a page has in turn does.
use crate::calls::{self, Orders, Words};
use crate::keys::{Keys, Random};
use crate::{CLASS_CHANGE, DELETION, INSERTION, SEED, SPLITTING};

pub const KINDS: [&str; 4] = [INSERTION, SPLITTING, DELETION, CLASS_CHANGE];
pub const WAITS: [&str; 3] = ["each flush", "lines of a new node share a wait", "lines of a page share a wait"];

/// The most waits that have a column of their own.
pub const MOST: usize = 6;

const PAGE_LINES: u64 = 512 / 8;
const HEADER_LINES: u64 = 1;
const NODE_LINES: u64 = 4;

/// The changes of one kind by their number of waits, those with more than MOST last; and the sum of all waits.
#[derive(Clone, Copy, Default)]
pub struct Counts {
    pub by_waits: [usize; MOST + 1],
    pub changes: usize,
    pub waits: usize,
}

/// Of each kind, by each way to count.
pub type All = [[Counts; WAITS.len()]; KINDS.len()];

/// The node of a line, from 0 on; none of the header.
fn node_of(line: u64) -> Option<usize> {
    line.checked_sub(HEADER_LINES).map(|line| (line / NODE_LINES) as usize)
}

/// A node that was never used is all zeros.
fn is_free(table: &[u64], node: usize) -> bool {
    table[calls::table_words(node)..calls::table_words(node + 1)].iter().all(|&word| word == 0)
}

/// Flushes less those that share the wait of the next: of lines at two places, by the places of the first.
fn waits_of(lines: &[u64], share: impl Fn(usize) -> bool) -> usize {
    lines.len() - (1..lines.len()).filter(|&i| share(i - 1)).count()
}

/// The lines at this place and the next are of one page and of one node that was free, and nothing leads to it yet: it had no other line flushed
/// before this row of its lines.
fn in_new_node(before: &[u64], lines: &[u64], at: usize) -> bool {
    let nodes: Vec<Option<usize>> = lines.iter().map(|&line| node_of(line)).collect();
    let row = nodes[..=at].iter().rev().take_while(|&&node| node == nodes[at]).count();
    let first = !nodes[..=at - (row - 1)].split_last().is_some_and(|(_, earlier)| earlier.contains(&nodes[at]));
    first && nodes[at] == nodes[at + 1] && nodes[at].is_some_and(|node| is_free(before, node))
}

/// The waits of a change of the table before it.
fn waits(before: &[u64], orders: &Orders) -> [usize; WAITS.len()] {
    let lines: Vec<u64> = orders.flushed().collect();
    let same_page = |i: usize| lines[i] / PAGE_LINES == lines[i + 1] / PAGE_LINES;
    [lines.len(), waits_of(&lines, |i| same_page(i) && in_new_node(before, &lines, i)), waits_of(&lines, same_page)]
}

/// An insertion that splits stores to more nodes than its leaf.
fn kind_of(what: &str, orders: &Orders) -> usize {
    let mut nodes: Vec<Option<usize>> = orders.flushed().map(node_of).collect();
    nodes.dedup();
    let what = if what == INSERTION && nodes.len() > 1 { SPLITTING } else { what };
    KINDS.iter().position(|&kind| kind == what).expect("a kind")
}

/// A table with its summary, and what the orders are carried out on.
struct Grown {
    working: Words,
    summary: Words,
    memory: Words,
    orders: Orders,
    all: All,
}

impl Grown {
    fn new(codes: usize) -> Grown {
        let mut working = Words::zeroed(calls::table_words(codes / 5 + 64));
        assert_eq!(calls::make(&mut working), 0);
        let mut summary = calls::summary_room(&working);
        calls::summarize(&working, &mut summary);
        Grown { memory: working.clone(), working, summary, orders: Orders::new(), all: All::default() }
    }

    fn change(&mut self, what: &str, key: u64, recording: u64) {
        let (table, summary, orders) = (&mut self.working, &mut self.summary, &mut self.orders);
        let number = match what {
            INSERTION => calls::quick_insert(table, summary, orders, key, recording),
            DELETION => calls::quick_delete(table, summary, orders, key),
            _ => calls::quick_set_class(table, summary, orders, key, 2),
        };
        assert_eq!(number, 0, "{what} of {key}");
        let waits = waits(&self.memory, &self.orders);
        for (counts, waits) in self.all[kind_of(what, &self.orders)].iter_mut().zip(waits) {
            counts.by_waits[waits.min(MOST + 1) - 1] += 1;
            counts.changes += 1;
            counts.waits += waits;
        }
        assert_eq!(calls::carry_plain(&mut self.memory, &self.orders), 0);
    }
}

/// From empty to so many codes; then the class of each, and each deleted, in other orders.
pub fn count(codes: usize) -> All {
    let mut random = Random::new(SEED + 3);
    let mut keys = Keys::new(&mut random, codes, 0).present;
    let mut grown = Grown::new(codes);
    for what in [INSERTION, CLASS_CHANGE, DELETION] {
        keys.iter().zip(1..).for_each(|(&key, recording)| grown.change(what, key, recording));
        assert!(*grown.memory == *grown.working, "memory and working copy differ");
        random.shuffle(&mut keys);
    }
    grown.all
}
