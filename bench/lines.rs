//! The 64-byte lines that a search touches on account of its leaf, counted on the table and not timed.
use crate::calls::{self, Words};
use crate::results::{Results, Spread};
use crate::{HITS, LED, LINES, OURS, TRUSTING};

const LINE_WORDS: usize = 8;
const SLOT_LINES: usize = 3;

/// The first word of a node.
fn node(number: u64) -> usize {
    calls::table_words(number as usize - 1)
}

/// The leaf for a key in a settled table.
fn leaf(table: &[u64], key: u64) -> u64 {
    let mut number = table[1];
    while table[node(number) + 2] > 0 {
        let w = node(number);
        let slots = table[w + 8..w + 32].chunks(2).take_while(|slot| slot[1] != 0);
        number = slots.filter(|slot| slot[0] <= key).last().map_or(table[w], |slot| slot[1]);
    }
    number
}

/// Slot lines that a look at all slots in use reads, the slot after them included, which marks their end.
fn whole(slots: &[u64]) -> usize {
    let used = slots.chunks(2).take_while(|slot| slot[1] != 0).count();
    used.min(11) / 4 + 1
}

/// Lines that the three words of a node lie on, in a slice that begins at a line.
fn of_words(number: u64) -> usize {
    let first = SLOT_LINES * (number as usize - 1);
    (first + SLOT_LINES - 1) / LINE_WORDS - first / LINE_WORDS + 1
}

/// What these queries touch in the mean: the plain search, the one with sentinels, and the one that trusts them. Each reads the leaf's first
/// line. With sentinels a line of slots is known to be in use only by the lines before it, so these are read too; if the key is not on the
/// line, the whole leaf. A search that trusts them reads that line alone if the key is there.
pub fn count(results: &mut Results, part: &'static str, size: usize, table: &Words, words: &Words, queries: &[u64]) {
    let mut sums = [0; 3];
    for &key in queries {
        let number = leaf(table, key);
        let slots = &table[node(number) + 8..node(number) + 32];
        let of_node = &words[SLOT_LINES * (number as usize - 1)..][..SLOT_LINES];
        let line = (0..SLOT_LINES).rev().find(|&j| of_node[j] <= key);
        let hit = line.filter(|&j| slots[LINE_WORDS * j..LINE_WORDS * (j + 1)].chunks(2).any(|slot| slot[0] == key && slot[1] != 0));
        let touched = [whole(slots), of_words(number) + hit.map_or(whole(slots), |j| j + 1), of_words(number) + hit.map_or(whole(slots), |_| 1)];
        touched.iter().zip(&mut sums).for_each(|(lines, sum)| *sum += 1 + lines);
    }
    for (name, sum) in [OURS, LED, TRUSTING].into_iter().zip(sums) {
        let what = format!("{name}, {}", if part == HITS { "hit" } else { "miss" });
        results.add(LINES, &what, size, "lines", Spread::exact(sum as f64 / queries.len() as f64));
    }
}
