//! Tall tables, handed in and not grown: a path from the root to a leaf whose nodes have chosen numbers of slots. Every other child on the
//! way has its own way down, through nodes without slots, to a leaf of a few pairs. Nodes that are not reached hold any words.
#![allow(dead_code)]
use crate::reference::{pointer, Random, MARK, MOST_RECORDING};

/// The path's node of a level: its slots, and by which way the path goes on (0 is left, p + 1 is slot p); in the leaf, the place where the
/// tower's key would come in.
#[derive(Clone, Copy, Debug)]
pub struct Floor {
    pub slots: usize,
    pub place: usize,
}

pub struct Tower {
    pub t: Vec<u64>,
    /// The path's nodes by their level.
    pub path: Vec<u64>,
    /// The leaves off the path that have pairs.
    pub leaves: Vec<u64>,
    /// A key that the path leads to and that no slot has.
    pub key: u64,
}

struct Raw {
    level: usize,
    fence: u64,
    left: u64,
    slots: Vec<(u64, u64)>,
}

struct Builder<'a> {
    /// By level, from the leaf up.
    floors: &'a [Floor],
    /// Rows of a level from left to right, as indices of nodes.
    rows: Vec<Vec<usize>>,
    nodes: Vec<Raw>,
    path: Vec<usize>,
    key: u64,
    random: &'a mut Random,
}

impl Builder<'_> {
    /// The node of a level that covers the keys from low up to below high; its index.
    fn build(&mut self, level: usize, low: u128, high: u128, on_path: bool) -> usize {
        let floor = if on_path { self.floors[level] } else { Floor { slots: 0, place: 0 } };
        let raw = if level == 0 { self.leaf(low, high, on_path.then_some(floor)) } else { self.inner(level, low, high, on_path, floor) };
        self.nodes.push(raw);
        let i = self.nodes.len() - 1;
        self.rows[level].push(i);
        if on_path {
            self.path[level] = i;
        }
        i
    }

    fn inner(&mut self, level: usize, low: u128, high: u128, on_path: bool, floor: Floor) -> Raw {
        let bound = |i: usize| low + (high - low) * i as u128 / (floor.slots as u128 + 1);
        let children: Vec<(u64, u64)> = (0..=floor.slots).map(|i| (bound(i) as u64, self.build(level - 1, bound(i), bound(i + 1), on_path && i == floor.place) as u64)).collect();
        Raw { level, fence: low as u64, left: children[0].1, slots: children[1..].to_vec() }
    }

    fn leaf(&mut self, low: u128, high: u128, floor: Option<Floor>) -> Raw {
        let count = floor.map_or(self.random.below(4) as usize, |f| f.slots);
        let step = (high - low) / (count as u128 + 2);
        // A leaf's first key may be its fence.
        let lowest = if floor.is_none() && self.random.below(2) == 0 { low } else { low + step };
        let mut any_pointer = || pointer(1 + self.random.below(MOST_RECORDING), self.random.below(3));
        let slots = (0..count).map(|i| ((lowest + step * i as u128) as u64, any_pointer())).collect();
        if let Some(f) = floor {
            self.key = (low + step * f.place as u128 + step / 2) as u64;
        }
        Raw { level: 0, fence: low as u64, left: MARK, slots }
    }
}

/// How many nodes a tower of these floors has: each child off the path has a node on every level below.
pub fn height_nodes(floors: &[Floor]) -> u64 {
    floors.iter().enumerate().map(|(level, f)| 1 + if level == 0 { 0 } else { f.slots * level } as u64).sum()
}

/// The tower of these floors, from the leaf up, with so many nodes to spare; its nodes have random numbers.
pub fn tower(floors: &[Floor], free: u64, random: &mut Random) -> Tower {
    let mut b = Builder { floors, rows: vec![vec![]; floors.len()], nodes: vec![], path: vec![0; floors.len()], key: 0, random };
    let root = b.build(floors.len() - 1, 0, 1 << 64, true);
    let n = b.nodes.len() as u64 + free;
    assert!(n == height_nodes(floors) + free);

    let mut numbers: Vec<u64> = (1..=n).collect();
    for i in (1..numbers.len()).rev() {
        numbers.swap(i, b.random.below(i as u64 + 1) as usize);
    }
    let number = |i: u64| numbers[i as usize];
    let mut t = vec![0; 8 + 32 * n as usize];
    t[..3].copy_from_slice(&[1, number(root as u64), n]);
    for row in &b.rows {
        for (at, &i) in row.iter().enumerate() {
            let x = &b.nodes[i];
            let w = 8 + 32 * (numbers[i] as usize - 1);
            let inner = x.level > 0;
            t[w] = if inner { number(x.left) } else { x.left };
            t[w + 1] = row.get(at + 1).map_or(0, |&next| numbers[next]);
            t[w + 2] = x.level as u64;
            t[w + 3] = x.fence;
            for (s, &(key, pointer)) in x.slots.iter().enumerate() {
                t[w + 8 + 2 * s] = key;
                t[w + 9 + 2 * s] = if inner { number(pointer) } else { pointer };
            }
        }
    }
    for &i in &numbers[b.nodes.len()..] {
        let w = 8 + 32 * (i as usize - 1);
        for x in &mut t[w..w + 32] {
            *x = b.random.below([1, 20, MARK][(i % 3) as usize]);
        }
    }
    let leaves = b.rows[0].iter().filter(|&&i| i != b.path[0] && !b.nodes[i].slots.is_empty()).map(|&i| numbers[i]).collect();
    Tower { t, path: b.path.iter().map(|&i| numbers[i]).collect(), leaves, key: b.key }
}
