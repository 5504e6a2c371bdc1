//! Document 01, as the later requests changed it, once more, for tests only: nodes as records, explicit sets and library maps. It shares no
//! code with the crates.
#![allow(dead_code)]
use std::collections::{BTreeMap, BTreeSet, HashMap};

pub const MARK: u64 = u64::MAX;
/// A barrier's first word; its second is 0.
pub const BARRIER: u64 = 18446744073709551614;
/// Docks: one that keeps its stores to one line in order, and one that does not.
pub const ORDERED: u64 = 0;
pub const UNORDERED: u64 = 1;
/// The words of an order list, at least: for the one, and for the other.
pub const LIST_WORDS: usize = 2560;
pub const LONG_LIST_WORDS: usize = 5120;

/// A leaf pointer's top 8 bits are the class, its low 56 the recording number.
pub const CLASS: u32 = 56;
pub const MOST_RECORDING: u64 = 72057594037927935;
pub const MOST_CLASS: u64 = 2;

pub fn recording(pointer: u64) -> u64 {
    pointer & MOST_RECORDING
}

pub fn class(pointer: u64) -> u64 {
    pointer >> CLASS
}

pub fn pointer(recording: u64, class: u64) -> u64 {
    class << CLASS | recording
}

#[derive(Clone, Debug, PartialEq, Eq)]
pub enum Answer {
    /// The recording, and its class.
    Found(u64, u64),
    /// With the next code up, or none.
    Absent(Option<u64>),
    Refused(u64),
}

#[derive(Clone, Copy, Debug, PartialEq, Eq)]
pub struct Slot {
    pub key: u64,
    pub pointer: u64,
}

#[derive(Clone, Debug)]
pub struct Node {
    pub left: u64,
    pub sibling: u64,
    pub level: u64,
    pub fence: u64,
    pub spare: [u64; 4],
    pub slots: [Slot; 12],
}

impl Node {
    /// The slots in use end before the first pointer 0.
    pub fn used(&self) -> usize {
        self.slots.iter().position(|s| s.pointer == 0).unwrap_or(12)
    }

    /// Places of the slots in use, in two lists: shown, then hidden.
    pub fn places(&self) -> (Vec<usize>, Vec<usize>) {
        let (mut shown, mut hidden) = (Vec::new(), Vec::new());
        for i in 0..self.used() {
            let before = if i == 0 { self.left } else { self.slots[i - 1].pointer };
            if self.slots[i].pointer == before {
                hidden.push(i)
            } else {
                shown.push(i)
            }
        }
        (shown, hidden)
    }

    pub fn shown(&self) -> Vec<Slot> {
        self.places().0.iter().map(|&i| self.slots[i]).collect()
    }
}

/// Where node i begins.
pub fn start(i: u64) -> usize {
    8 + 32 * (i as usize - 1)
}

pub fn nodes_for(len: usize) -> Option<u64> {
    if len < 40 || (len - 8) % 32 != 0 || (len - 8) / 32 > 65535 {
        None
    } else {
        Some(((len - 8) / 32) as u64)
    }
}

/// What refusal 2 tests. Word 3 is the root of collection 2, 0 for none; a table of one node has no second one.
pub fn header_ok(t: &[u64]) -> bool {
    match nodes_for(t.len()) {
        None => false,
        Some(n) => t[0] == 1 && t[2] == n && (1..=n).contains(&t[1]) && t[3] <= n && (t[3] == 0 || n > 1) && t[4..8].iter().all(|&w| w == 0),
    }
}

/// What refusal 17 tests: a collection that is not 1 or 2, or 2 if word 3 is 0.
pub fn no_collection(t: &[u64], collection: u64) -> bool {
    match collection {
        1 => false,
        2 => t[3] == 0,
        _ => true,
    }
}

/// The header word of a collection's root.
pub fn root_word(collection: u64) -> usize {
    if collection == 1 { 1 } else { 3 }
}

/// The collections that a table has.
pub fn collections(t: &[u64]) -> Vec<u64> {
    [1, 2].into_iter().filter(|&c| !no_collection(t, c)).collect()
}

/// A table as it is made: an empty leaf for each collection, nodes 1 and 2.
pub fn make(n: u64, collections: u64) -> Vec<u64> {
    let mut t = vec![0; 8 + 32 * n as usize];
    t[0] = 1;
    t[2] = n;
    for c in 1..=collections {
        t[root_word(c)] = c;
        t[start(c)] = MARK;
    }
    t
}

/// The table that making leaves in so many words, or the refusal number.
pub fn making(len: usize, collections: u64) -> Result<Vec<u64>, u64> {
    match (nodes_for(len), collections) {
        (None, _) | (Some(1), 2) => Err(2),
        (Some(n), 1 | 2) => Ok(make(n, collections)),
        _ => Err(17),
    }
}

/// One node of a packed table, on its level: the lowest key below it, and its left and slots.
struct Made {
    lowest: u64,
    left: u64,
    slots: Vec<(u64, u64)>,
}

/// Pairs packed 11 to a leaf and 12 children to an inner node, from the left, as rows from the leaves up, with nodes numbered upward from the
/// first number; without pairs one empty leaf.
fn packed_rows(first: u64, pairs: &Map) -> Vec<Vec<Made>> {
    let pairs: Vec<(u64, u64)> = pairs.iter().map(|(&k, &p)| (k, p)).collect();
    let mut row: Vec<Made> = pairs.chunks(11).map(|c| Made { lowest: c[0].0, left: MARK, slots: c.to_vec() }).collect();
    if row.is_empty() {
        row.push(Made { lowest: 0, left: MARK, slots: vec![] });
    }
    let mut rows: Vec<Vec<Made>> = Vec::new();
    let mut first = first;
    while row.len() > 1 {
        let children: Vec<(u64, u64)> = row.iter().zip(first..).map(|(m, number)| (m.lowest, number)).collect();
        first += row.len() as u64;
        rows.push(row);
        row = children.chunks(12).map(|c| Made { lowest: c[0].0, left: c[0].1, slots: c[1..].to_vec() }).collect();
    }
    rows.push(row);
    rows
}

/// A table of n nodes with these maps packed, collection 1 first; none if that takes more than n nodes.
pub fn packed(n: u64, maps: &[Map]) -> Option<Vec<u64>> {
    let mut t = make(n, 0);
    let mut number = 1;
    for (map, c) in maps.iter().zip(1..) {
        let rows = packed_rows(number, map);
        if number - 1 + rows.iter().map(|row| row.len() as u64).sum::<u64>() > n {
            return None;
        }
        for (level, row) in rows.iter().enumerate() {
            for (i, m) in row.iter().enumerate() {
                let sibling = if i + 1 < row.len() { number + 1 } else { 0 };
                let fence = if i == 0 { 0 } else { m.lowest };
                t[start(number)..start(number) + 4].copy_from_slice(&[m.left, sibling, level as u64, fence]);
                for (s, &(k, p)) in m.slots.iter().enumerate() {
                    t[start(number) + 8 + 2 * s..][..2].copy_from_slice(&[k, p]);
                }
                number += 1;
            }
        }
        t[root_word(c)] = number - 1;
    }
    Some(t)
}

pub fn node(t: &[u64], i: u64) -> Node {
    let w = &t[start(i)..start(i) + 32];
    let mut slots = [Slot { key: 0, pointer: 0 }; 12];
    for (s, pair) in slots.iter_mut().zip(w[8..].chunks(2)) {
        *s = Slot { key: pair[0], pointer: pair[1] };
    }
    Node { left: w[0], sibling: w[1], level: w[2], fence: w[3], spare: [w[4], w[5], w[6], w[7]], slots }
}

pub fn search(t: &[u64], collection: u64, k: u64) -> Answer {
    match last_leaf(t, collection, k) {
        Err(number) => Answer::Refused(number),
        Ok((_, x)) => match x.shown().iter().find(|s| s.key == k) {
            Some(s) => Answer::Found(recording(s.pointer), class(s.pointer)),
            None => next_up(t, x, k).map_or(Answer::Refused(3), |(next, _)| Answer::Absent(next)),
        },
    }
}

/// The leaf that the search for k in a collection ends in, with its number, or the refusal number.
pub fn last_leaf(t: &[u64], collection: u64, k: u64) -> Result<(u64, Node), u64> {
    if !header_ok(t) {
        return Err(2);
    }
    if no_collection(t, collection) {
        return Err(17);
    }
    let mut at = t[root_word(collection)];
    let mut level = node(t, at).level;
    if level > 15 {
        return Err(3);
    }
    loop {
        if !stands(t, at, level) {
            return Err(3);
        }
        let mut x = node(t, at);
        if x.sibling != 0 {
            if !stands(t, x.sibling, level) {
                return Err(3);
            }
            let right = node(t, x.sibling);
            if k >= right.fence {
                (at, x) = (x.sibling, right);
            }
        }
        if level == 0 {
            return Ok((at, x));
        }
        at = x.shown().iter().filter(|s| s.key <= k).last().map_or(x.left, |s| s.pointer);
        level -= 1;
    }
}

/// The search's tests of a node that it reads: its number is in 1 to N, and it is on the level.
fn stands(t: &[u64], i: u64, level: u64) -> bool {
    (1..=t[2]).contains(&i) && node(t, i).level == level
}

/// From the search's last leaf on along the siblings: the first shown slot, below its own leaf's sibling's fence, with a larger key; and how
/// many leaves were entered for it. None if a leaf fails the search's tests, or more than N leaves would be entered.
pub fn next_up(t: &[u64], last: Node, k: u64) -> Option<(Option<u64>, u64)> {
    let mut x = last;
    for entered in 1..=t[2] {
        if x.sibling != 0 && !stands(t, x.sibling, 0) {
            return None;
        }
        let end = if x.sibling == 0 { None } else { Some(node(t, x.sibling)) };
        let above = x.shown().into_iter().find(|s| s.key > k && end.as_ref().map_or(true, |right| s.key < right.fence));
        match (above, end) {
            (Some(s), _) => return Some((Some(s.key), entered)),
            (None, None) => return Some((None, entered)),
            (None, Some(right)) => x = right,
        }
    }
    None
}

#[derive(Clone, Copy, Debug, PartialEq, Eq)]
pub enum Leftover {
    Nothing,
    Hidden { node: u64 },
    Missing { parent: u64, a: u64, trailing: bool },
    Both { parent: u64, a: u64 },
}

/// Codes and whole pointers.
pub type Map = BTreeMap<u64, u64>;

/// A map for each collection that there is.
pub type Maps = Vec<Map>;

/// A tree that is sound by itself.
struct Tree {
    reached: BTreeMap<u64, Node>,
    leftover: Leftover,
    map: Map,
}

/// What a sound table holds.
pub struct Sound {
    /// The nodes that a way leads to from any of the roots.
    pub reached: BTreeMap<u64, Node>,
    /// The one leftover in the whole table, and the collection that it is in, 0 for none.
    pub leftover: Leftover,
    pub unfinished: u64,
    pub maps: Maps,
    /// How many nodes each collection has.
    pub nodes: Vec<u64>,
}

/// A table whose header is right: each collection's tree is sound, no node is reached from both roots, and at most one leftover exists.
/// None for a table that is not sound.
pub fn judge(t: &[u64]) -> Option<Sound> {
    let mut all = Sound { reached: BTreeMap::new(), leftover: Leftover::Nothing, unfinished: 0, maps: vec![], nodes: vec![] };
    for c in collections(t) {
        let tree = judge_tree(t, t[root_word(c)])?;
        if tree.reached.keys().any(|i| all.reached.contains_key(i)) {
            return None;
        }
        if tree.leftover != Leftover::Nothing {
            if all.unfinished != 0 {
                return None;
            }
            (all.leftover, all.unfinished) = (tree.leftover, c);
        }
        all.nodes.push(tree.reached.len() as u64);
        all.reached.extend(tree.reached);
        all.maps.push(tree.map);
    }
    Some(all)
}

/// The tree of a root, by the sentences of 'Sound tables'; None for one that is not sound.
fn judge_tree(t: &[u64], from: u64) -> Option<Tree> {
    let n = t[2];
    let inside = |i: u64| (1..=n).contains(&i);
    let below = |x: &Node, k: u64| x.sibling == 0 || k < node(t, x.sibling).fence;

    // Reached nodes: the closure under left, sibling, and shown slots below the sibling's fence.
    let mut reached: BTreeMap<u64, Node> = BTreeMap::new();
    let mut parents: HashMap<u64, BTreeSet<u64>> = HashMap::new();
    let mut todo = vec![from];
    while let Some(i) = todo.pop() {
        if reached.contains_key(&i) {
            continue;
        }
        let x = node(t, i);
        if x.sibling != 0 {
            if !inside(x.sibling) {
                return None;
            }
            todo.push(x.sibling);
        }
        if x.level > 0 {
            let mut ways = vec![(x.fence, x.left)];
            ways.extend(x.shown().iter().filter(|s| below(&x, s.key)).map(|s| (s.key, s.pointer)));
            for (fence, c) in ways {
                if !inside(c) {
                    return None;
                }
                let child = node(t, c);
                if child.level.checked_add(1) != Some(x.level) || child.fence != fence {
                    return None;
                }
                parents.entry(c).or_default().insert(i);
                todo.push(c);
            }
        }
        reached.insert(i, x);
    }

    let root = &reached[&from];
    if root.fence != 0 || root.sibling != 0 || root.level > 15 {
        return None;
    }

    // Each node by itself; what is hidden or trailing.
    let mut hidden: Vec<u64> = Vec::new();
    let mut trailing: BTreeSet<u64> = BTreeSet::new();
    for (&i, x) in &reached {
        if x.spare != [0; 4] || x.slots[11].pointer != 0 {
            return None;
        }
        if x.level == 0 && x.left != MARK {
            return None;
        }
        let mut low = if x.level == 0 { x.fence.checked_sub(1) } else { Some(x.fence) };
        let mut past = false;
        for s in x.shown() {
            if below(x, s.key) {
                if past || low.map_or(false, |l| s.key <= l) {
                    return None;
                }
                low = Some(s.key);
            } else {
                past = true;
            }
        }
        if past {
            trailing.insert(i);
        }
        hidden.extend(x.places().1.iter().map(|_| i));
    }

    // Siblings join each level from left to right.
    let mut levels: BTreeMap<u64, BTreeMap<u64, u64>> = BTreeMap::new();
    for (&i, x) in &reached {
        if levels.entry(x.level).or_default().insert(x.fence, i).is_some() {
            return None;
        }
    }
    for row in levels.values() {
        let order: Vec<u64> = row.values().copied().collect();
        for (j, i) in order.iter().enumerate() {
            if reached[i].sibling != order.get(j + 1).copied().unwrap_or(0) {
                return None;
            }
        }
    }

    // The map, and its recordings.
    let mut map = BTreeMap::new();
    let mut recordings = BTreeSet::new();
    for x in reached.values().filter(|x| x.level == 0) {
        for s in x.shown().into_iter().filter(|s| below(x, s.key)) {
            if recording(s.pointer) == 0 || class(s.pointer) > MOST_CLASS || !recordings.insert(recording(s.pointer)) {
                return None;
            }
            map.insert(s.key, s.pointer);
        }
    }

    // One parent each but the root, and one that lacks its slot.
    let mut lacking = Vec::new();
    for &i in reached.keys() {
        match parents.get(&i).map_or(0, |p| p.len()) {
            0 if i == from => {}
            0 => lacking.push(i),
            1 => {}
            _ => return None,
        }
    }
    let leftover = match lacking[..] {
        [] => {
            if !trailing.is_empty() {
                return None;
            }
            match hidden[..] {
                [] => Leftover::Nothing,
                [x] => Leftover::Hidden { node: x },
                _ => return None,
            }
        }
        [b] => {
            let a = *reached.iter().find(|(_, x)| x.sibling == b)?.0;
            let parent = *parents.get(&a)?.iter().next()?;
            let p = &reached[&parent];
            let fence = reached[&b].fence;
            let routed = p.shown().iter().filter(|s| s.key <= fence).last().map_or(p.left, |s| s.pointer);
            if routed != a || p.shown().len() > 10 || trailing.iter().any(|&x| x != a) {
                return None;
            }
            match hidden[..] {
                [] => Leftover::Missing { parent, a, trailing: !trailing.is_empty() },
                [x] if x == parent && trailing.is_empty() => Leftover::Both { parent, a },
                _ => return None,
            }
        }
        _ => return None,
    };
    Some(Tree { reached, leftover, map })
}

/// The nodes of a sound table that no way leads to, from either root.
pub fn unreachable(t: &[u64]) -> BTreeSet<u64> {
    let reached = judge(t).expect("a sound table").reached;
    (1..=t[2]).filter(|i| !reached.contains_key(i)).collect()
}

#[derive(Clone, Debug, PartialEq, Eq)]
pub enum Listed {
    Pairs { count: u64, more: bool },
    Refused(u64),
}

/// A listing: the answer, and the slice after it.
pub fn list(t: &[u64], collection: u64, low: u64, high: u64, out: &[u64]) -> (Listed, Vec<u64>) {
    let refused = |number| (Listed::Refused(number), out.to_vec());
    if !header_ok(t) {
        return refused(2);
    }
    if no_collection(t, collection) {
        return refused(17);
    }
    let Some(sound) = judge(t) else { return refused(4) };
    let map = &sound.maps[collection as usize - 1];
    let pairs: Vec<(u64, u64)> = map.iter().map(|(&k, &x)| (k, x)).filter(|&(k, _)| low <= k && k <= high).collect();
    let count = pairs.len().min(out.len() / 2);
    let mut words = out.to_vec();
    for (i, &(k, r)) in pairs[..count].iter().enumerate() {
        words[2 * i] = k;
        words[2 * i + 1] = r;
    }
    (Listed::Pairs { count: count as u64, more: count < pairs.len() }, words)
}

// ---- writes

#[derive(Clone, Copy, Debug, PartialEq, Eq)]
pub enum Order {
    Store(usize, u64),
    Flush(u64),
    Barrier,
}

/// A table with the stores made on it so far.
#[derive(Clone)]
pub struct Writer {
    pub t: Vec<u64>,
    pub stores: Vec<(usize, u64)>,
}

impl Writer {
    pub fn new(t: &[u64]) -> Writer {
        Writer { t: t.to_vec(), stores: Vec::new() }
    }

    pub fn store(&mut self, w: usize, x: u64) {
        self.t[w] = x;
        self.stores.push((w, x));
    }

    fn key(&mut self, n: u64, i: usize, x: u64) {
        self.store(start(n) + 8 + 2 * i, x)
    }

    fn pointer(&mut self, n: u64, i: usize, x: u64) {
        self.store(start(n) + 9 + 2 * i, x)
    }

    fn before(&self, n: u64, p: usize) -> u64 {
        let x = node(&self.t, n);
        if p == 0 { x.left } else { x.slots[p - 1].pointer }
    }

    pub fn shift_in(&mut self, n: u64, k: u64, x: u64) {
        let shown = node(&self.t, n).shown();
        let p = shown.iter().position(|s| s.key > k).unwrap_or(shown.len());
        self.pointer(n, shown.len() + 1, 0);
        for i in (p..shown.len()).rev() {
            let s = node(&self.t, n).slots[i];
            self.pointer(n, i + 1, s.pointer);
            self.key(n, i + 1, s.key);
        }
        let before = self.before(n, p);
        self.pointer(n, p, before);
        self.key(n, p, k);
        self.pointer(n, p, x);
    }

    fn close(&mut self, n: u64, p: usize, used: usize) {
        for i in p..used - 1 {
            let s = node(&self.t, n).slots[i + 1];
            self.key(n, i, s.key);
            self.pointer(n, i, s.pointer);
        }
        self.pointer(n, used - 1, 0);
    }

    pub fn shift_out(&mut self, n: u64, k: u64) {
        let shown = node(&self.t, n).shown();
        let p = shown.iter().position(|s| s.key == k).unwrap();
        let before = self.before(n, p);
        self.pointer(n, p, before);
        self.close(n, p, shown.len());
    }

    fn whole_node(&mut self, n: u64, words: [u64; 32]) {
        for (j, &x) in words.iter().enumerate() {
            self.store(start(n) + j, x);
        }
    }

    pub fn repair(&mut self, leftover: Leftover) {
        match leftover {
            Leftover::Nothing => {}
            Leftover::Hidden { node: x } => self.close_hidden(x),
            Leftover::Missing { parent, a, trailing } => {
                if trailing {
                    let x = node(&self.t, a);
                    let fence = node(&self.t, x.sibling).fence;
                    let place = (0..x.used()).find(|&i| x.slots[i].key >= fence).unwrap();
                    self.pointer(a, place, 0);
                }
                self.attach(parent, a);
            }
            Leftover::Both { parent, a } => {
                self.close_hidden(parent);
                self.attach(parent, a);
            }
        }
    }

    fn close_hidden(&mut self, n: u64) {
        let x = node(&self.t, n);
        self.close(n, x.places().1[0], x.used());
    }

    /// The parent of a sound table has room for the slot that it lacks: request 13 took out a refusal for want of it.
    fn attach(&mut self, parent: u64, a: u64) {
        assert!(node(&self.t, parent).shown().len() < 11, "no room in node {parent} of a sound table");
        let b = node(&self.t, a).sibling;
        let fence = node(&self.t, b).fence;
        self.shift_in(parent, fence, b);
    }

    /// The nodes from a collection's root down that lead to k, on a settled table.
    fn path(&self, collection: u64, k: u64) -> Vec<u64> {
        let mut way = vec![self.t[root_word(collection)]];
        loop {
            let x = node(&self.t, *way.last().unwrap());
            if x.level == 0 {
                return way;
            }
            way.push(x.shown().iter().filter(|s| s.key <= k).last().map_or(x.left, |s| s.pointer));
        }
    }

    fn full(&self, n: u64) -> bool {
        node(&self.t, n).shown().len() == 11
    }

    fn run(&self, collection: u64, k: u64) -> (usize, usize) {
        let path = self.path(collection, k);
        (path.iter().rev().take_while(|&&n| self.full(n)).count(), path.len())
    }

    fn fresh(&self, a: u64) -> u64 {
        let free = unreachable(&self.t);
        *free.range(a + 1..).next().or(free.iter().next()).expect("a fresh node")
    }

    fn new_root(&mut self, collection: u64) {
        let old = self.t[root_word(collection)];
        let r = self.fresh(old);
        let mut words = [0; 32];
        words[0] = old;
        words[2] = node(&self.t, old).level + 1;
        self.whole_node(r, words);
        self.store(root_word(collection), r);
    }

    fn split(&mut self, a: u64, parent: u64) {
        let x = node(&self.t, a);
        let b = self.fresh(a);
        let mut words = [0; 32];
        let from = if x.level == 0 { 5 } else { 6 };
        words[0] = if x.level == 0 { MARK } else { x.slots[5].pointer };
        words[1] = x.sibling;
        words[2] = x.level;
        words[3] = x.slots[5].key;
        for (j, s) in x.slots[from..11].iter().enumerate() {
            words[8 + 2 * j] = s.key;
            words[9 + 2 * j] = s.pointer;
        }
        self.whole_node(b, words);
        self.store(start(a) + 1, b);
        self.pointer(a, 5, 0);
        self.shift_in(parent, words[3], b);
    }

    fn insert(&mut self, collection: u64, k: u64, x: u64) {
        let (run, depth) = self.run(collection, k);
        if run == depth {
            self.new_root(collection);
        }
        for level in (0..run).rev() {
            let path = self.path(collection, k);
            self.split(path[path.len() - 1 - level], path[path.len() - 2 - level]);
        }
        let leaf = *self.path(collection, k).last().unwrap();
        self.shift_in(leaf, k, x);
    }

    /// On a settled table. A leaf that it empties and that is not its parent's leftmost child comes back: its slot is shifted out at the
    /// parent, then its sibling stored into its left neighbour's sibling word.
    fn delete(&mut self, collection: u64, k: u64) {
        let path = self.path(collection, k);
        let leaf = *path.last().unwrap();
        let emptied = node(&self.t, leaf).shown().len() == 1;
        self.shift_out(leaf, k);
        let Some(&parent) = path.iter().rev().nth(1).filter(|_| emptied) else { return };
        let ways = node(&self.t, parent).shown();
        let Some(place) = ways.iter().position(|s| s.pointer == leaf) else { return };
        let neighbour = self.before(parent, place);
        self.shift_out(parent, ways[place].key);
        self.store(start(neighbour) + 1, node(&self.t, leaf).sibling);
    }

    /// On a settled table that has the code: one store.
    fn set_class(&mut self, collection: u64, k: u64, to: u64) {
        let leaf = *self.path(collection, k).last().unwrap();
        let slots = node(&self.t, leaf).slots;
        let place = slots.iter().position(|s| s.key == k).unwrap();
        self.pointer(leaf, place, pointer(recording(slots[place].pointer), to));
    }
}

#[derive(Clone, Copy, Debug, PartialEq, Eq)]
pub enum Call {
    /// A collection, a key, a recording and its class; likewise below.
    Insert(u64, u64, u64, u64),
    Delete(u64, u64),
    SetClass(u64, u64, u64),
    Repair,
}

impl Call {
    /// The collection that it names; a repair names none.
    pub fn collection(self) -> Option<u64> {
        match self {
            Call::Insert(c, ..) | Call::Delete(c, _) | Call::SetClass(c, ..) => Some(c),
            Call::Repair => None,
        }
    }

    /// The same in another collection.
    pub fn naming(self, n: u64) -> Call {
        match self {
            Call::Insert(_, k, r, c) => Call::Insert(n, k, r, c),
            Call::Delete(_, k) => Call::Delete(n, k),
            Call::SetClass(_, k, c) => Call::SetClass(n, k, c),
            Call::Repair => Call::Repair,
        }
    }
}

/// The stores of an accepted call, with an order list of so many words for a dock, and the table that it leaves; or its refusal number.
pub fn write(t: &[u64], list_words: usize, dock: u64, call: Call) -> Result<Writer, u64> {
    if !header_ok(t) {
        return Err(2);
    }
    if call.collection().is_some_and(|c| no_collection(t, c)) {
        return Err(17);
    }
    let sound = judge(t).ok_or(4u64)?;
    write_judged(t, &sound, list_words, dock, call)
}

/// As `write`, on a sound table that has the collection.
pub fn write_judged(t: &[u64], sound: &Sound, list_words: usize, dock: u64, call: Call) -> Result<Writer, u64> {
    let least = match dock {
        ORDERED => LIST_WORDS,
        UNORDERED => LONG_LIST_WORDS,
        _ => return Err(18),
    };
    if list_words < least {
        return Err(5);
    }
    let mut w = Writer::new(t);
    w.repair(sound.leftover);
    let map = |n: u64| &sound.maps[n as usize - 1];
    match call {
        Call::Insert(n, k, r, c) => {
            if r == 0 || r > MOST_RECORDING {
                return Err(6);
            }
            if c > MOST_CLASS {
                return Err(14);
            }
            if map(n).contains_key(&k) {
                return Err(7);
            }
            if map(n).values().any(|&x| recording(x) == r) {
                return Err(8);
            }
            let (run, depth) = w.run(n, k);
            let new_root = run == depth;
            if new_root && node(&w.t, w.t[root_word(n)]).level == 15 {
                return Err(11);
            }
            if unreachable(&w.t).len() < run + new_root as usize {
                return Err(10);
            }
            w.insert(n, k, pointer(r, c));
        }
        Call::Delete(n, k) => {
            if !map(n).contains_key(&k) {
                return Err(9);
            }
            w.delete(n, k);
        }
        Call::SetClass(n, k, c) => {
            if c > MOST_CLASS {
                return Err(14);
            }
            if !map(n).contains_key(&k) {
                return Err(9);
            }
            w.set_class(n, k, c);
        }
        Call::Repair => {}
    }
    Ok(w)
}

/// A line is flushed before a store to another line, and at the end; for the unordered dock a barrier follows each store.
pub fn orders(stores: &[(usize, u64)], dock: u64) -> Vec<Order> {
    let mut list = Vec::new();
    let mut open = None;
    for &(w, x) in stores {
        let line = (w / 8) as u64;
        if let Some(l) = open.filter(|&l| l != line) {
            list.push(Order::Flush(l));
        }
        list.push(Order::Store(w, x));
        if dock == UNORDERED {
            list.push(Order::Barrier);
        }
        open = Some(line);
    }
    list.extend(open.map(Order::Flush));
    list
}

pub fn encode(orders: &[Order]) -> Vec<u64> {
    orders
        .iter()
        .flat_map(|o| match *o {
            Order::Store(w, x) => [w as u64, x],
            Order::Flush(l) => [MARK, l],
            Order::Barrier => [BARRIER, 0],
        })
        .collect()
}

/// The table after carry-out of the first c orders of a list of words, or the refusal number.
pub fn carry_out(t: &[u64], list: &[u64], c: u64) -> Result<Vec<u64>, u64> {
    if !header_ok(t) {
        return Err(2);
    }
    if c > (list.len() / 2) as u64 {
        return Err(13);
    }
    let first = &list[..2 * c as usize];
    let mut after = t.to_vec();
    for o in first.chunks(2) {
        match (o[0], o[1]) {
            (MARK, line) if line < (t.len() / 8) as u64 => {}
            (BARRIER, 0) => {}
            (word, value) if word < t.len() as u64 => after[word as usize] = value,
            _ => return Err(13),
        }
    }
    Ok(after)
}

type Stores = Vec<(usize, u64)>;

/// The stores to a line among orders.
fn stores_to(line: usize, orders: &[Order]) -> Stores {
    orders.iter().filter_map(|o| if let Order::Store(w, x) = *o { (w / 8 == line).then_some((w, x)) } else { None }).collect()
}

/// What a line may hold of its stores among the orders after its last flush. On the ordered dock: some first part of them. On the unordered
/// one: all up to some barrier or up to none, and any choice of those from there to the next barrier.
fn arrivals(line: usize, later: &[Order], dock: u64) -> BTreeSet<Stores> {
    let all = stores_to(line, later);
    if dock == ORDERED {
        return (0..=all.len()).map(|n| all[..n].to_vec()).collect();
    }
    let barriers: Vec<usize> = (0..later.len()).filter(|&i| later[i] == Order::Barrier).collect();
    let mut found = BTreeSet::new();
    for from in std::iter::once(0).chain(barriers.iter().map(|i| i + 1)) {
        let next = barriers.iter().copied().find(|&i| i >= from).unwrap_or(later.len());
        let (whole, open) = (stores_to(line, &later[..from]), stores_to(line, &later[from..next]));
        for chosen in 0..1u64 << open.len() {
            let some = open.iter().enumerate().filter(|(i, _)| chosen >> i & 1 == 1).map(|(_, &s)| s);
            found.insert(whole.iter().copied().chain(some).collect());
        }
    }
    found
}

/// Every image that a cut after the given orders may leave on a dock: each line as at its last flush, then what of its later stores arrived.
pub fn images(t: &[u64], happened: &[Order], dock: u64) -> Vec<Vec<u64>> {
    let lines: BTreeSet<usize> = happened.iter().filter_map(|o| if let Order::Store(w, _) = o { Some(w / 8) } else { None }).collect();
    let mut all = vec![t.to_vec()];
    for l in lines {
        let last = happened.iter().rposition(|o| *o == Order::Flush(l as u64)).map_or(0, |i| i + 1);
        let early = stores_to(l, &happened[..last]);
        let parts = arrivals(l, &happened[last..], dock);
        let mut next = Vec::new();
        for m in &all {
            for part in &parts {
                let mut image = m.clone();
                for &(w, x) in early.iter().chain(part) {
                    image[w] = x;
                }
                next.push(image);
            }
        }
        all = next;
    }
    all
}

// ---- random numbers (xorshift), so that a seed reproduces a run

pub struct Random(pub u64);

impl Random {
    pub fn next(&mut self) -> u64 {
        self.0 ^= self.0 << 13;
        self.0 ^= self.0 >> 7;
        self.0 ^= self.0 << 17;
        self.0
    }

    pub fn below(&mut self, n: u64) -> u64 {
        self.next() % n
    }
}
