//! Tables of two or three levels, handed in and not grown: parents over leaves of chosen numbers of codes, settled or unfinished around one
//! of the leaves.
#![allow(dead_code)]
use crate::common::*;
use crate::reference::*;

/// A settled table and its nodes, row by row from left to right.
pub struct Rows {
    pub t: Vec<u64>,
    pub parents: Vec<u64>,
    pub leaves: Vec<Vec<u64>>,
}

/// Keys lie so far apart.
pub const STEP: u64 = 1_000;

/// Parents over leaves with so many codes each, a root above them if they are several, and nodes to spare; numbered at random.
pub fn rows(codes: &[Vec<usize>], spare: usize, random: &mut Random) -> Rows {
    let count: usize = codes.iter().map(|of| 1 + of.len()).sum::<usize>() + (codes.len() > 1) as usize;
    let mut numbers: Vec<u64> = (1..=(count + spare) as u64).collect();
    for i in (1..numbers.len()).rev() {
        numbers.swap(i, random.below(i as u64 + 1) as usize);
    }
    let mut t = make(numbers.len() as u64, 1);
    // What no way leads to may hold anything.
    t[8..].iter_mut().for_each(|w| *w = random.below(40));
    let mut number = || numbers.pop().expect("a number");
    let parents: Vec<u64> = codes.iter().map(|_| number()).collect();
    let leaves: Vec<Vec<u64>> = codes.iter().map(|of| of.iter().map(|_| number()).collect()).collect();
    let mut put = |n: u64, left, sibling, level, fence, slots: &[(u64, u64)]| {
        let w = start(n);
        t[w..w + 32].fill(0);
        t[w..w + 4].copy_from_slice(&[left, sibling, level, fence]);
        for (i, &(key, pointer)) in slots.iter().enumerate() {
            t[w + 8 + 2 * i] = key;
            t[w + 9 + 2 * i] = pointer;
        }
    };
    // A leaf's fence is its place in the row; its first key may be the fence.
    let row: Vec<u64> = leaves.iter().flatten().copied().collect();
    let fence = |n: u64| STEP * row.iter().position(|&x| x == n).expect("a leaf") as u64;
    for (&leaf, &many) in row.iter().zip(codes.iter().flatten()) {
        let pairs: Vec<(u64, u64)> = (0..many as u64).map(|i| (fence(leaf) + 17 * i + i.min(1), pointer(1 + fence(leaf) + i, random.below(3)))).collect();
        let sibling = row.iter().skip_while(|&&x| x != leaf).nth(1).copied().unwrap_or(0);
        put(leaf, MARK, sibling, 0, fence(leaf), &pairs);
    }
    for (i, (&parent, of)) in parents.iter().zip(&leaves).enumerate() {
        let slots: Vec<(u64, u64)> = of[1..].iter().map(|&x| (fence(x), x)).collect();
        put(parent, of[0], parents.get(i + 1).copied().unwrap_or(0), 1, fence(of[0]), &slots);
    }
    let mut root = parents[0];
    if parents.len() > 1 {
        root = number();
        let slots: Vec<(u64, u64)> = parents.iter().zip(&leaves).skip(1).map(|(&p, of)| (fence(of[0]), p)).collect();
        put(root, parents[0], 0, 2, 0, &slots);
    }
    t[1] = root;
    Rows { t, parents, leaves }
}

// ---- leftovers

/// Which parent, and which of its children: not the first.
#[derive(Clone, Copy, Debug)]
pub struct Place {
    pub parent: usize,
    pub child: usize,
}

/// Ways to leave the table unfinished around the leaf; each None if the table has no room or no matter for it.
pub const LEFTOVERS: [(&str, fn(&Rows, Place) -> Option<Vec<u64>>); 14] = [
    ("settled", |r, _| Some(r.t.clone())),
    ("(a) behind the leaf's slot", |r, p| hidden(r, r.leaves[p.parent][p.child], 1)),
    ("(a) before the leaf's slot", |r, p| hidden(r, r.leaves[p.parent][p.child], 0)),
    ("(a) in the left neighbour", |r, p| hidden(r, r.leaves[p.parent][p.child - 1], 0)),
    ("(a) in the parent", |r, p| hidden(r, r.parents[p.parent], p.child - 1)),
    ("(b) the leaf lacks its slot", |r, p| lacking(r, p.parent, p.child, 0)),
    ("(b) the leaf lacks its slot, trailing slots", |r, p| lacking(r, p.parent, p.child, 2)),
    ("(b) its sibling lacks its slot", |r, p| lacking(r, p.parent, p.child + 1, 0)),
    ("(b) its sibling lacks its slot, trailing slots", |r, p| lacking(r, p.parent, p.child + 1, 3)),
    ("(b) under another parent", |r, p| (0..r.parents.len()).find(|&q| q != p.parent).and_then(|q| lacking(r, q, 1, 1))),
    ("(b) the parent lacks its slot", |r, p| parent_lacking(r, p.parent)),
    ("(c) the leaf lacks its slot", |r, p| half_lacking(r, p.parent, p.child)),
    ("(c) its sibling lacks its slot", |r, p| half_lacking(r, p.parent, p.child + 1)),
    ("(c) under another parent", |r, p| (0..r.parents.len()).find(|&q| q != p.parent).and_then(|q| half_lacking(r, q, 1))),
];

/// A hidden slot put in at a place.
fn hidden(r: &Rows, n: u64, place: usize) -> Option<Vec<u64>> {
    let mut t = r.t.clone();
    (node(&t, n).used() < 11).then(|| {
        let pointer = before(&t, n, place);
        put_slot(&mut t, n, place, 77, pointer);
        t
    })
}

/// A child without its slot, and the one before it with trailing slots.
fn lacking(r: &Rows, parent: usize, child: usize, trailing: usize) -> Option<Vec<u64>> {
    let mut t = r.t.clone();
    let (&b, a) = (r.leaves[parent].get(child)?, r.leaves[parent][child - 1]);
    take_slot(&mut t, r.parents[parent], child - 1);
    let (used, fence) = (node(&t, a).used(), node(&t, b).fence);
    for i in used..(used + trailing).min(11) {
        put_slot(&mut t, a, i, fence + (i - used) as u64, (1 << 40) + i as u64);
    }
    Some(t)
}

fn half_lacking(r: &Rows, parent: usize, child: usize) -> Option<Vec<u64>> {
    r.leaves[parent].get(child)?;
    let mut t = r.t.clone();
    hide(&mut t, r.parents[parent], child - 1);
    Some(t)
}

fn parent_lacking(r: &Rows, parent: usize) -> Option<Vec<u64>> {
    let mut t = r.t.clone();
    (parent > 0).then(|| {
        let root = t[1];
        take_slot(&mut t, root, parent - 1);
        t
    })
}
