//! Sentences of document 01 and of the requests on tables and numbers worked by hand. No answer here is the reference's.
mod calls;
mod reference;
mod tower;

use reference::{Random, BARRIER, MARK, ORDERED, UNORDERED};
use std::fmt::Debug;
use tower::{tower, Floor};

/// A call gives what it must, or the run ends with the call and the table.
fn gives<T: PartialEq + Debug>(call: &str, t: &[u64], got: T, want: T) {
    if got != want {
        println!("FAILED: {call}: wanted {want:?}, got {got:?}\ntable {t:?}");
        std::process::exit(1);
    }
}

/// Left, sibling, level and fence, and the slots.
type Words<'a> = ([u64; 4], &'a [(u64, u64)]);

const FREE: Words = ([0; 4], &[]);

/// A table of these nodes, 1, 2 ..
fn table(root: u64, nodes: &[Words]) -> Vec<u64> {
    let mut t = vec![1, root, nodes.len() as u64, 0, 0, 0, 0, 0];
    for (head, slots) in nodes {
        let mut words = [0; 32];
        words[..4].copy_from_slice(head);
        for (i, &(key, pointer)) in slots.iter().enumerate() {
            words[8 + 2 * i] = key;
            words[9 + 2 * i] = pointer;
        }
        t.extend(words);
    }
    t
}

/// With one word changed.
fn with(t: &[u64], word: usize, value: u64) -> Vec<u64> {
    let mut d = t.to_vec();
    d[word] = value;
    d
}

fn finds(t: &[u64], key: u64, recording: u64) {
    gives(&format!("search for {key}"), t, calls::search(t, 1, key), calls::found(recording, 0));
}

/// The key is absent, and this one is the next up.
fn lacks(t: &[u64], key: u64, next: Option<u64>) {
    gives(&format!("search for {key}"), t, calls::search(t, 1, key), calls::absent(next));
}

/// A search's refusal; every lent word stays.
fn search_gives(t: &[u64], key: u64, number: u64) {
    gives(&format!("search for {key}"), t, calls::search(t, 1, key), calls::refused(number));
}

const FULL: [(u64, u64); 11] = [(10, 1), (20, 2), (30, 3), (40, 4), (50, 5), (60, 6), (70, 7), (80, 8), (90, 9), (100, 10), (110, 11)];

/// Nodes of levels `top` down to 0, each the left child of the one before; the leaf has (5, 50).
fn chain(top: u64) -> Vec<u64> {
    let pair = [(5, 50)];
    let nodes: Vec<Words> = (0..=top).map(|i| ([if i == top { MARK } else { i + 2 }, 0, top - i, 0], if i == top { &pair[..] } else { &[] })).collect();
    table(1, &nodes)
}

fn root_levels() {
    let list = [0; 2560];
    let t = chain(15);
    finds(&t, 5, 50);
    lacks(&t, 6, None);
    lacks(&t, 0, Some(5));
    gives("repair", &t, calls::repair(&t, &list, ORDERED).number, 0);
    gives("listing", &t, calls::list(&t, 1, 0, MARK, &[7; 4]), (0, [Some(1), Some(0)], vec![5, 50, 7, 7]));
    let t = chain(16);
    search_gives(&t, 5, 3);
    gives("repair", &t, calls::repair(&t, &list, ORDERED).number, 4);
    gives("listing", &t, calls::list(&t, 1, 0, MARK, &[7; 4]), (4, [None; 2], vec![7; 4]));
    search_gives(&with(&chain(15), 10, MARK), 5, 3);
}

/// The root with two leaves; a search refuses with 3 for what it reads and not for the rest.
fn search_refusals() {
    // Node 1 begins at word 8, node 2 at 40, node 3 at 72.
    let t = table(1, &[([2, 0, 1, 0], &[(40, 3)]), ([MARK, 3, 0, 0], &[(10, 100)]), ([MARK, 0, 0, 40], &[(50, 500)]), FREE]);
    finds(&t, 10, 100);
    finds(&t, 50, 500);
    // A node number outside 1 to N: left, a slot's child, a leaf's sibling, the root's sibling.
    for outside in [0, 5, 1 << 32, MARK] {
        search_gives(&with(&t, 8, outside), 10, 3);
        finds(&with(&t, 8, outside), 50, 500);
    }
    for outside in [5, MARK] {
        search_gives(&with(&t, 17, outside), 50, 3);
        finds(&with(&t, 17, outside), 10, 100);
        search_gives(&with(&t, 41, outside), 10, 3);
        finds(&with(&t, 41, outside), 50, 500);
        search_gives(&with(&t, 9, outside), 10, 3);
    }
    // A child not one level down.
    for level in [1, 2, MARK] {
        search_gives(&with(&t, 42, level), 10, 3);
        finds(&with(&t, 42, level), 50, 500);
    }
    search_gives(&with(&t, 10, 2), 10, 3);
    search_gives(&with(&t, 10, 2), 50, 3);
    // A sibling on another level, moved to or not.
    let t = table(1, &[([MARK, 2, 0, 0], &[(10, 100)]), ([MARK, 0, 0, 40], &[(50, 500)])]);
    finds(&t, 10, 100);
    finds(&t, 50, 500);
    for level in [1, MARK] {
        search_gives(&with(&t, 42, level), 10, 3);
        search_gives(&with(&t, 42, level), 50, 3);
    }
    // 2 before 3.
    search_gives(&with(&with(&t, 42, 1), 4, 1), 10, 2);
}

fn absent_search() {
    let t = table(1, &[([MARK, 0, 0, 0], &[(20, 5), (25, 5), (30, 6)])]);
    finds(&t, 20, 5);
    finds(&t, 30, 6);
    // The hidden slot's key is absent, and is no neighbour.
    for (key, next) in [(0, Some(20)), (19, Some(20)), (21, Some(30)), (25, Some(30)), (29, Some(30)), (31, None), (MARK - 1, None), (MARK, None)] {
        lacks(&t, key, next);
    }
    // MARK is a key like any other, and the next one up of those below it.
    let t = table(1, &[([MARK, 0, 0, 0], &[(0, 5), (20, 6), (MARK, 7)])]);
    finds(&t, 0, 5);
    finds(&t, MARK, 7);
    for (key, next) in [(1, Some(20)), (19, Some(20)), (21, Some(MARK)), (MARK - 1, Some(MARK))] {
        lacks(&t, key, next);
    }
    lacks(&table(1, &[([MARK, 0, 0, 0], &[])]), MARK, None);
    // 'First' goes by place in the leaf, where keys do not rise.
    let t = table(1, &[([MARK, 0, 0, 0], &[(40, 1), (30, 2), (50, 3)])]);
    lacks(&t, 10, Some(40));
    lacks(&t, 35, Some(40));
    lacks(&t, 45, Some(50));
}

/// The neighbour is looked for along the siblings, in leaves that may be empty.
fn neighbours_further_on() {
    // Node 1 begins at word 8, node 2 at 40, node 3 at 72, node 4 at 104, node 5 at 136.
    let root: Words = ([2, 0, 1, 0], &[(40, 3), (60, 4), (80, 5)]);
    let t = table(1, &[root, ([MARK, 3, 0, 0], &[(10, 1)]), ([MARK, 4, 0, 40], &[]), ([MARK, 5, 0, 60], &[]), ([MARK, 0, 0, 80], &[(80, 4), (85, 5)])]);
    for (key, next) in [(0, Some(10)), (11, Some(80)), (40, Some(80)), (59, Some(80)), (60, Some(80)), (79, Some(80)), (81, Some(85)), (86, None)] {
        lacks(&t, key, next);
    }
    gives("repair", &t, calls::repair(&t, &[0; 2560], ORDERED).counts, [Some(0); 3]);
    // The last leaf empty too: none from 11 on.
    let none = with(&t, 145, 0);
    lacks(&none, 9, Some(10));
    for key in [11, 40, 70, 80, 86] {
        lacks(&none, key, None);
    }
    // A slot that is not below its leaf's sibling's fence is no neighbour: the sibling's is. Nor is a hidden one.
    let t = table(1, &[([MARK, 2, 0, 0], &[(10, 1), (40, 6), (60, 7)]), ([MARK, 0, 0, 40], &[(45, 8), (50, 8), (60, 7)])]);
    lacks(&t, 9, Some(10));
    lacks(&t, 20, Some(45));
    lacks(&t, 46, Some(60));
    lacks(&t, 61, None);
    // A leaf further on that fails the tests is met only if no slot before it answers.
    let t = table(1, &[([MARK, 2, 0, 0], &[(10, 1)]), ([MARK, 3, 0, 40], &[(45, 2)]), ([MARK, 4, 0, 60], &[]), ([MARK, 0, 0, 80], &[(90, 3)])]);
    lacks(&t, 9, Some(10));
    lacks(&t, 50, Some(90));
    for (word, value) in [(73, 5), (73, MARK), (106, 1), (106, MARK)] {
        let bad = with(&t, word, value);
        lacks(&bad, 9, Some(10));
        lacks(&bad, 20, Some(45));
        finds(&bad, 45, 2);
        search_gives(&bad, 46, 3);
    }
    // The sibling of the search's last leaf is tested before its slots are used, also after a move; not if the key is there.
    for (word, value) in [(41, 5), (41, MARK), (74, 1)] {
        let bad = with(&t, word, value);
        search_gives(&bad, 41, 3);
        finds(&bad, 45, 2);
        lacks(&bad, 9, Some(10));
    }
}

/// At most N leaves are entered for the neighbour, the search's last and repeats counted.
fn rings_of_leaves() {
    // A leaf that is its own sibling. With fence 0 no slot is below it, and the search moves to the leaf itself.
    let t = table(1, &[([MARK, 1, 0, 0], &[(10, 1)])]);
    finds(&t, 10, 1);
    search_gives(&t, 9, 3);
    search_gives(&t, 11, 3);
    let t = with(&t, 11, 50);
    finds(&t, 10, 1);
    lacks(&t, 9, Some(10));
    search_gives(&t, 11, 3);
    search_gives(&t, 60, 3);
    // N leaves in a row without end: the last one's slots count, and that it has no sibling.
    let three: [Words; 3] = [([MARK, 2, 0, 0], &[]), ([MARK, 3, 0, 20], &[]), ([MARK, 0, 0, 40], &[(50, 5)])];
    let t = table(1, &three);
    lacks(&t, 0, Some(50));
    lacks(&t, 20, Some(50));
    lacks(&with(&t, 81, 0), 0, None);
    // The third leaf's sibling is the first, with fence 0: none of its slots counts, and a fourth leaf may not be entered.
    let ring = with(&t, 73, 1);
    for key in [0, 20, 49, 51] {
        search_gives(&ring, key, 3);
    }
    // Fences above every key: no move, and every slot counts. The third of three leaves still answers, from each start.
    let far: [Words; 3] = [([MARK, 2, 0, MARK], &[]), ([MARK, 3, 0, MARK], &[]), ([MARK, 1, 0, MARK], &[(50, 5)])];
    for root in 1..=3 {
        let ring = table(root, &far);
        lacks(&ring, 49, Some(50));
        search_gives(&ring, 51, 3);
        // The same ring in a table of more nodes goes round more often, to the same end.
        let larger = table(root, &[far[0], far[1], far[2], FREE, FREE]);
        lacks(&larger, 49, Some(50));
        search_gives(&larger, 51, 3);
    }
    // A slot that comes round: the search for 45 moves to leaf 3 and goes on to leaf 1, where 70 is below leaf 2's fence.
    let round = table(2, &[([MARK, 2, 0, 0], &[(70, 1)]), ([MARK, 3, 0, 90], &[]), ([MARK, 1, 0, 40], &[])]);
    lacks(&round, 45, Some(70));
    search_gives(&round, 70, 3);
}

fn listing_refusals() {
    let listed = |t: &[u64]| calls::list(t, 1, 0, MARK, &[7; 5]);
    let t = table(1, &[([MARK, 0, 0, 0], &[(20, 5), (30, 6)])]);
    gives("listing", &t, listed(&t), (0, [Some(2), Some(0)], vec![20, 5, 30, 6, 7]));
    // A leaf's left is not MARK: 4. With a wrong header, root or length as well: 2.
    let bad = with(&t, 8, 1);
    gives("listing", &bad, listed(&bad), (4, [None; 2], vec![7; 5]));
    for (word, value) in [(0, 2), (1, 0), (1, 2), (2, 2), (3, 1), (7, 1)] {
        let worse = with(&bad, word, value);
        gives("listing", &worse, listed(&worse), (2, [None; 2], vec![7; 5]));
    }
    gives("listing", &bad[..39], listed(&bad[..39]), (2, [None; 2], vec![7; 5]));
}

/// c is at most half the list's length rounded down, and only the first c orders are looked at.
fn carry_out_counts() {
    let t = table(1, &[([MARK, 0, 0, 0], &[])]);
    let list = [39, 7, MARK, 4, 40, 1, MARK, 5, 16];
    let stored = with(&t, 39, 7);
    let carried = |words: usize, c: u64| {
        let (number, after) = calls::carry_out(&t, &list[..words], c);
        let left = if after == t { "as before" } else if after == stored { "stored" } else { "other words" };
        (number, left)
    };
    // (words of the list, c): what is answered and left. Word 40 and line 5 are outside 40 words.
    for (words, c, want) in [
        (0, 0, (0, "as before")),
        (0, 1, (13, "as before")),
        (1, 0, (0, "as before")),
        (1, 1, (13, "as before")),
        (2, 1, (0, "stored")),
        (2, 2, (13, "as before")),
        (3, 1, (0, "stored")),
        (3, 2, (13, "as before")),
        (4, 2, (0, "stored")),
        (5, 2, (0, "stored")),
        (5, 3, (13, "as before")),
        (9, 2, (0, "stored")),
        (9, 3, (13, "as before")),
        (9, 4, (13, "as before")),
        (9, 5, (13, "as before")),
        (9, 1 << 63, (13, "as before")),
        (9, MARK, (13, "as before")),
    ] {
        gives(&format!("carry-out of {c} orders of {:?}", &list[..words]), &t, carried(words, c), want);
    }
    gives("carry-out of a flush outside", &t, calls::carry_out(&t, &list[6..], 1), (13, t.clone()));
    gives("carry-out on no table", &t[..39], calls::carry_out(&t[..39], &list, MARK), (2, t[..39].to_vec()));
}

/// Fresh nodes are the first unreachable ones after the node being split, going round; for a new root after the old one.
fn fresh_nodes() {
    let list = [0; 2560];
    let leaf: Words = ([MARK, 0, 0, 0], &FULL);
    // (N, the root leaf that is full): the new root and the leaf's new sibling.
    for (n, old, root, sibling) in [(3, 1, 2, 3), (4, 1, 2, 3), (4, 2, 3, 4), (4, 3, 4, 1), (4, 4, 1, 2), (3, 3, 1, 2), (6, 5, 6, 1)] {
        let mut nodes = vec![FREE; n];
        nodes[old as usize - 1] = leaf;
        let t = table(old, &nodes);
        let after = calls::insert(&t, 1, &list, ORDERED, 115, 12, 0);
        gives("insertion of 115", &t, (after.number, after.counts), (0, [Some(75), Some(13), Some(0)]));
        nodes[old as usize - 1] = ([MARK, sibling, 0, 0], &FULL);
        nodes[root as usize - 1] = ([old, 0, 1, 0], &[]);
        nodes[sibling as usize - 1] = ([MARK, 0, 0, 60], &[(60, 6), (70, 7), (80, 8), (90, 9), (100, 10), (110, 11), (115, 12)]);
        let mut want = table(root, &nodes);
        // Pointer 5 of the old leaf is 0; the new root has the slot (60, sibling).
        want[8 + 32 * (old as usize - 1) + 19] = 0;
        want[8 + 32 * (root as usize - 1) + 8] = 60;
        want[8 + 32 * (root as usize - 1) + 9] = sibling;
        gives("insertion of 115", &t, after.table, want);
    }
    // A leaf below a root with room, in a table of 5: (the leaf, the root): the leaf's new sibling.
    for (a, root, b) in [(3, 2, 4), (5, 2, 1), (4, 5, 1), (2, 3, 4), (5, 1, 2), (4, 3, 5)] {
        let mut nodes = [FREE; 5];
        nodes[a as usize - 1] = leaf;
        nodes[root as usize - 1] = ([a, 0, 1, 0], &[]);
        let t = table(root, &nodes);
        let after = calls::insert(&t, 1, &list, ORDERED, 5, 12, 0);
        let sibling = after.table[8 + 32 * (a as usize - 1) + 1];
        gives("insertion of 5", &t, (after.number, after.table[1], sibling), (0, root, b));
    }
}

/// A deletion's counts and orders, and what the table then is.
fn deletion_gives(t: &[u64], key: u64, orders: &[[u64; 2]], changed: &[(usize, u64)]) -> Vec<u64> {
    let after = calls::delete(t, 1, &[7; 2560], ORDERED, key);
    let flushes = orders.iter().filter(|o| o[0] == MARK).count() as u64;
    let mut list = orders.concat();
    list.resize(2560, 7);
    gives(&format!("deletion of {key}"), t, (after.number, after.counts, after.list), (0, [Some(orders.len() as u64 - flushes), Some(flushes), Some(0)], list));
    let want = changed.iter().fold(t.to_vec(), |t, &(word, value)| with(&t, word, value));
    gives(&format!("deletion of {key}"), t, after.table.clone(), want);
    after.table
}

/// A leaf that a deletion empties comes back unless it is its parent's leftmost child.
fn freed_leaves() {
    // Node 1 begins at word 8, node 2 at 40, node 3 at 72, node 4 at 104; lines 1, 5, 9, 13.
    let t = table(2, &[([MARK, 3, 0, 0], &[(10, 1)]), ([1, 0, 1, 0], &[(60, 3)]), ([MARK, 0, 0, 60], &[(70, 6)])]);
    // Its slot at the parent, the one there is, goes first; then the leaf itself is passed by. Its words stay but for the pointer.
    let freed = deletion_gives(&t, 70, &[[81, MARK], [81, 0], [MARK, 10], [49, 1], [49, 0], [MARK, 6], [9, 0], [MARK, 1]], &[(81, 0), (49, 0), (9, 0)]);
    gives("repair", &freed, calls::repair(&freed, &[0; 2560], ORDERED).counts, [Some(0); 3]);
    // The leftmost child remains, also as the last leaf; so does a root leaf.
    let last = deletion_gives(&freed, 10, &[[17, MARK], [17, 0], [MARK, 2]], &[(17, 0)]);
    lacks(&last, 10, None);
    deletion_gives(&t, 10, &[[17, MARK], [17, 0], [MARK, 2]], &[(17, 0)]);
    deletion_gives(&table(1, &[([MARK, 0, 0, 0], &[(5, 50)])]), 5, &[[17, MARK], [17, 0], [MARK, 2]], &[(17, 0)]);
    // The freed node serves the next split, where there was no other: eleven codes in leaf 1, then a twelfth.
    let mut grown = freed.clone();
    for key in 11..=20 {
        let after = calls::insert(&grown, 1, &[0; 2560], ORDERED, key, key, 0);
        gives(&format!("insertion of {key}"), &grown, after.number, 0);
        grown = after.table;
    }
    let after = calls::insert(&grown, 1, &[0; 2560], ORDERED, 21, 21, 0);
    gives("insertion of 21", &grown, (after.number, after.table[9], after.table[48..50].to_vec(), after.table[75]), (0, 3, vec![15, 3], 15));
    // A leaf between two: its neighbour takes its sibling. A leaf that was empty before is no matter of this deletion, and may be the neighbour.
    let t = table(1, &[([2, 0, 1, 0], &[(20, 3), (40, 4), (60, 5)]), ([MARK, 3, 0, 0], &[(10, 1)]), ([MARK, 4, 0, 20], &[]), ([MARK, 5, 0, 40], &[(45, 4)]), ([MARK, 0, 0, 60], &[(60, 6)])]);
    let shown = [[113, MARK], [113, 0], [MARK, 14], [19, 3], [18, 60], [19, 5], [21, 0], [MARK, 2], [73, 5], [MARK, 9]];
    deletion_gives(&t, 45, &shown, &[(113, 0), (18, 60), (19, 5), (21, 0), (73, 5)]);
    // The sibling is under another parent: node 6 is the root, 1 and 5 its children, 3 the last child of 1 and 4 the first of 5.
    let t = table(
        6,
        &[([2, 5, 1, 0], &[(20, 3)]), ([MARK, 3, 0, 0], &[(10, 1)]), ([MARK, 4, 0, 20], &[(20, 2)]), ([MARK, 0, 0, 40], &[(45, 4)]), ([4, 0, 1, 40], &[]), ([1, 0, 2, 0], &[(40, 5)])],
    );
    deletion_gives(&t, 20, &[[81, MARK], [81, 0], [MARK, 10], [17, 2], [17, 0], [MARK, 2], [41, 4], [MARK, 5]], &[(81, 0), (17, 0), (41, 4)]);
    // 4 is leftmost at its parent: it remains, though it is not the first of its row.
    deletion_gives(&t, 45, &[[113, MARK], [113, 0], [MARK, 14]], &[(113, 0)]);
    // A full parent: 2 stores at the leaf, 2 (11 - p) at the parent, 1 at the neighbour.
    let keys: Vec<u64> = (0..12).map(|i| 10 * i).collect();
    let slots: Vec<(u64, u64)> = (1..12).map(|i| (keys[i], i as u64 + 2)).collect();
    let pairs: Vec<[(u64, u64); 1]> = (0..12).map(|i| [(keys[i] + 1, 100 + i as u64)]).collect();
    let mut nodes: Vec<Words> = vec![([2, 0, 1, 0], &slots)];
    nodes.extend((0..12).map(|i| ([MARK, if i < 11 { i as u64 + 3 } else { 0 }, 0, keys[i]], &pairs[i][..])));
    let t = table(1, &nodes);
    for p in 0..11 {
        let after = calls::delete(&t, 1, &[0; 2560], ORDERED, keys[p + 1] + 1);
        gives(&format!("deletion at slot {p} of 11"), &t, (after.number, after.counts[0]), (0, Some(2 + 2 * (11 - p as u64) + 1)));
        lacks(&after.table, keys[p + 1] + 1, pairs.get(p + 2).map(|x| x[0].0));
    }
}

/// A pointer's class counts 2^56 each.
const ROOM: u64 = 72057594037927936;
const CLOSED: u64 = 2 * ROOM;

/// 6, then 14, then 7, then 8; a class is 0 to 2, a recording 1 to 2^56 - 1.
fn recordings_and_classes() {
    let list = [0; 2560];
    let t = table(1, &[([MARK, 0, 0, 0], &[(20, 5), (30, ROOM + 6), (40, CLOSED + ROOM - 1)])]);
    for (key, recording, access) in [(20, 5, 0), (30, 6, 1), (40, ROOM - 1, 2)] {
        gives(&format!("search for {key}"), &t, calls::search(&t, 1, key), calls::found(recording, access));
    }
    gives("listing", &t, calls::list(&t, 1, 0, MARK, &[7; 6]), (0, [Some(3), Some(0)], vec![20, 5, 30, ROOM + 6, 40, CLOSED + ROOM - 1]));
    let number = |key, recording, access| calls::insert(&t, 1, &list, ORDERED, key, recording, access).number;
    for (recording, want) in [(0, 6), (1, 0), (7, 0), (ROOM - 2, 0), (ROOM - 1, 8), (ROOM, 6), (ROOM + 1, 6), (CLOSED + 7, 6), (MARK, 6), (5, 8), (6, 8)] {
        for access in 0..=2 {
            gives(&format!("insertion of recording {recording}, class {access}"), &t, number(25, recording, access), want);
            // A code that is there comes before a recording that is, and after the two tests of what is given.
            gives(&format!("insertion of 20 again, recording {recording}, class {access}"), &t, number(20, recording, access), if want == 6 { 6 } else { 7 });
        }
        for access in [3, 255, 256, ROOM, MARK] {
            for key in [20, 25] {
                gives(&format!("insertion of {key}, recording {recording}, class {access}"), &t, number(key, recording, access), if want == 6 { 6 } else { 14 });
            }
        }
    }
    // The order list has the whole pointer.
    let after = calls::insert(&make(1), 1, &list, ORDERED, 9, ROOM - 1, 2);
    gives("insertion", &make(1), after.list[..10].to_vec(), vec![19, 0, 17, MARK, 16, 9, 17, CLOSED + ROOM - 1, MARK, 2]);
    // 4 and 5 come first.
    let bad = with(&t, 8, 1);
    gives("insertion into a table that is not sound", &bad, calls::insert(&bad, 1, &list[..9], ORDERED, 25, 0, 9).number, 4);
    gives("insertion with a short list", &t, calls::insert(&t, 1, &list[..2559], ORDERED, 25, 0, 9).number, 5);
}

fn make(nodes: u64) -> Vec<u64> {
    table(1, &(0..nodes).map(|i| ([if i == 0 { MARK } else { 0 }, 0, 0, 0], &[][..])).collect::<Vec<Words>>())
}

/// A search answers what stands there; writes and listing take only recordings from 1 on in classes 0 to 2.
fn pointers_handed_in() {
    let repaired = |t: &[u64]| calls::repair(t, &[0; 2560], ORDERED).number;
    for access in 0..256 {
        for recording in [0, 1, 9, ROOM - 1] {
            let pointer = access * ROOM + recording;
            // Pointer 0 ends the slots; MARK in slot 0 is a leaf's left, and hides it.
            let t = table(1, &[([MARK, 0, 0, 0], &[(10, 3), (20, pointer), (30, 4)])]);
            let sound = recording > 0 && access <= 2;
            if pointer != 0 {
                gives(&format!("search for {pointer}"), &t, calls::search(&t, 1, 20), calls::found(recording, access));
            }
            gives(&format!("repair with pointer {pointer}"), &t, repaired(&t), if sound || pointer == 0 { 0 } else { 4 });
            gives(&format!("listing with pointer {pointer}"), &t, calls::list(&t, 1, 0, 5, &[]).0, if sound || pointer == 0 { 0 } else { 4 });
        }
    }
    // In a slot that is ignored, or past the slots in use, any pointer may stand.
    let t = table(2, &[([MARK, 3, 0, 0], &[(10, 3), (60, ROOM), (70, MARK - 1)]), ([1, 0, 1, 0], &[]), ([MARK, 0, 0, 50], &[(50, 0), (60, MARK)])]);
    gives("repair", &t, repaired(&t), 0);
    // Slot 0 hidden by the leaf's left, MARK: no recording, though its low bits are one.
    let t = table(1, &[([MARK, 0, 0, 0], &[(5, MARK), (10, 3)])]);
    lacks(&t, 5, Some(10));
    gives("insertion", &t, calls::insert(&t, 1, &[0; 2560], ORDERED, 20, ROOM - 1, 0).number, 0);
    let t = table(1, &[([MARK, 0, 0, 0], &[(5, MARK), (10, ROOM - 1)])]);
    gives("repair", &t, repaired(&t), 0);
    gives("insertion", &t, calls::insert(&t, 1, &[0; 2560], ORDERED, 20, ROOM - 1, 0).number, 8);
}

/// Whole words that are equal mean hidden; recordings that are equal in two classes mean not sound.
fn recordings_in_two_classes() {
    let repaired = |t: &[u64]| calls::repair(t, &[0; 2560], ORDERED).number;
    for a in 0..3 {
        for b in 0..3 {
            let (x, y) = (a * ROOM + 5, b * ROOM + 5);
            // Side by side; with a slot between; in the next leaf.
            let beside = table(1, &[([MARK, 0, 0, 0], &[(10, x), (20, y), (30, 6)])]);
            gives("repair", &beside, repaired(&beside), if a == b { 0 } else { 4 });
            gives("search for 20", &beside, calls::search(&beside, 1, 20), if a == b { calls::absent(Some(30)) } else { calls::found(5, b) });
            let apart = table(1, &[([MARK, 0, 0, 0], &[(10, x), (20, 6), (30, y)])]);
            gives("repair", &apart, repaired(&apart), 4);
            let leaves = table(3, &[([MARK, 2, 0, 0], &[(10, x)]), ([MARK, 0, 0, 20], &[(20, y)]), ([1, 0, 1, 0], &[(20, 2)])]);
            gives("repair", &leaves, repaired(&leaves), 4);
        }
    }
}

/// One store and one flush, after any repair; 14 before 9, and 4 and 5 before both.
fn class_changes() {
    let list = [7; 2560];
    let t = table(1, &[([MARK, 0, 0, 0], &[(20, 5), (30, ROOM + 6), (40, CLOSED + 8)])]);
    for (key, place, recording) in [(20, 17, 5), (30, 19, 6), (40, 21, 8)] {
        for access in 0..=2 {
            let after = calls::set_class(&t, 1, &list, ORDERED, key, access);
            let pointer = access * ROOM + recording;
            let mut want = list.to_vec();
            want[..4].copy_from_slice(&[place as u64, pointer, MARK, 2]);
            // Also if the code has that class already.
            gives(&format!("class {access} of {key}"), &t, (after.number, after.counts, after.list), (0, [Some(1), Some(1), Some(0)], want));
            gives(&format!("class {access} of {key}"), &t, &after.table, &with(&t, place, pointer));
            gives(&format!("search for {key}"), &after.table, calls::search(&after.table, 1, key), calls::found(recording, access));
        }
    }
    let refusal = |t: &[u64], words: usize, key: u64, access: u64| {
        let after = calls::set_class(t, 1, &list[..words], ORDERED, key, access);
        gives(&format!("a refused class {access} of {key}"), t, (after.counts, after.table == t, after.list == list[..words]), ([None; 3], true, true));
        after.number
    };
    for access in [3, 255, 256, ROOM, MARK] {
        gives(&format!("class {access}"), &t, [refusal(&t, 2560, 20, access), refusal(&t, 2560, 21, access)], [14, 14]);
    }
    gives("class of an absent code", &t, [21, 0, MARK].map(|key| refusal(&t, 2560, key, 1)), [9; 3]);
    gives("class with a short list", &t, refusal(&t, 2559, 21, 3), 5);
    gives("class on a table that is not sound", &t, refusal(&with(&t, 8, 1), 2559, 21, 3), 4);
    gives("class on no table", &t[..39], refusal(&t[..39], 2559, 21, 3), 2);
    // A hidden slot's key is absent. Its repair comes first: here on the same line, and one flush is enough; there on another.
    let t = table(1, &[([MARK, 0, 0, 0], &[(20, 5), (25, 5), (30, 6)])]);
    gives("class of a hidden slot's key", &t, refusal(&t, 2560, 25, 1), 9);
    let after = calls::set_class(&t, 1, &list, ORDERED, 30, 2);
    let orders = [18, 30, 19, 6, 21, 0, 19, CLOSED + 6, MARK, 2, 7, 7];
    gives("class of 30", &t, (after.counts, after.list[..12].to_vec()), ([Some(4), Some(1), Some(0)], orders.to_vec()));
    let t = table(2, &[([MARK, 3, 0, 0], &[(10, 3)]), ([1, 0, 1, 0], &[]), ([MARK, 0, 0, 50], &[(60, 6)])]);
    let after = calls::set_class(&t, 1, &list, ORDERED, 60, 1);
    let orders = [51, 0, 49, 1, 48, 50, 49, 3, MARK, 6, 81, ROOM + 6, MARK, 10, 7, 7];
    gives("class of 60", &t, (after.counts, after.list[..16].to_vec()), ([Some(5), Some(2), Some(0)], orders.to_vec()));
}

/// All nodes from a root at level 15 down to a leaf are full: 11, however few nodes are free. From level 14, 16 nodes are needed: else 10.
fn too_high() {
    let random = &mut Random(20_261_118);
    for (root, free, number) in [(15, 0, 11), (15, 1, 11), (15, 17, 11), (15, 100, 11), (14, 0, 10), (14, 15, 10), (14, 16, 0), (14, 17, 0)] {
        let x = tower(&vec![Floor { slots: 11, place: 3 }; root + 1], free, random);
        let after = calls::insert(&x.t, 1, &[0; 2560], ORDERED, x.key, 1, 0);
        gives(&format!("insertion of {} into full nodes up to level {root}, {free} free", x.key), &x.t, after.number, number);
        if number == 0 {
            let level = after.table[8 + 32 * (after.table[1] as usize - 1) + 2];
            gives("the new root's level", &x.t, level, 15);
            finds(&after.table, x.key, 1);
        } else {
            gives("a refused insertion", &x.t, (after.counts, after.table == x.t, after.list == [0; 2560]), ([None; 3], true, true));
        }
    }
}

// ---- two collections

const LEAF: Words = ([MARK, 0, 0, 0], &[]);

/// A table of two collections with these roots.
fn two(roots: [u64; 2], nodes: &[Words]) -> Vec<u64> {
    with(&table(roots[0], nodes), 3, roots[1])
}

/// Making says whether one or two collections exist; with two, nodes 1 and 2 are empty leaves. N = 1 has no room for two.
fn made_with_two() {
    for (nodes, collections, want) in [(1, 1, table(1, &[LEAF])), (2, 1, table(1, &[LEAF, FREE])), (2, 2, two([1, 2], &[LEAF, LEAF])), (4, 2, two([1, 2], &[LEAF, LEAF, FREE, FREE]))] {
        gives(&format!("making {collections} collections with N = {nodes}"), &[], calls::make(&vec![7; 8 + 32 * nodes], collections), (0, want));
    }
    for (words, collections, number) in [(40, 2, 2), (40, 0, 17), (40, 3, 17), (72, 0, 17), (72, 3, 17), (72, MARK, 17), (71, 2, 2), (71, 3, 2), (39, 0, 2), (0, 3, 2)] {
        gives(&format!("making {collections} collections in {words} words"), &[], calls::make(&vec![7; words], collections), (number, vec![7; words]));
    }
}

/// The numbers of every call that names a collection: search, listing, insertion, deletion, class change; no lent word changes. Then repair's.
fn numbers_in(t: &[u64], collection: u64, words: usize) -> [u64; 6] {
    let (list, out) = (&[7; 2560][..words], [7; 6]);
    let listed = calls::list(t, collection, 0, MARK, &out);
    gives("a refused listing", t, (listed.1, listed.2), ([None; 2], out.to_vec()));
    let written = [calls::insert(t, collection, list, ORDERED, 1, 0, 9), calls::delete(t, collection, list, ORDERED, 1), calls::set_class(t, collection, list, ORDERED, 1, 9), calls::repair(t, list, ORDERED)];
    let numbers = written.map(|w| {
        gives("a refused write", t, w.number == 0 || (w.counts == [None; 3] && w.table == t && w.list == list), true);
        w.number
    });
    let looked = calls::search(t, collection, 1);
    gives("a refused search", t, looked, calls::refused(looked.number));
    [looked.number, listed.0, numbers[0], numbers[1], numbers[2], numbers[3]]
}

/// 17 straight after 2: the collection is not 1 or 2, or 2 if word 3 is 0. A repair names none.
fn no_such_collection() {
    let one = table(1, &[([MARK, 0, 0, 0], &[(20, 5)]), FREE]);
    let both = two([1, 2], &[([MARK, 0, 0, 0], &[(20, 5)]), LEAF]);
    for (t, collections) in [(&one, &[0, 2, 3, 255, 1 << 32, MARK][..]), (&both, &[0, 3, 255, 1 << 32, MARK])] {
        // The leaf's left is not MARK: not sound. A root on level 16: search's 3.
        let (bad, high) = (with(t, 8, 1), with(t, 10, 16));
        for &c in collections {
            gives(&format!("collection {c}"), t, numbers_in(t, c, 2560), [17, 17, 17, 17, 17, 0]);
            gives(&format!("collection {c}, short list"), t, numbers_in(t, c, 2559), [17, 17, 17, 17, 17, 5]);
            gives(&format!("collection {c}, not sound"), &bad, numbers_in(&bad, c, 2559), [17, 17, 17, 17, 17, 4]);
            gives(&format!("collection {c}, level 16"), &high, numbers_in(&high, c, 2559), [17, 17, 17, 17, 17, 4]);
            for (word, value) in [(0, 2), (1, 0), (1, 3), (2, 1), (3, 3), (3, MARK), (4, 1), (7, 1)] {
                let none = with(&bad, word, value);
                gives(&format!("collection {c}, no table"), &none, numbers_in(&none, c, 2559), [2; 6]);
            }
        }
    }
}

/// Word 3 above N, or beside a single node, is no table; at a node of the first tree it is not sound, and a search does not notice.
fn second_roots() {
    let alone = table(1, &[([MARK, 0, 0, 0], &[(20, 5)])]);
    for root in [1, 2, MARK] {
        for c in [1, 2, 3] {
            gives(&format!("a second root {root} with N = 1"), &alone, numbers_in(&with(&alone, 3, root), c, 2560), [2; 6]);
        }
    }
    // Node 1 over leaves 2 and 3; node 4 over leaf 5; node 6 is a leaf.
    let nodes: [Words; 6] = [([2, 0, 1, 0], &[(40, 3)]), ([MARK, 3, 0, 0], &[(10, 1)]), ([MARK, 0, 0, 40], &[(50, 2)]), ([5, 0, 1, 0], &[]), ([MARK, 0, 0, 0], &[(10, 1), (60, 3)]), LEAF];
    let found = |t: &[u64], c: u64, key: u64| calls::search(t, c, key);
    let none = calls::refused(17);
    // (word 3): what it gives to a repair, and a search for 10 and for 60 in collection 2.
    for (root, number, ten, sixty) in [
        (0, 0, none, none),
        // The first root, a leaf and the last leaf of its tree.
        (1, 4, calls::found(1, 0), calls::absent(None)),
        (2, 4, calls::found(1, 0), calls::absent(None)),
        (3, 4, calls::absent(Some(50)), calls::absent(None)),
        // An inner node, the leaf below it, and an empty leaf of their own.
        (4, 0, calls::found(1, 0), calls::found(3, 0)),
        (5, 0, calls::found(1, 0), calls::found(3, 0)),
        (6, 0, calls::absent(None), calls::absent(None)),
    ] {
        let t = with(&table(1, &nodes), 3, root);
        gives(&format!("repair with a second root {root}"), &t, calls::repair(&t, &[0; 2560], ORDERED).number, number);
        gives(&format!("listing of 1 with a second root {root}"), &t, calls::list(&t, 1, 0, MARK, &[7; 4]).0, number);
        gives(&format!("search of 2 with a second root {root}"), &t, [found(&t, 2, 10), found(&t, 2, 60)], [ten, sixty]);
        gives(&format!("search of 1 with a second root {root}"), &t, [found(&t, 1, 10), found(&t, 1, 60)], [calls::found(1, 0), calls::absent(None)]);
    }
    // A second root that is alone sound, the only leaf of the first tree; and two trees that are each sound and share their last leaf.
    let t = two([1, 2], &[([2, 0, 1, 0], &[]), ([MARK, 0, 0, 0], &[(10, 1)])]);
    gives("repair, a leaf of both", &t, calls::repair(&t, &[0; 2560], ORDERED).number, 4);
    let shared = |last: u64| {
        let parents: [Words; 2] = [([3, 0, 1, 0], &[(40, 4)]), ([5, 0, 1, 0], if last == 4 { &[(40, 4)] } else { &[(40, 6)] })];
        two([1, 2], &[parents[0], parents[1], ([MARK, 4, 0, 0], &[(10, 1)]), ([MARK, 0, 0, 40], &[(50, 2)]), ([MARK, last, 0, 0], &[(20, 3)]), ([MARK, 0, 0, 40], &[(60, 4)])])
    };
    for (last, number) in [(4, 4), (6, 0)] {
        gives(&format!("repair, last leaves 4 and {last}"), &shared(last), calls::repair(&shared(last), &[0; 2560], ORDERED).number, number);
    }
}

/// Each collection has its own codes and may hold the other's recordings; a search and a listing are of one, a write is asked by its own map.
fn two_maps() {
    let list = [0; 2560];
    // Node 1 begins at word 8, node 2 at 40.
    let t = two([1, 2], &[([MARK, 0, 0, 0], &[(20, 5), (30, ROOM + 6)]), ([MARK, 0, 0, 0], &[(25, 6), (30, CLOSED + 5)])]);
    for (collection, key, want) in [
        (1, 20, calls::found(5, 0)),
        (1, 25, calls::absent(Some(30))),
        (1, 30, calls::found(6, 1)),
        (1, 31, calls::absent(None)),
        (2, 20, calls::absent(Some(25))),
        (2, 25, calls::found(6, 0)),
        (2, 30, calls::found(5, 2)),
    ] {
        gives(&format!("search for {key} in {collection}"), &t, calls::search(&t, collection, key), want);
    }
    gives("listing of 1", &t, calls::list(&t, 1, 0, MARK, &[7; 5]), (0, [Some(2), Some(0)], vec![20, 5, 30, ROOM + 6, 7]));
    gives("listing of 2", &t, calls::list(&t, 2, 26, MARK, &[7; 3]), (0, [Some(1), Some(0)], vec![30, CLOSED + 5, 7]));
    for (collection, key, recording, number) in [(1, 25, 7, 0), (2, 20, 7, 0), (1, 20, 7, 7), (2, 20, 5, 8), (1, 25, 5, 8), (2, 30, 7, 7), (1, 25, 6, 8), (2, 26, 6, 8)] {
        gives(&format!("insertion of {key} with {recording} in {collection}"), &t, calls::insert(&t, collection, &list, ORDERED, key, recording, 0).number, number);
    }
    gives("deletions", &t, [(1, 20), (1, 25), (2, 20), (2, 25)].map(|(c, key)| calls::delete(&t, c, &list, ORDERED, key).number), [0, 9, 9, 0]);
    // The same code's class in one and in the other: one store each.
    for (collection, place, recording) in [(1, 19, 6), (2, 51, 5)] {
        let after = calls::set_class(&t, collection, &list, ORDERED, 30, 0);
        gives(&format!("class of 30 in {collection}"), &t, (after.number, after.list[..4].to_vec(), after.table), (0, vec![place, recording, MARK, place / 8], with(&t, place as usize, recording)));
    }
    // An insertion in node 2: pointer 1 first, then the slot.
    let empty = two([1, 2], &[([MARK, 0, 0, 0], &[(20, 5)]), LEAF]);
    let after = calls::insert(&empty, 2, &list, ORDERED, 20, 5, 1);
    gives("insertion in 2", &empty, (after.counts, after.list[..10].to_vec()), ([Some(4), Some(1), Some(0)], vec![51, 0, 49, MARK, 48, 20, 49, ROOM + 5, MARK, 6]));
    // A tree that is broken: the other one is searched all the same; listings and writes are refused.
    for (collection, word) in [(2, 10), (1, 42)] {
        let bad = with(&t, word, 99);
        gives(&format!("search of {collection}"), &bad, calls::search(&bad, collection, 30).number, 0);
        gives(&format!("search of {}", 3 - collection), &bad, calls::search(&bad, 3 - collection, 30), calls::refused(3));
        gives("listings", &bad, [1, 2].map(|c| calls::list(&bad, c, 0, MARK, &[7; 4]).0), [4; 2]);
        gives("deletions", &bad, [1, 2].map(|c| calls::delete(&bad, c, &list, ORDERED, 30).number), [4; 2]);
    }
}

/// New roots of collection 2 are stored in word 3; the two share the free nodes, and a fresh one is reached from neither.
fn second_root_grows() {
    let (list, full): (_, Words) = ([0; 2560], ([MARK, 0, 0, 0], &FULL));
    // (N, the collection, its full root leaf, the other's leaf): the new root and the leaf's new sibling.
    for (n, collection, own, other, root, sibling) in [(4, 2, 2, 1, 3, 4), (4, 1, 1, 2, 3, 4), (5, 2, 4, 5, 1, 2), (5, 1, 3, 4, 5, 1), (6, 2, 2, 3, 4, 5)] {
        let mut nodes = vec![FREE; n];
        nodes[own as usize - 1] = full;
        nodes[other as usize - 1] = full;
        let roots = |own| if collection == 1 { [own, other] } else { [other, own] };
        let t = two(roots(own), &nodes);
        let after = calls::insert(&t, collection, &list, ORDERED, 115, 12, 0);
        gives("insertion of 115", &t, (after.number, after.counts), (0, [Some(75), Some(13), Some(0)]));
        nodes[own as usize - 1] = ([MARK, sibling, 0, 0], &FULL);
        nodes[root as usize - 1] = ([own, 0, 1, 0], &[]);
        nodes[sibling as usize - 1] = ([MARK, 0, 0, 60], &[(60, 6), (70, 7), (80, 8), (90, 9), (100, 10), (110, 11), (115, 12)]);
        let slot = 8 + 32 * (root as usize - 1) + 8;
        let want = with(&with(&with(&two(roots(root), &nodes), 8 + 32 * (own as usize - 1) + 19, 0), slot, 60), slot + 1, sibling);
        gives("insertion of 115", &t, &after.table, &want);
        // The root's store comes after its last line is flushed, and alone on its line.
        let word = 2 * collection - 1;
        gives("the root's store", &t, after.list.windows(6).any(|o| o == [MARK, (8 + 32 * (root - 1) + 31) / 8, word, root, MARK, 0]), true);
    }
    // N = 2 and N = 3: eleven codes each and no more; a code out of one makes no room in the other.
    for t in [two([1, 2], &[full, full]), two([3, 1], &[full, FREE, full])] {
        gives("insertion into full leaves", &t, [1, 2].map(|c| calls::insert(&t, c, &list, ORDERED, 115, 12, 0).number), [10; 2]);
    }
    let less = calls::delete(&two([1, 2], &[full, full]), 1, &list, ORDERED, 10).table;
    gives("insertion after a deletion", &less, [1, 2].map(|c| calls::insert(&less, c, &list, ORDERED, 115, 12, 0).number), [0, 10]);
}

/// One leftover in the whole table, and a writer of either finishes it: its repair's stores come first.
fn finished_by_the_other() {
    let list = [7; 2560];
    let hidden: Words = ([MARK, 0, 0, 0], &[(20, 5), (25, 5), (30, 6)]);
    let orders = |after: &calls::Wrote, want: &[[u64; 2]]| after.list[..2 * want.len() + 2] == [want.concat(), vec![7, 7]].concat();
    // Closing slot 1 of node 1 (words 18 to 21, line 2) or of node 2 (words 50 to 53, line 6), then the call in the other node.
    let t = two([1, 2], &[hidden, LEAF]);
    let after = calls::insert(&t, 2, &list, ORDERED, 9, 7, 0);
    gives("insertion in 2", &t, (after.number, after.counts), (0, [Some(7), Some(2), Some(0)]));
    gives("insertion in 2", &t, orders(&after, &[[18, 30], [19, 6], [21, 0], [MARK, 2], [51, 0], [49, MARK], [48, 9], [49, 7], [MARK, 6]]), true);
    let t = two([1, 2], &[([MARK, 0, 0, 0], &[(9, 7)]), hidden]);
    let after = calls::delete(&t, 1, &list, ORDERED, 9);
    gives("deletion in 1", &t, (after.number, after.counts), (0, [Some(5), Some(2), Some(0)]));
    gives("deletion in 1", &t, orders(&after, &[[50, 30], [51, 6], [53, 0], [MARK, 6], [17, MARK], [17, 0], [MARK, 2]]), true);
    let after = calls::set_class(&t, 1, &list, ORDERED, 9, 2);
    gives("class in 1", &t, orders(&after, &[[50, 30], [51, 6], [53, 0], [MARK, 6], [17, CLOSED + 7], [MARK, 2]]), true);
    let after = calls::repair(&t, &list, ORDERED);
    gives("repair", &t, (after.counts, orders(&after, &[[50, 30], [51, 6], [53, 0], [MARK, 6]])), ([Some(3), Some(1), Some(0)], true));
    // Refused, it finishes nothing.
    for (call, after) in [("deletion", calls::delete(&t, 1, &list, ORDERED, 8)), ("class", calls::set_class(&t, 1, &list, ORDERED, 8, 1)), ("insertion", calls::insert(&t, 1, &list, ORDERED, 8, 7, 0))] {
        gives(call, &t, (after.number != 0, after.table == t, after.list == list), (true, true, true));
    }
    // Two are not sound: a hidden slot in each, or a hidden slot in one and a missing one in the other. Each alone is.
    let plain: Words = ([MARK, 0, 0, 0], &[(20, 5), (25, 7), (30, 6)]);
    for (one, other, number) in [(plain, plain, 0), (hidden, plain, 0), (plain, hidden, 0), (hidden, hidden, 4)] {
        let t = two([1, 2], &[one, other]);
        gives("repair", &t, calls::repair(&t, &list, ORDERED).number, number);
    }
    for (slots, other, number) in [(&[(40, 4)][..], plain, 0), (&[], plain, 0), (&[(40, 4)], hidden, 0), (&[], hidden, 4)] {
        for which in [0, 1] {
            let roots = [[2, 1], [1, 2]][which];
            let t = two(roots, &[other, ([3, 0, 1, 0], slots), ([MARK, 4, 0, 0], &[(10, 1)]), ([MARK, 0, 0, 40], &[(50, 2)])]);
            gives("repair", &t, calls::repair(&t, &list, ORDERED).number, number);
        }
    }
}

/// N is at most 65,535: 2,097,128 words are a table, 32 more are none.
fn largest_table() {
    let words = vec![7; 2_097_160];
    let (number, t) = calls::make(&words[..2_097_128], 1);
    gives("making in 2,097,128 words", &[], (number, &t[..8]), (0, &[1, 1, 65_535, 0, 0, 0, 0, 0]));
    gives("making in 2,097,128 words", &[], (t[8], t[9..].iter().all(|&w| w == 0)), (MARK, true));
    let after = calls::insert(&t, 1, &[0; 2560], ORDERED, 5, 50, 0);
    gives("insertion into 65,535 nodes", &[], (after.number, after.counts), (0, [Some(4), Some(1), Some(0)]));
    gives("search in 65,535 nodes", &[], calls::search(&after.table, 1, 5), calls::found(50, 0));
    gives("search in 65,535 nodes", &[], calls::search(&after.table, 1, 4), calls::absent(Some(5)));
    gives("listing of 65,535 nodes", &[], calls::list(&after.table, 1, 0, MARK, &[7; 3]), (0, [Some(1), Some(0)], vec![5, 50, 7]));

    let (number, same) = calls::make(&words, 1);
    gives("making in 2,097,160 words", &[], (number, same == words), (2, true));
    let mut larger = t;
    larger.extend([0; 32]);
    larger[2] = 65_536;
    gives("search in 65,536 nodes", &[], calls::search(&larger, 1, 5), calls::refused(2));
    gives("listing of 65,536 nodes", &[], calls::list(&larger, 1, 0, MARK, &[7; 2]), (2, [None; 2], vec![7; 2]));
    gives("repair of 65,536 nodes", &[], calls::repair(&larger, &[0; 2560], ORDERED).number, 2);
    gives("carry-out on 65,536 nodes", &[], calls::carry_out(&larger, &[], 0).0, 2);
}

fn codes() {
    let printed = |key: u64| {
        let (number, text) = calls::print(key);
        (number, String::from_utf8_lossy(&text).into_owned())
    };
    let none = "\0".repeat(12);
    for (key, number, text) in [
        (172_627_201_912_345, 0, "AA0001912345"),
        // The lowest code, and the key before it, A9ZZZ9999999.
        (172_627_200_000_000, 0, "AA0000000000"),
        (172_627_199_999_999, 1, &none),
        // The highest code, and the keys after it, the first of which would be 100000000000 in base 36 and 10.
        (604_661_759_999_999, 0, "ZZZZZ9999999"),
        (604_661_760_000_000, 1, &none),
        (604_661_760_000_001, 1, &none),
        (604_661_760_000_000 + 172_627_201_912_345, 1, &none),
        (604_661_760_000_000 * 36 + 172_627_201_912_345, 1, &none),
        (MARK, 1, &none),
        (0, 1, &none),
    ] {
        gives(&format!("printing of {key}"), &[], printed(key), (number, text.to_string()));
    }
    gives("reading of 1A0001912345", &[], calls::parse(b"1A0001912345"), (1, None));
    gives("reading of ZZZZZ9999999", &[], calls::parse(b"ZZZZZ9999999"), (0, Some(604_661_759_999_999)));
}

/// The lists for the unordered dock, order by order: after each store its barrier, then the flush if one is due.
fn barriers_in_lists() {
    const AFTER: [u64; 2] = [BARRIER, 0];
    let list = [7; 5120];
    let lists = |t: &[u64], after: calls::Wrote, counts: [u64; 3], orders: &[[u64; 2]]| {
        let words = orders.iter().copied().flatten().chain(list).take(5120).collect();
        gives("a write for the unordered dock", t, (after.number, after.counts, after.list), (0, counts.map(Some), words));
    };
    // Slot i's key is word 16 + 2i. Slots 0 to 3 are in line 2, slots 4 to 7 in line 3.
    let t = table(1, &[([MARK, 0, 0, 0], &[(20, 5)])]);
    lists(&t, calls::insert(&t, 1, &list, UNORDERED, 30, 6, 1), [4, 1, 4], &[[21, 0], AFTER, [19, 5], AFTER, [18, 30], AFTER, [19, ROOM + 6], AFTER, [MARK, 2]]);
    lists(&t, calls::delete(&t, 1, &list, UNORDERED, 20), [2, 1, 2], &[[17, MARK], AFTER, [17, 0], AFTER, [MARK, 2]]);
    lists(&t, calls::set_class(&t, 1, &list, UNORDERED, 20, 2), [1, 1, 1], &[[17, CLOSED + 5], AFTER, [MARK, 2]]);
    lists(&t, calls::repair(&t, &list, UNORDERED), [0; 3], &[]);
    let hidden = table(1, &[([MARK, 0, 0, 0], &[(20, 5), (30, 5)])]);
    lists(&hidden, calls::repair(&hidden, &list, UNORDERED), [1, 1, 1], &[[19, 0], AFTER, [MARK, 2]]);
    let long = table(1, &[([MARK, 0, 0, 0], &[(10, 1), (20, 2), (30, 3), (40, 4), (50, 5)])]);
    let orders = [[23, 3], AFTER, [22, 50], AFTER, [23, 5], AFTER, [MARK, 2], [25, 0], AFTER, [MARK, 3]];
    lists(&long, calls::delete(&long, 1, &list, UNORDERED, 40), [4, 2, 4], &orders);
}

/// A barrier is counted and passed over; with another second word the first is a store's, outside every table.
fn barriers_carried_out() {
    let t = table(1, &[([MARK, 0, 0, 0], &[])]);
    let one = with(&t, 39, 7);
    let both = with(&one, 38, 1);
    let list = [39, 7, BARRIER, 0, BARRIER, 0, 38, 1, BARRIER, 0, BARRIER, 1];
    for (c, number, after) in [(0, 0, &t), (1, 0, &one), (2, 0, &one), (3, 0, &one), (4, 0, &both), (5, 0, &both), (6, 13, &t)] {
        gives(&format!("carry-out of {c} orders of {list:?}"), &t, calls::carry_out(&t, &list, c), (number, after.clone()));
    }
    for (order, number) in [([BARRIER, 0], 0), ([BARRIER, 1], 13), ([BARRIER, BARRIER], 13), ([BARRIER, MARK], 13), ([BARRIER - 1, 0], 13), ([MARK, BARRIER], 13)] {
        gives(&format!("carry-out of {order:?}"), &t, calls::carry_out(&t, &order, 1), (number, t.clone()));
    }
}

/// 18 straight before 5, which goes by the dock; nothing changes.
fn no_such_dock() {
    let t = table(1, &[([MARK, 0, 0, 0], &[(20, 5)])]);
    let list: Vec<u64> = (0..5121).collect();
    let numbers = |t: &[u64], collection: u64, words: usize, dock: u64| {
        let list = &list[..words];
        // The recording, the class and the key of the first three are refused as well.
        let refused = [calls::insert(t, collection, list, dock, 20, 0, 9), calls::set_class(t, collection, list, dock, 1, 9), calls::delete(t, collection, list, dock, 1)];
        let all = refused.map(|w| (w.number, w.counts == [None; 3] && w.table == t && w.list == list));
        gives("a refused write", t, all.map(|w| w.1), [true; 3]);
        [all[0].0, all[1].0, all[2].0, calls::repair(t, list, dock).number]
    };
    for words in [0, 2559, 2560, 5119, 5120, 5121] {
        let by_length = |least: usize| if words < least { [5; 4] } else { [6, 14, 9, 0] };
        gives(&format!("{words} words for the ordered dock"), &t, numbers(&t, 1, words, ORDERED), by_length(2560));
        gives(&format!("{words} words for the unordered dock"), &t, numbers(&t, 1, words, UNORDERED), by_length(5120));
        for dock in [2, 3, 1 << 32, 1 << 63, MARK] {
            gives(&format!("{words} words for dock {dock}"), &t, numbers(&t, 1, words, dock), [18; 4]);
            gives("a table that is not sound", &with(&t, 8, 1), numbers(&with(&t, 8, 1), 1, words, dock), [4; 4]);
            gives("no such collection", &t, numbers(&t, 2, words, dock), [17, 17, 17, 18]);
            gives("no table", &with(&t, 0, 2), numbers(&with(&t, 0, 2), 2, words, dock), [2; 4]);
        }
    }
}

/// With 6 words for lines and 10 for pairs, one and four more than N = 1 and these lists need; the words written, and that the others stay.
fn wear_gives(list: &[u64], figures: [u64; 4], lines: [u64; 5], extents: &[u64]) {
    let t = make(1);
    let wore = calls::wear(&t, list, &[77; 6], &[88; 10]);
    let call = format!("the wear of {list:?}");
    gives(&call, &t, (wore.number, wore.figures), (0, figures.map(Some)));
    gives(&call, &t, (&wore.lines[..5], wore.lines[5]), (&lines[..], 77));
    gives(&call, &t, (&wore.extents[..extents.len()], wore.extents[extents.len()..].iter().all(|&w| w == 88)), (extents, true));
}

fn wear_figures() {
    // Document 01's insertion and deletion: six stores to line 2, to words 16, 17 and 19.
    let printed = [19, 0, 17, MARK, 16, 172_627_201_912_345, 17, 7, MARK, 2, 17, MARK, 17, 0, MARK, 2];
    wear_gives(&printed[..10], [4, 4, 2, 2], [0, 0, 4, 0, 0], &[16, 2, 19, 1]);
    wear_gives(&printed, [6, 6, 2, 2], [0, 0, 6, 0, 0], &[16, 2, 19, 1]);
    // No store.
    wear_gives(&[], [0; 4], [0; 5], &[]);
    wear_gives(&[MARK, 4, MARK, 0], [0; 4], [0; 5], &[]);
    // Words that touch across lines are one pair; of lines with as many stores the first; the first word and the last.
    wear_gives(&[8, 1, 7, 1], [2, 1, 0, 1], [1, 1, 0, 0, 0], &[7, 2]);
    wear_gives(&[39, 1, 0, 1, 39, 1, 1, 1], [4, 2, 0, 2], [2, 0, 0, 0, 2], &[0, 2, 39, 1]);
    wear_gives(&[16, 1, 18, 1, 17, 1, 20, 1, 24, 1], [5, 4, 2, 3], [0, 0, 4, 1, 0], &[16, 3, 20, 1, 24, 1]);
    // A barrier is no store.
    wear_gives(&[BARRIER, 0, 9, 1, BARRIER, 0], [1, 1, 1, 1], [0, 1, 0, 0, 0], &[9, 1]);
    // A last word alone is no order.
    wear_gives(&[9, 1, 40], [1, 1, 1, 1], [0, 1, 0, 0, 0], &[9, 1]);

    let t = make(1);
    let refused = |t: &[u64], list: &[u64], lines: usize, pairs: usize, number: u64| {
        let (a, b) = (vec![77; lines], vec![88; pairs]);
        let wore = calls::wear(t, list, &a, &b);
        let what = format!("the wear of {list:?} with {lines} words for lines, {pairs} for pairs");
        gives(&what, t, (wore.number, wore.figures, wore.lines, wore.extents), (number, [None; 4], a, b));
    };
    for (list, lines, pairs, number) in [
        (&[40, 1][..], 5, 10, 13),
        (&[MARK, 5], 5, 10, 13),
        (&[BARRIER, 1, 0, 0], 5, 10, 13),
        // The last order is looked at too, and before the slices are.
        (&[0, 0, 39, 1, MARK, 5], 0, 0, 13),
        (&[], 4, 10, 24),
        (&[0, 0], 4, 10, 24),
        (&[0, 0], 5, 1, 24),
        (&[0, 0, 2, 0], 5, 3, 24),
        (&[0, 0], 4, 1, 24),
    ] {
        refused(&t, list, lines, pairs, number);
        refused(&with(&t, 0, 2), list, lines, pairs, 2);
        refused(&t[..39], list, lines, pairs, 2);
    }
    // The rest of the table is not looked at.
    let any: Vec<u64> = t.iter().enumerate().map(|(w, &x)| if w < 8 { x } else { MARK - w as u64 }).collect();
    gives("the wear on any words", &any, calls::wear(&any, &printed, &[77; 5], &[88; 4]).figures, [6, 6, 2, 2].map(Some));
}

const LENT: [u64; 16] = [77; 16];

fn check_gives(t: &[u64], want: [u64; 16]) {
    gives("check", t, calls::check(t, LENT), (0, want));
}

/// Each leftover by its words: kind and collection; the node with the hidden slot, and the slot; the node that lacks its slot in the parent,
/// its left neighbour, the parent and the trailing slots; N and the free nodes; nodes, codes and levels of either collection.
fn checks() {
    check_gives(&calls::make(&[0; 8 + 32], 1).1, [0, 0, 0, 0, 0, 0, 0, 0, 1, 0, 1, 0, 1, 0, 0, 0]);
    check_gives(&calls::make(&[0; 8 + 32 * 3], 2).1, [0, 0, 0, 0, 0, 0, 0, 0, 3, 1, 1, 0, 1, 1, 0, 1]);

    // (a): the second of three slots has the pointer before it.
    let hidden: Words = ([MARK, 0, 0, 0], &[(10, 1), (20, 1), (30, 3)]);
    check_gives(&table(2, &[FREE, hidden]), [1, 1, 2, 1, 0, 0, 0, 0, 2, 1, 1, 2, 1, 0, 0, 0]);

    // (b): node 3 has no slot in node 1, and node 2 still shows two slots that are node 3's; they count once.
    let root: Words = ([2, 0, 1, 0], &[]);
    let (trailing, cut): (Words, Words) = (([MARK, 3, 0, 0], &[(10, 1), (20, 2), (50, 5), (60, 6)]), ([MARK, 3, 0, 0], &[(10, 1), (20, 2)]));
    let upper: Words = ([MARK, 0, 0, 50], &[(50, 5), (60, 6)]);
    check_gives(&table(1, &[root, trailing, upper, FREE]), [2, 1, 0, 0, 3, 2, 1, 2, 4, 1, 3, 4, 2, 0, 0, 0]);
    check_gives(&table(1, &[root, cut, upper]), [2, 1, 0, 0, 3, 2, 1, 0, 3, 0, 3, 4, 2, 0, 0, 0]);

    // (c): its slot is there, and hidden.
    let hides: Words = ([2, 0, 1, 0], &[(50, 2)]);
    check_gives(&table(1, &[hides, cut, upper]), [3, 1, 1, 0, 3, 2, 1, 0, 3, 0, 3, 4, 2, 0, 0, 0]);

    // The same in the second collection, beside a settled first one, and the other way round.
    let first: Words = ([MARK, 0, 0, 0], &[(7, 70), (8, 80), (9, 90)]);
    check_gives(&two([4, 1], &[root, trailing, upper, first, FREE]), [2, 2, 0, 0, 3, 2, 1, 2, 5, 1, 1, 3, 1, 3, 4, 2]);
    check_gives(&two([1, 4], &[hides, cut, upper, first]), [3, 1, 1, 0, 3, 2, 1, 0, 4, 0, 3, 4, 2, 1, 3, 1]);

    // A leftover in each, a node in both trees, a wrong level: not sound. A wrong header: no table. No word is written.
    for t in [two([1, 4], &[hides, cut, upper, hidden]), two([1, 3], &[root, cut, upper]), table(1, &[([2, 0, 2, 0], &[]), cut, upper])] {
        gives("check", &t, calls::check(&t, LENT), (4, LENT));
    }
    for t in [vec![], with(&table(1, &[hidden]), 0, 2), with(&table(1, &[hidden]), 1, 2), with(&table(1, &[hidden]), 7, 1)] {
        gives("check", &t, calls::check(&t, LENT), (2, LENT));
    }
}

fn main() {
    let vectors: [(&str, fn()); 27] = [
        ("a root at level 15 is searched, one at 16 refused", root_levels),
        ("search's 3 in each of its causes", search_refusals),
        ("an absent key's neighbour", absent_search),
        ("neighbours along the siblings", neighbours_further_on),
        ("rings of leaves", rings_of_leaves),
        ("a listing's 2 before 4", listing_refusals),
        ("carry-out's c", carry_out_counts),
        ("fresh nodes after the node being split, going round", fresh_nodes),
        ("leaves that come back", freed_leaves),
        ("recordings and classes in range", recordings_and_classes),
        ("pointers of any class", pointers_handed_in),
        ("a recording in two classes", recordings_in_two_classes),
        ("class changes", class_changes),
        ("11 before 10", too_high),
        ("two collections made", made_with_two),
        ("17 straight after 2", no_such_collection),
        ("second roots", second_roots),
        ("two maps", two_maps),
        ("new roots in word 3", second_root_grows),
        ("a leftover finished by a writer of the other collection", finished_by_the_other),
        ("a barrier after each store for the unordered dock", barriers_in_lists),
        ("carry-out passes over barriers", barriers_carried_out),
        ("18 straight before 5", no_such_dock),
        ("N up to 65,535", largest_table),
        ("codes up to the last", codes),
        ("wear figures", wear_figures),
        ("a check's report", checks),
    ];
    for (name, vector) in vectors {
        vector();
        println!("{name}");
    }
    println!("{} passed, 0 failed", vectors.len());
}
