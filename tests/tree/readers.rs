//! Request 10: searches during one accepted call on a settled table. For small tables of one collection and of two, tall ones and large ones,
//! every non-falling sequence of moments is followed: each answer, its neighbour left out, is that before the call or that after it. The
//! orders are the library's, the search by looks is written from document 02.
mod calls;
mod common;
mod looks;
mod reference;
mod tower;

use common::*;
use looks::*;
use reference::*;
use std::collections::BTreeSet;
use tower::*;

/// The neighbour is left out.
fn strip(answer: Answer) -> Answer {
    match answer {
        Answer::Absent(_) => Answer::Absent(None),
        other => other,
    }
}

#[derive(Default)]
struct Met {
    /// Accepted calls; of these, with nodes split, with a new root, with a leaf freed.
    calls: u64,
    split: u64,
    rooted: u64,
    freed: u64,
    /// Searches, and those that may answer as before and as after.
    searches: u64,
    both: u64,
    /// Pairs of looks at a node and its sibling, at different moments.
    followed: u64,
}

impl Met {
    fn tally(&mut self, t: &[u64], after: &[u64]) {
        let (free, now) = (unreachable(t).len(), unreachable(after).len());
        self.calls += 1;
        self.split += (now < free) as u64;
        self.freed += (now > free) as u64;
        self.rooted += (t[1] != after[1] || t[3] != after[3]) as u64;
    }

    fn print(&self, name: &str) {
        println!(
            "{name}: {} calls, {} with splits, {} with a new root, {} that freed a leaf; {} searches, {} with both answers, {} looks followed",
            self.calls, self.split, self.rooted, self.freed, self.searches, self.both, self.followed
        );
    }
}

/// The first answer of a search during these orders that is neither that before nor that after.
fn stray(t: &[u64], after: &[u64], orders: &[Order], asked: &BTreeSet<u64>, met: &mut Met) -> Option<String> {
    let course = Course::new(t, orders);
    for n in 1..=3 {
        for &k in asked {
            let wanted = [strip(search(t, n, k)), strip(search(after, n, k))];
            let mut reader = Reader::new(&course, k);
            let answers = reader.answers(n);
            met.searches += 1;
            met.followed += reader.followed;
            met.both += (answers.len() > 1) as u64;
            if let Some(a) = answers.iter().find(|a| !wanted.contains(a)) {
                return Some(format!("search for {k} in collection {n}: {a:?}, neither of {wanted:?}"));
            }
        }
    }
    None
}

/// An accepted call on a settled table; the table after it.
fn read_during(t: &[u64], call: Call, asked: &BTreeSet<u64>, met: &mut Met, seed: u64) -> Option<(Vec<u64>, Vec<Order>)> {
    let (wrote, orders) = same_write(t, &[0; LIST_WORDS], ORDERED, call, seed);
    if wrote.number != 0 {
        return None;
    }
    met.tally(t, &wrote.table);
    let found = stray(t, &wrote.table, &orders, asked, met);
    expect(found.is_none(), seed, t, || format!("{call:?}: {}", found.unwrap()));
    Some((wrote.table, orders))
}

/// The same orders with each slot's key stored before its pointer; and with the last sibling word stored first.
fn planted(orders: &[Order]) -> [Vec<Order>; 2] {
    let (mut keys, mut link) = (orders.to_vec(), orders.to_vec());
    for i in 1..keys.len() {
        if let (Order::Store(p, _), Order::Store(k, _)) = (keys[i - 1], keys[i]) {
            if k >= 8 && p == k + 1 && (k - 8) % 32 >= 8 {
                keys.swap(i - 1, i);
            }
        }
    }
    if let Some(i) = link.iter().rposition(|o| matches!(*o, Order::Store(w, _) if w >= 8 && (w - 8) % 32 == 1)) {
        link[..=i].rotate_right(1);
    }
    [keys, link]
}

/// Small tables of one collection or two, by whole calls from empty ones: every key and those beside it.
fn small(collections: u64, size: u64, random: &mut Random, seed: u64) -> [u64; 2] {
    let (mut met, mut noticed) = (Met::default(), [0; 2]);
    while met.calls < size {
        let n = collections * (1 + random.below(7));
        let span = [12, 60, MARK][random.below(3) as usize];
        let mut t = make(n, collections);
        for i in 0..20 + random.below(30 * n) {
            let call = some_call(&t, span, i / (30 * collections) % 2 == 1, random);
            let maps = judge(&t).expect("a settled table").maps;
            let asked = around([&maps, &changed_or(&maps, &t, call)]);
            let Some((after, orders)) = read_during(&t, call, &asked, &mut met, seed) else { continue };
            for (count, wrong) in noticed.iter_mut().zip(planted(&orders)) {
                *count += (wrong != orders && stray(&t, &after, &wrong, &asked, &mut Met::default()).is_some()) as u64;
            }
            t = after;
        }
    }
    met.print(if collections == 1 { "small tables" } else { "small tables of two collections" });
    let often = met.split >= size / 50 && met.rooted >= size / 200 && met.freed >= size / 200 && met.both >= size / 2;
    expect(often, seed, &[], || "a kind of call was met too seldom".into());
    noticed
}

/// The maps after a call, or those before if it is refused.
fn changed_or(maps: &Maps, t: &[u64], call: Call) -> Maps {
    if write(t, LIST_WORDS, ORDERED, call).is_ok() { changed(maps, call) } else { maps.clone() }
}

/// Towers: a run of full nodes split from the top down, most with a new root; the keys beside each slot on the path.
fn tall(size: u64, random: &mut Random, seed: u64) {
    let mut met = Met::default();
    for i in 0..size {
        let root = 1 + i as usize % 8;
        let run = 1 + random.below(root as u64 + 1) as usize;
        let slots = |level: usize| if level < run { 11 } else { (i + level as u64) as usize % 4 };
        let floors: Vec<Floor> = (0..=root).map(|level| Floor { slots: slots(level), place: random.below(slots(level) as u64 + 1) as usize }).collect();
        let tower = tower(&floors, run as u64 + 1, random);
        let mut asked = BTreeSet::from([tower.key]);
        for &n in &tower.path {
            asked.extend(node(&tower.t, n).shown().iter().flat_map(|s| [s.key.wrapping_sub(1), s.key]));
        }
        let call = Call::Insert(1, tower.key, 1 + random.below(MOST_RECORDING), random.below(3));
        let made = read_during(&tower.t, call, &asked, &mut met, seed);
        expect(made.is_some(), seed, &tower.t, || format!("{call:?} was refused"));
    }
    met.print("tall tables");
}

/// Tables of thousands of codes: calls one after another, with the keys around the one that changes and some others.
fn large(size: u64, random: &mut Random, seed: u64) {
    let (codes, mut met) = (3_000, Met::default());
    let mut t = make(codes / 4, 1);
    let mut keys: Vec<u64> = vec![];
    for i in 0..codes {
        let key = random.next() >> 20;
        let wrote = calls::insert(&t, 1, &[0; LIST_WORDS], ORDERED, key, 1 + i, i % 3);
        if wrote.number == 0 {
            keys.push(key);
            t = wrote.table;
        }
    }
    for i in 0..size {
        let at = random.below(keys.len() as u64) as usize;
        // Codes side by side are taken out, so that leaves come back, and put in, so that leaves split.
        let key = if i / 40 % 2 == 0 { keys[at] + random.below(3) } else { keys[i as usize % 40 + 40 * (i / 80) as usize % keys.len()] };
        let call = if i / 40 % 2 == 0 { Call::Insert(1, key, codes + 1 + i, i % 3) } else { Call::Delete(1, key) };
        let mut asked: BTreeSet<u64> = (0..12).map(|_| keys[random.below(keys.len() as u64) as usize]).collect();
        asked.extend([key - 1, key, key + 1]);
        if let Some((after, _)) = read_during(&t, call, &asked, &mut met, seed) {
            t = after;
        }
        if i % 40 == 39 {
            keys.sort_unstable();
        }
    }
    met.print("large tables");
}

fn main() {
    let (seed, size) = arguments(1_500);
    let mut random = Random(seed);
    let one = small(1, 3 * size, &mut random, seed);
    let two = small(2, 2 * size, &mut random, seed);
    println!("planted orders that were noticed: key before pointer {}, link first {}", one[0] + two[0], one[1] + two[1]);
    expect(one[0] + two[0] > 0 && one[1] + two[1] > 0, seed, &[], || "planted orders were not noticed".into());
    tall(size / 10, &mut random, seed);
    large(size / 2, &mut random, seed);
    println!("4 passed, 0 failed");
}
