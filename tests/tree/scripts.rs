//! Long random scripts on tables of one collection or two, against the reference: writes order by order, writes cut everywhere, and calls
//! on tables that are damaged.
#![allow(dead_code)]
use crate::calls;
use crate::common::*;
use crate::reference::*;

/// How many nodes a script's table has: mostly few.
fn some_nodes(collections: u64, random: &mut Random) -> u64 {
    let more = match random.below(40) {
        0 => random.below(300),
        1..=9 => random.below(40),
        _ => random.below(8),
    };
    collections * (1 + more)
}

/// So many writes from empty tables, each for some dock: answers, tables word by word, order lists order by order. The list keeps what
/// earlier calls left in it; memory follows by carry-out. How often each number came.
pub fn written(collections: u64, size: u64, random: &mut Random, seed: u64) -> [u64; 19] {
    let (mut numbers, mut done) = ([0; 19], 0);
    while done < size {
        let n = some_nodes(collections, random);
        let span = [8, 60, 40 * n, MARK][random.below(4) as usize];
        let mut working = make(n, collections);
        let mut memory = working.clone();
        let mut list = vec![0; LONG_LIST_WORDS + random.below(3) as usize];
        for i in 0..20 + random.below(20 * n.min(60)) {
            let dock = any_dock(random);
            let lent = match random.below(60) {
                0 => list[..random.below(LIST_WORDS as u64) as usize].to_vec(),
                1 => list[..LIST_WORDS + random.below((LONG_LIST_WORDS - LIST_WORDS) as u64) as usize].to_vec(),
                _ => list.clone(),
            };
            let mut call = some_call(&working, span, i / (40 * collections) % 3 == 2, random);
            if random.below(12) == 0 {
                call = call.naming(any_collection(random));
            }
            let (after, os) = same_write(&working, &lent, dock, call, seed);
            numbers[after.number as usize] += 1;
            done += 1;
            if after.number == 0 {
                let carried = calls::carry_out(&memory, &after.list, after.orders());
                expect(carried == (0, after.table.clone()), seed, &memory, || format!("carry-out of {call:?}"));
                let part = random.below(os.len() as u64 + 1);
                let cut = calls::carry_out(&memory, &after.list, part);
                let want = carry_out(&memory, &after.list, part);
                expect(Ok(cut.1.clone()) == want && cut.0 == 0, seed, &memory, || format!("carry-out of the first {part} orders of {call:?}"));
                working = after.table;
                memory = carried.1;
                list[..after.list.len()].copy_from_slice(&after.list);
            }
        }
    }
    println!("calls {done}; by number: {numbers:?}");
    let often = |n: &usize| numbers[*n] >= size / 200;
    expect([0, 5, 6, 7, 8, 9, 10, 14, 17, 18].iter().all(often), seed, &[], || "a number was not met often enough".into());
    numbers
}

/// What the cuts of scripts came to.
#[derive(Default)]
pub struct Cuts {
    pub writes: u64,
    /// By dock.
    pub docks: [u64; 2],
    /// Of these, with a leaf freed.
    pub freed: u64,
    pub images: u64,
    pub kinds: [u64; 5],
    /// Accepted writes that finished a leftover, by its kind: of their own collection, and of the other one.
    pub finished: [[u64; 5]; 2],
}

impl Cuts {
    fn tally(&mut self, before: &Sound, after: &[u64], t: &[u64], dock: u64, call: Call) {
        self.writes += 1;
        self.docks[dock as usize] += 1;
        self.freed += (unreachable(after).len() > unreachable(t).len()) as u64;
        if let Some(n) = call.collection() {
            self.finished[(n != before.unfinished) as usize][kind(before.leftover)] += 1;
        }
    }
}

/// So many writes on small tables, each on one dock or the other and cut after every count of its orders; every image that the cut may leave
/// there is searched for every key in every collection, judged, repaired, and now and then gone on with.
pub fn cut(collections: u64, size: u64, random: &mut Random, seed: u64) -> Cuts {
    let list = vec![0; LONG_LIST_WORDS];
    let mut met = Cuts::default();
    while met.writes < size {
        let n = collections * (1 + random.below(7));
        let span = [12, 60, MARK][random.below(3) as usize];
        let mut t = make(n, collections);
        let mut ledger = vec![Map::new(); collections as usize];
        for i in 0..20 + random.below(30 * n) {
            let call = some_call(&t, span, i / (30 * collections) % 2 == 1, random);
            let dock = random.below(2);
            let after = called(&t, &list, dock, call);
            if after.number != 0 {
                continue;
            }
            met.tally(&judge(&t).expect("a sound table"), &after.table, &t, dock, call);
            let new = changed(&ledger, call);
            let os = decode(&after);
            let asked = around([&ledger, &new]);
            let mut went_on = None;
            for c in 0..=os.len() {
                for image in images(&t, &os[..c], dock) {
                    met.images += 1;
                    let held = image_holds(&image, [&ledger, &new], (c, os.len()), &asked, seed, call);
                    met.kinds[kind(held.leftover)] += 1;
                    // A node that lacks its slot is rarer than a hidden slot.
                    if random.below(if kind(held.leftover) > 1 { 4 } else { 40 }) == 0 {
                        went_on = Some((image, held.maps));
                    }
                }
            }
            // Go on from a cut image now and then, else from the whole.
            (t, ledger) = match went_on {
                Some(x) if random.below(3) == 0 => x,
                _ => (after.table, new),
            };
        }
    }
    println!("writes {}, by dock {:?}, of these {} freed a leaf; images {}", met.writes, met.docks, met.freed, met.images);
    all_met(&met.kinds, seed);
    expect(met.freed >= size / 100, seed, &[], || "too few leaves were freed".into());
    met
}

/// Every writing call on tables with every leftover, whole and damaged, and on any words: nothing changes on a refusal.
pub fn left_over(collections: u64, size: u64, random: &mut Random, seed: u64) {
    let mut kinds = [0; 5];
    let list: Vec<u64> = (0..LONG_LIST_WORDS as u64).collect();
    for i in 0..size {
        let t = grown(if i % 50 == 0 { 60 } else { 9 }, collections, random);
        kinds[kind(judge(&t).expect("a grown table is sound").leftover)] += 1;
        let mut tables = vec![t.clone()];
        tables.extend((0..6).map(|_| damaged(&t, random)));
        tables.push(any_words(random.below(400) as usize, collections, random));
        for d in tables {
            let ks = keys(&d, random);
            let k = ks[random.below(ks.len() as u64) as usize];
            let n = any_collection(random);
            let inserted = [Call::Insert(n, k, 1 + random.below(1_000_000), some_class(random)), Call::Insert(n, random.next(), k, random.below(3))];
            for call in [Call::Repair, Call::Delete(n, k), Call::SetClass(n, k, some_class(random))].into_iter().chain(inserted) {
                same_write(&d, &list, any_dock(random), call, seed);
            }
        }
    }
    all_met(&kinds, seed);
}

/// Damage by the million: small tables, one to three words changed, 250 of each, one call on each.
pub fn damaged_by(collections: u64, size: u64, random: &mut Random, seed: u64) {
    let list: Vec<u64> = (0..LONG_LIST_WORDS as u64).collect();
    let mut refused = 0;
    for _ in 0..size {
        let t = grown(4, collections, random);
        for _ in 0..250 {
            let d = damaged(&t, random);
            let k = d[random.below(d.len() as u64) as usize];
            let n = some_collection(&d, random);
            let call = match random.below(5) {
                0 => Call::Repair,
                1 => Call::Delete(n, k),
                2 => Call::SetClass(n, k, some_class(random)),
                _ => Call::Insert(n, k ^ random.below(3), 1 + random.below(1_000_000), random.below(3)),
            };
            refused += (same_write(&d, &list, any_dock(random), call, seed).0.number != 0) as u64;
        }
    }
    println!("damaged tables {}, refused {refused}", size * 250);
}
