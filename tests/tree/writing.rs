//! Long random scripts of writes against the reference: answers, tables word by word, order lists order by order, carry-out; and damaged
//! tables, where nothing may change on a refusal.
mod calls;
mod common;
mod reference;
mod scripts;

use common::*;
use reference::*;

fn main() {
    let (seed, size) = arguments(200_000);
    let mut random = Random(seed);
    let mut passed = 0;

    // The unstarred worked line: recording 0 returns 6; 1 is taken.
    let blank = vec![0; LIST_WORDS];
    expect(calls::insert(&make(1, 1), 1, &blank, ORDERED, 5, 0, 0).number == 6, seed, &[], || "recording 0".into());
    expect(calls::insert(&make(1, 1), 1, &blank, ORDERED, 5, 1, 0).number == 0, seed, &[], || "recording 1".into());
    passed += 1;

    scripts::written(1, size, &mut random, seed);
    passed += 1;
    scripts::left_over(1, size / 40, &mut random, seed);
    passed += 1;
    scripts::damaged_by(1, size / 40, &mut random, seed);
    passed += 1;

    // Carry-out of any words.
    for _ in 0..size {
        let (a, b) = (random.below(120) as usize, random.below(24) as usize);
        let t = any_words(a, 1, &mut random);
        let mut list: Vec<u64> = (0..b).map(|_| random.below(2 * t.len() as u64 + 2)).collect();
        for order in list.chunks_mut(2) {
            match random.below(6) {
                0 | 1 => order[0] = MARK,
                // A barrier, mostly: only 0 after it makes it one.
                2 => {
                    let second = if random.below(8) == 0 { 1 + random.below(3) } else { 0 };
                    order.copy_from_slice(&[BARRIER, second][..order.len()]);
                }
                _ => {}
            }
        }
        let c = if random.below(20) == 0 { random.next() } else { random.below(b as u64 + 1) };
        let got = calls::carry_out(&t, &list, c);
        let want = carry_out(&t, &list, c);
        let right = match &want {
            Ok(after) => got == (0, after.clone()),
            Err(n) => got == (*n, t.clone()),
        };
        expect(right, seed, &t, || format!("carry-out of {c} orders of {list:?}: wanted {want:?}, got {got:?}"));
    }
    passed += 1;

    println!("{passed} passed, 0 failed");
}
