//! The short scripts, by an own reading of the request: each number's script and each script's number, what forms none, and every script run.
mod calls;
mod common;
mod reference;

use common::*;
use reference::*;
use std::collections::{BTreeMap, BTreeSet};

const KEYS: [u64; 3] = [1, 2, 3];
const LENT: [u64; 5] = [91, 92, 93, 94, 95];

/// Insert before delete, then the smaller key.
#[derive(Clone, Copy, Debug, PartialEq, Eq, PartialOrd, Ord)]
enum Action {
    Insert(u64),
    Delete(u64),
}

impl Action {
    fn number(self) -> u64 {
        match self {
            Action::Insert(key) => key - 1,
            Action::Delete(key) => key - 1 + 3,
        }
    }

    fn call(self) -> Call {
        match self {
            Action::Insert(key) => Call::Insert(1, key, 10 + key, 0),
            Action::Delete(key) => Call::Delete(1, key),
        }
    }
}

type Script = Vec<Action>;

/// All of up to 4 actions: the shorter ones first, equal lengths by the first action that differs.
fn scripts() -> Vec<Script> {
    let actions: Vec<Action> = KEYS.iter().flat_map(|&k| [Action::Delete(k), Action::Insert(k)]).collect();
    let mut all = BTreeSet::from([(0, vec![])]);
    for length in 0..4 {
        let longer: Vec<Script> = all.iter().filter(|(n, _)| *n == length).flat_map(|(_, s)| actions.iter().map(move |&a| [&[a], &s[..]].concat())).collect();
        all.extend(longer.into_iter().map(|s| (s.len(), s)));
    }
    all.into_iter().map(|(_, s)| s).collect()
}

/// A length and four numbers, 0 past the length.
fn words(s: &Script) -> [u64; 5] {
    let mut words = [0; 5];
    words[0] = s.len() as u64;
    for (w, a) in words[1..].iter_mut().zip(s) {
        *w = a.number();
    }
    words
}

/// Each script has its place as its number, and each number gives its script; any other number is refused.
fn both_ways(all: &[Script], random: &mut Random) {
    expect(all.len() == 1555, 0, &[], || format!("{} scripts", all.len()));
    for (n, s) in all.iter().enumerate() {
        let got = calls::script(n as u64, LENT);
        expect(got == (0, words(s)), 0, &[], || format!("script {n}: wanted {:?}, got {got:?}", words(s)));
        let back = calls::script_number(words(s));
        expect(back == (0, Some(n as u64)), 0, &[], || format!("{:?} gives {back:?}, not {n}", words(s)));
    }
    let others = [1555, 1556, 2048, 1 << 16, 1 << 32, (1 << 32) + 5, 1 << 63, MARK - 1, MARK];
    for n in others.into_iter().chain((0..1000).map(|_| random.next().max(1555))) {
        let got = calls::script(n, LENT);
        expect(got == (22, LENT), 0, &[], || format!("script {n}: {got:?}"));
    }
}

/// Every five words of a length to 6 and numbers to 6, or far above: a script's give its number, all others 23.
fn any_words(all: &[Script]) -> [u64; 2] {
    let by_words: BTreeMap<[u64; 5], u64> = all.iter().zip(0..).map(|(s, n)| (words(s), n)).collect();
    let few = [0, 1, 2, 3, 4, 5, 6, MARK];
    let far = |i: usize| if i < 7 { i as u64 } else { [1 << 32, (1 << 32) + 2, 1 << 63, MARK - 5, MARK][i - 7] };
    let mut met = [0; 2];
    for i in 0..12 * 4096 {
        let w = [far(i / 4096), few[i / 512 % 8], few[i / 64 % 8], few[i / 8 % 8], few[i % 8]];
        let want = by_words.get(&w).map_or((23, None), |&n| (0, Some(n)));
        let got = calls::script_number(w);
        expect(got == want, 0, &[], || format!("{w:?}: wanted {want:?}, got {got:?}"));
        met[(got.0 == 23) as usize] += 1;
    }
    met
}

/// The table, searched for the three keys, agrees with the map.
fn agrees(t: &[u64], map: &BTreeMap<u64, u64>) -> bool {
    KEYS.iter().all(|k| {
        let want = match map.get(k) {
            Some(&recording) => calls::found(recording, 0),
            None => calls::absent(map.range(k + 1..).next().map(|(&k, _)| k)),
        };
        calls::search(t, 1, *k) == want
    })
}

/// What the scripts came to: tables, those that agreed with neither map, and refusals 7 and 9.
#[derive(Debug, Default, PartialEq)]
struct Met {
    tables: u64,
    bad: u64,
    refused: [u64; 2],
}

/// One script on an empty table: after each accepted action the table as carry-out leaves it for every count of its orders. The library's
/// orders are the reference's.
fn run(s: &Script, met: &mut Met) {
    let mut t = make(4, 1);
    let mut map = BTreeMap::new();
    for a in s {
        let (after, os) = same_write(&t, &[0; LIST_WORDS], ORDERED, a.call(), 0);
        let mut new = map.clone();
        let changes = match *a {
            Action::Insert(key) => new.insert(key, 10 + key).is_none(),
            Action::Delete(key) => new.remove(&key).is_some(),
        };
        let number = if changes { 0 } else { [7, 9][(a.number() >= 3) as usize] };
        expect(after.number == number, 0, &t, || format!("{a:?} of {s:?} gives {}, not {number}", after.number));
        if !changes {
            met.refused[(a.number() >= 3) as usize] += 1;
            continue;
        }
        for c in 0..=os.len() as u64 {
            let (number, cut) = calls::carry_out(&t, &after.list, c);
            expect(number == 0, 0, &t, || format!("carry-out of {c} orders of {a:?} in {s:?} gives {number}"));
            met.tables += 1;
            met.bad += !(agrees(&cut, &map) || agrees(&cut, &new)) as u64;
        }
        (t, map) = (after.table, new);
    }
}

fn main() {
    let (seed, _) = arguments(1);
    let all = scripts();
    both_ways(&all, &mut Random(seed));
    println!("words that are a script's, and others: {:?}", any_words(&all));
    let mut met = Met::default();
    for s in &all {
        run(s, &mut met);
    }
    println!("{met:?}");
    expect(met.tables == 17730 && met.bad == 0, 0, &[], || "other counts than the program's".into());
    println!("3 passed, 0 failed");
}
