//! The judge of an order list, on our lists of an insertion without a split and with one, beside one check of the same table.
use crate::calls::{self, Orders, Words};
use crate::change::{self, LACKING, SHORT_LIST, SPARE};
use crate::results::{timed, Results, Spread};
use crate::{search, JUDGE, RUNS};
use std::hint::black_box;

/// The two lists.
pub const LISTS: [&str; 2] = ["insertion", "insertion, split"];

/// A settled table, a key to insert into it and the orders of that.
struct Case {
    table: Words,
    key: u64,
    recording: u64,
    orders: Orders,
}

impl Case {
    fn new(table: &Words, key: u64, recording: u64) -> Case {
        let mut orders = Orders::new();
        assert_eq!(calls::insert(&mut table.clone(), &mut orders, key, recording), 0, "insertion of {key}");
        Case { table: table.clone(), key, recording, orders: orders.cut() }
    }

    /// A list that is too short is refused with 5 right after the check.
    fn check(&mut self) -> f64 {
        let (ns, number) = timed(|| calls::insert(black_box(&mut self.table), &mut Orders::too_short(), self.key, self.recording));
        assert_eq!(number, SHORT_LIST, "a list too short is taken");
        ns
    }

    fn judge(&self, out: &mut Words) -> f64 {
        let (ns, number) = timed(|| calls::judge_insert(black_box(&self.table), &self.orders, out, self.key, self.recording));
        assert_eq!(number, 0, "our list is not accepted");
        ns
    }
}

/// A packed leaf has room; once it is filled by keys beside the one to come, that one splits it.
fn cases(size: usize) -> ([Case; 2], usize) {
    let (mut table, keys, nodes) = search::packed(size, SPARE);
    let (key, mut recording) = (change::beside(keys.present, 1)[0], size as u64 + 1);
    let plain = Case::new(&table, key, recording);
    let mut orders = Orders::new();
    for k in key - LACKING..key {
        recording += 1;
        assert_eq!(calls::insert(&mut table, &mut orders, k, recording), 0, "insertion beside {key}");
    }
    let split = Case::new(&table, key, recording + 1);
    assert!(split.orders.stores > 40 && plain.orders.stores < 40, "not one list with a split and one without");
    ([plain, split], nodes)
}

/// The sizes in codes.
pub fn measure(results: &mut Results, sizes: &[usize]) {
    for &size in sizes {
        let (cases, nodes) = cases(size);
        results.add(JUDGE, "nodes", size, "nodes", Spread::exact(nodes as f64));
        for (list, mut case) in LISTS.into_iter().zip(cases) {
            let mut out = Words::zeroed(case.table.len());
            // The first run only warms up.
            let runs: Vec<[f64; 2]> = (0..RUNS + 1).map(|_| [case.check(), case.judge(&mut out)]).skip(1).collect();
            for (which, what) in ["check", "judge"].into_iter().enumerate() {
                let times: Vec<f64> = runs.iter().map(|run| run[which]).collect();
                results.add(JUDGE, &format!("{list}: {what}"), size, "ns", Spread::of(&times));
            }
            results.add(JUDGE, &format!("{list}: stores"), size, "stores", Spread::exact(case.orders.stores as f64));
            results.add(JUDGE, &format!("{list}: orders"), size, "orders", Spread::exact(case.orders.count() as f64));
        }
        eprintln!("judge: {size} codes done");
    }
}
