//! The benchmark of the index: searches, the parts of a change, stores and flushes; tables, figures and a plot. bench/run builds it.
mod calls;
mod change;
mod counts;
mod judge;
mod keys;
mod lines;
mod machine;
mod numbers;
mod plot;
mod quick;
mod report;
mod results;
mod salvage;
mod search;
mod waits;
mod walk;
mod wear;

use results::Results;
use std::fs;
use std::path::Path;

pub const SEED: u64 = 20_180_212;
/// The median is taken of so many runs, after one that only warms up.
pub const RUNS: usize = 9;
/// Flushes an insertion in the paper (section 6.4: 10 million random keys, nodes of 512 bytes).
pub const PAPER_FLUSHES: f64 = 4.2;

// The parts of the results, and the contenders.
pub const TABLE: &str = "packed table";
pub const HITS: &str = "search hit";
pub const MISSES: &str = "search miss";
pub const NODES: &str = "all nodes";
pub const INSERTION: &str = "insertion";
pub const DELETION: &str = "deletion";
pub const SPLITTING: &str = "insertion, split";
pub const CLASS_CHANGE: &str = "class change";
pub const NUMBERS: &str = "recording numbers";
pub const COUNTS: &str = "counts";
pub const WALK: &str = "empty leaves";
pub const SALVAGE: &str = "salvage";
pub const LINES: &str = "lines of a leaf";
pub const JUDGE: &str = "judge";
pub const WEAR: &str = "wear";
pub const QUICK_CALLS: &str = "quick calls";
pub const OURS: &str = "ours";
pub const PLAIN: &str = "plain C";
pub const LED: &str = "ours, sentinels";
pub const FORESEEN: &str = "plain C, branch";
pub const TRUSTING: &str = "plain C, sentinels";
pub const TESTED: &str = "C, same tests";
pub const TREE: &str = "C FAST+FAIR, 512 B";
pub const RUST: &str = "Rust BTreeMap";
pub const CPP: &str = "C++ std::map";
pub const SORTED: &str = "sorted array";
pub const OTHERS: [&str; 9] = [LED, PLAIN, FORESEEN, TRUSTING, TESTED, TREE, RUST, CPP, SORTED];

/// What is measured: keys for the searches and the salvages, nodes for the changes, keys for the counts (ours and the 512-byte tree; that tree alone),
/// orders for the wear figures, codes for the judge, nodes for the recording numbers.
struct Sizes {
    search: &'static [usize],
    nodes: &'static [usize],
    counted: (usize, usize),
    listed: &'static [usize],
    judged: &'static [usize],
    numbered: &'static [usize],
}

/// Each insertion checks the whole table, so that counting takes a time that grows with the square of the keys.
const WHOLE: Sizes = Sizes { search: &[10_000, 100_000, 400_000], nodes: &[16, 128, 1_024, 8_192, 56_253], counted: (10_000, 400_000), listed: &[1_000, 10_000, 100_000, 1_000_000], judged: &[10_000, 100_000], numbered: &[1_024, 8_192, 56_253] };
const QUICK: Sizes = Sizes { search: &[1_000, 4_000], nodes: &[16, 64], counted: (200, 10_000), listed: &[1_000, 10_000], judged: &[1_000], numbered: &[16, 64] };

fn measure(sizes: &Sizes) -> Results {
    let mut results = Results::default();
    search::measure(&mut results, sizes.search);
    change::measure(&mut results, sizes.nodes);
    quick::measure(&mut results, sizes.search);
    numbers::measure(&mut results, sizes.numbered);
    walk::measure(&mut results, sizes.nodes);
    salvage::measure(&mut results, sizes.search);
    judge::measure(&mut results, sizes.judged);
    wear::measure(&mut results, sizes.listed);
    counts::measure(&mut results, sizes.counted.0, sizes.counted.1);
    results
}

fn write(folder: &Path, name: &str, what: &str) {
    let path = folder.join(name);
    fs::write(&path, what).unwrap_or_else(|e| panic!("{}: {e}", path.display()));
}

fn report(results: &Results, sizes: &Sizes, folder: &Path) {
    let machine = machine::lines();
    let (ratios, summaries) = (report::ratios(results, sizes.counted), report::quick_calls(results));
    println!("{}\nMedians of {RUNS} runs.\n", machine.join("\n"));
    for table in report::times(results).iter().chain(&ratios).chain(&summaries) {
        println!("{}", table.text());
    }
    let facts: String = machine.iter().map(|line| format!("- {line}\n")).collect();
    let markdown = |tables: &[report::Table]| format!("{facts}\n{}", tables.iter().map(report::Table::markdown).collect::<Vec<_>>().join("\n"));
    write(folder, "tables.md", &markdown(&ratios));
    write(folder, "summaries.md", &markdown(&summaries));
    write(folder, "results.tsv", &results.tsv());
    write(folder, "plot.svg", &plot::svg(results, &machine[0], sizes.counted.0));
}

/// Only the salvages, the judge or the quick calls, of rising numbers of codes, the wear figures, of orders, the changes or the recording numbers, of
/// nodes; nothing is written.
fn only(sizes: &[&str], measure: fn(&mut Results, &[usize]), tables: fn(&Results) -> Vec<report::Table>) {
    let sizes: Vec<usize> = sizes.iter().map(|size| size.parse().expect("a number of codes, orders or nodes")).collect();
    let mut results = Results::default();
    measure(&mut results, &sizes);
    tables(&results).iter().for_each(|table| println!("{}", table.text()));
}

/// A wrong answer is an assertion that fails: the run ends with status 1.
fn end_on_mismatch() {
    std::panic::set_hook(Box::new(|why| {
        eprintln!("bench: {why}");
        std::process::exit(1);
    }));
}

fn number(word: &str) -> usize {
    word.parse().expect("a number")
}

const USAGE: &str = "usage: bench [--quick] FOLDER | bench --only-search ours|plain KEYS QUERIES | bench --only-salvage CODES .. | bench --only-judge CODES .. | \
    bench --only-wear ORDERS .. | bench --only-changes NODES .. | bench --only-numbers NODES .. | bench --only-quick CODES .. | bench --only-waits CODES | \
    bench --only-calls changes|split|ten|twenty CODES CALLS";

fn main() {
    end_on_mismatch();
    let words: Vec<String> = std::env::args().skip(1).collect();
    let words: Vec<&str> = words.iter().map(String::as_str).collect();
    let (sizes, folder) = match words[..] {
        ["--only-search", which @ (OURS | "plain"), keys, queries] => {
            return search::only(which, number(keys), number(queries));
        }
        ["--only-salvage", ref sizes @ ..] if !sizes.is_empty() => return only(sizes, salvage::measure, report::salvages),
        ["--only-judge", ref sizes @ ..] if !sizes.is_empty() => return only(sizes, judge::measure, report::judgements),
        ["--only-wear", ref sizes @ ..] if !sizes.is_empty() => return only(sizes, wear::measure, report::wears),
        ["--only-changes", ref sizes @ ..] if !sizes.is_empty() => return only(sizes, change::measure, report::changes),
        ["--only-quick", ref sizes @ ..] if !sizes.is_empty() => return only(sizes, quick::measure, report::quick_calls),
        ["--only-waits", codes] => return print!("{}", report::waits(&waits::count(number(codes))).markdown()),
        ["--only-calls", which, codes, count] => return quick::only(which, number(codes), number(count)),
        ["--only-numbers", ref sizes @ ..] if !sizes.is_empty() => return only(sizes, numbers::measure, report::numbers),
        ["--quick", folder] => (QUICK, folder),
        [folder] if !folder.starts_with('-') => (WHOLE, folder),
        _ => {
            eprintln!("{USAGE}");
            std::process::exit(2);
        }
    };
    report(&measure(&sizes), &sizes, Path::new(folder));
}
