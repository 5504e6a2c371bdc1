//! The tables: as text for the terminal, as Markdown for docs/BENCHMARKS.md.
use crate::counts::{self, CHANGES, ORDERS};
use crate::judge::LISTS;
use crate::numbers::KINDS;
use crate::quick;
use crate::results::{Results, Spread};
use crate::salvage::TABLES;
use crate::waits;
use crate::wear;
use crate::{
    CLASS_CHANGE, COUNTS, DELETION, HITS, INSERTION, JUDGE, LED, LINES, MISSES, NODES, NUMBERS, OTHERS, OURS, PAPER_FLUSHES, QUICK_CALLS, SALVAGE, SPLITTING, TABLE, TREE, TRUSTING, WALK, WEAR,
};
use std::fmt::Write;

/// A table of ready cells under a line that says what they are.
pub struct Table {
    title: String,
    head: Vec<String>,
    rows: Vec<Vec<String>>,
}

impl Table {
    fn new(title: &str, head: &[&str]) -> Table {
        Table { title: title.to_string(), head: head.iter().map(|h| h.to_string()).collect(), rows: Vec::new() }
    }

    pub fn text(&self) -> String {
        let lines = || std::iter::once(&self.head).chain(&self.rows);
        let width = |column: usize| lines().map(|row| row[column].chars().count()).max().unwrap_or(0);
        let widths: Vec<usize> = (0..self.head.len()).map(width).collect();
        let mut out = format!("{}\n", self.title);
        for row in lines() {
            let cells: Vec<String> = row.iter().zip(&widths).map(|(cell, &w)| format!("{cell:>w$}")).collect();
            let _ = writeln!(out, "  {}", cells.join("  "));
        }
        out
    }

    pub fn markdown(&self) -> String {
        let line = |cells: &[String]| format!("| {} |\n", cells.join(" | "));
        let rule = format!("|{}\n", "---:|".repeat(self.head.len()));
        let rows: String = self.rows.iter().map(|row| line(row)).collect();
        format!("{}\n\n{}{}{}", self.title, line(&self.head), rule, rows)
    }
}

// ---- cells

/// 400000 as 400,000.
pub fn grouped(n: usize) -> String {
    let digits = n.to_string();
    let mut out = String::new();
    for (i, c) in digits.chars().enumerate() {
        if i > 0 && (digits.len() - i) % 3 == 0 {
            out.push(',');
        }
        out.push(c);
    }
    out
}

/// Three digits that count, or fewer. No time is below 0: a difference of two that is, is lost in their spread, and printed as a dash.
fn figure(x: f64) -> String {
    match x {
        x if x < 0.0 => "-".to_string(),
        x if x >= 99.95 => grouped(x.round() as usize),
        x if x >= 9.995 => format!("{x:.1}"),
        x if x >= 0.0995 || x == 0.0 => format!("{x:.2}"),
        x if x >= 0.00995 => format!("{x:.3}"),
        x => format!("{x:.5}"),
    }
}

fn or_dash(x: Option<f64>) -> String {
    x.map_or("-".to_string(), figure)
}

fn ratio(a: Option<f64>, b: Option<f64>) -> String {
    or_dash(a.zip(b).map(|(a, b)| a / b))
}

fn spread(s: Option<Spread>, unit: f64) -> String {
    s.map_or("-".to_string(), |s| {
        let cell = |x: f64| figure(x / unit);
        format!("{} ({} .. {})", cell(s.median), cell(s.min), cell(s.max))
    })
}

// ---- search

fn search_rows(results: &Results) -> Vec<(&'static str, usize)> {
    [HITS, MISSES].into_iter().flat_map(|part| results.sizes(part, OURS).into_iter().map(move |size| (part, size))).collect()
}

fn search_times(results: &Results) -> Table {
    let names: Vec<&str> = std::iter::once(OURS).chain(OTHERS).collect();
    let head: Vec<&str> = ["", "keys"].into_iter().chain(names.iter().copied()).collect();
    let mut table = Table::new("Search, ns per query: median (least .. most)", &head);
    for (part, size) in search_rows(results) {
        let mut row = vec![part.to_string(), grouped(size)];
        row.extend(names.iter().map(|name| spread(results.get(part, name, size), 1.0)));
        table.rows.push(row);
    }
    table
}

fn search_ratios(results: &Results) -> Table {
    let head: Vec<&str> = ["", "keys", "nodes", "levels", "ours, ns"].into_iter().chain(OTHERS).collect();
    let mut table = Table::new("Search: our time divided by the other's time", &head);
    for (part, size) in search_rows(results) {
        let ours = results.median(part, OURS, size);
        let exact = |what| results.median(TABLE, what, size).map_or("-".to_string(), |x| grouped(x as usize));
        let mut row = vec![part.to_string(), grouped(size), exact("nodes"), exact("levels"), or_dash(ours)];
        row.extend(OTHERS.iter().map(|name| ratio(ours, results.median(part, name, size))));
        table.rows.push(row);
    }
    table
}

fn line_table(results: &Results) -> Table {
    let head = ["", "keys", OURS, LED, TRUSTING];
    let mut table = Table::new("Lines of 64 bytes that a search touches on account of its leaf, sentinels included: counted, means over the queries", &head);
    for (part, size) in search_rows(results) {
        let kind = if part == HITS { "hit" } else { "miss" };
        let mut row = vec![part.to_string(), grouped(size)];
        row.extend([OURS, LED, TRUSTING].map(|name| or_dash(results.median(LINES, &format!("{name}, {kind}"), size))));
        table.rows.push(row);
    }
    table
}

// ---- changes

/// The parts of a change.
const PARTS: [&str; 5] = ["check", "plan", "stores", "stores, flushed", "whole call"];

fn change_times(results: &Results, part: &'static str) -> Table {
    let head: Vec<&str> = ["nodes", "read pass"].into_iter().chain(PARTS).collect();
    let mut table = Table::new(&format!("A change, {part}, µs: median (least .. most)"), &head);
    for nodes in results.sizes(NODES, "read pass") {
        let mut row = vec![grouped(nodes), spread(results.get(NODES, "read pass", nodes), 1e3)];
        row.extend(PARTS.map(|what| spread(results.get(part, what, nodes), 1e3)));
        table.rows.push(row);
    }
    table
}

/// If a run has one change alone, its figures, counts among them, are of that one.
fn changes_a_run(results: &Results, part: &str, nodes: usize) -> String {
    match results.median(part, "changes a run", nodes) {
        Some(1.0) => "one change a run".to_string(),
        changes => changes.map_or("-".to_string(), |n| grouped(n as usize)),
    }
}

fn change_ratios(results: &Results) -> Table {
    let head: Vec<&str> = ["", "nodes", "changes a run", "read pass, µs"].into_iter().chain(PARTS).chain(["stores listed", "flushes listed"]).collect();
    let mut table = Table::new("A change: each part's time divided by the time of one plain read pass over the same nodes", &head);
    for part in [INSERTION, SPLITTING, DELETION, CLASS_CHANGE] {
        for nodes in results.sizes(NODES, "read pass") {
            let pass = results.median(NODES, "read pass", nodes);
            let mut row = vec![part.to_string(), grouped(nodes), changes_a_run(results, part, nodes), or_dash(pass.map(|ns| ns / 1e3))];
            row.extend(PARTS.map(|what| ratio(results.median(part, what, nodes), pass)));
            row.extend(["stores listed", "flushes listed"].map(|what| or_dash(results.median(part, what, nodes))));
            table.rows.push(row);
        }
    }
    table
}

/// An insertion with a split beside one without, on the same number of nodes.
fn split_ratios(results: &Results) -> Table {
    let head = ["nodes", "insertion, µs", "insertion, split, µs", "split / no split"];
    let mut table = Table::new("An insertion with a split, and one without", &head);
    for nodes in results.sizes(NODES, "read pass") {
        let [plain, split] = [INSERTION, SPLITTING].map(|part| results.median(part, "whole call", nodes));
        let mut row = vec![grouped(nodes)];
        row.extend([plain, split].map(|ns| or_dash(ns.map(|ns| ns / 1e3))));
        row.push(ratio(split, plain));
        table.rows.push(row);
    }
    table
}

// ---- empty leaves

/// The tests are a difference of two times, and a dash if it is lost in their spread.
fn walk_ratios(results: &Results) -> Table {
    let head = ["nodes", "leaves", "search, µs", "insertion: check, µs", "insertion: tests of code and recording, µs", "tests / search"];
    let mut table = Table::new("An absent code with all leaves above it empty: the search looks through them for the next code up, an insertion's tests do not", &head);
    for nodes in results.sizes(WALK, "search") {
        let median = |what| results.median(WALK, what, nodes);
        let mut row = vec![grouped(nodes), grouped(median("leaves").unwrap_or(0.0) as usize)];
        row.extend(["search", "check", "tests"].map(|what| or_dash(median(what).map(|ns| ns / 1e3))));
        row.push(ratio(median("tests"), median("search")));
        table.rows.push(row);
    }
    table
}

// ---- salvage

fn salvage_times(results: &Results) -> Table {
    let figures = ["read pass"].into_iter().chain(TABLES);
    let head: Vec<&str> = ["codes"].into_iter().chain(figures.clone()).collect();
    let mut table = Table::new("A salvage, µs: median (least .. most)", &head);
    for codes in results.sizes(SALVAGE, "read pass") {
        let mut row = vec![grouped(codes)];
        row.extend(figures.clone().map(|what| spread(results.get(SALVAGE, what, codes), 1e3)));
        table.rows.push(row);
    }
    table
}

fn salvage_ratios(results: &Results) -> Table {
    let head = ["salvage", "codes", "nodes", "words changed", "read pass, µs", "call, µs", "call / read pass", "codes kept", "slots dropped"];
    let mut table = Table::new("Salvage: the call's time divided by the time of one plain read pass over the same nodes", &head);
    for which in TABLES {
        for codes in results.sizes(SALVAGE, "read pass") {
            let [call, pass] = [which, "read pass"].map(|what| results.median(SALVAGE, what, codes));
            let count = |what: &str| results.get(SALVAGE, what, codes).map_or("-".to_string(), |s| grouped(s.median as usize));
            let of_this = |what| count(&format!("{which}: {what}"));
            let micro = |ns: Option<f64>| or_dash(ns.map(|ns| ns / 1e3));
            let mut row = vec![which.to_string(), grouped(codes), count("nodes"), of_this("words changed"), micro(pass), micro(call), ratio(call, pass)];
            row.extend([of_this("codes kept"), of_this("slots dropped")]);
            table.rows.push(row);
        }
    }
    table
}

/// Only these, for the terminal.
pub fn salvages(results: &Results) -> Vec<Table> {
    vec![salvage_times(results), salvage_ratios(results)]
}

// ---- the judge

fn judge_ratios(results: &Results) -> Table {
    let head = ["list", "codes", "nodes", "stores", "orders", "check, µs", "call, µs", "call / check"];
    let mut table = Table::new("Judging our list of an insertion: the call's time divided by the time of one check of the same table", &head);
    for list in LISTS {
        for codes in results.sizes(JUDGE, "nodes") {
            let exact = |what: &str| results.median(JUDGE, what, codes).map_or("-".to_string(), |x| grouped(x as usize));
            let [check, call] = ["check", "judge"].map(|what| results.median(JUDGE, &format!("{list}: {what}"), codes));
            let mut row = vec![list.to_string(), grouped(codes), exact("nodes"), exact(&format!("{list}: stores")), exact(&format!("{list}: orders"))];
            row.extend([check, call].map(|ns| or_dash(ns.map(|ns| ns / 1e3))));
            row.push(ratio(call, check));
            table.rows.push(row);
        }
    }
    table
}

/// Only these, for the terminal.
pub fn judgements(results: &Results) -> Vec<Table> {
    vec![judge_ratios(results)]
}

// ---- wear

fn wear_ratios(results: &Results) -> Table {
    let names = wear::NODES.map(|nodes| (wear::name(nodes), grouped(nodes)));
    let cells = names.iter().flat_map(|(_, nodes)| [format!("{nodes} nodes, µs"), format!("{nodes} nodes / read pass")]);
    let head: Vec<String> = ["orders", "read pass, µs"].map(String::from).into_iter().chain(cells).collect();
    let head: Vec<&str> = head.iter().map(String::as_str).collect();
    let mut table = Table::new("Wear figures of an order list, and one plain read pass over the same list", &head);
    for orders in results.sizes(WEAR, "read pass") {
        let pass = results.median(WEAR, "read pass", orders);
        let mut row = vec![grouped(orders), or_dash(pass.map(|ns| ns / 1e3))];
        for (name, _) in &names {
            let wear = results.median(WEAR, name, orders);
            row.extend([or_dash(wear.map(|ns| ns / 1e3)), ratio(wear, pass)]);
        }
        table.rows.push(row);
    }
    table
}

/// Only these, for the terminal.
pub fn wears(results: &Results) -> Vec<Table> {
    vec![wear_ratios(results)]
}

// ---- stores and flushes

fn count_table(results: &Results, size: usize, large: usize) -> Table {
    let at_large = format!("512 B, {} keys: flushes", grouped(large));
    let head = ["", "keys", "ours: stores", "ours: flushes", "512 B: stores", "512 B: flushes", "ours / 512 B, flushes", &at_large, "paper: flushes"];
    let mut table = Table::new("Stores and flushes, means over all changes from empty to the number of keys, and back to empty in the same order", &head);
    for change in CHANGES {
        for order in ORDERS {
            let mean = |who, what, size| results.median(COUNTS, &counts::name(who, order, change, what), size);
            let paper = if change == CHANGES[0] && order == ORDERS[0] { PAPER_FLUSHES.to_string() } else { "-".to_string() };
            let flushes = (mean(OURS, "flushes", size), mean(TREE, "flushes", size));
            let cells = [mean(OURS, "stores", size), flushes.0, mean(TREE, "stores", size), flushes.1].map(or_dash);
            let mut row = vec![format!("{order} {change}"), grouped(size)];
            row.extend(cells);
            row.extend([ratio(flushes.0, flushes.1), or_dash(mean(TREE, "flushes", large)), paper]);
            table.rows.push(row);
        }
    }
    table
}

// ---- growth

/// How many times as long for twice as many, between two sizes.
fn per_doubling(from: (usize, Option<f64>), to: (usize, Option<f64>)) -> String {
    let factor = from.1.zip(to.1).map(|(a, b)| {
        let exponent = (b / a).ln() / (to.0 as f64 / from.0 as f64).ln();
        exponent.exp2()
    });
    or_dash(factor)
}

/// From each size to the next, and then between these two, if they were measured.
fn growth(results: &Results, title: &str, unit: &str, sizes: &[usize], over: Option<(usize, usize)>, figures: &[(&str, &str, &str)]) -> Table {
    let over = over.filter(|(from, to)| sizes.contains(from) && sizes.contains(to));
    let steps: Vec<(usize, usize)> = sizes.windows(2).map(|w| (w[0], w[1])).chain(over).collect();
    let names: Vec<String> = steps.iter().map(|&(from, to)| format!("{} to {} {unit}", grouped(from), grouped(to))).collect();
    let head: Vec<&str> = std::iter::once("").chain(names.iter().map(String::as_str)).collect();
    let mut table = Table::new(title, &head);
    for &(label, part, what) in figures {
        let at = |size| (size, results.median(part, what, size));
        let mut row = vec![label.to_string()];
        row.extend(steps.iter().map(|&(from, to)| per_doubling(at(from), at(to))));
        table.rows.push(row);
    }
    table
}

fn search_growth(results: &Results) -> Table {
    let names: Vec<&str> = std::iter::once(OURS).chain(OTHERS).collect();
    let figures: Vec<(&str, &str, &str)> = names.iter().map(|name| (*name, HITS, *name)).collect();
    growth(results, "Growth of a search that hits: times as long for twice as many keys", "keys", &results.sizes(HITS, OURS), None, &figures)
}

fn change_growth(results: &Results) -> Table {
    let figures = [
        ("read pass", NODES, "read pass"),
        ("insertion: check", INSERTION, "check"),
        ("insertion: plan", INSERTION, "plan"),
        ("insertion: stores", INSERTION, "stores"),
        ("insertion: whole call", INSERTION, "whole call"),
        ("insertion, split: plan", SPLITTING, "plan"),
        ("insertion, split: whole call", SPLITTING, "whole call"),
        ("deletion: check", DELETION, "check"),
        ("deletion: plan", DELETION, "plan"),
        ("deletion: stores", DELETION, "stores"),
        ("deletion: whole call", DELETION, "whole call"),
    ];
    growth(results, "Growth of a change: times as long for twice as many nodes", "nodes", &results.sizes(NODES, "read pass"), Some((1_024, 56_253)), &figures)
}

/// Only these, for the terminal.
pub fn changes(results: &Results) -> Vec<Table> {
    vec![change_ratios(results), split_ratios(results), change_growth(results)]
}

// ---- quick calls

/// A call without a summary and with one.
fn quick_times(results: &Results) -> Table {
    let head = ["call", "codes", "plain, µs", "with a summary, µs", "plain / with a summary"];
    let mut table = Table::new("Calls with a summary beside the plain ones, changes carried out with each line flushed", &head);
    for call in quick::CALLS {
        for codes in results.sizes(QUICK_CALLS, quick::CHECK) {
            let [plain, quick] = quick::WAYS.map(|way| results.median(QUICK_CALLS, &format!("{call}, {way}"), codes));
            let mut row = vec![call.to_string(), grouped(codes)];
            row.extend([plain, quick].map(|ns| or_dash(ns.map(|ns| ns / 1e3))));
            row.push(ratio(plain, quick));
            table.rows.push(row);
        }
    }
    table
}

fn openings(results: &Results) -> Table {
    let head = ["codes", "nodes", "check, µs", "summary worked out, µs", "summary / check"];
    let mut table = Table::new("A summary worked out, and a check of the same table", &head);
    for codes in results.sizes(QUICK_CALLS, quick::CHECK) {
        let [check, opening] = [quick::CHECK, quick::OPENING].map(|what| results.median(QUICK_CALLS, what, codes));
        let nodes = results.median(QUICK_CALLS, "nodes", codes).map_or("-".to_string(), |n| grouped(n as usize));
        let mut row = vec![grouped(codes), nodes];
        row.extend([check, opening].map(|ns| or_dash(ns.map(|ns| ns / 1e3))));
        row.push(ratio(opening, check));
        table.rows.push(row);
    }
    table
}

fn quick_growth(results: &Results) -> Table {
    let names = quick::CALLS.map(|call| (call, format!("{call}, {}", quick::WAYS[1])));
    let mut figures = vec![(quick::SEARCH, QUICK_CALLS, quick::SEARCH)];
    figures.extend(names.iter().map(|(call, name)| (*call, QUICK_CALLS, name.as_str())));
    let sizes = results.sizes(QUICK_CALLS, quick::CHECK);
    growth(results, "Growth of calls with a summary, and of a search beside them: times as long for twice as many codes", "codes", &sizes, None, &figures)
}

/// A part of the document of its own.
pub fn quick_calls(results: &Results) -> Vec<Table> {
    vec![quick_times(results), openings(results), quick_growth(results)]
}

// ---- waits for a disk

pub fn waits(all: &waits::All) -> Table {
    let columns: Vec<String> = (1..=waits::MOST).map(|n| n.to_string()).chain([format!("over {}", waits::MOST)]).collect();
    let head: Vec<&str> = ["change", "a wait for", "changes", "mean"].into_iter().chain(columns.iter().map(String::as_str)).collect();
    let mut table = Table::new("Waits of a change on an ordinary disk: the mean, and of a hundred changes so many with 1, 2, .. of them", &head);
    for (kind, counts) in waits::KINDS.iter().zip(all) {
        for (what, c) in waits::WAITS.iter().zip(counts) {
            let share = |n: &usize| if *n == 0 { "-".to_string() } else { figure(100.0 * *n as f64 / c.changes as f64) };
            let mut row = vec![kind.to_string(), what.to_string(), grouped(c.changes), figure(c.waits as f64 / c.changes as f64)];
            row.extend(c.by_waits.iter().map(share));
            table.rows.push(row);
        }
    }
    table
}

// ---- recording numbers

fn number_ratios(results: &Results) -> Table {
    let head = ["recording numbers", "nodes", "read pass, µs", "check, µs", "check / read pass", "one number twice: refused after, µs"];
    let mut table = Table::new("The check on several kinds of recording numbers", &head);
    for (name, _, _) in KINDS {
        for nodes in results.sizes(NUMBERS, name) {
            let [pass, check] = ["read pass", name].map(|what| results.median(NUMBERS, what, nodes));
            let twice = results.median(NUMBERS, &format!("{name}, one twice"), nodes);
            let mut row = vec![name.to_string(), grouped(nodes)];
            row.extend([pass, check].map(|ns| or_dash(ns.map(|ns| ns / 1e3))));
            row.extend([ratio(check, pass), or_dash(twice.map(|ns| ns / 1e3))]);
            table.rows.push(row);
        }
    }
    table
}

/// Only these, for the terminal.
pub fn numbers(results: &Results) -> Vec<Table> {
    vec![number_ratios(results)]
}

// ---- all of them

/// Times in full, for the terminal only.
pub fn times(results: &Results) -> Vec<Table> {
    let mut tables = vec![search_times(results)];
    tables.extend([INSERTION, SPLITTING, DELETION, CLASS_CHANGE].map(|part| change_times(results, part)));
    tables.push(salvage_times(results));
    tables
}

/// The tables of the document.
pub fn ratios(results: &Results, counted: (usize, usize)) -> Vec<Table> {
    vec![
        search_ratios(results),
        line_table(results),
        change_ratios(results),
        split_ratios(results),
        number_ratios(results),
        walk_ratios(results),
        salvage_ratios(results),
        judge_ratios(results),
        wear_ratios(results),
        count_table(results, counted.0, counted.1),
        search_growth(results),
        change_growth(results),
    ]
}
