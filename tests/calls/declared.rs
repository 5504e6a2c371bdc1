//! The library's C calls as Rust declares them, for the tests and the benchmark. `run` compares them with include/catalogue.h and with the
//! Rattle source.
#![allow(dead_code)]

extern "C" {
    pub fn catalogue_version() -> u64;
    pub fn catalogue_parse(text: *const u8, length: usize, key: *mut u64) -> u64;
    pub fn catalogue_print(key: u64, text: *mut u8) -> u64;
    pub fn catalogue_make(table: *mut u64, words: usize, collections: u64) -> u64;
    pub fn catalogue_pack(table: *mut u64, words: usize, collections: u64, pairs: *const u64, pair_words: usize, loans: *const u64, loan_words: usize) -> u64;
    pub fn catalogue_search(table: *const u64, words: usize, collection: u64, key: u64, recording: *mut u64, access: *mut u64, next: *mut u64, higher: *mut u64) -> u64;
    pub fn catalogue_list(table: *const u64, words: usize, collection: u64, low: u64, high: u64, out: *mut u64, out_words: usize, pairs: *mut u64, more: *mut u64) -> u64;
    pub fn catalogue_check(table: *const u64, words: usize, report: *mut u64) -> u64;
    pub fn catalogue_insert(table: *mut u64, words: usize, collection: u64, orders: *mut u64, order_words: usize, dock: u64, key: u64, recording: u64, access: u64, stores: *mut u64, flushes: *mut u64, barriers: *mut u64) -> u64;
    pub fn catalogue_insert_many(table: *mut u64, words: usize, collection: u64, orders: *mut u64, order_words: usize, dock: u64, pairs: *const u64, pair_words: usize, taken: *mut u64, stop: *mut u64, stores: *mut u64, flushes: *mut u64, barriers: *mut u64) -> u64;
    pub fn catalogue_delete(table: *mut u64, words: usize, collection: u64, orders: *mut u64, order_words: usize, dock: u64, key: u64, stores: *mut u64, flushes: *mut u64, barriers: *mut u64) -> u64;
    pub fn catalogue_set_class(table: *mut u64, words: usize, collection: u64, orders: *mut u64, order_words: usize, dock: u64, key: u64, access: u64, stores: *mut u64, flushes: *mut u64, barriers: *mut u64) -> u64;
    pub fn catalogue_repair(table: *mut u64, words: usize, orders: *mut u64, order_words: usize, dock: u64, stores: *mut u64, flushes: *mut u64, barriers: *mut u64) -> u64;
    pub fn catalogue_sentinels(table: *const u64, words: usize, sentinels: *mut u64, sentinel_words: usize) -> u64;
    pub fn catalogue_search_with(table: *const u64, words: usize, sentinels: *const u64, sentinel_words: usize, collection: u64, key: u64, recording: *mut u64, access: *mut u64, next: *mut u64, higher: *mut u64) -> u64;
    pub fn catalogue_insert_with(table: *mut u64, words: usize, sentinels: *mut u64, sentinel_words: usize, collection: u64, orders: *mut u64, order_words: usize, dock: u64, key: u64, recording: u64, access: u64, stores: *mut u64, flushes: *mut u64, barriers: *mut u64) -> u64;
    pub fn catalogue_delete_with(table: *mut u64, words: usize, sentinels: *mut u64, sentinel_words: usize, collection: u64, orders: *mut u64, order_words: usize, dock: u64, key: u64, stores: *mut u64, flushes: *mut u64, barriers: *mut u64) -> u64;
    pub fn catalogue_set_class_with(table: *mut u64, words: usize, sentinels: *mut u64, sentinel_words: usize, collection: u64, orders: *mut u64, order_words: usize, dock: u64, key: u64, access: u64, stores: *mut u64, flushes: *mut u64, barriers: *mut u64) -> u64;
    pub fn catalogue_repair_with(table: *mut u64, words: usize, sentinels: *mut u64, sentinel_words: usize, orders: *mut u64, order_words: usize, dock: u64, stores: *mut u64, flushes: *mut u64, barriers: *mut u64) -> u64;
    pub fn catalogue_summary_words(nodes: u64) -> u64;
    pub fn catalogue_summary(table: *const u64, words: usize, summary: *mut u64, summary_words: usize) -> u64;
    pub fn catalogue_quick_insert(table: *mut u64, words: usize, summary: *mut u64, summary_words: usize, collection: u64, orders: *mut u64, order_words: usize, dock: u64, key: u64, recording: u64, access: u64, stores: *mut u64, flushes: *mut u64, barriers: *mut u64) -> u64;
    pub fn catalogue_quick_insert_many(table: *mut u64, words: usize, summary: *mut u64, summary_words: usize, collection: u64, orders: *mut u64, order_words: usize, dock: u64, pairs: *const u64, pair_words: usize, taken: *mut u64, stop: *mut u64, stores: *mut u64, flushes: *mut u64, barriers: *mut u64) -> u64;
    pub fn catalogue_quick_delete(table: *mut u64, words: usize, summary: *mut u64, summary_words: usize, collection: u64, orders: *mut u64, order_words: usize, dock: u64, key: u64, stores: *mut u64, flushes: *mut u64, barriers: *mut u64) -> u64;
    pub fn catalogue_quick_set_class(table: *mut u64, words: usize, summary: *const u64, summary_words: usize, collection: u64, orders: *mut u64, order_words: usize, dock: u64, key: u64, access: u64, stores: *mut u64, flushes: *mut u64, barriers: *mut u64) -> u64;
    pub fn catalogue_quick_repair(table: *const u64, words: usize, summary: *const u64, summary_words: usize, orders: *const u64, order_words: usize, dock: u64, stores: *mut u64, flushes: *mut u64, barriers: *mut u64) -> u64;
    pub fn catalogue_quick_list(table: *const u64, words: usize, summary: *const u64, summary_words: usize, collection: u64, low: u64, high: u64, out: *mut u64, out_words: usize, pairs: *mut u64, more: *mut u64) -> u64;
    pub fn catalogue_carry_out(table: *mut u64, words: usize, orders: *const u64, order_words: usize, c: u64) -> u64;
    pub fn catalogue_salvage(table: *const u64, words: usize, out: *mut u64, out_words: usize, report: *mut u64, report_words: usize, dropped: *mut u64) -> u64;
    pub fn catalogue_judge_insert(table: *const u64, words: usize, orders: *const u64, order_words: usize, out: *mut u64, out_words: usize, collection: u64, key: u64, recording: u64, access: u64, count: *mut u64) -> u64;
    pub fn catalogue_judge_delete(table: *const u64, words: usize, orders: *const u64, order_words: usize, out: *mut u64, out_words: usize, collection: u64, key: u64, count: *mut u64) -> u64;
    pub fn catalogue_script(number: u64, script: *mut u64) -> u64;
    pub fn catalogue_script_number(script: *const u64, number: *mut u64) -> u64;
    pub fn catalogue_wear(table: *const u64, words: usize, orders: *const u64, order_words: usize, lines: *mut u64, line_words: usize, extents: *mut u64, extent_words: usize, total: *mut u64, largest: *mut u64, first_line: *mut u64, pairs: *mut u64) -> u64;
}
