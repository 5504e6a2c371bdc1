//! Every cut of writes and every image that it may leave: reloaded, searched for every key, repaired and gone on with, against a ledger.
mod calls;
mod common;
mod reference;
mod scripts;

use common::arguments;
use reference::Random;

fn main() {
    let (seed, size) = arguments(3_000);
    scripts::cut(1, size, &mut Random(seed), seed);
    println!("1 passed, 0 failed");
}
