//! Compares the proved code with the second program for as long as one likes. It stops at the first difference.
//!
//! ```text
//! cargo run --release --example compare                        ten thousand cases of each kind
//! cargo run --release --example compare -- --long COUNT SEED     COUNT cases of each kind, from the seed
//! ```

#[path = "../tests/common/mod.rs"]
mod common;

use common::{
    foreign_round, history_round, image_round, length_round, memory_round, policy_round, rounds, Seen,
};
use second::make::{Random, Size};
use std::process::exit;
use std::time::Instant;

/// Mostly small, every 50th of any size, every 400th at the limits.
fn size(random: &mut Random, round: u64) -> Size {
    match round {
        _ if round % 400 == 399 => Size::FULL,
        _ if round % 50 == 49 => Size::any(random),
        _ => Size::small(random),
    }
}

/// Runs about `count` cases of a kind, so many in a round, and says what was seen.
fn kind(name: &str, seed: u64, count: u64, cases: u32, one: fn(&mut Random, Size, u32, &mut Seen)) {
    let start = Instant::now();
    let turns = count.div_ceil(u64::from(cases));
    let seen = rounds(name, seed, turns, |random, round, seen| {
        let size = size(random, round);
        one(random, size, cases, seen);
    });
    println!("{name}: {} cases, no difference, {} s", turns * u64::from(cases), start.elapsed().as_secs());
    seen.lines().for_each(|line| println!("  {line}"));
}

fn main() {
    let words: Vec<String> = std::env::args().skip(1).collect();
    let words: Vec<&str> = words.iter().map(String::as_str).collect();
    let given = match words[..] {
        [] => Some((10_000, common::seed())),
        ["--long", count, seed] => count.parse().ok().zip(seed.parse().ok()),
        _ => None,
    };
    let Some((count, seed)) = given else {
        eprintln!("usage: compare [--long COUNT SEED]");
        exit(2);
    };
    kind("requests", seed, count, 100, policy_round);
    kind("commands", seed, count, 100, history_round);
    kind("images", seed, count, 100, image_round);
    kind("foreign indexes", seed, count, 20, foreign_round);
    kind("other contents", seed, count, 20, memory_round);
    kind("other lengths", seed, count.div_ceil(20), 1, |random, _, _, seen| length_round(random, seen));
}
