//! Lent memory of other lengths and with other contents, and foreign indexes.

mod common;

use common::{foreign_round, length_round, memory_round, numbered, rounds, seed};
use quandrilof::{calls, TABLE_WORDS};
use second::make::Size;
use second::words;

#[test]
fn other_lengths() {
    rounds("other lengths", seed(), 60, |random, _, seen| length_round(random, seen));
}

#[test]
fn other_contents() {
    let seen = rounds("other contents", seed(), 120, |random, number, seen| {
        let size = if number % 40 == 0 { Size::FULL } else { Size::small(random) };
        memory_round(random, size, 10, seen);
    });
    seen.expect("no table, table, table and commands");
    // prohibitions whose free places hold other numbers are looked at, put beside, and taken out
    let filled = "create prohibition on filled places, delete prohibition on filled places, end process on filled places";
    seen.expect(filled);
}

#[test]
fn foreign_indexes() {
    rounds("foreign indexes", seed(), 60, |random, number, seen| {
        let size = if number % 30 == 0 { Size::FULL } else { Size::small(random) };
        foreign_round(random, size, 12, seen);
    });
}

/// New makes any memory of the right length the empty table, and no other.
#[test]
fn new_tables() {
    for length in [0, 1, TABLE_WORDS - 1, TABLE_WORDS, TABLE_WORDS + 1] {
        for content in [0, 1, u32::MAX] {
            let mut found = vec![content; length];
            let mut expected = found.clone();
            let done = words::clear(&mut expected);
            assert_eq!(numbered(calls::new(&mut found)), if done { Ok(()) } else { Err(1) });
            assert!(found == expected);
        }
    }
}
