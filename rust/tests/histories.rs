//! Random histories of commands: the answer, every word, every byte of the index, and the image after each.

mod common;

use common::{history_round, rounds, seed, step};
use quandrilof::Table;
use second::make::Size;
use second::year::Year;
use second::Machine;

const EVERY_ANSWER: &str = "create class accepted, create class refused 2, create class refused 3, \
    create element accepted, create element refused 2, create element refused 3, create element refused 4, \
    create element refused 5, assign accepted, assign refused 2, assign refused 3, assign refused 4, assign refused 5, \
    assign refused 7, deassign accepted, deassign refused 2, deassign refused 4, deassign refused 8, \
    delete element accepted, delete element refused 2, delete element refused 4, delete element refused 9, \
    create association accepted, create association refused 2, create association refused 3, \
    create association refused 4, create association refused 5, create association refused 6, \
    delete association accepted, delete association refused 2, delete association refused 4, \
    create prohibition accepted, create prohibition refused 2, create prohibition refused 3, \
    create prohibition refused 4, create prohibition refused 5, create prohibition refused 6, \
    delete prohibition accepted, delete prohibition refused 2, delete prohibition refused 4, start process accepted, \
    start process refused 2, start process refused 3, start process refused 4, start process refused 5, \
    end process accepted, end process refused 2, end process refused 4, end process refused 9";

#[test]
fn small_histories() {
    let seen = rounds("small histories", seed(), 60, |random, _, seen| {
        let size = Size::small(random);
        history_round(random, size, 150, seen);
    });
    seen.expect(EVERY_ANSWER);
}

#[test]
fn histories_from_nothing() {
    rounds("histories from nothing", seed(), 4, |random, _, seen| {
        let nothing = Size { elements: 0, assignments: 0, associations: 0, prohibitions: 0, processes: 0 };
        history_round(random, nothing, 400, seen);
    });
}

#[test]
fn histories_at_the_limits() {
    let seen = rounds("histories at the limits", seed(), 4, |random, number, seen| {
        let elements = if number % 2 == 0 { 511 } else { 400 };
        history_round(random, Size { elements, ..Size::FULL }, 100, seen);
    });
    seen.expect("assign refused 10, create association refused 10, create prohibition refused 10");
}

/// A year's first commands, from the empty table on.
#[test]
fn a_year() {
    rounds("a year", seed(), 1, |random, _, seen| {
        let (mut table, mut machine) = (Table::new(), Machine::new());
        for command in Year::new(random.bits() as u32).take(1_500) {
            step(&mut table, &mut machine, &command, seen);
        }
    });
}
