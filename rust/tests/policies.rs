//! Random sound policies of all sizes: image, words, index, containment, decisions and explanations.

mod common;

use common::{ask, ask_indexed, policy_round, rounds, seed, table_of};
use second::house::{furnished, small_house};
use second::make::Size;

const EVERY_OUTCOME: &str = "grant 1 1, grant 2 1, grant 3 1, grant 3 2, grant 4 1, grant 5 1, grant 5 2, grant 6 1, \
    grant 6 2, grant 7 1, grant 8 1, grant 9 1, deny 1, deny 2, deny 3, deny 4, deny 5, deny 6, deny 7, deny 8, deny 9, \
    cause 1, cause 2, cause 3, cause 4, request refused 2, request refused 4, request refused 5, contains Ok(true), \
    contains Ok(false), contains Err(2), contains Err(4)";

#[test]
fn small_policies() {
    let seen = rounds("small policies", seed(), 300, |random, _, seen| {
        let size = Size::small(random);
        policy_round(random, size, 60, seen);
    });
    seen.expect(EVERY_OUTCOME);
}

#[test]
fn policies_of_any_size() {
    rounds("policies of any size", seed(), 8, |random, _, seen| {
        let size = Size::any(random);
        policy_round(random, size, 30, seen);
    });
}

#[test]
fn policies_at_the_limits() {
    rounds("policies at the limits", seed(), 4, |random, _, seen| policy_round(random, Size::FULL, 30, seen));
}

/// Each operation and some numbers that are none, with borders and some elements of the house at every place.
#[test]
fn borders_in_the_house() {
    let arguments = [0, 1, 7, 9, 511, 512, u32::MAX];
    let operations = [0, 1, 2, 3, 4, 5, 6, 7, 8, 9, 10, 257, u32::MAX];
    let seen = rounds("borders in the house", seed(), 2, |random, number, seen| {
        let policy = if number == 0 { small_house().policy } else { furnished() };
        let table = table_of(&policy);
        for process in [0, 1, 255, 256, u32::MAX] {
            for operation in operations {
                for first in arguments {
                    for second in arguments {
                        for third in arguments {
                            let asked = (process, operation, [first, second, third]);
                            ask(table.words(), &policy, asked, random, seen);
                            ask_indexed(table.words(), &policy, table.index(), asked);
                        }
                    }
                }
            }
        }
    });
    seen.expect("grant 1 1, request refused 2, request refused 4, request refused 5, deny 5");
}
