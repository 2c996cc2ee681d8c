//! How much stack the calls take, each of them, on long chains: no more than a thread of 160 KiB has. A call that takes more ends the
//! whole test run.

mod common;

use common::words_of;
use quandrilof::{calls, kind, sort, Request, Row, INDEX_BYTES, TABLE_WORDS};
use second::command::{GivenProhibition, COMMAND_NAMES};
use second::{Command, Machine, Policy};
use std::thread::Builder;

/// Each element in the next one, the last a class: a chain through all ids, which rise along it.
fn chain(user: bool) -> Policy {
    let mut policy = Policy::new();
    for id in 1..=511 {
        policy.elements.insert(id, if user { 2 } else { 4 });
    }
    policy.elements.extend([(1, if user { 1 } else { 3 }), (511, 5)]);
    policy.assignments.extend((1..=510).map(|id| (id, id + 1)));
    policy
}

/// The same without a class, closed to a ring. Its image is refused.
fn ring() -> Policy {
    let mut policy = chain(false);
    policy.elements.extend([(1, 4), (511, 4)]);
    policy.assignments.insert((511, 1));
    policy
}

/// A chain through all ids, which rise and fall all along it. Ranks do not tell here: load builds the index, by recursion along the chain, and takes most stack.
fn woven() -> Policy {
    let mut policy = chain(false);
    let id = |place: u32| (1 + place * 200 % 511) as u16;
    policy.elements.extend([(511, 4), (id(510), 5)]);
    policy.assignments = (0..510).map(|place| (id(place), id(place + 1))).collect();
    policy
}

/// Half the elements a chain above the user, half a chain above the object.
fn two_chains() -> Policy {
    let mut policy = chain(false);
    policy.elements.extend((256..=510).map(|id| (id, 2)));
    policy.elements.insert(256, 1);
    policy.assignments.remove(&(255, 256));
    policy.assignments.insert((255, 511));
    policy.associations.insert((510, 255, u32::MAX));
    policy.processes.insert(1, 256);
    policy
}

fn on_a_small_stack<T: Send + 'static>(work: impl FnOnce() -> T + Send + 'static) -> T {
    Builder::new().stack_size(160 * 1024).spawn(work).unwrap().join().unwrap()
}

#[test]
fn new() {
    let mut words = vec![7; TABLE_WORDS];
    on_a_small_stack(move || assert_eq!(calls::new(&mut words), Ok(())));
}

#[test]
fn load() {
    for policy in [chain(false), chain(true), woven(), two_chains(), ring()] {
        let image = second::save(&policy);
        let expected = second::load(&image).map(|_| ());
        let mut words = vec![0; TABLE_WORDS];
        on_a_small_stack(move || assert_eq!(common::numbered(calls::load(&mut words, &image)), expected));
    }
}

#[test]
fn the_other_calls() {
    for policy in [chain(false), chain(true), two_chains()] {
        let (words, mut index) = (words_of(&policy), vec![0; INDEX_BYTES]);
        let table = common::table_of(&policy);
        on_a_small_stack(move || {
            assert_eq!(calls::build_index(&words, &mut index), Ok(()));
            assert_eq!(calls::is_index(&words, &index), Ok(true));
            assert_eq!(calls::contains(&words, 1, 511), Ok(true));
            for operation in 1..=9 {
                for second in [0, 2] {
                    let request = Request { process: 1, operation, first: 1, second, third: second };
                    let answer = table.decide(&request);
                    assert_eq!(table.decide_indexed(&request), answer);
                    let mut rows = [Row::default(); 3];
                    assert_eq!(table.explain(&request, &mut rows).map(|told| told.decision), answer);
                }
            }
            assert!(!table.save().is_empty());
        });
    }
}

/// Every command; each is done on one of the policies at least.
fn commands() -> Vec<Command> {
    let given =
        GivenProhibition::new(sort::USER_ATTRIBUTE, 509, 0, u32::MAX, &[2, 3, 4, 5], &[252, 253, 254, 255]);
    let mut all = vec![
        Command::CreateClass { id: 1 },
        Command::DeleteElement { id: 1 },
        Command::CreateClass { id: 1 },
        Command::DeleteElement { id: 1 },
        Command::CreateElement { id: 1, kind: kind::USER, container: 2 },
        Command::CreateElement { id: 1, kind: kind::OBJECT, container: 2 },
    ];
    for (child, container) in [(1, 3), (2, 4), (510, 2)] {
        all.extend([Command::Assign { child, container }, Command::Deassign { child, container }]);
    }
    all.extend([
        Command::CreateAssociation { attribute: 509, rights: 1, target: 2 },
        Command::DeleteAssociation { attribute: 509, rights: 1, target: 2 },
        Command::CreateProhibition(given.clone()),
        Command::DeleteProhibition(given),
        Command::StartProcess { id: 2, user: 1 },
        Command::EndProcess { id: 2 },
    ]);
    all
}

#[test]
fn the_commands() {
    let mut done = [false; 11];
    for policy in [chain(false), chain(true), two_chains()] {
        let (mut table, mut machine) = (common::table_of(&policy), Machine::holding(policy));
        for command in commands() {
            let expected = machine.run(&command);
            done[command.number()] |= expected.is_ok();
            let mut given = table.clone();
            table = on_a_small_stack(move || {
                assert_eq!(common::run(&mut given, &command), expected, "{command:?}");
                given
            });
            common::same(&table, &machine.policy, &machine.index);
        }
    }
    for (name, done) in COMMAND_NAMES.iter().zip(done) {
        assert!(done, "no {name} was done");
    }
}
