//! Random policies, histories, requests, foreign indexes and damaged images.

mod common;

use common::{is_sound, lines, Closure, Rule};
use second::command::COMMAND_NAMES;
use second::decide::{Bits, OPERATIONS};
use second::explain::explain_over;
use second::index::bit;
use second::make::{self, Random, Size};
use second::{
    build_index, decide, decide_indexed, explain, is_index, load, save, Answer, Command, Machine, Policy,
    Prohibition,
};
use std::collections::{BTreeMap, BTreeSet};

#[test]
fn the_operation_table_is_that_of_the_rules() {
    for (number, operation) in (1..).zip(&OPERATIONS) {
        let line = common::table_line(number).unwrap();
        assert_eq!(operation.number, number);
        assert_eq!(operation.kinds, line.kinds);
        assert_eq!(operation.alternatives, line.alternatives);
    }
    assert!(common::table_line(10).is_none() && common::table_line(0).is_none());
}

#[test]
fn made_policies_are_sound_and_return_from_their_image() {
    let mut random = Random::new(1);
    let mut made = 0;
    let mut round_trip = |policy: Policy| {
        assert!(is_sound(&policy));
        let image = save(&policy);
        assert!(image.len() <= 15_115);
        let loaded = load(&image).unwrap();
        assert_eq!(save(&loaded), image);
        assert_eq!(loaded, policy);
        made += 1;
    };
    for _ in 0..300 {
        let size = Size::small(&mut random);
        round_trip(make::policy(&mut random, size));
    }
    for _ in 0..60 {
        let size = Size::any(&mut random);
        round_trip(make::policy(&mut random, size));
    }
    for _ in 0..5 {
        let policy = make::policy(&mut random, Size::FULL);
        assert_eq!(policy.counts(), [511, 2000, 1000, 200, 255]);
        round_trip(policy);
    }
    assert_eq!(made, 365);
}

/// A damaged image is refused with 11 to 14, or it is the image of a sound policy.
#[test]
fn damaged_images() {
    let mut random = Random::new(2);
    let mut seen: BTreeMap<Option<u32>, u32> = BTreeMap::new();
    for round in 0..3000 {
        let size = if round % 100 == 0 { Size::any(&mut random) } else { Size::small(&mut random) };
        let policy = make::policy(&mut random, size);
        let image = make::damaged_image(&mut random, &policy);
        let loaded = load(&image);
        *seen.entry(loaded.as_ref().err().copied()).or_default() += 1;
        if let Ok(policy) = loaded {
            assert_eq!(save(&policy), image);
            assert!(is_sound(&policy));
        }
    }
    let numbers: Vec<_> = seen.keys().copied().collect();
    assert_eq!(numbers, [None, Some(11), Some(12), Some(13), Some(14)], "{seen:?}");
}

/// What the command would make of the policy if nothing but the plain sense of its arguments were
/// asked: nothing, if a number is no id at all or the thing is already there or not there.
fn bare_change(policy: &Policy, command: &Command) -> Option<Policy> {
    let mut changed = policy.clone();
    let id = |number: &u32| u16::try_from(*number).ok();
    let done = match command {
        Command::CreateClass { id: new } => changed.elements.insert(id(new)?, 5).is_none(),
        Command::CreateElement { id: new, kind, container } => {
            *kind != 5
                && changed.elements.insert(id(new)?, u8::try_from(*kind).ok()?).is_none()
                && changed.assignments.insert((id(new)?, id(container)?))
        }
        Command::Assign { child, container } => changed.assignments.insert((id(child)?, id(container)?)),
        Command::Deassign { child, container } => changed.assignments.remove(&(id(child)?, id(container)?)),
        Command::DeleteElement { id: old } => {
            let old = id(old)?;
            changed.assignments.retain(|(child, _)| *child != old);
            changed.elements.remove(&old).is_some()
        }
        Command::CreateAssociation { attribute, rights, target } => {
            changed.associations.insert((id(attribute)?, id(target)?, *rights))
        }
        Command::DeleteAssociation { attribute, rights, target } => {
            changed.associations.remove(&(id(attribute)?, id(target)?, *rights))
        }
        Command::CreateProhibition(given) | Command::DeleteProhibition(given) => {
            let prohibition = Prohibition {
                sort: u8::try_from(given.sort).ok()?,
                subject: id(&given.subject)?,
                form: u8::try_from(given.form).ok()?,
                rights: given.rights,
                inclusions: given.inclusions.iter().map(id).collect::<Option<_>>()?,
                exclusions: given.exclusions.iter().map(id).collect::<Option<_>>()?,
            };
            match command {
                Command::CreateProhibition(_) => changed.prohibitions.insert(prohibition),
                _ => changed.prohibitions.remove(&prohibition),
            }
        }
        Command::StartProcess { id: new, user } => {
            changed.processes.insert(u8::try_from(*new).ok()?, id(user)?).is_none()
        }
        Command::EndProcess { id: old } => changed.processes.remove(&u8::try_from(*old).ok()?).is_some(),
    };
    done.then_some(changed)
}

/// What was seen: how often each command ended how; `None` is accepted.
type Seen = BTreeMap<(usize, Option<u32>), u32>;

/// Runs a history. A command is refused with the lowest line that holds. A command is accepted exactly when the bare change is sound, and then makes that
/// change; the index stays the policy's; both decisions agree.
fn history(random: &mut Random, start: Policy, length: usize, seen: &mut Seen) {
    let mut machine = Machine::holding(start);
    for _ in 0..length {
        let command = make::command(random, &machine.policy);
        let expected = bare_change(&machine.policy, &command).filter(is_sound);
        let before = machine.clone();
        let result = machine.run(&command);
        assert_eq!(result.err(), lines(&before.policy, &command).first().copied(), "{command:?}");
        *seen.entry((command.number(), result.err())).or_default() += 1;
        match (result, expected) {
            (Ok(()), Some(changed)) => {
                assert!(machine.policy == changed, "{command:?}");
                assert!(machine.index == Closure::of(&changed).index(), "{command:?}");
            }
            (Err(_), None) => assert!(machine == before, "{command:?}"),
            (result, expected) => panic!("{command:?}: {result:?}, sound: {}", expected.is_some()),
        }
        for _ in 0..2 {
            let (process, operation, arguments) = make::request(random, &machine.policy);
            assert_eq!(
                decide(&machine.policy, process, operation, arguments),
                decide_indexed(&machine.policy, &machine.index, process, operation, arguments)
            );
        }
    }
    assert_eq!(is_index(&machine.policy, &machine.index), Ok(true));
    assert_eq!(machine.index, build_index(&machine.policy));
    assert_eq!(load(&save(&machine.policy)), Ok(machine.policy));
}

#[test]
fn histories() {
    let mut random = Random::new(3);
    let mut seen = Seen::new();
    history(&mut random, Policy::new(), 400, &mut seen);
    for _ in 0..40 {
        let size = Size::small(&mut random);
        let start = make::policy(&mut random, size);
        history(&mut random, start, 150, &mut seen);
    }
    for _ in 0..3 {
        let start = make::policy(&mut random, Size::FULL);
        history(&mut random, start, 120, &mut seen);
        let size = Size { elements: 400, ..Size::FULL };
        let start = make::policy(&mut random, size);
        history(&mut random, start, 120, &mut seen);
    }
    // Every line that a sound policy lets a command meet was met, and no other.
    let lines: [&[u32]; 11] = [
        &[2, 3],
        &[2, 3, 4, 5, 10],
        &[2, 3, 4, 5, 7, 10],
        &[2, 4, 8],
        &[2, 4, 9],
        &[2, 3, 4, 5, 6, 10],
        &[2, 4],
        &[2, 3, 4, 5, 6, 10],
        &[2, 4],
        &[2, 3, 4, 5],
        &[2, 4, 9],
    ];
    for (number, lines) in lines.iter().enumerate() {
        let met: BTreeSet<Option<u32>> =
            seen.keys().filter(|(command, _)| *command == number).map(|(_, outcome)| *outcome).collect();
        let all: BTreeSet<Option<u32>> = lines.iter().copied().map(Some).chain([None]).collect();
        assert_eq!(met, all, "{}", COMMAND_NAMES[number]);
    }
}

/// The answer and the policy never depend on what the index holds. A command that can change what is within what
/// leaves the policy's index, the others leave the index as it was.
#[test]
fn histories_with_a_foreign_index() {
    let mut random = Random::new(4);
    for _ in 0..30 {
        let size = Size::small(&mut random);
        let mut machine = Machine::holding(make::policy(&mut random, size));
        for _ in 0..40 {
            let command = make::command(&mut random, &machine.policy);
            let mut foreign =
                Machine { policy: machine.policy.clone(), index: make::foreign_index(&mut random) };
            let bytes = foreign.index.clone();
            let result = foreign.run(&command);
            assert_eq!(machine.run(&command), result);
            assert_eq!(machine.policy, foreign.policy);
            match result {
                Ok(()) if command.changes_containment() => assert!(machine.index == foreign.index),
                _ => assert!(foreign.index == bytes),
            }
        }
    }
}

/// Plain decision, indexed decision and explanation against the rule as bare quantifiers.
fn compare(random: &mut Random, policy: &Policy, requests: usize, seen: &mut BTreeSet<String>) {
    let index = build_index(policy);
    let closure = Closure::of(policy);
    assert!(index == closure.index());
    let within = |x: u16, y: u16| closure.within(x, y);
    let rule = Rule { policy, within: &within };
    for _ in 0..requests {
        let (process, operation, arguments) = make::request(random, policy);
        let expected = rule.explanation(process, operation, arguments);
        let case = format!("{process} {operation} {arguments:?}");
        assert_eq!(decide(policy, process, operation, arguments), expected.answer, "{case}");
        assert_eq!(decide_indexed(policy, &index, process, operation, arguments), expected.answer, "{case}");
        assert_eq!(explain(policy, process, operation, arguments), expected, "{case}");
        note(seen, operation, &expected);
    }
}

/// Notes what was seen: grants by operation and alternative, denials by cause, refusals.
fn note(seen: &mut BTreeSet<String>, operation: u32, found: &second::Explanation) {
    match found.answer {
        Answer::Grant(alternative) => seen.insert(format!("grant {operation} {alternative}")),
        Answer::Refused(number) => seen.insert(format!("refused {number}")),
        Answer::Deny => found.rows.iter().fold(false, |_, row| {
            seen.insert(format!("cause {}", row.cause));
            seen.insert(format!("deny {operation} {}", row.argument))
        }),
    };
}

fn expect(seen: &BTreeSet<String>, all: &str) {
    for one in all.split(", ") {
        assert!(seen.contains(one), "{one} is not among {seen:?}");
    }
}

const EVERY_OUTCOME: &str = "grant 1 1, grant 2 1, grant 3 1, grant 3 2, grant 4 1, grant 5 1, grant 5 2, \
    grant 6 1, grant 6 2, grant 7 1, grant 8 1, grant 9 1, refused 2, refused 4, refused 5, cause 1, cause 2, \
    cause 3, cause 4, deny 1 1, deny 5 1, deny 5 2, deny 5 3, deny 6 1, deny 6 2, deny 7 1, deny 7 2, deny 9 2";

#[test]
fn decisions_are_the_rule() {
    let mut random = Random::new(5);
    let mut seen = BTreeSet::new();
    for _ in 0..600 {
        let size = Size::small(&mut random);
        let policy = make::policy(&mut random, size);
        compare(&mut random, &policy, 60, &mut seen);
    }
    for _ in 0..6 {
        let policy = make::policy(&mut random, Size::FULL);
        compare(&mut random, &policy, 40, &mut seen);
    }
    expect(&seen, EVERY_OUTCOME);
}

/// "Over other bytes it answers as the rule does with those bits read as containment."
#[test]
fn foreign_indexes_are_read_as_containment() {
    let mut random = Random::new(6);
    let mut seen = BTreeSet::new();
    for round in 0..300 {
        let size = if round % 50 == 0 { Size::FULL } else { Size::small(&mut random) };
        let policy = make::policy(&mut random, size);
        let index = match round % 3 {
            // A table's own index with some bits turned over.
            0 => {
                let mut bytes = build_index(&policy);
                for x in policy.elements.keys() {
                    for y in policy.elements.keys() {
                        if random.chance(3) {
                            make::flip(&mut bytes, 512 * usize::from(*x) + usize::from(*y));
                        }
                    }
                }
                bytes
            }
            _ => make::foreign_index(&mut random),
        };
        let within = |x: u16, y: u16| bit(&index, x, y);
        let rule = Rule { policy: &policy, within: &within };
        for _ in 0..60 {
            let (process, operation, arguments) = make::request(&mut random, &policy);
            let expected = rule.explanation(process, operation, arguments);
            assert_eq!(decide_indexed(&policy, &index, process, operation, arguments), expected.answer);
            assert_eq!(explain_over(&policy, &Bits(&index), process, operation, arguments), expected);
            note(&mut seen, operation, &expected);
            if expected.rows.iter().any(|row| row.cause == 1 && row.number == 0) {
                seen.insert("no class".to_string());
            }
        }
    }
    expect(&seen, EVERY_OUTCOME);
    expect(&seen, "no class");
}
