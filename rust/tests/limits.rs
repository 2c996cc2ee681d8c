//! The limits: each on a table made for it.

mod common;

use common::{ask, ask_indexed, load_into, same, save_into, step, table_of, words_of, Seen};
use quandrilof::{
    kind, operation, sort, Decision, Prohibition, Refusal, Request, Table, ASSIGNMENTS_MOST,
    ASSOCIATIONS_MOST, IMAGE_MOST, PROHIBITIONS_MOST, ROWS_MOST,
};
use second::make::Random;
use second::{Command, Machine, Policy};

/// Class 1 and object attributes 2 to 100, all in 1 and each in some of those before it: so many assignments.
fn many_assignments(count: usize) -> Policy {
    let mut policy = Policy::new();
    policy.elements.insert(1, 5);
    for child in 2..=100 {
        policy.elements.insert(child, 4);
        policy.assignments.insert((child, 1));
    }
    let pairs = (3..=100).flat_map(|child| (2..child).map(move |container| (child, container)));
    for pair in pairs.take(count - policy.assignments.len()) {
        policy.assignments.insert(pair);
    }
    assert_eq!(policy.assignments.len(), count);
    policy
}

#[test]
fn two_thousand_assignments() {
    let mut machine = Machine::holding(many_assignments(1_999));
    let mut table = table_of(&machine.policy);
    let mut seen = Seen::default();
    let mut run = |command, expected| {
        step(&mut table, &mut machine, &command, &mut seen);
        let name = second::command::COMMAND_NAMES[command.number()];
        let answer = match expected {
            0 => format!("{name} accepted"),
            number => format!("{name} refused {number}"),
        };
        assert!(seen.times(&answer) > 0, "{command:?}: not {answer}");
        seen = Seen::default();
    };
    run(Command::CreateElement { id: 511, kind: kind::OBJECT, container: 1 }, 0);
    run(Command::Assign { child: 511, container: 2 }, 10);
    run(Command::Assign { child: 100, container: 99 }, 10);
    run(Command::CreateElement { id: 510, kind: kind::OBJECT, container: 1 }, 10);
    // what is lower is said first
    run(Command::Assign { child: 511, container: 1 }, 3);
    run(Command::Assign { child: 511, container: 509 }, 4);
    run(Command::Assign { child: 1, container: 2 }, 5);
    run(Command::Assign { child: 2, container: 3 }, 7);
    run(Command::CreateElement { id: 512, kind: kind::OBJECT, container: 1 }, 2);
    run(Command::CreateClass { id: 509 }, 0);
    // the room of what is removed can be used again
    run(Command::Deassign { child: 3, container: 1 }, 0);
    run(Command::Assign { child: 511, container: 2 }, 0);
    run(Command::Assign { child: 3, container: 1 }, 10);
    run(Command::DeleteElement { id: 511 }, 0);
    run(Command::Assign { child: 3, container: 1 }, 0);
    run(Command::Assign { child: 100, container: 99 }, 0);
    run(Command::Assign { child: 100, container: 98 }, 10);
}

/// The same limit, reached by commands alone.
#[test]
fn two_thousand_assignments_by_commands() {
    let mut table = Table::new();
    assert_eq!(table.create_class(1), Ok(()));
    for id in 2..=511 {
        assert_eq!(table.create_element(id, kind::OBJECT_ATTRIBUTE, 1), Ok(()));
    }
    let mut pairs = (3..=511).flat_map(|child| (2..child).map(move |container| (child, container)));
    for (child, container) in pairs.by_ref().take(2_000 - 510) {
        assert_eq!(table.assign(child, container), Ok(()));
    }
    let (child, container) = pairs.next().unwrap();
    assert_eq!(table.assign(child, container), Err(Refusal::NoRoom));
    let policy = second::load(&table.save()).unwrap();
    assert_eq!(policy.counts(), [511, 2_000, 0, 0, 0]);
    same(&table, &policy, &second::build_index(&policy));
}

#[test]
fn elements_to_511() {
    let mut table = Table::new();
    assert_eq!(table.create_class(0), Err(Refusal::OutOfRange));
    assert_eq!(table.create_class(512), Err(Refusal::OutOfRange));
    assert_eq!(table.create_class(511), Ok(()));
    assert_eq!(table.create_element(512, kind::OBJECT, 511), Err(Refusal::OutOfRange));
    assert_eq!(table.create_element(1, kind::OBJECT, 512), Err(Refusal::OutOfRange));
    assert_eq!(table.create_element(1, kind::OBJECT, 65_536 + 511), Err(Refusal::OutOfRange));
    for id in 1..=510 {
        assert_eq!(table.create_element(id, kind::OBJECT, 511), Ok(()));
    }
    for id in 1..=511 {
        assert_eq!(table.create_class(id), Err(Refusal::Already));
    }
    let policy = second::load(&table.save()).unwrap();
    assert_eq!(policy.counts(), [511, 510, 0, 0, 0]);
    same(&table, &policy, &second::build_index(&policy));
}

#[test]
fn processes_to_255() {
    let mut table = Table::new();
    assert_eq!(table.create_class(1), Ok(()));
    assert_eq!(table.create_element(2, kind::USER_ATTRIBUTE, 1), Ok(()));
    assert_eq!(table.create_element(3, kind::USER, 2), Ok(()));
    for process in 1..=255 {
        assert_eq!(table.start_process(process, 3), Ok(()));
    }
    for process in [0, 256, 65_536 + 1, u32::MAX] {
        assert_eq!(table.start_process(process, 3), Err(Refusal::OutOfRange));
        assert_eq!(table.end_process(process), Err(Refusal::OutOfRange));
    }
    assert_eq!(table.start_process(255, 3), Err(Refusal::Already));
    assert_eq!(table.delete_element(3), Err(Refusal::InUse));
    let policy = second::load(&table.save()).unwrap();
    assert_eq!(policy.counts(), [3, 2, 0, 0, 255]);
    same(&table, &policy, &second::build_index(&policy));
}

#[test]
fn a_thousand_associations() {
    let mut table = Table::new();
    assert_eq!(table.create_class(1), Ok(()));
    assert_eq!(table.create_element(2, kind::USER_ATTRIBUTE, 1), Ok(()));
    assert_eq!(table.create_element(3, kind::OBJECT, 1), Ok(()));
    // falling, so that each is put before all others
    for rights in (1..=1_000).rev() {
        assert_eq!(table.create_association(2, rights, 3), Ok(()));
    }
    assert_eq!(table.create_association(2, 1_001, 3), Err(Refusal::NoRoom));
    assert_eq!(table.create_association(2, 1_000, 3), Err(Refusal::Already));
    assert_eq!(table.create_association(2, 0, 3), Err(Refusal::IllFormed));
    let policy = second::load(&table.save()).unwrap();
    assert_eq!(policy.counts(), [3, 2, 1_000, 0, 0]);
    same(&table, &policy, &second::build_index(&policy));
    assert_eq!(table.delete_association(2, 1_001, 3), Err(Refusal::Absent));
    assert_eq!(table.delete_association(2, 500, 3), Ok(()));
    assert_eq!(table.create_association(3, 1_001, 2), Err(Refusal::NotAllowed));
    assert_eq!(table.create_association(2, u32::MAX, 3), Ok(()));
    assert_eq!(table.create_association(2, 500, 3), Err(Refusal::NoRoom));
}

#[test]
fn two_hundred_prohibitions() {
    let mut table = Table::new();
    assert_eq!(table.create_class(1), Ok(()));
    assert_eq!(table.create_element(2, kind::USER_ATTRIBUTE, 1), Ok(()));
    let given = |rights, inclusions| Prohibition {
        sort: sort::USER_ATTRIBUTE,
        subject: 2,
        form: 0,
        rights,
        inclusions,
        exclusions: &[],
    };
    for rights in (1..=200).rev() {
        assert_eq!(table.create_prohibition(&given(rights, &[2])), Ok(()));
    }
    assert_eq!(table.create_prohibition(&given(201, &[2])), Err(Refusal::NoRoom));
    assert_eq!(table.create_prohibition(&given(200, &[2])), Err(Refusal::Already));
    assert_eq!(table.create_prohibition(&given(201, &[])), Err(Refusal::IllFormed));
    assert_eq!(table.create_prohibition(&given(201, &[2; 5])), Err(Refusal::IllFormed));
    assert_eq!(table.create_prohibition(&given(201, &[2; 1_000])), Err(Refusal::IllFormed));
    let policy = second::load(&table.save()).unwrap();
    assert_eq!(policy.counts(), [2, 1, 0, 200, 0]);
    same(&table, &policy, &second::build_index(&policy));
    assert_eq!(table.delete_prohibition(&given(7, &[2])), Ok(()));
    assert_eq!(table.create_prohibition(&given(201, &[2])), Ok(()));
    assert_eq!(table.create_prohibition(&given(7, &[2])), Err(Refusal::NoRoom));
}

/// Every group at its limit, every prohibition with four and four ids.
fn largest() -> Policy {
    let mut policy = many_assignments(2_000 - 411);
    policy.elements.extend([(101, 2), (102, 1)]);
    policy.elements.extend((103..=511).map(|id| (id, 3)));
    policy.assignments.extend([(101, 1), (102, 101)]);
    policy.assignments.extend((103..=511).map(|id| (id, 1 + id % 50)));
    policy.associations.extend((0..1_000).map(|i| (101, 2 + i as u16 % 90, u32::MAX - i)));
    policy.processes.extend((1..=255).map(|id| (id, 102)));
    policy.prohibitions.extend((1..=200).map(|rights| second::Prohibition {
        sort: 2,
        subject: 255,
        form: 1,
        rights,
        inclusions: vec![2, 3, 4, 511],
        exclusions: vec![5, 6, 7, 511],
    }));
    assert_eq!(policy.counts(), [511, 2_000, 1_000, 200, 255]);
    policy
}

#[test]
fn the_longest_image() {
    let policy = largest();
    let image = second::save(&policy);
    assert_eq!((image.len(), IMAGE_MOST), (15_115, 15_115));
    assert_eq!(policy.counts()[1..4], [ASSIGNMENTS_MOST, ASSOCIATIONS_MOST, PROHIBITIONS_MOST]);
    let table = table_of(&policy);
    assert_eq!(
        format!("{table:?}"),
        "Table { elements: 511, assignments: 2000, associations: 1000, prohibitions: 200, processes: 255, .. }"
    );
    same(&table, &policy, &second::build_index(&policy));
    save_into(table.words(), &image, &mut Random::new(1));
    let mut longer = image.clone();
    longer.push(0);
    let mut seen = Seen::default();
    let mut words = words_of(&Policy::new());
    load_into(&mut words, &longer, &mut seen);
    load_into(&mut words, &image[..15_114], &mut seen);
    load_into(&mut words, &image, &mut seen);
    assert_eq!((seen.times("image refused 12"), seen.times("image accepted")), (2, 1));
}

/// A class, attributes one above the other, and an object: as long as a chain can be, in rising or falling ids.
fn chain(rising: bool) -> Policy {
    let mut policy = Policy::new();
    let id = |place: u16| if rising { place } else { 512 - place };
    for place in 1..=511 {
        let kind = match place {
            1 => 5,
            2..=510 => 4,
            _ => 3,
        };
        policy.elements.insert(id(place), kind);
        if place > 1 {
            policy.assignments.insert((id(place), id(place - 1)));
        }
    }
    policy
}

#[test]
fn the_longest_chains() {
    for rising in [true, false] {
        let policy = chain(rising);
        let table = table_of(&policy);
        same(&table, &policy, &second::build_index(&policy));
        for x in 1..=511 {
            for y in [1, 2, 255, 256, 510, 511] {
                assert_eq!(table.contains(x, y), Ok(if rising { x >= y } else { x <= y }));
            }
        }
    }
}

/// The most rows that there can be: three arguments, two of them the same, in all classes that the ids leave room for.
#[test]
fn the_longest_explanation() {
    let mut policy = Policy::new();
    policy.elements.extend([(1, 2), (2, 1), (3, 3), (4, 4)]);
    policy.elements.extend((5..=511).map(|id| (id, 5)));
    policy.assignments.extend([(1, 5), (2, 1), (3, 4)]);
    policy.assignments.extend((5..=511).map(|class| (4, class)));
    policy.associations.insert((1, 4, 0b111_0000));
    policy.processes.insert(255, 2);
    let table = table_of(&policy);
    let asked = (255, operation::MOVE, [3, 4, 4]);
    ask(table.words(), &policy, asked, &mut Random::new(1), &mut Seen::default());
    ask_indexed(table.words(), &policy, table.index(), asked);
    let request = Request { process: 255, operation: operation::MOVE, first: 3, second: 4, third: 4 };
    let (decision, rows) = table.explained(&request).unwrap();
    assert_eq!((decision, rows.len()), (Decision::Grant(1), 3 * 507));
    assert!(rows.len() <= ROWS_MOST);
}
