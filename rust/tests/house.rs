//! The small house of the rules, K1 to K12.

mod common;

use common::{same, step, Seen};
use quandrilof::{form, kind, operation, sort, Decision, NoRefusal, Prohibition, Refusal, Request, Table};
use second::house::small_house;
use second::Command;

/// The house, made by commands.
fn house() -> Table {
    let mut house = Table::new();
    build(&mut house).expect("the house breaks no rule");
    house
}

fn build(house: &mut Table) -> Result<(), Refusal> {
    house.create_class(1)?;
    house.create_class(2)?;
    house.create_element(3, kind::USER_ATTRIBUTE, 2)?;
    house.create_element(4, kind::USER_ATTRIBUTE, 1)?;
    house.create_element(5, kind::USER, 3)?;
    house.assign(5, 4)?;
    house.create_element(6, kind::USER, 3)?;
    house.create_element(7, kind::OBJECT_ATTRIBUTE, 2)?;
    house.create_element(8, kind::OBJECT_ATTRIBUTE, 1)?;
    house.create_element(9, kind::OBJECT, 7)?;
    house.create_element(10, kind::OBJECT, 7)?;
    house.assign(10, 8)?;
    house.create_element(511, kind::OBJECT, 8)?;
    house.create_association(3, 0b11, 7)?;
    house.create_association(4, 0b01, 8)?;
    house.start_process(1, 5)?;
    house.start_process(2, 6)
}

/// Asks every way; of a deny also the cause and the number of its first alternative.
fn ask(house: &Table, process: u32, operation: u32, first: u32) -> String {
    let request = Request { process, operation, first, ..Request::default() };
    let answer = house.decide(&request);
    assert_eq!(house.decide_indexed(&request), answer);
    match (answer, house.explained(&request)) {
        (Ok(Decision::Grant(alternative)), Ok((decision, _))) => {
            assert_eq!(decision, Decision::Grant(alternative));
            format!("grant {alternative}")
        }
        (Ok(Decision::Deny), Ok((Decision::Deny, rows))) => {
            format!("deny {} {}", rows[0].cause, rows[0].number)
        }
        (Err(refusal), explained) => {
            assert_eq!(explained, Err(refusal));
            format!("refusal {}", refusal.number())
        }
        other => panic!("{other:?}"),
    }
}

#[test]
fn the_house_is_the_second_programs() {
    let machine = small_house();
    same(&house(), &machine.policy, &machine.index);
}

/// Tables are equal as their words and indexes are, and show their counts.
#[test]
fn tables_are_compared_and_shown() {
    let mut other = house();
    assert_eq!(Table::load(&other.save()), Ok(house()));
    assert_eq!(other.assign(6, 4), Ok(()));
    assert_ne!(other, house());
    assert_eq!(
        format!("{other:?}"),
        "Table { elements: 11, assignments: 12, associations: 2, prohibitions: 0, processes: 2, .. }"
    );
}

#[test]
fn k1_to_k6() {
    let house = house();
    assert_eq!(ask(&house, 1, operation::READ, 9), "grant 1");
    assert_eq!(ask(&house, 1, operation::READ, 10), "grant 1");
    assert_eq!(ask(&house, 2, operation::READ, 10), "deny 1 1");
    assert_eq!(ask(&house, 1, operation::WRITE, 10), "deny 1 1");
    assert_eq!(ask(&house, 1, operation::READ, 511), "grant 1");
    assert_eq!(ask(&house, 1, operation::FIND, 9), "grant 2");
}

#[test]
fn k7_to_k9() {
    let prohibited = |form: u32, inclusions: &[u32]| {
        let mut house = house();
        let given =
            Prohibition { sort: sort::USER, subject: 5, form, rights: 1, inclusions, exclusions: &[8] };
        assert_eq!(house.create_prohibition(&given), Ok(()));
        [9, 10, 511].map(|object| ask(&house, 1, operation::READ, object))
    };
    assert_eq!(prohibited(form::CONJUNCTIVE, &[7])[..2], ["deny 2 5", "grant 1"]);
    assert_eq!(prohibited(form::DISJUNCTIVE, &[7]), ["deny 2 5", "deny 2 5", "grant 1"]);
    assert_eq!(prohibited(form::CONJUNCTIVE, &[])[..2], ["deny 2 5", "grant 1"]);
}

#[test]
fn k10() {
    let house = house();
    assert_eq!(ask(&house, 1, operation::READ, 2), "refusal 5");
    assert_eq!(ask(&house, 3, operation::READ, 9), "refusal 4");
}

#[test]
fn k11_and_k12() {
    assert_eq!(house().assign(7, 7), Err(Refusal::Cycle));
    assert_eq!(house().assign(7, 9), Err(Refusal::NotAllowed));
    assert_eq!(house().assign(9, 7), Err(Refusal::Already));
    assert_eq!(house().deassign(9, 7), Err(Refusal::OnlyOne));
    assert_eq!(house().delete_element(7), Err(Refusal::InUse));
    assert_eq!(house().deassign(10, 7), Ok(()));
}

/// Every case of the second program's table is found so by it, too.
#[test]
fn the_second_program_agrees() {
    for case in second::house::cases() {
        assert_eq!(case.found, case.expected, "{}: {}", case.case, case.done);
    }
}

/// Deassign leaves the index's bits where a second chain remains: 10 is in 8 by itself and through 7.
#[test]
fn a_second_chain_remains() {
    let (mut table, mut machine) = (house(), small_house());
    let mut seen = Seen::default();
    for command in [
        Command::Assign { child: 7, container: 8 },
        Command::Deassign { child: 10, container: 8 },
        Command::Deassign { child: 7, container: 2 },
        Command::DeleteElement { id: 511 },
        Command::CreateElement { id: 511, kind: kind::OBJECT_ATTRIBUTE, container: 7 },
    ] {
        step(&mut table, &mut machine, &command, &mut seen);
        assert_eq!(table.contains(10, 8), Ok(true));
        assert_eq!(table.contains(10, 1), Ok(true));
    }
    assert_eq!(table.contains(10, 2), Ok(false));
    assert_eq!(table.contains(511, 1), Ok(true));
}

/// Refusals have the numbers and texts of the rules.
#[test]
fn refusals() {
    for (number, refusal) in (1..).zip(Refusal::ALL) {
        assert_eq!(refusal.number(), number);
        assert_eq!(Refusal::try_from(number), Ok(refusal));
        assert_eq!(refusal.to_string(), format!("refusal {number}: {}", refusal.text()));
    }
    for number in [0, 15, 16, 17, u32::MAX] {
        assert_eq!(Refusal::try_from(number), Err(NoRefusal(number)));
    }
}
