//! The small house and its cases K1 to K12 (01, "The small house, judged by hand").

use crate::command::Machine;
use crate::decide::{decide, Answer};
use crate::explain::explain;
use crate::image::WrittenProhibition;
use crate::policy::{Policy, OBJECT, OBJECT_ATTRIBUTE, USER, USER_ATTRIBUTE};

/// The small house, made by commands.
pub fn small_house() -> Machine {
    let mut house = Machine::new();
    build(&mut house).expect("the small house breaks no rule");
    house
}

fn build(house: &mut Machine) -> Result<(), u32> {
    house.create_class(1)?;
    house.create_class(2)?;
    house.create_element(3, USER_ATTRIBUTE.into(), 2)?;
    house.create_element(4, USER_ATTRIBUTE.into(), 1)?;
    house.create_element(5, USER.into(), 3)?;
    house.assign(5, 4)?;
    house.create_element(6, USER.into(), 3)?;
    house.create_element(7, OBJECT_ATTRIBUTE.into(), 2)?;
    house.create_element(8, OBJECT_ATTRIBUTE.into(), 1)?;
    house.create_element(9, OBJECT.into(), 7)?;
    house.create_element(10, OBJECT.into(), 7)?;
    house.assign(10, 8)?;
    house.create_element(511, OBJECT.into(), 8)?;
    house.create_association(3, 0b11, 7)?;
    house.create_association(4, 0b01, 8)?;
    house.start_process(1, 5)?;
    house.start_process(2, 6)
}

/// The house with prohibitions of every sort and of both forms, and lists of four.
pub fn furnished() -> Policy {
    let mut house = small_house();
    let given = [
        house.create_prohibition(1, 5, 1, 0b1, &[7], &[8]),
        house.create_prohibition(1, 5, 1, 0b1, &[], &[3]),
        house.create_prohibition(2, 1, 0, 0x8000_0000, &[7, 8], &[]),
        house.create_prohibition(3, 4, 0, 0b10, &[3, 7, 8, 511], &[3, 9]),
    ];
    assert_eq!(given, [Ok(()); 4]);
    house.policy
}

/// Prohibitions of one subject in the image's order: their counts stand before their ids.
pub fn rising_prohibitions() -> [WrittenProhibition; 8] {
    let list = |inclusions: &[u32], exclusions: &[u32]| WrittenProhibition {
        sort: 1,
        subject: 5,
        form: 0,
        rights: 1,
        inclusions: inclusions.to_vec(),
        exclusions: exclusions.to_vec(),
    };
    [
        list(&[], &[8]),
        list(&[], &[3, 4]),
        list(&[3], &[]),
        list(&[8], &[]),
        list(&[3], &[9]),
        list(&[4], &[3]),
        list(&[3, 4], &[]),
        list(&[3, 7], &[]),
    ]
}

/// One line of the table: the case, what is done, what 01 says, what was found.
pub struct Case {
    pub case: &'static str,
    pub done: &'static str,
    pub expected: &'static str,
    pub found: String,
}

/// K1 to K12, each from the house as it starts.
pub fn cases() -> Vec<Case> {
    let request = |machine: &Machine, process, operation, object| {
        let arguments = [object, 0, 0];
        match decide(&machine.policy, process, operation, arguments) {
            Answer::Grant(alternative) => format!("grant {alternative}"),
            Answer::Refused(number) => format!("refusal {number}"),
            Answer::Deny => {
                let row = explain(&machine.policy, process, operation, arguments).rows[0];
                format!("deny, cause {}, number {}", row.cause, row.number)
            }
        }
    };
    let in_house = |process, operation, object| request(&small_house(), process, operation, object);
    let prohibited = |form, inclusions: &[u32], object| {
        let mut house = small_house();
        match house.create_prohibition(1, 5, form, 0b1, inclusions, &[8]) {
            Ok(()) => request(&house, 1, 1, object),
            Err(number) => format!("prohibition refused {number}"),
        }
    };
    let commanded = |command: &dyn Fn(&mut Machine) -> Result<(), u32>| match command(&mut small_house()) {
        Ok(()) => "accepted".to_string(),
        Err(number) => format!("refusal {number}"),
    };
    let table = [
        ("K1", "1 reads 9", "grant 1", in_house(1, 1, 9)),
        ("K2", "1 reads 10", "grant 1", in_house(1, 1, 10)),
        ("K3", "2 reads 10", "deny, cause 1, number 1", in_house(2, 1, 10)),
        ("K4", "1 writes 10", "deny, cause 1, number 1", in_house(1, 2, 10)),
        ("K5", "1 reads 511", "grant 1", in_house(1, 1, 511)),
        ("K6", "1 finds 9", "grant 2", in_house(1, 3, 9)),
        (
            "K7",
            "user 5 {0} conjunctive in [7] out [8]: 1 reads 9",
            "deny, cause 2, number 5",
            prohibited(1, &[7], 9),
        ),
        ("K7", "user 5 {0} conjunctive in [7] out [8]: 1 reads 10", "grant 1", prohibited(1, &[7], 10)),
        (
            "K8",
            "user 5 {0} disjunctive in [7] out [8]: 1 reads 9",
            "deny, cause 2, number 5",
            prohibited(0, &[7], 9),
        ),
        (
            "K8",
            "user 5 {0} disjunctive in [7] out [8]: 1 reads 10",
            "deny, cause 2, number 5",
            prohibited(0, &[7], 10),
        ),
        ("K8", "user 5 {0} disjunctive in [7] out [8]: 1 reads 511", "grant 1", prohibited(0, &[7], 511)),
        (
            "K9",
            "user 5 {0} conjunctive in [] out [8]: 1 reads 9",
            "deny, cause 2, number 5",
            prohibited(1, &[], 9),
        ),
        ("K9", "user 5 {0} conjunctive in [] out [8]: 1 reads 10", "grant 1", prohibited(1, &[], 10)),
        ("K10", "1 reads element 2", "refusal 5", in_house(1, 1, 2)),
        ("K10", "process 3 reads 9", "refusal 4", in_house(3, 1, 9)),
        ("K11", "assign 7 to 7", "refusal 7", commanded(&|house| house.assign(7, 7))),
        ("K11", "assign 7 to 9", "refusal 5", commanded(&|house| house.assign(7, 9))),
        ("K11", "assign 9 to 7", "refusal 3", commanded(&|house| house.assign(9, 7))),
        ("K12", "deassign 9 from 7", "refusal 8", commanded(&|house| house.deassign(9, 7))),
        ("K12", "delete 7", "refusal 9", commanded(&|house| house.delete_element(7))),
        ("K12", "deassign 10 from 7", "accepted", commanded(&|house| house.deassign(10, 7))),
    ];
    table.into_iter().map(|(case, done, expected, found)| Case { case, done, expected, found }).collect()
}
