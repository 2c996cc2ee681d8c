//! Requests and explanations by hand: refusals, rows, causes, ranges, indexes that are no table's.

use second::house::small_house;
use second::index::set_bit;
use second::{decide, decide_indexed, explain, explain_into, Answer, Machine, Row};

/// The refusal of all three calls.
fn refusal(machine: &Machine, process: u32, operation: u32, arguments: [u32; 3]) -> u32 {
    let plain = decide(&machine.policy, process, operation, arguments);
    assert_eq!(decide_indexed(&machine.policy, &machine.index, process, operation, arguments), plain);
    let explanation = explain(&machine.policy, process, operation, arguments);
    assert_eq!(explanation.answer, plain);
    assert!(explanation.rows.is_empty());
    let mut rows: [Row; 0] = [];
    assert_eq!(explain_into(&machine.policy, process, operation, arguments, &mut rows), (plain, 0));
    match plain {
        Answer::Refused(number) => number,
        other => panic!("{other:?}"),
    }
}

#[test]
fn two_four_five() {
    let house = small_house();
    for process in [0, 256, 257, u32::MAX] {
        assert_eq!(refusal(&house, process, 1, [9, 0, 0]), 2);
    }
    for operation in [0, 10, 15, 16, 257, u32::MAX] {
        assert_eq!(refusal(&house, 1, operation, [9, 0, 0]), 2);
    }
    // Used arguments in range, unused ones 0.
    for arguments in [[0, 0, 0], [512, 0, 0], [9, 1, 0], [9, 0, 1], [65_545, 0, 0]] {
        assert_eq!(refusal(&house, 1, 1, arguments), 2);
    }
    for arguments in [[9, 0, 8], [9, 7, 0], [9, 7, 512], [200, 200, 512]] {
        assert_eq!(refusal(&house, 1, 5, arguments), 2);
    }
    for operation in 6..=9 {
        assert_eq!(refusal(&house, 1, operation, [9, 7, 8]), 2);
        assert_eq!(refusal(&house, 1, operation, [9, 0, 0]), 2);
    }
    // 2 before 4 before 5.
    assert_eq!(refusal(&house, 3, 1, [512, 0, 0]), 2);
    assert_eq!(refusal(&house, 3, 1, [2, 0, 0]), 4);
    assert_eq!(refusal(&house, 1, 1, [200, 0, 0]), 4);
    assert_eq!(refusal(&house, 1, 6, [7, 200, 0]), 4);
    assert_eq!(refusal(&house, 1, 1, [2, 0, 0]), 5);
    // An index of another length is 2 before an absent process.
    assert_eq!(decide_indexed(&house.policy, &house.index[1..], 3, 1, [9, 0, 0]), Answer::Refused(2));
    assert_eq!(decide_indexed(&house.policy, &[], 1, 1, [9, 0, 0]), Answer::Refused(2));
    assert_eq!(decide_indexed(&house.policy, &[0; 32_769], 1, 1, [9, 0, 0]), Answer::Refused(2));
}

/// Every kind at every argument of every operation.
#[test]
fn kinds_of_the_operation_table() {
    let house = small_house();
    // One element of each kind 1 to 5.
    let of_kind = [5, 3, 9, 7, 1];
    let object: &[usize] = &[3];
    let object_attribute: &[usize] = &[4];
    let non_class: &[usize] = &[1, 2, 3, 4];
    let table: [&[&[usize]]; 9] = [
        &[object],
        &[object],
        &[object],
        &[object],
        &[object, object_attribute, object_attribute],
        &[object, object_attribute],
        &[non_class, non_class],
        &[non_class, non_class],
        &[&[2], &[2, 3, 4]],
    ];
    for (operation, kinds) in (1..).zip(table) {
        let right = |place: usize| kinds.get(place).map_or(0, |allowed| of_kind[allowed[0] - 1]);
        for place in 0..kinds.len() {
            for kind in 1..=5 {
                let mut arguments = [right(0), right(1), right(2)];
                arguments[place] = of_kind[kind - 1];
                let answer = decide(&house.policy, 1, operation, arguments);
                assert_eq!(
                    answer == Answer::Refused(5),
                    !kinds[place].contains(&kind),
                    "{operation} {arguments:?}"
                );
                assert!(matches!(answer, Answer::Refused(5) | Answer::Deny | Answer::Grant(_)));
            }
        }
    }
    // A request looks no further than the kinds: no pairing, no cycle, no standing assignment.
    for arguments in [[5, 9, 0], [9, 9, 0], [9, 7, 0], [7, 9, 0]] {
        assert_eq!(decide(&house.policy, 1, 7, arguments), Answer::Deny);
        assert_eq!(decide(&house.policy, 1, 8, arguments), Answer::Deny);
    }
}

fn grant(argument: u32, right: u32, class: u32, association: (u32, u32, u32)) -> Row {
    let (attribute, target, rights) = association;
    Row { alternative: 1, argument, right, cause: 0, number: class, attribute, target, rights }
}

fn deny(alternative: u32, argument: u32, right: u32, cause: u32, number: u32) -> Row {
    Row { alternative, argument, right, cause, number, ..Row::default() }
}

#[test]
fn rows_of_the_house() {
    let house = small_house().policy;
    let rows = |process, operation, arguments| explain(&house, process, operation, arguments).rows;
    assert_eq!(rows(1, 1, [9, 0, 0]), [grant(1, 0, 2, (3, 7, 3))]);
    assert_eq!(rows(1, 1, [10, 0, 0]), [grant(1, 0, 1, (4, 8, 1)), grant(1, 0, 2, (3, 7, 3))]);
    assert_eq!(rows(1, 3, [9, 0, 0]), [Row { alternative: 2, ..grant(1, 0, 2, (3, 7, 3)) }]);
    assert_eq!(rows(2, 1, [10, 0, 0]), [deny(1, 1, 0, 1, 1)]);
    assert_eq!(rows(2, 3, [10, 0, 0]), [deny(1, 1, 2, 1, 1), deny(2, 1, 0, 1, 1)]);
    assert_eq!(rows(1, 4, [9, 0, 0]), [deny(1, 1, 3, 1, 2)]);
    assert_eq!(rows(1, 6, [9, 8, 0]), [deny(1, 2, 6, 1, 1), deny(2, 1, 3, 1, 2)]);
    assert_eq!(rows(1, 5, [9, 7, 8]), [deny(1, 1, 4, 1, 2), deny(2, 2, 5, 1, 2)]);
}

/// One class, user attributes 2 and 3 (3 in 2), user 4 in 3, object attribute 5, object 6 in 5.
fn flat() -> Machine {
    let mut machine = Machine::new();
    machine.create_class(1).unwrap();
    for (id, kind, container) in [(2, 2, 1), (3, 2, 2), (4, 1, 3), (5, 4, 1), (6, 3, 5)] {
        machine.create_element(id, kind, container).unwrap();
    }
    machine.start_process(9, 4).unwrap();
    machine
}

/// "The lowest authorizing association by user attribute, target, then rights as a number."
#[test]
fn the_lowest_association() {
    let mut machine = flat();
    let lowest = |machine: &Machine| {
        let rows = explain(&machine.policy, 9, 1, [6, 0, 0]).rows;
        (rows[0].attribute, rows[0].target, rows[0].rights)
    };
    let falling = [
        (3, 6, 1),
        (3, 5, 0x8000_0001),
        (3, 5, 0x7fff_ffff),
        (3, 5, 1),
        (2, 6, 0xffff_ffff),
        (2, 6, 3),
        (2, 5, 0xffff_ffff),
    ];
    for (attribute, target, rights) in falling {
        machine.create_association(attribute, rights, target).unwrap();
        assert_eq!(lowest(&machine), (attribute, target, rights));
    }
    // Lower ones without the right, or over something else, do not count.
    machine.create_association(2, 2, 5).unwrap();
    machine.create_association(2, 1, 2).unwrap();
    assert_eq!(lowest(&machine), (2, 5, 0xffff_ffff));
}

/// "The causes are tried from 1 up", and the lowest subject is named.
#[test]
fn causes() {
    let mut machine = flat();
    let cause = |machine: &Machine| {
        let row = explain(&machine.policy, 9, 1, [6, 0, 0]).rows[0];
        (row.cause, row.number)
    };
    machine.create_prohibition(3, 3, 0, 1, &[5], &[]).unwrap();
    assert_eq!(cause(&machine), (1, 1));
    machine.create_association(2, 1, 5).unwrap();
    assert_eq!(cause(&machine), (4, 3));
    machine.create_prohibition(3, 2, 1, 1, &[6], &[3]).unwrap();
    assert_eq!(cause(&machine), (4, 2));
    machine.create_prohibition(2, 9, 0, 1, &[5], &[]).unwrap();
    assert_eq!(cause(&machine), (3, 9));
    machine.create_prohibition(1, 4, 0, 1, &[], &[2]).unwrap();
    assert_eq!(cause(&machine), (2, 4));
    // Other rights, other subjects and other ranges do not matter.
    let mut machine = flat();
    machine.create_association(2, 1, 5).unwrap();
    machine.create_element(7, 1, 2).unwrap();
    machine.start_process(8, 7).unwrap();
    machine.create_prohibition(1, 7, 0, 1, &[5], &[]).unwrap();
    machine.create_prohibition(2, 8, 0, 1, &[5], &[]).unwrap();
    machine.create_prohibition(1, 4, 0, !1, &[5], &[]).unwrap();
    machine.create_prohibition(1, 4, 0, 1, &[3], &[5, 6]).unwrap();
    machine.create_prohibition(1, 4, 1, 1, &[5], &[6]).unwrap();
    assert_eq!(decide(&machine.policy, 9, 1, [6, 0, 0]), Answer::Grant(1));
    assert_eq!(decide(&machine.policy, 8, 1, [6, 0, 0]), Answer::Deny);
}

/// An argument 1 that is restricted fails before an argument 2 that lacks the right.
#[test]
fn the_first_failing_argument_and_right() {
    let mut machine = flat();
    machine.create_association(3, 0b1001, 5).unwrap();
    let rows =
        |machine: &Machine, operation, arguments| explain(&machine.policy, 9, operation, arguments).rows;
    assert_eq!(rows(&machine, 6, [6, 5, 0]), [deny(1, 2, 6, 1, 1), deny(2, 2, 1, 1, 1)]);
    assert_eq!(rows(&machine, 4, [6, 0, 0]), [grant(1, 0, 1, (3, 5, 9)), grant(1, 3, 1, (3, 5, 9))]);
    machine.create_prohibition(1, 4, 1, 0b1000, &[6], &[]).unwrap();
    assert_eq!(rows(&machine, 6, [6, 5, 0]), [deny(1, 2, 6, 1, 1), deny(2, 1, 3, 2, 4)]);
    assert_eq!(rows(&machine, 4, [6, 0, 0]), [deny(1, 1, 3, 2, 4)]);
    machine.create_prohibition(2, 9, 1, 0b1, &[6], &[]).unwrap();
    assert_eq!(rows(&machine, 6, [6, 5, 0]), [deny(1, 1, 0, 3, 9), deny(2, 1, 3, 2, 4)]);
    assert_eq!(rows(&machine, 4, [6, 0, 0]), [deny(1, 1, 0, 3, 9)]);
}

/// A list that is empty: it adds nothing to a disjunctive range and limits no conjunctive one.
#[test]
fn ranges_with_an_empty_list() {
    let restricted = |form, inclusions: &[u32], exclusions: &[u32]| {
        let mut machine = flat();
        machine.create_association(2, 1, 5).unwrap();
        machine.create_prohibition(1, 4, form, 1, inclusions, exclusions).unwrap();
        decide(&machine.policy, 9, 1, [6, 0, 0]) == Answer::Deny
    };
    for form in [0, 1] {
        assert!(restricted(form, &[5], &[]));
        assert!(restricted(form, &[6], &[]));
        assert!(!restricted(form, &[3], &[]));
        assert!(restricted(form, &[], &[3]));
        assert!(!restricted(form, &[], &[5]));
        assert!(!restricted(form, &[], &[6]));
    }
    assert!(restricted(0, &[3, 5], &[]));
    assert!(!restricted(1, &[3, 5], &[]));
    assert!(restricted(0, &[], &[3, 5]));
    assert!(!restricted(1, &[], &[3, 5]));
    assert!(restricted(0, &[3], &[2]));
    assert!(!restricted(1, &[3], &[2]));
    assert!(restricted(0, &[5], &[5]));
    assert!(!restricted(1, &[5], &[5]));
}

/// Operation 7 over a user: held through an association whose target is a user attribute.
#[test]
fn users_are_elements_too() {
    let mut machine = flat();
    machine.create_association(3, 1 << 7, 2).unwrap();
    machine.create_association(3, 1 << 8, 5).unwrap();
    assert_eq!(decide(&machine.policy, 9, 7, [4, 6, 0]), Answer::Grant(1));
    assert_eq!(decide(&machine.policy, 9, 7, [6, 4, 0]), Answer::Deny);
    machine.create_association(2, 1 << 11, 2).unwrap();
    machine.create_association(2, 1 << 12, 6).unwrap();
    assert_eq!(decide(&machine.policy, 9, 9, [3, 6, 0]), Answer::Grant(1));
    assert_eq!(decide(&machine.policy, 9, 9, [3, 5, 0]), Answer::Deny);
}

/// Refusal 10 for rows: on the true count, after 2, 4 and 5; nothing is written.
#[test]
fn lent_rows() {
    let house = small_house().policy;
    let mark = deny(7, 7, 7, 7, 7);
    let lend = |count: usize, process, operation, arguments| {
        let mut rows = vec![mark; count];
        let answer = explain_into(&house, process, operation, arguments, &mut rows);
        (answer, rows)
    };
    let cases = [
        (1, 1, [10, 0, 0], Answer::Grant(1), 2),
        (1, 1, [9, 0, 0], Answer::Grant(1), 1),
        (1, 3, [9, 0, 0], Answer::Grant(2), 1),
        (2, 1, [10, 0, 0], Answer::Deny, 1),
        (2, 3, [10, 0, 0], Answer::Deny, 2),
    ];
    for (process, operation, arguments, answer, needed) in cases {
        for count in 0..needed {
            let (found, rows) = lend(count, process, operation, arguments);
            assert_eq!(found, (Answer::Refused(10), 0));
            assert_eq!(rows, vec![mark; count]);
        }
        for count in needed..needed + 3 {
            let (found, rows) = lend(count, process, operation, arguments);
            assert_eq!(found, (answer, needed));
            assert_eq!(rows[..needed], explain(&house, process, operation, arguments).rows);
            assert_eq!(rows[needed..], vec![mark; count - needed]);
        }
    }
    assert_eq!(lend(0, 3, 1, [9, 0, 0]).0, (Answer::Refused(4), 0));
    assert_eq!(lend(0, 1, 1, [2, 0, 0]).0, (Answer::Refused(5), 0));
    assert_eq!(lend(5, 1, 1, [2, 0, 0]).1, vec![mark; 5]);
}

/// The indexed decision reads every containment from the bits: one bit changed changes the answer.
#[test]
fn bits_alone() {
    let mut machine = flat();
    machine.create_association(3, 1, 6).unwrap();
    let ask = |index: &[u8]| decide_indexed(&machine.policy, index, 9, 1, [6, 0, 0]);
    assert_eq!(ask(&machine.index), Answer::Grant(1));
    // Not user in attribute; not target (which is e) in e; not e, and so not the target, in a class.
    for (x, y) in [(4, 3), (6, 6), (6, 1)] {
        let mut index = machine.index.clone();
        set_bit(&mut index, x, y, false);
        assert_eq!(ask(&index), Answer::Deny, "without ({x}, {y})");
    }
    // The four bits that the rule reads are enough.
    let mut index = vec![0; 32_768];
    assert_eq!(ask(&index), Answer::Deny);
    for (x, y) in [(4, 3), (6, 6), (6, 1)] {
        set_bit(&mut index, x, y, true);
    }
    assert_eq!(ask(&index), Answer::Grant(1));
    // Bits of absent elements are not read, and 255 everywhere is one class of one target.
    for id in (10..512).chain([0]) {
        set_bit(&mut index, 6, id, true);
    }
    assert_eq!(ask(&index), Answer::Grant(1));
    assert_eq!(ask(&vec![0xff; 32_768]), Answer::Grant(1));
    // Kinds and existence come from the policy.
    assert_eq!(decide_indexed(&machine.policy, &index, 9, 1, [5, 0, 0]), Answer::Refused(5));
    assert_eq!(decide_indexed(&machine.policy, &index, 9, 1, [7, 0, 0]), Answer::Refused(4));
    // A prohibition's range and subject are read from the bits as well.
    machine.create_prohibition(3, 2, 1, 1, &[5], &[]).unwrap();
    let ask = |index: &[u8]| decide_indexed(&machine.policy, index, 9, 1, [6, 0, 0]);
    assert_eq!(ask(&index), Answer::Grant(1));
    set_bit(&mut index, 4, 2, true);
    assert_eq!(ask(&index), Answer::Grant(1));
    set_bit(&mut index, 6, 5, true);
    assert_eq!(ask(&index), Answer::Deny);
    set_bit(&mut index, 4, 2, false);
    assert_eq!(ask(&index), Answer::Grant(1));
}
