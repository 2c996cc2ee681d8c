//! The small house, the examples of 01, and its list of errors that look right.

use second::house::{cases, small_house};
use second::{decide, decide_indexed, explain, load, save, Answer, Machine, Policy};

/// The answer of the plain and the indexed decision, which are the same.
fn ask(machine: &Machine, process: u32, operation: u32, object: u32) -> Answer {
    let plain = decide(&machine.policy, process, operation, [object, 0, 0]);
    let indexed = decide_indexed(&machine.policy, &machine.index, process, operation, [object, 0, 0]);
    assert_eq!(plain, indexed);
    plain
}

fn cause_and_number(machine: &Machine, process: u32, operation: u32, object: u32) -> (u32, u32) {
    let explanation = explain(&machine.policy, process, operation, [object, 0, 0]);
    assert_eq!(explanation.answer, Answer::Deny);
    (explanation.rows[0].cause, explanation.rows[0].number)
}

#[test]
fn k1_to_k6() {
    let house = small_house();
    assert_eq!(ask(&house, 1, 1, 9), Answer::Grant(1));
    assert_eq!(ask(&house, 1, 1, 10), Answer::Grant(1));
    assert_eq!(ask(&house, 2, 1, 10), Answer::Deny);
    assert_eq!(cause_and_number(&house, 2, 1, 10), (1, 1));
    assert_eq!(ask(&house, 1, 2, 10), Answer::Deny);
    assert_eq!(cause_and_number(&house, 1, 2, 10), (1, 1));
    assert_eq!(ask(&house, 1, 1, 511), Answer::Grant(1));
    assert_eq!(ask(&house, 1, 3, 9), Answer::Grant(2));
}

#[test]
fn k7_to_k9() {
    let with = |form, inclusions: &[u32]| {
        let mut house = small_house();
        assert_eq!(house.create_prohibition(1, 5, form, 0b1, inclusions, &[8]), Ok(()));
        house
    };
    let k7 = with(1, &[7]);
    assert_eq!(ask(&k7, 1, 1, 9), Answer::Deny);
    assert_eq!(cause_and_number(&k7, 1, 1, 9), (2, 5));
    assert_eq!(ask(&k7, 1, 1, 10), Answer::Grant(1));
    let k8 = with(0, &[7]);
    assert_eq!(ask(&k8, 1, 1, 9), Answer::Deny);
    assert_eq!(ask(&k8, 1, 1, 10), Answer::Deny);
    assert_eq!(ask(&k8, 1, 1, 511), Answer::Grant(1));
    let k9 = with(1, &[]);
    assert_eq!(ask(&k9, 1, 1, 9), Answer::Deny);
    assert_eq!(ask(&k9, 1, 1, 10), Answer::Grant(1));
}

#[test]
fn k10_to_k12() {
    let house = small_house();
    assert_eq!(ask(&house, 1, 1, 2), Answer::Refused(5));
    assert_eq!(ask(&house, 3, 1, 9), Answer::Refused(4));
    for (child, container, number) in [(7, 7, 7), (7, 9, 5), (9, 7, 3)] {
        let mut house = small_house();
        assert_eq!(house.assign(child, container), Err(number));
        assert_eq!(house, small_house());
    }
    let mut house = small_house();
    assert_eq!(house.deassign(9, 7), Err(8));
    assert_eq!(house.delete_element(7), Err(9));
    assert_eq!(house, small_house());
    assert_eq!(house.deassign(10, 7), Ok(()));
    assert!(!house.policy.assignments.contains(&(10, 7)));
}

#[test]
fn the_printed_table_agrees() {
    let table = cases();
    for case in &table {
        assert_eq!(case.found, case.expected, "{}: {}", case.case, case.done);
    }
    for number in 1..=12 {
        assert!(table.iter().any(|case| case.case == format!("K{number}")));
    }
}

#[test]
fn example_images() {
    let empty = [0x10, 0, 0, 0, 0, 0, 0];
    assert_eq!(save(&Policy::new()), empty);
    assert_eq!(load(&empty), Ok(Policy::new()));
    let mut machine = Machine::new();
    machine.create_class(1).unwrap();
    let class_1 = [0x10, 0x08, 0, 0, 0, 0, 0, 0x34];
    assert_eq!(save(&machine.policy), class_1);
    assert_eq!(load(&class_1), Ok(machine.policy));
}

/// The house's image put together from printed bits.
#[test]
fn house_image_from_bits() {
    let mut house = small_house();
    house.create_prohibition(3, 4, 1, 0x8000_0001, &[7, 511], &[8]).unwrap();
    let mut bits = String::from("0001");
    bits += &format!("{:09b}{:011b}{:010b}{:08b}{:08b}", 11, 11, 2, 1, 2);
    for (id, kind) in
        [(1, 5), (2, 5), (3, 2), (4, 2), (5, 1), (6, 1), (7, 4), (8, 4), (9, 3), (10, 3), (511, 3)]
    {
        bits += &format!("{id:09b}{kind:03b}");
    }
    for (child, container) in
        [(3, 2), (4, 1), (5, 3), (5, 4), (6, 3), (7, 2), (8, 1), (9, 7), (10, 7), (10, 8), (511, 8)]
    {
        bits += &format!("{child:09b}{container:09b}");
    }
    bits += &format!("{:09b}{:09b}{:032b}", 3, 7, 3);
    bits += &format!("{:09b}{:09b}{:032b}", 4, 8, 1);
    bits += &format!("{:02b}{:09b}1{:032b}{:03b}{:03b}", 3, 4, 0x8000_0001u32, 2, 1);
    bits += &format!("{:09b}{:09b}{:09b}", 7, 511, 8);
    bits += &format!("{:08b}{:09b}{:08b}{:09b}", 1, 5, 2, 6);
    while bits.len() % 8 != 0 {
        bits.push('0');
    }
    let bytes: Vec<u8> =
        bits.as_bytes().chunks(8).map(|byte| byte.iter().fold(0, |n, bit| n << 1 | (bit - b'0'))).collect();
    assert_eq!(save(&house.policy), bytes);
    assert_eq!(load(&bytes).as_ref(), Ok(&house.policy));
}

/// "Mixing alternatives: copy with {0} on the object and {1} on the attribute is a deny."
#[test]
fn alternatives_are_not_mixed() {
    let copy_with = |on_object: u32, on_attribute: u32| {
        let mut house = Machine::new();
        house.create_class(1).unwrap();
        for (id, kind, container) in [(2, 2, 1), (3, 1, 2), (4, 4, 1), (5, 4, 1), (6, 3, 4)] {
            house.create_element(id, kind, container).unwrap();
        }
        house.create_association(2, 1 << on_object, 4).unwrap();
        house.create_association(2, 1 << on_attribute, 5).unwrap();
        house.start_process(1, 3).unwrap();
        decide(&house.policy, 1, 6, [6, 5, 0])
    };
    assert_eq!(copy_with(0, 1), Answer::Deny);
    assert_eq!(copy_with(3, 6), Answer::Deny);
    assert_eq!(copy_with(0, 6), Answer::Grant(1));
    assert_eq!(copy_with(3, 1), Answer::Grant(2));
}

/// "'For each class' over no class: everything is granted." A table with such an element denies it.
#[test]
fn an_element_in_no_class_is_denied() {
    let mut house = small_house();
    house.policy.assignments.remove(&(9, 7));
    assert_eq!(decide(&house.policy, 1, 1, [9, 0, 0]), Answer::Deny);
    assert_eq!(cause_and_number(&house, 1, 1, 9), (1, 0));
    assert_eq!(explain(&house.policy, 1, 3, [9, 0, 0]).rows.len(), 2);
}

/// "Clearing index bits on deassign although a second chain remains."
#[test]
fn a_second_chain_remains_in_the_index() {
    let mut house = small_house();
    house.create_element(20, 4, 7).unwrap();
    house.assign(9, 20).unwrap();
    house.deassign(9, 7).unwrap();
    assert_eq!(second::is_index(&house.policy, &house.index), Ok(true));
    assert!(second::index::bit(&house.index, 9, 7));
    assert_eq!(ask(&house, 1, 1, 9), Answer::Grant(1));
}

/// "Walking upward to a fixed depth, or stopping at id 255": a chain over every id there is.
#[test]
fn the_longest_chain() {
    for downward in [false, true] {
        let name = |place: u32| if downward { 512 - place } else { place };
        let mut policy = Policy::new();
        policy.elements.insert(name(1) as u16, 5);
        for place in 2..=511 {
            policy.elements.insert(name(place) as u16, if place == 511 { 3 } else { 4 });
            policy.assignments.insert((name(place) as u16, name(place - 1) as u16));
        }
        assert_eq!(second::contains(&policy, name(511), name(1)), Ok(true));
        assert_eq!(second::contains(&policy, name(1), name(511)), Ok(false));
        assert_eq!(second::contains(&policy, name(256), name(255)), Ok(true));
        let index = second::build_index(&policy);
        let bits: u32 = index.iter().map(|byte| byte.count_ones()).sum();
        assert_eq!(bits, 511 * 512 / 2);
        assert!(load(&save(&policy)).is_ok());
    }
}
