//! The refusal lines of each command by hand: each line alone, and the lowest of several.

use second::house::small_house;
use second::{build_index_into, contains, is_index, Command, Machine};

/// The house with a standing prohibition of each sort; element 1 is a class, 3 and 4 user
/// attributes, 5 and 6 users, 7 and 8 object attributes, 9, 10 and 511 objects.
fn furnished() -> Machine {
    let mut house = small_house();
    house.create_prohibition(1, 6, 1, 0b1, &[7], &[8]).unwrap();
    house.create_prohibition(2, 2, 1, 0b1, &[9], &[]).unwrap();
    house.create_prohibition(3, 4, 0, 0b1, &[], &[511]).unwrap();
    house
}

/// Refused with the number, and nothing written.
fn refused(number: u32, command: impl Fn(&mut Machine) -> Result<(), u32>) {
    let mut house = furnished();
    assert_eq!(command(&mut house), Err(number));
    assert!(house == furnished(), "a refused command wrote something");
}

/// Accepted; the index is the policy's afterwards.
fn accepted(command: impl Fn(&mut Machine) -> Result<(), u32>) -> Machine {
    let mut house = furnished();
    assert_eq!(command(&mut house), Ok(()));
    assert_eq!(is_index(&house.policy, &house.index), Ok(true));
    assert!(house.policy != furnished().policy);
    house
}

#[test]
fn create_class() {
    for id in [0, 512, 65_537, u32::MAX] {
        refused(2, |house| house.create_class(id));
    }
    refused(3, |house| house.create_class(1));
    refused(3, |house| house.create_class(511));
    accepted(|house| house.create_class(100));
}

#[test]
fn create_element() {
    for (id, kind, container) in
        [(0, 1, 3), (512, 1, 3), (100, 0, 3), (100, 6, 3), (100, 1, 0), (100, 1, 512)]
    {
        refused(2, |house| house.create_element(id, kind, container));
    }
    // 2 over all arguments before 3 and 4.
    refused(2, |house| house.create_element(9, 6, 200));
    refused(2, |house| house.create_element(9, 1, 512));
    // Kind 5 without a container is no class: container 0 is out of range.
    refused(2, |house| house.create_element(100, 5, 0));
    refused(3, |house| house.create_element(9, 3, 200));
    refused(3, |house| house.create_element(9, 5, 7));
    refused(3, |house| house.create_element(9, 3, 9));
    refused(4, |house| house.create_element(100, 3, 200));
    refused(4, |house| house.create_element(100, 5, 200));
    refused(4, |house| house.create_element(100, 4, 100));
    refused(5, |house| house.create_element(100, 5, 7));
    refused(5, |house| house.create_element(100, 5, 1));
    // Every kind into every kind of container.
    for (kind, allowed) in [(1, &[3][..]), (2, &[1, 3]), (3, &[1, 7]), (4, &[1, 7])] {
        for container in [1, 3, 5, 7, 9] {
            if allowed.contains(&container) {
                let house = accepted(|house| house.create_element(100, kind, container));
                assert!(house.policy.assignments.contains(&(100, container as u16)));
                assert_eq!(house.policy.kind(100), Some(kind as u8));
            } else {
                refused(5, |house| house.create_element(100, kind, container));
            }
        }
    }
}

#[test]
fn assign() {
    for (child, container) in [(0, 7), (9, 0), (512, 7), (9, 512), (200, 512)] {
        refused(2, |house| house.assign(child, container));
    }
    refused(3, |house| house.assign(9, 7));
    refused(4, |house| house.assign(200, 7));
    refused(4, |house| house.assign(9, 200));
    refused(4, |house| house.assign(200, 200));
    // 4 before 5: an absent child and a container of a wrong kind.
    refused(4, |house| house.assign(200, 9));
    for (child, container) in [(5, 1), (5, 7), (3, 7), (7, 3), (9, 3), (9, 10), (1, 2), (7, 9), (3, 5)] {
        refused(5, |house| house.assign(child, container));
    }
    // Child equals container: 5 where the pairing is not allowed, else 7.
    for same in [1, 5, 9] {
        refused(5, |house| house.assign(same, same));
    }
    refused(7, |house| house.assign(3, 3));
    refused(7, |house| house.assign(7, 7));
    let mut house = accepted(|house| house.assign(7, 8));
    assert_eq!(house.assign(8, 7), Err(7));
    house.create_element(20, 4, 7).unwrap();
    assert_eq!(house.assign(8, 20), Err(7));
    assert_eq!(house.assign(20, 8), Ok(()));
    accepted(|house| house.assign(9, 1));
    accepted(|house| house.assign(6, 4));
}

#[test]
fn deassign() {
    for (child, container) in [(0, 7), (9, 0), (512, 7), (9, 512)] {
        refused(2, |house| house.deassign(child, container));
    }
    for (child, container) in [(200, 7), (9, 200), (9, 8), (9, 2), (7, 9), (5, 7), (7, 7), (1, 2)] {
        refused(4, |house| house.deassign(child, container));
    }
    refused(8, |house| house.deassign(9, 7));
    refused(8, |house| house.deassign(3, 2));
    let mut house = accepted(|house| house.deassign(10, 7));
    assert_eq!(house.deassign(10, 7), Err(4));
    assert_eq!(house.deassign(10, 8), Err(8));
    accepted(|house| house.deassign(5, 3));
}

#[test]
fn delete_element() {
    refused(2, |house| house.delete_element(0));
    refused(2, |house| house.delete_element(512));
    refused(4, |house| house.delete_element(200));
    // Assigned to: 1, 2, 3, 4, 7, 8. Of a process: 5, 6. In a list of a prohibition: 9, 511.
    for id in [1, 2, 3, 4, 5, 6, 7, 8, 9, 511] {
        refused(9, |house| house.delete_element(id));
    }
    let mut house = accepted(|house| house.delete_element(10));
    assert!(house.policy.containers(10).next().is_none());
    assert_eq!(house.delete_element(10), Err(4));
    // A deleted id can be used again, for another kind too.
    assert_eq!(house.create_element(10, 1, 3), Ok(()));
    // Named as a prohibition's subject alone, as an association's end alone.
    let mut house = furnished();
    house.end_process(1).unwrap();
    assert_eq!(house.delete_element(5), Ok(()));
    house.delete_prohibition(2, 2, 1, 1, &[9], &[]).unwrap();
    house.end_process(2).unwrap();
    assert_eq!(house.delete_element(6), Err(9));
    house.delete_prohibition(1, 6, 1, 1, &[7], &[8]).unwrap();
    assert_eq!(house.delete_element(6), Ok(()));
    assert_eq!(house.delete_element(3), Err(9));
    house.delete_association(3, 3, 7).unwrap();
    assert_eq!(house.delete_element(3), Ok(()));
    assert_eq!(house.delete_element(9), Ok(()));
    house.create_association(4, 1, 10).unwrap();
    assert_eq!(house.delete_element(10), Err(9));
    // A prohibition of process 2 does not name element 2, and no class is special.
    let mut house = furnished();
    house.create_class(20).unwrap();
    assert_eq!(house.delete_element(20), Ok(()));
    house.create_element(20, 3, 7).unwrap();
    house.start_process(20, 5).unwrap();
    house.create_prohibition(2, 20, 0, 1, &[7], &[]).unwrap();
    assert_eq!(house.delete_element(20), Ok(()));
    assert_eq!(house.end_process(20), Err(9));
}

#[test]
fn create_association() {
    for (attribute, target) in [(0, 7), (512, 7), (3, 0), (3, 512), (200, 512)] {
        refused(2, |house| house.create_association(attribute, 0, target));
    }
    refused(3, |house| house.create_association(3, 0b11, 7));
    refused(4, |house| house.create_association(200, 1, 7));
    refused(4, |house| house.create_association(3, 1, 200));
    refused(4, |house| house.create_association(9, 0, 200));
    for (attribute, target) in [(5, 7), (7, 7), (9, 7), (1, 7), (3, 5), (3, 1)] {
        refused(5, |house| house.create_association(attribute, 1, target));
        refused(5, |house| house.create_association(attribute, 0, target));
    }
    refused(6, |house| house.create_association(3, 0, 7));
    for target in [3, 4, 7, 9, 511] {
        accepted(|house| house.create_association(3, u32::MAX, target));
    }
    // The same pair may stand with different sets.
    accepted(|house| house.create_association(3, 0b1, 7));
}

#[test]
fn delete_association() {
    for (attribute, target) in [(0, 7), (512, 7), (3, 0), (3, 512)] {
        refused(2, |house| house.delete_association(attribute, 3, target));
    }
    for (attribute, rights, target) in
        [(200, 3, 7), (3, 3, 200), (3, 1, 7), (3, 0, 7), (5, 3, 7), (3, 3, 1), (7, 3, 3), (4, 3, 8)]
    {
        refused(4, |house| house.delete_association(attribute, rights, target));
    }
    let mut house = accepted(|house| house.delete_association(3, 3, 7));
    assert_eq!(house.delete_association(3, 3, 7), Err(4));
    assert_eq!(house.create_association(3, 3, 7), Ok(()));
}

#[test]
fn create_prohibition_two_and_three() {
    for sort in [0, 4, 257, u32::MAX] {
        refused(2, |house| house.create_prohibition(sort, 5, 0, 1, &[7], &[]));
    }
    for form in [2, 256, u32::MAX] {
        refused(2, |house| house.create_prohibition(1, 5, form, 1, &[7], &[]));
    }
    for (sort, subject) in [(1, 0), (1, 512), (2, 0), (2, 256), (2, 511), (3, 0), (3, 512)] {
        refused(2, |house| house.create_prohibition(sort, subject, 0, 1, &[7], &[]));
    }
    for list in [&[0][..], &[512], &[7, 0], &[7, 8, 9, 10, 512], &[65_543]] {
        refused(2, |house| house.create_prohibition(1, 5, 0, 1, list, &[]));
        refused(2, |house| house.create_prohibition(1, 200, 0, 0, &[], list));
    }
    refused(3, |house| house.create_prohibition(1, 6, 1, 0b1, &[7], &[8]));
    refused(3, |house| house.create_prohibition(3, 4, 0, 0b1, &[], &[511]));
    // Any other field makes another prohibition.
    accepted(|house| house.create_prohibition(1, 5, 1, 0b1, &[7], &[8]));
    accepted(|house| house.create_prohibition(1, 6, 0, 0b1, &[7], &[8]));
    accepted(|house| house.create_prohibition(1, 6, 1, 0b11, &[7], &[8]));
    accepted(|house| house.create_prohibition(1, 6, 1, 0b1, &[8], &[7]));
    accepted(|house| house.create_prohibition(1, 6, 1, 0b1, &[7], &[]));
    accepted(|house| house.create_prohibition(2, 2, 1, 0b1, &[7], &[8]));
}

#[test]
fn create_prohibition_four_to_six() {
    refused(4, |house| house.create_prohibition(1, 200, 0, 1, &[7], &[]));
    refused(4, |house| house.create_prohibition(2, 200, 0, 1, &[7], &[]));
    refused(4, |house| house.create_prohibition(3, 200, 0, 1, &[7], &[]));
    refused(4, |house| house.create_prohibition(1, 5, 0, 1, &[7, 200], &[]));
    refused(4, |house| house.create_prohibition(1, 5, 0, 1, &[], &[200]));
    // 4 before 5 and 6, in the tail of a list that is too long as well.
    refused(4, |house| house.create_prohibition(1, 7, 0, 0, &[9, 200], &[1]));
    refused(4, |house| house.create_prohibition(1, 5, 0, 1, &[3, 4, 7, 8, 200], &[]));
    // Process 3 is absent though element 3 is there; element 2 is a class, process 2 is there.
    refused(4, |house| house.create_prohibition(2, 3, 0, 1, &[7], &[]));
    accepted(|house| house.create_prohibition(2, 2, 0, 1, &[7], &[]));
    for (sort, subject) in [(1, 3), (1, 9), (1, 1), (3, 5), (3, 7), (3, 1)] {
        refused(5, |house| house.create_prohibition(sort, subject, 0, 1, &[7], &[]));
    }
    refused(5, |house| house.create_prohibition(1, 5, 0, 1, &[1], &[]));
    refused(5, |house| house.create_prohibition(1, 5, 0, 1, &[5, 7], &[]));
    refused(5, |house| house.create_prohibition(1, 5, 0, 1, &[], &[2]));
    // 5 before 6.
    refused(5, |house| house.create_prohibition(1, 5, 0, 0, &[9, 5], &[]));
    refused(5, |house| house.create_prohibition(1, 5, 0, 1, &[3, 4, 7, 8, 9, 1], &[]));
    refused(5, |house| house.create_prohibition(1, 3, 0, 1, &[], &[]));
    refused(6, |house| house.create_prohibition(1, 5, 0, 0, &[7], &[]));
    refused(6, |house| house.create_prohibition(1, 5, 0, 1, &[], &[]));
    for list in [&[3, 4, 7, 8, 9][..], &[8, 7], &[7, 7], &[3, 7, 7, 8], &[3, 4, 7, 8, 9, 10, 511]] {
        refused(6, |house| house.create_prohibition(1, 5, 0, 1, list, &[]));
        refused(6, |house| house.create_prohibition(1, 5, 1, 1, &[7], list));
    }
    // Mixed attributes, and one that stands in both lists.
    accepted(|house| house.create_prohibition(1, 5, 0, 1, &[3, 4, 7, 511], &[3, 7, 9, 10]));
}

#[test]
fn delete_prohibition() {
    refused(2, |house| house.delete_prohibition(0, 6, 1, 1, &[7], &[8]));
    refused(2, |house| house.delete_prohibition(1, 6, 2, 1, &[7], &[8]));
    refused(2, |house| house.delete_prohibition(2, 256, 1, 1, &[7], &[8]));
    refused(2, |house| house.delete_prohibition(1, 6, 1, 1, &[7, 512], &[8]));
    refused(4, |house| house.delete_prohibition(1, 200, 1, 1, &[7], &[8]));
    refused(4, |house| house.delete_prohibition(1, 6, 1, 1, &[7], &[200]));
    refused(4, |house| house.delete_prohibition(1, 6, 0, 1, &[7], &[8]));
    refused(4, |house| house.delete_prohibition(1, 6, 1, 0, &[7], &[8]));
    refused(4, |house| house.delete_prohibition(1, 6, 1, 1, &[7], &[]));
    refused(4, |house| house.delete_prohibition(1, 6, 1, 1, &[], &[]));
    refused(4, |house| house.delete_prohibition(1, 3, 1, 1, &[1], &[8]));
    refused(4, |house| house.delete_prohibition(1, 6, 1, 1, &[7, 7], &[8]));
    let mut house = accepted(|house| house.delete_prohibition(1, 6, 1, 1, &[7], &[8]));
    assert_eq!(house.delete_prohibition(1, 6, 1, 1, &[7], &[8]), Err(4));
}

#[test]
fn processes() {
    for (id, user) in [(0, 5), (256, 5), (3, 0), (3, 512), (1, 512)] {
        refused(2, |house| house.start_process(id, user));
    }
    refused(3, |house| house.start_process(1, 5));
    refused(3, |house| house.start_process(1, 200));
    refused(3, |house| house.start_process(1, 7));
    refused(4, |house| house.start_process(3, 200));
    for user in [1, 3, 7, 9] {
        refused(5, |house| house.start_process(3, user));
    }
    accepted(|house| house.start_process(3, 5));
    refused(2, |house| house.end_process(0));
    refused(2, |house| house.end_process(256));
    refused(4, |house| house.end_process(3));
    refused(9, |house| house.end_process(2));
    let mut house = accepted(|house| house.end_process(1));
    assert_eq!(house.end_process(1), Err(4));
    assert_eq!(house.start_process(1, 6), Ok(()));
}

#[test]
fn containment() {
    let policy = furnished().policy;
    for (x, y) in [(0, 1), (1, 0), (512, 1), (1, 512), (200, 512)] {
        assert_eq!(contains(&policy, x, y), Err(2));
    }
    assert_eq!(contains(&policy, 200, 1), Err(4));
    assert_eq!(contains(&policy, 1, 200), Err(4));
    for (x, y, within) in
        [(9, 9, true), (1, 1, true), (9, 7, true), (9, 2, true), (9, 1, false), (7, 9, false), (5, 1, true)]
    {
        assert_eq!(contains(&policy, x, y), Ok(within));
    }
}

/// An index of another length is refused with 2 by every call that takes one, and left alone.
#[test]
fn an_index_of_another_length() {
    let good = [
        Command::CreateClass { id: 100 },
        Command::CreateElement { id: 100, kind: 3, container: 7 },
        Command::Assign { child: 9, container: 8 },
        Command::Deassign { child: 10, container: 7 },
        Command::DeleteElement { id: 10 },
        Command::CreateAssociation { attribute: 3, rights: 1, target: 7 },
        Command::DeleteAssociation { attribute: 3, rights: 3, target: 7 },
        Command::StartProcess { id: 3, user: 5 },
        Command::EndProcess { id: 1 },
    ];
    let standing = furnished().policy.prohibitions.first().map(second::make::given).unwrap();
    let mut other = standing.clone();
    other.form = 0;
    let all =
        good.into_iter().chain([Command::CreateProhibition(other), Command::DeleteProhibition(standing)]);
    let mut numbers: Vec<usize> = Vec::new();
    for command in all {
        assert_eq!(furnished().run(&command), Ok(()), "{command:?}");
        for length in [0, 1, 32_767, 32_769, 65_536] {
            let mut machine = furnished();
            machine.index = vec![0x55; length];
            let before = machine.clone();
            assert_eq!(machine.run(&command), Err(2));
            assert!(machine == before);
        }
        numbers.push(command.number());
    }
    numbers.sort_unstable();
    assert_eq!(numbers, (0..11).collect::<Vec<_>>());
    let policy = furnished().policy;
    for length in [0, 32_767, 32_769] {
        let mut bytes = vec![0x55; length];
        assert_eq!(is_index(&policy, &bytes), Err(2));
        assert_eq!(build_index_into(&policy, &mut bytes), Err(2));
        assert_eq!(bytes, vec![0x55; length]);
    }
}

/// The index bits by hand: byte 64x + y/8, the most significant bit for y mod 8 = 0.
#[test]
fn index_bits() {
    let house = small_house();
    let mut expected = vec![0u8; 32_768];
    expected[64] = 0b0100_0000; // 1 in 1
    expected[2 * 64] = 0b0010_0000; // 2 in 2
    expected[3 * 64] = 0b0011_0000; // 3 in 2, 3
    expected[4 * 64] = 0b0100_1000; // 4 in 1, 4
    expected[5 * 64] = 0b0111_1100; // 5 in 1, 2, 3, 4, 5
    expected[6 * 64] = 0b0011_0010; // 6 in 2, 3, 6
    expected[7 * 64] = 0b0010_0001; // 7 in 2, 7
    expected[8 * 64] = 0b0100_0000; // 8 in 1
    expected[8 * 64 + 1] = 0b1000_0000; // 8 in 8
    expected[9 * 64] = 0b0010_0001; // 9 in 2, 7
    expected[9 * 64 + 1] = 0b0100_0000; // 9 in 9
    expected[10 * 64] = 0b0110_0001; // 10 in 1, 2, 7
    expected[10 * 64 + 1] = 0b1010_0000; // 10 in 8, 10
    expected[511 * 64] = 0b0100_0000; // 511 in 1
    expected[511 * 64 + 1] = 0b1000_0000; // 511 in 8
    expected[511 * 64 + 63] = 0b0000_0001; // 511 in 511
    assert_eq!(house.index, expected);
    assert_eq!(is_index(&house.policy, &expected), Ok(true));
    for bit in (0..32_768 * 8).step_by(997) {
        let mut other = expected.clone();
        second::make::flip(&mut other, bit);
        assert_eq!(is_index(&house.policy, &other), Ok(false));
    }
    let mut lent = vec![0xff; 32_768];
    assert_eq!(build_index_into(&house.policy, &mut lent), Ok(()));
    assert_eq!(lent, expected);
}
