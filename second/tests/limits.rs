//! The limits, each on a table made for it.

use second::image::LONGEST_IMAGE;
use second::{load, save, save_into, Machine, Policy, Prohibition};

/// Classes 1 to 10 and object attributes from 11 on, assigned until `count` assignments stand.
fn with_assignments(count: usize) -> Machine {
    let mut machine = Machine::new();
    for class in 1..=10 {
        machine.create_class(class).unwrap();
    }
    for id in 11.. {
        for class in 1..=10 {
            if machine.policy.assignments.len() == count {
                return machine;
            }
            let done = if class == 1 { machine.create_element(id, 4, 1) } else { machine.assign(id, class) };
            assert_eq!(done, Ok(()));
        }
    }
    unreachable!("the count is reached before")
}

#[test]
fn two_thousand_assignments() {
    let mut machine = with_assignments(1999);
    assert_eq!(machine.assign(210, 10), Ok(()));
    assert_eq!(machine.policy.assignments.len(), 2000);
    let full = machine.clone();
    assert_eq!(machine.create_element(211, 4, 1), Err(10));
    assert_eq!(machine.assign(210, 11), Err(10));
    assert_eq!(machine.assign(210, 10), Err(3));
    assert_eq!(machine.assign(210, 210), Err(7));
    assert_eq!(machine.create_element(210, 4, 1), Err(3));
    assert_eq!(machine.create_element(211, 4, 212), Err(4));
    assert_eq!(machine.create_element(211, 1, 1), Err(5));
    assert_eq!(machine, full);
    assert_eq!(machine.create_class(211), Ok(()));
    assert_eq!(load(&save(&machine.policy)).as_ref(), Ok(&machine.policy));
    // The room of anything removed can be used again.
    assert_eq!(machine.deassign(11, 10), Ok(()));
    assert_eq!(machine.assign(210, 11), Ok(()));
    assert_eq!(machine.assign(11, 10), Err(10));
    assert_eq!(machine.delete_element(210), Ok(()));
    assert_eq!(machine.policy.assignments.len(), 2000 - 11);
    assert_eq!(machine.assign(11, 10), Ok(()));
    assert_eq!(machine.create_element(210, 3, 11), Ok(()));
}

#[test]
fn a_thousand_associations() {
    let mut machine = Machine::new();
    machine.create_class(1).unwrap();
    machine.create_element(2, 2, 1).unwrap();
    machine.create_element(3, 3, 1).unwrap();
    for rights in 1..=1000 {
        assert_eq!(machine.create_association(2, rights, 3), Ok(()));
    }
    assert_eq!(machine.create_association(2, 1001, 3), Err(10));
    assert_eq!(machine.create_association(2, 1000, 3), Err(3));
    assert_eq!(machine.create_association(2, 0, 3), Err(6));
    assert_eq!(machine.policy.associations.len(), 1000);
    assert_eq!(load(&save(&machine.policy)).as_ref(), Ok(&machine.policy));
    assert_eq!(machine.delete_association(2, 500, 3), Ok(()));
    assert_eq!(machine.create_association(2, 1001, 3), Ok(()));
    assert_eq!(machine.create_association(2, 500, 3), Err(10));
}

#[test]
fn two_hundred_prohibitions() {
    let mut machine = Machine::new();
    machine.create_class(1).unwrap();
    machine.create_element(2, 2, 1).unwrap();
    for rights in 1..=200 {
        assert_eq!(machine.create_prohibition(3, 2, 0, rights, &[2], &[]), Ok(()));
    }
    assert_eq!(machine.create_prohibition(3, 2, 0, 201, &[2], &[]), Err(10));
    assert_eq!(machine.create_prohibition(3, 2, 0, 200, &[2], &[]), Err(3));
    assert_eq!(machine.create_prohibition(3, 2, 0, 201, &[], &[]), Err(6));
    assert_eq!(machine.policy.prohibitions.len(), 200);
    assert_eq!(load(&save(&machine.policy)).as_ref(), Ok(&machine.policy));
    assert_eq!(machine.delete_prohibition(3, 2, 0, 7, &[2], &[]), Ok(()));
    assert_eq!(machine.create_prohibition(3, 2, 0, 201, &[2], &[]), Ok(()));
    assert_eq!(machine.create_prohibition(3, 2, 0, 7, &[2], &[]), Err(10));
}

#[test]
fn element_ids_to_511() {
    let mut machine = Machine::new();
    assert_eq!(machine.create_class(512), Err(2));
    assert_eq!(machine.create_class(0), Err(2));
    assert_eq!(machine.create_class(511), Ok(()));
    assert_eq!(machine.create_element(512, 4, 511), Err(2));
    assert_eq!(machine.create_element(1, 4, 512), Err(2));
    assert_eq!(machine.create_element(1, 4, 65_536 + 511), Err(2));
    for id in 1..=510 {
        assert_eq!(machine.create_class(id), Ok(()));
    }
    // With 511 elements every id is taken: 3, never 10.
    for id in 1..=511 {
        assert_eq!(machine.create_class(id), Err(3));
    }
    assert_eq!(load(&save(&machine.policy)).as_ref(), Ok(&machine.policy));
}

#[test]
fn process_ids_to_255() {
    let mut machine = Machine::new();
    machine.create_class(1).unwrap();
    machine.create_element(2, 2, 1).unwrap();
    machine.create_element(3, 1, 2).unwrap();
    assert_eq!(machine.start_process(0, 3), Err(2));
    for id in 1..=255 {
        assert_eq!(machine.start_process(id, 3), Ok(()));
    }
    assert_eq!(machine.start_process(256, 3), Err(2));
    assert_eq!(machine.start_process(255, 3), Err(3));
    assert_eq!(machine.end_process(256), Err(2));
    assert_eq!(load(&save(&machine.policy)).as_ref(), Ok(&machine.policy));
    assert_eq!(machine.end_process(255), Ok(()));
    assert_eq!(machine.start_process(255, 3), Ok(()));
}

/// Every group at its limit, every prohibition with four and four ids.
fn largest() -> Policy {
    let mut policy = Policy::new();
    let kind = |id: u16| match id {
        1..=10 => 5,
        11..=60 => 2,
        61..=100 => 1,
        101..=400 => 4,
        _ => 3,
    };
    for id in 1..=511 {
        policy.elements.insert(id, kind(id));
        match kind(id) {
            5 => {}
            1 => {
                policy.assignments.insert((id, 11));
            }
            _ => {
                policy.assignments.insert((id, 1));
            }
        }
    }
    for id in 101..=511 {
        for class in 2..=10 {
            if policy.assignments.len() < 2000 {
                policy.assignments.insert((id, class));
            }
        }
    }
    for rights in 0..1000 {
        policy.associations.insert((11 + rights as u16 % 50, 101 + rights as u16 % 7, u32::MAX - rights));
    }
    for process in 1..=255 {
        policy.processes.insert(process, 61 + u16::from(process) % 40);
    }
    for rights in 1..=200 {
        policy.prohibitions.insert(Prohibition {
            sort: 2,
            subject: 255,
            form: 1,
            rights,
            inclusions: vec![101, 102, 103, 511],
            exclusions: vec![11, 12, 13, 511],
        });
    }
    policy
}

#[test]
fn the_longest_image_has_15_115_bytes() {
    let policy = largest();
    assert_eq!(policy.counts(), [511, 2000, 1000, 200, 255]);
    let image = save(&policy);
    assert_eq!(image.len(), 15_115);
    assert_eq!(image.len(), LONGEST_IMAGE);
    assert_eq!(load(&image).as_ref(), Ok(&policy));

    let mut output = vec![0xaa; 15_120];
    assert_eq!(save_into(&policy, &mut output), Ok(15_115));
    assert_eq!(output[..15_115], image[..]);
    assert_eq!(output[15_115..], [0xaa; 5]);
    let mut exact = vec![0xaa; 15_115];
    assert_eq!(save_into(&policy, &mut exact), Ok(15_115));
    assert_eq!(exact, image);
    let mut short = vec![0xaa; 15_114];
    assert_eq!(save_into(&policy, &mut short), Err(10));
    assert_eq!(short, vec![0xaa; 15_114]);
    assert_eq!(save_into(&Policy::new(), &mut []), Err(10));
    assert_eq!(save_into(&Policy::new(), &mut [0; 7]), Ok(7));
}
