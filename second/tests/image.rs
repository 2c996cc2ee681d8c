//! What load refuses, and with which number.

use second::house::{furnished, rising_prohibitions, small_house};
use second::image::{Written, WrittenProhibition};
use second::make::flip;
use second::{load, save, Policy};

/// The house's assignments in the image's order.
const ASSIGNMENTS: [(u32, u32); 11] =
    [(3, 2), (4, 1), (5, 3), (5, 4), (6, 3), (7, 2), (8, 1), (9, 7), (10, 7), (10, 8), (511, 8)];

/// Loads what the change makes of the furnished house's image; counts follow the records.
fn loading(change: impl Fn(&mut Written)) -> Result<Policy, u32> {
    let mut written = Written::of(&furnished());
    change(&mut written);
    written.count();
    load(&written.bytes())
}

/// The same, for changes that are refused.
fn refusal(change: impl Fn(&mut Written)) -> u32 {
    loading(change).expect_err("a refusal")
}

#[test]
fn sound_images_are_taken() {
    assert_eq!(loading(|_| {}), Ok(furnished()));
    assert_eq!(save(&furnished()), Written::of(&furnished()).bytes());
    assert_eq!(Written::of(&furnished()).assignments, ASSIGNMENTS);
}

#[test]
fn eleven_form() {
    for form in (0..16).filter(|form| *form != 1) {
        assert_eq!(refusal(|image| image.form = form), 11);
        // Also of an image that is cut or too long.
        assert_eq!(load(&[(form << 4) as u8]), Err(11));
        assert_eq!(load(&[(form << 4) as u8; 40_000]), Err(11));
    }
    // No first byte: 12.
    assert_eq!(load(&[]), Err(12));
}

#[test]
fn twelve_length() {
    let image = save(&furnished());
    for length in 0..image.len() {
        assert_eq!(load(&image[..length]), Err(12), "cut to {length}");
    }
    for surplus in [&[0u8][..], &[0, 0], &[1], &[0xff; 30_000]] {
        assert_eq!(load(&[&image[..], surplus].concat()), Err(12));
    }
    assert_eq!(load(&[0x10]), Err(12));
    assert_eq!(load(&[0x10, 0, 0, 0, 0, 0, 0, 0]), Err(12));
    // Filling bits: the empty policy has 50 bits, so six of them.
    for bit in 50..56 {
        let mut empty = vec![0x10, 0, 0, 0, 0, 0, 0];
        flip(&mut empty, bit);
        assert_eq!(load(&empty), Err(12));
    }
    for bit in 62..64 {
        let mut class_1 = vec![0x10, 0x08, 0, 0, 0, 0, 0, 0x34];
        flip(&mut class_1, bit);
        assert_eq!(load(&class_1), Err(12));
    }
}

/// Fields that end with a byte have no filling bits: 50 + 12a + 18b + 50c + ... = 0 mod 8.
#[test]
fn no_filling_bits() {
    let mut policy = Policy::new();
    policy.elements.extend([(1, 5), (2, 2), (3, 4)]);
    policy.assignments.extend([(2, 1), (3, 1)]);
    policy.associations.insert((2, 3, 1));
    policy.elements.insert(4, 5);
    policy.elements.insert(5, 3);
    policy.assignments.insert((5, 1));
    policy.assignments.insert((5, 4));
    // 50 + 5 * 12 + 4 * 18 + 50 = 232 = 29 * 8.
    let image = save(&policy);
    assert_eq!(image.len(), 29);
    assert_eq!(load(&image), Ok(policy));
    assert_eq!(load(&[&image[..], &[0]].concat()), Err(12));
    assert_eq!(load(&image[..28]), Err(12));
}

/// A class, a user attribute and an object attribute to hang many records on.
fn stem() -> Written {
    let mut written = Written::of(&Policy::new());
    written.elements = vec![(1, 5), (2, 2), (3, 4)];
    written.assignments = vec![(2, 1), (3, 1)];
    written
}

/// With its bytes fitting exactly the image is refused with 13; a byte fewer or more and it is 12.
fn judged_by_count(mut written: Written) {
    written.count();
    let image = written.bytes();
    assert_eq!(load(&image), Err(13));
    assert_eq!(load(&image[..image.len() - 1]), Err(12));
    assert_eq!(load(&[&image[..], &[0]].concat()), Err(12));
}

#[test]
fn counts_above_the_limits() {
    // 2,001 assignments, each of them allowed: 201 object attributes in ten classes.
    let mut written = stem();
    written.elements = (1..=10).map(|id| (id, 5)).chain((11..=211).map(|id| (id, 4))).collect();
    written.assignments = (11..=211).flat_map(|id| (1..=10).map(move |class| (id, class))).collect();
    written.assignments.truncate(2000);
    written.elements.truncate(210);
    written.count();
    assert!(load(&written.bytes()).is_ok());
    written.assignments.push((210, 11));
    judged_by_count(written);

    let mut written = stem();
    written.associations = (1..=1000).map(|rights| (2, 3, rights)).collect();
    written.count();
    assert!(load(&written.bytes()).is_ok());
    written.associations.push((2, 3, 1001));
    judged_by_count(written);

    let prohibition = |rights| WrittenProhibition {
        sort: 3,
        subject: 2,
        form: 0,
        rights,
        inclusions: vec![3],
        exclusions: vec![],
    };
    let mut written = stem();
    written.prohibitions = (1..=200).map(prohibition).collect();
    written.count();
    assert!(load(&written.bytes()).is_ok());
    written.prohibitions.push(prohibition(201));
    judged_by_count(written);
}

#[test]
fn counts_above_the_limits_with_too_few_bytes() {
    for (group, count) in [(0, 511), (1, 2001), (1, 2047), (2, 1001), (2, 1023), (3, 201), (3, 255), (4, 255)]
    {
        let mut written = Written::of(&furnished());
        written.counts[group] = count;
        assert_eq!(load(&written.bytes()), Err(12));
    }
}

/// The longest thing that counts as written can describe has 17,925 bytes.
#[test]
fn every_count_at_its_widest() {
    let mut written = stem();
    written.elements = (1..=511).map(|id| (id, 4)).collect();
    written.assignments = (0..2047).map(|n| (1 + n / 256, n % 256)).collect();
    written.associations = (0..1023).map(|n| (2, 3, n + 1)).collect();
    written.prohibitions = (0..255)
        .map(|n| WrittenProhibition {
            sort: 1,
            subject: 5,
            form: 0,
            rights: n + 1,
            inclusions: (1..=7).collect(),
            exclusions: (1..=7).collect(),
        })
        .collect();
    written.processes = (1..=255).map(|id| (id, 5)).collect();
    written.count();
    assert_eq!(written.bytes().len(), 17_925);
    judged_by_count(written);
}

#[test]
fn thirteen_fields() {
    let element = |change: fn(&mut (u32, u32))| refusal(|image| change(&mut image.elements[0]));
    assert_eq!(element(|(id, _)| *id = 0), 13);
    assert_eq!(element(|(_, kind)| *kind = 0), 13);
    assert_eq!(element(|(_, kind)| *kind = 6), 13);
    assert_eq!(element(|(_, kind)| *kind = 7), 13);
    assert_eq!(refusal(|image| image.assignments[0].0 = 0), 13);
    assert_eq!(refusal(|image| image.assignments[1].1 = 0), 13);
    assert_eq!(refusal(|image| image.associations[0].0 = 0), 13);
    assert_eq!(refusal(|image| image.associations[0].1 = 0), 13);
    assert_eq!(refusal(|image| image.associations[0].2 = 0), 13);
    assert_eq!(refusal(|image| image.processes[0].0 = 0), 13);
    assert_eq!(refusal(|image| image.processes[1].1 = 0), 13);
}

#[test]
fn thirteen_prohibition_fields() {
    // The prohibitions stand as: user 5 out [3]; user 5 in [7] out [8]; process 1; attribute 4.
    let first = |change: fn(&mut WrittenProhibition)| refusal(|image| change(&mut image.prohibitions[0]));
    let last = |change: fn(&mut WrittenProhibition)| refusal(|image| change(&mut image.prohibitions[3]));
    assert_eq!(first(|p| p.sort = 0), 13);
    assert_eq!(first(|p| p.subject = 0), 13);
    assert_eq!(first(|p| p.rights = 0), 13);
    assert_eq!(last(|p| p.inclusions[0] = 0), 13);
    assert_eq!(last(|p| p.exclusions[0] = 0), 13);
    assert_eq!(last(|p| p.inclusions[1] = 3), 13);
    assert_eq!(last(|p| p.inclusions.reverse()), 13);
    assert_eq!(last(|p| p.exclusions.reverse()), 13);
    assert_eq!(last(|p| p.exclusions = vec![9, 9]), 13);
    assert_eq!(
        last(|p| {
            p.inclusions.clear();
            p.exclusions.clear();
        }),
        13
    );
    // A process subject from 256 to 511 is an id out of range; an element's is not.
    for subject in [256, 257, 511] {
        assert_eq!(refusal(|image| image.prohibitions[2].subject = subject), 13);
        assert_eq!(refusal(|image| image.prohibitions[3].subject = subject), 14);
    }
    assert_eq!(refusal(|image| image.prohibitions[2].subject = 255), 14);
    // Lists of five to seven fit the field of their count.
    for count in 5..=7 {
        let long: Vec<u32> = [3, 4, 7, 8, 9, 10, 511][7 - count..].to_vec();
        for exclusions in [false, true] {
            let mut written = Written::of(&furnished());
            let list = &mut written.prohibitions[3];
            *(if exclusions { &mut list.exclusions } else { &mut list.inclusions }) = long.clone();
            judged_by_count(written);
        }
    }
}

#[test]
fn thirteen_order() {
    assert_eq!(refusal(|image| image.elements.swap(3, 4)), 13);
    assert_eq!(refusal(|image| image.assignments.swap(0, 1)), 13);
    assert_eq!(refusal(|image| image.associations.swap(0, 1)), 13);
    assert_eq!(refusal(|image| image.prohibitions.swap(0, 1)), 13);
    assert_eq!(refusal(|image| image.processes.swap(0, 1)), 13);
    // Twice the same.
    assert_eq!(refusal(|image| image.elements.insert(0, image.elements[0])), 13);
    assert_eq!(refusal(|image| image.assignments.insert(0, image.assignments[0])), 13);
    assert_eq!(refusal(|image| image.associations.insert(0, image.associations[0])), 13);
    assert_eq!(refusal(|image| image.prohibitions.insert(0, image.prohibitions[0].clone())), 13);
    assert_eq!(refusal(|image| image.processes.insert(0, image.processes[0])), 13);
    // "Elements and processes rise by id alone, so no id stands twice."
    assert_eq!(refusal(|image| image.elements.insert(2, (2, 4))), 13);
    assert_eq!(refusal(|image| image.elements.insert(3, (3, 4))), 13);
    assert_eq!(refusal(|image| image.processes.insert(1, (1, 6))), 13);
    // The same pair with another right set is another association, and rights compare unsigned.
    assert!(loading(|image| image.associations.insert(1, (3, 7, 0x8000_0000))).is_ok());
    assert_eq!(refusal(|image| image.associations.insert(0, (3, 7, 0x8000_0000))), 13);
}

/// Prohibitions compare their counts before their ids.
#[test]
fn prohibitions_rise_as_written() {
    let rising = rising_prohibitions();
    let put = |records: &[WrittenProhibition]| loading(|image| image.prohibitions = records.to_vec());
    let policy = put(&rising).unwrap();
    assert_eq!(Written::of(&policy).prohibitions, rising);
    for place in 1..rising.len() {
        let mut swapped = rising.to_vec();
        swapped.swap(place - 1, place);
        assert_eq!(put(&swapped), Err(13));
    }
}

#[test]
fn fourteen_references() {
    // Unknown elements and processes.
    assert_eq!(refusal(|image| image.assignments[0].1 = 100), 14);
    assert_eq!(refusal(|image| image.assignments.push((510, 8))), 13);
    assert_eq!(refusal(|image| image.assignments.insert(10, (510, 8))), 14);
    assert_eq!(refusal(|image| image.associations[1].0 = 100), 14);
    assert_eq!(refusal(|image| image.associations[0].1 = 100), 14);
    assert_eq!(refusal(|image| image.processes[0].1 = 100), 14);
    assert_eq!(refusal(|image| image.prohibitions[3].subject = 100), 14);
    assert_eq!(refusal(|image| image.prohibitions[1].subject = 100), 14);
    assert_eq!(refusal(|image| image.prohibitions[2].subject = 100), 14);
    assert_eq!(refusal(|image| image.prohibitions[3].inclusions[3] = 100), 14);
    assert_eq!(refusal(|image| image.prohibitions[3].inclusions[2] = 511), 13);
    assert_eq!(refusal(|image| image.prohibitions[3].exclusions[1] = 100), 14);
    // A process is named before it stands: the whole image is judged.
    assert_eq!(refusal(|image| image.processes.clear()), 14);
    // Wrong kinds.
    assert_eq!(refusal(|image| image.associations[1].0 = 5), 14);
    assert_eq!(refusal(|image| image.associations[1].0 = 8), 14);
    assert_eq!(refusal(|image| image.associations[0].1 = 5), 14);
    assert_eq!(refusal(|image| image.associations[0].1 = 2), 14);
    assert_eq!(refusal(|image| image.processes[0].1 = 3), 14);
    assert_eq!(refusal(|image| image.prohibitions[3].subject = 5), 14);
    assert_eq!(refusal(|image| image.prohibitions[1].subject = 7), 14);
    assert_eq!(refusal(|image| image.prohibitions[3].inclusions[0] = 1), 14);
    assert_eq!(refusal(|image| image.prohibitions[3].exclusions[0] = 5), 14);
    // Targets of kind 2, 3 and 4 are allowed, and listed elements too.
    assert!(loading(|image| image.associations[0].1 = 3).is_ok());
    assert!(loading(|image| image.associations[0].1 = 9).is_ok());
    assert!(loading(|image| image.prohibitions[3].exclusions = vec![4, 8, 511]).is_ok());
}

#[test]
fn fourteen_pairings() {
    for child in [1u32, 2, 3, 5, 7, 9] {
        for container in [1u32, 2, 4, 6, 8, 10] {
            if child == container {
                continue;
            }
            let kind = |id: u32| furnished().elements[&(id as u16)];
            let result = loading(|image| {
                image.assignments.push((child, container));
                image.assignments.sort_unstable();
                image.assignments.dedup();
            });
            let allowed = [(1, 2), (2, 2), (2, 5), (3, 4), (3, 5), (4, 4), (4, 5)];
            if allowed.contains(&(kind(child), kind(container))) {
                assert!(result.is_ok(), "{child} to {container}");
            } else {
                assert_eq!(result, Err(14), "{child} to {container}");
            }
        }
    }
}

#[test]
fn fourteen_cycles_and_unassigned() {
    let with = |more: &'static [(u32, u32)]| {
        loading(|image| {
            image.assignments.extend(more);
            image.assignments.sort_unstable();
        })
    };
    // Loops of one, two and three; the elements keep an assignment to a class.
    assert_eq!(with(&[(7, 7)]), Err(14));
    assert_eq!(with(&[(3, 3)]), Err(14));
    assert_eq!(with(&[(9, 9)]), Err(14));
    assert_eq!(with(&[(1, 1)]), Err(14));
    assert_eq!(with(&[(3, 4), (4, 3)]), Err(14));
    assert!(with(&[(7, 8)]).is_ok());
    assert_eq!(with(&[(7, 8), (8, 7)]), Err(14));
    // A cycle that reaches no class: each element has an assignment, none has a class.
    assert_eq!(
        refusal(|image| {
            image.assignments[5] = (7, 8);
            image.assignments[6] = (8, 7);
        }),
        14
    );
    // Unassigned elements of each kind.
    for place in [0, 1, 4, 5, 6, 7, 10] {
        assert_eq!(refusal(|image| image.assignments.retain(|one| *one != ASSIGNMENTS[place])), 14);
    }
    assert!(loading(|image| image.assignments.retain(|one| *one != ASSIGNMENTS[9])).is_ok());
    assert!(loading(|image| image.elements.insert(10, (100, 5))).is_ok());
    for kind in 1..=4 {
        assert_eq!(refusal(|image| image.elements.insert(10, (100, kind))), 14);
    }
}

/// Each line is judged over the whole image before the next.
#[test]
fn lower_lines_first() {
    let mut written = Written::of(&furnished());
    written.elements[0].1 = 0;
    written.assignments[0].1 = 100;
    written.count();
    let image = written.bytes();
    assert_eq!(load(&image), Err(13));
    assert_eq!(load(&image[..image.len() - 1]), Err(12));
    assert_eq!(load(&[&image[..], &[0]].concat()), Err(12));
    written.form = 2;
    assert_eq!(load(&written.bytes()), Err(11));
    // 14 early in the image and 13 late.
    assert_eq!(
        refusal(|image| {
            image.assignments[0].1 = 100;
            image.processes[1].0 = 0;
        }),
        13
    );
}

/// Every single bit turned over: a refusal, or a policy with that very image.
#[test]
fn every_flip_of_the_small_house() {
    for policy in [small_house().policy, furnished()] {
        let image = save(&policy);
        let mut seen = std::collections::BTreeMap::new();
        for bit in 0..image.len() * 8 {
            let mut flipped = image.clone();
            flip(&mut flipped, bit);
            let loaded = load(&flipped);
            *seen.entry(loaded.as_ref().err().copied()).or_insert(0) += 1;
            match loaded {
                Ok(other) => {
                    assert_eq!(save(&other), flipped);
                    assert_ne!(other, policy);
                }
                Err(number) => assert!((11..=14).contains(&number)),
            }
            if bit < 4 {
                assert_eq!(load(&flipped), Err(11));
            }
        }
        let numbers: Vec<_> = seen.keys().copied().collect();
        assert_eq!(numbers, [None, Some(11), Some(12), Some(13), Some(14)]);
    }
}

/// Every cut, and every cut of every flip of a small image.
#[test]
fn every_cut() {
    for policy in [Policy::new(), small_house().policy, furnished()] {
        let image = save(&policy);
        for length in 0..image.len() {
            assert_eq!(load(&image[..length]), Err(12));
        }
    }
    let image = save(&small_house().policy);
    for bit in 0..image.len() * 8 {
        let mut flipped = image.clone();
        flip(&mut flipped, bit);
        for length in 0..image.len() {
            if let Ok(policy) = load(&flipped[..length]) {
                assert_eq!(save(&policy), flipped[..length]);
            }
        }
    }
}
