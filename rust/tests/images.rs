//! Images, sound and damaged: the refusal number, every word that is left, and what is saved then.

mod common;

use common::{image_round, load_into, rounds, seed, words_of, Seen};
use quandrilof::Table;
use second::house::{furnished, small_house};
use second::make::{flip, Size};
use second::save;

#[test]
fn damaged_images_of_small_policies() {
    let seen = rounds("damaged images", seed(), 150, |random, _, seen| {
        let size = Size::small(random);
        image_round(random, size, 60, seen);
    });
    seen.expect("image accepted, image refused 11, image refused 12, image refused 13, image refused 14");
}

#[test]
fn damaged_images_of_large_policies() {
    rounds("damaged images of large policies", seed(), 5, |random, number, seen| {
        let size = if number == 0 { Size::FULL } else { Size::any(random) };
        image_round(random, size, 20, seen);
    });
}

/// Every cut, every turned bit, and some longer images of the house.
#[test]
fn every_cut_and_bit_of_the_house() {
    let mut seen = Seen::default();
    for policy in [small_house().policy, furnished()] {
        let image = save(&policy);
        let mut words = words_of(&policy);
        for length in 0..=image.len() {
            load_into(&mut words, &image[..length], &mut seen);
        }
        for bit in 0..8 * image.len() {
            let mut other = image.clone();
            flip(&mut other, bit);
            load_into(&mut words, &other, &mut seen);
        }
        for more in [1, 2, 100, 20_000] {
            let mut other = image.clone();
            other.resize(image.len() + more, 0);
            load_into(&mut words, &other, &mut seen);
        }
    }
    seen.expect("image accepted, image refused 11, image refused 12, image refused 13, image refused 14");
}

/// The first byte decides over 11 and 12.
#[test]
fn every_first_byte() {
    let seen = rounds("every first byte", seed(), 1, |random, _, seen| {
        let mut words = words_of(&small_house().policy);
        load_into(&mut words, &[], seen);
        for first in 0..=255 {
            load_into(&mut words, &[first], seen);
            for length in [6, 7, 8, 65] {
                let bytes = (0..length).map(|_| random.bits() as u8 & random.bits() as u8);
                let mut image: Vec<u8> = bytes.collect();
                image[0] = first;
                load_into(&mut words, &image, seen);
            }
        }
    });
    seen.expect("image refused 11, image refused 12");
}

/// The two images that the rules spell.
#[test]
fn spelt_images() {
    let empty = [0x10, 0, 0, 0, 0, 0, 0];
    let class_1 = [0x10, 0x08, 0, 0, 0, 0, 0, 0x34];
    let mut table = Table::load(&empty).unwrap();
    assert_eq!(table.save(), Table::new().save());
    assert_eq!(table.words(), Table::new().words());
    assert_eq!(table.create_class(1), Ok(()));
    assert_eq!(table.save(), class_1);
    assert_eq!(table.words(), Table::load(&class_1).unwrap().words());
    assert_eq!(table.reload(&empty), Ok(()));
    assert_eq!(table.save(), empty);
    assert!(table.index().iter().all(|byte| *byte == 0));
}
