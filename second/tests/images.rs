//! The stored input and output of the program `try_image` are what this program makes.

use second::images::{images, tally};
use second::make::{self, Random, Size};
use second::words::{clear, holds_table, write, written, WORDS};
use second::{damaged_script, images_script, load, save};
use std::fs;
use std::path::Path;

/// The program reads no more bytes of a script.
const LONGEST_SCRIPT: usize = 360_448;

fn stored(name: &str) -> Vec<u8> {
    let path = Path::new(env!("CARGO_MANIFEST_DIR")).join("../crates/try_image").join(name);
    fs::read(&path).unwrap_or_else(|error| panic!("{}: {error}", path.display()))
}

#[test]
fn stored_script_and_output_are_ours() {
    let script = images_script();
    assert!(script.len() <= LONGEST_SCRIPT, "the program reads no more than 360,448 bytes");
    assert!(script == stored("stdin"), "stdin is another script");
    assert!(images(&script).as_bytes() == stored("stdout"), "stdout is another output");
}

/// Images of the stored script are loaded somewhere, and refused with each number that they can be refused
/// with, and with no other.
#[test]
fn every_refusal_occurs() {
    let seen = tally(&images_script());
    for (number, times) in (0..).zip(seen) {
        let expected = [0, 1, 11, 12, 13, 14].contains(&number);
        assert_eq!(times > 0, expected, "{number}: {times} times");
    }
    assert_eq!(seen.iter().sum::<u32>(), 16_914);
}

/// A script for a long run has as many damaged images as are asked for, but for images without bytes.
#[test]
fn damaged_images() {
    let script = damaged_script(3_000, 1);
    assert!(script.len() <= LONGEST_SCRIPT);
    let seen = tally(&script);
    assert!((2_950..=3_000).contains(&seen.iter().sum::<u32>()), "{seen:?}");
    for (number, times) in (0..).zip(seen) {
        assert_eq!(times > 0, [0, 11, 12, 13, 14].contains(&number), "{number}: {times} times");
    }
    assert!(script != damaged_script(3_000, 2));
}

fn step(letter: u8, a: u32, b: u32) -> Vec<u8> {
    [&[letter][..], &a.to_be_bytes(), &b.to_be_bytes(), &[0; 4]].concat()
}

/// The image is these bytes.
fn image(bytes: &[u8]) -> Vec<u8> {
    [&step(b'B', bytes.len() as u32, 0), bytes].concat()
}

fn run(steps: &[Vec<u8>]) -> String {
    images(&steps.concat())
}

fn mix(numbers: &[u32]) -> u32 {
    let next =
        |sum: u32, number: &u32| sum.wrapping_mul(1_103_515_245).wrapping_add(*number).wrapping_add(12_345);
    numbers.iter().fold(0, next)
}

/// The image of the policy without anything, and that of the class 1.
const EMPTY: [u8; 7] = [0x10, 0, 0, 0, 0, 0, 0];
const CLASS: [u8; 8] = [0x10, 0x08, 0, 0, 0, 0, 0, 0x34];

/// What a reader wants to see in the stored output, asked of scripts of a few steps.
#[test]
fn small_scripts() {
    // loaded and saved; saved before there is a table; 11, 12, 13, 14
    assert_eq!(run(&[image(&EMPTY), step(b'l', 0, 0), step(b's', 0, 0)]), "aa7 ");
    assert_eq!(run(&[step(b's', 0, 0), step(b'z', 0, 0), step(b's', 0, 0)]), "b0 aa7 ");
    let loads = |bytes: &[u8]| run(&[image(bytes), step(b'l', 0, 0)]);
    assert_eq!(loads(&[0x20]), "l");
    assert_eq!(loads(&[]), "m");
    assert_eq!(loads(&CLASS), "a");
    assert_eq!(loads(&[0x10, 0x08, 0, 0, 0, 0, 0, 0x38]), "n");
    assert_eq!(loads(&[0x10, 0x08, 0, 0, 0, 0, 0, 0x2c]), "o");
    // N: longer by a zero byte, cut, and as long as before, but zero
    let lengths = [8, 7, 6, 7, 0, 7].map(|length| [step(b'N', length, 0), step(b'l', 0, 0)].concat());
    assert_eq!(run(&[image(&EMPTY), lengths.concat()]), "mamaml");
    // L: memory that is no table's, a room that is too short; Z and the bytes behind the image
    let lent = |words, bytes| step(b'L', words, bytes);
    assert_eq!(
        run(&[lent(8_191, 7), image(&EMPTY), step(b'l', 0, 0), step(b'z', 0, 0), step(b's', 0, 0)]),
        "bbb0 "
    );
    assert_eq!(run(&[image(&EMPTY), lent(8_192, 6), step(b'l', 0, 0), step(b's', 0, 0)]), "ak0 ");
    let room = [step(b'Z', 0x1ff, 0), step(b's', 0, 0), lent(8, 9), step(b'=', 0, 0)];
    let words = mix(&[1_363_431_985, 0, 0, 0, 0, 0, 0, 0]);
    let bytes = mix(&[0x10, 0, 0, 0, 0, 0, 0, 255, 255]);
    assert_eq!(
        run(&[step(b'z', 0, 0), room.concat()]),
        format!("aa7 H 1363431985 0 0 0 0 0 0 0 {words}\nR {bytes}\n")
    );
    // W: words that hold no table; an element of kind 3, which no assignment is of
    let puts = [step(b'W', 0, 5), step(b's', 0, 0), step(b'W', 9_000, 5), step(b'.', 0, 0)];
    assert_eq!(run(&[step(b'z', 0, 0), puts.concat()]), "ab0 \n");
    assert_eq!(run(&[step(b'z', 0, 0), step(b'W', 8 + 9, 3), step(b's', 0, 0)]), "aa8 ");
    // a load makes all words anew
    let anew =
        [step(b'W', 8 + 9, 3), step(b'W', 8_191, 3), image(&EMPTY), step(b'l', 0, 0), step(b'=', 0, 0)];
    assert_eq!(run(&anew)[1..], run(&[step(b'z', 0, 0), step(b'=', 0, 0)])[1..]);
}

/// The steps that try many images.
#[test]
fn tries() {
    // one try on no words and no room: 1, no word, 1 again, no byte
    let nothing = format!("b\n{}\n", mix(&[1, 0, 65_536, 0]));
    assert_eq!(run(&[step(b'L', 0, 0), step(b'K', 0, 0)]), nothing);
    // each cut of the empty policy's image, and each bit turned over: the form, then the counts
    let first = |steps: &[Vec<u8>]| run(steps).lines().next().map(str::to_string);
    let tried = |bytes: &[u8], letter: u8| first(&[image(bytes), step(letter, 0, 0)]);
    assert_eq!(tried(&EMPTY, b'K').as_deref(), Some("mmmmmmma"));
    assert_eq!(tried(&EMPTY, b'T'), Some(format!("{}{}", "l".repeat(4), "m".repeat(52))));
    // the id 1 and the kind 5 of the one class, turned over from the highest bit on, then the filling bits
    let flips = tried(&CLASS, b'T').expect("a line");
    assert_eq!(&flips[50..], "aaaaaaaanonomm");
    // damage: as many tries as asked for; without bytes only those that cut
    let damaged = |bytes: &[u8], seed| first(&[image(bytes), step(b'Y', seed, 40)]).expect("a line");
    assert_eq!(damaged(&CLASS, 1).len(), 40);
    assert_ne!(damaged(&CLASS, 1), damaged(&CLASS, 2));
    let cuts = damaged(&[], 1);
    assert!((1..40).contains(&cuts.len()) && cuts.bytes().all(|letter| letter == b'm'), "{cuts}");
    // the image is whole again afterwards, and the last try has left its words
    for letter in *b"KTY" {
        let printed = run(&[image(&CLASS), step(letter, 3, 9), step(b'l', 0, 0), step(b's', 0, 0)]);
        assert!(printed.ends_with("\naa8 "), "{printed}");
    }
}

/// The words of a policy have its image, and the image gives the policy back.
#[test]
fn words_are_written_as_the_policy_is() {
    let random = &mut Random::new(8);
    for place in 0..60 {
        let size = if place % 10 == 0 { Size::any(random) } else { Size::small(random) };
        let policy = make::policy(random, size);
        let mut words = vec![0; WORDS];
        assert!(clear(&mut words));
        write(&policy, &mut words);
        assert!(holds_table(&words));
        let image = written(&words).bytes();
        assert_eq!(image, save(&policy));
        assert_eq!(load(&image), Ok(policy));
    }
}
