//! The stored input and output of the program `try_command` are what this program makes.

use second::command::COMMAND_NAMES;
use second::histories::{histories, tally};
use second::year::{Year, LETTERS};
use second::Command;
use std::fs;
use std::path::Path;

fn stored(name: &str) -> Vec<u8> {
    let path = Path::new(env!("CARGO_MANIFEST_DIR")).join("../crates/try_command").join(name);
    fs::read(&path).unwrap_or_else(|error| panic!("{}: {error}", path.display()))
}

#[test]
fn stored_script_and_output_are_ours() {
    let script = second::histories_script();
    assert!(script.len() <= 327_680, "the program reads no more than 327,680 bytes");
    assert!(script == stored("stdin"), "stdin is another script");
    assert!(histories(&script).as_bytes() == stored("stdout"), "stdout is another output");
}

/// Every command of the stored script is accepted somewhere, and refused with each number that it can be refused with,
/// and with no other.
#[test]
fn every_refusal_occurs() {
    let numbers: [&[u32]; 11] = [
        &[1, 2, 3],
        &[1, 2, 3, 4, 5, 10],
        &[1, 2, 3, 4, 5, 7, 10],
        &[1, 2, 4, 5, 8],
        &[1, 2, 4, 9],
        &[1, 2, 3, 4, 5, 6, 10],
        &[1, 2, 4, 5, 6],
        &[1, 2, 3, 4, 5, 6, 10],
        &[1, 2, 4, 5, 6],
        &[1, 2, 3, 4, 5],
        &[1, 2, 4, 9],
    ];
    let seen = tally(&second::histories_script());
    for ((name, numbers), seen) in COMMAND_NAMES.iter().zip(numbers).zip(seen) {
        for (number, times) in (0..).zip(seen) {
            let expected = number == 0 || numbers.contains(&number);
            assert_eq!(times > 0, expected, "{name}, {number}: {times} times");
        }
    }
    assert_eq!(seen.iter().flatten().sum::<u32>(), 135_311);
}

fn step(letter: u8, a: u32, b: u32, c: u32) -> Vec<u8> {
    [&[letter][..], &a.to_be_bytes(), &b.to_be_bytes(), &c.to_be_bytes()].concat()
}

fn run(steps: &[Vec<u8>]) -> String {
    histories(&steps.concat())
}

/// A class 1, a user attribute 2, a user 3 of process 1, object attributes 4 in 1 and 5 in 4.
fn small() -> Vec<Vec<u8>> {
    vec![
        step(b'z', 0, 0, 0),
        step(b'b', 0, 0, 0),
        step(b'c', 1, 0, 0),
        step(b'e', 2, 2, 1),
        step(b'e', 3, 1, 2),
        step(b'e', 4, 4, 1),
        step(b'e', 5, 4, 4),
        step(b'u', 1, 3, 0),
    ]
}

fn after(steps: &[Vec<u8>]) -> String {
    let printed = run(&[small(), steps.to_vec()].concat());
    printed.strip_prefix("aaaaaaaa").expect("every command is accepted").to_string()
}

/// What a reader wants to see in the stored output, asked of scripts of a few steps.
#[test]
fn small_scripts() {
    // no table; an index of another length
    assert_eq!(run(&[step(b'c', 1, 0, 0), step(b'b', 0, 0, 0)]), "11");
    assert_eq!(after(&[step(b'L', 8_192, 32_767, 0), step(b'c', 9, 0, 0), step(b'b', 0, 0, 0)]), "##");
    assert_eq!(after(&[step(b'L', 8_191, 32_767, 0), step(b'c', 0, 0, 0), step(b'z', 0, 0, 0)]), "11");
    // 2, 3, 4, 5, 7, 8, 9
    assert_eq!(after(&[step(b'c', 512, 0, 0), step(b'c', 1, 0, 0), step(b'f', 9, 0, 0)]), "cde");
    assert_eq!(after(&[step(b'a', 3, 1, 0), step(b'a', 4, 5, 0), step(b'd', 5, 4, 0)]), "fhi");
    assert_eq!(after(&[step(b'f', 4, 0, 0), step(b'f', 3, 0, 0), step(b'v', 1, 0, 0)]), "jja");
    // a prohibition of form 1 with two inclusions and an exclusion: 6, accepted, 3, 9, taken out, 4
    let lists = [step(b'F', 1, 0, 0), step(b'I', 4, 2, 0), step(b'X', 2, 1, 0)];
    let commands = [step(b'p', 2, 1, 0), step(b'p', 2, 1, 7), step(b'p', 2, 1, 7), step(b'v', 1, 0, 0)];
    let end = [step(b'q', 2, 1, 7), step(b'q', 2, 1, 7)];
    assert_eq!(after(&[&lists[..], &commands, &end].concat()), "gadjae");
    assert_eq!(after(&[step(b'F', 0, 0, 0), step(b'I', 2, 300, 0), step(b'p', 1, 3, 1)]), "e");
    // a foreign index: left by an association, repaired by an assignment
    let foreign = [step(b'Z', 255, 0, 0), step(b's', 2, 4, 1), step(b'a', 4, 4, 0), step(b'a', 5, 1, 0)];
    assert_eq!(after(&foreign), "AHa");
    // the state, listed: sort 2, subject 1 and form 1 in one word; two inclusions and one exclusion
    let printed = after(&[&lists[..], &commands[1..2], &[step(b'.', 0, 0, 0), step(b'=', 1, 0, 0)]].concat());
    let lines: Vec<&str> = printed.lines().collect();
    let listed = |line: usize| lines[line].rsplitn(3, ' ').last().unwrap_or("").to_string();
    assert_eq!(lines[0], "a");
    assert_eq!(listed(1), "H 0:1363431985 1:4 3:1");
    assert_eq!(listed(2), "E 1:5 2:2 3:1 4:4 5:4");
    assert_eq!(listed(3), "U 1:3");
    assert_eq!(listed(4), "A 0:1025 1:1538 2:2049 3:2564");
    assert_eq!(listed(5), "S");
    assert_eq!(listed(6), "P 0:2051 1:7 2:17 3:4 4:5 5:2");
    assert_eq!(lines[7].split(' ').count(), 2);
    // a sum of nothing but zeros, and of the word 3 behind a zero
    let zeros = (0..8).fold(0u32, |sum, _| sum.wrapping_mul(1_103_515_245).wrapping_add(12_345));
    assert_eq!(
        run(&[step(b'L', 8, 0, 0), step(b'=', 0, 0, 0)]).lines().next(),
        Some(&*format!("H 0 {zeros}"))
    );
}

/// The first commands of the year of seed 1, worked out by hand: its numbers are 1,103,527,590, 2,524,885,223,
/// 662,824,084, then 3,295,386,429, 4,182,499,122 and 2,516,284,547.
#[test]
fn years_begin() {
    let mut year = Year::new(1);
    // draws 16,838, 38,526, 10,113: letter 6, x 490, k 2, h (37 * 490 + 53 * 2) mod 128
    assert_eq!(LETTERS[6], b'a');
    assert_eq!(year.next(), Some(Command::Assign { child: 490, container: 265 + 60 }));
    // draws 50,283, 63,819, 38,395: letter 43, x 83, k 4, h (37 * 83 + 53 * 4) mod 128
    assert_eq!(LETTERS[43], b'E');
    assert_eq!(year.next(), Some(Command::CreateElement { id: 83, kind: 3, container: 9 + 83 }));
}
