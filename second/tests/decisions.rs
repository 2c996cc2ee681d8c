//! The stored input and output of the program `try_decide` are what this program makes.

use std::fs;
use std::path::Path;

fn stored(name: &str) -> Vec<u8> {
    let path = Path::new(env!("CARGO_MANIFEST_DIR")).join("../crates/try_decide").join(name);
    fs::read(&path).unwrap_or_else(|error| panic!("{}: {error}", path.display()))
}

#[test]
fn stored_script_and_output_are_ours() {
    let script = second::decisions_script();
    assert!(script.len() <= 327_680, "the program reads no more than 327,680 bytes");
    assert!(script == stored("stdin"), "stdin is another script");
    assert!(second::decisions(&script).as_bytes() == stored("stdout"), "stdout is another output");
}

fn step(letter: u8, a: u16, b: u16, v: u32) -> Vec<u8> {
    [&[letter][..], &a.to_be_bytes(), &b.to_be_bytes(), &v.to_be_bytes()].concat()
}

fn run(steps: &[Vec<u8>]) -> String {
    second::decisions(&steps.concat())
}

/// A class 1, a user 3 of process 1 in the user attribute 2, an object 4; 2 may read and write what is within 4.
fn small() -> Vec<Vec<u8>> {
    vec![
        step(b'N', 0, 0, 0),
        step(b'K', 1, 5, 0),
        step(b'K', 2, 2, 0),
        step(b'K', 3, 1, 0),
        step(b'K', 4, 3, 0),
        step(b'U', 1, 3, 0),
        step(b'A', 2, 1, 0),
        step(b'A', 3, 2, 0),
        step(b'A', 4, 1, 0),
        step(b'S', 2, 4, 0b11),
        step(b'B', 0, 0, 0),
        step(b'Q', 1, 1, 4),
    ]
}

fn after(steps: &[Vec<u8>]) -> String {
    run(&[small(), steps.to_vec()].concat())
}

/// What a reader wants to see in the stored output, asked of scripts of a few steps.
#[test]
fn small_scripts() {
    let both = step(b'C', 0, 0, 0);
    let unused = "1000000 1000001 1000002 1000003 1000004 1000005 1000006 1000007\n";
    assert_eq!(run(&[both.clone(), step(b'E', 0, 0, 1)]), format!("R 1\nR 1\nR 1\n{unused}"));
    assert_eq!(after(&[both.clone(), step(b'D', 0, 0, 3), step(b'I', 0, 0, 3)]), "G 1\nG 1\nG 1\nG 1\n");
    assert_eq!(after(&[step(b'E', 0, 0, 1)]), "G 1 1\n1 1 0 0 1 2 4 3\n");
    assert_eq!(after(&[step(b'E', 0, 0, 0)]), "R 10\n");
    assert_eq!(after(&[step(b'V', 1, 0, 3), step(b'E', 0, 0, 1)]), "G 2 1\n2 1 0 0 1 2 4 3\n");
    assert_eq!(after(&[step(b'V', 1, 0, 4), step(b'E', 0, 0, 1)]), "D 1\n1 1 3 1 1 0 0 0\n");
    assert_eq!(after(&[step(b'V', 2, 0, 65_540), both.clone(), step(b'V', 0, 0, 257)]), "R 2\nR 2\n");
    assert_eq!(after(&[step(b'Q', 1, 6, 4), step(b'M', 4, 0, 0), both.clone()]), "R 5\nR 5\n");
    // a prohibition, twice
    let prohibition = [step(b'P', 3, 3, 1), step(b'J', 4, 0, 0), step(b'X', 0, 0, 0)];
    assert_eq!(after(&[&prohibition[..], &[both.clone(), step(b'X', 0, 0, 0)]].concat()), "D\nD\nR 3\n");
    // the index is of the table, of other bytes, too short; the memory is
    assert_eq!(after(&[step(b'Z', 0, 0, 0), both.clone()]), "G 1\nD\n");
    assert_eq!(after(&[step(b'T', 4, 4, 0), both.clone()]), "G 1\nD\n");
    assert_eq!(after(&[step(b'L', 8_192, 32_767, 0), both.clone()]), "G 1\nR 2\n");
    assert_eq!(after(&[step(b'L', 8_191, 32_768, 0), both.clone()]), "R 1\nR 1\n");
    // words: the right is gone, the attribute is 514, which 01's formula finds in the row of element 4
    assert_eq!(after(&[step(b'W', 2_777, 0, 2), both.clone()]), "D\nD\n");
    assert_eq!(after(&[step(b'W', 2_776, 0, 514 * 512 + 4), both.clone()]), "D\nD\n");
    assert_eq!(after(&[step(b'W', 2_776, 0, 514 * 512 + 4), step(b'T', 4, 2, 1), both]), "D\nG 1\n");
}
