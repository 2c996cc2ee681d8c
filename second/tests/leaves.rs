//! The stored input and output of the program `try_leaves` are what this program makes.

use std::fs;
use std::path::Path;

fn stored(name: &str) -> Vec<u8> {
    let path = Path::new(env!("CARGO_MANIFEST_DIR")).join("../crates/try_leaves").join(name);
    fs::read(&path).unwrap_or_else(|error| panic!("{}: {error}", path.display()))
}

#[test]
fn stored_script_and_output_are_ours() {
    let script = second::leaves_script();
    assert!(script.len() <= 65_536, "the program reads no more than 65,536 bytes");
    assert!(script == stored("stdin"), "stdin is another script");
    assert!(second::leaves(&script).as_bytes() == stored("stdout"), "stdout is another output");
}

/// What a reader wants to see in the stored output, asked of scripts of a few steps.
#[test]
fn small_scripts() {
    let step = |letter: u8, a: u8, b: u8| [letter, 0, a, 0, b, 0, 0, 0, 0];
    let run = |steps: &[[u8; 9]]| second::leaves(&steps.concat());
    assert_eq!(run(&[step(b'C', 1, 1)]), "R 1\n");
    assert_eq!(run(&[step(b'N', 0, 0), step(b'C', 1, 1)]), "R 4\n");
    let two = [step(b'N', 0, 0), step(b'K', 1, 1), step(b'K', 2, 2), step(b'A', 1, 2), step(b'B', 0, 0)];
    let after = |steps: &[[u8; 9]]| run(&[&two[..], steps].concat());
    assert_eq!(
        after(&[step(b'C', 1, 2), step(b'C', 2, 1), step(b'I', 1, 2), step(b'T', 0, 0)]),
        "C 1\nC 0\nI 1\nT 1\n"
    );
    assert_eq!(after(&[step(b'D', 1, 2), step(b'C', 1, 2), step(b'T', 0, 0)]), "C 0\nT 0\n");
    assert_eq!(after(&[step(b'A', 1, 2), step(b'K', 1, 6), step(b'C', 1, 2)]), "R 3\nR 2\nC 1\n");
    assert_eq!(run(&[step(b'P', 4, 6), step(b'G', 4, 6), step(b'G', 32, 255)]), "G 0\nG 0\n");
}
