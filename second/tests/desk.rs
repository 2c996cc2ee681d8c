//! The desk program.

use second::desk_inputs::{request, with_length};
use second::house::small_house;
use second::make::{self, Random, Size};
use second::{decide, desk, explain, save, Answer, Policy};

fn printed(input: &[u8]) -> String {
    String::from_utf8(desk(input)).unwrap()
}

#[test]
fn the_example() {
    let input = [0x00, 0x08, 0x10, 0x08, 0, 0, 0, 0, 0, 0x34, 0x01, 0x10, 0x08, 0, 0];
    assert_eq!(printed(&input), "P 1 0 0 0 0\nR 4\n");
    assert_eq!(request(1, 1, [1, 0, 0], 0), input[10..]);
}

#[test]
fn images_refused() {
    let house = save(&small_house().policy);
    assert_eq!(printed(&[]), "L 12\n");
    assert_eq!(printed(&[0]), "L 12\n");
    assert_eq!(printed(&[0, 0]), "L 12\n");
    assert_eq!(printed(&[0, 0, 1, 2, 3, 4, 5]), "L 12\n");
    assert_eq!(printed(&[0, 1]), "L 12\n");
    // Too few bytes for the image: 12, of any form.
    assert_eq!(printed(&[0, 2, 0x20]), "L 12\n");
    assert_eq!(printed(&[0xff, 0xff, 0x20, 0, 0]), "L 12\n");
    assert_eq!(printed(&[0, 1, 0x20]), "L 11\n");
    assert_eq!(printed(&[0, 1, 0x10]), "L 12\n");
    let whole = with_length(&house);
    for length in 0..whole.len() {
        assert_eq!(printed(&whole[..length]), "L 12\n");
    }
    // A length that is one too short or too long.
    let mut other = whole.clone();
    other[1] -= 1;
    assert_eq!(printed(&other), "L 12\n");
    other[1] += 2;
    other.push(0);
    assert_eq!(printed(&other), "L 12\n");
    // Nothing more is printed, whatever follows.
    let mut bad = house.clone();
    bad[7] |= 0x07;
    let input = [with_length(&bad), request(1, 1, [9, 0, 0], 0).to_vec()].concat();
    assert_eq!(printed(&input), "L 13\n");
    let mut unassigned = small_house().policy;
    unassigned.assignments.remove(&(9, 7));
    assert_eq!(printed(&with_length(&save(&unassigned))), "L 14\n");
    // Longer than any image, as long as the length can say.
    let mut longest = vec![0; 65_535];
    longest[0] = 0x10;
    assert_eq!(printed(&with_length(&longest)), "L 12\n");
    longest[0] = 0x30;
    assert_eq!(printed(&with_length(&longest)), "L 11\n");
}

#[test]
fn lines_of_the_house() {
    let input =
        |requests: &[[u8; 5]]| [with_length(&save(&small_house().policy)), requests.concat()].concat();
    assert_eq!(printed(&input(&[])), "P 11 11 2 0 2\n");
    let requests = [
        request(1, 1, [9, 0, 0], 0),
        request(1, 1, [10, 0, 0], 0),
        request(2, 1, [10, 0, 0], 0),
        request(1, 2, [10, 0, 0], 0),
        request(1, 1, [511, 0, 0], 0),
        request(1, 3, [9, 0, 0], 0),
        request(1, 1, [2, 0, 0], 0),
        request(3, 1, [9, 0, 0], 0),
        request(1, 5, [9, 7, 8], 0),
        request(1, 6, [9, 8, 0], 0),
        request(1, 1, [9, 0, 0], 1),
        request(1, 1, [9, 0, 1], 0),
        request(1, 10, [9, 0, 0], 0),
        request(1, 15, [9, 0, 0], 0),
        request(1, 0, [9, 0, 0], 0),
        request(0, 1, [9, 0, 0], 0),
        request(1, 1, [0, 0, 0], 0),
        request(1, 1, [200, 0, 0], 0),
        request(255, 15, [511, 511, 511], 1),
    ];
    let lines = "P 11 11 2 0 2\nG 1\nG 1\nD 1 0 1 1\nD 1 1 1 1\nG 1\nG 2\nR 5\nR 4\nD 1 4 1 2\nD 2 6 1 1\n\
                 R 2\nR 2\nR 2\nR 2\nR 2\nR 2\nR 2\nR 4\nR 2\n";
    assert_eq!(printed(&input(&requests)), lines);
    // A last request cut short is one line more.
    for kept in 1..5 {
        let cut = [input(&requests), request(1, 1, [9, 0, 0], 0)[..kept].to_vec()].concat();
        assert_eq!(printed(&cut), format!("{lines}R 12\n"));
        let bad = [input(&requests), vec![0xff; kept]].concat();
        assert_eq!(printed(&bad), format!("{lines}R 12\n"));
    }
}

#[test]
fn many_requests() {
    let mut random = Random::new(11);
    for round in 0..60 {
        let size = if round == 0 { Size::FULL } else { Size::small(&mut random) };
        let policy = make::policy(&mut random, size);
        let mut input = with_length(&save(&policy));
        let [a, b, c, d, e] = policy.counts();
        let mut expected = format!("P {a} {b} {c} {d} {e}\n");
        for _ in 0..200 {
            let (process, operation, arguments) = make::request(&mut random, &policy);
            let (process, operation) = (process % 256, operation % 16);
            let arguments = arguments.map(|argument| argument % 512);
            let last = u64::from(random.chance(2));
            input.extend(request(process, operation, arguments, last));
            expected += &line(&policy, process, operation, arguments, last);
        }
        assert_eq!(printed(&input), expected);
    }
}

fn line(policy: &Policy, process: u32, operation: u32, arguments: [u32; 3], last: u64) -> String {
    match decide(policy, process, operation, arguments) {
        _ if last == 1 => "R 2\n".to_string(),
        Answer::Grant(alternative) => format!("G {alternative}\n"),
        Answer::Refused(number) => format!("R {number}\n"),
        Answer::Deny => {
            let row = explain(policy, process, operation, arguments).rows[0];
            assert_eq!(row.alternative, 1);
            format!("D {} {} {} {}\n", row.argument, row.right, row.cause, row.number)
        }
    }
}

/// The binary prints what the library says.
#[test]
fn the_program() {
    use std::io::Write;
    use std::process::{Command, Stdio};
    let run = |program: &str, arguments: &[&str], input: &[u8]| {
        let mut child = Command::new(program)
            .args(arguments)
            .stdin(Stdio::piped())
            .stdout(Stdio::piped())
            .spawn()
            .unwrap();
        child.stdin.take().unwrap().write_all(input).unwrap();
        let output = child.wait_with_output().unwrap();
        assert!(output.status.success());
        output.stdout
    };
    let input =
        [with_length(&save(&small_house().policy)), request(2, 3, [10, 0, 0], 0).to_vec(), vec![1]].concat();
    let expected = b"P 11 11 2 0 2\nD 1 2 1 1\nR 12\n";
    assert_eq!(run(env!("CARGO_BIN_EXE_second-desk"), &[], &input), expected);
    assert_eq!(run(env!("CARGO_BIN_EXE_second-run"), &["desk"], &input), expected);
    assert_eq!(run(env!("CARGO_BIN_EXE_second-desk"), &[], &[]), b"L 12\n");
    let house = String::from_utf8(run(env!("CARGO_BIN_EXE_second-run"), &["house"], &[])).unwrap();
    assert!(house.starts_with("K1 ") && !house.contains("DIFFERS"));
}

/// What is stored for the program `desk_main` is the script and what is printed for it.
#[test]
fn stored() {
    let script = second::desk_script();
    assert!(script == include_bytes!("../../crates/desk_main/stdin"));
    assert!(desk(&script) == include_bytes!("../../crates/desk_main/stdout"));
    assert!(second::house_image() == include_bytes!("../../examples/small_house.image"));
    assert!(second::house_example() == include_bytes!("../../examples/small_house.desk"));
}
