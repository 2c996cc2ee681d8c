//! The scripts of the program `try_leaves`: steps on a table, its index and some bits, and what they answer.
//!
//! A step is nine bytes: a letter, two numbers `a`, `b` of two bytes, and one, `v`, of four, the high byte first.
//!
//! | step | does | prints |
//! |---|---|---|
//! | `N` | makes the empty table | |
//! | `X` | puts v at word a, so that the memory holds no table | |
//! | `W` | puts v at word a, so that it holds a table still, of the same elements and assignments | |
//! | `K` | gives element a kind b, 0 for none | `R 2` for a b above 5 |
//! | `Y` | puts b, a number above 5, where the kind of element a stands: the element is none | |
//! | `A` | puts in the assignment of a to b | `R 3` where it is there, `R 10` at the limit |
//! | `D` | takes out the assignment of a to b | |
//! | `U` | takes out all assignments of a | |
//! | `C` | asks whether a is within b | `C 1`, `C 0` or `R n` |
//! | `B` | builds the index | |
//! | `L` | builds it into 64 bytes | `R 2` |
//! | `F` | puts byte b at place a of the index | |
//! | `T` | asks whether the index is the table's | `T 1`, `T 0` |
//! | `I` | reads the bit of a and b | `I 1`, `I 0` |
//! | `P` | writes the a low bits of v from bit b on | |
//! | `G` | reads a bits from bit b on | `G n`, or `R 12` where the 64 bytes end before |
//!
//! On memory that holds no table every step about the table or its index, but `N`, `X`, `W`, `Y`, `F` and `I`, prints `R 1`.
//! Which words those are, docs/CONTRACTS.md says ("Which memory holds a table").

use crate::index::{bit, build_index, is_index, INDEX_BYTES};
use crate::make::Random;
use crate::policy::{contains, Policy};
use crate::refusal::{ALREADY_THERE, LENGTH, NO_ROOM, NO_TABLE, OUT_OF_RANGE};

/// The bytes that bits are written into.
const ROOM: usize = 64;

/// The state that a script works on.
struct State {
    /// The table, where the memory holds one.
    table: Option<Policy>,
    index: Vec<u8>,
    bits: Vec<bool>,
    printed: String,
}

impl State {
    fn say(&mut self, letter: char, number: u32) {
        self.printed.push_str(&format!("{letter} {number}\n"));
    }

    fn yes_or_no(&mut self, letter: char, answer: Result<bool, u32>) {
        match answer {
            Ok(yes) => self.say(letter, u32::from(yes)),
            Err(number) => self.say('R', number),
        }
    }

    /// A step that changes the table.
    fn change(&mut self, letter: u8, a: u32, b: u32) {
        let Some(policy) = &mut self.table else {
            return self.say('R', NO_TABLE);
        };
        let (x, y) = ((a % 512) as u16, (b % 512) as u16);
        match letter {
            b'K' if b > 5 => self.say('R', OUT_OF_RANGE),
            b'K' => {
                policy.elements.remove(&x);
                if x > 0 && b > 0 {
                    policy.elements.insert(x, b as u8);
                }
            }
            b'A' if policy.assignments.contains(&(x, y)) => self.say('R', ALREADY_THERE),
            b'A' if policy.assignments.len() >= 2_000 => self.say('R', NO_ROOM),
            b'A' => {
                policy.assignments.insert((x, y));
            }
            b'D' => {
                policy.assignments.remove(&(x, y));
            }
            _ => policy.assignments.retain(|(child, _)| *child != x),
        }
    }

    fn bits_step(&mut self, letter: u8, n: usize, at: usize, v: u32) {
        if letter == b'G' {
            match self.bits.get(at..at + n) {
                Some(bits) => {
                    let number = bits.iter().fold(0u64, |number, bit| 2 * number + u64::from(*bit));
                    self.say('G', number as u32);
                }
                None => self.say('R', LENGTH),
            }
        } else {
            for i in 0..n {
                self.bits[at + i] = v >> (n - 1 - i) & 1 == 1;
            }
        }
    }

    fn step(&mut self, letter: u8, a: u32, b: u32, v: u32) {
        match letter {
            b'N' => self.table = Some(Policy::new()),
            b'X' => self.table = None,
            b'W' => {}
            b'Y' => {
                if let Some(policy) = &mut self.table {
                    policy.elements.remove(&((a % 512) as u16));
                }
            }
            b'K' | b'A' | b'D' | b'U' => self.change(letter, a, b),
            b'C' => {
                let answer = self.table.as_ref().ok_or(NO_TABLE).and_then(|policy| contains(policy, a, b));
                self.yes_or_no('C', answer);
            }
            b'B' => match &self.table {
                Some(policy) => self.index = build_index(policy),
                None => self.say('R', NO_TABLE),
            },
            b'L' => self.say('R', if self.table.is_some() { OUT_OF_RANGE } else { NO_TABLE }),
            b'F' => self.index[a as usize % INDEX_BYTES] = (b % 256) as u8,
            b'T' => {
                let answer =
                    self.table.as_ref().ok_or(NO_TABLE).and_then(|policy| is_index(policy, &self.index));
                self.yes_or_no('T', answer);
            }
            b'I' => {
                let set = bit(&self.index, (a % 512) as u16, (b % 512) as u16);
                self.say('I', u32::from(set));
            }
            _ => self.bits_step(letter, a as usize, b as usize, v),
        }
    }
}

/// What the program prints for a script.
pub fn leaves(script: &[u8]) -> String {
    let mut state = State {
        table: None,
        index: vec![0; INDEX_BYTES],
        bits: vec![false; 8 * ROOM],
        printed: String::new(),
    };
    for step in script.chunks_exact(9) {
        let two = |i: usize| u32::from(step[i]) << 8 | u32::from(step[i + 1]);
        state.step(step[0], two(1), two(3), two(5) << 16 | two(7));
    }
    state.printed
}

/// A script as it is written.
struct Script(Vec<u8>);

impl Script {
    fn step(&mut self, letter: u8, a: u32, b: u32, v: u32) {
        self.0.push(letter);
        self.0.extend_from_slice(&(a as u16).to_be_bytes());
        self.0.extend_from_slice(&(b as u16).to_be_bytes());
        self.0.extend_from_slice(&v.to_be_bytes());
    }

    fn two(&mut self, letter: u8, a: u32, b: u32) {
        self.step(letter, a, b, 0);
    }

    fn alone(&mut self, letter: u8) {
        self.step(letter, 0, 0, 0);
    }

    /// Asks plainly and by the index.
    fn ask(&mut self, x: u32, y: u32) {
        self.two(b'C', x, y);
        self.two(b'I', x, y);
    }
}

/// The stored script: a chain of 500 and of 511, a ladder of 250 levels, element 511, assignment 2,000, cycles, elements that
/// are not there, foreign and short indexes, spoilt memory, and bits at every place.
pub fn leaves_script() -> Vec<u8> {
    let mut script = Script(Vec::new());
    let mut random = Random::new(3);
    // no table yet
    script.two(b'C', 1, 1);
    script.two(b'K', 1, 5);
    script.alone(b'B');
    script.alone(b'T');
    chain(&mut script, &mut random);
    ladder(&mut script);
    limits(&mut script);
    odd_tables(&mut script, &mut random);
    spoilt(&mut script);
    bits(&mut script, &mut random);
    script.0
}

/// A chain of 500 elements, then of all 511, the ids in no order: each is within all later ones.
fn chain(script: &mut Script, random: &mut Random) {
    script.alone(b'N');
    let mut ids: Vec<u32> = (1..=511).collect();
    random.shuffle(&mut ids);
    for id in &ids[..500] {
        script.two(b'K', *id, 2);
    }
    for pair in ids[..500].windows(2) {
        script.two(b'A', pair[0], pair[1]);
    }
    script.alone(b'B');
    script.alone(b'T');
    for (i, j) in [(0, 499), (499, 0), (0, 1), (1, 0), (250, 499), (499, 250), (7, 7), (0, 498)] {
        script.ask(ids[i], ids[j]);
    }
    for pair in ids[499..].windows(2) {
        script.two(b'K', pair[1], 2);
        script.two(b'A', pair[0], pair[1]);
    }
    script.alone(b'B');
    for (i, j) in [(0, 510), (510, 0), (499, 510), (500, 499)] {
        script.ask(ids[i], ids[j]);
    }
    // one link less parts the chain
    script.two(b'D', ids[300], ids[301]);
    script.alone(b'T');
    script.alone(b'B');
    for (i, j) in [(0, 300), (0, 301), (300, 301), (301, 510)] {
        script.ask(ids[i], ids[j]);
    }
}

/// A ladder of 250 levels of two elements, each assigned to both of the next level: 2^249 chains from the bottom to
/// each element at the top.
fn ladder(script: &mut Script) {
    script.alone(b'N');
    for id in 1..=500 {
        script.two(b'K', id, 4);
    }
    for level in 0..249 {
        for (from, to) in [(1, 3), (1, 4), (2, 3), (2, 4)] {
            script.two(b'A', 2 * level + from, 2 * level + to);
        }
    }
    script.alone(b'B');
    for (x, y) in [(1, 499), (1, 500), (2, 500), (500, 1), (1, 2), (250, 251), (251, 250)] {
        script.ask(x, y);
    }
    script.alone(b'T');
}

/// Element 511, ids out of range, assignment 2,000 and one more, room used again.
fn limits(script: &mut Script) {
    script.alone(b'N');
    for id in 1..=511 {
        script.two(b'K', id, 4);
    }
    let mut given = 0;
    'all: for container in (2..=511).rev() {
        for step in 1..=4 {
            if step < container {
                if given == 2_000 {
                    break 'all;
                }
                script.two(b'A', container - step, container);
                given += 1;
            }
        }
    }
    // one more is not stored
    script.two(b'A', 511, 1);
    script.two(b'A', 510, 511);
    script.alone(b'B');
    script.ask(500, 511);
    script.ask(20, 511);
    script.ask(511, 510);
    for (x, y) in [(511, 511), (0, 1), (1, 0), (512, 1), (1, 512), (65_535, 511)] {
        script.two(b'C', x, y);
    }
    // room of one removed can be used again
    script.two(b'D', 510, 511);
    script.two(b'A', 511, 500);
    script.alone(b'T');
    script.alone(b'B');
    script.alone(b'T');
    script.ask(511, 509);
    script.ask(510, 511);
    script.two(b'A', 511, 2);
    // all assignments of one element
    script.two(b'U', 509, 0);
    script.alone(b'B');
    script.ask(509, 510);
    script.ask(508, 510);
    script.ask(509, 509);
}

/// Cycles, elements that are not there on a chain, a foreign and a short index, random tables.
fn odd_tables(script: &mut Script, random: &mut Random) {
    script.alone(b'N');
    for id in [1, 2, 3, 5, 511] {
        script.two(b'K', id, 4);
    }
    for (x, y) in [(1, 2), (2, 1), (2, 3), (3, 4), (4, 5), (5, 0), (0, 511), (6, 6)] {
        script.two(b'A', x, y);
    }
    script.alone(b'B');
    for (x, y) in [(1, 1), (1, 3), (3, 1), (3, 5), (5, 511), (1, 511), (4, 5), (5, 4), (6, 6)] {
        script.ask(x, y);
    }
    // an element that comes and goes, a kind that is none
    script.two(b'K', 4, 3);
    script.alone(b'T');
    script.alone(b'B');
    script.ask(3, 4);
    script.two(b'K', 4, 6);
    script.two(b'C', 3, 4);
    script.two(b'Y', 4, 6);
    script.two(b'C', 3, 4);
    script.alone(b'B');
    script.alone(b'T');
    // a foreign index, a short one
    script.two(b'F', 64 * 3, 1);
    script.two(b'I', 3, 7);
    script.alone(b'T');
    script.alone(b'L');
    script.alone(b'B');
    script.alone(b'T');
    // random tables
    for _ in 0..12 {
        script.alone(b'N');
        let most = random.between(2, 40);
        for _ in 0..60 {
            let kind = random.below(8);
            let letter = if kind > 5 { b'Y' } else { b'K' };
            script.two(letter, random.between(1, most), kind);
        }
        let mut given = std::collections::BTreeSet::new();
        for _ in 0..random.between(0, 80) {
            let pair = (random.below(most + 1), random.below(most + 1));
            if given.insert(pair) {
                script.two(b'A', pair.0, pair.1);
            }
        }
        script.alone(b'B');
        script.alone(b'T');
        for _ in 0..12 {
            script.ask(random.between(1, most), random.between(1, most));
        }
    }
}

/// Memory that holds a table to its last allowed count, and memory spoilt by each line of what a table must be.
fn spoilt(script: &mut Script) {
    let table = |script: &mut Script| {
        script.alone(b'N');
        for id in [1, 2, 3] {
            script.two(b'K', id, 2);
        }
        // assignments stand from word 776 on, child * 512 + container
        script.two(b'A', 1, 2);
        script.two(b'A', 1, 3);
    };
    // as many associations and prohibitions as there can be, all of zeros
    table(script);
    script.step(b'W', 2, 0, 1_000);
    script.step(b'W', 3, 0, 200);
    script.two(b'C', 1, 3);
    // four ids in each list of the last prohibition, and its last place taken
    script.step(b'W', 7_967, 0, 4 * 8 + 4);
    script.step(b'W', 7_975, 0, 1);
    script.two(b'C', 1, 3);
    // a word in a place of a prohibition that no id takes is no fault
    table(script);
    for (word, value) in [(3, 1), (5_779, 7), (5_778, 8), (5_780, 7), (5_786, u32::MAX)] {
        script.step(b'W', word, 0, value);
        script.two(b'C', 1, 2);
    }
    let ways: [&[(u32, u32)]; 11] = [
        &[(0, 0)],
        &[(0, u32::MAX)],
        &[(1, 2_001)],
        &[(2, 1_001)],
        &[(3, 201)],
        // the second assignment not above the first, its child not below 512
        &[(777, 514)],
        &[(777, 513)],
        &[(777, 262_144)],
        // one assignment more than there are: its word is 0
        &[(1, 3)],
        // a prohibition with five inclusions, with five exclusions
        &[(3, 1), (5_778, 40)],
        &[(3, 1), (5_778, 5)],
    ];
    for way in ways {
        table(script);
        script.two(b'C', 1, 2);
        for (word, value) in way {
            script.step(b'X', *word, 0, *value);
        }
        script.two(b'C', 1, 2);
    }
    // every step about the table is refused
    script.two(b'A', 1, 2);
    script.two(b'D', 1, 2);
    script.two(b'U', 1, 0);
    script.two(b'K', 1, 2);
    script.alone(b'B');
    script.alone(b'L');
    script.alone(b'T');
}

/// Numbers of every width at places all over the bytes, read back, neighbours too, and reads past the end.
fn bits(script: &mut Script, random: &mut Random) {
    for width in 1..=32 {
        let at = random.below(480);
        script.step(b'P', width, at, random.bits() as u32);
        script.two(b'G', width, at);
        script.two(b'G', 32, at.saturating_sub(31));
        script.two(b'G', 32, at);
    }
    script.step(b'P', 32, 480, u32::MAX);
    for (n, at) in [(32, 480), (1, 511), (1, 512), (32, 481), (17, 495), (18, 495), (1, 65_535)] {
        script.two(b'G', n, at);
    }
}
