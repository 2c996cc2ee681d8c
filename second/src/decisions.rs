//! The scripts of the program `try_decide`: steps on a table, its index, a request and lent rows, and what they answer.
//!
//! A step is nine bytes: a letter, two numbers `a`, `b` of two bytes, and one, `v`, of four, the high byte first.
//! From step to step a script keeps the memory's words, the index's bytes, how many of both are lent, a request, and
//! a prohibition that is being made.
//!
//! | step | does | prints |
//! |---|---|---|
//! | `L` | lends the first a words of memory, of 8,193, and the first b bytes of the index, of 32,769, from now on | |
//! | `N` | makes the words the empty table | `R 1` for another length |
//! | `W` | puts v at word a | |
//! | `K` | gives element a kind b, 0 for none | `R 2` for a b above 5 |
//! | `U` | gives process a user b, 0 for none | `R 2` for a b above 511 |
//! | `A` | puts in the assignment of a to b | `R 3` where it is there, `R 10` at the limit |
//! | `S` | puts in the association of attribute a, target b and rights v | `R 3`, `R 10` |
//! | `P` | begins a prohibition: sort a / 2, form a % 2, subject b, rights v, no inclusions | |
//! | `J` | its inclusions: a, b and the halves of v, up to the first 0 | |
//! | `X` | its exclusions, likewise, and puts it in | `R 3`, `R 10` |
//! | `B` | builds the index | `R 1`, `R 2` |
//! | `Z` | makes each byte of the index a | |
//! | `F` | makes the index's bytes foreign ones, from the seed v; of 256 about a are not 0 | |
//! | `T` | makes the bit of a and b in the index v, 0 or 1 | |
//! | `Q` | the request is: process a, operation b, first argument v, no other | |
//! | `M` | its second and third argument are a and b | |
//! | `V` | its number a is v: 0 process, 1 operation, 2 to 4 the arguments | |
//! | `D` | asks it plainly, v times | `G alternative`, `D` or `R n`, once |
//! | `I` | asks it by the index, v times | the same |
//! | `C` | asks it plainly, then by the index | both |
//! | `E` | asks for the explanation, with v rows lent, which hold numbers of their own before | `G alternative count`, `D count` or `R n`; the rows, and the first one beyond |
//!
//! On memory that holds no table `K`, `U`, `A`, `S`, `X`, `B`, `D`, `I`, `C` and `E` print `R 1`. Where a step before takes a
//! number as the id of an element it takes its remainder by 512, of a process by 256. Any other letter does nothing.

use crate::decide::{decide, Answer};
use crate::explain::{explain_into, Row};
use crate::index::build_index_into;
use crate::lent::decide_by_bits;
use crate::refusal::{ALREADY_THERE, NO_ROOM, NO_TABLE, OUT_OF_RANGE};
use crate::words::{
    clear, holds_table, table, Group, Table, ASSIGNMENTS, ASSOCIATIONS, KINDS, PROHIBITIONS, USERS,
};
use std::hint::black_box;
use std::rc::Rc;

/// As many words, bytes and rows there are to lend from.
const ALL_WORDS: usize = 8_193;
const ALL_BYTES: usize = 32_769;
const ALL_ROWS: usize = 1_600;

/// Up to four ids, as the steps `J` and `X` list them.
fn list(a: u32, b: u32, v: u32) -> Vec<u32> {
    [a, b, v >> 16, v & 0xffff].into_iter().take_while(|id| *id != 0).collect()
}

/// What row i holds before an explanation.
fn unused_row(i: usize) -> Row {
    let field = |place: usize| (1_000_000 + 8 * i + place) as u32;
    Row {
        alternative: field(0),
        argument: field(1),
        right: field(2),
        cause: field(3),
        number: field(4),
        attribute: field(5),
        target: field(6),
        rights: field(7),
    }
}

/// The state that a script works on.
pub(crate) struct State {
    words: Vec<u32>,
    index: Vec<u8>,
    /// How many words and bytes are lent.
    lent: (usize, usize),
    /// Process, operation, arguments.
    pub(crate) request: [u32; 5],
    /// The first two words of the prohibition's record, and its inclusions.
    prohibition: ([u32; 2], Vec<u32>),
    /// The table, once it was read and until a word may change.
    table: Option<Rc<Table>>,
    pub(crate) printed: String,
}

impl State {
    pub(crate) fn new() -> State {
        State {
            words: vec![0; ALL_WORDS],
            index: vec![0; ALL_BYTES],
            lent: (ALL_WORDS - 1, ALL_BYTES - 1),
            request: [0; 5],
            prohibition: ([0; 2], Vec::new()),
            table: None,
            printed: String::new(),
        }
    }

    fn say(&mut self, line: &str) {
        self.printed.push_str(line);
        self.printed.push('\n');
    }

    fn refuse(&mut self, number: u32) {
        self.say(&format!("R {number}"));
    }

    /// The lent words. Whoever takes them may change them.
    fn lent_words(&mut self) -> &mut [u32] {
        self.table = None;
        &mut self.words[..self.lent.0]
    }

    fn lent_index(&mut self) -> &mut [u8] {
        &mut self.index[..self.lent.1]
    }

    fn holds_table(&self) -> bool {
        holds_table(&self.words[..self.lent.0])
    }

    /// The table that the lent words hold, if they hold one.
    pub(crate) fn table(&mut self) -> Option<Rc<Table>> {
        if self.table.is_none() && self.holds_table() {
            self.table = Some(Rc::new(table(&self.words[..self.lent.0])));
        }
        self.table.clone()
    }

    /// Makes the words the empty table.
    fn clear(&mut self) {
        if !clear(self.lent_words()) {
            self.refuse(NO_TABLE);
        }
    }

    /// Puts a record in.
    fn put(&mut self, group: &Group, record: &[u32]) {
        if group.has(&self.words, record) {
            self.refuse(ALREADY_THERE);
        } else if !group.put(self.lent_words(), record) {
            self.refuse(NO_ROOM);
        }
    }

    /// A step that changes the table.
    fn change(&mut self, letter: u8, a: u32, b: u32, v: u32) {
        if !self.holds_table() {
            return self.refuse(NO_TABLE);
        }
        match letter {
            b'K' if b > 5 => self.refuse(OUT_OF_RANGE),
            b'K' => self.lent_words()[KINDS + a as usize % 512] = b,
            b'U' if b > 511 => self.refuse(OUT_OF_RANGE),
            b'U' => self.lent_words()[USERS + a as usize % 256] = b,
            b'A' => self.put(&ASSIGNMENTS, &[a % 512 * 512 + b % 512]),
            b'S' => self.put(&ASSOCIATIONS, &[a % 512 * 512 + b % 512, v]),
            _ => {
                let ([head, rights], inclusions) = self.prohibition.clone();
                let exclusions = list(a, b, v);
                let mut record = vec![head, rights, (inclusions.len() * 8 + exclusions.len()) as u32];
                record.extend(inclusions);
                record.extend(exclusions);
                record.resize(PROHIBITIONS.width, 0);
                self.put(&PROHIBITIONS, &record);
            }
        }
    }

    /// A step that changes the index.
    fn change_index(&mut self, letter: u8, a: u32, b: u32, v: u32) {
        match letter {
            b'B' => match self.table() {
                None => self.refuse(NO_TABLE),
                Some(table) => {
                    if let Err(number) = build_index_into(&table.policy, self.lent_index()) {
                        self.refuse(number);
                    }
                }
            },
            b'Z' => self.lent_index().fill(a as u8),
            b'F' => {
                let mut seed = v;
                for byte in self.lent_index() {
                    seed = seed.wrapping_mul(1_103_515_245).wrapping_add(12_345);
                    *byte = if seed >> 16 & 255 < a { (seed >> 24) as u8 } else { 0 };
                }
            }
            _ => {
                let (x, y) = (a as usize % 512, b as usize % 512);
                if let Some(byte) = self.lent_index().get_mut(64 * x + y / 8) {
                    let mask = 128 >> (y % 8);
                    *byte = if v % 2 == 1 { *byte | mask } else { *byte & !mask };
                }
            }
        }
    }

    /// Asks the request some times, plainly or by the index, and says the answer once.
    fn ask(&mut self, by_index: bool, times: u32) {
        let [process, operation, first, second, third] = self.request;
        let arguments = [first, second, third];
        let Some(table) = self.table() else { return self.refuse(NO_TABLE) };
        let index = &self.index[..self.lent.1];
        let mut answer = Answer::Deny;
        for _ in 0..times.max(1) {
            let process = black_box(process);
            answer = if by_index {
                decide_by_bits(&table, index, process, operation, arguments)
            } else {
                decide(&table.policy, process, operation, arguments)
            };
            black_box(answer);
        }
        match answer {
            Answer::Grant(alternative) => self.say(&format!("G {alternative}")),
            Answer::Deny => self.say("D"),
            Answer::Refused(number) => self.refuse(number),
        }
    }

    /// Asks for the explanation, with `room` rows lent.
    fn explain(&mut self, room: usize) {
        let [process, operation, first, second, third] = self.request;
        let mut rows: Vec<Row> = (0..room).map(unused_row).collect();
        let (answer, count) = match self.table() {
            None => (Answer::Refused(NO_TABLE), 0),
            Some(table) => explain_into(&table.policy, process, operation, [first, second, third], &mut rows),
        };
        match answer {
            Answer::Grant(alternative) => self.say(&format!("G {alternative} {count}")),
            Answer::Deny => self.say(&format!("D {count}")),
            Answer::Refused(number) => self.refuse(number),
        }
        for row in rows.iter().take(count + 1) {
            let Row { alternative, argument, right, cause, number, attribute, target, rights } = row;
            self.say(&format!(
                "{alternative} {argument} {right} {cause} {number} {attribute} {target} {rights}"
            ));
        }
    }

    /// One step.
    pub(crate) fn step(&mut self, letter: u8, a: u32, b: u32, v: u32) {
        match letter {
            b'L' => {
                self.table = None;
                self.lent = (a as usize % (ALL_WORDS + 1), b as usize % (ALL_BYTES + 1));
            }
            b'N' => self.clear(),
            b'W' => self.lent_words().iter_mut().skip(a as usize).take(1).for_each(|word| *word = v),
            b'P' => self.prohibition = ([a / 2 % 4 * 1024 + b % 512 * 2 + a % 2, v], Vec::new()),
            b'J' => self.prohibition.1 = list(a, b, v),
            b'Q' => self.request = [a, b, v, 0, 0],
            b'M' => self.request[3..].copy_from_slice(&[a, b]),
            b'V' => self.request[a as usize % 5] = v,
            b'D' | b'I' => self.ask(letter == b'I', v),
            b'C' => {
                self.ask(false, 1);
                self.ask(true, 1);
            }
            b'E' => self.explain(v as usize % (ALL_ROWS + 1)),
            b'B' | b'Z' | b'F' | b'T' => self.change_index(letter, a, b, v),
            b'K' | b'U' | b'A' | b'S' | b'X' => self.change(letter, a, b, v),
            _ => {}
        }
    }
}

/// What the program prints for a script.
pub fn decisions(script: &[u8]) -> String {
    let mut state = State::new();
    for step in script.chunks_exact(9) {
        let two = |i: usize| u32::from(step[i]) << 8 | u32::from(step[i + 1]);
        state.step(step[0], two(1), two(3), two(5) << 16 | two(7));
    }
    state.printed
}
