//! The scripts of the program `try_command`: commands on a table and its index, and what they answer and leave.
//!
//! A step is thirteen bytes: a letter and three numbers `a`, `b`, `c` of four bytes, the high byte first. From step to step
//! a script keeps the memory's words, the index's bytes, how many of both are lent, and the form and the two lists of the
//! prohibition that commands are given.
//!
//! | step | does |
//! |---|---|
//! | `L` | lends the first a words of memory, of 8,193, and the first b bytes of the index, of 32,769, from now on |
//! | `F` | the prohibition's form is a, both its lists are empty |
//! | `I`, `X` | puts the b ids from a on behind the inclusions, the exclusions, which come last; there is room for 640 ids |
//! | `W` | puts b at word a |
//! | `Z` | makes each byte of the index a |
//! | `.` | ends the line |
//! | `=` | says the state; if a is 1, it lists the words |
//! | `Y` | runs the first b commands of the year of seed a, and says the sum of their answers and the state after each c |
//! | `a`, `d` | assign a to b, deassign a from b |
//! | `b` | builds the index |
//! | `c` | create class a |
//! | `e` | create element a, of kind b, in c |
//! | `f` | delete element a |
//! | `p`, `q` | create, delete prohibition: sort a, subject b, rights c |
//! | `s`, `t` | create, delete association: attribute a, target b, rights c |
//! | `u` | start process a of user b |
//! | `v` | end process a |
//! | `z` | makes the words the empty table |
//!
//! This program keeps the table as a policy. So `W` puts only words by which a policy is written (kinds up to 5, ids up to 511, groups
//! in their order) where a command is accepted later, else any.
//!
//! A step with a small letter prints a letter: the first of its sort for "accepted", or as many letters behind it as the
//! refusal number says. The sorts are the answers to "is this index the table's?" after the step: `a` yes, `A` no, `0`
//! refused with 1, `!` refused with 2.
//!
//! The state is seven lines, of the lent words and bytes. Of each group a letter, how many of its words are not 0, and their sum; before
//! these, where they are listed, place and value of each that is not 0. The head's are always listed.
//!
//! | line | words |
//! |---|---|
//! | `H` | 0 to 7: the mark, how many assignments, associations, prohibitions |
//! | `E` | 8 to 519: the kinds of elements |
//! | `U` | 520 to 775: the users of processes |
//! | `A` | 776 to 2775: assignments |
//! | `S` | 2776 to 5775: associations |
//! | `P` | 5776 and on: prohibitions, and what is free |
//! | `I` | the index's bytes; only their sum |
//!
//! A sum begins at 0; with each word it becomes sum * 1,103,515,245 + word + 12,345, cut to 32 bits. The year's line is `Y`,
//! how many commands there were, and the sum of their answers: 0 for "accepted" or the refusal number, but of each
//! 64th command the code of the letter that a step would print.

use crate::command::{run, Command, GivenProhibition};
use crate::index::{build_index, INDEX_BYTES};
use crate::policy::Policy;
use crate::refusal::{NO_TABLE, OUT_OF_RANGE};
use crate::words::{
    clear, holds_table, table, write, ASSIGNMENTS, ASSOCIATIONS, KINDS, PROHIBITIONS, USERS, WORDS,
};
use crate::year::Year;

/// As many words and bytes there are to lend from.
const ALL_WORDS: usize = WORDS + 1;
const ALL_BYTES: usize = INDEX_BYTES + 1;

/// The letter and the words of each group.
const GROUPS: [(char, usize, usize); 6] = [
    ('H', 0, KINDS),
    ('E', KINDS, USERS),
    ('U', USERS, ASSIGNMENTS.start),
    ('A', ASSIGNMENTS.start, ASSOCIATIONS.start),
    ('S', ASSOCIATIONS.start, PROHIBITIONS.start),
    ('P', PROHIBITIONS.start, ALL_WORDS),
];

/// How often each command ended how: by the command's number, then by 0 for "accepted" or the refusal number.
pub type Tally = [[u32; 11]; 11];

fn mix(sum: u32, word: u32) -> u32 {
    sum.wrapping_mul(1_103_515_245).wrapping_add(word).wrapping_add(12_345)
}

/// The state that a script works on.
pub(crate) struct State {
    words: Vec<u32>,
    /// The policy that the first 8,192 words are, where they hold a table.
    pub(crate) policy: Option<Policy>,
    /// The words are still to be written from the policy.
    words_wait: bool,
    index: Vec<u8>,
    /// The index's first bytes are still to be built from the policy.
    index_waits: bool,
    /// Is the index the policy's? Once it was asked, or is known.
    is_index: Option<bool>,
    /// How many words and bytes are lent.
    lent: (usize, usize),
    form: u32,
    lists: [Vec<u32>; 2],
    pub(crate) tally: Tally,
    pub(crate) printed: String,
}

impl State {
    pub(crate) fn new() -> State {
        State {
            words: vec![0; ALL_WORDS],
            policy: None,
            words_wait: false,
            index: vec![0; ALL_BYTES],
            index_waits: false,
            is_index: None,
            lent: (WORDS, INDEX_BYTES),
            form: 0,
            lists: [Vec::new(), Vec::new()],
            tally: Tally::default(),
            printed: String::new(),
        }
    }

    /// The words as they are now.
    fn words(&mut self) -> &mut [u32] {
        if let (true, Some(policy)) = (self.words_wait, &self.policy) {
            write(policy, &mut self.words[..WORDS]);
        }
        self.words_wait = false;
        &mut self.words
    }

    /// The index as it is now.
    fn index(&mut self) -> &mut [u8] {
        if let (true, Some(policy)) = (self.index_waits, &self.policy) {
            self.index[..INDEX_BYTES].copy_from_slice(&build_index(policy));
        }
        self.index_waits = false;
        &mut self.index
    }

    /// The words were changed by hand: they may hold another table, or none, and the index may be another's.
    fn reread(&mut self) {
        let words = &self.words[..WORDS];
        self.policy = holds_table(words).then(|| table(words).policy);
        self.is_index = None;
    }

    /// The policy of the lent words, where they hold a table.
    fn lent_policy(&mut self) -> Result<&mut Policy, u32> {
        let lends_all = self.lent.0 == WORDS;
        self.policy.as_mut().filter(|_| lends_all).ok_or(NO_TABLE)
    }

    /// Is the lent index the table's? Refused with 1 and 2.
    fn matching(&mut self) -> Result<bool, u32> {
        self.lent_policy()?;
        if self.lent.1 != INDEX_BYTES {
            return Err(OUT_OF_RANGE);
        }
        if self.is_index.is_none() {
            let built = self.policy.as_ref().map(build_index);
            self.is_index = Some(built.as_deref() == Some(&self.index()[..INDEX_BYTES]));
        }
        Ok(self.is_index == Some(true))
    }

    /// The index is the policy's from now on.
    fn build(&mut self) {
        self.index_waits = true;
        self.is_index = Some(true);
    }

    /// The letter for an answer.
    fn letter(&mut self, answer: Result<(), u32>) -> u8 {
        let first = match self.matching() {
            Ok(true) => b'a',
            Ok(false) => b'A',
            Err(NO_TABLE) => b'0',
            Err(_) => b'!',
        };
        first + answer.err().unwrap_or(0) as u8
    }

    fn clear(&mut self) -> Result<(), u32> {
        self.words();
        if !clear(&mut self.words[..self.lent.0]) {
            return Err(NO_TABLE);
        }
        // a waiting index is that of the policy before
        self.index();
        self.reread();
        Ok(())
    }

    fn build_lent(&mut self) -> Result<(), u32> {
        self.lent_policy()?;
        if self.lent.1 != INDEX_BYTES {
            return Err(OUT_OF_RANGE);
        }
        self.build();
        Ok(())
    }

    /// Runs a command on what is lent.
    fn command(&mut self, command: &Command) -> Result<(), u32> {
        let index_length = self.lent.1;
        let answer = self.lent_policy().and_then(|policy| run(policy, index_length, command));
        self.tally[command.number()][answer.err().unwrap_or(0) as usize] += 1;
        if answer.is_ok() {
            self.words_wait = true;
            if command.changes_containment() {
                self.build();
            }
        }
        answer
    }

    /// The command of a step.
    fn given(&self, letter: u8, a: u32, b: u32, c: u32) -> Command {
        let prohibition = || GivenProhibition::new(a, b, self.form, c, &self.lists[0], &self.lists[1]);
        match letter {
            b'c' => Command::CreateClass { id: a },
            b'e' => Command::CreateElement { id: a, kind: b, container: c },
            b'a' => Command::Assign { child: a, container: b },
            b'd' => Command::Deassign { child: a, container: b },
            b'f' => Command::DeleteElement { id: a },
            b's' => Command::CreateAssociation { attribute: a, target: b, rights: c },
            b't' => Command::DeleteAssociation { attribute: a, target: b, rights: c },
            b'p' => Command::CreateProhibition(prohibition()),
            b'q' => Command::DeleteProhibition(prohibition()),
            b'u' => Command::StartProcess { id: a, user: b },
            b'v' => Command::EndProcess { id: a },
            _ => panic!("no step has the letter {}", letter as char),
        }
    }

    /// The seven lines of the state.
    fn say(&mut self, listed: bool) {
        let (words, bytes) = self.lent;
        for (letter, from, to) in GROUPS {
            // what is not lent counts as 0
            let group: Vec<u32> = (from..to).map(|i| if i < words { self.words()[i] } else { 0 }).collect();
            let there: Vec<(usize, u32)> =
                group.iter().copied().enumerate().filter(|(_, word)| *word != 0).collect();
            self.printed.push_str(&format!("{letter} "));
            for (place, word) in there.iter().filter(|_| listed || letter == 'H') {
                self.printed.push_str(&format!("{place}:{word} "));
            }
            let sum = group.iter().fold(0, |sum, word| mix(sum, *word));
            self.printed.push_str(&format!("{} {sum}\n", there.len()));
        }
        let sum = self.index()[..bytes].iter().fold(0, |sum, byte| mix(sum, (*byte).into()));
        self.printed.push_str(&format!("I {sum}\n"));
    }

    /// A year of commands.
    fn year(&mut self, seed: u32, count: u32, every: u32) {
        let mut sum = 0;
        for (done, command) in (1..=count).zip(Year::new(seed)) {
            let answer = self.command(&command);
            let code = match done % 64 {
                0 => self.letter(answer).into(),
                _ => answer.err().unwrap_or(0),
            };
            sum = mix(sum, code);
            if done % every == 0 {
                self.printed.push_str(&format!("Y {done} {sum}\n"));
                self.say(false);
            }
        }
    }

    /// One step.
    pub(crate) fn step(&mut self, letter: u8, a: u32, b: u32, c: u32) {
        match letter {
            b'L' => self.lent = ((a as usize).min(ALL_WORDS), (b as usize).min(ALL_BYTES)),
            b'F' => (self.form, self.lists) = (a, Default::default()),
            b'I' | b'X' => {
                let list = &mut self.lists[usize::from(letter == b'X')];
                list.extend((0..b).map(|i| a.wrapping_add(i)));
            }
            b'W' => {
                // a waiting index is that of the policy before
                self.index();
                let words = self.lent.0;
                self.words()[..words].iter_mut().skip(a as usize).take(1).for_each(|word| *word = b);
                self.reread();
            }
            b'Z' => {
                let bytes = self.lent.1;
                self.index()[..bytes].fill(a as u8);
                self.is_index = None;
            }
            b'.' => self.printed.push('\n'),
            b'=' => self.say(a == 1),
            b'Y' => self.year(a, b, c),
            _ => {
                let answer = match letter {
                    b'z' => self.clear(),
                    b'b' => self.build_lent(),
                    _ => self.command(&self.given(letter, a, b, c)),
                };
                let letter = self.letter(answer);
                self.printed.push(letter as char);
            }
        }
    }
}

fn run_script(script: &[u8]) -> State {
    let mut state = State::new();
    for step in script.chunks_exact(13) {
        let four = |i: usize| step[i..i + 4].iter().fold(0, |number, byte| number << 8 | u32::from(*byte));
        state.step(step[0], four(1), four(5), four(9));
    }
    state
}

/// What the program prints for a script.
pub fn histories(script: &[u8]) -> String {
    run_script(script).printed
}

/// How often each command of a script, the years counted in, ended how.
pub fn tally(script: &[u8]) -> Tally {
    run_script(script).tally
}
