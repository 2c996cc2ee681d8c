//! The script that is stored for the program `try_command`.

use crate::command::{Command, GivenProhibition};
use crate::histories::State;
use crate::make::{self, command, Random};
use crate::policy::{Policy, Prohibition};
use crate::words::{write, ASSOCIATIONS, KINDS, PROHIBITIONS, USERS, WORDS};

/// Kinds, as the steps take them.
const USER: u32 = 1;
const USER_ATTRIBUTE: u32 = 2;
const OBJECT: u32 = 3;
const OBJECT_ATTRIBUTE: u32 = 4;

/// As many answers stand on a line.
const LINE: u32 = 50;

/// Commands, in short.
fn class(id: u32) -> Command {
    Command::CreateClass { id }
}

fn element(id: u32, kind: u32, container: u32) -> Command {
    Command::CreateElement { id, kind, container }
}

fn assign(child: u32, container: u32) -> Command {
    Command::Assign { child, container }
}

fn deassign(child: u32, container: u32) -> Command {
    Command::Deassign { child, container }
}

fn delete(id: u32) -> Command {
    Command::DeleteElement { id }
}

fn associate(attribute: u32, target: u32, rights: u32) -> Command {
    Command::CreateAssociation { attribute, rights, target }
}

fn dissociate(attribute: u32, target: u32, rights: u32) -> Command {
    Command::DeleteAssociation { attribute, rights, target }
}

fn start(id: u32, user: u32) -> Command {
    Command::StartProcess { id, user }
}

fn end(id: u32) -> Command {
    Command::EndProcess { id }
}

/// The fields of a prohibition: sort, subject, form, rights.
fn prohibition(fields: [u32; 4], inclusions: &[u32], exclusions: &[u32]) -> GivenProhibition {
    let [sort, subject, form, rights] = fields;
    GivenProhibition::new(sort, subject, form, rights, inclusions, exclusions)
}

fn prohibit(fields: [u32; 4], inclusions: &[u32], exclusions: &[u32]) -> Command {
    Command::CreateProhibition(prohibition(fields, inclusions, exclusions))
}

fn permit(fields: [u32; 4], inclusions: &[u32], exclusions: &[u32]) -> Command {
    Command::DeleteProhibition(prohibition(fields, inclusions, exclusions))
}

/// A script as it is written. It is run while it is written, so that a step can follow from what stands.
struct Script {
    bytes: Vec<u8>,
    state: State,
    /// How many answers stand on the line.
    answers: u32,
    /// The form and the lists of the prohibition that commands are given.
    lists: (u32, Vec<u32>, Vec<u32>),
}

impl Script {
    fn step(&mut self, letter: u8, a: u32, b: u32, c: u32) {
        self.bytes.push(letter);
        for number in [a, b, c] {
            self.bytes.extend_from_slice(&number.to_be_bytes());
        }
        self.state.step(letter, a, b, c);
    }

    /// A step that prints a letter.
    fn answer(&mut self, letter: u8, a: u32, b: u32, c: u32) {
        if self.answers == LINE {
            self.end_line();
        }
        self.answers += 1;
        self.step(letter, a, b, c);
    }

    fn end_line(&mut self) {
        if self.answers > 0 {
            self.step(b'.', 0, 0, 0);
            self.answers = 0;
        }
    }

    /// The empty table, and its index.
    fn new_table(&mut self) {
        self.answer(b'z', 0, 0, 0);
        self.build();
    }

    fn build(&mut self) {
        self.answer(b'b', 0, 0, 0);
    }

    fn lend(&mut self, words: u32, bytes: u32) {
        self.step(b'L', words, bytes, 0);
    }

    /// Makes each byte of the index the same.
    fn fill(&mut self, byte: u32) {
        self.step(b'Z', byte, 0, 0);
    }

    fn word(&mut self, place: usize, value: u32) {
        self.step(b'W', place as u32, value, 0);
    }

    /// Says the state.
    fn say(&mut self) {
        self.end_line();
        self.step(b'=', 0, 0, 0);
    }

    /// Says the state and lists the words.
    fn list(&mut self) {
        self.end_line();
        self.step(b'=', 1, 0, 0);
    }

    /// The form and the lists; ids that rise by one go into one step.
    fn lists(&mut self, given: &GivenProhibition) {
        let lists = (given.form, given.inclusions.clone(), given.exclusions.clone());
        if lists == self.lists {
            return;
        }
        self.lists = lists;
        self.step(b'F', given.form, 0, 0);
        for (letter, ids) in [(b'I', &given.inclusions), (b'X', &given.exclusions)] {
            let mut rest = &ids[..];
            while let Some(first) = rest.first() {
                let run = rest.iter().zip(0..).take_while(|(id, i)| **id == first.wrapping_add(*i)).count();
                self.step(letter, *first, run as u32, 0);
                rest = &rest[run..];
            }
        }
    }

    fn run(&mut self, command: &Command) {
        match command {
            Command::CreateClass { id } => self.answer(b'c', *id, 0, 0),
            Command::CreateElement { id, kind, container } => self.answer(b'e', *id, *kind, *container),
            Command::Assign { child, container } => self.answer(b'a', *child, *container, 0),
            Command::Deassign { child, container } => self.answer(b'd', *child, *container, 0),
            Command::DeleteElement { id } => self.answer(b'f', *id, 0, 0),
            Command::CreateAssociation { attribute, rights, target } => {
                self.answer(b's', *attribute, *target, *rights)
            }
            Command::DeleteAssociation { attribute, rights, target } => {
                self.answer(b't', *attribute, *target, *rights)
            }
            Command::CreateProhibition(given) | Command::DeleteProhibition(given) => {
                self.lists(given);
                let letter = if command.number() == 7 { b'p' } else { b'q' };
                self.answer(letter, given.sort, given.subject, given.rights)
            }
            Command::StartProcess { id, user } => self.answer(b'u', *id, *user, 0),
            Command::EndProcess { id } => self.answer(b'v', *id, 0, 0),
        }
    }

    fn run_all(&mut self, commands: impl IntoIterator<Item = Command>) {
        for command in commands {
            self.run(&command);
        }
    }

    fn year(&mut self, seed: u32, count: u32, every: u32) {
        self.end_line();
        self.step(b'Y', seed, count, every);
    }

    /// The policy that stands.
    fn policy(&self) -> &Policy {
        self.state.policy.as_ref().expect("the words hold a table")
    }
}

/// The stored script.
pub fn histories_script() -> Vec<u8> {
    let mut script = Script { bytes: Vec::new(), state: State::new(), answers: 0, lists: Default::default() };
    let mut random = Random::new(7);
    no_table(&mut script);
    house(&mut script);
    other_lengths(&mut script);
    foreign_indexes(&mut script);
    element_ids(&mut script);
    process_ids(&mut script);
    assignments(&mut script);
    associations(&mut script);
    prohibitions(&mut script);
    cycles(&mut script, &mut random);
    out_of_range_first(&mut script);
    no_rights(&mut script);
    places_not_taken(&mut script);
    absent_subject(&mut script);
    unsound(&mut script, &mut random);
    random_histories(&mut script, &mut random);
    years(&mut script);
    script.bytes
}

/// Every command once, each accepted by the small house with the prohibition of [`furnish`].
fn good() -> [Command; 11] {
    [
        class(12),
        element(13, OBJECT, 7),
        assign(9, 8),
        deassign(10, 7),
        delete(511),
        associate(3, 9, 1),
        dissociate(3, 7, 3),
        prohibit([2, 2, 0, 5], &[7], &[8]),
        permit([1, 5, 1, 1], &[7], &[8]),
        start(3, 6),
        end(2),
    ]
}

/// 01's small house, by commands.
fn build_house(script: &mut Script) {
    script.new_table();
    script.run_all([class(1), class(2)]);
    for (id, kind, container) in [
        (3, USER_ATTRIBUTE, 2),
        (4, USER_ATTRIBUTE, 1),
        (5, USER, 3),
        (6, USER, 3),
        (7, OBJECT_ATTRIBUTE, 2),
        (8, OBJECT_ATTRIBUTE, 1),
        (9, OBJECT, 7),
        (10, OBJECT, 7),
        (511, OBJECT, 8),
    ] {
        script.run(&element(id, kind, container));
    }
    script.run_all([assign(5, 4), assign(10, 8), associate(3, 7, 3), associate(4, 8, 1)]);
    script.run_all([start(1, 5), start(2, 6)]);
}

/// The small house and a prohibition.
fn furnish(script: &mut Script) {
    build_house(script);
    script.run(&prohibit([1, 5, 1, 1], &[7], &[8]));
}

/// Memory that holds no table: each command is refused with 1, whatever else is wrong.
fn no_table(script: &mut Script) {
    script.say();
    script.run_all(good());
    script.build();
    script.run_all([class(0), element(0, 9, 600), assign(512, 512), end(0)]);
    script.lend(8_192, 7);
    script.run_all(good());
    script.lend(8_192, 32_768);
    script.say();
}

/// 01's cases K11 and K12, and refusals of every command, on the small house.
fn house(script: &mut Script) {
    furnish(script);
    script.list();
    // K11, K12
    script.run_all([assign(7, 7), assign(7, 9), assign(9, 7)]);
    script.run_all([deassign(9, 7), delete(7), deassign(10, 7), assign(10, 7)]);
    // out of range
    for id in [0, 512, 513, 65_537, u32::MAX] {
        script.run_all([class(id), element(id, OBJECT, 7), element(12, OBJECT, id), assign(id, 7)]);
        script.run_all([assign(9, id), deassign(id, 7), deassign(9, id), delete(id)]);
        script.run_all([
            associate(id, 7, 1),
            associate(3, id, 1),
            dissociate(id, 7, 3),
            dissociate(3, id, 3),
        ]);
        script.run_all([
            start(4, id),
            prohibit([1, id, 0, 1], &[7], &[]),
            prohibit([3, id, 0, 1], &[7], &[]),
        ]);
        script.run_all([prohibit([1, 5, 0, 1], &[id], &[]), prohibit([1, 5, 0, 1], &[], &[id])]);
        script.run_all([permit([1, id, 1, 1], &[7], &[8]), permit([1, 5, 1, 1], &[7, id], &[8])]);
    }
    for id in [0, 256, 257, 511, 65_537, u32::MAX] {
        script.run_all([start(id, 5), end(id), prohibit([2, id, 0, 1], &[7], &[])]);
        script.run(&permit([2, id, 0, 1], &[7], &[]));
    }
    for number in [0, 2, 4, 6, 258, u32::MAX] {
        script.run_all([element(12, number, 7), prohibit([number, 1, 0, 1], &[7], &[])]);
        script.run_all([prohibit([1, 5, number, 1], &[7], &[]), permit([number, 5, 1, 1], &[7], &[8])]);
        script.run(&permit([1, 5, number, 1], &[7], &[8]));
    }
    // already there, before everything behind it
    script.run_all([class(9), element(9, OBJECT, 400), element(9, USER, 1), element(9, 5, 7), start(1, 400)]);
    script.run_all([start(1, 7), associate(3, 7, 3), prohibit([1, 5, 1, 1], &[7], &[8])]);
    // absent
    script.run_all([element(12, OBJECT, 400), element(12, 5, 400), element(12, OBJECT, 12), assign(400, 7)]);
    script.run_all([assign(9, 400), assign(400, 400), deassign(400, 7), deassign(9, 400), deassign(7, 9)]);
    script.run_all([deassign(9, 8), delete(400), associate(400, 7, 1), associate(3, 400, 0)]);
    script.run_all([associate(1, 400, 1), dissociate(3, 7, 1), dissociate(3, 400, 3), dissociate(3, 7, 0)]);
    script.run_all([prohibit([1, 400, 0, 1], &[7], &[]), prohibit([2, 3, 0, 1], &[7], &[])]);
    script.run_all([prohibit([3, 400, 0, 0], &[7], &[]), prohibit([1, 5, 0, 1], &[7], &[400])]);
    script.run_all([prohibit([1, 7, 0, 0], &[400], &[]), prohibit([2, 5, 0, 1], &[7], &[])]);
    script.run_all([permit([1, 5, 0, 1], &[7], &[8]), permit([1, 5, 1, 3], &[7], &[8])]);
    script.run_all([permit([1, 5, 1, 1], &[8], &[7]), permit([1, 5, 1, 1], &[7, 8], &[])]);
    script.run_all([
        permit([1, 5, 1, 1], &[7], &[]),
        permit([1, 5, 1, 0], &[], &[]),
        permit([3, 5, 1, 1], &[7], &[8]),
    ]);
    script.run_all([start(4, 400), end(4)]);
    // another kind or pairing
    for kind in 1..=5 {
        for container in [1, 3, 5, 7, 9] {
            let free = 12 + 10 * kind + container;
            script.run_all([element(free, kind, container), delete(free)]);
        }
    }
    for child in [1, 3, 5, 7, 9] {
        for container in [2, 4, 6, 8, 511] {
            script.run_all([assign(child, container), deassign(child, container)]);
            script.run_all([associate(child, container, 4), dissociate(child, container, 4)]);
        }
        script.run_all([assign(child, child), start(9, child), end(9)]);
        script.run_all([prohibit([1, child, 0, 0], &[7], &[]), prohibit([3, child, 0, 2], &[7], &[])]);
        script.run_all([prohibit([1, 6, 0, 2], &[child], &[]), prohibit([1, 6, 0, 2], &[], &[child])]);
        script.run_all([permit([3, child, 0, 2], &[7], &[]), permit([1, 6, 0, 2], &[child], &[])]);
        script.run(&permit([1, 6, 0, 2], &[], &[child]));
    }
    // rights and lists
    script.run_all([associate(3, 8, 0), associate(3, 8, u32::MAX), dissociate(3, 8, u32::MAX)]);
    let lists: [&[u32]; 8] =
        [&[], &[7], &[3, 4, 7, 8], &[3, 4, 7, 8, 9], &[8, 7], &[7, 7], &[3, 4, 8, 7], &[4, 7, 8, 511]];
    for inclusions in lists {
        for exclusions in lists {
            script.run(&prohibit([3, 3, 0, 1 << 31], inclusions, exclusions));
        }
    }
    script.run(&prohibit([3, 3, 1, 0], &[7], &[]));
    script.say();
    for inclusions in lists {
        for exclusions in lists {
            script.run(&permit([3, 3, 0, 1 << 31], inclusions, exclusions));
        }
    }
    // in use: by an assignment, an association's attribute or target, a process, a prohibition's subject or list
    script.run_all([class(20), element(21, USER_ATTRIBUTE, 20), element(22, OBJECT, 20), delete(20)]);
    script.run_all([associate(21, 22, 1), delete(21), delete(22), dissociate(21, 22, 1), delete(22)]);
    script.run_all([element(22, USER, 21), start(255, 22), delete(22), delete(21), end(255)]);
    for [sort, subject] in [[1, 22], [3, 21]] {
        script.run_all([prohibit([sort, subject, 0, 1], &[7], &[]), delete(subject)]);
        script.run_all([permit([sort, subject, 0, 1], &[7], &[])]);
    }
    script.run_all([element(23, OBJECT_ATTRIBUTE, 20), element(24, OBJECT, 23)]);
    script.run_all([prohibit([1, 22, 0, 1], &[24], &[]), delete(24), permit([1, 22, 0, 1], &[24], &[])]);
    script.run_all([
        prohibit([1, 22, 0, 1], &[], &[7, 24]),
        delete(24),
        permit([1, 22, 0, 1], &[], &[7, 24]),
    ]);
    // a process of an element's number is another thing
    script.run_all([start(24, 22), prohibit([2, 24, 0, 1], &[7], &[]), end(24), delete(24)]);
    script.run_all([permit([2, 24, 0, 1], &[7], &[]), prohibit([1, 22, 0, 1], &[7], &[]), end(24)]);
    // ids that became free are used again
    script.run_all([element(24, USER, 21), class(23), delete(23), class(23), delete(23), delete(24)]);
    script.run_all([
        delete(22),
        permit([1, 22, 0, 1], &[7], &[]),
        delete(22),
        delete(21),
        delete(20),
        delete(20),
    ]);
    script.list();
}

/// Memory and an index of other lengths: refused with 1 and 2, and nothing is written.
fn other_lengths(script: &mut Script) {
    furnish(script);
    // words and bytes behind what is lent
    script.lend(8_193, 32_769);
    script.word(8_192, 77);
    script.say();
    for (words, bytes) in [
        (8_191, 32_768),
        (8_193, 32_768),
        (0, 32_768),
        (8_192, 32_767),
        (8_192, 32_769),
        (8_192, 0),
        (8_191, 32_767),
        (8_193, 32_769),
        (0, 0),
    ] {
        script.lend(words, bytes);
        script.run_all(good());
        script.run_all([class(0), class(9), delete(400), assign(7, 7), prohibit([1, 5, 0, 0], &[], &[])]);
        if words != 8_192 {
            script.answer(b'z', 0, 0, 0);
        }
        script.build();
        script.lend(8_193, 32_769);
        script.say();
    }
    script.lend(8_192, 32_768);
    script.say();
    // what is free in the memory stays as it is
    for place in [4, 7, KINDS, USERS, 4_776, 5_775, 7_976, 8_191] {
        script.word(place, 1_000_000 + place as u32);
    }
    script.run_all(good());
    script.list();
}

/// A foreign index: commands that can change what is within what repair it, the others leave it, and refused ones too.
fn foreign_indexes(script: &mut Script) {
    for byte in [255, 0] {
        for command in good() {
            furnish(script);
            script.fill(byte);
            // refused
            script.run_all([class(9), element(9, USER, 3), assign(7, 7), deassign(9, 7), delete(7)]);
            script.run_all([associate(3, 7, 3), dissociate(3, 7, 1), prohibit([1, 5, 1, 1], &[7], &[8])]);
            script.run_all([permit([1, 5, 1, 0], &[7], &[8]), start(1, 5), end(3)]);
            script.say();
            script.run(&command);
            script.say();
        }
        // one after the other: the last six leave what the first five repaired
        furnish(script);
        for command in good() {
            if command.changes_containment() {
                script.fill(byte);
            }
            script.run(&command);
        }
        script.say();
        // the other way round
        furnish(script);
        script.fill(byte);
        for command in good().into_iter().rev() {
            script.run(&command);
        }
        script.list();
    }
}

/// Ids 1 to 511; with all of them taken 3, never 10.
fn element_ids(script: &mut Script) {
    script.new_table();
    script.run_all([class(512), class(0), class(511), class(511), element(512, OBJECT_ATTRIBUTE, 511)]);
    script.run_all([
        element(1, OBJECT_ATTRIBUTE, 512),
        element(0, OBJECT_ATTRIBUTE, 511),
        delete(512),
        delete(0),
    ]);
    script.run_all((1..=510).map(class));
    script.say();
    script.run_all([class(1), class(256), class(511), class(512), element(300, OBJECT, 511)]);
    script.run_all([
        delete(511),
        class(511),
        delete(255),
        element(255, OBJECT, 511),
        delete(511),
        delete(255),
    ]);
    script.say();
}

/// Processes 1 to 255; with all of them there 3, never 10.
fn process_ids(script: &mut Script) {
    script.new_table();
    script.run_all([class(1), element(2, USER_ATTRIBUTE, 1), element(3, USER, 2), element(511, USER, 2)]);
    script.run_all([start(0, 3), start(256, 3), end(0), end(256), end(255)]);
    script.run_all((1..=255).map(|id| start(id, if id % 2 == 0 { 3 } else { 511 })));
    script.say();
    script.run_all([start(256, 3), start(255, 3), start(1, 511), end(255), end(255), start(255, 511)]);
    script.run_all([end(1), delete(511), start(1, 3)]);
    script.say();
}

/// Assignment 2,000, one more, and room used again.
fn assignments(script: &mut Script) {
    script.new_table();
    script.run_all((1..=10).map(class));
    for id in 11..=210 {
        for class in 1..=10 {
            script.run(&if class == 1 { element(id, OBJECT_ATTRIBUTE, 1) } else { assign(id, class) });
        }
    }
    script.say();
    // the limit comes last
    script.run_all([assign(210, 11), element(211, OBJECT_ATTRIBUTE, 1), assign(210, 10), assign(210, 210)]);
    script.run_all([
        assign(210, 1),
        element(210, OBJECT, 1),
        element(211, OBJECT, 212),
        element(211, USER, 1),
    ]);
    script.run_all([assign(1, 2), assign(211, 1), assign(512, 1), class(211), delete(211)]);
    script.run_all([deassign(11, 10), assign(210, 11), assign(11, 10), element(211, OBJECT, 11), delete(11)]);
    script.run_all([
        delete(210),
        assign(11, 10),
        element(511, OBJECT, 11),
        assign(511, 210),
        assign(11, 511),
    ]);
    script.say();
    script.run_all((2..=10).map(|class| assign(511, class)));
    script.run_all([element(210, USER_ATTRIBUTE, 5), delete(511), element(511, USER, 210), assign(12, 511)]);
    script.say();
}

/// Association 1,000, one more, and room used again.
fn associations(script: &mut Script) {
    script.new_table();
    script.run_all([
        class(1),
        element(2, USER_ATTRIBUTE, 1),
        element(3, OBJECT, 1),
        element(511, USER_ATTRIBUTE, 2),
    ]);
    for i in 0..1_000u32 {
        // in no order of attribute, target and rights
        let (attribute, target) = ([2, 511][i as usize % 2], [511, 3, 2][i as usize % 3]);
        script.run(&associate(attribute, target, (i + 1).wrapping_mul(2_654_435_761)));
    }
    script.say();
    script.run_all([
        associate(2, 3, 7),
        associate(2, 511, 2_654_435_761),
        associate(2, 3, 0),
        associate(3, 3, 7),
    ]);
    script.run_all([associate(2, 4, 7), associate(2, 512, 7), dissociate(2, 3, 7)]);
    script.run_all([dissociate(2, 511, 2_654_435_761), associate(2, 3, 7), associate(2, 3, 8)]);
    script.run_all([delete(3), delete(511)]);
    script.say();
}

/// Prohibition 200, one more, and room used again.
fn prohibitions(script: &mut Script) {
    script.new_table();
    script.run_all([
        class(1),
        element(2, USER_ATTRIBUTE, 1),
        element(3, USER, 2),
        element(511, OBJECT, 1),
        start(255, 3),
    ]);
    let lists: [[&[u32]; 2]; 4] = [[&[2], &[]], [&[], &[2, 511]], [&[511], &[2]], [&[2, 511], &[2, 511]]];
    let subjects = [[1, 3], [2, 255], [3, 2]];
    let one = |i: u32, name: fn([u32; 4], &[u32], &[u32]) -> Command| {
        let [inclusions, exclusions] = lists[i as usize / 50];
        let [sort, subject] = subjects[i as usize % 3];
        name([sort, subject, i / 25 % 2, (i + 1).wrapping_mul(2_654_435_761)], inclusions, exclusions)
    };
    script.run_all((0..200).map(|i| one(i, prohibit)));
    script.say();
    script.run_all([
        prohibit([3, 2, 0, 1], &[2], &[]),
        one(150, prohibit),
        prohibit([3, 2, 0, 0], &[2], &[]),
    ]);
    script.run_all([
        prohibit([3, 2, 0, 1], &[], &[]),
        prohibit([3, 3, 0, 1], &[2], &[]),
        delete(511),
        end(255),
    ]);
    script.run_all([
        one(100, permit),
        one(100, permit),
        prohibit([3, 2, 0, 1], &[2], &[]),
        one(100, prohibit),
    ]);
    script.say();
    script.run_all((0..200).rev().map(|i| one(i, permit)));
    script.run_all([end(255), permit([3, 2, 0, 1], &[2], &[]), delete(511)]);
    script.say();
}

/// A chain of 500 elements, which nothing closes, and lists that are too long.
fn cycles(script: &mut Script, random: &mut Random) {
    script.new_table();
    let mut ids: Vec<u32> = (2..=501).collect();
    ids[499] = 511;
    random.shuffle(&mut ids);
    script.run(&class(1));
    for (place, id) in ids.iter().enumerate() {
        let container = if place == 0 { 1 } else { ids[place - 1] };
        script.run(&element(*id, OBJECT_ATTRIBUTE, container));
    }
    script.say();
    let (top, bottom) = (ids[0], ids[499]);
    let middle = ids.iter().position(|id| *id == 511).expect("511 is one of them");
    // loops through all of the chain, through parts of it, of two, of one, through element 511
    script.run_all([assign(top, bottom), assign(ids[1], bottom), assign(top, ids[498]), assign(top, ids[1])]);
    script.run_all([
        assign(ids[250], ids[251]),
        assign(ids[250], ids[250]),
        assign(top, top),
        assign(bottom, bottom),
    ]);
    script.run_all([assign(511, 511), assign(511, bottom), assign(top, 511), assign(511, ids[middle - 1])]);
    script.run_all([assign(ids[middle - 1], 511), assign(ids[middle - 1], ids[middle + 1]), assign(1, top)]);
    script.run_all([assign(1, 1), assign(bottom, 1), assign(bottom, top), assign(bottom, 511)]);
    // a link less, and nothing is closed any more
    script.run_all([deassign(ids[300], ids[299]), assign(ids[300], 1), deassign(ids[300], ids[299])]);
    script.run_all([
        assign(ids[299], bottom),
        assign(top, ids[400]),
        assign(ids[300], ids[299]),
        assign(ids[400], top),
    ]);
    script.say();
    // other kinds
    script.run_all([element(502, USER_ATTRIBUTE, 1), element(503, USER_ATTRIBUTE, 502), assign(502, 503)]);
    script.run_all([element(504, USER, 503), element(505, OBJECT, 511), assign(504, 504), assign(505, 505)]);
    script.run_all([assign(502, 502), assign(503, 504), assign(511, 505), assign(510, 510), assign(0, 0)]);
    script.run_all([assign(512, 512), assign(504, 502), assign(503, 502), assign(505, bottom)]);
    // a list of 300 ids and of 5, of 4; the ids of all of it are judged first
    let from = |first: u32, count: u32| (first..first + count).collect::<Vec<u32>>();
    for (first, count) in [
        (2, 300),
        (2, 320),
        (2, 5),
        (2, 4),
        (3, 0),
        (1, 300),
        (0, 300),
        (202, 300),
        (203, 300),
        (205, 300),
        (206, 300),
        (213, 300),
    ] {
        for other in [&[][..], &[511]] {
            script.run(&prohibit([1, 504, 0, 1], &from(first, count), other));
            script.run(&prohibit([3, 502, 1, 0], other, &from(first, count)));
            script.run(&permit([3, 502, 1, 1], other, &from(first, count)));
        }
    }
    script.run_all([permit([1, 504, 0, 1], &from(2, 4), &[]), permit([1, 504, 0, 1], &from(2, 4), &[511])]);
    // the list as it was before a longer one
    script.run_all([
        prohibit([1, 504, 0, 1], &[7, 9, 11, 13], &[]),
        permit([1, 504, 0, 1], &[7, 9, 11, 13], &[]),
    ]);
    script.say();
}

/// Relations that stand, with a number above 511 in them: out of range comes before already there and absent.
fn out_of_range_first(script: &mut Script) {
    furnish(script);
    // the attribute of association 1, the inclusion of prohibition 1
    script.word(ASSOCIATIONS.start, 600 * 512 + 7);
    script.word(PROHIBITIONS.start + 3, 600);
    script.run_all([associate(600, 7, 3), dissociate(600, 7, 3), associate(3, 7, 0), dissociate(3, 7, 3)]);
    script.run_all([prohibit([1, 5, 1, 1], &[600], &[8]), permit([1, 5, 1, 1], &[600], &[8])]);
    script.run_all([permit([1, 5, 1, 1], &[7], &[8]), delete(3), delete(8)]);
    script.list();
}

/// A prohibition and an association that stand without a right: what deletes them is refused with 6.
fn no_rights(script: &mut Script) {
    furnish(script);
    script.word(PROHIBITIONS.start + 1, 0);
    script.word(ASSOCIATIONS.start + 1, 0);
    script.run_all([permit([1, 5, 1, 0], &[7], &[8]), permit([1, 5, 1, 1], &[7], &[8])]);
    script.run_all([dissociate(3, 7, 0), dissociate(3, 7, 3), prohibit([1, 5, 1, 0], &[7], &[8])]);
    script.list();
}

/// A prohibition with other words than 0 in the places that no id takes: it is there, is not put in again, and can be deleted.
fn places_not_taken(script: &mut Script) {
    furnish(script);
    script.word(PROHIBITIONS.start + 5, 7);
    script.word(PROHIBITIONS.start + 10, u32::MAX);
    script.run_all([prohibit([1, 5, 1, 1], &[7], &[8]), permit([1, 5, 1, 1], &[7], &[8, 10])]);
    script.list();
    script.run_all([permit([1, 5, 1, 1], &[7], &[8]), permit([1, 5, 1, 1], &[7], &[8])]);
    script.run_all([prohibit([1, 5, 1, 1], &[7], &[8])]);
    script.list();
}

/// A prohibition that stands and names a process that is not there: ending that process is refused with 4, not with 9.
fn absent_subject(script: &mut Script) {
    furnish(script);
    script.run_all([prohibit([2, 2, 0, 5], &[7], &[8]), end(2)]);
    script.word(USERS + 2, 0);
    script.run_all([end(2), start(2, 6), end(2)]);
    script.list();
}

/// The table of a policy, sound or not, word by word.
fn put_table(script: &mut Script, policy: &Policy) {
    let mut words = vec![0; WORDS];
    write(policy, &mut words);
    script.answer(b'z', 0, 0, 0);
    for (place, word) in words.iter().enumerate().skip(1).filter(|(_, word)| **word != 0) {
        script.word(place, *word);
    }
}

/// Tables that no command leaves: every line is judged as it is written, and what is removed may be of wrong kinds.
fn unsound(script: &mut Script, random: &mut Random) {
    for size in 0..24 {
        let most = random.between(4, 12);
        let id = |random: &mut Random| random.between(1, most) as u16;
        let mut policy = Policy::new();
        for x in 1..=most as u16 {
            if random.chance(85) {
                policy.elements.insert(x, random.between(1, 5) as u8);
            }
        }
        for _ in 0..random.between(2, 3 * most) {
            policy.assignments.insert((id(random), id(random)));
        }
        for process in 1..=2 {
            policy.processes.insert(process, id(random));
        }
        for _ in 0..random.between(1, 6) {
            policy.associations.insert((id(random), id(random), random.below(3)));
        }
        for _ in 0..random.between(1, 5) {
            let ids =
                |random: &mut Random| -> Vec<u16> { (0..random.below(3)).map(|_| id(random)).collect() };
            policy.prohibitions.insert(Prohibition {
                sort: random.between(1, 3) as u8,
                subject: id(random),
                form: random.below(2) as u8,
                rights: random.below(3),
                inclusions: ids(random),
                exclusions: ids(random),
            });
        }
        put_table(script, &policy);
        script.build();
        for _ in 0..64 {
            let command = match random.below(10) {
                0..=2 => removal(random, script.policy()),
                3..=6 => Some(small_command(random, most + 1)),
                _ => None,
            };
            let command = command.unwrap_or_else(|| make::command(random, script.policy()));
            script.run(&command);
        }
        if size < 12 {
            script.list();
        } else {
            script.say();
        }
    }
}

/// A command over small numbers, whatever stands.
fn small_command(random: &mut Random, most: u32) -> Command {
    let [a, b, c] = [0; 3].map(|_| random.between(1, most));
    let rights = random.below(3);
    match random.below(11) {
        0 => class(a),
        1 => element(a, b % 6, c),
        2 => assign(a, b),
        3 => deassign(a, b),
        4 => delete(a),
        5 => associate(a, b, rights),
        6 => dissociate(a, b, rights),
        7 => prohibit([1 + a % 3, b, a % 2, rights], &[c][..random.below(2) as usize], &[a]),
        8 => permit([1 + a % 3, b, a % 2, rights], &[c], &[a][..random.below(2) as usize]),
        9 => start(a % 4, b),
        _ => end(a % 4),
    }
}

/// A command that removes something that stands.
fn removal(random: &mut Random, policy: &Policy) -> Option<Command> {
    let one = |random: &mut Random, count: usize| random.below(count.max(1) as u32) as usize;
    match random.below(3) {
        0 => {
            let place = one(random, policy.assignments.len());
            policy.assignments.iter().nth(place).map(|(x, y)| deassign((*x).into(), (*y).into()))
        }
        1 => {
            let place = one(random, policy.associations.len());
            let standing = policy.associations.iter().nth(place);
            standing.map(|(x, y, rights)| dissociate((*x).into(), (*y).into(), *rights))
        }
        _ => {
            let place = one(random, policy.prohibitions.len());
            let standing = policy.prohibitions.iter().nth(place);
            standing.map(|standing| Command::DeleteProhibition(make::given(standing)))
        }
    }
}

/// Histories of commands, good and bad, from the empty table on; the short ones are listed.
fn random_histories(script: &mut Script, random: &mut Random) {
    for (length, every) in [(200, 200), (200, 200), (400, 200), (400, 200), (1_000, 500), (5_000, 500)] {
        script.new_table();
        for i in 1..=length {
            let command = command(random, script.policy());
            script.run(&command);
            if i % every == 0 {
                match length {
                    0..=400 => script.list(),
                    _ => script.say(),
                }
            }
        }
    }
}

/// Years on a table that grows full and stays so.
fn years(script: &mut Script) {
    script.new_table();
    script.run_all((1..=8).map(class));
    script.year(1, 20_000, 5_000);
    script.year(2, 100_000, 5_000);
}
