//! What the tests and the long run share: the proved code and the second program side by side, on things made from a seed.
#![allow(dead_code)]

use quandrilof::{calls, Decision, Explanation, Prohibition, Refusal, Request, Row, Table};
use quandrilof::{INDEX_BYTES, ROWS_MOST, TABLE_WORDS};
use second::command::GivenProhibition;
use second::image::Written;
use second::make::{self, Random, Size};
use second::policy::{ATTRIBUTES, USER, USER_ATTRIBUTE};
use second::{lent, words, Answer, Command, Machine, Policy};
use std::collections::BTreeMap;

/// The seed of the random tests: QUANDRILOF_SEED, or always the same.
pub fn seed() -> u64 {
    match std::env::var("QUANDRILOF_SEED") {
        Ok(text) => text.parse().expect("QUANDRILOF_SEED is a number"),
        Err(_) => 20_261_115,
    }
}

/// What was seen, and how often.
#[derive(Default)]
pub struct Seen(BTreeMap<String, u64>);

impl Seen {
    pub fn note(&mut self, what: String) {
        *self.0.entry(what).or_default() += 1;
    }

    /// Each of these, named one after the other between commas, was seen.
    pub fn expect(&self, all: &str) {
        for one in all.split(", ") {
            assert!(self.0.contains_key(one), "{one} is not among {:?}", self.0);
        }
    }

    /// How often it was seen.
    pub fn times(&self, what: &str) -> u64 {
        self.0.get(what).copied().unwrap_or(0)
    }

    pub fn lines(&self) -> impl Iterator<Item = String> + '_ {
        self.0.iter().map(|(what, times)| format!("{what}: {times}"))
    }
}

/// Says how a failing round can be repeated.
struct Round<'a> {
    name: &'a str,
    seed: u64,
    number: u64,
}

impl Drop for Round<'_> {
    fn drop(&mut self) {
        if std::thread::panicking() {
            println!("{}: round {} of QUANDRILOF_SEED={} failed", self.name, self.number, self.seed);
        }
    }
}

/// Runs so many rounds, each with chances of its own that follow from the seed and the round's number.
pub fn rounds(name: &str, seed: u64, count: u64, one: impl Fn(&mut Random, u64, &mut Seen)) -> Seen {
    println!("{name}: {count} rounds, QUANDRILOF_SEED={seed}");
    let mut seen = Seen::default();
    for number in 0..count {
        let _round = Round { name, seed, number };
        let own = Random::new(seed).bits().wrapping_add(number);
        one(&mut Random::new(Random::new(own).bits()), number, &mut seen);
    }
    seen
}

/// A request as the second program takes it: process, operation, arguments.
pub type Asked = (u32, u32, [u32; 3]);

pub fn request(asked: Asked) -> Request {
    let (process, operation, [first, second, third]) = asked;
    Request { process, operation, first, second, third }
}

/// The refusal as the second program has it: its number.
pub fn numbered<T>(answer: Result<T, Refusal>) -> Result<T, u32> {
    answer.map_err(Refusal::number)
}

/// The decision as the second program has it.
pub fn answered(answer: Result<Decision, Refusal>) -> Answer {
    match answer {
        Ok(Decision::Grant(alternative)) => Answer::Grant(alternative),
        Ok(Decision::Deny) => Answer::Deny,
        Err(refusal) => Answer::Refused(refusal.number()),
    }
}

fn row(given: &second::Row) -> Row {
    let second::Row { alternative, argument, right, cause, number, attribute, target, rights } = *given;
    Row { alternative, argument, right, cause, number, attribute, target, rights }
}

fn fields(given: &GivenProhibition) -> Prohibition<'_> {
    Prohibition {
        sort: given.sort,
        subject: given.subject,
        form: given.form,
        rights: given.rights,
        inclusions: &given.inclusions,
        exclusions: &given.exclusions,
    }
}

/// Runs a command on a table.
pub fn run(table: &mut Table, command: &Command) -> Result<(), u32> {
    numbered(match command {
        Command::CreateClass { id } => table.create_class(*id),
        Command::CreateElement { id, kind, container } => table.create_element(*id, *kind, *container),
        Command::Assign { child, container } => table.assign(*child, *container),
        Command::Deassign { child, container } => table.deassign(*child, *container),
        Command::DeleteElement { id } => table.delete_element(*id),
        Command::CreateAssociation { attribute, rights, target } => {
            table.create_association(*attribute, *rights, *target)
        }
        Command::DeleteAssociation { attribute, rights, target } => {
            table.delete_association(*attribute, *rights, *target)
        }
        Command::CreateProhibition(given) => table.create_prohibition(&fields(given)),
        Command::DeleteProhibition(given) => table.delete_prohibition(&fields(given)),
        Command::StartProcess { id, user } => table.start_process(*id, *user),
        Command::EndProcess { id } => table.end_process(*id),
    })
}

/// Runs a command on lent memory.
pub fn run_lent(words: &mut [u32], index: &mut [u8], command: &Command) -> Result<(), u32> {
    numbered(match command {
        Command::CreateClass { id } => calls::create_class(words, index, *id),
        Command::CreateElement { id, kind, container } => {
            calls::create_element(words, index, *id, *kind, *container)
        }
        Command::Assign { child, container } => calls::assign(words, index, *child, *container),
        Command::Deassign { child, container } => calls::deassign(words, index, *child, *container),
        Command::DeleteElement { id } => calls::delete_element(words, index, *id),
        Command::CreateAssociation { attribute, rights, target } => {
            calls::create_association(words, index, *attribute, *rights, *target)
        }
        Command::DeleteAssociation { attribute, rights, target } => {
            calls::delete_association(words, index, *attribute, *rights, *target)
        }
        Command::CreateProhibition(given) => calls::create_prohibition(words, index, &fields(given)),
        Command::DeleteProhibition(given) => calls::delete_prohibition(words, index, &fields(given)),
        Command::StartProcess { id, user } => calls::start_process(words, index, *id, *user),
        Command::EndProcess { id } => calls::end_process(words, index, *id),
    })
}

/// The words of a policy's table, zero wherever no record stands.
pub fn words_of(policy: &Policy) -> Vec<u32> {
    let mut made = vec![0; TABLE_WORDS];
    assert!(words::clear(&mut made));
    words::write(policy, &mut made);
    made
}

/// The policy's table.
pub fn table_of(policy: &Policy) -> Table {
    Table::load(&second::save(policy)).expect("the image of a sound policy")
}

/// Are the words, the index and the image what the second program has for the policy?
pub fn same(table: &Table, policy: &Policy, index: &[u8]) {
    assert!(table.words() == words_of(policy), "other words");
    assert!(table.index() == index, "another index");
    assert!(table.save() == second::save(policy), "another image");
}

/// Another number: a border of ids, or this one.
fn border(random: &mut Random, number: u32) -> u32 {
    random.pick(&[0, 1, 255, 256, 511, 512, u32::MAX, number, number, number]).expect("ten numbers")
}

/// A request of borders: every operation and two that are none, arguments also where none is used.
fn border_request(random: &mut Random, policy: &Policy) -> Asked {
    let (process, operation, arguments) = make::request(random, policy);
    let operation = if random.chance(50) { random.below(11) } else { operation };
    (border(random, process), operation, arguments.map(|argument| border(random, argument)))
}

/// A request, mostly one that is not refused.
pub fn some_request(random: &mut Random, policy: &Policy) -> Asked {
    match random.chance(85) {
        true => make::request(random, policy),
        false => border_request(random, policy),
    }
}

/// What row i holds before it is lent.
fn unused(i: usize) -> Row {
    let i = i as u32;
    Row { alternative: i, argument: !i, right: 77, cause: i, number: !i, attribute: 7, target: i, rights: !i }
}

/// Lends so many rows for an explanation and compares the answer and every row.
fn explain_into(words: &[u32], asked: Asked, lent: usize, answer: Answer, rows: &[Row]) {
    let mut found: Vec<Row> = (0..lent).map(unused).collect();
    let mut expected = found.clone();
    let told = calls::explain(words, &request(asked), &mut found);
    let decision = match answer {
        _ if lent < rows.len() => Err(10),
        Answer::Grant(alternative) => Ok(Decision::Grant(alternative)),
        Answer::Deny => Ok(Decision::Deny),
        Answer::Refused(number) => Err(number),
    };
    if decision.is_ok() {
        expected[..rows.len()].copy_from_slice(rows);
    }
    let explanation = decision.map(|decision| Explanation { decision, rows: rows.len() });
    assert_eq!(numbered(told), explanation, "{asked:?}, {lent} rows");
    assert_eq!(found, expected, "{asked:?}, {lent} rows");
}

/// Asks plainly and for the explanation, with too few rows, as many as there are, and more. The words are the policy's.
pub fn ask(words: &[u32], policy: &Policy, asked: Asked, random: &mut Random, seen: &mut Seen) {
    let (process, operation, arguments) = asked;
    let second::Explanation { answer, rows } = second::explain(policy, process, operation, arguments);
    assert_eq!(second::decide(policy, process, operation, arguments), answer, "{asked:?}");
    assert_eq!(answered(calls::decide(words, &request(asked))), answer, "{asked:?}");

    let rows: Vec<Row> = rows.iter().map(row).collect();
    explain_into(words, asked, rows.len() + 1 + random.below(4) as usize, answer, &rows);
    explain_into(words, asked, rows.len(), answer, &rows);
    if !rows.is_empty() {
        explain_into(words, asked, random.below(rows.len() as u32) as usize, answer, &rows);
    }
    match answer {
        Answer::Grant(alternative) => seen.note(format!("grant {operation} {alternative}")),
        Answer::Refused(number) => seen.note(format!("request refused {number}")),
        Answer::Deny => {
            seen.note(format!("deny {operation}"));
            rows.iter().for_each(|row| seen.note(format!("cause {}", row.cause)));
        }
    }
}

/// Asks by an index, the table's or another.
pub fn ask_indexed(words: &[u32], policy: &Policy, index: &[u8], asked: Asked) {
    let (process, operation, arguments) = asked;
    let expected = second::decide_indexed(policy, index, process, operation, arguments);
    assert_eq!(answered(calls::decide_indexed(words, index, &request(asked))), expected, "{asked:?}");
}

/// Asks whether one element is within another.
pub fn ask_contains(words: &[u32], policy: &Policy, random: &mut Random, seen: &mut Seen) {
    let any: Vec<u16> = policy.elements.keys().copied().collect();
    let [x, y] = [0; 2].map(|_| {
        let there = random.pick(&any).map_or(1, u32::from);
        if random.chance(90) {
            there
        } else {
            border(random, there)
        }
    });
    // half of the pairs that are asked are chains
    let above: Vec<u16> = match u16::try_from(x) {
        Ok(x) if random.chance(50) => policy.reach(x).into_iter().collect(),
        _ => Vec::new(),
    };
    let y = random.pick(&above).map_or(y, u32::from);
    let expected = second::contains(policy, x, y);
    assert_eq!(numbered(calls::contains(words, x, y)), expected, "{x} within {y}");
    seen.note(format!("contains {expected:?}"));
}

/// Saves into bytes lent too few, as many as the image has, and more.
pub fn save_into(words: &[u32], image: &[u8], random: &mut Random) {
    let lengths = [image.len() - 1, random.below(image.len() as u32) as usize, image.len(), image.len() + 9];
    for lent in lengths {
        let mut found: Vec<u8> = (0..lent).map(|i| i as u8 ^ 0x5a).collect();
        let mut expected = found.clone();
        let told = if lent < image.len() {
            Err(10)
        } else {
            expected[..image.len()].copy_from_slice(image);
            Ok(image.len())
        };
        assert_eq!(numbered(calls::save(words, &mut found)), told, "{lent} bytes");
        assert!(found == expected, "{lent} bytes");
    }
}

/// A sound policy of this size: its image loaded and saved, its words and index, containment, decisions, explanations.
pub fn policy_round(random: &mut Random, size: Size, requests: u32, seen: &mut Seen) {
    let policy = make::policy(random, size);
    let index = second::build_index(&policy);
    let table = table_of(&policy);
    same(&table, &policy, &index);
    assert_eq!(calls::is_index(table.words(), &index), Ok(true));
    save_into(table.words(), &second::save(&policy), random);
    for _ in 0..requests {
        let asked = some_request(random, &policy);
        ask(table.words(), &policy, asked, random, seen);
        ask_indexed(table.words(), &policy, &index, asked);
        ask_contains(table.words(), &policy, random, seen);
        assert_eq!(table.decide(&request(asked)), table.decide_indexed(&request(asked)), "{asked:?}");
    }
    let asked = request(some_request(random, &policy));
    let (decision, rows) = match table.explained(&asked) {
        Ok((decision, rows)) => (Ok(decision), rows),
        Err(refusal) => (Err(refusal), Vec::new()),
    };
    let mut lent = vec![Row::default(); ROWS_MOST];
    let explained = table.explain(&asked, &mut lent);
    assert_eq!(explained, decision.map(|decision| Explanation { decision, rows: rows.len() }));
    assert!(lent[..rows.len()] == rows);
    seen.note("policy".to_string());
}

/// A prohibition, to be created or deleted, with lists of up to six ids in any order.
fn any_lists(random: &mut Random, policy: &Policy) -> Command {
    let sort = random.below(5);
    let subject = match sort {
        1 => make::element_id(random, policy, &[USER]),
        2 => make::process_id(random, policy),
        _ => make::element_id(random, policy, &[USER_ATTRIBUTE]),
    };
    let [inclusions, exclusions] = [0; 2].map(|_| {
        let length = random.below(7);
        let mut list: Vec<u32> = (0..length).map(|_| make::element_id(random, policy, &ATTRIBUTES)).collect();
        if random.chance(70) {
            list.sort_unstable();
        }
        list
    });
    let (form, rights) = (random.below(2), make::rights(random));
    let given = GivenProhibition { sort, subject, form, rights, inclusions, exclusions };
    match random.chance(90) {
        true => Command::CreateProhibition(given),
        false => Command::DeleteProhibition(given),
    }
}

/// The numbers that a command is given, without its lists.
fn numbers(command: &mut Command) -> Vec<&mut u32> {
    match command {
        Command::CreateClass { id } | Command::DeleteElement { id } | Command::EndProcess { id } => vec![id],
        Command::CreateElement { id, kind, container } => vec![id, kind, container],
        Command::Assign { child, container } | Command::Deassign { child, container } => {
            vec![child, container]
        }
        Command::CreateAssociation { attribute, rights, target }
        | Command::DeleteAssociation { attribute, rights, target } => vec![attribute, rights, target],
        Command::CreateProhibition(given) | Command::DeleteProhibition(given) => {
            vec![&mut given.sort, &mut given.subject, &mut given.form, &mut given.rights]
        }
        Command::StartProcess { id, user } => vec![id, user],
    }
}

/// A command, good or bad; some have a border as one of their numbers.
pub fn some_command(random: &mut Random, policy: &Policy) -> Command {
    let mut command = match random.chance(90) {
        true => make::command(random, policy),
        false => any_lists(random, policy),
    };
    if random.chance(10) {
        let mut numbers = numbers(&mut command);
        let place = random.below(numbers.len() as u32) as usize;
        *numbers[place] = border(random, *numbers[place]);
    }
    command
}

fn note_command(seen: &mut Seen, command: &Command, answer: Result<(), u32>) {
    let name = second::command::COMMAND_NAMES[command.number()];
    seen.note(match answer {
        Ok(()) => format!("{name} accepted"),
        Err(number) => format!("{name} refused {number}"),
    });
}

/// Runs a command on both and compares the answer, every word, every byte of the index, and the image.
pub fn step(table: &mut Table, machine: &mut Machine, command: &Command, seen: &mut Seen) {
    let before = table.clone();
    let expected = machine.run(command);
    assert_eq!(run(table, command), expected, "{command:?}");
    if expected.is_err() {
        assert!(table.words() == before.words(), "refused, it changed words: {command:?}");
        assert!(table.index() == before.index(), "refused, it changed the index: {command:?}");
    }
    same(table, &machine.policy, &machine.index);
    note_command(seen, command, expected);
}

/// A history of commands from a policy on, with requests in between.
pub fn history_round(random: &mut Random, size: Size, commands: u32, seen: &mut Seen) {
    let mut machine = Machine::holding(make::policy(random, size));
    let mut table = table_of(&machine.policy);
    for _ in 0..commands {
        let command = some_command(random, &machine.policy);
        step(&mut table, &mut machine, &command, seen);
        if random.chance(20) {
            let asked = some_request(random, &machine.policy);
            ask(table.words(), &machine.policy, asked, random, seen);
            ask_indexed(table.words(), &machine.policy, table.index(), asked);
            ask_contains(table.words(), &machine.policy, random, seen);
        }
    }
}

/// Bytes that are no policy's index, or the policy's own with some bits turned over.
fn other_index(random: &mut Random, policy: &Policy) -> Vec<u8> {
    if random.chance(60) {
        return make::foreign_index(random);
    }
    let mut index = second::build_index(policy);
    for _ in 0..random.between(1, 400) {
        let any: Vec<u16> = policy.elements.keys().copied().collect();
        let [x, y] = [0; 2].map(|_| random.pick(&any).unwrap_or(511));
        make::flip(&mut index, 512 * usize::from(x) + usize::from(y));
    }
    index
}

/// A foreign index: decisions take its bits for containment; commands answer as with the table's own and leave the same words, and
/// the first five make it the table's.
pub fn foreign_round(random: &mut Random, size: Size, cases: u32, seen: &mut Seen) {
    let policy = make::policy(random, size);
    let words = words_of(&policy);
    let index = other_index(random, &policy);
    assert_eq!(numbered(calls::is_index(&words, &index)), second::is_index(&policy, &index));
    for _ in 0..cases {
        ask_indexed(&words, &policy, &index, some_request(random, &policy));
        seen.note("decision by a foreign index".to_string());

        let command = some_command(random, &policy);
        let mut machine = Machine { policy: policy.clone(), index: index.clone() };
        let (mut words, mut index) = (words.clone(), index.clone());
        let expected = machine.run(&command);
        assert_eq!(run_lent(&mut words, &mut index, &command), expected, "{command:?}");
        assert!(words == words_of(&machine.policy), "other words: {command:?}");
        assert!(index == machine.index, "another index: {command:?}");
        seen.note(format!("command with a foreign index {expected:?}"));
    }
    let mut built = index.clone();
    assert_eq!(calls::build_index(&words, &mut built), Ok(()));
    assert!(built == second::build_index(&policy));
}

/// Loads an image into memory that holds this already, and compares the answer, every word, and what is saved then.
pub fn load_into(words: &mut [u32], image: &[u8], seen: &mut Seen) {
    let before = words.to_vec();
    let found = numbered(calls::load(words, image));
    let expected = second::load(image);
    assert_eq!(found, expected.as_ref().map(|_| ()).map_err(|number| *number), "{image:02x?}");
    match &expected {
        Ok(policy) => {
            assert!(words == words_of(policy), "other words: {image:02x?}");
            let mut saved = vec![0; image.len()];
            assert_eq!(calls::save(words, &mut saved), Ok(image.len()), "{image:02x?}");
            assert!(saved == image, "{saved:02x?} instead of {image:02x?}");
            seen.note("image accepted".to_string());
        }
        Err(number) => {
            assert!(words == before, "refused, it changed words: {image:02x?}");
            seen.note(format!("image refused {number}"));
        }
    }
}

/// Puts so many records more into a group of an image than a policy may have, or into each.
fn overfull(random: &mut Random, policy: &Policy) -> Vec<u8> {
    let mut written = Written::of(policy);
    let group = random.below(4);
    if group == 0 || group == 3 {
        while written.assignments.len() < 1_990 + random.below(58) as usize {
            written.assignments.push((random.between(1, 511), random.between(1, 511)));
        }
    }
    if group == 1 || group == 3 {
        while written.associations.len() < 990 + random.below(34) as usize {
            written.associations.push((random.between(1, 511), random.between(1, 511), random.bits() as u32));
        }
    }
    if let (true, Some(last)) = (group >= 2, written.prohibitions.last().cloned()) {
        written.prohibitions.resize(190 + random.below(66) as usize, last);
        written.prohibitions.iter_mut().for_each(|record| record.rights = random.bits() as u32);
    }
    written.assignments.sort_unstable();
    written.associations.sort_unstable();
    written.prohibitions.sort_by_key(|record| record.fields());
    written.count();
    let mut image = written.bytes();
    if random.chance(20) {
        image.pop();
    }
    image
}

/// Bytes without sense, mostly of form 1 and with small counts.
fn noise(random: &mut Random) -> Vec<u8> {
    let length = random.below(60);
    let mut image: Vec<u8> = (0..length).map(|_| random.bits() as u8).collect();
    for (place, byte) in image.iter_mut().enumerate().take(7) {
        if random.chance(80) {
            *byte = if place == 0 { 0x10 } else { random.below(4) as u8 };
        }
    }
    image
}

/// Sound and damaged images, loaded into memory that holds a table or no table.
pub fn image_round(random: &mut Random, size: Size, images: u32, seen: &mut Seen) {
    let policy = make::policy(random, size);
    let mut words = words_of(&policy);
    let mut table = table_of(&policy);
    for _ in 0..images {
        let image = match random.below(50) {
            0 => second::save(&policy),
            1 => overfull(random, &policy),
            2..=4 => noise(random),
            _ => make::damaged_image(random, &policy),
        };
        if random.chance(10) {
            words = (0..TABLE_WORDS).map(|_| random.bits() as u32).collect();
        }
        load_into(&mut words, &image, seen);
        if random.chance(25) {
            let before = table.clone();
            match (numbered(table.reload(&image)), second::load(&image)) {
                (Ok(()), Ok(policy)) => same(&table, &policy, &second::build_index(&policy)),
                (found, expected) => {
                    assert_eq!(found, expected.map(|_| ()), "{image:02x?}");
                    assert!(table.words() == before.words() && table.index() == before.index());
                }
            }
            assert_eq!(numbered(Table::load(&image).map(|_| ())), second::load(&image).map(|_| ()));
        }
    }
}

/// Every call that takes a table refuses this memory with 1, whatever index is lent, and leaves it.
pub fn is_no_table(words: &mut [u32], index: &mut [u8], random: &mut Random) {
    let before = (words.to_vec(), index.to_vec());
    let refused = Err(1);
    let policy = second::house::small_house().policy;
    let asked = request(some_request(random, &policy));
    let mut out = [0x5a; 80];
    let mut rows = [unused(3); 4];
    assert_eq!(numbered(calls::save(words, &mut out)), refused.map(|()| 0));
    assert_eq!(numbered(calls::build_index(words, index)), refused);
    assert_eq!(numbered(calls::is_index(words, index)), refused.map(|()| true));
    assert_eq!(numbered(calls::contains(words, random.below(600), 1)), refused.map(|()| true));
    assert_eq!(answered(calls::decide(words, &asked)), Answer::Refused(1));
    assert_eq!(answered(calls::decide_indexed(words, index, &asked)), Answer::Refused(1));
    assert_eq!(numbered(calls::explain(words, &asked, &mut rows)).err(), Some(1));
    for _ in 0..4 {
        let command = some_command(random, &policy);
        assert_eq!(run_lent(words, index, &command), refused, "{command:?}");
    }
    assert!(before.0 == words && before.1 == index && out == [0x5a; 80] && rows == [unused(3); 4]);
}

/// Puts other numbers into some words of a table.
fn spoil(random: &mut Random, words: &mut [u32]) {
    for _ in 0..random.between(1, 3) {
        let (counter, start, width) =
            random.pick(&[(1, 776, 1), (2, 2_776, 2), (3, 5_776, 11)]).expect("three groups");
        let used = (words[counter] as usize).min(200) * width;
        let place = match random.below(10) {
            0 => random.below(4) as usize,
            1 => 4 + random.below(4) as usize,
            2 => 8 + random.below(512) as usize,
            3 => 520 + random.below(256) as usize,
            4 => random.below(TABLE_WORDS as u32) as usize,
            _ => start + random.below(used as u32 + 1) as usize,
        };
        words[place] = match random.below(8) {
            0 => 0,
            1 => random.bits() as u32,
            2 => random.below(8),
            3 => words[place] ^ 1 << random.below(32),
            4 => words[place].wrapping_add(1),
            5 => words[place].wrapping_sub(1),
            6 => random.below(512 * 512),
            _ => make::wild_id(random),
        };
    }
}

/// The words of a table with zeros in the places of prohibitions that no id takes.
fn counting(words: &[u32]) -> Vec<u32> {
    let mut counting = words.to_vec();
    words::PROHIBITIONS.fill_places(&mut counting, || 0);
    counting
}

/// Memory that no call leaves: a table with other numbers in some words. It holds no table, or one of a policy that may be unsound.
pub fn memory_round(random: &mut Random, size: Size, cases: u32, seen: &mut Seen) {
    let sound = words_of(&make::policy(random, size));
    for _ in 0..cases {
        let mut words = sound.clone();
        if random.chance(40) {
            words::PROHIBITIONS.fill_places(&mut words, || random.bits() as u32);
        }
        if random.chance(60) {
            spoil(random, &mut words);
        }
        let mut index = make::foreign_index(random);
        if !words::holds_table(&words) {
            is_no_table(&mut words, &mut index, random);
            seen.note("no table".to_string());
            continue;
        }
        let table = words::table(&words);
        let policy = &table.policy;
        let image = words::written(&words).bytes();
        save_into(&words, &image, random);
        for _ in 0..4 {
            let asked = some_request(random, policy);
            ask(&words, policy, asked, random, seen);
            ask_contains(&words, policy, random, seen);
            let (process, operation, arguments) = asked;
            let expected = lent::decide_indexed(&words, &index, process, operation, arguments);
            assert_eq!(
                answered(calls::decide_indexed(&words, &index, &request(asked))),
                expected,
                "{asked:?}"
            );
        }
        assert_eq!(calls::build_index(&words, &mut index), Ok(()));
        assert!(index == second::build_index(policy));
        assert_eq!(calls::is_index(&words, &index), Ok(true));
        // commands, where the words that count are those by which the second program writes the policy
        let mut written = words.clone();
        words::write(policy, &mut written);
        if written != counting(&words) || !table.wide.is_empty() {
            seen.note("table".to_string());
            continue;
        }
        for _ in 0..4 {
            let command = some_command(random, policy);
            let [(mut after, mut bytes), (mut expected, mut expected_bytes)] =
                [(); 2].map(|()| (words.clone(), index.clone()));
            let answer = lent::run(&mut expected, &mut expected_bytes, &command);
            assert_eq!(run_lent(&mut after, &mut bytes, &command), answer, "{command:?}");
            assert!(counting(&after) == counting(&expected) && bytes == expected_bytes, "{command:?}");
            assert!(answer.is_ok() || after == words, "{command:?}");
            if words != written && answer.is_ok() {
                seen.note(format!("{} on filled places", second::command::COMMAND_NAMES[command.number()]));
            }
        }
        seen.note("table and commands".to_string());
    }
}

/// An index of another length is refused with 2, words of another length with 1.
pub fn length_round(random: &mut Random, seen: &mut Seen) {
    let size = Size::small(random);
    let policy = make::policy(random, size);
    let lengths = [0, 1, 64, INDEX_BYTES / 2, INDEX_BYTES - 1, INDEX_BYTES + 1, 2 * INDEX_BYTES];
    let length = random.pick(&lengths).expect("seven lengths");
    let (mut words, mut index) = (words_of(&policy), vec![random.bits() as u8; length]);
    let before = (words.clone(), index.clone());
    let asked = some_request(random, &policy);
    assert_eq!(answered(calls::decide_indexed(&words, &index, &request(asked))), Answer::Refused(2));
    ask_indexed(&words, &policy, &index, asked);
    assert_eq!(numbered(calls::build_index(&words, &mut index)), Err(2));
    assert_eq!(numbered(calls::is_index(&words, &index)), Err(2));
    for _ in 0..4 {
        let command = some_command(random, &policy);
        assert_eq!(run_lent(&mut words, &mut index, &command), Err(2), "{command:?}");
    }
    assert!(words == before.0 && index == before.1);

    let lengths = [0, 1, 8, TABLE_WORDS / 2, TABLE_WORDS - 1, TABLE_WORDS + 1, 2 * TABLE_WORDS];
    words.resize(random.pick(&lengths).expect("seven lengths"), 0);
    let before = words.clone();
    assert_eq!(numbered(calls::new(&mut words)), Err(1));
    assert_eq!(numbered(calls::load(&mut words, &second::save(&policy))), Err(1));
    assert_eq!(numbered(calls::load(&mut words, &make::damaged_image(random, &policy))), Err(1));
    assert!(words == before);
    if random.chance(50) {
        index.resize(INDEX_BYTES, 0);
    }
    is_no_table(&mut words, &mut index, random);
    seen.note("lengths".to_string());
}
