//! Each call on a table: its answers compared, then its time.

use crate::clock::{call, changing, least, reading, Batch};
use crate::inputs::{commands, drawn, images, numbers, pairs, requests, Commanded};
use crate::proved::{answer, answer_in_c, decide_in_c, explained, Memory};
use quandrilof::{calls, Refusal, Request, Row, IMAGE_MOST, INDEX_BYTES, ROWS_MOST};
use second::command::{GivenProhibition, COMMAND_NAMES};
use second::make::{foreign_index, Random};
use second::words::{holds_table, Group, ASSIGNMENTS, ASSOCIATIONS, KINDS, PROHIBITIONS, USERS};
use second::{lent, Answer, Command, Machine, Policy, Prohibition};
use std::hint::black_box;

/// Time per call in nanoseconds. `lent` is the second program lent the same words, `kept` the same from sets that it keeps, `judging`
/// the time in which it tells of the words that they hold a table, 0 for load, which asks their length and no more.
pub struct Line {
    pub call: String,
    pub case: String,
    pub proved: f64,
    pub lent: f64,
    pub kept: f64,
    pub judging: f64,
    pub c: Option<f64>,
}

/// The calls that are no commands, by name.
pub const CALLS: [&str; 8] =
    ["decide", "decide-indexed", "explain", "contains", "load", "save", "build-index", "is-index"];

/// The name of a command as it is given to this program.
pub fn name_of(command: usize) -> String {
    COMMAND_NAMES[command].replace(' ', "-")
}

/// A table, as both programs hold it.
pub struct Subject {
    pub policy: Policy,
    pub memory: Memory,
}

impl Subject {
    pub fn new(policy: Policy) -> Subject {
        let memory = Memory::of(&policy);
        Subject { policy, memory }
    }

    /// Thousands of answers of the decisions and the explanation, compared; those of the indexed decision and of the one in C also over
    /// foreign indexes and spoiled memory.
    pub fn compare(&self) {
        let Subject { policy, memory: Memory { words, index } } = self;
        let mut random = Random::new(4);
        // whoever reads past an index finds bits there
        let within = |index: Vec<u8>| [index, vec![0xff; 1 << 20]].concat();
        let (index, foreign) = (within(index.clone()), within(foreign_index(&mut random)));
        let (index, foreign) = (&index[..INDEX_BYTES], &foreign[..INDEX_BYTES]);
        let mut rows = vec![Row::default(); ROWS_MOST];
        for (place, request) in drawn(policy, 5).iter().enumerate() {
            for index in [index, foreign] {
                let told = answer(calls::decide_indexed(words, index, request));
                assert_eq!(told, answer_in_c(words, index, request), "in C: {request:?}");
                let (process, operation, arguments) = numbers(request);
                assert_eq!(told, second::decide_indexed(policy, index, process, operation, arguments));
            }
            if place % 4 == 0 {
                self.compare_explained(request, &mut rows);
            }
            let mut spoiled = words.clone();
            spoil(&mut spoiled, &mut random, request);
            let (spoiled, index) = match random.below(16) {
                0 => (&spoiled[1..], index),
                1 => (&spoiled[..], &index[1..]),
                2..=8 => (&spoiled[..], foreign),
                _ => (&spoiled[..], index),
            };
            let told = answer(calls::decide_indexed(spoiled, index, request));
            assert_eq!(told, answer_in_c(spoiled, index, request), "in C, spoiled: {request:?}");
        }
    }

    fn compare_explained(&self, request: &Request, rows: &mut [Row]) {
        let Subject { policy, memory } = self;
        let (process, operation, arguments) = numbers(request);
        let told = answer(calls::decide(&memory.words, request));
        assert_eq!(told, second::decide(policy, process, operation, arguments), "{request:?}");
        let (answered, count) = explained(&memory.words, request, rows);
        let explanation = second::explain(policy, process, operation, arguments);
        assert_eq!((answered, count), (explanation.answer, explanation.rows.len()), "{request:?}");
        for (row, other) in rows.iter().zip(&explanation.rows) {
            let fields = [row.alternative, row.argument, row.right, row.cause, row.number];
            assert_eq!(fields, [other.alternative, other.argument, other.right, other.cause, other.number]);
            assert_eq!(
                [row.attribute, row.target, row.rights],
                [other.attribute, other.target, other.rights]
            );
        }
    }

    /// Measures a call by its name.
    pub fn measure(&self, call: &str) -> Vec<Line> {
        match call {
            "decide" => self.decide(),
            "decide-indexed" => self.decide_indexed(),
            "explain" => self.explain(),
            "contains" => self.contains(),
            "load" => self.load(),
            "save" => self.save(),
            "build-index" => self.build_index(),
            "is-index" => self.is_index(),
            command => commands(&self.policy)
                .iter()
                .filter(|commanded| name_of(commanded.command.number()) == command)
                .map(commanded_line)
                .collect(),
        }
    }

    fn decide(&self) -> Vec<Line> {
        let Subject { policy, memory: Memory { words, .. } } = self;
        let mut lines = Vec::new();
        for asked in requests(policy, &self.memory) {
            for request in &asked.requests {
                let (process, operation, arguments) = numbers(request);
                let told = answer(calls::decide(words, request));
                assert_eq!(told, second::decide(policy, process, operation, arguments), "{request:?}");
                assert_eq!(told, lent::decide(words, process, operation, arguments), "{request:?}");
            }
            let proved = || each(&asked.requests, |request| calls::decide(words, request).is_ok());
            let lent = || {
                each(&asked.requests, |request| {
                    let (process, operation, arguments) = numbers(request);
                    lent::decide(words, process, operation, arguments) == Answer::Deny
                })
            };
            let kept = || {
                each(&asked.requests, |request| {
                    let (process, operation, arguments) = numbers(request);
                    second::decide(policy, process, operation, arguments) == Answer::Deny
                })
            };
            let times = least([call(proved), call(lent), call(kept), judging(words)]);
            lines.push(line("decide", &asked.case, asked.requests.len(), times));
        }
        lines
    }

    fn decide_indexed(&self) -> Vec<Line> {
        let Subject { policy, memory: Memory { words, index } } = self;
        let mut lines = Vec::new();
        for asked in requests(policy, &self.memory) {
            for request in &asked.requests {
                let (process, operation, arguments) = numbers(request);
                let told = answer(calls::decide_indexed(words, index, request));
                assert_eq!(told, second::decide_indexed(policy, index, process, operation, arguments));
                assert_eq!(told, lent::decide_indexed(words, index, process, operation, arguments));
                assert_eq!(told, answer_in_c(words, index, request), "in C: {request:?}");
            }
            let proved =
                || each(&asked.requests, |request| calls::decide_indexed(words, index, request).is_ok());
            let lent = || {
                each(&asked.requests, |request| {
                    let (process, operation, arguments) = numbers(request);
                    lent::decide_indexed(words, index, process, operation, arguments) == Answer::Deny
                })
            };
            let kept = || {
                each(&asked.requests, |request| {
                    let (process, operation, arguments) = numbers(request);
                    second::decide_indexed(policy, index, process, operation, arguments) == Answer::Deny
                })
            };
            let c = || each(&asked.requests, |request| decide_in_c(words, index, request));
            let [proved, lent, kept, judging, c] =
                least([call(proved), call(lent), call(kept), judging(words), call(c)]);
            let count = asked.requests.len();
            let measured = line("decide-indexed", &asked.case, count, [proved, lent, kept, judging]);
            lines.push(Line { c: Some(c / count as f64), ..measured });
        }
        lines
    }

    fn explain(&self) -> Vec<Line> {
        let Subject { policy, memory: Memory { words, .. } } = self;
        let mut rows = vec![Row::default(); ROWS_MOST];
        let [mut lent_rows, mut kept_rows] = [0; 2].map(|_| vec![second::Row::default(); ROWS_MOST]);
        let mut lines = Vec::new();
        for asked in requests(policy, &self.memory) {
            for request in &asked.requests {
                self.compare_explained(request, &mut rows);
                let (process, operation, arguments) = numbers(request);
                let told = second::explain_into(policy, process, operation, arguments, &mut kept_rows);
                assert_eq!(lent::explain(words, process, operation, arguments, &mut lent_rows), told);
                assert_eq!(lent_rows[..told.1], kept_rows[..told.1], "{request:?}");
            }
            let proved = || each(&asked.requests, |request| explained(words, request, &mut rows).1);
            let lent = || {
                each(&asked.requests, |request| {
                    let (process, operation, arguments) = numbers(request);
                    lent::explain(words, process, operation, arguments, &mut lent_rows).1
                })
            };
            let kept = || {
                each(&asked.requests, |request| {
                    let (process, operation, arguments) = numbers(request);
                    second::explain_into(policy, process, operation, arguments, &mut kept_rows).1
                })
            };
            let times = least([call(proved), call(lent), call(kept), judging(words)]);
            lines.push(line("explain", &asked.case, asked.requests.len(), times));
        }
        lines
    }

    fn contains(&self) -> Vec<Line> {
        let Subject { policy, memory: Memory { words, .. } } = self;
        let mut lines = Vec::new();
        for (case, pairs) in pairs(policy, &self.memory) {
            for (x, y) in &pairs {
                let told = calls::contains(words, *x, *y).map_err(Refusal::number);
                assert_eq!(told, second::contains(policy, *x, *y), "{x} in {y}");
                assert_eq!(told, lent::contains(words, *x, *y), "{x} in {y}");
            }
            let proved = || each(&pairs, |(x, y)| calls::contains(words, *x, *y).is_ok());
            let lent = || each(&pairs, |(x, y)| lent::contains(words, *x, *y).is_ok());
            let kept = || each(&pairs, |(x, y)| second::contains(policy, *x, *y).is_ok());
            let times = least([call(proved), call(lent), call(kept), judging(words)]);
            lines.push(line("contains", &case, pairs.len(), times));
        }
        lines
    }

    fn load(&self) -> Vec<Line> {
        let [mut words, mut others] = [0; 2].map(|_| vec![1; self.memory.words.len()]);
        let mut lines = Vec::new();
        for (case, image) in images(&self.policy) {
            let told = calls::load(&mut words, &image).map_err(Refusal::number);
            let loaded = second::load(&image);
            assert_eq!(told, loaded.as_ref().map(|_| ()).map_err(|number| *number), "{case}");
            assert_eq!(told, lent::load(&mut others, &image), "{case}");
            assert!(words == self.memory.words && others == words, "{case}");
            assert!(loaded.is_ok_and(|policy| policy == self.policy) == (case == "accepted"), "{case}");
            let proved = || _ = black_box(calls::load(black_box(&mut words), black_box(&image)));
            let lent = || _ = black_box(lent::load(black_box(&mut others), black_box(&image)));
            let kept = || _ = black_box(second::load(black_box(&image)));
            let [proved, lent, kept] = least([call(proved), call(lent), call(kept)]);
            lines.push(line("load", case, 1, [proved, lent, kept, 0.0]));
        }
        lines
    }

    fn save(&self) -> Vec<Line> {
        let Subject { policy, memory: Memory { words, .. } } = self;
        let mut lines = Vec::new();
        let length = second::save(policy).len();
        for (case, room) in [("done", IMAGE_MOST), ("refused 10", length - 1)] {
            let [mut out, mut lent_out, mut kept_out] = [0; 3].map(|_| vec![0; room]);
            let told = calls::save(words, &mut out).map_err(Refusal::number);
            assert_eq!(told, lent::save(words, &mut lent_out), "{case}");
            assert_eq!(told, second::save_into(policy, &mut kept_out), "{case}");
            assert!(out == lent_out && out == kept_out, "{case}");
            let proved = || _ = black_box(calls::save(black_box(words), black_box(&mut out)));
            let lent = || _ = black_box(lent::save(black_box(words), black_box(&mut lent_out)));
            let kept = || _ = black_box(second::save_into(black_box(policy), black_box(&mut kept_out)));
            let times = least([call(proved), call(lent), call(kept), judging(words)]);
            lines.push(line("save", case, 1, times));
        }
        lines
    }

    fn build_index(&self) -> Vec<Line> {
        let Subject { policy, memory: Memory { words, index } } = self;
        let [mut built, mut lent_index, mut kept_index] = [0; 3].map(|_| vec![1; index.len()]);
        calls::build_index(words, &mut built).expect("a table");
        lent::build_index(words, &mut lent_index).expect("a table");
        second::build_index_into(policy, &mut kept_index).expect("an index of its length");
        assert!(built == lent_index && built == kept_index);
        let proved = || _ = black_box(calls::build_index(black_box(words), black_box(&mut built)));
        let lent = || _ = black_box(lent::build_index(black_box(words), black_box(&mut lent_index)));
        let kept = || _ = black_box(second::build_index_into(black_box(policy), black_box(&mut kept_index)));
        let times = least([call(proved), call(lent), call(kept), judging(words)]);
        vec![line("build-index", "done", 1, times)]
    }

    fn is_index(&self) -> Vec<Line> {
        let Subject { policy, memory: Memory { words, index } } = self;
        let mut other = index.clone();
        *other.last_mut().expect("some bytes") ^= 1;
        let mut lines = Vec::new();
        for (case, index) in [("yes", index), ("no", &other)] {
            let told = calls::is_index(words, index).map_err(Refusal::number);
            assert_eq!(told, second::is_index(policy, index), "{case}");
            assert_eq!(told, lent::is_index(words, index), "{case}");
            let proved = || _ = black_box(calls::is_index(black_box(words), black_box(index)));
            let lent = || _ = black_box(lent::is_index(black_box(words), black_box(index)));
            let kept = || _ = black_box(second::is_index(black_box(policy), black_box(index)));
            let times = least([call(proved), call(lent), call(kept), judging(words)]);
            lines.push(line("is-index", case, 1, times));
        }
        lines
    }
}

/// Puts other numbers into some words: a few anywhere, most often where the decision reads them, or many into associations and
/// prohibitions, where most numbers leave a table.
fn spoil(words: &mut [u32], random: &mut Random, request: &Request) {
    let few = random.chance(60);
    for _ in 0..if few { random.below(4) } else { 60 } {
        let mut in_group = |group: &Group| {
            let length = group.width * group.most.min(words[group.counter] as usize);
            group.start + random.below(length.max(1) as u32) as usize
        };
        let [assignments, associations, prohibitions] =
            [&ASSIGNMENTS, &ASSOCIATIONS, &PROHIBITIONS].map(&mut in_group);
        let anywhere = random.below(words.len() as u32) as usize;
        let read = [KINDS, KINDS + request.first as usize % 512, USERS + request.process as usize % 256];
        let counter = random.below(4) as usize;
        let place = match few {
            true => random.pick(&[anywhere, read[0], read[1], read[2], counter, assignments, prohibitions]),
            false => random.pick(&[associations, prohibitions]),
        };
        let place = place.expect("some places");
        if !few && place == prohibitions && (place - PROHIBITIONS.start) % PROHIBITIONS.width == 2 {
            continue;
        }
        let (own, before) = (words[place], words[place.saturating_sub(1)]);
        let values = [
            random.bits() as u32,
            random.below(10),
            5,
            random.between(505, 520),
            random.below(512 * 512),
            before,
            own.wrapping_add(1),
            own.wrapping_add(8),
            own.wrapping_add(4_096),
        ];
        words[place] = random.pick(&values).expect("some values");
    }
}

/// A line: the times in which `count` calls are answered by the proved library, by the second program lent words and from sets that it
/// keeps, and in which it judges the words once.
fn line(call: &str, case: &str, count: usize, [proved, lent, kept, judging]: [f64; 4]) -> Line {
    let [proved, lent, kept] = [proved, lent, kept].map(|time| time / count as f64);
    Line { call: call.to_string(), case: case.to_string(), proved, lent, kept, judging, c: None }
}

/// The second program tells that the words hold a table.
fn judging(words: &[u32]) -> Batch<'_> {
    assert!(holds_table(words));
    call(move || _ = black_box(holds_table(black_box(words))))
}

/// Asks all, one after the other.
fn each<T, R>(asked: &[T], mut ask: impl FnMut(&T) -> R) {
    for one in asked {
        black_box(ask(black_box(one)));
    }
}

/// A command, done or refused. One that is done is undone after each turn.
fn commanded_line(commanded: &Commanded) -> Line {
    let Commanded { case, before, command } = commanded;
    let mut memory = Memory::of(before);
    let start = memory.clone();
    let mut other = start.clone();
    let mut machine = Machine::holding(before.clone());
    let told = memory.run(command);
    assert_eq!(told, machine.run(command), "{command:?}");
    assert_eq!(told, lent::run(&mut other.words, &mut other.index, command), "{command:?}");
    let expected =
        case.strip_prefix("refused ").map_or(Ok(()), |number| Err(number.parse().expect("a number")));
    assert_eq!(told, expected, "{command:?}");
    assert!(memory == Memory::of(&machine.policy) && memory == other, "{command:?}");
    assert!(memory.index == machine.index, "{command:?}");
    let name = name_of(command.number());
    if told.is_err() {
        let proved = || _ = black_box(memory.run(black_box(command)));
        let lent = || _ = black_box(lent::run(&mut other.words, &mut other.index, black_box(command)));
        let kept = || _ = black_box(machine.run(black_box(command)));
        let times = least([call(proved), call(lent), call(kept), judging(&start.words)]);
        return line(&name, case, 1, times);
    }
    let (words, bytes) = (changed(&start.words, &memory.words), changed(&start.index, &memory.index));
    let put_back = |memory: &mut Memory| {
        words
            .iter()
            .for_each(|range| memory.words[range.clone()].copy_from_slice(&start.words[range.clone()]));
        bytes
            .iter()
            .for_each(|range| memory.index[range.clone()].copy_from_slice(&start.index[range.clone()]));
    };
    for memory in [&mut memory, &mut other] {
        put_back(memory);
        assert!(*memory == start, "{command:?}");
    }
    undo(&mut machine.policy, before, command);
    assert_eq!(machine.policy, *before, "{command:?}");
    let proved = changing(&mut memory, |memory| _ = black_box(memory.run(black_box(command))), put_back);
    let lent = changing(
        &mut other,
        |other| _ = black_box(lent::run(&mut other.words, &mut other.index, black_box(command))),
        put_back,
    );
    let kept = changing(
        &mut machine,
        |machine| _ = black_box(machine.run(black_box(command))),
        |machine| undo(&mut machine.policy, before, command),
    );
    let [proved, lent, kept, judging, reading] =
        least([proved, lent, kept, judging(&start.words), reading()]);
    assert!(memory == start && other == start && machine.policy == *before, "{command:?}");
    line(&name, case, 1, [proved - reading, lent - reading, kept - reading, judging])
}

/// The ranges in which two lists differ.
fn changed<T: PartialEq>(before: &[T], after: &[T]) -> Vec<std::ops::Range<usize>> {
    let mut ranges: Vec<std::ops::Range<usize>> = Vec::new();
    for place in (0..before.len()).filter(|place| before[*place] != after[*place]) {
        match ranges.last_mut() {
            Some(range) if place < range.end + 16 => range.end = place + 1,
            _ => ranges.push(place..place + 1),
        }
    }
    ranges
}

/// Takes back in the second program's policy what a command did. Its index needs no undoing: a command asks its length alone.
fn undo(policy: &mut Policy, before: &Policy, command: &Command) {
    match command {
        Command::CreateClass { id } => {
            policy.elements.remove(&(*id as u16));
        }
        Command::CreateElement { id, container, .. } => {
            policy.elements.remove(&(*id as u16));
            policy.assignments.remove(&(*id as u16, *container as u16));
        }
        Command::Assign { child, container } => {
            policy.assignments.remove(&(*child as u16, *container as u16));
        }
        Command::Deassign { child, container } => {
            policy.assignments.insert((*child as u16, *container as u16));
        }
        Command::DeleteElement { id } => {
            let id = *id as u16;
            policy.elements.insert(id, before.elements[&id]);
            policy.assignments.extend(before.containers(id).map(|container| (id, container)));
        }
        Command::CreateAssociation { attribute, rights, target } => {
            policy.associations.remove(&(*attribute as u16, *target as u16, *rights));
        }
        Command::DeleteAssociation { attribute, rights, target } => {
            policy.associations.insert((*attribute as u16, *target as u16, *rights));
        }
        Command::CreateProhibition(given) => {
            policy.prohibitions.remove(&standing(given));
        }
        Command::DeleteProhibition(given) => {
            policy.prohibitions.insert(standing(given));
        }
        Command::StartProcess { id, .. } => {
            policy.processes.remove(&(*id as u8));
        }
        Command::EndProcess { id } => {
            policy.processes.insert(*id as u8, before.processes[&(*id as u8)]);
        }
    }
}

/// A prohibition as it stands in a policy.
fn standing(given: &GivenProhibition) -> Prohibition {
    let ids = |list: &[u32]| list.iter().map(|id| *id as u16).collect();
    Prohibition {
        sort: given.sort as u8,
        subject: given.subject as u16,
        form: given.form as u8,
        rights: given.rights,
        inclusions: ids(&given.inclusions),
        exclusions: ids(&given.exclusions),
    }
}
