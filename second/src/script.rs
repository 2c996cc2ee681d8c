//! The script that is stored for the program `try_decide`.

use crate::decisions::State;
use crate::explain::explain;
use crate::house::small_house;
use crate::make::{policy, request, rights, Random, Size};
use crate::policy::{Policy, Prohibition};
use crate::words::{ASSIGNMENTS, ASSOCIATIONS, KINDS, PROHIBITIONS, USERS};

/// Kinds, as the steps take them.
const USER: u32 = 1;
const USER_ATTRIBUTE: u32 = 2;
const OBJECT: u32 = 3;
const OBJECT_ATTRIBUTE: u32 = 4;
const CLASS: u32 = 5;

/// A script as it is written. It is run while it is written, so that a step can follow from what stands.
pub(crate) struct Script {
    pub(crate) bytes: Vec<u8>,
    state: State,
}

impl Script {
    pub(crate) fn new() -> Script {
        Script { bytes: Vec::new(), state: State::new() }
    }

    /// A step that is written only.
    pub(crate) fn write(&mut self, letter: u8, a: u16, b: u16, v: u32) {
        self.bytes.push(letter);
        self.bytes.extend_from_slice(&a.to_be_bytes());
        self.bytes.extend_from_slice(&b.to_be_bytes());
        self.bytes.extend_from_slice(&v.to_be_bytes());
    }

    fn step(&mut self, letter: u8, a: u32, b: u32, v: u32) {
        let (a, b) = (a as u16, b as u16);
        self.write(letter, a, b, v);
        self.state.step(letter, a.into(), b.into(), v);
    }

    fn two(&mut self, letter: u8, a: u32, b: u32) {
        self.step(letter, a, b, 0);
    }

    pub(crate) fn alone(&mut self, letter: u8) {
        self.step(letter, 0, 0, 0);
    }

    fn word(&mut self, place: usize, value: u32) {
        self.step(b'W', place as u32, 0, value);
    }

    /// Elements of one kind.
    fn elements(&mut self, kind: u32, ids: impl IntoIterator<Item = u32>) {
        for id in ids {
            self.two(b'K', id, kind);
        }
    }

    fn assignments(&mut self, pairs: impl IntoIterator<Item = (u32, u32)>) {
        for (child, container) in pairs {
            self.two(b'A', child, container);
        }
    }

    fn association(&mut self, attribute: u32, target: u32, rights: u32) {
        self.step(b'S', attribute, target, rights);
    }

    /// Four ids in the three numbers of a step.
    fn list(&mut self, letter: u8, ids: &[u32]) {
        let id = |place: usize| ids.get(place).copied().unwrap_or(0);
        self.step(letter, id(0), id(1), id(2) << 16 | id(3));
    }

    fn prohibition(&mut self, sort: u32, subject: u32, form: u32, rights: u32, lists: [&[u32]; 2]) {
        self.step(b'P', 2 * sort + form, subject, rights);
        if !lists[0].is_empty() {
            self.list(b'J', lists[0]);
        }
        self.list(b'X', lists[1]);
    }

    /// The table of a policy.
    pub(crate) fn table(&mut self, policy: &Policy) {
        self.alone(b'N');
        for (id, kind) in &policy.elements {
            self.two(b'K', (*id).into(), (*kind).into());
        }
        for (id, user) in &policy.processes {
            self.two(b'U', (*id).into(), (*user).into());
        }
        self.assignments(policy.assignments.iter().map(|(x, y)| (u32::from(*x), u32::from(*y))));
        for (attribute, target, rights) in &policy.associations {
            self.association((*attribute).into(), (*target).into(), *rights);
        }
        for given in &policy.prohibitions {
            let Prohibition { sort, subject, form, rights, .. } = *given;
            let [inclusions, exclusions] = [&given.inclusions, &given.exclusions]
                .map(|ids| ids.iter().map(|id| u32::from(*id)).collect::<Vec<_>>());
            self.prohibition(sort.into(), subject.into(), form.into(), rights, [&inclusions, &exclusions]);
        }
    }

    /// The small house, and its index.
    fn house(&mut self) {
        self.table(&small_house().policy);
        self.alone(b'B');
    }

    /// Makes the request; numbers that a step has no room for are given one by one.
    pub(crate) fn request(&mut self, process: u32, operation: u32, arguments: [u32; 3]) {
        let [first, second, third] = arguments;
        self.step(b'Q', process, operation, first);
        if second > 0 || third > 0 {
            self.two(b'M', second, third);
        }
        for (place, number) in (0..).zip([process, operation, first, second, third]) {
            if number > 0xffff && place != 2 {
                self.step(b'V', place, 0, number);
            }
        }
    }

    /// Asks plainly and by the index.
    fn ask(&mut self, process: u32, operation: u32, arguments: [u32; 3]) {
        self.request(process, operation, arguments);
        self.alone(b'C');
    }

    /// How many rows the explanation of the request has.
    fn rows(&mut self) -> u32 {
        let [process, operation, first, second, third] = self.state.request;
        let table = self.state.table();
        table.map_or(0, |table| {
            explain(&table.policy, process, operation, [first, second, third]).rows.len() as u32
        })
    }

    /// Asks for the explanation with enough rows.
    fn explain(&mut self) {
        let rows = self.rows();
        self.step(b'E', 0, 0, rows + 1);
    }

    /// Asks plainly and by the index, and for the explanation.
    fn ask_why(&mut self, process: u32, operation: u32, arguments: [u32; 3]) {
        self.ask(process, operation, arguments);
        self.explain();
    }

    /// And for the explanation with rows exactly enough, one too few, none, and plenty.
    fn ask_rooms(&mut self, process: u32, operation: u32, arguments: [u32; 3]) {
        self.ask(process, operation, arguments);
        let rows = self.rows();
        for room in [rows, rows.saturating_sub(1), 0, rows + 7] {
            self.step(b'E', 0, 0, room);
        }
    }
}

/// The stored script.
pub fn decisions_script() -> Vec<u8> {
    let mut script = Script::new();
    let mut random = Random::new(5);
    no_table(&mut script);
    small_house_cases(&mut script);
    out_of_range(&mut script);
    other_lengths(&mut script);
    every_right(&mut script);
    alternatives(&mut script);
    no_class(&mut script);
    prohibitions(&mut script);
    many_classes(&mut script);
    chain(&mut script, &mut random);
    ladder(&mut script);
    many_associations(&mut script);
    many_assignments(&mut script);
    foreign_indexes(&mut script, &mut random);
    unsound(&mut script);
    random_policies(&mut script, &mut random);
    random_words(&mut script, &mut random);
    script.bytes
}

/// Nothing is asked of memory that holds no table.
fn no_table(script: &mut Script) {
    script.two(b'K', 1, 1);
    script.two(b'U', 1, 1);
    script.two(b'A', 1, 1);
    script.association(1, 1, 1);
    script.prohibition(1, 1, 0, 1, [&[], &[1]]);
    script.alone(b'B');
    script.ask(1, 1, [1, 0, 0]);
    for room in [0, 1] {
        script.step(b'E', 0, 0, room);
    }
}

/// 01's cases K1 to K10.
fn small_house_cases(script: &mut Script) {
    script.house();
    for (process, operation, object) in
        [(1, 1, 9), (1, 1, 10), (2, 1, 10), (1, 2, 10), (1, 1, 511), (1, 3, 9), (1, 1, 2), (3, 1, 9)]
    {
        script.ask_rooms(process, operation, [object, 0, 0]);
    }
    for (form, inclusions) in [(1, &[7][..]), (0, &[7]), (1, &[])] {
        script.house();
        script.prohibition(1, 5, form, 1, [inclusions, &[8]]);
        for object in [9, 10, 511] {
            script.ask_rooms(1, 1, [object, 0, 0]);
        }
    }
}

/// Every process, operation and argument in and out of range, and arguments that are not used.
fn out_of_range(script: &mut Script) {
    script.house();
    for process in [0, 1, 2, 3, 255, 256, 257, u32::MAX] {
        for operation in (0..=10).chain([256, u32::MAX]) {
            for first in [0, 2, 9, 511, 512, u32::MAX] {
                script.ask(process, operation, [first, 0, 0]);
            }
        }
    }
    for operation in 1..=9 {
        for second in [0, 1, 3, 7, 12, 511, 512, u32::MAX] {
            for third in [0, 8, 512] {
                script.ask(1, operation, [9, second, third]);
            }
        }
        script.ask(1, operation, [9, 7, u32::MAX]);
        script.ask(1, operation, [9, 65_543, 12]);
    }
    for first in [1, 3, 5, 7, 12, 512] {
        script.ask(1, 9, [first, 7, 0]);
        script.ask(1, 5, [first, 7, 8]);
    }
    for (process, operation, arguments) in
        [(0, 0, [0, 0, 0]), (1, 9, [3, 9, 7]), (3, 7, [12, 1, 0]), (1, 7, [1, 512, 0]), (3, 1, [2, 0, 0])]
    {
        script.ask_rooms(process, operation, arguments);
    }
}

/// Memory and an index of other lengths.
fn other_lengths(script: &mut Script) {
    script.house();
    let requests = [(1, 1, [9, 0, 0]), (1, 2, [10, 0, 0]), (1, 10, [9, 0, 0]), (3, 1, [9, 0, 0])];
    for (words, bytes) in
        [(8_191, 32_768), (8_193, 32_768), (0, 32_768), (8_192, 32_767), (8_192, 32_769), (8_192, 0), (1, 1)]
    {
        script.two(b'L', words, bytes);
        for (process, operation, arguments) in requests {
            script.ask(process, operation, arguments);
            script.step(b'E', 0, 0, 3);
        }
        script.alone(b'B');
    }
    script.two(b'L', 8_191, 32_768);
    script.alone(b'N');
    script.two(b'L', 8_192, 32_768);
    script.ask_why(1, 1, [9, 0, 0]);
}

/// All operations on the small house where user 5 has every right over all that 5 shares a class with.
fn every_right(script: &mut Script) {
    script.house();
    for (attribute, target) in [(3, 3), (3, 7), (4, 4), (4, 8)] {
        script.association(attribute, target, u32::MAX);
    }
    let elements = [1, 3, 4, 5, 6, 7, 8, 9, 10, 511];
    for operation in 1..=9 {
        for first in elements {
            if operation <= 4 {
                script.ask_why(1, operation, [first, 0, 0]);
            } else if operation != 5 {
                for second in elements {
                    script.ask_why(1, operation, [first, second, 0]);
                }
            }
        }
    }
    for first in [9, 10, 511] {
        for second in [7, 8, 10] {
            for third in [7, 8] {
                script.ask_why(1, 5, [first, second, third]);
            }
        }
    }
    // user 6 shares one of the two classes
    for (operation, arguments) in
        [(1, [9, 0, 0]), (1, [10, 0, 0]), (4, [9, 0, 0]), (5, [9, 7, 7]), (6, [9, 7, 0]), (7, [6, 3, 0])]
    {
        script.ask_rooms(2, operation, arguments);
    }
    for (operation, arguments) in [(4, [10, 0, 0]), (5, [10, 7, 8]), (7, [5, 5, 0]), (9, [3, 10, 0])] {
        script.ask_rooms(1, operation, arguments);
    }
}

/// Each argument has some of the rights that the alternatives ask: they are not mixed.
fn alternatives(script: &mut Script) {
    script.alone(b'N');
    script.elements(CLASS, [1]);
    script.elements(USER_ATTRIBUTE, [2]);
    script.elements(USER, [3]);
    script.elements(OBJECT_ATTRIBUTE, [5, 6]);
    script.elements(OBJECT, [4]);
    script.two(b'U', 255, 3);
    script.assignments([(2, 1), (3, 2), (4, 1), (5, 1), (6, 1)]);
    for target in [4, 5, 6] {
        script.association(2, target, 0);
    }
    script.alone(b'B');
    let rights_of = |target: usize| ASSOCIATIONS.start + 2 * (target - 4) + 1;
    // copy: {0},{6}; {3},{1}
    for object in [0, 1, 8, 9] {
        for attribute in [0, 2, 64, 66] {
            script.word(rights_of(4), object);
            script.word(rights_of(5), attribute);
            script.ask_why(255, 6, [4, 5, 0]);
        }
    }
    // move: {4},{5},{6}; {1},{5},{6}
    for object in [0, 2, 16, 18] {
        for from in [0, 32, 64] {
            for to in [32, 64] {
                script.word(rights_of(4), object);
                script.word(rights_of(5), from);
                script.word(rights_of(6), to);
                script.ask_why(255, 5, [4, 5, 6]);
            }
        }
    }
    // both arguments one element, which then needs the rights of both
    for rights in [32, 64, 96] {
        script.word(rights_of(4), 16);
        script.word(rights_of(5), rights);
        script.ask_why(255, 5, [4, 5, 5]);
    }
    // find: {2}; {0}. print: {0,3}
    for rights in [0, 1, 4, 5, 8, 9, 13] {
        script.word(rights_of(4), rights);
        script.ask_why(255, 3, [4, 0, 0]);
        script.ask_why(255, 4, [4, 0, 0]);
    }
    // each right alone, asked by each operation
    for right in 0..=31 {
        for target in [4, 5, 6] {
            script.word(rights_of(target), 1 << right);
        }
        script.ask(255, 1 + right % 4, [4, 0, 0]);
        script.ask(255, 7, [4, 5, 0]);
        script.ask(255, 9, [2, 4, 0]);
    }
}

/// Elements in no class, among them one whose chain ends at what is no class.
fn no_class(script: &mut Script) {
    script.house();
    script.elements(OBJECT, [20, 21]);
    script.elements(OBJECT_ATTRIBUTE, [22]);
    script.elements(USER, [23]);
    script.assignments([(20, 22)]);
    script.association(3, 20, u32::MAX);
    script.association(3, 21, u32::MAX);
    script.association(3, 22, u32::MAX);
    script.association(3, 7, u32::MAX);
    script.two(b'U', 9, 23);
    script.alone(b'B');
    for element in [20, 21] {
        script.ask_rooms(1, 1, [element, 0, 0]);
        script.ask_rooms(1, 3, [element, 0, 0]);
        script.ask_why(1, 7, [element, 9, 0]);
        script.ask_why(1, 7, [9, element, 0]);
    }
    script.ask_why(9, 1, [9, 0, 0]);
    // a prohibition on it makes no other cause
    script.prohibition(1, 5, 0, u32::MAX, [&[20], &[]]);
    script.ask_why(1, 1, [20, 0, 0]);
    // the class comes and goes
    script.assignments([(22, 2)]);
    script.alone(b'B');
    script.ask_why(1, 1, [20, 0, 0]);
    script.word(PROHIBITIONS.counter, 0);
    script.ask_why(1, 1, [20, 0, 0]);
    script.two(b'K', 2, OBJECT_ATTRIBUTE);
    script.ask_why(1, 1, [20, 0, 0]);
    script.alone(b'B');
    script.ask_why(1, 1, [20, 0, 0]);
}

/// Prohibitions of all sorts and both forms, with lists of none to four ids; several at once.
fn prohibitions(script: &mut Script) {
    script.house();
    script.association(4, 8, u32::MAX);
    script.association(3, 7, u32::MAX);
    script.alone(b'B');
    let lists: [&[u32]; 6] = [&[], &[7], &[9, 10], &[3, 8, 9], &[3, 4, 5, 6], &[7, 8, 10, 511]];
    for (sort, subject) in [(1, 5), (2, 1), (3, 3)] {
        for form in [0, 1] {
            for inclusions in lists {
                for exclusions in lists {
                    script.word(PROHIBITIONS.counter, 0);
                    script.prohibition(sort, subject, form, 1, [inclusions, exclusions]);
                    for object in [9, 10, 511] {
                        script.ask(1, 1, [object, 0, 0]);
                    }
                }
            }
        }
    }
    // subjects that are others, sorts that are none, rights that are others
    for sort in 0..=3 {
        for subject in [0, 1, 2, 3, 4, 5, 6, 511] {
            script.word(PROHIBITIONS.counter, 0);
            script.prohibition(sort, subject, 1, 1, [&[7], &[]]);
            script.ask_why(1, 1, [10, 0, 0]);
            script.ask_why(2, 1, [9, 0, 0]);
        }
    }
    for right in [0, 1, 2, 3, 30, 31] {
        script.word(PROHIBITIONS.counter, 0);
        script.prohibition(2, 1, 0, 1 << right, [&[], &[3]]);
        script.ask_why(1, 3, [10, 0, 0]);
        script.ask_why(1, 4, [10, 0, 0]);
    }
    // the causes in their order, and the lowest subject: 5 is within 4, 3, 2 and 1
    script.word(PROHIBITIONS.counter, 0);
    for (sort, subject) in [(3, 4), (3, 3), (3, 2), (3, 1), (3, 5), (2, 1), (1, 5)] {
        script.prohibition(sort, subject, 0, 1, [&[7], &[]]);
        script.ask_rooms(1, 1, [10, 0, 0]);
        script.ask_why(1, 3, [10, 0, 0]);
    }
    script.ask_why(1, 2, [10, 0, 0]);
    script.ask_why(1, 6, [9, 7, 0]);
    // two hundred, of which the last restricts
    script.word(PROHIBITIONS.counter, 0);
    for rights in 1..=200 {
        script.prohibition(3, 4, 0, if rights == 200 { 1 << 31 | 1 } else { 2 * rights }, [&[], &[3]]);
    }
    script.prohibition(3, 4, 0, 1 << 31 | 1, [&[], &[3]]);
    script.prohibition(3, 4, 0, 1 << 31 | 3, [&[], &[3]]);
    script.ask_rooms(1, 1, [9, 0, 0]);
    script.word(PROHIBITIONS.counter, 199);
    script.ask_rooms(1, 1, [9, 0, 0]);
}

/// An object in 200 classes, then in 100 attributes of a class each.
fn many_classes(script: &mut Script) {
    script.alone(b'N');
    script.elements(CLASS, 1..=200);
    script.elements(OBJECT, [300]);
    script.elements(USER, [301]);
    script.elements(USER_ATTRIBUTE, [302]);
    script.two(b'U', 1, 301);
    script.assignments((1..=200).map(|class| (300, class)));
    script.assignments([(301, 302), (302, 1)]);
    script.association(302, 300, 1);
    script.alone(b'B');
    script.ask_rooms(1, 1, [300, 0, 0]);
    script.ask_why(1, 2, [300, 0, 0]);
    script.elements(OBJECT, [310]);
    script.elements(OBJECT_ATTRIBUTE, 401..=500);
    for place in 1..=100 {
        // the classes in no order: 37 has no divisor with 200
        script.assignments([(310, 400 + place), (400 + place, 37 * place % 200 + 1)]);
        script.association(302, 400 + place, 0b10);
    }
    script.alone(b'B');
    script.ask_why(1, 2, [310, 0, 0]);
    script.ask_rooms(1, 1, [310, 0, 0]);
    // one of the hundred gives the right no longer: the lowest class that lacks it
    for place in [99, 50, 1] {
        script.word(ASSOCIATIONS.start + 2 * place + 1, 0);
        script.ask_why(1, 2, [310, 0, 0]);
    }
}

/// A chain of 500 elements from an object to a class, the ids in no order.
fn chain(script: &mut Script, random: &mut Random) {
    script.alone(b'N');
    let mut ids: Vec<u32> = (1..=511).collect();
    random.shuffle(&mut ids);
    script.elements(OBJECT, [ids[0]]);
    script.elements(OBJECT_ATTRIBUTE, ids[1..499].iter().copied());
    script.elements(CLASS, [ids[499]]);
    script.assignments(ids[..500].windows(2).map(|pair| (pair[0], pair[1])));
    script.elements(USER, [ids[500]]);
    script.elements(USER_ATTRIBUTE, [ids[501], ids[502]]);
    script.assignments([(ids[500], ids[501]), (ids[501], ids[502]), (ids[502], ids[499])]);
    script.two(b'U', 7, ids[500]);
    script.association(ids[502], ids[498], 1);
    script.alone(b'B');
    script.ask_rooms(7, 1, [ids[0], 0, 0]);
    script.ask_rooms(7, 2, [ids[0], 0, 0]);
    script.association(ids[502], ids[250], u32::MAX);
    for (operation, arguments) in [
        (4, [ids[0], 0, 0]),
        (5, [ids[0], ids[249], ids[250]]),
        (5, [ids[0], ids[251], ids[250]]),
        (6, [ids[0], ids[498], 0]),
        (7, [ids[200], ids[100], 0]),
        (8, [ids[250], ids[251], 0]),
    ] {
        script.ask_why(7, operation, arguments);
    }
    script.prohibition(3, ids[502], 1, 1, [&[ids[498].min(ids[497]), ids[498].max(ids[497])], &[]]);
    script.ask_why(7, 1, [ids[0], 0, 0]);
    // the last link goes to what is no class
    script.two(b'K', ids[499], OBJECT_ATTRIBUTE);
    script.ask_why(7, 4, [ids[0], 0, 0]);
}

/// A ladder of 249 levels of two elements, each assigned to both of the next level, and a class above each side.
fn ladder(script: &mut Script) {
    script.alone(b'N');
    script.elements(OBJECT, [1, 2]);
    script.elements(OBJECT_ATTRIBUTE, 3..=498);
    script.elements(CLASS, [499, 500]);
    for level in 0..249 {
        for (from, to) in [(1, 3), (1, 4), (2, 3), (2, 4)] {
            script.two(b'A', 2 * level + from, 2 * level + to);
        }
    }
    script.elements(USER_ATTRIBUTE, [501]);
    script.elements(USER, [502]);
    script.assignments([(502, 501), (501, 499)]);
    script.two(b'U', 200, 502);
    script.association(501, 497, 1);
    script.association(501, 3, 2);
    script.association(501, 2, 4);
    script.alone(b'B');
    for object in [1, 2] {
        for operation in 1..=4 {
            script.ask_why(200, operation, [object, 0, 0]);
        }
    }
    script.ask_rooms(200, 1, [1, 0, 0]);
    script.ask_why(200, 7, [498, 497, 0]);
    // a range that leaves out one side of a level, which all of the lower levels are within
    script.prohibition(1, 502, 1, 1, [&[499], &[250]]);
    script.ask_why(200, 1, [1, 0, 0]);
    script.prohibition(1, 502, 1, 1, [&[3], &[2]]);
    script.ask_why(200, 1, [1, 0, 0]);
    script.ask_why(200, 1, [2, 0, 0]);
}

/// A thousand associations of which the last decides.
fn many_associations(script: &mut Script) {
    script.alone(b'N');
    script.elements(CLASS, [1, 511]);
    script.elements(USER_ATTRIBUTE, 10..=29);
    script.elements(OBJECT_ATTRIBUTE, [30, 31]);
    script.elements(OBJECT, [40]);
    script.elements(USER, [50]);
    script.assignments((10..=29).map(|id| (id, 1)));
    script.assignments((10..=29).map(|id| (50, id)));
    script.assignments([(30, 1), (31, 511), (40, 30), (40, 31)]);
    script.two(b'U', 1, 50);
    for number in 0..998 {
        script.association(10 + number % 20, 30, 2 * number + 2);
    }
    script.association(29, 30, u32::MAX);
    script.association(29, 31, u32::MAX);
    script.alone(b'B');
    // one more is not stored, one that stands is there
    script.association(29, 31, 1);
    script.association(29, 31, u32::MAX);
    for operation in 1..=4 {
        script.ask_rooms(1, operation, [40, 0, 0]);
    }
    let last = ASSOCIATIONS.start + 2 * 999 + 1;
    for rights in [1, 0, u32::MAX - 1] {
        script.word(last, rights);
        script.ask_why(1, 1, [40, 0, 0]);
        script.ask_why(1, 2, [40, 0, 0]);
    }
    script.word(last - 2, 0);
    script.ask_why(1, 1, [40, 0, 0]);
    script.word(ASSOCIATIONS.counter, 0);
    script.ask_why(1, 1, [40, 0, 0]);
}

/// Two thousand assignments over all 511 ids.
fn many_assignments(script: &mut Script) {
    script.alone(b'N');
    script.elements(OBJECT, [1]);
    script.elements(OBJECT_ATTRIBUTE, 2..=505);
    script.elements(CLASS, 506..=508);
    script.elements(USER_ATTRIBUTE, [509, 510]);
    script.elements(USER, [511]);
    script.assignments([(511, 509), (509, 510), (510, 506)]);
    let mut given = 3;
    'all: for step in 1..=4 {
        for child in 1..=505 {
            if child + step <= 508 && !(child == 1 && step > 1) {
                if given == 2_000 {
                    break 'all;
                }
                script.two(b'A', child, child + step);
                given += 1;
            }
        }
    }
    script.two(b'A', 1, 505);
    script.two(b'A', 1, 2);
    script.two(b'U', 255, 511);
    script.association(510, 505, 1);
    script.association(510, 504, 2);
    script.alone(b'B');
    for operation in 1..=3 {
        script.ask_rooms(255, operation, [1, 0, 0]);
    }
    script.association(509, 2, u32::MAX);
    for (operation, arguments) in
        [(2, [1, 0, 0]), (4, [1, 0, 0]), (5, [1, 2, 3]), (6, [1, 2, 0]), (7, [2, 1, 0]), (9, [509, 2, 0])]
    {
        script.ask_why(255, operation, arguments);
    }
}

/// Indexes that are not the table's.
fn foreign_indexes(script: &mut Script, random: &mut Random) {
    let requests = |script: &mut Script| {
        for operation in 1..=4 {
            for object in [9, 10, 511] {
                script.request(1, operation, [object, 0, 0]);
                script.alone(b'I');
            }
        }
        for (process, operation, arguments) in
            [(1, 5, [9, 7, 8]), (2, 6, [10, 7, 0]), (2, 7, [5, 3, 0]), (1, 9, [3, 9, 0]), (1, 1, [2, 0, 0])]
        {
            script.request(process, operation, arguments);
            script.alone(b'I');
        }
    };
    script.house();
    script.association(3, 9, 0b100);
    script.association(4, 10, u32::MAX);
    script.prohibition(1, 5, 0, 2, [&[8], &[9]]);
    script.prohibition(3, 4, 1, 4, [&[10], &[7]]);
    for byte in [0, 255, 1, 128] {
        script.two(b'Z', byte, 0);
        requests(script);
    }
    for (share, seed) in [(256, 1), (256, 2), (128, 3), (64, 4), (32, 5), (256, u32::MAX)] {
        script.step(b'F', share, 0, seed);
        requests(script);
    }
    // that x is within x is read from its bit, too
    for element in [3, 4, 5, 7, 8, 9, 10, 511] {
        script.alone(b'B');
        script.step(b'T', element, element, 0);
        requests(script);
    }
    for element in (1..=10).chain([511]) {
        script.step(b'T', element, element, 0);
    }
    requests(script);
    // bits of row and column 0, and of elements that are not there
    script.alone(b'B');
    for (x, y) in [(0, 1), (5, 0), (9, 0), (0, 0), (5, 12), (12, 1), (9, 12)] {
        script.step(b'T', x, y, 1);
    }
    requests(script);
    for _ in 0..20 {
        let size = Size::small(random);
        let made = policy(random, size);
        script.table(&made);
        script.alone(b'B');
        let ids: Vec<u32> = made.elements.keys().map(|id| u32::from(*id)).collect();
        for _ in 0..8 {
            for _ in 0..random.between(1, 12) {
                let (x, y) = (random.pick(&ids).unwrap_or(0), random.pick(&ids).unwrap_or(0));
                script.step(b'T', x, y, random.below(2));
            }
            for _ in 0..4 {
                let (process, operation, arguments) = request(random, &made);
                script.request(process, operation, arguments);
                script.alone(b'I');
            }
        }
    }
}

/// Tables that no call of ours leaves.
fn unsound(script: &mut Script) {
    // a cycle below a class, one above it, an assignment to itself
    script.house();
    script.association(3, 7, u32::MAX);
    script.assignments([(7, 9), (2, 2), (2, 1), (1, 2), (3, 5), (9, 511), (511, 10)]);
    script.alone(b'B');
    for object in [9, 10, 511] {
        for operation in 1..=4 {
            script.ask_why(1, operation, [object, 0, 0]);
        }
        script.ask_why(2, 5, [object, 7, 7]);
    }
    // chains over elements that are not there: 12 and 0
    script.house();
    script.elements(OBJECT, [20, 21]);
    script.assignments([(20, 12), (12, 7), (21, 0), (0, 7), (6, 0), (0, 4)]);
    script.alone(b'B');
    script.association(4, 12, 1);
    script.association(4, 0, 2);
    for process in [1, 2] {
        for object in [10, 20, 21] {
            for operation in 1..=3 {
                script.ask_why(process, operation, [object, 0, 0]);
            }
        }
    }
    script.step(b'T', 21, 0, 1);
    script.step(b'T', 0, 2, 1);
    script.ask_why(1, 2, [21, 0, 0]);
    // the element 12 as the attribute and as the user
    script.association(12, 7, u32::MAX);
    script.assignments([(5, 12)]);
    script.two(b'U', 3, 12);
    script.assignments([(12, 3), (12, 4)]);
    script.alone(b'B');
    script.ask_why(1, 4, [9, 0, 0]);
    script.ask_why(3, 1, [9, 0, 0]);
    script.ask_why(3, 1, [10, 0, 0]);
    // kinds and users that are none
    for kind in [6, 7, 255, 256, u32::MAX, 0] {
        script.house();
        script.word(KINDS + 9, kind);
        script.word(KINDS + 1, kind);
        script.alone(b'B');
        script.ask_why(1, 1, [9, 0, 0]);
        script.ask_why(2, 1, [10, 0, 0]);
    }
    for user in [512, 517, 65_541, u32::MAX, 0, 9, 1, 12] {
        script.word(USERS + 1, user);
        script.ask_why(1, 1, [10, 0, 0]);
    }
    script.house();
    script.word(KINDS, CLASS);
    script.word(USERS, 5);
    script.assignments([(9, 0)]);
    script.alone(b'B');
    script.ask_why(1, 1, [9, 0, 0]);
    script.ask_why(0, 1, [9, 0, 0]);
    numbers_above_511(script);
    out_of_order(script);
    spoilt(script);
}

/// Attributes of associations and ids of lists above 511.
fn numbers_above_511(script: &mut Script) {
    script.house();
    script.association(3, 7, u32::MAX);
    script.association(4, 8, u32::MAX);
    let attribute = |script: &mut Script, attribute: u32| {
        script.word(ASSOCIATIONS.start, attribute.wrapping_mul(512).wrapping_add(7));
        script.ask_why(1, 1, [9, 0, 0]);
        script.ask_why(1, 2, [9, 0, 0]);
    };
    script.word(ASSOCIATIONS.counter, 1);
    for wide in [3, 512, 515, 516, 1_027, 65_539, 262_147, 8_388_607] {
        attribute(script, wide);
    }
    script.two(b'Z', 255, 0);
    for wide in [3, 515, 65_539, 257_984, 261_631, 261_632, 261_633, 262_143, 8_388_607] {
        attribute(script, wide);
    }
    for (form, inclusions, exclusions) in [(0, 1, 0), (0, 0, 1), (1, 1, 0), (1, 0, 1), (0, 2, 2), (1, 2, 2)] {
        script.house();
        script.prohibition(1, 5, form, 1, [&[7, 8][..inclusions], &[1, 2][..exclusions]]);
        for wide in [512, 519, 520, 1_031, 65_543, 262_143, 262_144, u32::MAX] {
            for place in [0, inclusions + exclusions - 1] {
                script.word(PROHIBITIONS.start + 3 + place, wide);
            }
            script.ask_why(1, 1, [9, 0, 0]);
            script.ask(1, 1, [511, 0, 0]);
        }
        script.two(b'Z', 255, 0);
        script.ask(1, 1, [9, 0, 0]);
        script.ask(1, 1, [511, 0, 0]);
    }
}

/// Associations and prohibitions that do not rise, and that stand twice.
fn out_of_order(script: &mut Script) {
    script.house();
    let orders: [&[(u32, u32, u32)]; 6] = [
        &[(4, 8, 3), (3, 7, 3), (3, 7, 1)],
        &[(4, 8, u32::MAX), (4, 8, 1), (3, 7, u32::MAX), (3, 7, 1 << 31 | 1), (3, 7, 1)],
        &[(3, 7, 1), (3, 7, 1), (4, 8, 1), (4, 8, 1), (3, 7, 1)],
        &[(4, 8, 1), (3, 10, 1), (3, 9, 1), (3, 7, 1), (3, 9, 3)],
        &[(3, 511, 1), (4, 511, 1), (4, 10, 3), (3, 10, 3), (3, 8, 1), (3, 7, 3), (3, 3, 1)],
        &[(5, 10, 1), (2, 10, 1), (1, 10, 1), (1, 7, 1), (0, 7, 1)],
    ];
    for order in orders {
        for (place, (attribute, target, rights)) in order.iter().enumerate() {
            script.word(ASSOCIATIONS.start + 2 * place, attribute * 512 + target);
            script.word(ASSOCIATIONS.start + 2 * place + 1, *rights);
        }
        script.word(ASSOCIATIONS.counter, order.len() as u32);
        for object in [9, 10, 511] {
            script.ask_rooms(1, 1, [object, 0, 0]);
            script.ask_why(1, 2, [object, 0, 0]);
        }
    }
    // the lowest subject stands last; sorts that are none; a list that does not rise, and one with an id twice
    script.house();
    let records: [[u32; 4]; 6] =
        [[3, 4, 7, 7], [3, 3, 7, 7], [3, 1, 10, 9], [0, 1, 7, 7], [4, 1, 7, 7], [4_194_303, 511, 7, 7]];
    for (place, [sort, subject, one, other]) in records.into_iter().enumerate() {
        let start = PROHIBITIONS.start + PROHIBITIONS.width * place;
        for (word, value) in [sort * 1024 + subject * 2, 1, 16, one, other].into_iter().enumerate() {
            script.word(start + word, value);
        }
        script.word(PROHIBITIONS.counter, place as u32 + 1);
        script.ask_why(1, 1, [9, 0, 0]);
        script.ask_why(1, 1, [10, 0, 0]);
    }
}

/// Memory that is a table no longer, or still one.
fn spoilt(script: &mut Script) {
    script.house();
    // places of a prohibition that no id takes may hold anything
    script.word(PROHIBITIONS.counter, 1);
    for place in 3..11 {
        script.word(PROHIBITIONS.start + place, 7);
        script.ask_why(1, 1, [10, 0, 0]);
    }
    // a prohibition that stands with other words there is not put in again
    script.house();
    script.prohibition(1, 5, 1, 1, [&[7], &[8]]);
    script.word(PROHIBITIONS.start + 5, 9);
    script.prohibition(1, 5, 1, 1, [&[7], &[8]]);
    script.prohibition(1, 5, 1, 1, [&[7], &[8, 9]]);
    script.ask_why(1, 1, [9, 0, 0]);
    script.house();
    let last = PROHIBITIONS.start + PROHIBITIONS.width * 199;
    // as many as there can be: a thousand associations and two hundred prohibitions of zeros
    script.word(ASSOCIATIONS.counter, 1_000);
    script.word(PROHIBITIONS.counter, 200);
    script.ask_why(1, 1, [10, 0, 0]);
    script.word(last + 2, 36);
    script.word(last + 10, 1);
    script.ask_why(1, 1, [10, 0, 0]);
    for (word, value) in [
        (0, 0),
        (ASSIGNMENTS.counter, 2_001),
        (ASSOCIATIONS.counter, 1_001),
        (PROHIBITIONS.counter, 201),
        (ASSIGNMENTS.start, 262_143),
        (PROHIBITIONS.start + 2, 40),
        (PROHIBITIONS.start + 2, 5),
    ] {
        script.house();
        script.word(PROHIBITIONS.counter, 1);
        script.ask_why(1, 1, [10, 0, 0]);
        script.word(word, value);
        script.ask(1, 1, [10, 0, 0]);
        script.step(b'E', 0, 0, 2);
    }
}

/// Sound policies of all sizes, and requests good and bad.
fn random_policies(script: &mut Script, random: &mut Random) {
    for number in 0..24 {
        let size = Size::small(random);
        let made = policy(random, size);
        script.table(&made);
        script.alone(b'B');
        for turn in 0..20 {
            let (process, operation, arguments) = request(random, &made);
            if turn % 4 == number % 4 {
                script.ask_rooms(process, operation, arguments);
            } else {
                script.ask_why(process, operation, arguments);
            }
        }
    }
    let made = policy(random, Size::FULL);
    script.table(&made);
    script.alone(b'B');
    for _ in 0..60 {
        let (process, operation, arguments) = request(random, &made);
        script.ask_why(process, operation, arguments);
    }
}

/// Tables of random words over a few ids, indexes of random bits.
fn random_words(script: &mut Script, random: &mut Random) {
    for _ in 0..30 {
        script.alone(b'N');
        let most = random.between(3, 12);
        let id = |random: &mut Random| match random.below(12) {
            0 => 512 + random.below(600),
            _ => random.below(most + 1),
        };
        for x in 0..=most {
            let kind = if random.chance(30) { CLASS } else { random.below(8) };
            script.word(KINDS + x as usize, kind);
        }
        for process in 0..=2 {
            script.word(USERS + process, id(random));
        }
        for _ in 0..random.between(2, 2 * most) {
            script.two(b'A', random.below(most + 1), random.below(most + 1));
        }
        let associations = random.between(1, 12);
        for place in 0..associations as usize {
            let start = ASSOCIATIONS.start + ASSOCIATIONS.width * place;
            script.word(start, id(random) * 512 + random.below(most + 1));
            script.word(start + 1, rights(random));
        }
        script.word(ASSOCIATIONS.counter, associations);
        let prohibitions = random.below(4);
        for place in 0..prohibitions as usize {
            let start = PROHIBITIONS.start + PROHIBITIONS.width * place;
            let (inclusions, exclusions) = (random.below(5), random.below(5));
            script.word(start, random.below(5) * 1024 + random.below(most + 1) * 2 + random.below(2));
            script.word(start + 1, rights(random));
            script.word(start + 2, inclusions * 8 + exclusions);
            for listed in 0..(inclusions + exclusions) as usize {
                script.word(start + 3 + listed, id(random));
            }
        }
        script.word(PROHIBITIONS.counter, prohibitions);
        match random.below(4) {
            0 => script.step(b'F', random.between(32, 256), 0, random.bits() as u32),
            _ => script.alone(b'B'),
        }
        let table = script.state.table().expect("the words hold a table");
        for _ in 0..16 {
            let (process, operation, arguments) = request(random, &table.policy);
            script.ask_why(process, operation, arguments);
        }
    }
}
