//! The script that is stored for the program `try_image`.

use crate::house::{furnished, rising_prohibitions, small_house};
use crate::image::{save, Written, WrittenProhibition};
use crate::make::{self, Random, Size};
use crate::policy::Policy;
use crate::words::{ASSIGNMENTS, ASSOCIATIONS, KINDS, PROHIBITIONS, USERS, WORDS};

/// The script as it is written.
#[derive(Default)]
struct Script {
    bytes: Vec<u8>,
    /// How many answers stand on the line.
    answers: u32,
}

/// As many answers stand on a line.
const LINE: u32 = 60;
/// The program reads no more bytes.
const LONGEST_SCRIPT: usize = 360_448;

impl Script {
    fn step(&mut self, letter: u8, a: u32, b: u32) {
        self.bytes.push(letter);
        for number in [a, b, 0] {
            self.bytes.extend(number.to_be_bytes());
        }
    }

    fn ends(&mut self) {
        self.step(b'.', 0, 0);
        self.answers = 0;
    }

    fn image(&mut self, image: &[u8]) {
        self.step(b'B', image.len() as u32, 0);
        self.bytes.extend(image);
    }

    /// Loads these bytes.
    fn load(&mut self, image: &[u8]) {
        self.image(image);
        self.load_again();
    }

    /// Loads the image with as many bytes.
    fn load_of_length(&mut self, length: usize) {
        self.step(b'N', length as u32, 0);
        self.load_again();
    }

    fn load_again(&mut self) {
        self.step(b'l', 0, 0);
        self.answers += 1;
        if self.answers == LINE {
            self.ends();
        }
    }

    /// Loads the image with its bytes fitting exactly, with a surplus zero byte, with a byte fewer, and with
    /// its last byte zero.
    fn load_around(&mut self, written: &Written) {
        let image = written.bytes();
        self.load(&image);
        self.load_of_length(image.len() + 1);
        self.load_of_length(image.len() - 1);
        self.load_of_length(image.len());
    }

    fn state(&mut self) {
        self.ends();
        self.step(b'=', 0, 0);
    }
}

/// The image of what the change makes of the furnished house; counts follow the records.
fn changed(change: impl Fn(&mut Written)) -> Written {
    let mut written = Written::of(&furnished());
    change(&mut written);
    written.count();
    written
}

/// A policy of these many elements in a chain: a class, and attributes of the kind, each in the next by
/// `step` through the ids 2 to 510. Where it is closed, the last is in the first as well.
fn chain(kind: u32, count: u32, step: u32, closed: bool) -> Written {
    let id = |place: u32| 2 + place * step % 509;
    let mut written = Written::of(&Policy::new());
    written.elements = (0..count).map(|place| (id(place), kind)).chain([(1, 5)]).collect();
    written.assignments = (1..count).map(|place| (id(place - 1), id(place))).collect();
    written.assignments.push((id(count - 1), 1));
    if closed {
        written.assignments.push((id(count - 1), id(0)));
    }
    written.elements.sort_unstable();
    written.assignments.sort_unstable();
    written.count();
    written
}

/// Every group at its limit, every prohibition with four and four ids: 15,115 bytes.
fn largest() -> Written {
    let mut written = Written::of(&Policy::new());
    let kind = |id: u32| match id {
        1..=10 => 5,
        11..=60 => 2,
        61..=100 => 1,
        101..=400 => 4,
        _ => 3,
    };
    let lowest = |id: u32| if kind(id) == 1 { 11 } else { 1 };
    written.elements = (1..=511).map(|id| (id, kind(id))).collect();
    let needed = (11..=511).map(|id| (id, lowest(id)));
    let more = (101..=511).flat_map(|id| (2..=10).map(move |class| (id, class)));
    written.assignments = needed.chain(more).take(2000).collect();
    written.associations = (1..1000).map(|n| (11 + n % 50, 101 + n % 7, u32::MAX - n)).collect();
    // the first association, behind the last of all assignments there can be, is of an attribute to itself
    written.associations.push((11, 11, 1));
    written.prohibitions =
        (1..=200).map(|rights| listing(rights, &[101, 102, 103, 511], &[11, 12, 13, 511])).collect();
    written.processes = (1..=255).map(|id| (id, 61 + id % 40)).collect();
    written.assignments.sort_unstable();
    written.associations.sort_unstable();
    written.count();
    written
}

/// A prohibition of process 255.
fn listing(rights: u32, inclusions: &[u32], exclusions: &[u32]) -> WrittenProhibition {
    WrittenProhibition {
        sort: 2,
        subject: 255,
        form: 1,
        rights,
        inclusions: inclusions.to_vec(),
        exclusions: exclusions.to_vec(),
    }
}

/// Attributes of both kinds in each other, objects at the end of the ids, processes at both ends of theirs,
/// and a prohibition of each sort; the last of them lists so many ids, at most eight.
fn lodge(listed: usize) -> Written {
    let ids = [2, 5, 6, 511];
    let prohibition = |sort, subject, inclusions: &[u32], exclusions: &[u32]| WrittenProhibition {
        sort,
        subject,
        ..listing(0x8000_0001, inclusions, exclusions)
    };
    let mut written = Written::of(&Policy::new());
    written.elements = vec![(1, 5), (2, 2), (3, 2), (4, 1), (5, 4), (6, 4), (7, 3), (511, 3)];
    written.assignments = vec![(2, 1), (3, 2), (4, 3), (5, 1), (6, 5), (7, 6), (511, 6)];
    written.associations = vec![(2, 5, 1), (3, 511, 0x8000_0000)];
    written.prohibitions = vec![
        prohibition(1, 4, &[5], &[6]),
        prohibition(2, 255, &[], &[2]),
        prohibition(3, 3, &ids[..listed.min(4)], &ids[..listed.max(4) - 4]),
    ];
    written.processes = vec![(1, 4), (255, 4)];
    written.count();
    written
}

/// The two examples, the small house, each of its cuts and flips.
fn examples(script: &mut Script) {
    let house = save(&small_house().policy);
    for image in [&[0x10, 0, 0, 0, 0, 0, 0][..], &[0x10, 0x08, 0, 0, 0, 0, 0, 0x34], &house] {
        script.load(image);
        script.step(b's', 0, 0);
        script.state();
        script.step(b'K', 0, 0);
        script.step(b'T', 0, 0);
    }
    script.image(&save(&furnished()));
    script.step(b'K', 0, 0);
    script.step(b'T', 0, 0);
    script.step(b'Y', 1, 3000);
    script.step(b'=', 0, 0);
}

/// Forms, and images longer than any.
fn lengths(script: &mut Script) {
    for form in 0..16u8 {
        script.load(&[form << 4]);
        script.load_of_length(40);
        script.load_of_length(18_000);
    }
    script.load(&[]);
    let image = save(&furnished());
    for surplus in [&[0u8][..], &[0, 0], &[1], &[0x80]] {
        script.load(&[&image[..], surplus].concat());
    }
    script.load(&image);
    for length in [17_924, 17_925, 17_926, 18_000, image.len()] {
        script.load_of_length(length);
    }
    script.state();
    // each number of filling bits, each of them set in turn
    for listed in 1..=8 {
        script.image(&lodge(listed).bytes());
        script.step(b'T', 0, 0);
    }
    script.state();
    heads(script);
}

/// Heads with zero bytes behind them, of every length: records that are zero, and prohibitions that list no
/// ids or many, with more and more processes behind.
fn heads(script: &mut Script) {
    let empty = Written::of(&Policy::new());
    let mut cuts = |written: &Written, length: usize| {
        let mut image = written.bytes();
        image.resize(length, 0);
        script.image(&image);
        script.step(b'K', 0, 0);
    };
    for group in 0..5 {
        let mut written = empty.clone();
        for count in 1..=4 {
            written.counts[group] = count;
            cuts(&written, 34);
        }
    }
    for ids in [&[][..], &[0; 7]] {
        for count in 1..=3 {
            let mut written = empty.clone();
            written.prohibitions = vec![listing(1, ids, ids); count];
            written.count();
            for processes in 0..=8 {
                written.counts[4] = processes;
                cuts(&written, 28 + 24 * ids.len() / 7 * count);
            }
        }
    }
    script.state();
}

/// An id in each place of a list that may not stand there: 0, a user, a class, one that is not there, the one
/// before it, a lower one. And an assignment between two of every two kinds, 0 for one that is not there.
fn pairings(script: &mut Script) {
    let rising = [3, 5, 6, 7];
    for place in 0..4 {
        let before = if place == 0 { 1 } else { rising[place - 1] };
        for id in [0, 508, 509, 510, before, before - 1] {
            let list = [&rising[..place], &[id]].concat();
            for exclusions in [false, true] {
                let mut written = lodge(1);
                written.elements.splice(7..7, [(508, 1), (509, 5)]);
                written.assignments.insert(6, (508, 3));
                let lists = &mut written.prohibitions[2];
                *(if exclusions { &mut lists.exclusions } else { &mut lists.inclusions }) = list.clone();
                written.count();
                script.load(&written.bytes());
            }
        }
    }
    let container = [0, 2, 1, 3, 1, 0];
    for (child, other) in (0..36).map(|n| (n / 6, n % 6)) {
        let mut written = Written::of(&Policy::new());
        written.elements = vec![(1, 5), (2, 2), (3, 4), (10, child), (11, other)];
        written.elements.retain(|(_, kind)| *kind > 0);
        written.assignments = vec![(2, 1), (3, 1), (10, container[child as usize]), (10, 11)];
        written.assignments.push((11, container[other as usize]));
        written.assignments.retain(|(_, container)| *container > 0);
        written.count();
        script.load(&written.bytes());
    }
    script.state();
}

/// What line 13 and line 14 say, each alone, each two together, and beside what line 12 says.
fn lines(script: &mut Script) {
    type Fault = fn(&mut Written);
    let fields: [Fault; 18] = [
        |image| image.elements[7].1 = 6,
        |image| image.elements.swap(6, 7),
        |image| image.assignments[6].1 = 0,
        |image| image.assignments.swap(5, 6),
        |image| image.assignments.push((511, 6)),
        |image| image.associations[1].1 = 0,
        |image| image.associations[1].2 = 0,
        |image| image.associations.swap(0, 1),
        |image| image.prohibitions[0].sort = 0,
        |image| image.prohibitions[2].subject = 0,
        |image| image.prohibitions[1].subject = 256,
        |image| image.prohibitions[2].rights = 0,
        |image| image.prohibitions[2].inclusions.swap(2, 3),
        |image| image.prohibitions[2].exclusions = vec![1, 2, 3, 4, 5],
        |image| image.prohibitions[1].exclusions.clear(),
        |image| image.prohibitions.swap(1, 2),
        |image| image.processes[1].1 = 0,
        |image| image.processes.swap(0, 1),
    ];
    let names: [Fault; 9] = [
        |image| image.assignments.insert(0, (1, 5)),
        |image| image.assignments[5].1 = 100,
        |image| image.assignments.insert(1, (2, 3)),
        |image| image.elements.insert(7, (100, 4)),
        |image| image.associations[0].1 = 4,
        |image| image.associations[0].1 = 100,
        |image| image.prohibitions[0].subject = 5,
        |image| image.prohibitions[0].inclusions[0] = 100,
        |image| image.processes[0].1 = 2,
    ];
    let with = |faults: &[Fault]| {
        let mut written = lodge(7);
        faults.iter().for_each(|fault| fault(&mut written));
        written.count();
        written.bytes()
    };
    script.load(&with(&[]));
    for fault in fields.iter().chain(&names) {
        let mut image = with(&[*fault]);
        script.load(&image);
        script.load_of_length(image.len() - 1);
        *image.last_mut().expect("a head") |= 1;
        script.load(&image);
        script.load_of_length(image.len() + 1);
    }
    for field in fields {
        for name in names {
            script.load(&with(&[name, field]));
        }
    }
    script.state();
}

/// Fields and orders that break a rule, alone and beside what lower or higher lines say.
fn fields(script: &mut Script) {
    let one = |script: &mut Script, change: &dyn Fn(&mut Written)| script.load(&changed(change).bytes());
    for place in 0..11 {
        for id in [0, 1, 2, 4, 6, 8, 10, 12, 510, 511] {
            one(script, &|image| image.elements[place].0 = id);
            one(script, &|image| image.assignments[place].0 = id);
            one(script, &|image| image.assignments[place].1 = id);
        }
        for kind in 0..8 {
            one(script, &|image| image.elements[place].1 = kind);
        }
        one(script, &|image| image.elements.insert(place, image.elements[place]));
        one(script, &|image| image.assignments.insert(place, image.assignments[place]));
        one(script, &|image| {
            image.elements = [&image.elements[..place], &image.elements[place + 1..]].concat()
        });
        one(script, &|image| {
            image.assignments = [&image.assignments[..place], &image.assignments[place + 1..]].concat()
        });
        one(script, &|image| image.elements.swap(place, (place + 1) % 11));
        one(script, &|image| image.assignments.swap(place, (place + 1) % 11));
    }
    for place in 0..2 {
        for id in [0, 1, 3, 5, 6, 7, 9, 100, 255, 256, 511] {
            one(script, &|image| image.associations[place].0 = id);
            one(script, &|image| image.associations[place].1 = id);
            one(script, &|image| image.processes[place].0 = id);
            one(script, &|image| image.processes[place].1 = id);
        }
        for rights in [0, 1, 2, 0x7fff_ffff, 0x8000_0000, 0xffff_ffff] {
            one(script, &|image| image.associations[place].2 = rights);
            one(script, &|image| image.associations.insert(place, (3, 7, rights)));
        }
        one(script, &|image| image.associations.insert(place, image.associations[place]));
        one(script, &|image| image.processes.insert(place, image.processes[place]));
        one(script, &|image| image.processes.insert(place, (1, 6)));
        one(script, &|image| image.elements.insert(2 + place, (2, 4)));
    }
    one(script, &|image| image.associations.swap(0, 1));
    one(script, &|image| image.processes.swap(0, 1));
    one(script, &|image| image.processes.clear());
    for place in 0..4 {
        for number in 0..4 {
            one(script, &|image| image.prohibitions[place].sort = number);
            one(script, &|image| image.prohibitions[place].form = number % 2);
            one(script, &|image| image.prohibitions[place].rights = number);
            one(script, &|image| image.prohibitions.swap(place, number as usize));
        }
        for subject in [0, 1, 2, 3, 4, 5, 6, 7, 9, 100, 255, 256, 257, 511] {
            one(script, &|image| image.prohibitions[place].subject = subject);
        }
        one(script, &|image| image.prohibitions.insert(place, image.prohibitions[place].clone()));
        for count in 0..8 {
            for list in [[3, 4, 7, 8, 9, 10, 511], [3, 7, 4, 8, 9, 10, 100]] {
                let put = |exclusions: bool| {
                    changed(|image| {
                        let written = &mut image.prohibitions[place];
                        let lists = [&mut written.inclusions, &mut written.exclusions];
                        let [inclusions, others] = lists;
                        *(if exclusions { others } else { inclusions }) = list[..count].to_vec();
                    })
                };
                script.load(&put(false).bytes());
                script.load(&put(true).bytes());
            }
        }
        one(script, &|image| {
            image.prohibitions[place].inclusions.clear();
            image.prohibitions[place].exclusions.clear();
        });
    }
    script.state();
    // the counts stand before the ids
    let rising = rising_prohibitions();
    one(script, &|image| image.prohibitions = rising.to_vec());
    for place in 0..rising.len() {
        for other in 0..place {
            one(script, &|image| {
                image.prohibitions = rising.to_vec();
                image.prohibitions.swap(place, other);
            });
        }
    }
    // one id makes the order, whichever of the eight it is
    let lists = [[2, 3, 5, 6], [2, 3, 5, 7], [2, 3, 6, 7], [2, 5, 6, 7], [3, 5, 6, 7]];
    let by_inclusions = lists.iter().map(|inclusions| listing(1, inclusions, &lists[0]));
    let by_exclusions = lists[1..].iter().map(|exclusions| listing(1, &lists[4], exclusions));
    let rising: Vec<WrittenProhibition> = by_inclusions.chain(by_exclusions).collect();
    let of_these = |prohibitions: &[&WrittenProhibition]| {
        let mut written = lodge(1);
        written.prohibitions = prohibitions.iter().map(|prohibition| (*prohibition).clone()).collect();
        written.count();
        written.bytes()
    };
    script.load(&of_these(&rising.iter().collect::<Vec<_>>()));
    for pair in rising.windows(2) {
        script.load(&of_these(&[&pair[1], &pair[0]]));
        script.load(&of_these(&[&pair[1], &pair[1]]));
    }
    script.state();
    // every line that holds of an image, and its lowest
    for (form, cut, field, name) in (0..16).map(|n| (n & 1 > 0, n & 2 > 0, n & 4 > 0, n & 8 > 0)) {
        let written = changed(|image| {
            if form {
                image.form = 2;
            }
            if field {
                image.processes[1].0 = 0;
            }
            if name {
                image.assignments[0].1 = 100;
            }
        });
        let image = written.bytes();
        script.load(&image[..image.len() - usize::from(cut)]);
    }
    script.state();
}

/// Counts at the limits and above, with the bytes that they need, too few and too many.
fn limits(script: &mut Script) {
    let largest = largest();
    assert_eq!(largest.bytes().len(), 15_115);
    script.load(&largest.bytes());
    script.step(b's', 0, 0);
    script.state();
    script.step(b'Y', 2, 200);
    // one assignment too many, and in its place
    script.load_again();
    script.step(b'W', ASSOCIATIONS.start as u32, 511 * 512 + 511);
    script.step(b'W', ASSIGNMENTS.counter as u32, 2001);
    script.step(b's', 0, 0);
    for room in [15_114, 15_115, 15_116, 0, 7] {
        script.step(b'Z', 0xa5, 0);
        script.step(b'L', WORDS as u32, room);
        script.load_again();
        script.step(b's', 0, 0);
        script.state();
        script.step(b'L', WORDS as u32, 16_384);
    }
    let mut stem = Written::of(&Policy::new());
    stem.elements = vec![(1, 5), (2, 2), (3, 4)];
    stem.assignments = vec![(2, 1), (3, 1)];
    let (four, seven) = ([1, 2, 3, 4], [1, 2, 3, 4, 5, 6, 7]);
    let prohibitions = |count: u32, inclusions: &[u32], exclusions: &[u32]| -> Vec<WrittenProhibition> {
        let of_attribute = |given| WrittenProhibition { sort: 3, subject: 2, ..given };
        (1..=count).map(|rights| of_attribute(listing(rights, inclusions, exclusions))).collect()
    };
    for count in [2000, 2001, 2047] {
        let mut written = stem.clone();
        written.elements = (1..=10).map(|id| (id, 5)).chain((11..=215).map(|id| (id, 4))).collect();
        written.assignments =
            (11..=215).flat_map(|id| (1..=10).map(move |class| (id, class))).take(count - 1).collect();
        // without its last byte the last assignment is of 0, and in its place
        written.elements.truncate(10 + (count - 1).div_ceil(10));
        written.elements.push((300, 4));
        written.assignments.push((300, 1));
        if count == 2047 {
            written.prohibitions = prohibitions(255, &[3], &[]);
        }
        written.count();
        script.load_around(&written);
    }
    for count in [1000, 1001, 1023] {
        let mut written = stem.clone();
        written.associations = (1..count).map(|rights| (2, 3, rights)).collect();
        // without its last byte the last association has no right, and is in its place
        written.elements.push((4, 4));
        written.assignments.push((4, 1));
        written.associations.push((2, 4, 1));
        if count == 1023 {
            written.prohibitions = prohibitions(255, &[3], &[]);
        }
        written.count();
        script.load_around(&written);
    }
    let records = [
        prohibitions(200, &[3], &[]),
        prohibitions(201, &[3], &[]),
        prohibitions(255, &[3], &[]),
        prohibitions(201, &four, &four),
        prohibitions(200, &seven, &seven),
    ];
    for prohibitions in records {
        let mut written = Written { prohibitions, ..stem.clone() };
        written.count();
        script.load_around(&written);
    }
    script.state();
    for (group, count) in [(0, 511), (1, 2001), (1, 2047), (2, 1001), (2, 1023), (3, 201), (3, 255), (4, 255)]
    {
        let mut written = Written::of(&furnished());
        written.counts[group] = count;
        script.load(&written.bytes());
    }
    let mut widest = stem;
    widest.elements = (1..=511).map(|id| (id, 4)).collect();
    widest.assignments = (0..2047).map(|n| (1 + n / 256, n % 256)).collect();
    widest.associations = (0..1023).map(|n| (2, 3, n + 1)).collect();
    widest.prohibitions =
        (0..255).map(|n| listing(n + 1, &[1, 2, 3, 4, 5, 6, 7], &[1, 2, 3, 4, 5, 6, 7])).collect();
    widest.processes = (1..=255).map(|id| (id, 5)).collect();
    widest.count();
    assert_eq!(widest.bytes().len(), 17_925);
    script.load_around(&widest);
    script.state();
}

/// Rooms around the length of a small image, with every number of filling bits, and rooms where no table is.
fn rooms(script: &mut Script) {
    for listed in 1..=8 {
        let image = lodge(listed).bytes();
        script.load(&image);
        for room in [image.len() + 1, image.len(), image.len() - 1, 7, 0] {
            script.step(b'Z', 0xff, 0);
            script.step(b'L', WORDS as u32, room as u32);
            script.step(b's', 0, 0);
            script.step(b'L', WORDS as u32, 16_384);
            script.state();
        }
    }
    script.step(b'W', 0, 0);
    for (words, room) in [(8192, 0), (8192, 6), (8192, 7), (8191, 0), (0, 0)] {
        script.step(b'L', words, room);
        script.step(b's', 0, 0);
        script.load_again();
        script.step(b'W', 0, 0);
    }
    script.step(b'L', WORDS as u32, 16_384);
    script.state();
}

/// Chains and loops: through ids in and against their order, and in neither; one of all ids, one through 511
/// alone.
fn chains(script: &mut Script) {
    for (count, step) in [(500, 1), (500, 508), (500, 200), (2, 508), (1, 508), (509, 7)] {
        script.load(&chain(4, count, step, false).bytes());
        script.load(&chain(4, count, step, true).bytes());
    }
    for (count, step) in [(1, 508), (2, 1), (3, 508), (40, 7)] {
        script.load(&chain(2, count, step, false).bytes());
        script.load(&chain(2, count, step, true).bytes());
    }
    // 510 and 511 in each other, and each in itself
    for (child, container) in [(510, 511), (511, 510), (511, 511), (510, 510), (509, 511)] {
        let mut written = chain(4, 509, 1, false);
        written.elements.push((511, 4));
        written.assignments.push((511, 1));
        script.load(&{
            written.count();
            written.bytes()
        });
        written.assignments.extend([(child, container), (510, 511)]);
        written.assignments.sort_unstable();
        written.assignments.dedup();
        written.count();
        script.load(&written.bytes());
    }
    // unassigned elements, 511 among them
    for id in [2, 255, 256, 510, 511] {
        for kind in 1..=5 {
            let mut written = Written::of(&Policy::new());
            written.elements = vec![(1, 5), (id, kind)];
            written.count();
            script.load(&written.bytes());
            written.assignments = vec![(id, 1)];
            written.count();
            script.load(&written.bytes());
        }
    }
    script.state();
}

/// Made policies of all sizes, as they are and damaged.
fn made(script: &mut Script) {
    let random = &mut Random::new(6);
    for _ in 0..30 {
        let size = Size::small(random);
        let policy = make::policy(random, size);
        script.load(&save(&policy));
        script.step(b's', 0, 0);
        for _ in 0..4 {
            script.load(&make::damaged_image(random, &policy));
        }
        script.step(b'Y', random.below(1000), 60);
        script.answers = 0;
    }
    for _ in 0..3 {
        let size = Size::any(random);
        let policy = make::policy(random, size);
        script.load(&save(&policy));
        script.step(b's', 0, 0);
        script.state();
    }
}

/// Memory that holds no table, memory of other lengths, and tables that no command leaves.
fn memories(script: &mut Script) {
    let house = save(&furnished());
    script.step(b'Z', 0x5a, 0);
    for words in [0, 1, 8191, 8193, 8192] {
        script.step(b'L', words, 16_384);
        script.load(&house);
        script.step(b's', 0, 0);
        script.load(&[0x20]);
        script.load(&[]);
        script.step(b'z', 0, 0);
        script.state();
    }
    let prohibition = |i: usize| (PROHIBITIONS.start + PROHIBITIONS.width * i) as u32;
    let association = |i: usize| (ASSOCIATIONS.start + ASSOCIATIONS.width * i) as u32;
    let words: [&[(u32, u32)]; 26] = [
        &[(0, 0)],
        &[(0, 0x5144_5232)],
        &[(1, 2001)],
        &[(2, 1001)],
        &[(3, 201)],
        &[(ASSIGNMENTS.start as u32 + 3, 0)],
        &[(ASSIGNMENTS.start as u32 + 10, 511 * 512 + 511)],
        &[(ASSIGNMENTS.start as u32 + 10, 512 * 512)],
        &[
            (KINDS as u32 + 400, 5),
            (KINDS as u32, 3),
            (KINDS as u32 + 9, 6),
            (KINDS as u32 + 10, 0xffff_ffff),
        ],
        &[
            (USERS as u32 + 255, 511),
            (USERS as u32, 3),
            (USERS as u32 + 1, 512),
            (USERS as u32 + 2, 0xffff_ffff),
        ],
        &[(association(0), 0xffff_ffff), (association(0) + 1, 0)],
        &[(association(1), 0), (association(1) + 1, 0xffff_ffff)],
        &[(prohibition(0), 0xffff_ffff)],
        &[(prohibition(1), 0)],
        &[
            (prohibition(3) + 1, 0),
            (prohibition(3) + 3, 512),
            (prohibition(3) + 4, 0xffff_ffff),
            (prohibition(3) + 8, 1023),
        ],
        &[(prohibition(3) + 2, 4 * 8 + 4)],
        &[(prohibition(3) + 2, 4 * 8 + 1)],
        &[(prohibition(3) + 2, 5 * 8)],
        &[(prohibition(3) + 2, 0x1_0000 * 8)],
        &[(4, 7), (5, 7), (7, 9), (4776, 1), (8191, 1), (association(2), 77), (prohibition(4), 77)],
        &[(KINDS as u32 + 12, 8), (KINDS as u32 + 13, 9), (KINDS as u32 + 14, 0x1_0005)],
        &[(USERS as u32 + 12, 513), (USERS as u32 + 13, 1023), (USERS as u32 + 14, 0x1_0005)],
        &[(association(1), 3 * 512 * 512 + 4 * 512 + 8), (prohibition(0), 7 * 4096 + 1024 + 10 + 1)],
        &[(prohibition(3) + 2, 64 + 4 * 8 + 2)],
        // free words of each group
        &[
            (ASSIGNMENTS.start as u32 + 11, 5),
            (association(2), 4 * 512 + 8),
            (association(2) + 1, 1),
            (prohibition(4), 4095),
            (prohibition(4) + 1, 1),
            (prohibition(4) + 2, 63),
        ],
        &[
            (6, 1),
            (KINDS as u32, 1),
            (USERS as u32, 1),
            (2775, 1),
            (4775, 1),
            (5775, 1),
            (7975, 1),
            (7976, 1),
        ],
    ];
    for given in words {
        script.load(&house);
        for (at, word) in given {
            script.step(b'W', *at, *word);
        }
        script.step(b's', 0, 0);
        script.state();
    }
    // each free place of the first prohibition's lists; lists that would be longer than four
    script.load(&house);
    for place in 4..11 {
        script.step(b'W', prohibition(0) + place, 1);
        script.step(b's', 0, 0);
        script.step(b'W', prohibition(0) + place, 0);
    }
    for (inclusions, exclusions) in [(5, 1), (1, 5), (6, 0), (0, 6), (7, 0), (0, 7), (3, 3), (2, 4)] {
        script.step(b'W', prohibition(3) + 2, 8 * inclusions + exclusions);
        script.step(b's', 0, 0);
    }
    script.state();
    // no assignment and one, behind a word that has nothing to say
    script.step(b'z', 0, 0);
    script.step(b'W', USERS as u32 + 255, u32::MAX);
    script.step(b's', 0, 0);
    script.step(b'W', ASSIGNMENTS.counter as u32, 1);
    for word in [5, 511 * 512 + 511, 512 * 512, 512 * 512 + 1, u32::MAX] {
        script.step(b'W', ASSIGNMENTS.start as u32, word);
        script.step(b's', 0, 0);
    }
    script.state();
    // what stood there before a load plays no part
    script.load(&house);
    script.step(b's', 0, 0);
    script.state();
}

/// The script.
pub fn images_script() -> Vec<u8> {
    let mut script = Script::default();
    examples(&mut script);
    lengths(&mut script);
    fields(&mut script);
    pairings(&mut script);
    lines(&mut script);
    limits(&mut script);
    rooms(&mut script);
    chains(&mut script);
    made(&mut script);
    memories(&mut script);
    script.bytes
}

/// How many images a script of damaged images has.
const DAMAGED: u32 = 1000;

/// A script for a long run: small policies that were made from the seed, every second image damaged already,
/// and damaged images of each, about `count` in all.
pub fn damaged_script(count: u32, seed: u64) -> Vec<u8> {
    let random = &mut Random::new(seed);
    let mut script = Script::default();
    for place in 0..DAMAGED {
        let size = Size::small(random);
        let policy = make::policy(random, size);
        let damaged = place % 2 == 1;
        script.image(&if damaged { make::damaged_image(random, &policy) } else { save(&policy) });
        script.step(b'Y', random.bits() as u32, count / DAMAGED);
    }
    script.state();
    assert!(script.bytes.len() <= LONGEST_SCRIPT, "the program reads no more than {LONGEST_SCRIPT} bytes");
    script.bytes
}
