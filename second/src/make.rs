//! Makes things to try: sound policies of any size, requests and commands good and bad, foreign
//! indexes, damaged images. Everything follows from the seed.

use crate::command::{Command, GivenProhibition};
use crate::image::{save, Written, WrittenProhibition};
use crate::index::INDEX_BYTES;
use crate::policy::{
    may_be_assigned, Policy, Prohibition, ATTRIBUTES, CLASS, MOST_ASSIGNMENTS, MOST_ASSOCIATIONS,
    MOST_ELEMENTS, MOST_PROCESSES, MOST_PROHIBITIONS, NON_CLASS, OBJECT, OBJECT_ATTRIBUTE, SORT_ATTRIBUTE,
    SORT_PROCESS, SORT_USER, USER, USER_ATTRIBUTE,
};
use std::collections::BTreeSet;

/// A pseudo random sequence (splitmix64).
#[derive(Clone, Debug)]
pub struct Random(u64);

impl Random {
    pub fn new(seed: u64) -> Random {
        Random(seed)
    }

    /// The next 64 bits.
    pub fn bits(&mut self) -> u64 {
        self.0 = self.0.wrapping_add(0x9e37_79b9_7f4a_7c15);
        let mut mixed = self.0;
        mixed = (mixed ^ mixed >> 30).wrapping_mul(0xbf58_476d_1ce4_e5b9);
        mixed = (mixed ^ mixed >> 27).wrapping_mul(0x94d0_49bb_1331_11eb);
        mixed ^ mixed >> 31
    }

    /// A number below `bound`, which is not 0.
    pub fn below(&mut self, bound: u32) -> u32 {
        (self.bits() % u64::from(bound)) as u32
    }

    /// A number from `low` to `high`, both included.
    pub fn between(&mut self, low: u32, high: u32) -> u32 {
        low + self.below(high - low + 1)
    }

    /// True in `percent` of 100 cases.
    pub fn chance(&mut self, percent: u32) -> bool {
        self.below(100) < percent
    }

    /// One of the list, if it has any.
    pub fn pick<T: Copy>(&mut self, list: &[T]) -> Option<T> {
        match list.len() {
            0 => None,
            length => Some(list[self.below(length as u32) as usize]),
        }
    }

    /// Puts the list into another order.
    pub fn shuffle<T>(&mut self, list: &mut [T]) {
        for last in (1..list.len()).rev() {
            list.swap(last, self.below(last as u32 + 1) as usize);
        }
    }
}

/// How much a made policy should hold. What the rules leave no room for is left out: processes
/// without a user, for instance.
#[derive(Clone, Copy, Debug)]
pub struct Size {
    pub elements: usize,
    pub assignments: usize,
    pub associations: usize,
    pub prohibitions: usize,
    pub processes: usize,
}

impl Size {
    /// Everything up to 01's limits.
    pub const FULL: Size = Size {
        elements: MOST_ELEMENTS,
        assignments: MOST_ASSIGNMENTS,
        associations: MOST_ASSOCIATIONS,
        prohibitions: MOST_PROHIBITIONS,
        processes: MOST_PROCESSES,
    };

    /// A size in which decisions of every outcome are frequent.
    pub fn small(random: &mut Random) -> Size {
        let elements = random.between(4, 24) as usize;
        Size {
            elements,
            assignments: elements + random.below(12) as usize,
            associations: random.between(2, 30) as usize,
            prohibitions: random.below(6) as usize,
            processes: random.between(1, 5) as usize,
        }
    }

    /// Any size up to the limits.
    pub fn any(random: &mut Random) -> Size {
        Size {
            elements: random.below(MOST_ELEMENTS as u32 + 1) as usize,
            assignments: random.below(MOST_ASSIGNMENTS as u32 + 1) as usize,
            associations: random.below(MOST_ASSOCIATIONS as u32 + 1) as usize,
            prohibitions: random.below(MOST_PROHIBITIONS as u32 + 1) as usize,
            processes: random.below(MOST_PROCESSES as u32 + 1) as usize,
        }
    }
}

/// A right set that is not empty: a few of the named rights, any set, or all of them.
pub fn rights(random: &mut Random) -> u32 {
    let set = match random.below(4) {
        0 => random.bits() as u32,
        1 => u32::MAX,
        _ => (0..random.between(1, 6)).fold(0, |set, _| set | 1 << random.below(13)),
    };
    if set == 0 {
        1
    } else {
        set
    }
}

/// A strictly rising list of at most `most` of the ids.
fn rising_list(random: &mut Random, ids: &[u16], most: u32) -> Vec<u16> {
    let count = random.below(most + 1);
    let list: BTreeSet<u16> = (0..count).filter_map(|_| random.pick(ids)).collect();
    list.into_iter().collect()
}

fn ids_of(policy: &Policy, kinds: &[u8]) -> Vec<u16> {
    policy.elements.iter().filter(|(_, kind)| kinds.contains(kind)).map(|(id, _)| *id).collect()
}

/// A prohibition that breaks no rule of the policy, if the policy has anything to name.
pub fn prohibition(random: &mut Random, policy: &Policy) -> Option<Prohibition> {
    let attributes = ids_of(policy, &ATTRIBUTES);
    let sort = random.pick(&[SORT_USER, SORT_PROCESS, SORT_ATTRIBUTE])?;
    let subject = match sort {
        SORT_USER => random.pick(&ids_of(policy, &[USER]))?,
        SORT_PROCESS => {
            let processes: Vec<u16> = policy.processes.keys().map(|id| u16::from(*id)).collect();
            random.pick(&processes)?
        }
        _ => random.pick(&ids_of(policy, &[USER_ATTRIBUTE]))?,
    };
    let mut inclusions = rising_list(random, &attributes, 4);
    let exclusions = rising_list(random, &attributes, 4);
    if inclusions.is_empty() && exclusions.is_empty() {
        inclusions = vec![random.pick(&attributes)?];
    }
    Some(Prohibition {
        sort,
        subject,
        form: random.below(2) as u8,
        rights: rights(random),
        inclusions,
        exclusions,
    })
}

/// A sound policy of about the size. The elements are made in a random order of ids and each is
/// assigned only to earlier ones, so chains run upward and downward in ids and never close.
pub fn policy(random: &mut Random, size: Size) -> Policy {
    let mut made = Policy::new();
    let mut ids: Vec<u16> = (1..=MOST_ELEMENTS as u16).collect();
    random.shuffle(&mut ids);
    ids.truncate(size.elements);
    if random.chance(30) {
        ids.sort_unstable();
    }

    let classes = match random.below(4) {
        0 => random.between(1, 1 + size.elements as u32 / 3),
        1 => 1,
        _ => random.between(1, 3),
    };
    // Deep policies prefer the newest possible container, flat ones take any.
    let deep = random.chance(40);
    let mut order: Vec<(u16, u8)> = Vec::new();
    for id in ids {
        let has = |kind| order.iter().any(|(_, k)| *k == kind);
        let kind = if (order.len() as u32) < classes {
            CLASS
        } else if !has(USER_ATTRIBUTE) {
            USER_ATTRIBUTE
        } else {
            random.pick(&NON_CLASS).expect("four kinds")
        };
        let possible: Vec<u16> = order
            .iter()
            .filter(|(_, container)| may_be_assigned(kind, *container))
            .map(|(id, _)| *id)
            .collect();
        made.elements.insert(id, kind);
        if kind != CLASS {
            let newest = possible.last().copied().filter(|_| deep && random.chance(85));
            let container =
                newest.or_else(|| random.pick(&possible)).expect("a class or user attribute came first");
            made.assignments.insert((id, container));
        }
        order.push((id, kind));
    }

    let mut further: Vec<(u16, u16)> = Vec::new();
    for (place, (child, kind)) in order.iter().enumerate() {
        for (container, container_kind) in &order[..place] {
            if may_be_assigned(*kind, *container_kind) {
                further.push((*child, *container));
            }
        }
    }
    random.shuffle(&mut further);
    for assignment in further {
        if made.assignments.len() >= size.assignments {
            break;
        }
        made.assignments.insert(assignment);
    }

    let users = ids_of(&made, &[USER]);
    let user_attributes = ids_of(&made, &[USER_ATTRIBUTE]);
    let attributes = ids_of(&made, &ATTRIBUTES);
    let mut process_ids: Vec<u8> = (1..=MOST_PROCESSES as u8).collect();
    random.shuffle(&mut process_ids);
    for id in process_ids.into_iter().take(size.processes) {
        if let Some(user) = random.pick(&users) {
            made.processes.insert(id, user);
        }
    }
    for _ in 0..4 * size.associations {
        if made.associations.len() >= size.associations {
            break;
        }
        if let (Some(attribute), Some(target)) = (random.pick(&user_attributes), random.pick(&attributes)) {
            made.associations.insert((attribute, target, rights(random)));
        }
    }
    for _ in 0..4 * size.prohibitions {
        if made.prohibitions.len() >= size.prohibitions {
            break;
        }
        made.prohibitions.extend(prohibition(random, &made));
    }
    made
}

/// Any number that may be taken for an id: borders, numbers that become an id when cut short, others.
pub fn wild_id(random: &mut Random) -> u32 {
    let borders = [0, 1, 255, 256, 257, 511, 512, 513, 1024, 65_535, 65_536, 65_537, u32::MAX];
    match random.below(4) {
        0 => random.pick(&borders).expect("some borders"),
        1 => 65_536 + random.below(512),
        2 => random.bits() as u32,
        _ => 512 + random.below(512),
    }
}

/// An element id: mostly there and of one of the kinds, sometimes of another kind, absent or wild.
pub fn element_id(random: &mut Random, policy: &Policy, kinds: &[u8]) -> u32 {
    let found = match random.below(100) {
        0..=86 => random.pick(&ids_of(policy, kinds)),
        87..=92 => random.pick(&ids_of(policy, &[USER, USER_ATTRIBUTE, OBJECT, OBJECT_ATTRIBUTE, CLASS])),
        93..=97 => return random.between(1, 511),
        _ => None,
    };
    found.map_or_else(|| wild_id(random), u32::from)
}

/// An element id that is mostly not taken.
fn new_element_id(random: &mut Random, policy: &Policy) -> u32 {
    if random.chance(80) {
        let free: Vec<u16> = (1..=511).filter(|id| policy.kind(*id).is_none()).collect();
        if let Some(id) = random.pick(&free) {
            return u32::from(id);
        }
    }
    element_id(random, policy, &NON_CLASS)
}

/// A process id: mostly there, sometimes absent or wild.
pub fn process_id(random: &mut Random, policy: &Policy) -> u32 {
    let there: Vec<u8> = policy.processes.keys().copied().collect();
    match (random.below(100), random.pick(&there)) {
        (0..=91, Some(id)) => u32::from(id),
        (0..=95, _) => random.between(1, 255),
        (96..=97, Some(id)) => 256 + u32::from(id),
        _ => wild_id(random),
    }
}

/// A request: process, operation, arguments; mostly one that is not refused.
pub fn request(random: &mut Random, policy: &Policy) -> (u32, u32, [u32; 3]) {
    let process = process_id(random, policy);
    if random.chance(3) {
        let operation = random.pick(&[0, 10, 15, 16, 257, u32::MAX]).expect("six numbers");
        return (process, operation, [element_id(random, policy, &[OBJECT]), 0, 0]);
    }
    let operation = random.between(1, 9);
    let kinds: [&[u8]; 3] = match operation {
        1..=4 => [&[OBJECT], &[], &[]],
        5 => [&[OBJECT], &[OBJECT_ATTRIBUTE], &[OBJECT_ATTRIBUTE]],
        6 => [&[OBJECT], &[OBJECT_ATTRIBUTE], &[]],
        7 | 8 => [&NON_CLASS, &NON_CLASS, &[]],
        _ => [&[USER_ATTRIBUTE], &ATTRIBUTES, &[]],
    };
    let arguments = kinds.map(|kinds| {
        let unused = kinds.is_empty();
        match unused {
            true if random.chance(99) => 0,
            true => element_id(random, policy, &NON_CLASS),
            false => element_id(random, policy, kinds),
        }
    });
    (process, operation, arguments)
}

/// A list for a prohibition command: mostly rising and short, sometimes neither.
fn given_list(random: &mut Random, policy: &Policy) -> Vec<u32> {
    let attributes = ids_of(policy, &ATTRIBUTES);
    let most = if random.chance(10) { 9 } else { 4 };
    let mut list: Vec<u32> = rising_list(random, &attributes, most).into_iter().map(u32::from).collect();
    if random.chance(8) {
        let place = random.below(list.len() as u32 + 1) as usize;
        list.insert(place, element_id(random, policy, &ATTRIBUTES));
    }
    if random.chance(5) {
        random.shuffle(&mut list);
    }
    list
}

/// The fields of a standing prohibition, as a command is given them.
pub fn given(prohibition: &Prohibition) -> GivenProhibition {
    let numbers = |ids: &[u16]| ids.iter().map(|id| u32::from(*id)).collect();
    GivenProhibition {
        sort: prohibition.sort.into(),
        subject: prohibition.subject.into(),
        form: prohibition.form.into(),
        rights: prohibition.rights,
        inclusions: numbers(&prohibition.inclusions),
        exclusions: numbers(&prohibition.exclusions),
    }
}

fn given_prohibition(random: &mut Random, policy: &Policy) -> GivenProhibition {
    if random.chance(60) {
        if let Some(sound) = prohibition(random, policy) {
            let mut fields = given(&sound);
            match random.below(20) {
                0 => fields.rights = 0,
                1 => fields.form = random.pick(&[2, 256, 257, u32::MAX]).expect("four forms"),
                2 => fields.sort = random.pick(&[0, 1, 2, 3, 4, 257, u32::MAX]).expect("seven sorts"),
                3 => fields.subject = wild_id(random),
                4 => fields.inclusions.reverse(),
                _ => {}
            }
            return fields;
        }
    }
    let sort = random.between(1, 3);
    GivenProhibition {
        sort,
        subject: match sort {
            1 => element_id(random, policy, &[USER]),
            2 => process_id(random, policy),
            _ => element_id(random, policy, &[USER_ATTRIBUTE]),
        },
        form: random.below(2),
        rights: given_rights(random),
        inclusions: given_list(random, policy),
        exclusions: given_list(random, policy),
    }
}

fn given_rights(random: &mut Random) -> u32 {
    if random.chance(4) {
        0
    } else {
        rights(random)
    }
}

/// A command, good or bad. Over a long history policies made of these grow and shrink.
pub fn command(random: &mut Random, policy: &Policy) -> Command {
    match random.below(24) {
        0 => Command::CreateClass { id: new_element_id(random, policy) },
        1..=5 => {
            let kind = if random.chance(95) {
                u32::from(random.pick(&NON_CLASS).expect("four kinds"))
            } else {
                random.pick(&[0, 5, 6, 258, u32::MAX]).expect("five kinds")
            };
            let containers: &[u8] = match kind {
                1 => &[USER_ATTRIBUTE],
                2 => &[USER_ATTRIBUTE, CLASS],
                _ => &[OBJECT_ATTRIBUTE, CLASS],
            };
            let container = element_id(random, policy, containers);
            Command::CreateElement { id: new_element_id(random, policy), kind, container }
        }
        6..=9 => {
            let (children, containers): (&[u8], &[u8]) = match random.below(4) {
                0 => (&[USER], &[USER_ATTRIBUTE]),
                1 => (&[USER_ATTRIBUTE], &[USER_ATTRIBUTE, CLASS]),
                2 => (&[OBJECT, OBJECT_ATTRIBUTE], &[OBJECT_ATTRIBUTE, CLASS]),
                _ => (&[USER_ATTRIBUTE, OBJECT_ATTRIBUTE], &[USER_ATTRIBUTE, OBJECT_ATTRIBUTE, CLASS]),
            };
            let child = element_id(random, policy, children);
            let container = if random.chance(4) { child } else { element_id(random, policy, containers) };
            Command::Assign { child, container }
        }
        10..=12 => match random.chance(85).then(|| one_of_set(random, &policy.assignments)).flatten() {
            Some((child, container)) => {
                Command::Deassign { child: child.into(), container: container.into() }
            }
            None => Command::Deassign {
                child: element_id(random, policy, &NON_CLASS),
                container: element_id(random, policy, &[USER_ATTRIBUTE, OBJECT_ATTRIBUTE, CLASS]),
            },
        },
        13 | 14 => Command::DeleteElement {
            id: element_id(random, policy, &[USER, OBJECT, CLASS, OBJECT_ATTRIBUTE]),
        },
        15 | 16 => match random.chance(15).then(|| one_of_set(random, &policy.associations)).flatten() {
            Some((attribute, target, rights)) => {
                Command::CreateAssociation { attribute: attribute.into(), rights, target: target.into() }
            }
            None => Command::CreateAssociation {
                attribute: element_id(random, policy, &[USER_ATTRIBUTE]),
                rights: given_rights(random),
                target: element_id(random, policy, &ATTRIBUTES),
            },
        },
        17 => match random.chance(80).then(|| one_of_set(random, &policy.associations)).flatten() {
            Some((attribute, target, rights)) => {
                let rights = if random.chance(10) { rights ^ 1 } else { rights };
                Command::DeleteAssociation { attribute: attribute.into(), rights, target: target.into() }
            }
            None => Command::DeleteAssociation {
                attribute: element_id(random, policy, &[USER_ATTRIBUTE]),
                rights: given_rights(random),
                target: element_id(random, policy, &ATTRIBUTES),
            },
        },
        18 | 19 => match random.chance(15).then(|| one_of_set(random, &policy.prohibitions)).flatten() {
            Some(standing) => Command::CreateProhibition(given(&standing)),
            None => Command::CreateProhibition(given_prohibition(random, policy)),
        },
        20 => match random.chance(80).then(|| one_of_set(random, &policy.prohibitions)).flatten() {
            Some(standing) => {
                let mut fields = given(&standing);
                if random.chance(10) {
                    fields.form ^= 1;
                }
                Command::DeleteProhibition(fields)
            }
            None => Command::DeleteProhibition(given_prohibition(random, policy)),
        },
        21 | 22 => {
            let id = if random.chance(70) { random.between(1, 255) } else { process_id(random, policy) };
            Command::StartProcess { id, user: element_id(random, policy, &[USER]) }
        }
        _ => Command::EndProcess { id: process_id(random, policy) },
    }
}

fn one_of_set<T: Clone>(random: &mut Random, set: &BTreeSet<T>) -> Option<T> {
    match set.len() {
        0 => None,
        length => set.iter().nth(random.below(length as u32) as usize).cloned(),
    }
}

/// A foreign index: bytes that need not be any policy's, with few, half or most of the bits set.
pub fn foreign_index(random: &mut Random) -> Vec<u8> {
    let density = random.below(3);
    (0..INDEX_BYTES)
        .map(|_| {
            let bits = random.bits().to_le_bytes();
            match density {
                0 => bits[0] & bits[1],
                1 => bits[0],
                _ => bits[0] | bits[1] | bits[2],
            }
        })
        .collect()
}

/// Turns over one bit; bit 0 is the most significant one of byte 0.
pub fn flip(bytes: &mut [u8], bit: usize) {
    bytes[bit / 8] ^= 0x80 >> (bit % 8);
}

/// An image of the policy with some damage: bits turned over, bytes cut off or added, or one field,
/// order or count changed.
pub fn damaged_image(random: &mut Random, policy: &Policy) -> Vec<u8> {
    let mut image = save(policy);
    match random.below(10) {
        0 => {
            for _ in 0..random.between(1, 3) {
                let bit = random.below(image.len() as u32 * 8);
                flip(&mut image, bit as usize);
            }
            image
        }
        1 => {
            let kept = random.below(image.len() as u32);
            image.truncate(kept as usize);
            image
        }
        2 => {
            for _ in 0..random.between(1, 3) {
                image.push(if random.chance(50) { 0 } else { random.bits() as u8 });
            }
            image
        }
        _ => {
            let mut written = Written::of(policy);
            damage_fields(random, &mut written);
            written.bytes()
        }
    }
}

/// Another value for a field: 0, one beside it, or any of as many bits as the field has.
fn other(random: &mut Random, value: &mut u32, width: u32) {
    *value = match random.below(4) {
        0 => 0,
        1 => value.wrapping_add(1),
        2 => value.wrapping_sub(1),
        _ => random.bits() as u32,
    } & (u32::MAX >> (32 - width));
}

/// Takes out, doubles, or swaps records of a group.
fn disorder<T: Clone>(random: &mut Random, group: &mut Vec<T>) {
    if group.is_empty() {
        return;
    }
    let length = group.len() as u32;
    let (one, two) = (random.below(length) as usize, random.below(length) as usize);
    match random.below(3) {
        0 => {
            group.remove(one);
        }
        1 => group.insert(one, group[one].clone()),
        _ => group.swap(one, two),
    }
}

/// Changes one field, order or count of what is written.
pub fn damage_fields(random: &mut Random, written: &mut Written) {
    match random.below(13) {
        0 => {
            let group = random.below(5) as usize;
            let width = [9, 11, 10, 8, 8][group];
            other(random, &mut written.counts[group], width);
        }
        1 => match random.below(5) {
            0 => disorder(random, &mut written.elements),
            1 => disorder(random, &mut written.assignments),
            2 => disorder(random, &mut written.associations),
            3 => disorder(random, &mut written.prohibitions),
            _ => disorder(random, &mut written.processes),
        },
        2 | 3 => {
            if let Some((id, kind)) = one_in(random, &mut written.elements) {
                match random.chance(50) {
                    true => other(random, id, 9),
                    false => other(random, kind, 3),
                }
            }
        }
        4 | 5 => {
            if let Some((child, container)) = one_in(random, &mut written.assignments) {
                let end = if random.chance(50) { child } else { container };
                other(random, end, 9);
            }
        }
        6 | 7 => {
            if let Some((attribute, target, rights)) = one_in(random, &mut written.associations) {
                match random.below(3) {
                    0 => other(random, attribute, 9),
                    1 => other(random, target, 9),
                    _ => other(random, rights, 32),
                }
            }
        }
        8..=10 => {
            if let Some(prohibition) = one_in(random, &mut written.prohibitions) {
                damage_prohibition(random, prohibition);
            }
        }
        11 => close_a_cycle(random, written),
        _ => {
            if let Some((id, user)) = one_in(random, &mut written.processes) {
                match random.chance(50) {
                    true => other(random, id, 8),
                    false => other(random, user, 9),
                }
            }
        }
    }
    if random.chance(40) {
        sort_groups(written);
    }
    if random.chance(80) {
        written.count();
    }
}

/// Puts the groups into rising order, so that it is not their order that a damaged image is refused for.
fn sort_groups(written: &mut Written) {
    written.elements.sort_unstable();
    written.assignments.sort_unstable();
    written.associations.sort_unstable();
    written.prohibitions.sort_by_key(WrittenProhibition::fields);
    written.processes.sort_unstable();
}

/// Adds an assignment that closes a cycle, where the policy has a chain of attributes.
fn close_a_cycle(random: &mut Random, written: &mut Written) {
    let policy = written.policy();
    if let Some((child, first)) = one_of_set(random, &policy.assignments) {
        let above: Vec<u16> =
            policy.reach(first).into_iter().filter(|id| policy.is_one_of(*id, &ATTRIBUTES)).collect();
        if let Some(container) = random.pick(&above) {
            written.assignments.push((container.into(), child.into()));
            written.assignments.sort_unstable();
            written.count();
        }
    }
}

fn one_in<'a, T>(random: &mut Random, group: &'a mut [T]) -> Option<&'a mut T> {
    match group.len() {
        0 => None,
        length => group.get_mut(random.below(length as u32) as usize),
    }
}

fn damage_prohibition(random: &mut Random, prohibition: &mut WrittenProhibition) {
    match random.below(6) {
        0 => other(random, &mut prohibition.sort, 2),
        1 => other(random, &mut prohibition.subject, 9),
        2 => other(random, &mut prohibition.form, 1),
        3 => other(random, &mut prohibition.rights, 32),
        _ => {
            let list = match random.chance(50) {
                true => &mut prohibition.inclusions,
                false => &mut prohibition.exclusions,
            };
            match random.below(4) {
                0 => list.clear(),
                1 => list.reverse(),
                2 => list.resize(random.below(8) as usize, 511),
                _ => {
                    if let Some(id) = one_in(random, list) {
                        other(random, id, 9);
                    }
                }
            }
        }
    }
}
