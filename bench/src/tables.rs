//! The tables that calls are measured on.

use second::make::{prohibition, Random};
use second::policy::{CLASS, OBJECT, OBJECT_ATTRIBUTE, USER, USER_ATTRIBUTE};
use second::{Policy, Prohibition};

/// Their names.
pub const NAMES: [&str; 7] =
    ["house", "shallow-50", "shallow-500", "largest", "chain-rising", "chain-falling", "diamond"];

/// A table by its name.
pub fn policy(name: &str) -> Policy {
    match name {
        "house" => second::house::small_house().policy,
        "shallow-50" => shallow(50),
        "shallow-500" => shallow(500),
        "largest" => largest(),
        "chain-rising" => chain(500, |place| place + 1),
        "chain-falling" => chain(500, |place| 500 - place),
        "diamond" => diamond(250),
        _ => panic!("no table is named {name}"),
    }
}

/// An element of a kind, in containers.
fn put(policy: &mut Policy, id: u16, kind: u8, containers: &[u16]) {
    policy.elements.insert(id, kind);
    policy.assignments.extend(containers.iter().map(|container| (id, *container)));
}

/// Two classes, attributes in them, users and objects in the attributes: a tenth of the elements are user attributes, a
/// tenth object attributes, a fifth users. A user may do all with the objects of one object attribute and read those of another.
fn shallow(size: u16) -> Policy {
    let mut made = Policy::new();
    let (attributes, users) = (size / 10, size / 5);
    let user_attribute = |i: u16| 3 + i % attributes;
    let object_attribute = |i: u16| 3 + attributes + i % attributes;
    put(&mut made, 1, CLASS, &[]);
    put(&mut made, 2, CLASS, &[]);
    for i in 0..attributes {
        put(&mut made, user_attribute(i), USER_ATTRIBUTE, &[1, 2]);
        put(&mut made, object_attribute(i), OBJECT_ATTRIBUTE, &[1 + i % 2]);
        made.associations.insert((user_attribute(i), object_attribute(i), 0b1_1111_1111_1111));
        made.associations.insert((user_attribute(i), object_attribute(i + 1), 0b1));
    }
    for i in 0..users {
        let user = 3 + 2 * attributes + i;
        put(&mut made, user, USER, &[user_attribute(i), user_attribute(i + 1)]);
        made.processes.insert((i + 1) as u8, user);
        if i % 4 == 0 {
            made.prohibitions.insert(Prohibition {
                sort: 1,
                subject: user,
                form: 0,
                rights: 0b10,
                inclusions: vec![object_attribute(i)],
                exclusions: vec![],
            });
        }
    }
    for id in 3 + 2 * attributes + users..=size {
        put(&mut made, id, OBJECT, &[object_attribute(id), object_attribute(id + 1)]);
    }
    made
}

/// As much as the rules let a table hold: 511 elements, 2,000 assignments, 1,000 associations, 200 prohibitions, 255 processes. Four
/// classes, attributes in them or in one of eight broad attributes, users and objects in the attributes.
fn largest() -> Policy {
    let mut random = Random::new(511);
    let mut made = Policy::new();
    for class in 1..=4 {
        put(&mut made, class, CLASS, &[]);
    }
    // eight broad attributes of each side, then fifty of each in them, then users and objects
    let (broad_users, broad_objects) = (5..=12, 13..=20);
    let (user_attributes, object_attributes) = (21..=70, 71..=120);
    for id in broad_users.clone() {
        put(&mut made, id, USER_ATTRIBUTE, &[1 + id % 4]);
    }
    for id in broad_objects.clone() {
        put(&mut made, id, OBJECT_ATTRIBUTE, &[1 + id % 4]);
    }
    for id in user_attributes.clone() {
        put(&mut made, id, USER_ATTRIBUTE, &[5 + id % 8]);
    }
    for id in object_attributes.clone() {
        put(&mut made, id, OBJECT_ATTRIBUTE, &[13 + id % 8]);
    }
    for id in 121..=511 {
        match id % 3 {
            0 => put(&mut made, id, USER, &[21 + id % 50]),
            _ => put(&mut made, id, OBJECT, &[71 + id % 50]),
        }
    }
    while made.assignments.len() < 2_000 {
        let id = random.between(121, 511) as u16;
        let attribute = random.below(50) as u16;
        made.assignments.insert((id, if id.is_multiple_of(3) { 21 + attribute } else { 71 + attribute }));
    }
    while made.associations.len() < 1_000 {
        let attribute = random.between(5, 70) as u16;
        let attribute = if broad_objects.contains(&attribute) { attribute - 8 } else { attribute };
        let target = random.between(13, 120) as u16;
        let target = if user_attributes.contains(&target) { target + 50 } else { target };
        made.associations.insert((attribute, target, second::make::rights(&mut random)));
    }
    for id in 1..=255 {
        made.processes.insert(id, 123 + 3 * (u16::from(id) % 130));
    }
    while made.prohibitions.len() < 200 {
        made.prohibitions.extend(prohibition(&mut random, &made));
    }
    made
}

/// Two users, each in a user attribute of the class, with the highest ids. The first has all rights over each of the
/// targets, the second may find what is within the last of them.
fn readers(made: &mut Policy, class: u16, targets: &[u16]) {
    for (process, attribute, user) in [(1, 508, 509), (2, 510, 511)] {
        put(made, attribute, USER_ATTRIBUTE, &[class]);
        put(made, user, USER, &[attribute]);
        made.processes.insert(process, user);
    }
    made.associations.extend(targets.iter().map(|target| (508, *target, 0b1_1111_1111_1111)));
    made.associations.extend(targets.last().map(|target| (510, *target, 0b100)));
}

/// An object at the foot of a chain of object attributes with a class at its head: so many elements, `id` of their place
/// from the foot. An association for each attribute of the chain.
fn chain(size: u16, id: impl Fn(u16) -> u16) -> Policy {
    let mut made = Policy::new();
    put(&mut made, id(0), OBJECT, &[id(1)]);
    for place in 1..size - 1 {
        put(&mut made, id(place), OBJECT_ATTRIBUTE, &[id(place + 1)]);
    }
    put(&mut made, id(size - 1), CLASS, &[]);
    let targets: Vec<u16> = (1..size - 1).map(&id).collect();
    readers(&mut made, id(size - 1), &targets);
    made
}

/// An object at the foot of a ladder of object attributes, two on a level, each in both of the next; a class above it. An
/// association for each attribute.
fn diamond(levels: u16) -> Policy {
    let mut made = Policy::new();
    put(&mut made, 1, OBJECT, &[2, 3]);
    for level in 1..levels {
        for id in [2 * level, 2 * level + 1] {
            put(&mut made, id, OBJECT_ATTRIBUTE, &[2 * level + 2, 2 * level + 3]);
        }
    }
    let class = 2 * levels + 2;
    for id in [2 * levels, 2 * levels + 1] {
        put(&mut made, id, OBJECT_ATTRIBUTE, &[class]);
    }
    put(&mut made, class, CLASS, &[]);
    let targets: Vec<u16> = (2..class).collect();
    readers(&mut made, class, &targets);
    made
}
