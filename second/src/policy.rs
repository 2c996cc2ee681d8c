//! What the machine holds, and containment (01, "What the machine holds", "Containment and the decision").

use crate::refusal::{line, ABSENT, OUT_OF_RANGE};
use std::cmp::Ordering;
use std::collections::{BTreeMap, BTreeSet};

/// Kind 1.
pub const USER: u8 = 1;
/// Kind 2.
pub const USER_ATTRIBUTE: u8 = 2;
/// Kind 3.
pub const OBJECT: u8 = 3;
/// Kind 4.
pub const OBJECT_ATTRIBUTE: u8 = 4;
/// Kind 5.
pub const CLASS: u8 = 5;

/// 01: "'attribute' alone means kinds 2, 3 and 4".
pub const ATTRIBUTES: [u8; 3] = [USER_ATTRIBUTE, OBJECT, OBJECT_ATTRIBUTE];
/// Every kind but the class.
pub const NON_CLASS: [u8; 4] = [USER, USER_ATTRIBUTE, OBJECT, OBJECT_ATTRIBUTE];

/// Subject sort 1 of a prohibition.
pub const SORT_USER: u8 = 1;
/// Subject sort 2 of a prohibition.
pub const SORT_PROCESS: u8 = 2;
/// Subject sort 3 of a prohibition.
pub const SORT_ATTRIBUTE: u8 = 3;

/// Form 0 of a prohibition.
pub const DISJUNCTIVE: u8 = 0;
/// Form 1 of a prohibition.
pub const CONJUNCTIVE: u8 = 1;

/// Elements have ids 1 to 511.
pub const MOST_ELEMENTS: usize = 511;
/// At most 2,000 assignments.
pub const MOST_ASSIGNMENTS: usize = 2000;
/// At most 1,000 associations.
pub const MOST_ASSOCIATIONS: usize = 1000;
/// At most 200 prohibitions.
pub const MOST_PROHIBITIONS: usize = 200;
/// Processes have ids 1 to 255.
pub const MOST_PROCESSES: usize = 255;
/// A prohibition's list has at most four attributes.
pub const LONGEST_LIST: usize = 4;

/// An association: user attribute, target, rights. Sorted so, they rise as 01's image and
/// "lowest authorizing association" want it.
pub type Association = (u16, u16, u32);

/// A prohibition with the fields 01 gives it.
#[derive(Clone, Debug, PartialEq, Eq)]
pub struct Prohibition {
    pub sort: u8,
    pub subject: u16,
    pub form: u8,
    pub rights: u32,
    pub inclusions: Vec<u16>,
    pub exclusions: Vec<u16>,
}

impl Ord for Prohibition {
    /// 01, "The image": "Each group strictly rises, its fields compared as written". The two counts
    /// are written before the ids, so they are compared before them.
    fn cmp(&self, other: &Self) -> Ordering {
        let as_written =
            |p: &Prohibition| (p.sort, p.subject, p.form, p.rights, p.inclusions.len(), p.exclusions.len());
        as_written(self)
            .cmp(&as_written(other))
            .then_with(|| self.inclusions.cmp(&other.inclusions))
            .then_with(|| self.exclusions.cmp(&other.exclusions))
    }
}

impl PartialOrd for Prohibition {
    fn partial_cmp(&self, other: &Self) -> Option<Ordering> {
        Some(self.cmp(other))
    }
}

impl Prohibition {
    /// Does it name the element: as its subject of sort 1 or 3, or in one of its lists?
    /// A process that has the same number is another thing.
    pub fn names_element(&self, id: u16) -> bool {
        (self.sort != SORT_PROCESS && self.subject == id)
            || self.inclusions.contains(&id)
            || self.exclusions.contains(&id)
    }

    /// Does it name the process?
    pub fn names_process(&self, id: u8) -> bool {
        self.sort == SORT_PROCESS && self.subject == u16::from(id)
    }
}

/// All that 01 lets the machine hold.
#[derive(Clone, Debug, Default, PartialEq, Eq)]
pub struct Policy {
    /// Id and kind.
    pub elements: BTreeMap<u16, u8>,
    /// Child and container.
    pub assignments: BTreeSet<(u16, u16)>,
    /// User attribute, target, rights.
    pub associations: BTreeSet<Association>,
    pub prohibitions: BTreeSet<Prohibition>,
    /// Id and user.
    pub processes: BTreeMap<u8, u16>,
}

impl Policy {
    /// A policy that holds nothing.
    pub fn new() -> Policy {
        Policy::default()
    }

    /// The element's kind, if the element is there.
    pub fn kind(&self, id: u16) -> Option<u8> {
        self.elements.get(&id).copied()
    }

    /// Is the element there, with one of these kinds?
    pub fn is_one_of(&self, id: u16, kinds: &[u8]) -> bool {
        self.kind(id).is_some_and(|kind| kinds.contains(&kind))
    }

    /// The elements of one kind, rising.
    pub fn of_kind(&self, kind: u8) -> impl Iterator<Item = u16> + '_ {
        self.elements.iter().filter(move |(_, k)| **k == kind).map(|(id, _)| *id)
    }

    /// What `child` is assigned to, rising.
    pub fn containers(&self, child: u16) -> impl Iterator<Item = u16> + '_ {
        self.assignments.range((child, 0)..=(child, u16::MAX)).map(|(_, container)| *container)
    }

    /// Everything that `x` is within: `x` itself and the end of every chain of assignments from it.
    /// A search in depth; each element is left for its containers once.
    pub fn reach(&self, x: u16) -> BTreeSet<u16> {
        let mut reached = BTreeSet::from([x]);
        let mut open = vec![x];
        while let Some(element) = open.pop() {
            for container in self.containers(element) {
                if reached.insert(container) {
                    open.push(container);
                }
            }
        }
        reached
    }

    /// 01: "x is *within* y if x is y or a chain of assignments leads from x to y".
    pub fn within(&self, x: u16, y: u16) -> bool {
        self.reach(x).contains(&y)
    }

    /// The five counts in the image's order.
    pub fn counts(&self) -> [usize; 5] {
        [
            self.elements.len(),
            self.assignments.len(),
            self.associations.len(),
            self.prohibitions.len(),
            self.processes.len(),
        ]
    }
}

/// 01: "user to user attribute; user attribute to user attribute or class; object or object attribute
/// to object attribute or class. No other pairing."
pub fn may_be_assigned(child: u8, container: u8) -> bool {
    matches!(
        (child, container),
        (USER, USER_ATTRIBUTE)
            | (USER_ATTRIBUTE, USER_ATTRIBUTE | CLASS)
            | (OBJECT | OBJECT_ATTRIBUTE, OBJECT_ATTRIBUTE | CLASS)
    )
}

/// Is it an element id, 1 to 511?
pub fn is_element_id(id: u32) -> bool {
    (1..=511).contains(&id)
}

/// Is it a process id, 1 to 255?
pub fn is_process_id(id: u32) -> bool {
    (1..=255).contains(&id)
}

/// Does the list strictly rise?
pub fn strictly_rises<T: PartialOrd>(list: &[T]) -> bool {
    list.windows(2).all(|pair| pair[0] < pair[1])
}

/// The containment call: is `x` within `y`? Refused with 2 and 4.
pub fn contains(policy: &Policy, x: u32, y: u32) -> Result<bool, u32> {
    line(OUT_OF_RANGE, !is_element_id(x) || !is_element_id(y))?;
    let (x, y) = (x as u16, y as u16);
    line(ABSENT, policy.kind(x).is_none() || policy.kind(y).is_none())?;
    Ok(policy.within(x, y))
}
