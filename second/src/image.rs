//! The image (01, "The image", and the lines 11 to 14 of "Refusal numbers").
//!
//! An image is first taken as [`Written`]: the numbers in its fields, whatever they are. Each of the
//! lines 11, 12, 13 and 14 is judged over the whole image before the next one.

use crate::policy::{
    is_element_id, is_process_id, may_be_assigned, strictly_rises, Policy, Prohibition, ATTRIBUTES, CLASS,
    LONGEST_LIST, MOST_ASSIGNMENTS, MOST_ASSOCIATIONS, MOST_ELEMENTS, MOST_PROCESSES, MOST_PROHIBITIONS,
    SORT_PROCESS, SORT_USER, USER, USER_ATTRIBUTE,
};
use crate::refusal::{line, FIELD, FORM, LENGTH, NO_ROOM, REFERENCE};
use std::collections::BTreeSet;

/// The one form there is.
pub const FORM_1: u32 = 1;

/// "The longest image is 15,115 bytes."
pub const LONGEST_IMAGE: usize = 15_115;

/// The widths of the five counts in bits: elements, assignments, associations, prohibitions, processes.
const COUNT_BITS: [u32; 5] = [9, 11, 10, 8, 8];

/// A prohibition as an image writes it. Its counts are the lists' lengths, 0 to 7.
#[derive(Clone, Debug, PartialEq, Eq)]
pub struct WrittenProhibition {
    pub sort: u32,
    pub subject: u32,
    pub form: u32,
    pub rights: u32,
    pub inclusions: Vec<u32>,
    pub exclusions: Vec<u32>,
}

impl WrittenProhibition {
    /// The fields in the order in which they are written, to compare by.
    pub fn fields(&self) -> Vec<u32> {
        let mut fields = vec![
            self.sort,
            self.subject,
            self.form,
            self.rights,
            self.inclusions.len() as u32,
            self.exclusions.len() as u32,
        ];
        fields.extend(&self.inclusions);
        fields.extend(&self.exclusions);
        fields
    }
}

/// The numbers that stand in an image's fields, sound or not.
#[derive(Clone, Debug, PartialEq, Eq)]
pub struct Written {
    pub form: u32,
    /// The five counts as written. An image that is not cut has as many records.
    pub counts: [u32; 5],
    /// Id, kind.
    pub elements: Vec<(u32, u32)>,
    /// Child, container.
    pub assignments: Vec<(u32, u32)>,
    /// User attribute, target, rights.
    pub associations: Vec<(u32, u32, u32)>,
    pub prohibitions: Vec<WrittenProhibition>,
    /// Id, user.
    pub processes: Vec<(u32, u32)>,
}

/// Reads bits, each byte from the most significant one.
struct BitReader<'a> {
    bytes: &'a [u8],
    place: usize,
}

impl BitReader<'_> {
    /// The next `width` bits as a number, or line 12 if the image is cut before their end.
    fn number(&mut self, width: u32) -> Result<u32, u32> {
        let mut number = 0;
        for _ in 0..width {
            let byte = *self.bytes.get(self.place / 8).ok_or(LENGTH)?;
            let bit = byte >> (7 - self.place % 8) & 1;
            number = number << 1 | u32::from(bit);
            self.place += 1;
        }
        Ok(number)
    }

    /// What line 12 says of the end: no whole byte is left, and the filling bits are zero.
    fn end(mut self) -> Result<(), u32> {
        line(LENGTH, self.place.div_ceil(8) != self.bytes.len())?;
        let filling = (self.bytes.len() * 8 - self.place) as u32;
        line(LENGTH, self.number(filling)? != 0)
    }
}

/// Writes bits, each byte from the most significant one.
#[derive(Default)]
struct BitWriter {
    bytes: Vec<u8>,
    place: usize,
}

impl BitWriter {
    /// The lowest `width` bits of the number. A new byte starts as zero, so zero bits fill the last one.
    fn number(&mut self, width: u32, number: u32) {
        for shift in (0..width).rev() {
            if self.place.is_multiple_of(8) {
                self.bytes.push(0);
            }
            let bit = (number >> shift & 1) as u8;
            *self.bytes.last_mut().expect("a byte was begun") |= bit << (7 - self.place % 8);
            self.place += 1;
        }
    }
}

impl Written {
    /// What an image of the policy has written. The sets rise as the image wants it.
    pub fn of(policy: &Policy) -> Written {
        let numbers = |ids: &[u16]| ids.iter().map(|id| u32::from(*id)).collect();
        Written {
            form: FORM_1,
            counts: policy.counts().map(|count| count as u32),
            elements: policy.elements.iter().map(|(id, kind)| (u32::from(*id), u32::from(*kind))).collect(),
            assignments: policy.assignments.iter().map(|(x, y)| (u32::from(*x), u32::from(*y))).collect(),
            associations: policy
                .associations
                .iter()
                .map(|(attribute, target, rights)| (u32::from(*attribute), u32::from(*target), *rights))
                .collect(),
            prohibitions: policy
                .prohibitions
                .iter()
                .map(|prohibition| WrittenProhibition {
                    sort: u32::from(prohibition.sort),
                    subject: u32::from(prohibition.subject),
                    form: u32::from(prohibition.form),
                    rights: prohibition.rights,
                    inclusions: numbers(&prohibition.inclusions),
                    exclusions: numbers(&prohibition.exclusions),
                })
                .collect(),
            processes: policy.processes.iter().map(|(id, user)| (u32::from(*id), u32::from(*user))).collect(),
        }
    }

    /// Sets the counts to the numbers of records.
    pub fn count(&mut self) {
        self.counts = [
            self.elements.len(),
            self.assignments.len(),
            self.associations.len(),
            self.prohibitions.len(),
            self.processes.len(),
        ]
        .map(|count| count as u32);
    }

    /// The bytes. Of each number as many low bits are taken as its field has.
    pub fn bytes(&self) -> Vec<u8> {
        let mut image = BitWriter::default();
        image.number(4, self.form);
        for (width, count) in COUNT_BITS.into_iter().zip(self.counts) {
            image.number(width, count);
        }
        for (id, kind) in &self.elements {
            image.number(9, *id);
            image.number(3, *kind);
        }
        for (child, container) in &self.assignments {
            image.number(9, *child);
            image.number(9, *container);
        }
        for (attribute, target, rights) in &self.associations {
            image.number(9, *attribute);
            image.number(9, *target);
            image.number(32, *rights);
        }
        for prohibition in &self.prohibitions {
            image.number(2, prohibition.sort);
            image.number(9, prohibition.subject);
            image.number(1, prohibition.form);
            image.number(32, prohibition.rights);
            image.number(3, prohibition.inclusions.len() as u32);
            image.number(3, prohibition.exclusions.len() as u32);
            for id in prohibition.inclusions.iter().chain(&prohibition.exclusions) {
                image.number(9, *id);
            }
        }
        for (id, user) in &self.processes {
            image.number(8, *id);
            image.number(9, *user);
        }
        image.bytes
    }

    /// Takes the image's fields, "all counts taken as written"; the lines 11 and 12.
    pub fn read(bytes: &[u8]) -> Result<Written, u32> {
        line(FORM, bytes.first().is_some_and(|first| u32::from(first >> 4) != FORM_1))?;
        let mut image = BitReader { bytes, place: 0 };
        let form = image.number(4)?;
        let mut counts = [0; 5];
        for (count, width) in counts.iter_mut().zip(COUNT_BITS) {
            *count = image.number(width)?;
        }
        let mut written = Written {
            form,
            counts,
            elements: Vec::new(),
            assignments: Vec::new(),
            associations: Vec::new(),
            prohibitions: Vec::new(),
            processes: Vec::new(),
        };
        for _ in 0..counts[0] {
            written.elements.push((image.number(9)?, image.number(3)?));
        }
        for _ in 0..counts[1] {
            written.assignments.push((image.number(9)?, image.number(9)?));
        }
        for _ in 0..counts[2] {
            written.associations.push((image.number(9)?, image.number(9)?, image.number(32)?));
        }
        for _ in 0..counts[3] {
            let (sort, subject) = (image.number(2)?, image.number(9)?);
            let (form, rights) = (image.number(1)?, image.number(32)?);
            let (inclusion_count, exclusion_count) = (image.number(3)?, image.number(3)?);
            let mut list = |count| (0..count).map(|_| image.number(9)).collect::<Result<_, _>>();
            written.prohibitions.push(WrittenProhibition {
                sort,
                subject,
                form,
                rights,
                inclusions: list(inclusion_count)?,
                exclusions: list(exclusion_count)?,
            });
        }
        for _ in 0..counts[4] {
            written.processes.push((image.number(8)?, image.number(9)?));
        }
        image.end()?;
        Ok(written)
    }

    /// Line 13: "a count, field or order in the image breaks a rule; an id out of range is such a
    /// field wherever it stands".
    fn breaks_a_field_rule(&self) -> bool {
        let too_many = self.elements.len() > MOST_ELEMENTS
            || self.assignments.len() > MOST_ASSIGNMENTS
            || self.associations.len() > MOST_ASSOCIATIONS
            || self.prohibitions.len() > MOST_PROHIBITIONS
            || self.processes.len() > MOST_PROCESSES;
        let fields_fit = self.elements.iter().all(|(id, kind)| is_element_id(*id) && (1..=5).contains(kind))
            && self.assignments.iter().all(|(x, y)| is_element_id(*x) && is_element_id(*y))
            && self.associations.iter().all(|(attribute, target, rights)| {
                is_element_id(*attribute) && is_element_id(*target) && *rights != 0
            })
            && self.prohibitions.iter().all(prohibition_fits)
            && self.processes.iter().all(|(id, user)| is_process_id(*id) && is_element_id(*user));
        let ids = |group: &[(u32, u32)]| group.iter().map(|(id, _)| *id).collect::<Vec<_>>();
        let prohibitions: Vec<_> = self.prohibitions.iter().map(WrittenProhibition::fields).collect();
        let all_rise = strictly_rises(&ids(&self.elements))
            && strictly_rises(&self.assignments)
            && strictly_rises(&self.associations)
            && strictly_rises(&prohibitions)
            && strictly_rises(&ids(&self.processes));
        too_many || !fields_fit || !all_rise
    }

    /// The policy of fields that break no rule of line 13.
    pub fn policy(&self) -> Policy {
        let ids = |list: &[u32]| list.iter().map(|id| *id as u16).collect();
        Policy {
            elements: self.elements.iter().map(|(id, kind)| (*id as u16, *kind as u8)).collect(),
            assignments: self.assignments.iter().map(|(x, y)| (*x as u16, *y as u16)).collect(),
            associations: self
                .associations
                .iter()
                .map(|(attribute, target, rights)| (*attribute as u16, *target as u16, *rights))
                .collect(),
            prohibitions: self
                .prohibitions
                .iter()
                .map(|written| Prohibition {
                    sort: written.sort as u8,
                    subject: written.subject as u16,
                    form: written.form as u8,
                    rights: written.rights,
                    inclusions: ids(&written.inclusions),
                    exclusions: ids(&written.exclusions),
                })
                .collect(),
            processes: self.processes.iter().map(|(id, user)| (*id as u8, *user as u16)).collect(),
        }
    }
}

/// Line 13 for one prohibition: sort and subject in range, rights and lists as 01 wants them.
fn prohibition_fits(prohibition: &WrittenProhibition) -> bool {
    let WrittenProhibition { sort, subject, rights, inclusions, exclusions, .. } = prohibition;
    let subject_fits = match sort {
        1 | 3 => is_element_id(*subject),
        2 => is_process_id(*subject),
        _ => false,
    };
    let list_fits = |list: &[u32]| {
        list.len() <= LONGEST_LIST && strictly_rises(list) && list.iter().all(|id| is_element_id(*id))
    };
    subject_fits
        && *rights != 0
        && list_fits(inclusions)
        && list_fits(exclusions)
        && !(inclusions.is_empty() && exclusions.is_empty())
}

/// Line 14: "an image names an unknown element or process, a wrong kind or pairing, a cycle, or an
/// unassigned element".
fn names_something_wrong(policy: &Policy) -> bool {
    let paired = policy.assignments.iter().all(|(child, container)| {
        match (policy.kind(*child), policy.kind(*container)) {
            (Some(child), Some(container)) => may_be_assigned(child, container),
            _ => false,
        }
    });
    let associated = policy.associations.iter().all(|(attribute, target, _)| {
        policy.is_one_of(*attribute, &[USER_ATTRIBUTE]) && policy.is_one_of(*target, &ATTRIBUTES)
    });
    let prohibited = policy.prohibitions.iter().all(|prohibition| {
        let subject_fits = match prohibition.sort {
            SORT_PROCESS => policy.processes.contains_key(&(prohibition.subject as u8)),
            SORT_USER => policy.is_one_of(prohibition.subject, &[USER]),
            _ => policy.is_one_of(prohibition.subject, &[USER_ATTRIBUTE]),
        };
        let mut listed = prohibition.inclusions.iter().chain(&prohibition.exclusions);
        subject_fits && listed.all(|id| policy.is_one_of(*id, &ATTRIBUTES))
    });
    let run_by_users = policy.processes.values().all(|user| policy.is_one_of(*user, &[USER]));
    let assigned =
        policy.elements.iter().all(|(id, kind)| *kind == CLASS || policy.containers(*id).next().is_some());
    !(paired && associated && prohibited && run_by_users && assigned) || has_cycle(policy)
}

/// Does some chain of assignments lead back to where it started? Elements whose containers have all
/// been set aside are set aside, until that is all of them or none can follow: then there is a cycle.
fn has_cycle(policy: &Policy) -> bool {
    let mut left: BTreeSet<u16> = policy.elements.keys().copied().collect();
    loop {
        let free: Vec<u16> = left
            .iter()
            .copied()
            .filter(|id| policy.containers(*id).all(|container| !left.contains(&container)))
            .collect();
        if free.is_empty() {
            return !left.is_empty();
        }
        for id in free {
            left.remove(&id);
        }
    }
}

/// Loads an image. Refused with 11, 12, 13, 14.
pub fn load(bytes: &[u8]) -> Result<Policy, u32> {
    let written = Written::read(bytes)?;
    line(FIELD, written.breaks_a_field_rule())?;
    let policy = written.policy();
    line(REFERENCE, names_something_wrong(&policy))?;
    Ok(policy)
}

/// The policy's image.
pub fn save(policy: &Policy) -> Vec<u8> {
    Written::of(policy).bytes()
}

/// Saves into lent bytes and answers how many were written; 01: "Save writes as many bytes as are
/// needed and no byte beyond." Refused with 10, and then nothing is written.
pub fn save_into(policy: &Policy, output: &mut [u8]) -> Result<usize, u32> {
    let image = save(policy);
    let room = output.get_mut(..image.len()).ok_or(NO_ROOM)?;
    room.copy_from_slice(&image);
    Ok(image.len())
}
