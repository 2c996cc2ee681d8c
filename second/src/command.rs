//! The eleven commands (01, "Commands", "Refusal numbers").
//!
//! Each command is its refusal lines, lowest first and each over all arguments, and then the change.
//! The judgement looks at the policy alone; of the index only its length matters.

use crate::index::{build_index, INDEX_BYTES};
use crate::policy::{
    is_element_id, is_process_id, may_be_assigned, strictly_rises, Policy, Prohibition, ATTRIBUTES, CLASS,
    LONGEST_LIST, MOST_ASSIGNMENTS, MOST_ASSOCIATIONS, MOST_PROHIBITIONS, SORT_PROCESS, SORT_USER, USER,
    USER_ATTRIBUTE,
};
use crate::refusal::{
    line, ABSENT, ALREADY_THERE, CYCLE, IN_USE, KIND, NO_ROOM, ONLY_ASSIGNMENT, OUT_OF_RANGE, RIGHTS_OR_LISTS,
};

/// The fields of a prohibition as a command is given them.
#[derive(Clone, Debug, PartialEq, Eq)]
pub struct GivenProhibition {
    pub sort: u32,
    pub subject: u32,
    pub form: u32,
    pub rights: u32,
    pub inclusions: Vec<u32>,
    pub exclusions: Vec<u32>,
}

impl GivenProhibition {
    pub fn new(
        sort: u32,
        subject: u32,
        form: u32,
        rights: u32,
        inclusions: &[u32],
        exclusions: &[u32],
    ) -> GivenProhibition {
        let (inclusions, exclusions) = (inclusions.to_vec(), exclusions.to_vec());
        GivenProhibition { sort, subject, form, rights, inclusions, exclusions }
    }
}

/// A command with its arguments, any values.
#[derive(Clone, Debug, PartialEq, Eq)]
pub enum Command {
    CreateClass { id: u32 },
    CreateElement { id: u32, kind: u32, container: u32 },
    Assign { child: u32, container: u32 },
    Deassign { child: u32, container: u32 },
    DeleteElement { id: u32 },
    CreateAssociation { attribute: u32, rights: u32, target: u32 },
    DeleteAssociation { attribute: u32, rights: u32, target: u32 },
    CreateProhibition(GivenProhibition),
    DeleteProhibition(GivenProhibition),
    StartProcess { id: u32, user: u32 },
    EndProcess { id: u32 },
}

/// The names of the commands, in the order of [`Command::number`].
pub const COMMAND_NAMES: [&str; 11] = [
    "create class",
    "create element",
    "assign",
    "deassign",
    "delete element",
    "create association",
    "delete association",
    "create prohibition",
    "delete prohibition",
    "start process",
    "end process",
];

impl Command {
    /// The command's place in 01's list, from 0.
    pub fn number(&self) -> usize {
        match self {
            Command::CreateClass { .. } => 0,
            Command::CreateElement { .. } => 1,
            Command::Assign { .. } => 2,
            Command::Deassign { .. } => 3,
            Command::DeleteElement { .. } => 4,
            Command::CreateAssociation { .. } => 5,
            Command::DeleteAssociation { .. } => 6,
            Command::CreateProhibition(_) => 7,
            Command::DeleteProhibition(_) => 8,
            Command::StartProcess { .. } => 9,
            Command::EndProcess { .. } => 10,
        }
    }

    /// Can the command change what is there or what is within what? 01: "Every command takes the table and the index
    /// and leaves both up to date." Only these have something to bring up to date.
    pub fn changes_containment(&self) -> bool {
        self.number() < 5
    }
}

/// A policy and its index, as the commands take them.
#[derive(Clone, Debug, PartialEq, Eq)]
pub struct Machine {
    pub policy: Policy,
    pub index: Vec<u8>,
}

impl Default for Machine {
    fn default() -> Self {
        Machine::new()
    }
}

impl Machine {
    /// The empty policy with its index.
    pub fn new() -> Machine {
        Machine::holding(Policy::new())
    }

    /// The policy with its index.
    pub fn holding(policy: Policy) -> Machine {
        let index = build_index(&policy);
        Machine { policy, index }
    }

    /// Runs one command. A refused one changes neither the policy nor the index. An accepted one that can change what
    /// is within what leaves the policy's index, also where the index was foreign before; the others leave the
    /// index as it was.
    pub fn run(&mut self, command: &Command) -> Result<(), u32> {
        run(&mut self.policy, self.index.len(), command)?;
        if command.changes_containment() {
            self.index = build_index(&self.policy);
        }
        Ok(())
    }

    pub fn create_class(&mut self, id: u32) -> Result<(), u32> {
        self.run(&Command::CreateClass { id })
    }

    pub fn create_element(&mut self, id: u32, kind: u32, container: u32) -> Result<(), u32> {
        self.run(&Command::CreateElement { id, kind, container })
    }

    pub fn assign(&mut self, child: u32, container: u32) -> Result<(), u32> {
        self.run(&Command::Assign { child, container })
    }

    pub fn deassign(&mut self, child: u32, container: u32) -> Result<(), u32> {
        self.run(&Command::Deassign { child, container })
    }

    pub fn delete_element(&mut self, id: u32) -> Result<(), u32> {
        self.run(&Command::DeleteElement { id })
    }

    pub fn create_association(&mut self, attribute: u32, rights: u32, target: u32) -> Result<(), u32> {
        self.run(&Command::CreateAssociation { attribute, rights, target })
    }

    pub fn delete_association(&mut self, attribute: u32, rights: u32, target: u32) -> Result<(), u32> {
        self.run(&Command::DeleteAssociation { attribute, rights, target })
    }

    pub fn create_prohibition(
        &mut self,
        sort: u32,
        subject: u32,
        form: u32,
        rights: u32,
        inclusions: &[u32],
        exclusions: &[u32],
    ) -> Result<(), u32> {
        let given = GivenProhibition::new(sort, subject, form, rights, inclusions, exclusions);
        self.run(&Command::CreateProhibition(given))
    }

    pub fn delete_prohibition(
        &mut self,
        sort: u32,
        subject: u32,
        form: u32,
        rights: u32,
        inclusions: &[u32],
        exclusions: &[u32],
    ) -> Result<(), u32> {
        let given = GivenProhibition::new(sort, subject, form, rights, inclusions, exclusions);
        self.run(&Command::DeleteProhibition(given))
    }

    pub fn start_process(&mut self, id: u32, user: u32) -> Result<(), u32> {
        self.run(&Command::StartProcess { id, user })
    }

    pub fn end_process(&mut self, id: u32) -> Result<(), u32> {
        self.run(&Command::EndProcess { id })
    }
}

/// Runs one command on the policy; of the index only the length is asked. A refused one changes nothing.
pub fn run(policy: &mut Policy, index_length: usize, command: &Command) -> Result<(), u32> {
    let mut judge = Judge { policy, index_length };
    match command {
        Command::CreateClass { id } => judge.create_class(*id),
        Command::CreateElement { id, kind, container } => judge.create_element(*id, *kind, *container),
        Command::Assign { child, container } => judge.assign(*child, *container),
        Command::Deassign { child, container } => judge.deassign(*child, *container),
        Command::DeleteElement { id } => judge.delete_element(*id),
        Command::CreateAssociation { attribute, rights, target } => {
            judge.create_association(*attribute, *rights, *target)
        }
        Command::DeleteAssociation { attribute, rights, target } => {
            judge.delete_association(*attribute, *rights, *target)
        }
        Command::CreateProhibition(given) => judge.create_prohibition(given),
        Command::DeleteProhibition(given) => judge.delete_prohibition(given),
        Command::StartProcess { id, user } => judge.start_process(*id, *user),
        Command::EndProcess { id } => judge.end_process(*id),
    }
}

/// A policy that a command is run on.
struct Judge<'a> {
    policy: &'a mut Policy,
    index_length: usize,
}

impl Judge<'_> {
    /// The part of line 2 that every command has: "index not 32,768 bytes".
    fn index_line(&self) -> Result<(), u32> {
        line(OUT_OF_RANGE, self.index_length != INDEX_BYTES)
    }

    fn is_absent(&self, id: u16) -> bool {
        self.policy.kind(id).is_none()
    }

    /// Create class. 2, 3. (Line 10 cannot hold: with 511 elements every id is taken.)
    fn create_class(&mut self, id: u32) -> Result<(), u32> {
        self.index_line()?;
        line(OUT_OF_RANGE, !is_element_id(id))?;
        let id = id as u16;
        line(ALREADY_THERE, !self.is_absent(id))?;
        self.policy.elements.insert(id, CLASS);
        Ok(())
    }

    /// Create element, "which also makes its first assignment". 2, 3, 4, 5, 10. The container is
    /// always asked for, so kind 5 is never accepted: "kind 5 given a container" is line 5.
    fn create_element(&mut self, id: u32, kind: u32, container: u32) -> Result<(), u32> {
        self.index_line()?;
        line(OUT_OF_RANGE, !is_element_id(id) || !(1..=5).contains(&kind) || !is_element_id(container))?;
        let (id, kind, container) = (id as u16, kind as u8, container as u16);
        let relation_there = self.policy.assignments.contains(&(id, container));
        line(ALREADY_THERE, !self.is_absent(id) || relation_there)?;
        let container_kind = self.policy.kind(container).ok_or(ABSENT)?;
        line(KIND, kind == CLASS || !may_be_assigned(kind, container_kind))?;
        line(NO_ROOM, self.policy.assignments.len() >= MOST_ASSIGNMENTS)?;
        self.policy.elements.insert(id, kind);
        self.policy.assignments.insert((id, container));
        Ok(())
    }

    /// Assign. 2, 3, 4, 5, 7, 10.
    fn assign(&mut self, child: u32, container: u32) -> Result<(), u32> {
        self.index_line()?;
        line(OUT_OF_RANGE, !is_element_id(child) || !is_element_id(container))?;
        let (child, container) = (child as u16, container as u16);
        line(ALREADY_THERE, self.policy.assignments.contains(&(child, container)))?;
        let child_kind = self.policy.kind(child).ok_or(ABSENT)?;
        let container_kind = self.policy.kind(container).ok_or(ABSENT)?;
        line(KIND, !may_be_assigned(child_kind, container_kind))?;
        line(CYCLE, self.policy.within(container, child))?;
        line(NO_ROOM, self.policy.assignments.len() >= MOST_ASSIGNMENTS)?;
        self.policy.assignments.insert((child, container));
        Ok(())
    }

    /// Deassign. 2, 4, 5, 8. (5 cannot hold for an assignment of a sound policy.)
    fn deassign(&mut self, child: u32, container: u32) -> Result<(), u32> {
        self.index_line()?;
        line(OUT_OF_RANGE, !is_element_id(child) || !is_element_id(container))?;
        let (child, container) = (child as u16, container as u16);
        let child_kind = self.policy.kind(child).ok_or(ABSENT)?;
        let container_kind = self.policy.kind(container).ok_or(ABSENT)?;
        line(ABSENT, !self.policy.assignments.contains(&(child, container)))?;
        line(KIND, !may_be_assigned(child_kind, container_kind))?;
        line(ONLY_ASSIGNMENT, self.policy.containers(child).count() == 1)?;
        self.policy.assignments.remove(&(child, container));
        Ok(())
    }

    /// Delete element, "with its own assignments". 2, 4, 9.
    fn delete_element(&mut self, id: u32) -> Result<(), u32> {
        self.index_line()?;
        line(OUT_OF_RANGE, !is_element_id(id))?;
        let id = id as u16;
        line(ABSENT, self.is_absent(id))?;
        let policy = &*self.policy;
        line(
            IN_USE,
            policy.assignments.iter().any(|(_, container)| *container == id)
                || policy.associations.iter().any(|(attribute, target, _)| *attribute == id || *target == id)
                || policy.prohibitions.iter().any(|prohibition| prohibition.names_element(id))
                || policy.processes.values().any(|user| *user == id),
        )?;
        self.policy.elements.remove(&id);
        self.policy.assignments.retain(|(child, _)| *child != id);
        Ok(())
    }

    /// The kinds of an association: a user attribute, and a target of kind 2, 3 or 4.
    fn is_wrong_association(&self, attribute: u16, target: u16) -> bool {
        !self.policy.is_one_of(attribute, &[USER_ATTRIBUTE]) || !self.policy.is_one_of(target, &ATTRIBUTES)
    }

    /// Create association. 2, 3, 4, 5, 6, 10.
    fn create_association(&mut self, attribute: u32, rights: u32, target: u32) -> Result<(), u32> {
        self.index_line()?;
        line(OUT_OF_RANGE, !is_element_id(attribute) || !is_element_id(target))?;
        let (attribute, target) = (attribute as u16, target as u16);
        let association = (attribute, target, rights);
        line(ALREADY_THERE, self.policy.associations.contains(&association))?;
        line(ABSENT, self.is_absent(attribute) || self.is_absent(target))?;
        line(KIND, self.is_wrong_association(attribute, target))?;
        line(RIGHTS_OR_LISTS, rights == 0)?;
        line(NO_ROOM, self.policy.associations.len() >= MOST_ASSOCIATIONS)?;
        self.policy.associations.insert(association);
        Ok(())
    }

    /// Delete association, "exact triple". 2, 4, 5, 6. (5 and 6 cannot hold in a sound policy.)
    fn delete_association(&mut self, attribute: u32, rights: u32, target: u32) -> Result<(), u32> {
        self.index_line()?;
        line(OUT_OF_RANGE, !is_element_id(attribute) || !is_element_id(target))?;
        let (attribute, target) = (attribute as u16, target as u16);
        let association = (attribute, target, rights);
        line(
            ABSENT,
            self.is_absent(attribute)
                || self.is_absent(target)
                || !self.policy.associations.contains(&association),
        )?;
        line(KIND, self.is_wrong_association(attribute, target))?;
        line(RIGHTS_OR_LISTS, rights == 0)?;
        self.policy.associations.remove(&association);
        Ok(())
    }

    /// Line 2 for a prohibition's fields; the whole of both lists is judged, however long they are.
    fn prohibition_in_range(given: &GivenProhibition) -> Result<Prohibition, u32> {
        let subject_fits = match given.sort {
            1 | 3 => is_element_id(given.subject),
            2 => is_process_id(given.subject),
            _ => false,
        };
        let mut listed = given.inclusions.iter().chain(&given.exclusions);
        line(OUT_OF_RANGE, !subject_fits || given.form > 1 || listed.any(|id| !is_element_id(*id)))?;
        let ids = |list: &[u32]| list.iter().map(|id| *id as u16).collect();
        Ok(Prohibition {
            sort: given.sort as u8,
            subject: given.subject as u16,
            form: given.form as u8,
            rights: given.rights,
            inclusions: ids(&given.inclusions),
            exclusions: ids(&given.exclusions),
        })
    }

    /// Does the prohibition name an element or process that is not there?
    fn names_something_absent(&self, prohibition: &Prohibition) -> bool {
        let subject_absent = if prohibition.sort == SORT_PROCESS {
            !self.policy.processes.contains_key(&(prohibition.subject as u8))
        } else {
            self.is_absent(prohibition.subject)
        };
        let mut listed = prohibition.inclusions.iter().chain(&prohibition.exclusions);
        subject_absent || listed.any(|id| self.is_absent(*id))
    }

    /// Has the prohibition's subject or a listed element a wrong kind?
    fn names_a_wrong_kind(&self, prohibition: &Prohibition) -> bool {
        let subject_wrong = match prohibition.sort {
            SORT_PROCESS => false,
            SORT_USER => !self.policy.is_one_of(prohibition.subject, &[USER]),
            _ => !self.policy.is_one_of(prohibition.subject, &[USER_ATTRIBUTE]),
        };
        let mut listed = prohibition.inclusions.iter().chain(&prohibition.exclusions);
        subject_wrong || listed.any(|id| !self.policy.is_one_of(*id, &ATTRIBUTES))
    }

    /// Line 6: "empty right set; list too long or not strictly rising; both lists empty".
    fn has_wrong_rights_or_lists(prohibition: &Prohibition) -> bool {
        let Prohibition { rights, inclusions, exclusions, .. } = prohibition;
        *rights == 0
            || inclusions.len() > LONGEST_LIST
            || exclusions.len() > LONGEST_LIST
            || !strictly_rises(inclusions)
            || !strictly_rises(exclusions)
            || (inclusions.is_empty() && exclusions.is_empty())
    }

    /// Create prohibition. 2, 3, 4, 5, 6, 10.
    fn create_prohibition(&mut self, given: &GivenProhibition) -> Result<(), u32> {
        self.index_line()?;
        let prohibition = Self::prohibition_in_range(given)?;
        line(ALREADY_THERE, self.policy.prohibitions.contains(&prohibition))?;
        line(ABSENT, self.names_something_absent(&prohibition))?;
        line(KIND, self.names_a_wrong_kind(&prohibition))?;
        line(RIGHTS_OR_LISTS, Self::has_wrong_rights_or_lists(&prohibition))?;
        line(NO_ROOM, self.policy.prohibitions.len() >= MOST_PROHIBITIONS)?;
        self.policy.prohibitions.insert(prohibition);
        Ok(())
    }

    /// Delete prohibition, "exact fields". 2, 4, 5, 6. (5 and 6 cannot hold in a sound policy.)
    fn delete_prohibition(&mut self, given: &GivenProhibition) -> Result<(), u32> {
        self.index_line()?;
        let prohibition = Self::prohibition_in_range(given)?;
        line(
            ABSENT,
            self.names_something_absent(&prohibition) || !self.policy.prohibitions.contains(&prohibition),
        )?;
        line(KIND, self.names_a_wrong_kind(&prohibition))?;
        line(RIGHTS_OR_LISTS, Self::has_wrong_rights_or_lists(&prohibition))?;
        self.policy.prohibitions.remove(&prohibition);
        Ok(())
    }

    /// Start process. 2, 3, 4, 5. (Line 10 cannot hold: with 255 processes every id is taken.)
    fn start_process(&mut self, id: u32, user: u32) -> Result<(), u32> {
        self.index_line()?;
        line(OUT_OF_RANGE, !is_process_id(id) || !is_element_id(user))?;
        let (id, user) = (id as u8, user as u16);
        line(ALREADY_THERE, self.policy.processes.contains_key(&id))?;
        line(ABSENT, self.is_absent(user))?;
        line(KIND, !self.policy.is_one_of(user, &[USER]))?;
        self.policy.processes.insert(id, user);
        Ok(())
    }

    /// End process. 2, 4, 9.
    fn end_process(&mut self, id: u32) -> Result<(), u32> {
        self.index_line()?;
        line(OUT_OF_RANGE, !is_process_id(id))?;
        let id = id as u8;
        line(ABSENT, !self.policy.processes.contains_key(&id))?;
        line(IN_USE, self.policy.prohibitions.iter().any(|prohibition| prohibition.names_process(id)))?;
        self.policy.processes.remove(&id);
        Ok(())
    }
}
