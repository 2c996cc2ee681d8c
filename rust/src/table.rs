//! A table that owns its memory.

use crate::calls;
use crate::{Decision, Explanation, Prohibition, Refusal, Request, Row};
use crate::{IMAGE_MOST, INDEX_BYTES, ROWS_MOST, TABLE_WORDS};
use std::fmt;

/// A policy: elements, assignments, associations, prohibitions and processes, with the index that tells what is within what.
///
/// It owns the memory of both. The memory always holds a table, and the index is always the table's, so that no call below is
/// refused with 1 or for the index.
///
/// Two tables are equal if their words and their indexes are. Printed with `{:?}` a table shows its five counts.
#[derive(Clone, PartialEq, Eq)]
pub struct Table {
    words: Box<[u32]>,
    index: Box<[u8]>,
}

impl Table {
    /// The empty policy.
    pub fn new() -> Table {
        let mut table = Table::unmade();
        calls::new(&mut table.words).expect("the memory has the published length");
        table
    }

    /// The policy that the image spells. Refused with 11, 12, 13, 14.
    pub fn load(image: &[u8]) -> Result<Table, Refusal> {
        let mut table = Table::unmade();
        table.reload(image)?;
        Ok(table)
    }

    /// Memory of the right lengths, all zero: no table yet. The zero bytes are the empty policy's index.
    fn unmade() -> Table {
        Table { words: vec![0; TABLE_WORDS].into(), index: vec![0; INDEX_BYTES].into() }
    }

    /// Puts the policy that the image spells in the place of what was there. Refused with 11, 12, 13, 14.
    pub fn reload(&mut self, image: &[u8]) -> Result<(), Refusal> {
        calls::load(&mut self.words, image)?;
        calls::build_index(&self.words, &mut self.index).expect("an accepted load leaves a table");
        Ok(())
    }

    /// The policy's image.
    pub fn save(&self) -> Vec<u8> {
        let mut image = vec![0; IMAGE_MOST];
        let length = self.save_into(&mut image).expect("no image is longer");
        image.truncate(length);
        image
    }

    /// Writes the policy's image to the front of `out`, no byte beyond it, and answers its length. Refused with 10.
    pub fn save_into(&self, out: &mut [u8]) -> Result<usize, Refusal> {
        calls::save(&self.words, out)
    }

    /// Is `x` the same as `y`, or does a chain of assignments lead from `x` to `y`? Refused with 2, 4.
    pub fn contains(&self, x: u32, y: u32) -> Result<bool, Refusal> {
        calls::contains(&self.words, x, y)
    }

    /// The decision, with containment searched among the assignments. Refused with 2, 4, 5.
    pub fn decide(&self, request: &Request) -> Result<Decision, Refusal> {
        calls::decide(&self.words, request)
    }

    /// The same answer as [`decide`](Table::decide), with containment read from the index.
    pub fn decide_indexed(&self, request: &Request) -> Result<Decision, Refusal> {
        calls::decide_indexed(&self.words, &self.index, request)
    }

    /// The decision, and why: fills as many of the rows, from the first on, as it answers, and leaves the others as they were.
    /// [`ROWS_MOST`] rows are always enough. Refused with 2, 4, 5, and with 10 where the rows are too few.
    pub fn explain(&self, request: &Request, rows: &mut [Row]) -> Result<Explanation, Refusal> {
        calls::explain(&self.words, request, rows)
    }

    /// The decision and its rows. Refused with 2, 4, 5.
    pub fn explained(&self, request: &Request) -> Result<(Decision, Vec<Row>), Refusal> {
        let mut rows = vec![Row::default(); ROWS_MOST];
        let Explanation { decision, rows: count } = self.explain(request, &mut rows)?;
        rows.truncate(count);
        Ok((decision, rows))
    }

    /// Creates a policy class. Refused with 2, 3.
    pub fn create_class(&mut self, id: u32) -> Result<(), Refusal> {
        calls::create_class(&mut self.words, &mut self.index, id)
    }

    /// Creates an element of kind 1 to 4 with its first assignment. Refused with 2, 3, 4, 5, 10.
    pub fn create_element(&mut self, id: u32, kind: u32, container: u32) -> Result<(), Refusal> {
        calls::create_element(&mut self.words, &mut self.index, id, kind, container)
    }

    /// Assigns the child to the container. Refused with 2, 3, 4, 5, 7, 10.
    pub fn assign(&mut self, child: u32, container: u32) -> Result<(), Refusal> {
        calls::assign(&mut self.words, &mut self.index, child, container)
    }

    /// Takes the child's assignment to the container away. Refused with 2, 4, 8.
    pub fn deassign(&mut self, child: u32, container: u32) -> Result<(), Refusal> {
        calls::deassign(&mut self.words, &mut self.index, child, container)
    }

    /// Deletes an element with its own assignments. Refused with 2, 4, 9.
    pub fn delete_element(&mut self, id: u32) -> Result<(), Refusal> {
        calls::delete_element(&mut self.words, &mut self.index, id)
    }

    /// Creates an association: it gives users within the user attribute the rights over what is within the target, in the classes that the
    /// target is within. A right is held only where it is given in each class of the element. Refused with 2, 3, 4, 5,
    /// 6, 10.
    pub fn create_association(&mut self, attribute: u32, rights: u32, target: u32) -> Result<(), Refusal> {
        calls::create_association(&mut self.words, &mut self.index, attribute, rights, target)
    }

    /// Deletes an association, by its exact triple. Refused with 2, 4.
    pub fn delete_association(&mut self, attribute: u32, rights: u32, target: u32) -> Result<(), Refusal> {
        calls::delete_association(&mut self.words, &mut self.index, attribute, rights, target)
    }

    /// Creates a prohibition. Refused with 2, 3, 4, 5, 6, 10.
    pub fn create_prohibition(&mut self, prohibition: &Prohibition) -> Result<(), Refusal> {
        calls::create_prohibition(&mut self.words, &mut self.index, prohibition)
    }

    /// Deletes a prohibition, by its exact fields. Refused with 2, 4.
    pub fn delete_prohibition(&mut self, prohibition: &Prohibition) -> Result<(), Refusal> {
        calls::delete_prohibition(&mut self.words, &mut self.index, prohibition)
    }

    /// Starts a process of a user. Refused with 2, 3, 4, 5.
    pub fn start_process(&mut self, process: u32, user: u32) -> Result<(), Refusal> {
        calls::start_process(&mut self.words, &mut self.index, process, user)
    }

    /// Ends a process. Refused with 2, 4, 9.
    pub fn end_process(&mut self, process: u32) -> Result<(), Refusal> {
        calls::end_process(&mut self.words, &mut self.index, process)
    }

    /// The index: byte 64x + y/8, bit 7 - (y mod 8), is 1 exactly when x and y are there and x is within y.
    pub fn index(&self) -> &[u8] {
        &self.index
    }

    /// The table's words.
    pub fn words(&self) -> &[u32] {
        &self.words
    }
}

impl Default for Table {
    fn default() -> Table {
        Table::new()
    }
}

impl fmt::Debug for Table {
    fn fmt(&self, f: &mut fmt::Formatter<'_>) -> fmt::Result {
        // the image begins with the form, 4 bits, and the counts: 9, 11, 10, 8 and 8 bits
        let head = self.save()[..7].iter().fold(0, |bits, byte| bits << 8 | u64::from(*byte));
        f.debug_struct("Table")
            .field("elements", &(head >> 43 & 0x1ff))
            .field("assignments", &(head >> 32 & 0x7ff))
            .field("associations", &(head >> 22 & 0x3ff))
            .field("prohibitions", &(head >> 14 & 0xff))
            .field("processes", &(head >> 6 & 0xff))
            .finish_non_exhaustive()
    }
}
