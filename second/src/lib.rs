//! The second program: the rules of 01 written once more, apart from the project's other code.
//!
//! Its only purpose is to be compared with: every answer, refusal, row, image and index byte that 01
//! determines can be asked of it. It is written for plainness: sorted sets and maps, a search over the
//! assignments, one sentence of 01 after the other.
//!
//! Arguments of calls are `u32`, so that numbers out of range can be tried. A refusal is 01's number.
//! Refusal 1 speaks of working memory; this program has none, so only what is lent words gives it: `lent`, and the scripts of `leaves`,
//! `decisions`, `histories` and `images`. `words` reads memory as the project's pages publish it.

pub mod command;
pub mod decide;
pub mod decisions;
pub mod desk;
pub mod desk_inputs;
pub mod explain;
pub mod histories;
mod histories_script;
pub mod house;
pub mod image;
pub mod images;
mod images_script;
pub mod index;
pub mod leaves;
pub mod lent;
pub mod make;
pub mod policy;
pub mod script;
pub mod words;
pub mod year;

pub use command::{Command, Machine};
pub use decide::{decide, decide_indexed, Answer};
pub use decisions::decisions;
pub use desk::desk;
pub use desk_inputs::{desk_runs, desk_script, house_example, house_image};
pub use explain::{explain, explain_into, Explanation, Row};
pub use histories::histories;
pub use histories_script::histories_script;
pub use image::{load, save, save_into};
pub use images::images;
pub use images_script::{damaged_script, images_script};
pub use index::{build_index, build_index_into, is_index};
pub use leaves::{leaves, leaves_script};
pub use policy::{contains, Policy, Prohibition};
pub use script::decisions_script;

/// 01, "Refusal numbers". The names are this program's own, the numbers are 01's.
pub mod refusal {
    /// The working memory holds no table, or has another length.
    pub const NO_TABLE: u32 = 1;
    /// An id, kind, sort, form or operation out of range, an unused argument not 0, an index of another length.
    pub const OUT_OF_RANGE: u32 = 2;
    /// Id or relation already there.
    pub const ALREADY_THERE: u32 = 3;
    /// Named element, process or relation absent.
    pub const ABSENT: u32 = 4;
    /// Kind or pairing not allowed; kind 5 given a container.
    pub const KIND: u32 = 5;
    /// Empty right set; list too long or not strictly rising; both lists empty.
    pub const RIGHTS_OR_LISTS: u32 = 6;
    /// The assignment would close a cycle, or child equals container.
    pub const CYCLE: u32 = 7;
    /// It is the child's only assignment.
    pub const ONLY_ASSIGNMENT: u32 = 8;
    /// Something is assigned to the element, or something names it; a prohibition names the process.
    pub const IN_USE: u32 = 9;
    /// The limit is reached, or the lent rows or output bytes are too few.
    pub const NO_ROOM: u32 = 10;
    /// The image has a first byte and its form is not 1.
    pub const FORM: u32 = 11;
    /// Image cut, longer than its fields, or non-zero filling bits.
    pub const LENGTH: u32 = 12;
    /// A count, field or order in the image breaks a rule.
    pub const FIELD: u32 = 13;
    /// An image names an unknown element or process, a wrong kind or pairing, a cycle, or an unassigned element.
    pub const REFERENCE: u32 = 14;

    /// One line of the table: refuses with `number` if what the line says holds.
    /// Calls put their lines one below the other, lowest first, each over all arguments.
    pub(crate) fn line(number: u32, holds: bool) -> Result<(), u32> {
        if holds {
            Err(number)
        } else {
            Ok(())
        }
    }
}
