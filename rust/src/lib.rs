//! Quandrilof: an access machine of the NGAC kind (INCITS 565). It knows numbers only.
//!
//! A policy is a set of elements (users, user attributes, objects, object attributes, policy classes), the assignments between
//! them, associations that give rights, prohibitions that take them away, and processes, each of one user. Every request is
//! granted, denied or refused with a number.
//!
//! The work is done by proved code, which this crate links and hands slices to. What each call answers, and what it leaves in every
//! word, byte and row that is lent to it, is proved; docs/CONTRACTS.md and docs/THEOREMS.md of the project say what, and by which
//! name. Not proved is this crate: it turns slices into pointers with their lengths, and numbers into enums.
//!
//! [`Table`] owns its memory. The functions of [`calls`] are for those who own it themselves.
//!
//! A call takes no memory but what is lent to it and the stack. Stack, measured, not proved: have 160 KiB; a smaller stack may end the
//! process.
//!
//! ```
//! use quandrilof::{form, operation, right, sort, Decision, Prohibition, Refusal, Request, Table};
//!
//! # fn main() -> Result<(), Refusal> {
//! // A house of two classes, two users and three objects, as an image spells it.
//! let mut house = Table::load(&[
//!     0x10, 0x58, 0x0b, 0x00, 0x80, 0x00, 0x80, 0x34, 0x05, 0x40, 0x68, 0x08, 0x80, 0xa4, 0x0c, 0x40, 0xf0, 0x11, 0x01, 0x2c,
//!     0x14, 0xff, 0xec, 0x06, 0x02, 0x02, 0x00, 0x40, 0xa0, 0x30, 0x28, 0x10, 0x0c, 0x03, 0x03, 0x80, 0x81, 0x00, 0x10, 0x48,
//!     0x1c, 0x14, 0x07, 0x05, 0x02, 0x3f, 0xe0, 0x80, 0x18, 0x1c, 0x00, 0x00, 0x00, 0x0c, 0x08, 0x08, 0x00, 0x00, 0x00, 0x01,
//!     0x01, 0x02, 0x81, 0x01, 0x80,
//! ])?;
//!
//! // May process 1, which is user 5's, read object 9?
//! let reads = Request { process: 1, operation: operation::READ, first: 9, ..Request::default() };
//! assert_eq!(house.decide_indexed(&reads)?, Decision::Grant(1));
//!
//! // Why? Object 9 is in class 2 alone, and there attribute 3 has rights 0 and 1 over attribute 7.
//! let (decision, rows) = house.explained(&reads)?;
//! assert_eq!(decision, Decision::Grant(1));
//! assert_eq!(rows.len(), 1);
//! assert_eq!((rows[0].number, rows[0].attribute, rows[0].target, rows[0].rights), (2, 3, 7, 0b11));
//!
//! // User 5 may no longer read what is in attribute 7.
//! house.create_prohibition(&Prohibition {
//!     sort: sort::USER,
//!     subject: 5,
//!     form: form::CONJUNCTIVE,
//!     rights: 1 << right::READ,
//!     inclusions: &[7],
//!     exclusions: &[],
//! })?;
//! let (decision, rows) = house.explained(&reads)?;
//! assert_eq!(decision, Decision::Deny);
//! assert_eq!((rows[0].cause, rows[0].number), (2, 5));
//!
//! // What breaks a rule is refused with the lowest number that applies, and changes nothing.
//! assert_eq!(house.delete_element(7), Err(Refusal::InUse));
//! assert_eq!(house.assign(7, 9).map_err(Refusal::number), Err(5));
//! # Ok(())
//! # }
//! ```

#![warn(missing_docs)]

pub mod calls;
mod numbers;
mod raw;
mod refusal;
mod request;
mod table;

pub use numbers::{form, kind, operation, right, sort};
pub use refusal::{NoRefusal, Refusal};
pub use request::{Decision, Explanation, Prohibition, Request, Row};
pub use table::Table;

/// Words of a table.
pub const TABLE_WORDS: usize = 8_192;
/// Bytes of an index.
pub const INDEX_BYTES: usize = 32_768;
/// No image of a table has more bytes.
pub const IMAGE_MOST: usize = 15_115;
/// No explanation has more rows; a deny has at most two.
pub const ROWS_MOST: usize = 1_533;
/// Elements are 1 to 511.
pub const ELEMENT_MOST: u32 = 511;
/// Processes are 1 to 255.
pub const PROCESS_MOST: u32 = 255;
/// A prohibition lists at most four inclusions and four exclusions.
pub const LIST_MOST: usize = 4;
/// A table holds at most so many assignments.
pub const ASSIGNMENTS_MOST: usize = 2_000;
/// At most so many associations.
pub const ASSOCIATIONS_MOST: usize = 1_000;
/// At most so many prohibitions.
pub const PROHIBITIONS_MOST: usize = 200;
