//! Refusal numbers.

use std::fmt;

/// Why a call was refused: the lowest number that applies. A refused call changes nothing that was lent to it.
#[derive(Clone, Copy, Debug, PartialEq, Eq, PartialOrd, Ord, Hash)]
#[repr(u32)]
pub enum Refusal {
    /// The memory has another length than a table's or, except in load and new, holds no table.
    NoTable = 1,
    /// An id, kind, sort, form or operation out of range; an unused argument not 0; the index has another length.
    OutOfRange = 2,
    /// The id or relation is already there.
    Already = 3,
    /// A named element, process or relation is absent.
    Absent = 4,
    /// A kind or pairing that is not allowed; kind 5 given a container.
    NotAllowed = 5,
    /// An empty right set; a list too long or not strictly rising; both lists empty.
    IllFormed = 6,
    /// The assignment would close a cycle, or child equals container.
    Cycle = 7,
    /// It is the child's only assignment.
    OnlyOne = 8,
    /// Something is assigned to the element, or something names it; a prohibition names the process.
    InUse = 9,
    /// The limit is reached, or the lent rows or output bytes are too few.
    NoRoom = 10,
    /// The image has a first byte and its form is not 1.
    ImageForm = 11,
    /// The image is cut, longer than its fields, or has non-zero filling bits.
    ImageLength = 12,
    /// A count, field or order in the image breaks a rule.
    ImageField = 13,
    /// The image names something unknown, a wrong kind or pairing, a cycle, or an unassigned element.
    ImageNames = 14,
}

impl Refusal {
    /// All of them, rising.
    pub const ALL: [Refusal; 14] = [
        Refusal::NoTable,
        Refusal::OutOfRange,
        Refusal::Already,
        Refusal::Absent,
        Refusal::NotAllowed,
        Refusal::IllFormed,
        Refusal::Cycle,
        Refusal::OnlyOne,
        Refusal::InUse,
        Refusal::NoRoom,
        Refusal::ImageForm,
        Refusal::ImageLength,
        Refusal::ImageField,
        Refusal::ImageNames,
    ];

    /// The number, 1 to 14.
    pub const fn number(self) -> u32 {
        self as u32
    }

    /// When it is given, as the rules have it.
    pub const fn text(self) -> &'static str {
        match self {
            Refusal::NoTable => {
                "the working memory has another length than the published one or, except in load and new, holds no \
                 table"
            }
            Refusal::OutOfRange => {
                "element not 1..511, process not 1..255, kind not 1..5, subject sort or form unknown, operation not \
                 1..9, unused argument not 0, index not 32,768 bytes"
            }
            Refusal::Already => "id or relation already there",
            Refusal::Absent => "named element, process or relation absent",
            Refusal::NotAllowed => "kind or pairing not allowed; kind 5 given a container",
            Refusal::IllFormed => "empty right set; list too long or not strictly rising; both lists empty",
            Refusal::Cycle => "the assignment would close a cycle, or child equals container",
            Refusal::OnlyOne => "it is the child's only assignment",
            Refusal::InUse => {
                "element has something assigned to it, or an association, prohibition or process names it; a \
                 prohibition names the process"
            }
            Refusal::NoRoom => "the limit is reached, or the lent rows or output bytes are too few",
            Refusal::ImageForm => "the image has a first byte and its form is not 1",
            Refusal::ImageLength => {
                "image cut, longer than its fields (all counts taken as written), or non-zero filling bits"
            }
            Refusal::ImageField => {
                "a count, field or order in the image breaks a rule; an id out of range is such a field wherever it \
                 stands"
            }
            Refusal::ImageNames => {
                "an image names an unknown element or process, a wrong kind or pairing, a cycle, or an unassigned \
                 element"
            }
        }
    }

    /// The refusal that a call answers. It is proved that the calls answer no other number.
    pub(crate) fn of(number: u32) -> Refusal {
        Refusal::try_from(number).unwrap_or_else(|none| panic!("{none}"))
    }
}

/// This number, not 1 to 14, is no refusal's.
#[derive(Clone, Copy, Debug, PartialEq, Eq, Hash)]
pub struct NoRefusal(pub u32);

impl TryFrom<u32> for Refusal {
    type Error = NoRefusal;

    /// The refusal with this number.
    fn try_from(number: u32) -> Result<Refusal, NoRefusal> {
        Refusal::ALL.get((number as usize).wrapping_sub(1)).copied().ok_or(NoRefusal(number))
    }
}

impl fmt::Display for Refusal {
    fn fmt(&self, f: &mut fmt::Formatter<'_>) -> fmt::Result {
        write!(f, "refusal {}: {}", self.number(), self.text())
    }
}

impl std::error::Error for Refusal {}

impl fmt::Display for NoRefusal {
    fn fmt(&self, f: &mut fmt::Formatter<'_>) -> fmt::Result {
        write!(f, "no refusal has the number {}", self.0)
    }
}

impl std::error::Error for NoRefusal {}
