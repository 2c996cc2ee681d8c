//! What is asked, and what is answered.

/// May this process do this operation with these arguments? Any numbers may stand here. Arguments that the operation does
/// not use must be 0, else the request is refused with 2.
#[derive(Clone, Copy, Debug, Default, PartialEq, Eq, Hash)]
pub struct Request {
    /// The process that asks.
    pub process: u32,
    /// One of [`operation`](crate::operation).
    pub operation: u32,
    /// The first argument.
    pub first: u32,
    /// The second argument, or 0.
    pub second: u32,
    /// The third argument, or 0.
    pub third: u32,
}

/// The answer to a request that is not refused.
#[derive(Clone, Copy, Debug, PartialEq, Eq, Hash)]
pub enum Decision {
    /// Denied: no alternative is satisfied.
    Deny,
    /// Granted, by this alternative, 1 or 2: the lowest that is satisfied.
    Grant(u32),
}

impl Decision {
    /// Is it granted?
    pub fn is_grant(self) -> bool {
        self != Decision::Deny
    }
}

/// A row of an explanation.
///
/// Of a grant there is one row for each argument, right and class that contains the argument, all rising. `alternative` is the
/// granted one, `number` is the class, and the last three fields are the lowest association that authorizes the right in that
/// class; `cause` is 0.
///
/// Of a deny there is one row for each alternative, with its first argument and right that fail, a cause and a number. Cause
/// 1: the right is not held; the number is the lowest class that lacks it, 0 if there is none. Cause 2, 3 or 4: restricted through
/// the user, the process or an attribute; the number is the lowest such subject. The last three fields are 0.
#[derive(Clone, Copy, Debug, Default, PartialEq, Eq, PartialOrd, Ord, Hash)]
#[repr(C)]
pub struct Row {
    /// Of a grant the granted alternative, of a deny the one that the row is of.
    pub alternative: u32,
    /// Which argument, counted from 1.
    pub argument: u32,
    /// The right, 0 to 31.
    pub right: u32,
    /// 0 of a grant, 1 to 4 of a deny.
    pub cause: u32,
    /// The class, 0 if there is none, or the subject of a prohibition.
    pub number: u32,
    /// The association's user attribute.
    pub attribute: u32,
    /// The association's target.
    pub target: u32,
    /// The association's right set.
    pub rights: u32,
}

/// The decision, and how many of the lent rows say why.
#[derive(Clone, Copy, Debug, PartialEq, Eq, Hash)]
pub struct Explanation {
    /// The decision.
    pub decision: Decision,
    /// How many rows, from the first on.
    pub rows: usize,
}

/// A prohibition's fields. Any numbers and lists of any length may stand here; what breaks a rule is refused.
#[derive(Clone, Copy, Debug, PartialEq, Eq, Hash)]
pub struct Prohibition<'a> {
    /// One of [`sort`](crate::sort).
    pub sort: u32,
    /// The user, the process or the user attribute.
    pub subject: u32,
    /// One of [`form`](crate::form).
    pub form: u32,
    /// The right set: right r is the bit `1 << r`.
    pub rights: u32,
    /// Attributes, strictly rising, at most four.
    pub inclusions: &'a [u32],
    /// Attributes, strictly rising, at most four.
    pub exclusions: &'a [u32],
}
