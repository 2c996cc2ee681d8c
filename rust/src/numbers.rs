//! The numbers that calls take: kinds, operations, rights, subject sorts, forms. Calls take any `u32` in their place.

/// Kinds of elements.
pub mod kind {
    /// A user, assigned to user attributes.
    pub const USER: u32 = 1;
    /// A user attribute: users and user attributes are assigned to it, it to a user attribute or a class.
    pub const USER_ATTRIBUTE: u32 = 2;
    /// An object, assigned to object attributes or classes. It counts as an attribute too.
    pub const OBJECT: u32 = 3;
    /// An object attribute: objects and object attributes are assigned to it, it to an object attribute or a class.
    pub const OBJECT_ATTRIBUTE: u32 = 4;
    /// A policy class.
    pub const CLASS: u32 = 5;
}

/// Operations, with their arguments and the rights that are asked, a set for each argument; behind "or" the second alternative.
pub mod operation {
    /// Object: {0}.
    pub const READ: u32 = 1;
    /// Object: {1}.
    pub const WRITE: u32 = 2;
    /// Object: {2} or {0}.
    pub const FIND: u32 = 3;
    /// Object: {0, 3}.
    pub const PRINT: u32 = 4;
    /// Object, object attribute, object attribute: {4}, {5}, {6} or {1}, {5}, {6}.
    pub const MOVE: u32 = 5;
    /// Object, object attribute: {0}, {6} or {3}, {1}.
    pub const COPY: u32 = 6;
    /// Two elements that are no class: {7}, {8}.
    pub const ASSIGN: u32 = 7;
    /// Two elements that are no class: {9}, {10}.
    pub const DEASSIGN: u32 = 8;
    /// User attribute, attribute: {11}, {12}.
    pub const ASSOCIATE: u32 = 9;
}

/// Rights, 0 to 31. In a right set, right r is the bit `1 << r`. Those without a name are spare.
pub mod right {
    /// Asked for by read, find, print and copy.
    pub const READ: u32 = 0;
    /// Asked for by write, move and copy.
    pub const WRITE: u32 = 1;
    /// Asked for by find.
    pub const FIND: u32 = 2;
    /// Asked for by print and copy.
    pub const PRINT: u32 = 3;
    /// Asked for by move, over the object.
    pub const MOVE: u32 = 4;
    /// Asked for by move, over the second argument.
    pub const TAKE_OUT: u32 = 5;
    /// Asked for by move, over the third argument, and by copy, over the second.
    pub const PUT_IN: u32 = 6;
    /// Asked for by assign, over the first argument.
    pub const ASSIGN_FROM: u32 = 7;
    /// Asked for by assign, over the second argument.
    pub const ASSIGN_TO: u32 = 8;
    /// Asked for by deassign, over the first argument.
    pub const DEASSIGN_FROM: u32 = 9;
    /// Asked for by deassign, over the second argument.
    pub const DEASSIGN_TO: u32 = 10;
    /// Asked for by associate, over the user attribute.
    pub const ASSOC_FROM: u32 = 11;
    /// Asked for by associate, over the attribute.
    pub const ASSOC_TO: u32 = 12;
}

/// Sorts of a prohibition's subject.
pub mod sort {
    /// The processes of one user.
    pub const USER: u32 = 1;
    /// One process.
    pub const PROCESS: u32 = 2;
    /// The processes of all users within one user attribute.
    pub const USER_ATTRIBUTE: u32 = 3;
}

/// Forms of a prohibition.
pub mod form {
    /// The range is what is within some inclusion or outside some exclusion, but for classes.
    pub const DISJUNCTIVE: u32 = 0;
    /// The range is what is within every inclusion and outside every exclusion, but for classes; an empty list limits nothing.
    pub const CONJUNCTIVE: u32 = 1;
}
