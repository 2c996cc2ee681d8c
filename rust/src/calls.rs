//! The calls over memory that the caller owns: slices of any length and with any contents.
//!
//! A table is [`TABLE_WORDS`](crate::TABLE_WORDS) words and an index [`INDEX_BYTES`](crate::INDEX_BYTES) bytes; other lengths are
//! refused with 1 and 2. Nothing is kept between two calls but what stands in that memory. [`Table`](crate::Table) is built on
//! these calls and owns its memory.
//!
//! What the proofs assume of the memory, Rust's slices give: a pointer that may be read, or written where the slice is lent to be
//! changed, for as many elements as the length says; alignment; no overlap with anything else that is lent to be changed. That
//! is why each `unsafe` block of this module is sound.

use crate::raw;
use crate::{Decision, Explanation, Prohibition, Refusal, Request, Row};

/// An answer that is 0 or a refusal number.
fn done(answer: u32) -> Result<(), Refusal> {
    match answer {
        0 => Ok(()),
        number => Err(Refusal::of(number)),
    }
}

/// An answer that is below 16, or 16 plus a refusal number.
fn told(answer: u32) -> Result<u32, Refusal> {
    match answer.checked_sub(16) {
        None => Ok(answer),
        Some(number) => Err(Refusal::of(number)),
    }
}

/// An answer that is 0 for deny, the alternative that is granted, or 16 plus a refusal number.
fn decided(answer: u32) -> Result<Decision, Refusal> {
    Ok(match told(answer)? {
        0 => Decision::Deny,
        alternative => Decision::Grant(alternative),
    })
}

/// The two numbers of an answer of 64 bits.
fn halves(answer: u64) -> (u32, u32) {
    ((answer >> 32) as u32, answer as u32)
}

/// Makes the memory an empty table, whatever it held. Refused with 1.
pub fn new(table: &mut [u32]) -> Result<(), Refusal> {
    done(unsafe { raw::qd_new(table.as_mut_ptr(), table.len()) })
}

/// Makes the memory the table of the policy that the image spells, whatever it held. Refused with 1, 11, 12, 13, 14.
pub fn load(table: &mut [u32], image: &[u8]) -> Result<(), Refusal> {
    done(unsafe { raw::qd_load(table.as_mut_ptr(), table.len(), image.as_ptr(), image.len()) })
}

/// Writes the image of the table's policy to the front of `out`, no byte beyond it, and answers its length. Refused with 1, 10.
pub fn save(table: &[u32], out: &mut [u8]) -> Result<usize, Refusal> {
    let answer = unsafe { raw::qd_save(table.as_ptr(), table.len(), out.as_mut_ptr(), out.len()) };
    let (refusal, length) = halves(answer);
    done(refusal)?;
    Ok(length as usize)
}

/// Makes the bytes the index of the table, whatever they were. Refused with 1, 2.
pub fn build_index(table: &[u32], index: &mut [u8]) -> Result<(), Refusal> {
    done(unsafe { raw::qd_build_index(table.as_ptr(), table.len(), index.as_mut_ptr(), index.len()) })
}

/// Are the bytes the index of the table? Refused with 1, 2.
pub fn is_index(table: &[u32], index: &[u8]) -> Result<bool, Refusal> {
    let answer = unsafe { raw::qd_is_index(table.as_ptr(), table.len(), index.as_ptr(), index.len()) };
    Ok(told(answer)? == 1)
}

/// Is `x` the same as `y`, or does a chain of assignments lead from `x` to `y`? Refused with 1, 2, 4.
pub fn contains(table: &[u32], x: u32, y: u32) -> Result<bool, Refusal> {
    Ok(told(unsafe { raw::qd_contains(table.as_ptr(), table.len(), x, y) })? == 1)
}

/// The decision, with containment searched in the table. Refused with 1, 2, 4, 5.
pub fn decide(table: &[u32], request: &Request) -> Result<Decision, Refusal> {
    let Request { process, operation, first, second, third } = *request;
    decided(unsafe { raw::qd_decide(table.as_ptr(), table.len(), process, operation, first, second, third) })
}

/// The decision, with containment read from the bits of the index alone. With the table's index it is [`decide`]'s answer, on
/// every table that new, load and the commands left; over other bytes it is what the rule says with those bits read as
/// containment. Refused with 1, 2, 4, 5.
pub fn decide_indexed(table: &[u32], index: &[u8], request: &Request) -> Result<Decision, Refusal> {
    let Request { process, operation, first, second, third } = *request;
    decided(unsafe {
        raw::qd_decide_indexed(
            table.as_ptr(),
            table.len(),
            index.as_ptr(),
            index.len(),
            process,
            operation,
            first,
            second,
            third,
        )
    })
}

/// [`decide`]'s answer, and why: fills as many of the rows, from the first on, as it answers, and leaves the others as they were.
/// [`ROWS_MOST`](crate::ROWS_MOST) rows are always enough. Refused with 1, 2, 4, 5, and with 10 where the rows are too few.
pub fn explain(table: &[u32], request: &Request, rows: &mut [Row]) -> Result<Explanation, Refusal> {
    let Request { process, operation, first, second, third } = *request;
    let answer = unsafe {
        raw::qd_explain(
            table.as_ptr(),
            table.len(),
            process,
            operation,
            first,
            second,
            third,
            rows.as_mut_ptr(),
            rows.len(),
        )
    };
    let (decision, rows) = halves(answer);
    Ok(Explanation { decision: decided(decision)?, rows: rows as usize })
}

/// Creates a policy class. Refused with 1, 2, 3.
///
/// Of this and the other commands: each takes the table and its index and leaves both up to date. It is judged on the numbers, the
/// table and the index's length, never on the index's bytes. Where the index was not the table's, the first five commands make it
/// so; the others leave it as it was.
pub fn create_class(table: &mut [u32], index: &mut [u8], id: u32) -> Result<(), Refusal> {
    done(unsafe {
        raw::qd_create_class(table.as_mut_ptr(), table.len(), index.as_mut_ptr(), index.len(), id)
    })
}

/// Creates an element of kind 1 to 4 with its first assignment. Refused with 1, 2, 3, 4, 5, 10.
pub fn create_element(
    table: &mut [u32],
    index: &mut [u8],
    id: u32,
    kind: u32,
    container: u32,
) -> Result<(), Refusal> {
    done(unsafe {
        raw::qd_create_element(
            table.as_mut_ptr(),
            table.len(),
            index.as_mut_ptr(),
            index.len(),
            id,
            kind,
            container,
        )
    })
}

/// Assigns the child to the container. Refused with 1, 2, 3, 4, 5, 7, 10.
pub fn assign(table: &mut [u32], index: &mut [u8], child: u32, container: u32) -> Result<(), Refusal> {
    done(unsafe {
        raw::qd_assign(table.as_mut_ptr(), table.len(), index.as_mut_ptr(), index.len(), child, container)
    })
}

/// Takes the child's assignment to the container away. Refused with 1, 2, 4, 5, 8.
pub fn deassign(table: &mut [u32], index: &mut [u8], child: u32, container: u32) -> Result<(), Refusal> {
    done(unsafe {
        raw::qd_deassign(table.as_mut_ptr(), table.len(), index.as_mut_ptr(), index.len(), child, container)
    })
}

/// Deletes an element with its own assignments. Refused with 1, 2, 4, 9.
pub fn delete_element(table: &mut [u32], index: &mut [u8], id: u32) -> Result<(), Refusal> {
    done(unsafe {
        raw::qd_delete_element(table.as_mut_ptr(), table.len(), index.as_mut_ptr(), index.len(), id)
    })
}

/// Creates an association: it gives users within the user attribute the rights over what is within the target, in the classes that the
/// target is within. A right is held only where it is given in each class of the element. Refused with 1, 2, 3, 4, 5,
/// 6, 10.
pub fn create_association(
    table: &mut [u32],
    index: &mut [u8],
    attribute: u32,
    rights: u32,
    target: u32,
) -> Result<(), Refusal> {
    done(unsafe {
        raw::qd_create_association(
            table.as_mut_ptr(),
            table.len(),
            index.as_mut_ptr(),
            index.len(),
            attribute,
            rights,
            target,
        )
    })
}

/// Deletes an association, by its exact triple. Refused with 1, 2, 4, 5, 6.
pub fn delete_association(
    table: &mut [u32],
    index: &mut [u8],
    attribute: u32,
    rights: u32,
    target: u32,
) -> Result<(), Refusal> {
    done(unsafe {
        raw::qd_delete_association(
            table.as_mut_ptr(),
            table.len(),
            index.as_mut_ptr(),
            index.len(),
            attribute,
            rights,
            target,
        )
    })
}

/// Creates a prohibition. Refused with 1, 2, 3, 4, 5, 6, 10; a list of more than four is refused with 6, after 2, 4 and 5 were
/// judged over all of its ids.
pub fn create_prohibition(
    table: &mut [u32],
    index: &mut [u8],
    prohibition: &Prohibition,
) -> Result<(), Refusal> {
    let Prohibition { sort, subject, form, rights, inclusions, exclusions } = *prohibition;
    done(unsafe {
        raw::qd_create_prohibition(
            table.as_mut_ptr(),
            table.len(),
            index.as_mut_ptr(),
            index.len(),
            sort,
            subject,
            form,
            rights,
            inclusions.as_ptr(),
            inclusions.len(),
            exclusions.as_ptr(),
            exclusions.len(),
        )
    })
}

/// Deletes a prohibition, by its exact fields. Refused with 1, 2, 4, 5, 6.
pub fn delete_prohibition(
    table: &mut [u32],
    index: &mut [u8],
    prohibition: &Prohibition,
) -> Result<(), Refusal> {
    let Prohibition { sort, subject, form, rights, inclusions, exclusions } = *prohibition;
    done(unsafe {
        raw::qd_delete_prohibition(
            table.as_mut_ptr(),
            table.len(),
            index.as_mut_ptr(),
            index.len(),
            sort,
            subject,
            form,
            rights,
            inclusions.as_ptr(),
            inclusions.len(),
            exclusions.as_ptr(),
            exclusions.len(),
        )
    })
}

/// Starts a process of a user. Refused with 1, 2, 3, 4, 5.
pub fn start_process(table: &mut [u32], index: &mut [u8], process: u32, user: u32) -> Result<(), Refusal> {
    done(unsafe {
        raw::qd_start_process(table.as_mut_ptr(), table.len(), index.as_mut_ptr(), index.len(), process, user)
    })
}

/// Ends a process. Refused with 1, 2, 4, 9.
pub fn end_process(table: &mut [u32], index: &mut [u8], process: u32) -> Result<(), Refusal> {
    done(unsafe {
        raw::qd_end_process(table.as_mut_ptr(), table.len(), index.as_mut_ptr(), index.len(), process)
    })
}
