//! The containment index (01, "The containment index").

use crate::policy::Policy;
use crate::refusal::{line, OUT_OF_RANGE};

/// An index has 32,768 bytes.
pub const INDEX_BYTES: usize = 32_768;

/// Refusal 2 speaks of an index of another length.
pub(crate) fn has_another_length(index: &[u8]) -> bool {
    index.len() != INDEX_BYTES
}

/// 01: "Byte 64x + y/8, bit 7 - (y mod 8)". Bit 7 is the most significant one.
fn place(x: u16, y: u16) -> (usize, u8) {
    (64 * usize::from(x) + usize::from(y) / 8, 0x80 >> (y % 8))
}

/// The bit of (x, y).
pub fn bit(index: &[u8], x: u16, y: u16) -> bool {
    let (byte, mask) = place(x, y);
    index[byte] & mask != 0
}

/// Sets or clears the bit of (x, y).
pub fn set_bit(index: &mut [u8], x: u16, y: u16, value: bool) {
    let (byte, mask) = place(x, y);
    if value {
        index[byte] |= mask;
    } else {
        index[byte] &= !mask;
    }
}

/// The policy's index: the bit of (x, y) is 1 "exactly when x and y exist and x is within y".
pub fn build_index(policy: &Policy) -> Vec<u8> {
    let mut index = vec![0; INDEX_BYTES];
    for x in policy.elements.keys() {
        for y in policy.reach(*x) {
            if policy.kind(y).is_some() {
                set_bit(&mut index, *x, y, true);
            }
        }
    }
    index
}

/// Writes the policy's index into lent bytes; refused with 2.
pub fn build_index_into(policy: &Policy, index: &mut [u8]) -> Result<(), u32> {
    line(OUT_OF_RANGE, has_another_length(index))?;
    index.copy_from_slice(&build_index(policy));
    Ok(())
}

/// 01: "A call tells whether an index is the table's." Refused with 2.
pub fn is_index(policy: &Policy, index: &[u8]) -> Result<bool, u32> {
    line(OUT_OF_RANGE, has_another_length(index))?;
    Ok(index == build_index(policy))
}
