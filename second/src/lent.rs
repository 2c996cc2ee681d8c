//! The calls over lent words, as the project's library has them: the words are judged first (refusal 1), the policy that they are is
//! read into sets, and the call is made (save packs the words as they stand; new and load ask the length alone). After an accepted
//! command the table is written anew.
//!
//! Nothing is kept between two calls but the words and the index. Whoever keeps the sets calls what stands under the same names
//! elsewhere in this program.

use crate::command::{self, Command};
use crate::decide::{admit, Answer, Containment, Rules};
use crate::explain::Row;
use crate::image;
use crate::index::{has_another_length, INDEX_BYTES};
use crate::policy;
use crate::refusal::{line, NO_ROOM, NO_TABLE, OUT_OF_RANGE};
use crate::words::{clear, holds_table, table, write, written, Table, WORDS};

/// The table that lent words hold; refused with 1.
pub fn read(words: &[u32]) -> Result<Table, u32> {
    line(NO_TABLE, !holds_table(words))?;
    Ok(table(words))
}

/// Makes the words the empty table. Refused with 1.
pub fn new(words: &mut [u32]) -> Result<(), u32> {
    line(NO_TABLE, !clear(words))
}

/// Makes the words the table of the policy that the image spells. Refused with 1, 11 to 14.
pub fn load(words: &mut [u32], image: &[u8]) -> Result<(), u32> {
    line(NO_TABLE, words.len() != WORDS)?;
    let policy = image::load(image)?;
    clear(words);
    write(&policy, words);
    Ok(())
}

/// Writes the image to the front of `out`. Refused with 1 and 10.
pub fn save(words: &[u32], out: &mut [u8]) -> Result<usize, u32> {
    line(NO_TABLE, !holds_table(words))?;
    let image = written(words).bytes();
    out.get_mut(..image.len()).ok_or(NO_ROOM)?.copy_from_slice(&image);
    Ok(image.len())
}

/// Writes the table's index. Refused with 1 and 2.
pub fn build_index(words: &[u32], index: &mut [u8]) -> Result<(), u32> {
    crate::build_index_into(&read(words)?.policy, index)
}

/// Is the index the table's? Refused with 1 and 2.
pub fn is_index(words: &[u32], index: &[u8]) -> Result<bool, u32> {
    crate::is_index(&read(words)?.policy, index)
}

/// Is x within y? Refused with 1, 2 and 4.
pub fn contains(words: &[u32], x: u32, y: u32) -> Result<bool, u32> {
    policy::contains(&read(words)?.policy, x, y)
}

/// The plain decision. Refused with 1, 2, 4 and 5.
pub fn decide(words: &[u32], process: u32, operation: u32, arguments: [u32; 3]) -> Answer {
    match read(words) {
        Err(number) => Answer::Refused(number),
        Ok(table) => crate::decide(&table.policy, process, operation, arguments),
    }
}

/// The decision from the bits of an index alone. Refused with 1, 2, 4 and 5.
pub fn decide_indexed(
    words: &[u32],
    index: &[u8],
    process: u32,
    operation: u32,
    arguments: [u32; 3],
) -> Answer {
    match read(words) {
        Err(number) => Answer::Refused(number),
        Ok(table) => decide_by_bits(&table, index, process, operation, arguments),
    }
}

/// The explanation into lent rows: the answer and the row count. Refused with 1, 2, 4, 5 and 10.
pub fn explain(
    words: &[u32],
    process: u32,
    operation: u32,
    arguments: [u32; 3],
    rows: &mut [Row],
) -> (Answer, usize) {
    match read(words) {
        Err(number) => (Answer::Refused(number), 0),
        Ok(table) => crate::explain_into(&table.policy, process, operation, arguments, rows),
    }
}

/// Runs one command. A refused one changes nothing. An accepted one writes the policy's table anew: its groups in the image's order,
/// each record once, zeros behind each, and for a number above 511 its stand-in. So only where the words were written so before, and
/// name no such number, are those that it does not concern left.
pub fn run(words: &mut [u32], index: &mut [u8], command: &Command) -> Result<(), u32> {
    let mut policy = read(words)?.policy;
    command::run(&mut policy, index.len(), command)?;
    write(&policy, words);
    if command.changes_containment() {
        index[..INDEX_BYTES].copy_from_slice(&crate::build_index(&policy));
    }
    Ok(())
}

/// Containment from the bits of an index alone. Only words that no call of ours leaves name a y above 511: its
/// bit is where 01's "Byte 64x + y/8, bit 7 - (y mod 8)" has it, 0 behind the last byte.
struct Bits<'a> {
    index: &'a [u8],
    table: &'a Table,
}

impl Containment for Bits<'_> {
    fn within(&self, x: u16, y: u16) -> bool {
        let y = self.table.number(y);
        let byte = self.index.get(64 * usize::from(x) + (y / 8) as usize);
        byte.is_some_and(|byte| byte >> (7 - y % 8) & 1 == 1)
    }
}

/// The decision with those bits read as containment.
pub fn decide_by_bits(
    table: &Table,
    index: &[u8],
    process: u32,
    operation: u32,
    arguments: [u32; 3],
) -> Answer {
    if has_another_length(index) {
        return Answer::Refused(OUT_OF_RANGE);
    }
    match admit(&table.policy, process, operation, arguments) {
        Err(number) => Answer::Refused(number),
        Ok(request) => Rules { policy: &table.policy, containment: &Bits { index, table } }.judge(&request),
    }
}
