//! Gates written as formulas: letters a to p for the inputs, `|`, `^`, `&`, `!`, 0, 1 and parentheses.

use crate::raw;
use crate::refusal::{answer, Refusal};

/// Reads a formula of n inputs into a table, written whole, spare bits zero. It may refuse as 1, 3 and
/// 16.
///
/// ```
/// use pelzurivan::{read_formula, Refusal};
///
/// let mut table = [0; 1];
/// read_formula(3, b"a&!b|c", &mut table)?;
/// assert_eq!(table, [0xF2]);
/// assert_eq!(read_formula(3, b"a&|c", &mut table), Err(Refusal::Formula { place: 2 }));
/// # Ok::<(), Refusal>(())
/// ```
pub fn read_formula(n: u64, text: &[u8], table: &mut [u8]) -> Result<(), Refusal> {
    let read = unsafe {
        let (lent, length) = (table.as_mut_ptr(), table.len());
        raw::pelzurivan_read_formula(n, text.as_ptr(), text.len(), lent, length)
    };
    answer(read.number, read.place, ())
}

/// Writes a sheet as a formula into the first bytes of the room, of 1,024 bytes or more: how many
/// they are. Printed is every sheet whose records read one or two signals, whose two-signal tables
/// depend on both, and whose records but the last are each read once. It may refuse as 1, 6, 9, 10
/// and 16.
///
/// ```
/// use pelzurivan::{write_formula, Refusal, TEXT};
///
/// let sheet = [2, 0, 1, 255, 255, 255, 255, 0, 4, 0, 0, 0, 0, 0, 0, 0];
/// let mut room = [0; TEXT];
/// let length = write_formula(2, &sheet, &mut room)?;
/// assert_eq!(&room[..length], b"(!a&b)");
/// # Ok::<(), Refusal>(())
/// ```
pub fn write_formula(n: u64, sheet: &[u8], room: &mut [u8]) -> Result<usize, Refusal> {
    let written = unsafe {
        let (lent, length) = (room.as_mut_ptr(), room.len());
        raw::pelzurivan_write_formula(n, sheet.as_ptr(), sheet.len(), lent, length)
    };
    answer(written.number, written.place, written.length as usize)
}
