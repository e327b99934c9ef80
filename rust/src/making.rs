//! Sheets made out of tables, with one first cell at each step.

use crate::raw;
use crate::refusal::{answer, Refusal};

/// Makes a sheet for bench use: so many records in the first bytes of the sheet, the bytes after
/// them stay. After an answer and after 8 the work area is zeros. It may refuse as 1 to 4, 6 and 8.
///
/// ```
/// use pelzurivan::{make, Refusal, RECORD, SHEET, WORK};
///
/// // The AND of three inputs in cells of two (document 01, example 2).
/// let (mut sheet, mut work) = ([0; SHEET], [0; WORK]);
/// assert_eq!(make(3, 2, &[0x80], &mut sheet, &mut work)?, 2);
/// assert_eq!(sheet[..9], [2, 0, 1, 255, 255, 255, 255, 0, 8]);
/// assert_eq!(sheet[RECORD..][..9], [2, 2, 3, 255, 255, 255, 255, 0, 8]);
///
/// // The majority of three (example 4).
/// let refusal = make(3, 2, &[0xE8], &mut sheet, &mut work).unwrap_err();
/// assert_eq!(refusal.number(), 8);
/// # Ok::<(), Refusal>(())
/// ```
pub fn make(
    n: u64,
    k: u64,
    table: &[u8],
    sheet: &mut [u8],
    work: &mut [u8],
) -> Result<usize, Refusal> {
    let made = unsafe {
        let (to, room) = (sheet.as_mut_ptr(), sheet.len());
        let (lent, length) = (work.as_mut_ptr(), work.len());
        raw::pelzurivan_make(n, k, table.as_ptr(), table.len(), to, room, lent, length)
    };
    answer(made.number, 0, made.count as usize)
}

/// [`make`] for a desk, 1 to 4, or for bench use, 0: byte 7 of each record. It may refuse as 1 to 6
/// and 8.
///
/// ```
/// use pelzurivan::{make_for_desk, Refusal, SHEET, WORK};
///
/// let (mut sheet, mut work) = ([0; SHEET], [0; WORK]);
/// assert_eq!(make_for_desk(3, 2, 4, &[0x80], &mut sheet, &mut work)?, 2);
/// assert_eq!(sheet[..9], [2, 0, 1, 255, 255, 255, 255, 4, 8]);
///
/// let refusal = make_for_desk(3, 2, 5, &[0x80], &mut sheet, &mut work).unwrap_err();
/// assert_eq!(refusal, Refusal::NoSuchSplit);
/// # Ok::<(), Refusal>(())
/// ```
pub fn make_for_desk(
    n: u64,
    k: u64,
    desk: u64,
    table: &[u8],
    sheet: &mut [u8],
    work: &mut [u8],
) -> Result<usize, Refusal> {
    let made = unsafe {
        let (to, room) = (sheet.as_mut_ptr(), sheet.len());
        let (lent, length) = (work.as_mut_ptr(), work.len());
        let (from, size) = (table.as_ptr(), table.len());
        raw::pelzurivan_make_for_desk(n, k, desk, from, size, to, room, lent, length)
    };
    answer(made.number, 0, made.count as usize)
}
