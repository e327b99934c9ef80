//! What goes beyond one chain of best splits: several first cells where one isn't enough, and how
//! few cells could do.

use crate::raw_told;
use crate::refusal::{answer, Refusal};

/// Makes a sheet as [`make_for_desk`](crate::make_for_desk) does, and where that refuses as 8 by the
/// chain that takes the best split with up to three first cells at each step. After an answer and
/// after 8 and 17 the work area is zeros. It may refuse as 1 to 6, 8 and 17.
///
/// ```
/// use pelzurivan::{check, make, make_any, RECORD, SHEET, WORK};
///
/// // At least two of four permits.
/// let table = [0xE8, 0xFE];
/// let (mut sheet, mut work) = ([0; SHEET], [0; WORK]);
/// assert_eq!(make(4, 3, &table, &mut sheet, &mut work).unwrap_err().number(), 8);
/// let count = make_any(4, 3, 0, &table, &mut sheet, &mut work)?;
/// assert_eq!(count, 3);
/// check(4, &table, &sheet[..count * RECORD])?;
/// # Ok::<(), pelzurivan::Refusal>(())
/// ```
pub fn make_any(
    n: u64,
    k: u64,
    desk: u64,
    table: &[u8],
    sheet: &mut [u8],
    work: &mut [u8],
) -> Result<usize, Refusal> {
    let made = unsafe {
        let (to, room) = (sheet.as_mut_ptr(), sheet.len());
        let (lent, length) = (work.as_mut_ptr(), work.len());
        let (from, size) = (table.as_ptr(), table.len());
        raw_told::pelzurivan_make_any(n, k, desk, from, size, to, room, lent, length)
    };
    answer(made.number, 0, made.count as usize)
}

/// A number of cells that no network of cells of k inputs can do without, wired in any way at all.
/// It may refuse as 1 to 4 and 6.
///
/// ```
/// use pelzurivan::{bound, WORK};
///
/// // The AND of three inputs takes two cells of two inputs, the majority of three at least three.
/// assert_eq!(bound(1, 3, 2, &[0x80], &mut [0; WORK])?, 2);
/// assert_eq!(bound(1, 3, 2, &[0xE8], &mut [0; WORK])?, 3);
/// # Ok::<(), pelzurivan::Refusal>(())
/// ```
pub fn bound(
    edition: u64,
    n: u64,
    k: u64,
    table: &[u8],
    work: &mut [u8],
) -> Result<usize, Refusal> {
    let bounded = unsafe {
        let (lent, length) = (work.as_mut_ptr(), work.len());
        raw_told::pelzurivan_bound(edition, n, k, table.as_ptr(), table.len(), lent, length)
    };
    answer(bounded.number, 0, bounded.least as usize)
}
