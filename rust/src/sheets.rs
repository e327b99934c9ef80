//! Anyone's sheet: run, rebuilt, checked, and the shorter of two.

use crate::raw;
use crate::refusal::{answer, Refusal};

/// Runs a sheet at the assignment x. It may refuse as 1, 9, 10, 11 and 15.
///
/// ```
/// use pelzurivan::{run, Refusal};
///
/// // One cell: the AND of inputs 0 and 1.
/// let sheet = [2, 0, 1, 255, 255, 255, 255, 0, 8, 0, 0, 0, 0, 0, 0, 0];
/// assert_eq!(run(2, &sheet, 3), Ok(true));
/// assert_eq!(run(2, &sheet, 1), Ok(false));
/// assert_eq!(run(2, &sheet, 4), Err(Refusal::Assignment));
/// assert_eq!(run(1, &sheet, 0), Err(Refusal::BadRecord { index: 0 }));
/// ```
pub fn run(n: u64, sheet: &[u8], x: u64) -> Result<bool, Refusal> {
    let ran = unsafe { raw::pelzurivan_run(n, sheet.as_ptr(), sheet.len(), x) };
    answer(ran.number, ran.index, ran.bit == 1)
}

/// Rebuilds a gate's table from a sheet, written whole, spare bits zero. It may refuse as 1, 3, 9, 10
/// and 15.
///
/// ```
/// let sheet = [2, 0, 1, 255, 255, 255, 255, 0, 8, 0, 0, 0, 0, 0, 0, 0];
/// let mut table = [0; 1];
/// pelzurivan::rebuild(3, &sheet, &mut table)?;
/// assert_eq!(table, [0x88]);
/// # Ok::<(), pelzurivan::Refusal>(())
/// ```
pub fn rebuild(n: u64, sheet: &[u8], table: &mut [u8]) -> Result<(), Refusal> {
    let rebuilt = unsafe {
        let (lent, length) = (table.as_mut_ptr(), table.len());
        raw::pelzurivan_rebuild(n, sheet.as_ptr(), sheet.len(), lent, length)
    };
    answer(rebuilt.number, rebuilt.place, ())
}

/// Checks anyone's sheet against a gate's table. It may refuse as 1, 3, 4, 9, 10, 12 and 15.
///
/// ```
/// use pelzurivan::{check, Refusal};
///
/// let sheet = [2, 0, 1, 255, 255, 255, 255, 0, 8, 0, 0, 0, 0, 0, 0, 0];
/// assert_eq!(check(2, &[0x8], &sheet), Ok(()));
/// assert_eq!(check(2, &[0xC], &sheet), Err(Refusal::Differs { assignment: 2 }));
/// ```
pub fn check(n: u64, table: &[u8], sheet: &[u8]) -> Result<(), Refusal> {
    let checked = unsafe {
        raw::pelzurivan_check(n, table.as_ptr(), table.len(), sheet.as_ptr(), sheet.len())
    };
    answer(checked.number, checked.place, ())
}

/// Which of two sheets is kept, as it lies in the caller's memory.
#[derive(Clone, Copy, Debug, PartialEq, Eq)]
pub enum Kept<'a> {
    First(&'a [u8]),
    Second(&'a [u8]),
}

/// The shorter of two sheets for one table: of those that [`check`] accepts the one with fewer
/// records, the first on a tie. If neither is accepted it refuses as [`check`] refuses the first.
///
/// ```
/// use pelzurivan::{shorter, Kept, Refusal};
///
/// let one = [3, 0, 1, 2, 255, 255, 255, 0, 0x80, 0, 0, 0, 0, 0, 0, 0];
/// let two = [
///     2, 0, 1, 255, 255, 255, 255, 0, 8, 0, 0, 0, 0, 0, 0, 0, //
///     2, 2, 3, 255, 255, 255, 255, 0, 8, 0, 0, 0, 0, 0, 0, 0,
/// ];
/// assert_eq!(shorter(3, &[0x80], &two, &one), Ok(Kept::Second(&one[..])));
/// assert_eq!(shorter(3, &[0x80], &two, &[]), Ok(Kept::First(&two[..])));
/// assert_eq!(shorter(3, &[0x80], &[], &[]), Err(Refusal::SheetLength));
/// ```
pub fn shorter<'a>(
    n: u64,
    table: &[u8],
    first: &'a [u8],
    second: &'a [u8],
) -> Result<Kept<'a>, Refusal> {
    let kept = unsafe {
        let (one, one_length) = (first.as_ptr(), first.len());
        let (two, two_length) = (second.as_ptr(), second.len());
        raw::pelzurivan_shorter(n, table.as_ptr(), table.len(), one, one_length, two, two_length)
    };
    let length = kept.length as usize;
    match kept.which {
        1 => Ok(Kept::First(&first[..length])),
        2 => Ok(Kept::Second(&second[..length])),
        _ => answer(kept.number, refused_at(n, table, first), Kept::First(&first[..0])),
    }
}

/// What the refusal of the first sheet names; the call itself gives its number alone.
fn refused_at(n: u64, table: &[u8], first: &[u8]) -> u64 {
    let (from, size) = (table.as_ptr(), table.len());
    unsafe { raw::pelzurivan_check(n, from, size, first.as_ptr(), first.len()) }.place
}
