//! The calls that are told the edition of the sheet: 1, or 2 with cells of up to eight inputs and
//! records of 48 bytes. Any other edition is refused as 2.

use crate::raw_told as raw;
use crate::refusal::{answer, Refusal};
use crate::Split;

/// [`try_split`](crate::try_split), told the edition: D comes back as 256 bits, least word first.
///
/// ```
/// use pelzurivan::{try_told, Split};
///
/// let mut room = [0; 1];
/// let d = try_told(2, 3, 3, Split { own: 3, shared: 4 }, &[0xCA], &mut room)?;
/// assert_eq!((d, room), ([0xCA, 0, 0, 0], [0x0C]));
/// # Ok::<(), pelzurivan::Refusal>(())
/// ```
pub fn try_told(
    edition: u64,
    n: u64,
    k: u64,
    split: Split,
    table: &[u8],
    room: &mut [u8],
) -> Result<[u64; 4], Refusal> {
    let Split { own, shared } = split;
    let tried = unsafe {
        let (lent, length) = (room.as_mut_ptr(), room.len());
        let (from, size) = (table.as_ptr(), table.len());
        raw::pelzurivan_try_told(edition, n, k, own, shared, from, size, lent, length)
    };
    match Refusal::of(tried.number, tried.b, tried.columns) {
        None => Ok(tried.d),
        Some(refusal) => Err(refusal),
    }
}

/// [`find`](crate::find), told the edition.
///
/// ```
/// use pelzurivan::{find_told, read_formula, Split, WORK};
///
/// let mut table = [0; 64];
/// read_formula(9, b"a&b&c&d&e&f&g&h&i", &mut table)?;
/// let found = find_told(2, 9, 8, &table, &mut [0; WORK])?;
/// assert_eq!(found, Split { own: 0xFF, shared: 0 });
/// # Ok::<(), pelzurivan::Refusal>(())
/// ```
pub fn find_told(
    edition: u64,
    n: u64,
    k: u64,
    table: &[u8],
    work: &mut [u8],
) -> Result<Split, Refusal> {
    let sought = unsafe {
        let (lent, length) = (work.as_mut_ptr(), work.len());
        raw::pelzurivan_find_told(edition, n, k, table.as_ptr(), table.len(), lent, length)
    };
    answer(sought.number, 0, Split { own: sought.own, shared: sought.shared })
}

/// [`make_for_desk`](crate::make_for_desk), told the edition; the second asks for room of
/// [`SECOND_SHEET`](crate::SECOND_SHEET) bytes.
///
/// ```
/// use pelzurivan::{make_told, read_formula, SECOND_SHEET, WORK};
///
/// let mut table = [0; 64];
/// read_formula(9, b"a&b&c&d&e&f&g&h&i", &mut table)?;
/// let (mut sheet, mut work) = ([0; SECOND_SHEET], [0; WORK]);
/// assert_eq!(make_told(2, 9, 8, 0, &table, &mut sheet, &mut work)?, 2);
/// # Ok::<(), pelzurivan::Refusal>(())
/// ```
pub fn make_told(
    edition: u64,
    n: u64,
    k: u64,
    desk: u64,
    table: &[u8],
    sheet: &mut [u8],
    work: &mut [u8],
) -> Result<usize, Refusal> {
    let made = unsafe {
        let (to, room) = (sheet.as_mut_ptr(), sheet.len());
        let (lent, length) = (work.as_mut_ptr(), work.len());
        let (from, size) = (table.as_ptr(), table.len());
        raw::pelzurivan_make_told(edition, n, k, desk, from, size, to, room, lent, length)
    };
    answer(made.number, 0, made.count as usize)
}

/// [`run`](crate::run), told the edition.
///
/// ```
/// use pelzurivan::{run_told, Refusal};
///
/// let sheet = [2, 0, 1, 255, 255, 255, 255, 0, 8, 0, 0, 0, 0, 0, 0, 0];
/// assert_eq!(run_told(1, 2, &sheet, 3), Ok(true));
/// assert_eq!(run_told(2, 2, &sheet, 3), Err(Refusal::SheetLength));
/// assert_eq!(run_told(3, 2, &sheet, 3), Err(Refusal::CellSize));
/// ```
pub fn run_told(edition: u64, n: u64, sheet: &[u8], x: u64) -> Result<bool, Refusal> {
    let ran = unsafe { raw::pelzurivan_run_told(edition, n, sheet.as_ptr(), sheet.len(), x) };
    answer(ran.number, ran.index, ran.bit == 1)
}

/// [`rebuild`](crate::rebuild), told the edition.
///
/// ```
/// use pelzurivan::{rebuild_told, SECOND_RECORD};
///
/// let mut sheet = [0; SECOND_RECORD];
/// sheet[..9].copy_from_slice(&[2, 0, 1, 255, 255, 255, 255, 255, 255]);
/// sheet[16] = 8;
/// let mut table = [0; 1];
/// rebuild_told(2, 3, &sheet, &mut table)?;
/// assert_eq!(table, [0x88]);
/// # Ok::<(), pelzurivan::Refusal>(())
/// ```
pub fn rebuild_told(edition: u64, n: u64, sheet: &[u8], table: &mut [u8]) -> Result<(), Refusal> {
    let rebuilt = unsafe {
        let (lent, length) = (table.as_mut_ptr(), table.len());
        raw::pelzurivan_rebuild_told(edition, n, sheet.as_ptr(), sheet.len(), lent, length)
    };
    answer(rebuilt.number, rebuilt.place, ())
}

/// [`check`](crate::check), told the edition.
///
/// ```
/// use pelzurivan::{check_told, Refusal, SECOND_RECORD};
///
/// let mut sheet = [0; SECOND_RECORD];
/// sheet[..9].copy_from_slice(&[2, 0, 1, 255, 255, 255, 255, 255, 255]);
/// sheet[16] = 8;
/// assert_eq!(check_told(2, 3, &[0x88], &sheet), Ok(()));
/// assert_eq!(check_told(2, 3, &[0x80], &sheet), Err(Refusal::Differs { assignment: 3 }));
/// ```
pub fn check_told(edition: u64, n: u64, table: &[u8], sheet: &[u8]) -> Result<(), Refusal> {
    let checked = unsafe {
        let (from, size) = (table.as_ptr(), table.len());
        raw::pelzurivan_check_told(edition, n, from, size, sheet.as_ptr(), sheet.len())
    };
    answer(checked.number, checked.place, ())
}

/// Rewrites a first-edition sheet in the second, into at least [`SECOND_SHEET`](crate::SECOND_SHEET)
/// bytes: how many records. It may refuse as 1, 6, 9, 10 and 15.
///
/// ```
/// use pelzurivan::{rewrite, SECOND_SHEET};
///
/// let sheet = [2, 0, 1, 255, 255, 255, 255, 0, 8, 0, 0, 0, 0, 0, 0, 0];
/// let mut room = [0; SECOND_SHEET];
/// assert_eq!(rewrite(2, &sheet, &mut room)?, 1);
/// assert_eq!((room[..9].to_vec(), room[16]), (vec![2, 0, 1, 255, 255, 255, 255, 255, 255], 8));
/// # Ok::<(), pelzurivan::Refusal>(())
/// ```
pub fn rewrite(n: u64, sheet: &[u8], room: &mut [u8]) -> Result<usize, Refusal> {
    let rewritten = unsafe {
        let (lent, length) = (room.as_mut_ptr(), room.len());
        raw::pelzurivan_rewrite(n, sheet.as_ptr(), sheet.len(), lent, length)
    };
    answer(rewritten.number, rewritten.index, rewritten.count as usize)
}
