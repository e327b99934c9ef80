//! Splits, named or found: F = H(D(own, shared), shared, free).

use crate::raw;
use crate::refusal::{answer, Refusal};

/// The masks of a split: bit j stands for position j.
#[derive(Clone, Copy, Debug, PartialEq, Eq)]
pub struct Split {
    pub own: u64,
    pub shared: u64,
}

/// A split with several first cells.
#[derive(Clone, Copy, Debug, PartialEq, Eq)]
pub struct Several {
    /// How many first cells, 1 to 3.
    pub r: u64,
    pub split: Split,
}

/// Tries a named split: D comes back, H goes into the first bytes of the room. It may refuse as 1 to
/// 6 and 8.
///
/// ```
/// use pelzurivan::{try_split, Refusal, Split};
///
/// // Input 2 picks 1 or 0 (document 01, example 5).
/// let mut room = [0; 1];
/// let d = try_split(3, 3, Split { own: 3, shared: 4 }, &[0xCA], &mut room)?;
/// assert_eq!((d, room), (0xCA, [0x0C]));
///
/// let refusal = try_split(3, 3, Split { own: 3, shared: 0 }, &[0xCA], &mut room).unwrap_err();
/// assert_eq!(refusal, Refusal::Unsplit { b: 0, columns: 4 });
/// # Ok::<(), Refusal>(())
/// ```
pub fn try_split(
    n: u64,
    k: u64,
    split: Split,
    table: &[u8],
    room: &mut [u8],
) -> Result<u64, Refusal> {
    let Split { own, shared } = split;
    // Here and in every call below: each pointer is valid for its length and not null, and the areas
    // lent for writing are borrows of their own, so that they overlap no other.
    let tried = unsafe {
        let (lent, length) = (room.as_mut_ptr(), room.len());
        raw::pelzurivan_try(n, k, own, shared, table.as_ptr(), table.len(), lent, length)
    };
    match Refusal::of(tried.number, tried.b, tried.columns) {
        None => Ok(tried.d),
        Some(refusal) => Err(refusal),
    }
}

/// Tries a named split with r first cells, 1 to 3: their tables come back (0 from r up), H goes into
/// the first bytes of the room. It may refuse as 1 to 6 and 8.
///
/// ```
/// use pelzurivan::{try_several, Several, Split};
///
/// // At least two of four: the inputs 0, 1 and 2 as a number of two bits, then the fourth.
/// let several = Several { r: 2, split: Split { own: 7, shared: 0 } };
/// let mut room = [0; 1];
/// let tables = try_several(4, 3, several, &[0xE8, 0xFE], &mut room)?;
/// assert_eq!(tables, [0x16, 0xE8, 0]);
/// # Ok::<(), pelzurivan::Refusal>(())
/// ```
pub fn try_several(
    n: u64,
    k: u64,
    several: Several,
    table: &[u8],
    room: &mut [u8],
) -> Result<[u64; 3], Refusal> {
    let Several { r, split: Split { own, shared } } = several;
    let tried = unsafe {
        let (lent, length) = (room.as_mut_ptr(), room.len());
        raw::pelzurivan_try_several(n, k, r, own, shared, table.as_ptr(), table.len(), lent, length)
    };
    match Refusal::of(tried.number, tried.b, tried.columns) {
        None => Ok([tried.first, tried.second, tried.third]),
        Some(refusal) => Err(refusal),
    }
}

/// Finds the best split of the inputs that count, in the gate's own positions. After an answer and
/// after 8 the work area is zeros. It may refuse as 1 to 4, 6, 7 and 8.
///
/// ```
/// use pelzurivan::{find, Split, WORK};
///
/// // The four-way selector (document 01, example 7).
/// let table = [0xAA, 0xAA, 0xF0, 0xF0, 0xCC, 0xCC, 0x00, 0xFF];
/// assert_eq!(find(6, 4, &table, &mut [0; WORK])?, Split { own: 21, shared: 32 });
/// # Ok::<(), pelzurivan::Refusal>(())
/// ```
pub fn find(n: u64, k: u64, table: &[u8], work: &mut [u8]) -> Result<Split, Refusal> {
    let sought = unsafe {
        let (lent, length) = (work.as_mut_ptr(), work.len());
        raw::pelzurivan_find(n, k, table.as_ptr(), table.len(), lent, length)
    };
    answer(sought.number, 0, Split { own: sought.own, shared: sought.shared })
}

/// Finds the best split of the inputs that count with 1, 2 or 3 first cells: the largest own less r,
/// then the least r, then as in [`find`]. It may refuse as 1 to 4, 6, 7 and 8.
///
/// ```
/// use pelzurivan::{find_several, Several, Split, WORK};
///
/// // At least two of four: no split has one first cell.
/// let found = find_several(4, 3, &[0xE8, 0xFE], &mut [0; WORK])?;
/// assert_eq!(found, Several { r: 2, split: Split { own: 7, shared: 0 } });
/// # Ok::<(), pelzurivan::Refusal>(())
/// ```
pub fn find_several(n: u64, k: u64, table: &[u8], work: &mut [u8]) -> Result<Several, Refusal> {
    let sought = unsafe {
        let (lent, length) = (work.as_mut_ptr(), work.len());
        raw::pelzurivan_find_several(n, k, table.as_ptr(), table.len(), lent, length)
    };
    let split = Split { own: sought.own, shared: sought.shared };
    answer(sought.number, 0, Several { r: sought.r, split })
}
