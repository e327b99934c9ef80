//! Cards of four desks.

use crate::raw;
use crate::refusal::{answer, Refusal};

/// Loads a sheet onto a desk, 1 to 4, of a card, in 257 stores of a byte. It may refuse as 20, 19, 1,
/// 9, 10 and 15, in this order.
///
/// ```
/// use pelzurivan::{load, run_desk, Refusal, CARD};
///
/// let sheet = [2, 0, 1, 255, 255, 255, 255, 3, 8, 0, 0, 0, 0, 0, 0, 0];
/// let mut card = [0; CARD];
/// load(&mut card, 3, 2, &sheet)?;
/// assert_eq!(run_desk(&card, 3, 3), Ok(true));
/// assert_eq!(load(&mut card, 4, 2, &sheet), Err(Refusal::Desk));
/// # Ok::<(), Refusal>(())
/// ```
pub fn load(card: &mut [u8], desk: u64, n: u64, sheet: &[u8]) -> Result<(), Refusal> {
    let loaded = unsafe {
        let (lent, length) = (card.as_mut_ptr(), card.len());
        raw::pelzurivan_load(lent, length, desk, n, sheet.as_ptr(), sheet.len())
    };
    answer(loaded.number, loaded.place, ())
}

/// A load that is cut after at most so many stores; it answers as the load does, wherever it is cut.
///
/// ```
/// use pelzurivan::{load_cut, run_desk, Refusal, CARD};
///
/// let sheet = [2, 0, 1, 255, 255, 255, 255, 3, 8, 0, 0, 0, 0, 0, 0, 0];
/// let mut card = [0; CARD];
/// load_cut(&mut card, 3, 2, &sheet, 256)?;
/// assert_eq!(run_desk(&card, 3, 3), Err(Refusal::Closed));
/// load_cut(&mut card, 3, 2, &sheet, 257)?;
/// assert_eq!(run_desk(&card, 3, 3), Ok(true));
/// # Ok::<(), Refusal>(())
/// ```
pub fn load_cut(
    card: &mut [u8],
    desk: u64,
    n: u64,
    sheet: &[u8],
    stores: u64,
) -> Result<(), Refusal> {
    let loaded = unsafe {
        let (lent, length) = (card.as_mut_ptr(), card.len());
        raw::pelzurivan_load_cut(lent, length, desk, n, sheet.as_ptr(), sheet.len(), stores)
    };
    answer(loaded.number, loaded.place, ())
}

/// One store of a load, 0 to 256 (more is none), and no other; it answers as the load does.
///
/// ```
/// use pelzurivan::{load, load_store, CARD};
///
/// let sheet = [2, 0, 1, 255, 255, 255, 255, 3, 8, 0, 0, 0, 0, 0, 0, 0];
/// let (mut whole, mut bit_by_bit) = ([0; CARD], [0; CARD]);
/// load(&mut whole, 3, 2, &sheet)?;
/// for store in 0..257 {
///     load_store(&mut bit_by_bit, 3, 2, &sheet, store)?;
/// }
/// assert_eq!(whole, bit_by_bit);
/// # Ok::<(), pelzurivan::Refusal>(())
/// ```
pub fn load_store(
    card: &mut [u8],
    desk: u64,
    n: u64,
    sheet: &[u8],
    store: u64,
) -> Result<(), Refusal> {
    let loaded = unsafe {
        let (lent, length) = (card.as_mut_ptr(), card.len());
        raw::pelzurivan_load_store(lent, length, desk, n, sheet.as_ptr(), sheet.len(), store)
    };
    answer(loaded.number, loaded.place, ())
}

/// Runs a desk at the assignment x. It may refuse as 20, 19, 18, 1, 9, 10, 15 and 11, in this order.
///
/// ```
/// use pelzurivan::{run_desk, Refusal, CARD};
///
/// assert_eq!(run_desk(&[0; CARD], 1, 0), Err(Refusal::Closed));
/// assert_eq!(run_desk(&[0; CARD], 5, 0), Err(Refusal::Desk));
/// assert_eq!(run_desk(&[0; 256], 1, 0), Err(Refusal::CardLength));
/// ```
pub fn run_desk(card: &[u8], desk: u64, x: u64) -> Result<bool, Refusal> {
    let ran = unsafe { raw::pelzurivan_run_desk(card.as_ptr(), card.len(), desk, x) };
    answer(ran.number, ran.index, ran.bit == 1)
}
