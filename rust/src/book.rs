//! The book of three-input cells.

use crate::raw;
use crate::refusal::{answer, Refusal};

/// How one table is turned into another: the second at x is the first at y, flipped if `flip` says
/// so, where bit j of y is bit `order[j]` of x, flipped if bit j of `mask` is set.
#[derive(Clone, Copy, Debug, PartialEq, Eq)]
pub struct Turn {
    pub flip: bool,
    pub mask: u8,
    pub order: [u8; 3],
}

/// Turns one three-input table into another: the first way by output flip, then the mask of input
/// flips, then the order read as one number. It may refuse as 21.
///
/// ```
/// use pelzurivan::{turn, Refusal, Turn};
///
/// // The AND of three and the NOR of three differ by three flipped inputs.
/// assert_eq!(turn(0x80, 0x01), Ok(Turn { flip: false, mask: 7, order: [0, 1, 2] }));
/// assert_eq!(turn(0x80, 0x96), Err(Refusal::NoTurn));
/// ```
pub fn turn(first: u8, second: u8) -> Result<Turn, Refusal> {
    let turned = unsafe { raw::pelzurivan_turn(first, second) };
    let order = [turned.p0 as u8, turned.p1 as u8, turned.p2 as u8];
    answer(turned.number, 0, Turn { flip: turned.flip == 1, mask: turned.mask as u8, order })
}

/// Looks a three-input table up in the book: the least table that it can be turned into.
///
/// ```
/// use pelzurivan::look_up;
///
/// assert_eq!([0x80, 0x96, 0xE8].map(look_up), [0x01, 0x69, 0x17]);
/// ```
pub fn look_up(table: u8) -> u8 {
    unsafe { raw::pelzurivan_look_up(table) }
}
