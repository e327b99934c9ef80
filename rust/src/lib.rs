//! Pelzurivan for Rust: every call of the proved library, safe.
//!
//! A gate has n inputs, 1 to 16. Its table has bit x mod 8 of byte x div 8 for each assignment x: 1
//! byte up to n = 3, else 2^(n-3) bytes. A cell has at most k inputs, 2 to 6 (2 to 8 in the second
//! edition). A sheet is records of [`RECORD`] bytes, the last of which is the output.
//!
//! Any call may be made with any numbers and any bytes: it ends with an answer or with one
//! [`Refusal`]. What a call writes, it writes into bytes that are lent to it, as in C; nothing here
//! takes memory of its own.
//!
//! The AND of three inputs, in cells of two:
//!
//! ```
//! use pelzurivan::{check, make_any, RECORD, SHEET, WORK};
//!
//! let table = [0x80];
//! let (mut sheet, mut work) = ([0; SHEET], [0; WORK]);
//! let count = make_any(3, 2, 0, &table, &mut sheet, &mut work)?;
//! assert_eq!(count, 2);
//! check(3, &table, &sheet[..count * RECORD])?;
//! # Ok::<(), pelzurivan::Refusal>(())
//! ```

mod beyond;
mod book;
mod cards;
mod formulas;
mod making;
mod raw;
mod raw_told;
mod refusal;
mod sheets;
mod splits;
mod timing;
mod told;

pub use beyond::{bound, make_any};
pub use book::{look_up, turn, Turn};
pub use cards::{load, load_cut, load_store, run_desk};
pub use formulas::{read_formula, write_formula};
pub use making::{make, make_for_desk};
pub use refusal::Refusal;
pub use sheets::{check, rebuild, run, shorter, Kept};
pub use splits::{find, find_several, try_several, try_split, Several, Split};
pub use timing::{settle, slack, InputTime, Settled};
pub use told::{check_told, find_told, make_told, rebuild_told, rewrite, run_told, try_told};

/// The most inputs of a gate.
pub const INPUTS: usize = 16;
/// The most records of a sheet.
pub const RECORDS: usize = 15;
/// The bytes of a record.
pub const RECORD: usize = 16;
/// The bytes of a record of the second edition.
pub const SECOND_RECORD: usize = 48;
/// The bytes of room for a sheet.
pub const SHEET: usize = RECORDS * RECORD;
/// The bytes of room for a sheet of the second edition.
pub const SECOND_SHEET: usize = RECORDS * SECOND_RECORD;
/// The bytes of a work area.
pub const WORK: usize = 16_384;
/// The most bytes of a formula.
pub const TEXT: usize = 1_024;
/// The bytes of a card: four desks, each of fifteen record places and a status record.
pub const CARD: usize = 4 * (RECORDS + 1) * RECORD;

/// How many bytes the table of n inputs has.
///
/// ```
/// assert_eq!(pelzurivan::table_length(2), 1);
/// assert_eq!(pelzurivan::table_length(16), 8_192);
/// ```
pub fn table_length(n: usize) -> usize {
    1 << n.min(INPUTS).saturating_sub(3)
}
