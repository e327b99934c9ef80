//! The numbers by which a call refuses, each with what it names.

use std::error::Error;
use std::fmt;

/// Why a call refused: the first line of document 01's list that holds. After a refusal no result
/// byte is touched.
///
/// ```
/// use pelzurivan::{run, Refusal};
///
/// let refusal = run(17, &[], 0).unwrap_err();
/// assert_eq!(refusal, Refusal::Inputs);
/// assert_eq!(refusal.number(), 1);
/// assert_eq!(refusal.to_string(), "1: n outside 1 to 16");
/// ```
#[derive(Clone, Copy, Debug, PartialEq, Eq)]
pub enum Refusal {
    /// 1
    Inputs,
    /// 2
    CellSize,
    /// 3
    TableLength,
    /// 4
    SpareBits,
    /// 5
    NoSuchSplit,
    /// 6
    Room,
    /// 7
    NothingToSplit,
    /// 8; of a named split: the least assignment b of shared with too many different columns, and
    /// how many it has; of any other call both are 0.
    Unsplit { b: u64, columns: u64 },
    /// 9
    SheetLength,
    /// 10: the first bad record.
    BadRecord { index: u64 },
    /// 11
    Assignment,
    /// 12: the least assignment at which the sheet and the table differ.
    Differs { assignment: u64 },
    /// 13
    Times,
    /// 14
    Sixteenths,
    /// 15: the first record that nobody reads.
    Unread { index: u64 },
    /// 16: the place in the text; 0 where a sheet has no formula.
    Formula { place: u64 },
    /// 17
    TooManyCells,
    /// 18
    Closed,
    /// 19
    Desk,
    /// 20
    CardLength,
    /// 21
    NoTurn,
}

impl Refusal {
    /// What an answer says: its number, the place that it names, and the columns of a named split.
    pub(crate) fn of(number: u64, place: u64, columns: u64) -> Option<Refusal> {
        Some(match number {
            0 => return None,
            1 => Refusal::Inputs,
            2 => Refusal::CellSize,
            3 => Refusal::TableLength,
            4 => Refusal::SpareBits,
            5 => Refusal::NoSuchSplit,
            6 => Refusal::Room,
            7 => Refusal::NothingToSplit,
            8 => Refusal::Unsplit { b: place, columns },
            9 => Refusal::SheetLength,
            10 => Refusal::BadRecord { index: place },
            11 => Refusal::Assignment,
            12 => Refusal::Differs { assignment: place },
            13 => Refusal::Times,
            14 => Refusal::Sixteenths,
            15 => Refusal::Unread { index: place },
            16 => Refusal::Formula { place },
            17 => Refusal::TooManyCells,
            18 => Refusal::Closed,
            19 => Refusal::Desk,
            20 => Refusal::CardLength,
            21 => Refusal::NoTurn,
            _ => unreachable!("the calls give no number above 21"),
        })
    }

    /// The number in document 01's list.
    pub fn number(&self) -> u8 {
        match self {
            Refusal::Inputs => 1,
            Refusal::CellSize => 2,
            Refusal::TableLength => 3,
            Refusal::SpareBits => 4,
            Refusal::NoSuchSplit => 5,
            Refusal::Room => 6,
            Refusal::NothingToSplit => 7,
            Refusal::Unsplit { .. } => 8,
            Refusal::SheetLength => 9,
            Refusal::BadRecord { .. } => 10,
            Refusal::Assignment => 11,
            Refusal::Differs { .. } => 12,
            Refusal::Times => 13,
            Refusal::Sixteenths => 14,
            Refusal::Unread { .. } => 15,
            Refusal::Formula { .. } => 16,
            Refusal::TooManyCells => 17,
            Refusal::Closed => 18,
            Refusal::Desk => 19,
            Refusal::CardLength => 20,
            Refusal::NoTurn => 21,
        }
    }

    /// The words of documents 01 and 02.
    pub fn words(&self) -> &'static str {
        match self {
            Refusal::Inputs => "n outside 1 to 16",
            Refusal::CellSize => {
                "K outside 2 to 6 (2 to 8 in the second edition), or no such edition"
            }
            Refusal::TableLength => "table, read or to be rebuilt, has a wrong length",
            Refusal::SpareBits => "n below 3 and a spare bit set",
            Refusal::NoSuchSplit => {
                "own or shared names a position from n up, they overlap, own has too few members, \
                 both together are above K, or the desk is above 4"
            }
            Refusal::Room => "room or work area too short",
            Refusal::NothingToSplit => "at most K inputs count, so nothing to split",
            Refusal::Unsplit { columns: 0, .. } => "a table with more than K inputs has no split",
            Refusal::Unsplit { .. } => "the split isn't possible",
            Refusal::SheetLength => "sheet empty, not whole records, or over 15 records",
            Refusal::BadRecord { .. } => "a record breaks the record rules",
            Refusal::Assignment => "assignment 2^n or more",
            Refusal::Differs { .. } => "the sheet doesn't give the table's bit everywhere",
            Refusal::Times => {
                "the delay or a time is not a number, out of range, crossed, or missing for an \
                 input that some cell reads"
            }
            Refusal::Sixteenths => {
                "the delay or a time isn't a whole number of sixteenths, or the deadline is out of \
                 range"
            }
            Refusal::Unread { .. } => "some record but the last is read by no later record",
            Refusal::Formula { .. } => "no formula",
            Refusal::TooManyCells => "the chain would take more than 15 records",
            Refusal::Closed => "the desk is closed",
            Refusal::Desk => "the desk is outside 1 to 4, or the sheet is another desk's",
            Refusal::CardLength => "the card isn't 1,024 bytes",
            Refusal::NoTurn => {
                "no swapped inputs, flipped inputs or flipped output turn the first into the second"
            }
        }
    }
}

impl fmt::Display for Refusal {
    fn fmt(&self, f: &mut fmt::Formatter<'_>) -> fmt::Result {
        write!(f, "{}: {}", self.number(), self.words())
    }
}

impl Error for Refusal {}

/// The value where an answer refuses nothing.
pub(crate) fn answer<T>(number: u64, place: u64, value: T) -> Result<T, Refusal> {
    match Refusal::of(number, place, 0) {
        None => Ok(value),
        Some(refusal) => Err(refusal),
    }
}

#[cfg(test)]
mod tests {
    use super::*;

    #[test]
    fn each_number_is_its_own() {
        for number in 1..=21 {
            let refusal = Refusal::of(number, 5, 3).unwrap();
            assert_eq!(u64::from(refusal.number()), number);
            assert!(refusal.to_string().starts_with(&format!("{number}: ")));
        }
        assert_eq!(Refusal::of(0, 0, 0), None);
    }
}
