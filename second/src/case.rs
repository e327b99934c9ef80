//! A call as the batch protocol knows it: the fields of its cases and answers,
//! the numbers it may give, and how the second program answers.

use crate::fresh::Fresh;
use crate::random::Random;
use crate::refusals::DONE;

// The longest table (or room for one, or for H), work area, sheet (or room for
// one), text and card that a case may name.
pub const TABLE_BUFFER: usize = 16_400;
pub const WORK_BUFFER: usize = 20_000;
pub const SHEET_BUFFER: usize = 1_000;
pub const TEXT_BUFFER: usize = 2_000;
pub const CARD_BUFFER: usize = 1_100;

/// Every lent byte holds this before a call, unless a batch says otherwise, so
/// that one sees what was touched.
pub const PRESET: u8 = 0xAA;

/// A field of a case, with its name.
pub enum Field {
    /// A number of so many bytes.
    Number(&'static str, usize),
    /// A length and so many bytes to be read, at most as many as the buffer holds.
    Bytes(&'static str, usize),
    /// So many bytes to be read, with no length before them, and how to say them in words.
    Fixed(&'static str, usize, fn(&[u8]) -> String),
    /// The length of a lent area, at most as long as the buffer.
    Lent(&'static str, usize),
    /// A lent area that is as handed over: a length and so many bytes.
    Handed(&'static str, usize),
}

/// A field of an answer. Lent areas are numbered as they stand in the case.
pub enum Part {
    /// A number of so many bytes, with its name.
    Number(&'static str, usize),
    /// A lent area afterwards, whole.
    Lent(usize),
    /// W: what became of a lent work area.
    Mark(usize),
}

pub struct Call {
    pub code: u8,
    pub name: &'static str,
    pub asks: &'static [Field],
    pub answers: &'static [Part],
    /// The numbers that the call may give.
    pub gives: &'static [u8],
    /// The numbers of the answer, in their order; the lent areas, preset
    /// beforehand, are left as the call leaves them.
    pub answer: fn(&Case, &mut [Vec<u8>]) -> Vec<u64>,
    /// A fresh case, sound or spoiled.
    pub fresh: fn(&mut Random) -> Fresh,
}

impl Call {
    /// The number in an answer; one that has none is no refusal.
    pub fn number_in(&self, answer: &[u8]) -> u8 {
        answer.get(self.number_at()).copied().unwrap_or(DONE)
    }

    /// Where in the answer the call's number stands, behind its end if it has none.
    pub fn number_at(&self) -> usize {
        let widths = self.answers.iter().map_while(|part| match part {
            Part::Number(name, width) if *name != "number" => Some(*width),
            _ => None,
        });
        widths.sum()
    }
}

/// One question: the values of its call's fields, each kind in its order.
#[derive(Clone)]
pub struct Case {
    pub call: &'static Call,
    pub numbers: Vec<u64>,
    pub bytes: Vec<Vec<u8>>,
    pub lent: Vec<usize>,
}

impl Case {
    /// The case's numbers; there are as many as the call asks for.
    pub fn numbers<const N: usize>(&self) -> [u64; N] {
        self.numbers[..].try_into().expect("as many numbers as the call asks for")
    }

    /// The lent areas before the call: preset, or as handed over.
    pub fn preset(&self, preset: u8) -> Vec<Vec<u8>> {
        let (mut bytes, mut lent) = (self.bytes.iter(), self.lent.iter());
        let mut areas = Vec::new();
        for field in self.call.asks {
            match field {
                Field::Number(..) => {}
                Field::Bytes(..) | Field::Fixed(..) => {
                    bytes.next();
                }
                Field::Handed(..) => areas.extend(bytes.next().cloned()),
                Field::Lent(..) => areas.extend(lent.next().map(|&length| vec![preset; length])),
            }
        }
        areas
    }
}

/// One answer: its numbers, and the lent areas afterwards.
pub struct Answer {
    pub numbers: Vec<u64>,
    pub lent: Vec<Vec<u8>>,
}

/// The second program's own answer.
pub fn answer(case: &Case, preset: u8) -> Answer {
    let mut lent = case.preset(preset);
    let numbers = (case.call.answer)(case, &mut lent);
    Answer { numbers, lent }
}
