//! The batch protocol: a run of cases in, their answers out, numbers least byte first.

use crate::calls::call_of;
use crate::case::{answer, Answer, Call, Case, Field, Part};

/// Takes bytes off the front; nothing once too few are left.
struct Reader<'a> {
    left: &'a [u8],
}

impl<'a> Reader<'a> {
    fn bytes(&mut self, length: usize) -> Option<&'a [u8]> {
        if length > self.left.len() {
            return None;
        }
        let (front, rest) = self.left.split_at(length);
        self.left = rest;
        Some(front)
    }

    fn number(&mut self, width: usize) -> Option<u64> {
        Some(number_of(self.bytes(width)?))
    }

    /// A length field that must fit its buffer.
    fn length(&mut self, buffer: usize) -> Option<usize> {
        let length = self.number(2)? as usize;
        (length <= buffer).then_some(length)
    }

    /// The next case; nothing if it is cut short, too long, or no known call.
    fn case(&mut self) -> Option<Case> {
        let call = call_of(self.number(1)? as u8)?;
        let mut case = Case { call, numbers: Vec::new(), bytes: Vec::new(), lent: Vec::new() };
        for field in call.asks {
            match field {
                Field::Number(_, width) => case.numbers.push(self.number(*width)?),
                Field::Lent(_, buffer) => case.lent.push(self.length(*buffer)?),
                Field::Bytes(_, buffer) | Field::Handed(_, buffer) => {
                    let length = self.length(*buffer)?;
                    case.bytes.push(self.bytes(length)?.to_vec());
                }
                Field::Fixed(_, length, _) => case.bytes.push(self.bytes(*length)?.to_vec()),
            }
        }
        Some(case)
    }
}

pub fn number_of(bytes: &[u8]) -> u64 {
    bytes.iter().rev().fold(0, |number, &byte| number << 8 | u64::from(byte))
}

/// Answers a whole batch, up to its end or the first case that cannot be read.
pub fn answer_batch(input: &[u8], preset: u8) -> Vec<u8> {
    let mut reader = Reader { left: input };
    let mut output = Vec::new();
    while let Some(case) = reader.case() {
        output.extend(answer_bytes(&case, preset));
    }
    output
}

/// Our answer to a case as it stands in a batch.
pub fn answer_bytes(case: &Case, preset: u8) -> Vec<u8> {
    written(case.call, &answer(case, preset), preset)
}

fn written(call: &Call, answer: &Answer, preset: u8) -> Vec<u8> {
    let mut numbers = answer.numbers.iter();
    let mut output = Vec::new();
    for part in call.answers {
        match part {
            Part::Number(_, width) => {
                let number = numbers.next().expect("a number for each field");
                output.extend(&number.to_le_bytes()[..*width]);
            }
            Part::Lent(area) => output.extend(&answer.lent[*area]),
            Part::Mark(area) => output.push(mark(&answer.lent[*area], preset)),
        }
    }
    output
}

/// What a work area looks like: 0 all zero (or empty), 1 as preset, 2 otherwise.
fn mark(work: &[u8], preset: u8) -> u8 {
    if work.iter().all(|&byte| byte == 0) {
        0
    } else if work.iter().all(|&byte| byte == preset) {
        1
    } else {
        2
    }
}

/// A case as it stands in a batch.
pub fn case_bytes(case: &Case) -> Vec<u8> {
    let mut numbers = case.numbers.iter();
    let mut bytes = case.bytes.iter();
    let mut lent = case.lent.iter();
    let mut output = vec![case.call.code];
    for field in case.call.asks {
        match field {
            Field::Number(_, width) => {
                let number = numbers.next().expect("a value for each field");
                output.extend(&number.to_le_bytes()[..*width]);
            }
            Field::Lent(..) => output.extend(length(*lent.next().expect("a length"))),
            Field::Fixed(..) => output.extend(bytes.next().expect("bytes for each field")),
            Field::Bytes(..) | Field::Handed(..) => {
                let bytes = bytes.next().expect("bytes for each field");
                output.extend(length(bytes.len()));
                output.extend(bytes);
            }
        }
    }
    output
}

fn length(length: usize) -> [u8; 2] {
    (length as u16).to_le_bytes()
}

/// How long the answer to a case is; the case alone decides it.
pub fn answer_length(case: &Case) -> usize {
    let areas = case.preset(0);
    let widths = case.call.answers.iter().map(|part| match part {
        Part::Number(_, width) => *width,
        Part::Lent(area) => areas[*area].len(),
        Part::Mark(_) => 1,
    });
    widths.sum()
}
