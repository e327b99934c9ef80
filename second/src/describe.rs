//! Cases and answers in words, for someone who must find out why two programs differ.

use crate::batch::number_of;
use crate::case::{Case, Field, Part};

/// Longer byte strings are cut here; the seed brings the whole case back.
const SHOWN_BYTES: usize = 64;

pub fn hex(bytes: &[u8]) -> String {
    let shown = &bytes[..bytes.len().min(SHOWN_BYTES)];
    let mut text: Vec<String> = shown.iter().map(|byte| format!("{byte:02X}")).collect();
    if shown.len() < bytes.len() {
        text.push(format!("... ({} bytes)", bytes.len()));
    }
    if text.is_empty() {
        text.push("(none)".to_string());
    }
    text.join(" ")
}

pub fn case_text(case: &Case) -> String {
    let mut numbers = case.numbers.iter();
    let mut bytes = case.bytes.iter();
    let mut lent = case.lent.iter();
    let fields = case.call.asks.iter().map(|field| match field {
        Field::Number(name, _) => format!(" {name} {}", in_words(name, numbers.next().copied())),
        Field::Fixed(name, _, shown) => {
            format!(" {name} {}", bytes.next().map_or_else(missing, |b| shown(b)))
        }
        Field::Bytes(name, _) | Field::Handed(name, _) => {
            format!(" {name} {}", bytes.next().map_or_else(missing, |b| hex(b)))
        }
        Field::Lent(name, _) => format!(" {name} {}", shown(lent.next())),
    });
    format!("{}{}", case.call.name, fields.collect::<Vec<_>>().join(","))
}

fn shown<T: ToString>(value: Option<&T>) -> String {
    value.map_or_else(missing, T::to_string)
}

/// A number in words: some are the eight bytes of an f64, some are signed.
fn in_words(name: &str, number: Option<u64>) -> String {
    match (name, number) {
        ("delay" | "earliest" | "latest", Some(number)) => format!("{:?}", f64::from_bits(number)),
        ("deadline" | "slack", Some(number)) => (number as i64).to_string(),
        _ => shown(number.as_ref()),
    }
}

fn missing() -> String {
    "missing".to_string()
}

/// An answer in words. The bytes come from outside and may stop anywhere.
pub fn answer_text(case: &Case, answer: &[u8]) -> String {
    let areas = case.preset(0);
    let mut at = 0;
    let mut field = |width: usize| {
        let bytes = answer.get(at..at + width);
        at += width;
        bytes
    };
    let parts = case.call.answers.iter().map(|part| match part {
        Part::Number(name, width) => {
            format!("{name} {}", in_words(name, field(*width).map(number_of)))
        }
        Part::Lent(area) => format!("room {}", field(areas[*area].len()).map_or_else(missing, hex)),
        Part::Mark(_) => format!("W {}", shown(field(1).map(number_of).as_ref())),
    });
    parts.collect::<Vec<_>>().join(", ")
}
