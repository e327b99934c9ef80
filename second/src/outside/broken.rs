//! Batches that break off: a case cut short, one that names a length larger
//! than its buffer, or a code that is not answered. The cases before it are
//! answered, that one is not, nor are those after it.

use super::command;
use crate::batch::{answer_batch, case_bytes};
use crate::calls::{call_of, TABLE};
use crate::case::{Call, Case, Field, PRESET};
use crate::random::Random;

/// A case of a call with every length as given by its field's buffer.
fn case_with(call: &'static Call, length: impl Fn(usize, usize) -> usize) -> Case {
    let mut case = Case { call, numbers: Vec::new(), bytes: Vec::new(), lent: Vec::new() };
    for (at, field) in call.asks.iter().enumerate() {
        match field {
            Field::Number(..) => case.numbers.push(3),
            Field::Bytes(_, buffer) | Field::Handed(_, buffer) => {
                case.bytes.push(vec![0x80; length(at, *buffer)]);
            }
            Field::Fixed(_, length, _) => case.bytes.push(vec![0; *length]),
            Field::Lent(_, buffer) => case.lent.push(length(at, *buffer)),
        }
    }
    case
}

/// Each batch with a word about it. A sound case follows the broken one, so
/// that a program that goes on is found out.
fn batches(random: &mut Random) -> Vec<(String, Vec<u8>)> {
    let mut list = vec![("an empty batch".to_string(), Vec::new())];
    for call in TABLE {
        let full = case_bytes(&case_with(call, |_, buffer| buffer));
        for (field, asked) in call.asks.iter().enumerate() {
            let name = match asked {
                Field::Bytes(name, _) | Field::Lent(name, _) | Field::Handed(name, _) => name,
                Field::Number(..) | Field::Fixed(..) => continue,
            };
            let long = case_with(call, |at, buffer| buffer + usize::from(at == field));
            let name = format!("{}, {name} one byte too long", call.name);
            list.push((name, [&full[..], &case_bytes(&long), &full].concat()));
        }
        let small = case_bytes(&case_with(call, |_, _| 1));
        let cut = random.between(1, small.len() - 1);
        let name = format!("{}, cut short after {cut} bytes", call.name);
        list.push((name, [&small[..], &small[..cut]].concat()));
    }
    let sound = case_bytes(&case_with(TABLE[0], |_, _| 1));
    let unknown: Vec<u8> = (0..=255).filter(|&code| call_of(code).is_none()).collect();
    for code in [0, random.pick(&unknown), 255] {
        list.push((format!("code {code:02X}"), [&sound[..], &[code], &sound].concat()));
    }
    list
}

/// Runs the command on each batch and says how many passed. How it ends after
/// a broken case is its own affair, so long as nothing killed it.
pub fn compare(random: &mut Random, wanted: &[String]) -> Result<usize, String> {
    let batches = batches(random);
    for (name, batch) in &batches {
        let ran = command::run(wanted, &[], batch)?;
        let ours = answer_batch(batch, PRESET);
        if ran.output != ours || ran.status.code().is_none() {
            let (got, expected) = (ran.output.len(), ours.len());
            let (ended, said) = (ran.status, ran.said);
            return Err(format!(
                "a batch that breaks off: {name}\n  {got} bytes came, {expected} expected; {ended}\n{said}"
            ));
        }
    }
    Ok(batches.len())
}
