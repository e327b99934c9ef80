//! Batches of make for a command, and its answers one by one.

use super::command;
use crate::batch::answer_length;
use crate::calls::{check, check_in, make, make_in};
use crate::case::Case;
use crate::cell::{Edition, BENCH, FIRST, SECOND};
use crate::network::rebuild;
use crate::refusals::WORK_BYTES;
use crate::table::Table;

pub fn ask(wanted: &[String], batch: &[u8]) -> Result<Vec<u8>, String> {
    let ran = command::run(wanted, &[], batch)?;
    println!("the command: {:.1} s", ran.seconds);
    if !ran.status.success() {
        return Err(format!("the command ended with {}\n{}", ran.status, ran.said));
    }
    Ok(ran.output)
}

/// The first edition, or the second where cells are too large for it.
pub fn edition_for(k: usize) -> &'static Edition {
    if k <= FIRST.most_reads {
        &FIRST
    } else {
        &SECOND
    }
}

/// Form and room in order.
pub fn make_case(k: usize, table: &Table) -> Case {
    let (edition, n, bytes) = (edition_for(k), table.inputs as u64, table.to_bytes());
    let room = edition.sheet_bytes();
    if *edition == FIRST {
        return make::case(n, k as u64, bytes, room, WORK_BYTES);
    }
    let numbers = [edition.told, n, k as u64, u64::from(BENCH)];
    make_in::case(numbers, bytes, room, WORK_BYTES)
}

/// The sheet that make wrote, handed back to check.
pub fn check_case(k: usize, table: &Table, count: usize, room: &[u8]) -> Case {
    let (edition, n, bytes) = (edition_for(k), table.inputs as u64, table.to_bytes());
    let sheet = room[..count * edition.record_bytes].to_vec();
    if *edition == FIRST {
        return check::case(n, bytes, sheet);
    }
    check_in::case(edition.told, n, bytes, sheet)
}

/// The answer to a case, taken off the front of the output.
pub fn next_answer<'a>(case: &Case, left: &mut &'a [u8]) -> Result<&'a [u8], String> {
    let length = answer_length(case);
    if left.len() < length {
        return Err("the output ends early".to_string());
    }
    let (answer, rest) = left.split_at(length);
    *left = rest;
    Ok(answer)
}

pub fn nothing_left(left: &[u8]) -> Result<(), String> {
    match left.len() {
        0 => Ok(()),
        many => Err(format!("the output is {many} bytes too long")),
    }
}

/// What a judge says where a fault was planted: it must have failed, and have
/// found fault with what was spoiled.
pub fn seen<T>(judged: Result<T, String>, spoiled: &str) -> Result<(), String> {
    match judged {
        Err(what) if what.starts_with(spoiled) => {
            Err(format!("every planted fault was seen: {what}"))
        }
        Err(what) => Err(format!("something else than the planted fault was seen: {what}")),
        Ok(_) => Err("the planted fault was not seen".to_string()),
    }
}

/// The count, once the sheet is known to carry the table.
pub fn carried_count(k: usize, table: &Table, count: usize, room: &[u8]) -> Result<usize, String> {
    let (n, edition) = (table.inputs, edition_for(k));
    if count == 0 {
        return Err("no cells".to_string());
    }
    let sheet = room.get(..count * edition.record_bytes).ok_or("more records than room")?;
    let cells = edition.read_sheet(n, sheet).map_err(|index| format!("record {index} is bad"))?;
    if rebuild(n, &cells) != *table {
        return Err("the sheet does not carry the table".to_string());
    }
    Ok(count)
}
