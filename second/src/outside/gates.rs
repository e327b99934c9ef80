//! Make, and make with several first cells, of a family of gates: each sheet must
//! carry its gate with as many cells as our own chain takes, and where we refuse
//! the command must.

use std::collections::BTreeMap;

use super::arguments::Arguments;
use super::asking::{ask, carried_count, next_answer, nothing_left, seen};
use super::counts::{answers, LARGE_4, LARGE_6, SMALL_4, SMALL_6};
use super::family::{at_least, family, larger, multiple, Gate};
use super::parallel::each_of;
use crate::batch::{answer_bytes, answer_length, case_bytes};
use crate::calls::{make, make_any};
use crate::case::{Case, PRESET};
use crate::cell::{read_sheet, MOST_RECORDS, SHEET_BYTES};
use crate::describe::hex;
use crate::network::first_unread;
use crate::refusals::{DONE, NO_SPLIT, TOO_MANY, WORK_BYTES};

/// A gate with a cell size, and the number and the count that are written down for it.
struct Asked {
    gate: Gate,
    k: usize,
    known: (u8, u8),
}

impl Asked {
    fn about(&self) -> String {
        format!("{}, K = {}", self.gate.name, self.k)
    }

    /// Make, and make with several first cells.
    fn cases(&self) -> [Case; 2] {
        let (n, k) = (self.gate.table.inputs as u64, self.k as u64);
        let table = || self.gate.table.to_bytes();
        [
            make::case(n, k, table(), SHEET_BYTES, WORK_BYTES),
            make_any::case([n, k, 0], table(), SHEET_BYTES, WORK_BYTES),
        ]
    }
}

/// A part of what is asked, counted by itself.
struct Part {
    name: String,
    list: Vec<Asked>,
}

/// How many gates there are, how many each of the two calls made, and with how many cells.
#[derive(Default, Clone, Copy)]
struct Counts {
    gates: usize,
    made: [usize; 2],
    cells: [usize; 2],
}

pub fn gates(arguments: &Arguments) -> Result<(), String> {
    let wanted = arguments.wanted_command()?;
    let parts = parts(arguments.flag("--few"));
    let asked: Vec<&Asked> = parts.iter().flat_map(|part| &part.list).collect();
    let batch: Vec<u8> =
        asked.iter().flat_map(|asked| asked.cases()).flat_map(|case| case_bytes(&case)).collect();
    println!("gates: {} of them", asked.len());
    let mut output = ask(wanted, &batch)?;
    if arguments.flag("--fault") {
        let spoiled = plant_fault(&asked, &mut output);
        return seen(judge(&parts, &output), &spoiled);
    }
    judge(&parts, &output)
}

/// The 69 gates of 7 to 12 inputs, larger ones, and some near the limit of 15
/// records; or only a few of the first, and the last.
fn parts(few: bool) -> Vec<Part> {
    let of = |k: usize, gates: Vec<Gate>, counts: &str| -> Vec<Asked> {
        let known = gates.into_iter().zip(answers(counts));
        known.map(|(gate, known)| Asked { gate, k, known }).collect()
    };
    let known =
        |gate: Gate, k: usize, number: u8, count: u8| Asked { gate, k, known: (number, count) };
    let near = vec![
        known(multiple(3, 10), 3, DONE, 15),
        known(multiple(3, 11), 3, TOO_MANY, 0),
        known(at_least(2, 9), 3, NO_SPLIT, 0),
        known(at_least(2, 7), 6, DONE, 3),
    ];
    let part = |name: &str, list| Part { name: name.to_string(), list };
    let most = if few { 8 } else { 12 };
    let small = |(k, counts)| {
        part(&format!("7 to {most} inputs, K = {k}"), of(k, family(7..=most), counts))
    };
    let mut list: Vec<Part> = [(4, SMALL_4), (6, SMALL_6)].map(small).into();
    if few {
        list.push(part("near the limit", near));
        return list;
    }
    list.push(part("13 to 16 inputs, K = 4", of(4, family(13..=16), LARGE_4)));
    list.push(part("13 to 16 inputs, K = 6", of(6, larger(), LARGE_6)));
    list.push(part("near the limit", near));
    list
}

/// One more is written into the count of a gate's second answer. Says which one's.
fn plant_fault(asked: &[&Asked], output: &mut [u8]) -> String {
    let spoiled = asked.len() / 2;
    let before = asked[..spoiled].iter().flat_map(|asked| asked.cases());
    let [first, _] = asked[spoiled].cases();
    let start: usize = before.chain([first]).map(|case| answer_length(&case)).sum();
    output[start + 1] += 1;
    let about = asked[spoiled].about();
    println!("a fault: the count of {about} is one more");
    about
}

fn judge(parts: &[Part], output: &[u8]) -> Result<(), String> {
    let mut left = output;
    println!("{:<36} gates     make  its cells  make any  its cells", "");
    for Part { name, list } in parts {
        let ours = each_of(list, |asked| asked.cases().map(|case| answer_bytes(&case, PRESET)));
        let mut kinds: BTreeMap<&str, Counts> = BTreeMap::new();
        let mut all = Counts::default();
        for (asked, ours) in list.iter().zip(ours) {
            let counts = judge_one(asked, ours, &mut left)
                .map_err(|what| format!("{}: {what}", asked.about()))?;
            add(kinds.entry(asked.gate.kind).or_default(), counts);
            add(&mut all, counts);
        }
        for (kind, counts) in kinds {
            row(&format!("  {kind}"), counts);
        }
        row(name, all);
    }
    nothing_left(left)?;
    println!("each sheet has as many cells as our own chain, and carries its gate");
    Ok(())
}

/// Both answers to one gate.
fn judge_one(asked: &Asked, ours: [Vec<u8>; 2], left: &mut &[u8]) -> Result<Counts, String> {
    let mut counts = Counts { gates: 1, ..Counts::default() };
    for (at, (case, ours)) in asked.cases().iter().zip(ours).enumerate() {
        let answer = next_answer(case, left)?;
        let got = (answer[0], answer[1]);
        if got != (ours[0], ours[1]) {
            let expected = (ours[0], ours[1]);
            return Err(format!("number and count {got:?}, and by our own chain {expected:?}"));
        }
        if got.0 == DONE {
            carries(asked, usize::from(got.1), &answer[2..])?;
            counts.made[at] = 1;
            counts.cells[at] = usize::from(got.1);
        }
        if at == 1 && got != asked.known {
            let known = asked.known;
            return Err(format!("number and count {got:?}, and written down is {known:?}"));
        }
    }
    Ok(counts)
}

/// At most 15 cells of at most K inputs, each read, and the gate's table.
fn carries(asked: &Asked, count: usize, room: &[u8]) -> Result<(), String> {
    let table = &asked.gate.table;
    carried_count(asked.k, table, count, room)?;
    let sheet = &room[..count * SHEET_BYTES / MOST_RECORDS];
    let cells = read_sheet(table.inputs, sheet).expect("a sheet that was read already");
    if cells.iter().any(|cell| cell.reads.len() > asked.k) {
        return Err(format!("a cell is too large: {}", hex(sheet)));
    }
    match first_unread(table.inputs, &cells) {
        Some(index) => Err(format!("record {index} is read by none")),
        None => Ok(()),
    }
}

fn add(sum: &mut Counts, more: Counts) {
    sum.gates += more.gates;
    for at in 0..2 {
        sum.made[at] += more.made[at];
        sum.cells[at] += more.cells[at];
    }
}

fn row(name: &str, Counts { gates, made, cells }: Counts) {
    println!("{name:<36}{gates:>6}{:>9}{:>11}{:>10}{:>11}", made[0], cells[0], made[1], cells[1]);
}
