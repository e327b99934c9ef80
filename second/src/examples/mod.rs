//! The bench examples 1 to 11 of document 01, with its answers as literals (6 and
//! 9 as document 02 has them), and some for the requests of document 02.

mod any;
mod desks;
mod editions;
mod least;
pub mod requests;
mod several;

use crate::batch::answer_length;
use crate::calls;
use crate::case::{Case, Part, PRESET};
use crate::cell::SHEET_BYTES;
use crate::refusals::{NO_SPLIT, TOO_MANY, WORK_BYTES};
use crate::split::Split;

pub struct Example {
    /// The number it has in document 01, or the request that it belongs to.
    pub name: &'static str,
    pub case: Case,
    /// The answer as it stands in a batch.
    pub expected: Vec<u8>,
}

/// Bytes from hexadecimal digits, as the document prints them.
pub fn unhex(text: &str) -> Vec<u8> {
    let digits: Vec<u32> = text.chars().filter_map(|letter| letter.to_digit(16)).collect();
    digits.chunks(2).map(|two| two.iter().fold(0, |byte, digit| byte * 16 + digit) as u8).collect()
}

fn find(n: u64, k: u64, table: &str) -> Case {
    calls::find::case(n, k, unhex(table), WORK_BYTES)
}

fn make(n: u64, k: u64, table: &str) -> Case {
    calls::make::case(n, k, unhex(table), SHEET_BYTES, WORK_BYTES)
}

fn name_sets(n: u64, k: u64, own: u16, shared: u16, table: &str) -> Case {
    calls::try_split::case(n, k, Split { own, shared }, unhex(table), 3)
}

fn run(n: u64, x: u64, sheet: &[u8]) -> Case {
    calls::run::case(n, x, sheet.to_vec())
}

fn rebuild(n: u64, sheet: &[u8]) -> Case {
    calls::rebuild::case(n, sheet.to_vec(), 1)
}

fn check(n: u64, table: &str, sheet: &[u8]) -> Case {
    calls::check::case(n, unhex(table), sheet.to_vec())
}

fn example(name: &'static str, case: Case, expected: Vec<u8>) -> Example {
    Example { name, case, expected }
}

/// Find's masks, the work area cleared.
fn masks(name: &'static str, case: Case, own: u8, shared: u8) -> Example {
    example(name, case, vec![0, own, 0, shared, 0, 0])
}

/// Make's records: their number, the records, the rest of the room, the work area cleared.
fn sheet(name: &'static str, case: Case, records: &str) -> Example {
    let records = unhex(records);
    let mut expected = vec![PRESET; answer_length(&case)];
    expected[0] = 0;
    expected[1] = (records.len() / 16) as u8;
    expected[2..2 + records.len()].copy_from_slice(&records);
    expected[2 + SHEET_BYTES] = 0;
    example(name, case, expected)
}

/// A refusal: zeros for every value, lent bytes as they were. After 8 and 17 the
/// work area is zeros, after 1 to 7 it is as it was.
fn refusal(name: &'static str, case: Case, number: u8) -> Example {
    let mut expected = Vec::new();
    for part in case.call.answers {
        match part {
            Part::Number(_, width) => expected.extend(vec![0; *width]),
            Part::Lent(area) => expected.extend(&case.preset(PRESET)[*area]),
            Part::Mark(_) => expected.push(u8::from(![NO_SPLIT, TOO_MANY].contains(&number))),
        }
    }
    expected[case.call.number_at()] = number;
    example(name, case, expected)
}

pub const SHEET_OF_1: &str = "01 00 FF FF FF FF FF 00 02 00 00 00 00 00 00 00";
pub const SHEET_OF_2: &str = "02 00 01 FF FF FF FF 00 08 00 00 00 00 00 00 00
                              02 02 03 FF FF FF FF 00 08 00 00 00 00 00 00 00";
const SHEET_OF_3: &str = "02 00 01 FF FF FF FF 00 06 00 00 00 00 00 00 00
                          02 02 03 FF FF FF FF 00 06 00 00 00 00 00 00 00";
const SHEET_OF_4: &str = "03 00 01 02 FF FF FF 00 E8 00 00 00 00 00 00 00";
/// As document 02 (E2) has it: one cell that reads signal 0.
pub const SHEET_OF_6_ZEROS: &str = "01 00 FF FF FF FF FF 00 00 00 00 00 00 00 00 00";
pub const SHEET_OF_6_ONES: &str = "01 00 FF FF FF FF FF 00 03 00 00 00 00 00 00 00";
pub const SELECTOR: &str = "AA AA F0 F0 CC CC 00 FF";
pub const SHEET_OF_7: &str = "04 00 02 04 05 FF FF 00 CA F0 00 00 00 00 00 00
                          04 01 03 05 06 FF FF 00 A0 CF 00 00 00 00 00 00";
const SHEET_OF_8: &str = "06 00 01 02 03 04 05 00 00 00 00 00 00 00 00 80
                          06 06 07 08 09 0A 0B 00 00 00 00 00 00 00 00 80
                          06 0C 0D 0E 0F 10 11 00 00 00 00 00 00 00 00 80";

fn examples_1_to_5() -> Vec<Example> {
    let pick = example(
        "5",
        name_sets(3, 3, 3, 4, "CA"),
        unhex("00 CA 00 00 00 00 00 00 00 00 00 00 00 0C AA AA"),
    );
    vec![
        sheet("1", make(1, 2, "02"), SHEET_OF_1),
        sheet("2", make(3, 2, "80"), SHEET_OF_2),
        sheet("3", make(3, 2, "96"), SHEET_OF_3),
        refusal("4", find(3, 2, "E8"), 8),
        refusal("4", make(3, 2, "E8"), 8),
        refusal("4", find(3, 3, "E8"), 7),
        sheet("4", make(3, 3, "E8"), SHEET_OF_4),
        refusal("5", find(3, 2, "CA"), 8),
        refusal("5", make(3, 2, "CA"), 8),
        pick,
    ]
}

/// As document 02 (E2) has it: two cells, reading 0-5 and 6-10 with 12.
const SHEET_OF_9: &str = "06 00 01 02 03 04 05 00 00 00 00 00 00 00 00 80
                          06 06 07 08 09 0A 0C 00 00 00 00 00 00 00 00 80";

fn examples_6_to_9() -> Vec<Example> {
    let and_of_16 = "00".repeat(8191) + "80";
    // Inputs 0 to 10 all one: assignments 2047 and, with input 11, 4095.
    let and_of_11 = ("00".repeat(255) + "80").repeat(2);
    vec![
        sheet("6", make(3, 2, "00"), SHEET_OF_6_ZEROS),
        sheet("6", make(3, 2, "FF"), SHEET_OF_6_ONES),
        masks("7", find(6, 4, SELECTOR), 21, 32),
        sheet("7", make(6, 4, SELECTOR), SHEET_OF_7),
        sheet("8", make(16, 6, &and_of_16), SHEET_OF_8),
        masks("9", find(12, 6, &and_of_11), 63, 0),
        sheet("9", make(12, 6, &and_of_11), SHEET_OF_9),
    ]
}

fn example_10() -> Vec<Example> {
    let mut list = Vec::new();
    for n in [0, 17] {
        let sheet = unhex(SHEET_OF_2);
        list.push(refusal("10", name_sets(n, 2, 3, 0, "80"), 1));
        list.push(refusal("10", find(n, 2, "80"), 1));
        list.push(refusal("10", make(n, 2, "80"), 1));
        list.push(refusal("10", run(n, 0, &sheet), 1));
        list.push(refusal("10", rebuild(n, &sheet), 1));
        list.push(refusal("10", check(n, "80", &sheet), 1));
    }
    for k in [1, 7] {
        list.push(refusal("10", name_sets(3, k, 3, 0, "80"), 2));
        list.push(refusal("10", find(3, k, "80"), 2));
        list.push(refusal("10", make(3, k, "80"), 2));
    }
    for (n, table, number) in [(3, "80 00", 3), (2, "10", 4)] {
        list.push(refusal("10", name_sets(n, 2, 3, 0, table), number));
        list.push(refusal("10", find(n, 2, table), number));
        list.push(refusal("10", make(n, 2, table), number));
        list.push(refusal("10", check(n, table, &unhex(SHEET_OF_2)), number));
    }
    list.push(sheet("10", make(2, 2, "0F"), SHEET_OF_6_ONES));
    list
}

fn example_11() -> Vec<Example> {
    let and = unhex(SHEET_OF_2);
    let mut list = vec![
        refusal("11", name_sets(3, 3, 1, 0, "80"), 5),
        refusal("11", name_sets(3, 3, 3, 1, "80"), 5),
        refusal("11", name_sets(3, 2, 7, 0, "80"), 5),
        refusal("11", run(3, 8, &and), 11),
        // AND of three ones.
        example("11", run(3, 7, &and), vec![0, 1, 0]),
    ];
    for length in [0, 17, 256] {
        let sheet: Vec<u8> = and.iter().copied().cycle().take(length).collect();
        list.push(refusal("11", run(3, 7, &sheet), 9));
        list.push(refusal("11", rebuild(3, &sheet), 9));
        list.push(refusal("11", check(3, "80", &sheet), 9));
    }
    list
}

pub fn all() -> Vec<Example> {
    let base = [examples_1_to_5(), examples_6_to_9(), example_10(), example_11()];
    let list = base.into_iter().flatten().chain(requests::all());
    let list =
        list.chain(desks::all()).chain(several::all()).chain(editions::all()).chain(any::all());
    let list = list.chain(least::all());
    list.filter(|example| calls::call_of(example.case.call.code).is_some()).collect()
}
