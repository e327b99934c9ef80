//! Some examples for the requests of document 02, their answers worked out by hand.

use super::*;
use crate::table::MOST_INPUTS;
use crate::times::Time;

/// The majority of three out of cells of two, (a AND b) OR (c AND (a OR b)): a
/// and b are read twice, so no chain of splits has this shape.
pub const HAND_WIRED: &str = "02 00 01 FF FF FF FF 00 08 00 00 00 00 00 00 00
                              02 00 01 FF FF FF FF 00 0E 00 00 00 00 00 00 00
                              02 02 04 FF FF FF FF 00 08 00 00 00 00 00 00 00
                              02 03 05 FF FF FF FF 00 0E 00 00 00 00 00 00 00";
/// The XOR of two out of four NANDs; the first is read twice.
const FOUR_NANDS: &str = "02 00 01 FF FF FF FF 00 07 00 00 00 00 00 00 00
                          02 00 02 FF FF FF FF 00 07 00 00 00 00 00 00 00
                          02 01 02 FF FF FF FF 00 07 00 00 00 00 00 00 00
                          02 03 04 FF FF FF FF 00 07 00 00 00 00 00 00 00";

/// What check says: a number and a place below 256.
fn told(case: Case, number: u8, place: u8) -> Example {
    example("E1", case, vec![number, place, 0, 0, 0, 0, 0, 0, 0])
}

fn check_a_sheet() -> Vec<Example> {
    let (and, wired) = (unhex(SHEET_OF_2), unhex(HAND_WIRED));
    let (mut damaged, mut bad) = (wired.clone(), wired.clone());
    // Without c AND (a OR b) only a AND b is left: 88 for E8, and bit 5 is the first that differs.
    damaged[2 * 16 + 8] = 0;
    bad[3 * 16] = 7;
    vec![
        told(check(3, "80", &and), 0, 0),
        told(check(6, SELECTOR, &unhex(SHEET_OF_7)), 0, 0),
        told(check(3, "E8", &wired), 0, 0),
        told(check(2, "06", &unhex(FOUR_NANDS)), 0, 0),
        told(check(3, "E8", &and), 12, 3),
        told(check(3, "81", &and), 12, 0),
        told(check(3, "00", &and), 12, 7),
        told(check(3, "E8", &damaged), 12, 5),
        told(check(3, "17", &bad), 10, 3),
    ]
}

/// Inputs that do nothing: none, one or two count, and three of four with the
/// second set aside (input 0 AND 2 AND 3 is one at 13 and 15).
fn unused_inputs() -> Vec<Example> {
    let and = |reads: &str| format!("02 {reads} FF FF FF FF 00 08 00 00 00 00 00 00 00");
    vec![
        refusal("E2", find(3, 2, "00"), 7),
        refusal("E2", find(3, 2, "FF"), 7),
        refusal("E2", find(3, 2, "C0"), 7),
        sheet("E2", make(3, 2, "88"), &and("00 01")),
        sheet("E2", make(3, 2, "C0"), &and("01 02")),
        sheet("E2", make(3, 2, "F0"), "01 02 FF FF FF FF FF 00 02 00 00 00 00 00 00 00"),
        sheet("E2", make(3, 2, "0F"), "01 02 FF FF FF FF FF 00 01 00 00 00 00 00 00 00"),
        masks("E2", find(4, 2, "00 A0"), 5, 0),
        sheet("E2", make(4, 2, "00 A0"), &(and("00 02") + &and("03 04"))),
        sheet("E2", make(1, 2, "03"), SHEET_OF_6_ONES),
        sheet("E2", make(16, 6, &"FF".repeat(8192)), SHEET_OF_6_ONES),
    ]
}

/// Where a named split breaks. The majority has three columns over inputs 0 and 1
/// (never, input 2, always). XOR where input 3 is 0, else the majority: with
/// input 3 shared b = 1 breaks it. The selector over a, c, x and y: never,
/// always, b and d.
fn where_a_split_breaks() -> Vec<Example> {
    let at = |case: Case, b: u8, columns: u8| {
        let numbers = [8, 0, 0, 0, 0, 0, 0, 0, 0, b, 0, columns, 0];
        example("E4", case, [&numbers[..], &[PRESET; 3]].concat())
    };
    vec![
        at(name_sets(3, 2, 3, 0, "E8"), 0, 3),
        at(name_sets(4, 3, 3, 8, "96 E8"), 1, 3),
        at(name_sets(4, 3, 3, 8, "E8 96"), 0, 3),
        at(name_sets(6, 4, 53, 0, SELECTOR), 0, 4),
    ]
}

/// An earliest and a latest for each input, the other times not read.
fn times(inputs: &[(f64, f64)]) -> Vec<Time> {
    let mut list = vec![Time { kind: 0, first: f64::NAN, second: f64::NAN }; MOST_INPUTS];
    for (time, &(first, second)) in list.iter_mut().zip(inputs) {
        *time = Time { kind: 2, first, second };
    }
    list
}

/// The sheet of example 2. Inputs 0 and 1 at 1 and from 1/2 to 2, input 2 at
/// 3 1/4, and 1/4 a cell: the first cell settles from 3/4 to 2 1/4, the second
/// from 1 to 3 1/2. With a delay of 0.1 and all inputs at 0.7 each sum is rounded
/// once: 0.7 and 0.1 give 0.7999999999999999 (earliest, from input 2), and 0.1
/// more 0.8999999999999999.
fn settle_and_slack() -> Vec<Example> {
    let and = || unhex(SHEET_OF_2);
    let known = times(&[(1.0, 1.0), (0.5, 2.0), (3.25, 3.25)]);
    let all_at = times(&[(0.7, 0.7); 3]);
    let settled = |delay: f64, times: &[Time], number: u8, [earliest, latest]: [f64; 2]| {
        let case = calls::settle::case(3, and(), delay, times);
        let numbers = [number, 0];
        let times = [earliest.to_le_bytes(), latest.to_le_bytes()].concat();
        example("E5", case, [&numbers[..], &times].concat())
    };
    let slack = |delay: f64, deadline: i64, number: u8, slack: i64| {
        let case = calls::slack::case(3, and(), delay, &known, deadline);
        example("E5", case, [&[number, 0][..], &slack.to_le_bytes()].concat())
    };
    vec![
        settled(0.25, &known, 0, [1.0, 3.5]),
        settled(-0.0, &known, 0, [0.5, 3.25]),
        settled(-0.0, &times(&[(-0.0, -0.0); 3]), 0, [0.0; 2]),
        settled(-0.0, &times(&[(-0.0, f64::from_bits(1)); 3]), 0, [0.0, f64::from_bits(1)]),
        settled(4096.0, &known, 0, [4099.25, 8194.0]),
        settled(0.1, &all_at, 0, [0.7999999999999999, 0.8999999999999999]),
        settled(0.25, &times(&[(1.0, 1.0), (0.5, 2.0)]), 13, [0.0; 2]),
        settled(0.25, &times(&[(1.0, 1.0), (2.0, 0.5), (1.0, 1.0)]), 13, [0.0; 2]),
        settled(f64::NAN, &known, 13, [0.0; 2]),
        settled(4096.0625, &known, 13, [0.0; 2]),
        slack(0.25, 48, 0, -8),
        slack(0.25, 1_048_576, 0, 1_048_520),
        slack(0.25, -1_048_576, 0, -1_048_632),
        slack(0.25, 1_048_577, 14, 0),
        slack(0.1, 48, 14, 0),
        slack(-0.25, 1_048_577, 13, 0),
    ]
}

/// The sheet of example 2 with a cell more that nobody reads: as record 0, as
/// record 1, and as record 1 with record 0 read by it alone.
const PADDED_AT_0: &str = "01 01 FF FF FF FF FF 00 01 00 00 00 00 00 00 00
                           02 00 01 FF FF FF FF 00 08 00 00 00 00 00 00 00
                           02 02 04 FF FF FF FF 00 08 00 00 00 00 00 00 00";
pub const PADDED_AT_1: &str = "02 00 01 FF FF FF FF 00 08 00 00 00 00 00 00 00
                               01 00 FF FF FF FF FF 00 02 00 00 00 00 00 00 00
                               02 02 03 FF FF FF FF 00 08 00 00 00 00 00 00 00";
const PADDED_TWICE: &str = "01 01 FF FF FF FF FF 00 01 00 00 00 00 00 00 00
                            01 03 FF FF FF FF FF 00 01 00 00 00 00 00 00 00
                            02 00 01 FF FF FF FF 00 08 00 00 00 00 00 00 00
                            02 02 05 FF FF FF FF 00 08 00 00 00 00 00 00 00";

fn cells_that_nobody_reads() -> Vec<Example> {
    let mut list = Vec::new();
    for (sheet, index) in [(PADDED_AT_0, 0), (PADDED_AT_1, 1), (PADDED_TWICE, 1)] {
        let sheet = unhex(sheet);
        let rebuilt = vec![15, index, PRESET];
        let checked = |table: &str, number: u8, place: u8| {
            example("E6", check(3, table, &sheet), vec![number, place, 0, 0, 0, 0, 0, 0, 0])
        };
        list.push(example("E6", run(3, 7, &sheet), vec![15, 0, index]));
        list.push(refusal("E6", run(3, 8, &sheet), 11));
        list.push(example("E6", rebuild(3, &sheet), rebuilt));
        list.push(checked("80", 15, index));
        list.push(checked("E8", 12, 3));
    }
    list
}

/// The AND of three in one cell of three, in two of two, padded, and cut short;
/// the majority.
fn the_shorter_of_two() -> Vec<Example> {
    let one = unhex("03 00 01 02 FF FF FF 00 80 00 00 00 00 00 00 00");
    let two = unhex(SHEET_OF_2);
    let padded = unhex(PADDED_AT_1);
    let majority = unhex(HAND_WIRED);
    let told = |n: u64, [first, second]: [&[u8]; 2], answer: [u8; 3]| {
        let case = calls::shorter::case(n, unhex("80"), first.to_vec(), second.to_vec());
        let [which, length, number] = answer;
        example("E7", case, vec![which, length, 0, number])
    };
    vec![
        told(3, [&one, &two], [1, 16, 0]),
        told(3, [&two, &one], [2, 16, 0]),
        told(3, [&two, &two], [1, 32, 0]),
        told(3, [&padded, &two], [2, 32, 0]),
        told(3, [&one[..15], &two], [2, 32, 0]),
        told(3, [&two, &majority[..16]], [1, 32, 0]),
        told(3, [&padded, &majority], [0, 0, 15]),
        told(3, [&majority, &padded], [0, 0, 12]),
        told(3, [&[], &majority], [0, 0, 9]),
        told(17, [&two, &two], [0, 0, 1]),
        told(4, [&two, &two], [0, 0, 3]),
        told(2, [&two, &two], [0, 0, 4]),
    ]
}

/// Formulas read and written. Table 80's sheet prints as document 02 says; the NANDs
/// read one cell twice, and a cell of three signals isn't printed either.
fn formulas() -> Vec<Example> {
    let read = |n: u64, text: &str, number: u8, place: u8, table: &[u8]| {
        let case = calls::read_formula::case(n, text.into(), table.len());
        example("E8", case, [&[number, place, 0, 0, 0, 0, 0, 0, 0][..], table].concat())
    };
    let written = |n: u64, sheet: &str, number: u8, text: &str| {
        let case = calls::write_formula::case(n, unhex(sheet), 1024);
        let room: Vec<u8> = text.bytes().chain([PRESET; 1024]).take(1024).collect();
        let numbers = [number, 0, 0, 0, 0, 0, 0, 0, 0, text.len() as u8, 0];
        example("E8", case, [&numbers[..], &room].concat())
    };
    vec![
        read(3, "(c&(a&b))", 0, 0, &[0x80]),
        read(3, "a|b^c&!a", 0, 0, &[0xBE]),
        read(3, "a|d", 16, 2, &[PRESET]),
        read(3, "(a&b", 16, 4, &[PRESET]),
        written(3, SHEET_OF_2, 0, "(c&(a&b))"),
        written(1, "01 00 FF FF FF FF FF 00 01 00 00 00 00 00 00 00", 0, "!a"),
        written(1, SHEET_OF_6_ONES, 0, "1"),
        written(2, FOUR_NANDS, 16, ""),
        written(3, PADDED_AT_1, 16, ""),
        written(3, "03 00 01 02 FF FF FF 00 80 00 00 00 00 00 00 00", 16, ""),
    ]
}

/// AND is NOR with every input flipped, input 0 is input 1 with the two swapped,
/// and XOR is its own opposite with any input flipped.
fn the_book() -> Vec<Example> {
    let found = |table: u8, entry: u8| example("E14", calls::look_up::case(table), vec![entry]);
    let told = |first: u8, second: u8, answer: &str| {
        example("E14", calls::turn::case(first, second), unhex(answer))
    };
    vec![
        found(0x80, 0x01),
        found(0x96, 0x69),
        found(0xE8, 0x17),
        told(0x80, 0x80, "00 00 00 00 01 02"),
        told(0x80, 0x01, "00 00 07 00 01 02"),
        told(0x80, 0x7F, "00 01 00 00 01 02"),
        told(0xAA, 0xCC, "00 00 00 01 00 02"),
        told(0x96, 0x69, "00 00 01 00 01 02"),
        told(0x00, 0xFF, "00 01 00 00 01 02"),
        told(0x80, 0x96, "15 00 00 00 00 00"),
        told(0x80, 0xE8, "15 00 00 00 00 00"),
    ]
}

pub fn all() -> Vec<Example> {
    let parts = [
        check_a_sheet(),
        unused_inputs(),
        where_a_split_breaks(),
        settle_and_slack(),
        cells_that_nobody_reads(),
        the_shorter_of_two(),
        formulas(),
        the_book(),
    ];
    parts.into_iter().flatten().collect()
}
