//! Some examples for request E13, their answers worked out by hand.

use super::*;
use crate::calls::{check_in, find_in, make_in, rebuild_in, rewrite, run_in, try_in};

/// The AND of eight in one cell: only bit 255 of its table is set.
const AND_OF_8: &str = "08 00 01 02 03 04 05 06 07 00 00 00 00 00 00 00
                        00 00 00 00 00 00 00 00 00 00 00 00 00 00 00 00
                        00 00 00 00 00 00 00 00 00 00 00 00 00 00 00 80";
/// The sheet of example 2 for desk 3, in either edition.
const AND_OF_3: &str = "02 00 01 FF FF FF FF 03 08 00 00 00 00 00 00 00
                        02 02 03 FF FF FF FF 03 08 00 00 00 00 00 00 00";
const AND_OF_3_AGAIN: &str = "02 00 01 FF FF FF FF FF FF 03 00 00 00 00 00 00
                              08 00 00 00 00 00 00 00 00 00 00 00 00 00 00 00
                              00 00 00 00 00 00 00 00 00 00 00 00 00 00 00 00
                              02 02 03 FF FF FF FF FF FF 03 00 00 00 00 00 00
                              08 00 00 00 00 00 00 00 00 00 00 00 00 00 00 00
                              00 00 00 00 00 00 00 00 00 00 00 00 00 00 00 00";

fn and_of(n: usize) -> String {
    "00".repeat((1 << (n - 3)) - 1) + "80"
}

fn make_told(numbers: [u64; 4], table: &str, room: usize) -> Case {
    make_in::case(numbers, unhex(table), room, WORK_BYTES)
}

/// Number, count, the records, the rest of the room, the work area cleared.
fn made(case: Case, count: u8, records: &str) -> Example {
    let records = unhex(records);
    let mut expected = vec![PRESET; answer_length(&case)];
    expected[..2].copy_from_slice(&[0, count]);
    expected[2..2 + records.len()].copy_from_slice(&records);
    *expected.last_mut().expect("W") = 0;
    example("E13", case, expected)
}

fn making() -> Vec<Example> {
    vec![
        made(make_told([2, 8, 8, 0], &and_of(8), 720), 1, AND_OF_8),
        made(make_told([2, 3, 2, 3], "80", 720), 2, AND_OF_3_AGAIN),
        made(make_told([1, 3, 2, 3], "80", 720), 2, AND_OF_3),
        refusal("E13", make_told([2, 8, 8, 0], &and_of(8), 719), 6),
        refusal("E13", make_told([2, 8, 9, 0], &and_of(8), 720), 2),
        refusal("E13", make_told([1, 8, 7, 0], &and_of(8), 720), 2),
        refusal("E13", make_told([3, 8, 8, 9], "", 0), 2),
        refusal("E13", make_told([0, 17, 9, 9], "", 0), 1),
        refusal("E13", make_told([2, 3, 2, 5], "80", 719), 5),
    ]
}

/// The AND of nine: eight of them in D, of which only bit 255 is set, and H over
/// input 8 and D is 8.
fn splitting() -> Vec<Example> {
    let tried = |edition, k| {
        let split = Split { own: 255, shared: 0 };
        try_in::case([edition, 9, k], split, unhex(&and_of(9)), 2)
    };
    let mut expected = vec![0; 37];
    expected[32] = 0x80;
    expected.extend([0x08, PRESET]);
    let find = |edition, k, table: &str| find_in::case([edition, 9, k], unhex(table), WORK_BYTES);
    vec![
        example("E13", tried(2, 8), expected),
        refusal("E13", tried(2, 7), 5),
        refusal("E13", tried(1, 8), 2),
        refusal("E13", tried(4, 6), 2),
        example("E13", find(2, 8, &and_of(9)), vec![0, 255, 0, 0, 0, 0]),
        example("E13", find(1, 6, &and_of(9)), vec![0, 63, 0, 0, 0, 0]),
        refusal("E13", find(1, 8, &and_of(9)), 2),
    ]
}

fn reading() -> Vec<Example> {
    let (old, new) = (unhex(AND_OF_3), unhex(AND_OF_3_AGAIN));
    let run = |edition, sheet: &[u8], answer: [u8; 3]| {
        example("E13", run_in::case(edition, 3, 7, sheet.to_vec()), answer.to_vec())
    };
    let rebuild = |edition, sheet: &[u8], answer: [u8; 3]| {
        example("E13", rebuild_in::case(edition, 3, sheet.to_vec(), 1), answer.to_vec())
    };
    let check = |edition, sheet: &[u8], number: u8, place: u8| {
        let case = check_in::case(edition, 3, vec![0x80], sheet.to_vec());
        example("E13", case, vec![number, place, 0, 0, 0, 0, 0, 0, 0])
    };
    let mut bad = new.clone();
    bad[48 + 12] = 1;
    vec![
        run(1, &old, [0, 1, 0]),
        run(2, &new, [0, 1, 0]),
        run(2, &old, [9, 0, 0]),
        run(1, &new, [10, 0, 0]),
        run(3, &new, [2, 0, 0]),
        run(2, &bad, [10, 0, 1]),
        rebuild(2, &new, [0, 0, 0x80]),
        rebuild(0, &new, [2, 0, PRESET]),
        rebuild(2, &bad, [10, 1, PRESET]),
        check(2, &new, 0, 0),
        check(2, &bad, 10, 1),
        check(5, &new, 2, 0),
    ]
}

fn rewriting() -> Vec<Example> {
    let old = unhex(AND_OF_3);
    let rest = vec![PRESET; 720 - 96];
    let expected = [&[0, 0, 2][..], &unhex(AND_OF_3_AGAIN), &rest].concat();
    let case = |n, sheet: &[u8], room| rewrite::case(n, sheet.to_vec(), room);
    let mut bad = old.clone();
    bad[16] = 7;
    let refused = |sheet: &[u8], answer: [u8; 3]| {
        example("E13", case(3, sheet, 720), [&answer[..], &[PRESET; 720]].concat())
    };
    vec![
        example("E13", case(3, &old, 720), expected),
        refusal("E13", case(0, &[], 0), 1),
        refusal("E13", case(3, &[], 719), 6),
        refusal("E13", case(3, &old[1..], 720), 9),
        refused(&bad, [10, 1, 0]),
        refused(&unhex(requests::PADDED_AT_1), [15, 1, 0]),
    ]
}

pub fn all() -> Vec<Example> {
    [making(), splitting(), reading(), rewriting()].into_iter().flatten().collect()
}
