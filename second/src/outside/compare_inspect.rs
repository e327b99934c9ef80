//! The inspecting program from outside.

use super::programs::{Program, Run};
use crate::calls::check;
use crate::examples::requests::{HAND_WIRED, PADDED_AT_1};
use crate::examples::{unhex, SHEET_OF_2};
use crate::inspect::inspect;
use crate::random::Random;

pub static PROGRAM: Program =
    Program { name: "inspecting", ours: inspect, documented, fresh, number };

/// The decimal digits before the space.
fn number(output: &[u8]) -> u8 {
    let digits = output.iter().take_while(|byte| byte.is_ascii_digit());
    digits.fold(0, |number, digit| number * 10 + (digit - b'0'))
}

/// What follows from document 02's own words.
fn documented() -> Vec<Run> {
    let and = unhex(SHEET_OF_2);
    let mut bad = and.clone();
    bad[16] = 7;
    let input = |start: &[u8], sheet: &[u8]| [start, sheet].concat();
    let long = |n: u8, length: usize| [vec![n], vec![0; length]].concat();
    let says = |input: Vec<u8>, output: &str| (input, output.as_bytes().to_vec());
    vec![
        says(input(&[3, 0x80], &and), "0 0"),
        says(input(&[3, 0xE8], &unhex(HAND_WIRED)), "0 0"),
        says(vec![], "1 0"),
        says(vec![0], "1 0"),
        says(input(&[0, 0x80], &and), "1 0"),
        says(input(&[17, 0x80], &and), "1 0"),
        says(input(&[255, 0x80], &and), "1 0"),
        says(vec![3], "3 0"),
        says(vec![4, 0x80], "3 0"),
        says(long(16, 8191), "3 0"),
        says(input(&[2, 0x10], &and), "4 0"),
        says(vec![3, 0x80], "9 0"),
        says(input(&[3, 0x80], &and[1..]), "9 0"),
        says(input(&[3, 0x80], &and.repeat(8)), "9 0"),
        says(long(16, 8192), "9 0"),
        says(input(&[3, 0x80], &bad), "10 1"),
        // The AND is 0 at assignments 3, 5 and 6, the majority is 1 there.
        says(input(&[3, 0xE8], &and), "12 3"),
        says(input(&[3, 0x80], &unhex(PADDED_AT_1)), "15 1"),
        says(input(&[3, 0xE8], &unhex(PADDED_AT_1)), "12 3"),
        // More than a pipe holds: whoever writes it must not be cut off.
        says(long(16, 300_000), "9 0"),
        says(long(17, 300_000), "1 0"),
    ]
}

/// A fresh case of the check, its bytes one after the other; in every tenth run
/// with a few cut off or added. A table of a wrong length shifts the sheet.
fn fresh(random: &mut Random, _: usize) -> Vec<u8> {
    let case = (check::CALL.fresh)(random).case;
    let [n] = case.numbers();
    let mut input = [&[n as u8][..], &case.bytes[0], &case.bytes[1]].concat();
    if random.one_in(10) {
        let length = random.below(input.len() + 3);
        input.resize(length, 0);
    }
    input
}
