//! The family of gates that make is asked for from outside.

use second::calls::make_any::make_any;
use second::cell::SHEET_BYTES;
use second::outside::counts::{answers, LARGE_4, LARGE_6, SMALL_4, SMALL_6};
use second::outside::family::{at_least, family, larger, multiple, Gate};
use second::refusals::WORK_BYTES;

/// How many cells, or the number of the refusal.
fn cells(gate: &Gate, k: u64) -> Result<usize, u8> {
    let numbers = [gate.table.inputs as u64, k, 0];
    make_any(numbers, &gate.table.to_bytes(), SHEET_BYTES, WORK_BYTES).map(|made| made.count)
}

#[test]
fn there_are_69_gates_of_7_to_12_inputs() {
    let gates = family(7..=12);
    assert_eq!(gates.len(), 69);
    for (i, gate) in gates.iter().enumerate() {
        assert!(gates[..i].iter().all(|other| other.table != gate.table), "{}", gate.name);
    }
}

#[test]
fn near_the_limit_of_15_records() {
    assert_eq!(cells(&multiple(3, 10), 3), Ok(15));
    assert_eq!(cells(&multiple(3, 11), 3), Err(17));
    assert_eq!(cells(&at_least(2, 9), 3), Err(8));
    assert_eq!(cells(&at_least(2, 7), 6), Ok(3));
}

#[test]
fn there_is_a_count_for_each_gate() {
    for counts in [SMALL_4, SMALL_6] {
        assert_eq!(answers(counts).count(), 69);
    }
    assert_eq!(answers(LARGE_4).count(), family(13..=16).len());
    assert_eq!(answers(LARGE_6).count(), larger().len());
}
