//! The batch protocol.

use second::batch::{answer_batch, answer_bytes, answer_length, case_bytes};
use second::calls::{call_of, find, TABLE};
use second::case::{Case, PRESET};
use second::fresh;
use second::random::Random;

/// Fresh cases that take little time.
fn small_cases(seed: u64) -> Vec<Case> {
    let list = fresh::cases(&mut Random::new(seed), 200).into_iter().map(|fresh| fresh.case);
    list.filter(|case| case_bytes(case).len() < 200).collect()
}

#[test]
fn a_batch_is_answered_case_by_case() {
    let small = small_cases(8);
    let batch: Vec<u8> = small.iter().flat_map(case_bytes).collect();
    for preset in [PRESET, 0x55, 0] {
        let single: Vec<u8> = small.iter().flat_map(|case| answer_bytes(case, preset)).collect();
        assert_eq!(answer_batch(&batch, preset), single);
    }
}

#[test]
fn the_case_alone_decides_the_length_of_its_answer() {
    for case in small_cases(9) {
        assert_eq!(answer_bytes(&case, PRESET).len(), answer_length(&case));
    }
}

#[test]
fn the_table_has_each_code_once_and_only_numbers_that_its_calls_give() {
    let mut random = Random::new(10);
    for call in TABLE {
        assert_eq!(call_of(call.code).map(|found| found.name), Some(call.name));
        for _ in 0..50 {
            let case = (call.fresh)(&mut random).case;
            assert_eq!(case.call.code, call.code);
            if case_bytes(&case).len() < 200 {
                let number = call.number_in(&answer_bytes(&case, PRESET));
                assert!(call.gives.contains(&number));
            }
        }
    }
    assert!(call_of(0).is_none());
}

fn find_case(table: usize, work: usize) -> Vec<u8> {
    case_bytes(&find::case(3, 2, vec![0x80; table], work))
}

#[test]
fn a_case_cut_short_ends_the_batch() {
    let whole = find_case(1, 16_384);
    let once = answer_batch(&whole, PRESET);
    assert_eq!(once.len(), 6);
    for cut in 0..whole.len() {
        assert_eq!(answer_batch(&[&whole[..], &whole[..cut]].concat(), PRESET), once);
    }
}

#[test]
fn a_length_larger_than_its_buffer_ends_the_batch_and_so_does_an_unknown_code() {
    let whole = find_case(1, 16_384);
    let then = |case: Vec<u8>| answer_batch(&[&whole[..], &case, &whole].concat(), PRESET).len();
    assert_eq!(then(find_case(16_400, 20_000)), 18);
    assert_eq!(then(find_case(16_401, 20_000)), 6);
    assert_eq!(then(find_case(16_400, 20_001)), 6);
    assert_eq!(then(vec![0]), 6);
    assert_eq!(then(vec![0xFF]), 6);
}

#[test]
fn the_mark_of_the_work_area_tells_what_became_of_it() {
    let mark = |table, work, preset| answer_batch(&find_case(table, work), preset)[5];
    for preset in [PRESET, 0x55] {
        // Done; refused with a work area; refused with none.
        assert_eq!(mark(1, 16_385, preset), 0);
        assert_eq!(mark(2, 16_385, preset), 1);
        assert_eq!(mark(2, 0, preset), 0);
    }
    assert_eq!(mark(2, 16_385, 0), 0);
}
