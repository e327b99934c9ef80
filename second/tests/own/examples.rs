//! Document 01's examples and the slips it warns of.

use second::batch::{answer_bytes, answer_length};
use second::bench::bench;
use second::best::best;
use second::case::PRESET;
use second::examples::{all, unhex, SHEET_OF_1, SHEET_OF_2};
use second::split::{possible, Split};
use second::table::Table;

#[test]
fn every_example_is_answered_as_the_document_says() {
    for example in all() {
        let ours = answer_bytes(&example.case, PRESET);
        assert_eq!(ours, example.expected, "example {}", example.name);
        assert_eq!(ours.len(), answer_length(&example.case));
    }
}

#[test]
fn every_example_number_is_there() {
    for number in 1..=11 {
        assert!(all().iter().any(|example| example.name == number.to_string()), "{number}");
    }
}

#[test]
fn the_bench_program_writes_the_number_and_the_sheet() {
    assert_eq!(bench(&[1, 2, 0x02]), [&[0], &unhex(SHEET_OF_1)[..]].concat());
    assert_eq!(bench(&[3, 2, 0x80]), [&[0], &unhex(SHEET_OF_2)[..]].concat());
}

#[test]
fn the_bench_program_takes_what_is_missing_as_zero() {
    assert_eq!(bench(&[]), [1]);
    assert_eq!(bench(&[3]), [2]);
    assert_eq!(bench(&[3, 2]), [3]);
    assert_eq!(bench(&[vec![16, 6], vec![0; 8193]].concat()), [3]);
}

fn selector() -> Table {
    Table::from_bytes(6, &unhex("AA AA F0 F0 CC CC 00 FF"))
}

#[test]
fn the_selector_has_the_pair_that_source_000_draws_but_another_comes_first() {
    assert!(possible(&selector(), Split { own: 35, shared: 16 }));
    assert_eq!(best(&selector(), 4), Some(Split { own: 21, shared: 32 }));
}

#[test]
fn only_within_one_shared_assignment_do_two_columns_matter() {
    // Over own and shared together the selector has more than two columns.
    let both = Split { own: 21 | 32, shared: 0 };
    assert!(!possible(&selector(), both));
    assert!(possible(&selector(), Split { own: 21, shared: 32 }));
}
