//! Ways between three-input tables: laws that brute force can try whole.

use std::collections::BTreeSet;

use second::book::{first_way, least, turned, ways};

#[test]
fn there_are_96_ways_in_their_order() {
    let keys: Vec<_> = ways().iter().map(|way| (way.flip, way.mask, way.p)).collect();
    assert_eq!(keys.len(), 96);
    assert!(keys.windows(2).all(|two| two[0] < two[1]));
}

#[test]
fn the_book_has_14_entries_and_each_is_its_own() {
    let entries: BTreeSet<u8> = (0..=255).map(least).collect();
    assert_eq!(entries.len(), 14);
    assert!(entries.iter().all(|&entry| least(entry) == entry));
    assert_eq!([0x80, 0x96, 0xE8].map(least), [0x01, 0x69, 0x17]);
}

#[test]
fn two_tables_have_a_way_exactly_when_their_entries_are_equal() {
    for first in 0..=255 {
        for second in 0..=255 {
            let way = first_way(first, second);
            assert_eq!(way.is_some(), least(first) == least(second));
            assert!(way.map_or(true, |way| turned(&way, first) == second));
        }
    }
}
