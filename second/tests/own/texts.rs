//! The place of a refused text, against every formula of a few bytes.

use second::text::{read, value, MOST_LEVELS, MOST_TEXT};
use std::collections::BTreeSet;

const BYTES: &[u8] = b"ab0!()&|^ ";

/// Every text of up to so many bytes that stands for a formula of one input, by the grammar:
/// sums (and terms and parts) are factors with marks between them.
fn formulas(most: usize) -> BTreeSet<Vec<u8>> {
    let mut known: BTreeSet<Vec<u8>> = BTreeSet::new();
    for length in 1..=most {
        let mut factors: Vec<Vec<u8>> = Vec::new();
        if length == 1 {
            factors.extend([b"a".to_vec(), b"0".to_vec()]);
        }
        for shorter in &known {
            if shorter.len() + 1 == length && is_factor(shorter) {
                factors.push([b"!", &shorter[..]].concat());
            }
            if shorter.len() + 2 == length {
                factors.push([b"(", &shorter[..], b")"].concat());
            }
        }
        let mut longer = factors.clone();
        for first in known.iter().filter(|text| is_factor(text)) {
            for rest in known.iter().filter(|rest| first.len() + 1 + rest.len() == length) {
                for mark in [b"&", b"^", b"|"] {
                    longer.push([&first[..], mark, &rest[..]].concat());
                }
            }
        }
        known.extend(longer);
    }
    known
}

/// No mark stands outside of parentheses.
fn is_factor(text: &[u8]) -> bool {
    let mut depth = 0;
    text.iter().all(|byte| {
        match byte {
            b'(' => depth += 1,
            b')' => depth -= 1,
            _ => {}
        }
        depth > 0 || !b"&^|".contains(byte)
    })
}

#[test]
fn the_place_is_the_first_byte_without_a_continuation() {
    let formulas = formulas(7);
    let goes_on = |start: &[u8]| {
        let next = formulas.range(start.to_vec()..).next();
        next.is_some_and(|text| text.starts_with(start))
    };
    // With three bytes, at most three parentheses wait: seven bytes are enough to go on.
    for length in 0..=3 {
        for code in 0..BYTES.len().pow(length) {
            let text: Vec<u8> =
                (0..length).map(|i| BYTES[code / BYTES.len().pow(i) % BYTES.len()]).collect();
            let expected = if formulas.contains(&text) {
                None
            } else {
                Some(
                    (1..=text.len())
                        .find(|&end| !goes_on(&text[..end]))
                        .map_or(text.len(), |end| end - 1),
                )
            };
            assert_eq!(read(1, &text).err(), expected, "{:?}", String::from_utf8_lossy(&text));
        }
    }
}

#[test]
fn marks_bind_in_their_order() {
    let steps = read(3, b"a|b^c&a").expect("a formula");
    for x in 0..8 {
        let [a, b, c] = [0, 1, 2].map(|j| x >> j & 1 == 1);
        assert_eq!(value(&steps, x), a | (b ^ (c & a)));
    }
}

#[test]
fn a_flip_holds_its_level_until_its_factor_ends() {
    let flips = |many: usize| [vec![b'!'; many], b"a".to_vec()].concat();
    assert!(read(1, &flips(MOST_LEVELS)).is_ok());
    assert_eq!(read(1, &flips(MOST_LEVELS + 1)), Err(MOST_LEVELS));
    let side_by_side = [flips(MOST_LEVELS), b"&".to_vec(), flips(MOST_LEVELS)].concat();
    assert!(read(1, &side_by_side).is_ok());
}

#[test]
fn too_long_comes_first() {
    let text = b"a^".repeat(MOST_TEXT / 2);
    assert_eq!(read(1, &text), Err(MOST_TEXT));
    assert!(read(1, &text[..MOST_TEXT - 1]).is_ok());
    assert_eq!(read(1, &vec![b'?'; MOST_TEXT + 1]), Err(MOST_TEXT + 1));
}
