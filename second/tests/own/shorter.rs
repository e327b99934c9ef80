//! The shorter of two sheets.

use second::calls::check::check;
use second::calls::shorter::{shorter, CALL};
use second::cell::{read_sheet, FIRST};
use second::fresh::{sheet, two_sheets};
use second::network::rebuild;
use second::random::Random;

/// If either is accepted, what is handed back is accepted and no accepted one of
/// the two is shorter; the first on a tie. Else the refusal is the first's.
#[test]
fn no_accepted_sheet_is_shorter_than_the_one_handed_back() {
    let mut random = Random::new(61);
    let mut seen = [0; 3];
    for _ in 0..2000 {
        let case = (CALL.fresh)(&mut random).case;
        let (n, table) = (case.numbers[0], &case.bytes[0]);
        let sheets = [&case.bytes[1][..], &case.bytes[2][..]];
        let told = sheets.map(|sheet| check(n, table, sheet));
        match shorter(n, table, sheets) {
            Ok((which, length)) => {
                let handed = sheets[which - 1];
                assert_eq!((told[which - 1], handed.len()), (Ok(()), length));
                let mut accepted = sheets.iter().zip(told).filter(|(_, told)| told.is_ok());
                assert!(accepted.all(|(sheet, _)| sheet.len() >= length));
                assert!(which == 1 || told[0].is_err() || sheets[0].len() > length);
                seen[which] += 1;
            }
            Err(number) => {
                assert_eq!(told[0].map_err(|no| no.number), Err(number));
                assert!(told[1].is_err());
                seen[0] += 1;
            }
        }
    }
    assert!(seen.iter().all(|&count| count > 200), "{seen:?}");
}

#[test]
fn the_other_sheet_gives_the_same_table() {
    let mut random = Random::new(62);
    let (mut fewer, mut more, mut other_bytes) = (0, 0, 0);
    for i in 0..500 {
        let n = 1 + i % 8;
        let one = sheet::draw(&mut random, &FIRST, n).sheet;
        let (two, name) = two_sheets::equal(&mut random, n, &one);
        let table = |sheet: &[u8]| rebuild(n, &read_sheet(n, sheet).expect("a sound sheet"));
        assert!(name == "any other" || table(&one) == table(&two), "{name}");
        fewer += usize::from(two.len() < one.len());
        more += usize::from(two.len() > one.len());
        other_bytes += usize::from(two.len() == one.len() && two != one);
    }
    assert!(fewer > 50 && more > 50 && other_bytes > 50, "{fewer}, {more}, {other_bytes}");
}
