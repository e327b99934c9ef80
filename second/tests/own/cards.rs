//! Desks and cards.

use second::calls::{load, run_desk, run_desk::run_desk as run_on};
use second::card::{start_of, stores, Store, CARD_BYTES, DESK_BYTES, STORES};
use second::case::{answer, PRESET};
use second::cell::{set_desk, FIRST, RECORD_BYTES, SECOND};
use second::examples::requests::PADDED_AT_1;
use second::examples::{unhex, SHEET_OF_2};
use second::fresh::cards::{any_card, full_card};
use second::fresh::desks;
use second::outside::cards::{steps, Step};
use second::random::Random;

#[test]
fn the_first_record_decides_the_desk_and_the_first_that_differs_is_bad() {
    let mut random = Random::new(71);
    let (mut sound, mut bad) = (0, 0);
    for edition in [&FIRST, &SECOND].repeat(10) {
        for of in desks::sheets(&mut random, edition) {
            assert_eq!(edition.read_sheet(of.n, &of.sheet).err(), of.bad);
            sound += usize::from(of.bad.is_none());
            bad += usize::from(of.bad.is_some());
        }
    }
    assert!(sound > 40 && bad > 300, "{sound} and {bad}");
}

#[test]
fn a_load_stores_byte_by_byte_in_the_order_of_the_document() {
    let mut sheet = unhex(SHEET_OF_2);
    set_desk(&mut sheet, 3);
    let list = stores(3, 5, &sheet);
    assert_eq!(list.len(), 257);
    assert_eq!(list.len(), STORES);
    assert_eq!(list[0], Store { place: 512 + 240, byte: 0 });
    for place in 0..240 {
        let byte = sheet.get(place).copied().unwrap_or(0);
        assert_eq!(list[1 + place], Store { place: 512 + place, byte });
    }
    assert_eq!(list[241], Store { place: 512 + 241, byte: 5 });
    assert_eq!(list[242], Store { place: 512 + 242, byte: 2 });
    for place in 243..256 {
        assert_eq!(list[place], Store { place: 512 + place, byte: 0 });
    }
    assert_eq!(list[256], Store { place: 512 + 240, byte: 1 });
}

/// Cuts, minglings and damage, as the sheets alone say it.
#[test]
fn every_step_is_answered_as_promised() {
    let mut random = Random::new(72);
    for _ in 0..2 {
        for Step { case, expected, what } in steps(&mut random).expect("the same card") {
            assert_eq!(second::batch::answer_bytes(&case, PRESET), expected, "{what}");
        }
    }
}

#[test]
fn a_desk_answers_from_its_own_bytes_alone() {
    let mut random = Random::new(73);
    for _ in 0..200 {
        let card = if random.coin() { full_card(&mut random) } else { any_card(&mut random) };
        let desk = random.between(1, 4);
        let mut other = random.bytes(CARD_BYTES);
        let own = start_of(desk)..start_of(desk) + DESK_BYTES;
        other[own.clone()].copy_from_slice(&card[own]);
        let x = random.below(40) as u64;
        assert_eq!(run_on(desk as u64, x, &card), run_on(desk as u64, x, &other));
    }
}

#[test]
fn no_refusal_changes_a_byte() {
    let mut random = Random::new(74);
    let mut refused = 0;
    for _ in 0..600 {
        let case = (load::CALL.fresh)(&mut random).case;
        let told = answer(&case, PRESET);
        if told.numbers[0] != 0 {
            assert_eq!(told.lent[0], case.bytes[1]);
            refused += 1;
        }
    }
    assert!(refused > 200, "{refused}");
}

/// A load of the padded sheet: so 15 holds anyway.
#[derive(Clone)]
struct Load {
    desk: u64,
    n: u64,
    sheet: Vec<u8>,
    card: Vec<u8>,
}

/// One way to break each line, in the cards' order.
type Way<T> = (u64, fn(&mut T));
const WAYS_OF_A_LOAD: [Way<Load>; 6] = [
    (20, |load| load.card.truncate(1023)),
    (19, |load| load.desk = 1),
    (1, |load| load.n = 17),
    (9, |load| load.sheet.push(0)),
    (10, |load| load.sheet[2 * RECORD_BYTES + 7] = 3),
    (15, |_| ()),
];

#[test]
fn of_two_lines_of_a_load_the_first_in_the_cards_order_is_given() {
    let mut sheet = unhex(PADDED_AT_1);
    set_desk(&mut sheet, 2);
    let sound = Load { desk: 2, n: 3, sheet, card: vec![7; CARD_BYTES] };
    for (i, (number, one)) in WAYS_OF_A_LOAD.iter().enumerate() {
        for (_, two) in &WAYS_OF_A_LOAD[i..] {
            let mut spoiled = sound.clone();
            one(&mut spoiled);
            two(&mut spoiled);
            let Load { desk, n, sheet, card } = spoiled;
            let told = answer(&load::case(desk, n, sheet, card), PRESET).numbers;
            assert_eq!(told[0], *number);
            let index = match number {
                10 => 2,
                15 => 1,
                _ => 0,
            };
            assert_eq!(told[1], index);
        }
    }
}

/// Desk 2 of a card, with the padded sheet on it: so 15 holds anyway.
#[derive(Clone)]
struct Run {
    desk: u64,
    x: u64,
    card: Vec<u8>,
}

const WAYS_OF_A_RUN: [Way<Run>; 8] = [
    (20, |run| run.card.push(0)),
    (19, |run| run.desk += 4),
    (18, |run| run.card[256 + 240] = 2),
    (1, |run| run.card[256 + 241] = 0),
    (9, |run| run.card[256 + 242] = 16),
    (10, |run| run.card[256 + 16 + 7] = 0),
    (15, |_| ()),
    (11, |run| run.x = 8),
];

#[test]
fn of_two_lines_of_a_run_the_first_in_the_cards_order_is_given() {
    let mut sheet = unhex(PADDED_AT_1);
    set_desk(&mut sheet, 2);
    let mut card = vec![0xEE; CARD_BYTES];
    card[256..256 + sheet.len()].copy_from_slice(&sheet);
    card[256 + 240..][..3].copy_from_slice(&[1, 3, 3]);
    let sound = Run { desk: 2, x: 7, card };
    for (i, (number, one)) in WAYS_OF_A_RUN.iter().take(7).enumerate() {
        for (_, two) in &WAYS_OF_A_RUN[i..] {
            let mut spoiled = sound.clone();
            one(&mut spoiled);
            two(&mut spoiled);
            let case = run_desk::case(spoiled.desk, spoiled.x, spoiled.card);
            let index = u64::from(*number == 10 || *number == 15);
            assert_eq!(answer(&case, PRESET).numbers, [*number, 0, index]);
        }
    }
}
