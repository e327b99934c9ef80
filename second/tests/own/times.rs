//! When a gate settles.

use second::calls::settle::{settle, timed, CALL};
use second::calls::slack::{slack, MOST_DEADLINE};
use second::case::Case;
use second::cell::{write_sheet, Cell};
use second::examples::{unhex, SHEET_OF_2};
use second::fresh::timing;
use second::random::Random;
use second::refusals::Refusal;
use second::table::MOST_INPUTS;
use second::times::{paths, sixteenths, Sound, Time};

const NONE: Time = Time { kind: 0, first: f64::NAN, second: f64::NAN };

fn arrival(first: f64) -> Time {
    Time { kind: 1, first, second: f64::NAN }
}

/// One arrival for each of the first inputs.
fn arrivals(list: &[f64]) -> Vec<Time> {
    let given = list.iter().map(|&first| arrival(first));
    given.chain(std::iter::repeat(NONE)).take(MOST_INPUTS).collect()
}

/// The least and the greatest over all paths: each adds the delay cell by cell.
fn over_all_paths(sound: &Sound, cells: &[Cell]) -> (f64, f64) {
    let after = |time: f64, length: usize| (0..length).fold(time, |time, _| time + sound.delay);
    let mut ends = (f64::INFINITY, 0.0);
    for (input, length) in paths(sound.inputs.len(), cells) {
        let (earliest, latest) = sound.inputs[input].expect("a time");
        ends = (after(earliest, length).min(ends.0), after(latest, length).max(ends.1));
    }
    ends
}

#[test]
fn cell_by_cell_is_the_least_and_the_greatest_over_all_paths() {
    let mut random = Random::new(51);
    let (mut whole, mut other) = (0, 0);
    for _ in 0..600 {
        let ask = timing::draw(&mut random);
        let (cells, sound) = timed(ask.n, &ask.sheet, ask.delay, &ask.times).expect("sound times");
        let told = settle(ask.n, &ask.sheet, ask.delay, &ask.times);
        let (earliest, latest) = sound.cell_by_cell(&cells);
        assert_eq!((earliest, latest), over_all_paths(&sound, &cells));
        // Where all are whole sixteenths, whole numbers tell the same.
        let bits = |(earliest, latest): (f64, f64)| [earliest.to_bits(), latest.to_bits()];
        assert_eq!(told.map(bits), Ok(bits((earliest, latest))));
        assert!(earliest <= latest);
        whole += usize::from(sound.sixteenths().is_some());
        other += usize::from(sound.sixteenths().is_none());
    }
    assert!(whole > 200 && other > 200, "{whole} and {other}");
}

#[test]
fn slack_is_the_deadline_less_sixteen_times_the_latest() {
    let mut random = Random::new(52);
    let (mut below, mut above) = (0, 0);
    for _ in 0..300 {
        let ask = timing::draw_in_sixteenths(&mut random);
        let (_, latest) = settle(ask.n, &ask.sheet, ask.delay, &ask.times).expect("sound times");
        let left = ask.deadline - (latest * 16.0) as i64;
        assert_eq!(slack(ask.n, &ask.sheet, ask.delay, &ask.times, ask.deadline), Ok(left));
        below += usize::from(left < 0);
        above += usize::from(left > 0);
    }
    assert!(below > 20 && above > 20, "{below} and {above}");
}

#[test]
fn sixteenths_are_what_sixteen_times_is_whole() {
    let mut random = Random::new(53);
    let known = [0.0, -0.0, 4096.0, 4095.9999999999995, 0.0625, 0.03125, f64::from_bits(1)];
    let drawn = (0..2000).map(|i| match i % 2 {
        0 => random.below(65_537) as f64 / 16.0,
        _ => f64::from_bits(random.bits() >> 2) % 4096.0,
    });
    for time in known.into_iter().chain(drawn) {
        let many = time * 16.0;
        assert_eq!(sixteenths(time), (many.fract() == 0.0).then_some(many as i64), "{time}");
    }
}

#[test]
fn what_is_not_read_is_not_looked_at() {
    let mut random = Random::new(54);
    for _ in 0..300 {
        let ask = timing::draw(&mut random);
        let told = settle(ask.n, &ask.sheet, ask.delay, &ask.times);
        let mut other = ask.times.clone();
        for (input, time) in other.iter_mut().enumerate() {
            match time.kind {
                _ if input >= ask.n as usize => *time = arrival(-1.0),
                1 => time.second = f64::INFINITY,
                2 => {}
                _ => *time = Time { kind: 77, first: -1.0, second: -2.0 },
            }
        }
        assert_eq!(settle(ask.n, &ask.sheet, ask.delay, &other), told);
    }
}

fn number<T>(told: Result<T, Refusal>) -> u8 {
    told.map_or_else(|no| no.number, |_| 0)
}

#[test]
fn a_time_is_refused_exactly_as_the_document_says() {
    let and = unhex(SHEET_OF_2);
    let with = |delay: f64, time: Time| {
        let mut times = arrivals(&[0.0, 0.0, 0.0]);
        times[1] = time;
        number(settle(3, &and, delay, &times))
    };
    for good in [0.0, -0.0, 4096.0, f64::from_bits(1), 4095.9999999999995] {
        assert_eq!((with(good, arrival(good)), with(0.0, arrival(good))), (0, 0));
        assert_eq!(with(0.0, Time { kind: 2, first: good, second: good }), 0);
    }
    let above = f64::from_bits(4096f64.to_bits() + 1);
    let below = -f64::from_bits(1);
    for bad in [f64::NAN, f64::INFINITY, f64::NEG_INFINITY, above, below, f64::MAX, f64::MIN] {
        assert_eq!((with(bad, arrival(0.0)), with(0.0, arrival(bad))), (13, 13));
        assert_eq!(with(0.0, Time { kind: 2, first: 0.0, second: bad }), 13);
        assert_eq!(with(0.0, Time { kind: 2, first: bad, second: 4096.0 }), 13);
        assert_eq!(with(0.0, Time { kind: 1, first: 0.0, second: bad }), 0);
    }
    assert_eq!(with(0.0, Time { kind: 2, first: f64::from_bits(1), second: 0.0 }), 13);
    assert_eq!(with(0.0, Time { kind: 2, first: -0.0, second: 0.0 }), 0);
    assert_eq!(with(0.0, Time { kind: 2, first: 0.0, second: -0.0 }), 0);
    assert_eq!((with(0.0, NONE), with(0.0, Time { kind: 3, first: 0.0, second: 0.0 })), (13, 13));
}

/// A cell that nobody reads reads its inputs too; an input that no cell reads
/// needs no time, but one that is given is looked at.
#[test]
fn dead_cells_and_unread_inputs() {
    let cell = |input: usize| Cell::numbered(vec![input], 2);
    let sheet = write_sheet(&[cell(1), cell(0)]);
    assert_eq!(settle(3, &sheet, 1.0, &arrivals(&[1.0, 2.0])), Ok((2.0, 2.0)));
    assert_eq!(number(settle(3, &sheet, 1.0, &arrivals(&[1.0]))), 13);
    assert_eq!(number(settle(3, &sheet, 1.0, &arrivals(&[1.0, 2.0, -1.0]))), 13);
    assert_eq!(number(slack(3, &sheet, 1.0, &arrivals(&[1.0, 2.0, 0.1]), 0)), 14);
    assert_eq!(slack(3, &sheet, 1.0, &arrivals(&[1.0, 2.0, 3.0]), 0), Ok(-32));
}

#[test]
fn of_several_refusals_the_lowest_is_given() {
    let and = unhex(SHEET_OF_2);
    let mut bad = and.clone();
    bad[16] = 7;
    let none = arrivals(&[]);
    let fine = arrivals(&[0.1, 0.2, 0.3]);
    let late = MOST_DEADLINE + 1;
    assert_eq!(number(slack(17, &[], f64::NAN, &none, late)), 1);
    assert_eq!(number(slack(3, &bad[..31], f64::NAN, &none, late)), 9);
    assert_eq!(slack(3, &bad, f64::NAN, &none, late), Err(Refusal { number: 10, place: 1 }));
    assert_eq!(number(slack(3, &and, f64::NAN, &fine, late)), 13);
    assert_eq!(number(slack(3, &and, 0.1, &none, late)), 13);
    assert_eq!(number(slack(3, &and, 0.1, &fine, late)), 14);
    assert_eq!(number(slack(3, &and, 0.1, &fine, 0)), 14);
    assert_eq!(number(slack(3, &and, 1.0, &arrivals(&[1.0, 2.0, 3.0]), late)), 14);
    assert_eq!(number(slack(3, &and, 1.0, &arrivals(&[1.0, 2.0, 3.0]), 0)), 0);
    assert_eq!(number(settle(3, &and, 0.1, &fine)), 0);
}

#[test]
fn a_case_keeps_every_bit_of_its_times() {
    let mut random = Random::new(55);
    for _ in 0..200 {
        let Case { bytes, .. } = (CALL.fresh)(&mut random).case;
        assert_eq!(second::times::write(&second::times::read(&bytes[1])), bytes[1]);
    }
}
