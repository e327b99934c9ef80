//! Times for a sheet's inputs, and the ways to spoil them.

use super::sheet::{self, Ask, Fault};
use crate::calls::slack::MOST_DEADLINE;
use crate::cell::{read_sheet, FIRST};
use crate::random::Random;
use crate::table::MOST_INPUTS;
use crate::times::{Time, MOST_TIME};

pub const FAULTS: [Fault; 8] =
    [DELAY, TIME, TIME, CROSSED, MISSING, sheet::RECORD, sheet::LENGTH, sheet::INPUTS];
pub const SLACK_FAULTS: [Fault; 10] = [
    FINER,
    DEADLINE,
    DELAY,
    TIME,
    CROSSED,
    MISSING,
    sheet::RECORD,
    sheet::RECORD,
    sheet::LENGTH,
    sheet::INPUTS,
];

const DELAY: Fault = ("delay", bad_delay);
const TIME: Fault = ("a time", bad_time);
const CROSSED: Fault = ("crossed times", crossed);
const MISSING: Fault = ("a missing time", missing);
const FINER: Fault = ("finer than sixteenths", finer);
const DEADLINE: Fault = ("deadline", bad_deadline);

/// A sixteenth of a nanosecond, half of it, and numbers right beside 4,096.
const SIXTEENTH: f64 = 0.0625;
const THIRTY_SECOND: f64 = 0.03125;
const LEAST_ABOVE: f64 = 4096.000000000001;
const MOST_BELOW: f64 = 4095.9999999999995;

/// Sound times, in every other case all in sixteenths.
pub fn draw(random: &mut Random) -> Ask {
    if random.coin() {
        draw_in_sixteenths(random)
    } else {
        draw_with(random, any_time, "any")
    }
}

pub fn draw_in_sixteenths(random: &mut Random) -> Ask {
    draw_with(random, whole_sixteenths, "in sixteenths")
}

fn draw_with(random: &mut Random, good: fn(&mut Random) -> f64, name: &str) -> Ask {
    let n = random.between(1, MOST_INPUTS);
    let mut ask = sheet::draw(random, &FIRST, n);
    let read = inputs_read(&ask);
    for input in 0..MOST_INPUTS {
        ask.times.push(match input {
            input if input >= n => not_looked_at(random),
            input if read.contains(&input) || random.coin() => sound_time(random, good),
            _ => Time { kind: random.pick(&[0, 0, 3, 4, 255]), ..not_looked_at(random) },
        });
    }
    ask.delay = good(random);
    let any = random.below(2 * MOST_DEADLINE as usize + 1) as i64 - MOST_DEADLINE;
    ask.deadline = random.pick(&[0, -1, MOST_DEADLINE, -MOST_DEADLINE, any, any, any, any]);
    ask.tags.push(format!("times: {name}"));
    ask
}

/// The inputs that some cell of a sound sheet reads.
fn inputs_read(ask: &Ask) -> Vec<usize> {
    let n = ask.n as usize;
    let cells = read_sheet(n, &ask.sheet).expect("a sound sheet");
    (0..n).filter(|input| cells.iter().any(|cell| cell.reads.contains(input))).collect()
}

fn whole_sixteenths(random: &mut Random) -> f64 {
    let most = MOST_TIME - SIXTEENTH;
    let any = random.below(65_537) as f64 / 16.0;
    let small = random.below(33) as f64 / 16.0;
    random.pick(&[0.0, -0.0, SIXTEENTH, MOST_TIME, most, small, small, any, any, any])
}

fn any_time(random: &mut Random) -> f64 {
    let near = random.pick(&[MOST_BELOW, f64::from_bits(1), f64::MIN_POSITIVE, THIRTY_SECOND]);
    let plain = random.pick(&[0.1, 1.0 / 3.0, 1e-9, 4000.7, -0.0, MOST_TIME]);
    let any = with_power(random, -60);
    let large = with_power(random, -3);
    random.pick(&[near, plain, any, large, large, large])
}

/// Random digits times a power of two from 2^least to 2^11, so below 4,096.
fn with_power(random: &mut Random, least: i64) -> f64 {
    let power = least + random.below((12 - least) as usize) as i64;
    f64::from_bits(((1023 + power) as u64) << 52 | random.bits() >> 12)
}

/// One arrival, or an earliest and a latest, now and then the same.
fn sound_time(random: &mut Random, good: fn(&mut Random) -> f64) -> Time {
    let (one, two) = (good(random), good(random));
    match random.below(5) {
        0 | 1 => Time { kind: 1, first: one, ..not_looked_at(random) },
        2 => Time { kind: 2, first: one, second: one },
        _ if one <= two => Time { kind: 2, first: one, second: two },
        _ => Time { kind: 2, first: two, second: one },
    }
}

/// What nobody may look at: any kind, and numbers that would be refused.
fn not_looked_at(random: &mut Random) -> Time {
    let (first, second) = (refused(random).0, refused(random).0);
    Time { kind: random.pick(&[0, 1, 2, 3, 255]), first, second }
}

/// A number that is no time, and what is wrong with it.
fn refused(random: &mut Random) -> (f64, &'static str) {
    let quiet = f64::from_bits(random.pick(&[0x7FF8 << 48, 0xFFF8 << 48]));
    let signalling = f64::from_bits(0x7FF0 << 48 | 1 | random.bits() >> 13);
    let tiny = -f64::from_bits(random.pick(&[1, 1 << 52]));
    random.pick(&[
        (quiet, "not a number"),
        (signalling, "not a number"),
        (f64::INFINITY, "infinite"),
        (f64::NEG_INFINITY, "infinite"),
        (LEAST_ABOVE, "just above 4,096"),
        (MOST_TIME + SIXTEENTH, "just above 4,096"),
        (f64::MAX, "the largest"),
        (f64::MIN, "below 0"),
        (tiny, "just below 0"),
        (-SIXTEENTH, "just below 0"),
    ])
}

fn bad_delay(random: &mut Random, ask: &mut Ask) {
    let (delay, name) = refused(random);
    ask.delay = delay;
    ask.tags.push(format!("a delay: {name}"));
}

/// An input with a time, read by a cell or not.
fn with_time(random: &mut Random, ask: &Ask) -> usize {
    let inputs: Vec<usize> =
        (0..ask.n as usize).filter(|&input| ask.times[input].given().is_some()).collect();
    if inputs.is_empty() {
        return 0;
    }
    random.pick(&inputs)
}

fn bad_time(random: &mut Random, ask: &mut Ask) {
    let (number, name) = refused(random);
    let input = with_time(random, ask);
    let time = &mut ask.times[input];
    match time.kind {
        2 if random.coin() => time.second = number,
        _ => time.first = number,
    }
    ask.tags.push(format!("a time: {name}"));
}

/// The earliest right above the latest, or far.
fn crossed(random: &mut Random, ask: &mut Ask) {
    let input = with_time(random, ask);
    let latest = random.pick(&[0.0, SIXTEENTH, 1.0, MOST_BELOW, ask.delay.clamp(0.0, 4000.0)]);
    let beside = f64::from_bits((latest + 0.0).to_bits() + 1);
    let earliest = if random.coin() { beside } else { MOST_TIME };
    ask.times[input] = Time { kind: 2, first: earliest, second: latest };
}

fn missing(random: &mut Random, ask: &mut Ask) {
    let input = random.pick(&inputs_read(ask));
    ask.times[input].kind = random.pick(&[0, 0, 3, 128, 255]);
}

/// The delay or one time a little beside a whole number of sixteenths.
fn finer(random: &mut Random, ask: &mut Ask) {
    let whole = random.below(65_536) as f64 / 16.0;
    let beside = f64::from_bits(whole.to_bits() + 1);
    let number = random.pick(&[beside, whole + THIRTY_SECOND, 0.1, MOST_BELOW, f64::from_bits(1)]);
    let input = with_time(random, ask);
    let time = match random.below(3) {
        0 => Time { kind: 2, first: 0.0, second: number },
        1 => Time { kind: 2, first: number, second: MOST_TIME },
        _ => Time { kind: 1, first: number, second: 0.0 },
    };
    match random.below(3) {
        0 => ask.delay = number,
        _ => ask.times[input] = time,
    }
}

fn bad_deadline(random: &mut Random, ask: &mut Ask) {
    let wrapped = ask.deadline + random.pick(&[1 << 32, 1 << 40, -(1 << 32)]);
    let beside = random.pick(&[MOST_DEADLINE + 1, -MOST_DEADLINE - 1]);
    ask.deadline = random.pick(&[beside, beside, wrapped, i64::MAX, i64::MIN]);
}
