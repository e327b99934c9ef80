//! When a gate settles: each input's time, and one delay for all cells.

use std::collections::BTreeSet;

use crate::cell::Cell;
use crate::refusals::NO_TIME;
use crate::table::MOST_INPUTS;

/// Nanoseconds: the longest that a time or the delay may be.
pub const MOST_TIME: f64 = 4096.0;
/// A time in a case: its kind and two f64.
const TIME_BYTES: usize = 1 + 8 + 8;
pub const TIMES_BYTES: usize = TIME_BYTES * MOST_INPUTS;

/// One input's time as a case has it; what its kind doesn't speak of may be anything.
#[derive(Clone, Copy, Debug)]
pub struct Time {
    pub kind: u8,
    pub first: f64,
    pub second: f64,
}

impl Time {
    /// The earliest and the latest, if a time is given.
    pub fn given(&self) -> Option<(f64, f64)> {
        match self.kind {
            1 => Some((self.first, self.first)),
            2 => Some((self.first, self.second)),
            _ => None,
        }
    }
}

pub fn read(bytes: &[u8]) -> Vec<Time> {
    let number = |bytes: &[u8]| f64::from_le_bytes(bytes.try_into().expect("eight bytes"));
    let one = |time: &[u8]| {
        let (first, second) = (number(&time[1..9]), number(&time[9..]));
        Time { kind: time[0], first, second }
    };
    bytes.chunks(TIME_BYTES).map(one).collect()
}

pub fn write(times: &[Time]) -> Vec<u8> {
    let one = |time: &Time| {
        let (first, second) = (time.first.to_le_bytes(), time.second.to_le_bytes());
        [&[time.kind][..], &first, &second].concat()
    };
    times.iter().flat_map(one).collect()
}

/// Times in words.
pub fn shown(bytes: &[u8]) -> String {
    let one = |time: &Time| match time.kind {
        1 => format!("{:?}", time.first),
        2 => format!("{:?} to {:?}", time.first, time.second),
        kind => format!("kind {kind}"),
    };
    read(bytes).iter().map(one).collect::<Vec<_>>().join(" | ")
}

/// Sound times of n inputs, each with its earliest and its latest.
pub struct Sound {
    pub delay: f64,
    pub inputs: Vec<Option<(f64, f64)>>,
}

/// Line 13: the delay and the times of the inputs, which come to n.
pub fn sound(n: usize, cells: &[Cell], delay: f64, times: &[Time]) -> Result<Sound, u8> {
    let in_range = |time: f64| (0.0..=MOST_TIME).contains(&time);
    let inputs: Vec<_> = times[..n].iter().map(Time::given).collect();
    let given = inputs.iter().flatten();
    let right = |&(earliest, latest): &(f64, f64)| {
        in_range(earliest) && in_range(latest) && earliest <= latest
    };
    let read = |input: usize| cells.iter().any(|cell| cell.reads.contains(&input));
    let missing = (0..n).any(|input| inputs[input].is_none() && read(input));
    if !in_range(delay) || !given.clone().all(right) || missing {
        return Err(NO_TIME);
    }
    let plain = |time: f64| if time == 0.0 { 0.0 } else { time };
    let plain_both = |(earliest, latest)| (plain(earliest), plain(latest));
    let inputs = inputs.into_iter().map(|time| time.map(plain_both)).collect();
    Ok(Sound { delay: plain(delay), inputs })
}

/// How many sixteenths a number from 0 up is, if that is a whole number: read off
/// its bits, as so many times a power of two.
pub fn sixteenths(time: f64) -> Option<i64> {
    let bits = time.to_bits();
    let (exponent, low) = (bits >> 52 & 0x7FF, bits & ((1 << 52) - 1));
    // The number is this many times 2^(power - 4).
    let (mut many, mut power) = match exponent {
        0 => (low, 1 - 1075 + 4),
        _ => (low | 1 << 52, exponent as i64 - 1075 + 4),
    };
    while power < 0 && many != 0 {
        if many % 2 == 1 {
            return None;
        }
        many /= 2;
        power += 1;
    }
    Some(if many == 0 { 0 } else { (many << power) as i64 })
}

/// The same times as whole numbers of sixteenths.
pub struct Sixteenths {
    delay: i64,
    inputs: Vec<Option<(i64, i64)>>,
}

impl Sound {
    /// Nothing if the delay or a time that is given isn't a whole number of them.
    pub fn sixteenths(&self) -> Option<Sixteenths> {
        let both = |(earliest, latest)| Some((sixteenths(earliest)?, sixteenths(latest)?));
        let mut inputs = Vec::new();
        for time in &self.inputs {
            inputs.push(match *time {
                Some(time) => Some(both(time)?),
                None => None,
            });
        }
        Some(Sixteenths { delay: sixteenths(self.delay)?, inputs })
    }

    /// Cell by cell, as the document says it: the least earliest and the greatest
    /// latest that a cell reads, each with the delay added.
    pub fn cell_by_cell(&self, cells: &[Cell]) -> (f64, f64) {
        let mut signals = self.inputs.clone();
        for cell in cells {
            let read = || cell.reads.iter().filter_map(|&signal| signals[signal]);
            let earliest = read().map(|(earliest, _)| earliest).fold(f64::INFINITY, f64::min);
            let latest = read().map(|(_, latest)| latest).fold(0.0, f64::max);
            signals.push(Some((earliest + self.delay, latest + self.delay)));
        }
        signals.last().copied().flatten().expect("a cell")
    }
}

impl Sixteenths {
    /// By whole paths: the least and the greatest that comes down any of them.
    pub fn by_paths(&self, cells: &[Cell]) -> (i64, i64) {
        let ends = paths(self.inputs.len(), cells).into_iter().map(|(input, length)| {
            let (earliest, latest) = self.inputs[input].expect("a time for each input read");
            let delays = length as i64 * self.delay;
            (earliest + delays, latest + delays)
        });
        let (earliest, latest): (Vec<i64>, Vec<i64>) = ends.unzip();
        let least = earliest.into_iter().min();
        (least.expect("a path"), latest.into_iter().max().expect("a path"))
    }
}

/// Every path from an input to the output: where it begins, and over how many cells it goes.
pub fn paths(n: usize, cells: &[Cell]) -> BTreeSet<(usize, usize)> {
    let mut signals: Vec<BTreeSet<(usize, usize)>> =
        (0..n).map(|input| BTreeSet::from([(input, 0)])).collect();
    for cell in cells {
        let read = cell.reads.iter().flat_map(|&signal| &signals[signal]);
        let longer = read.map(|&(input, length)| (input, length + 1)).collect();
        signals.push(longer);
    }
    signals.pop().unwrap_or_default()
}
