//! Gates of the kinds that desks ask for: permits that are counted, numbers that
//! are compared, ranges, multiples.

use std::ops::RangeInclusive;

use crate::table::Table;

/// A gate, what it says of its inputs, and its kind.
pub struct Gate {
    pub kind: &'static str,
    pub name: String,
    pub table: Table,
}

fn gate(kind: &'static str, name: String, n: usize, rule: impl Fn(usize) -> bool) -> Gate {
    Gate { kind, name, table: Table::from_rule(n, rule) }
}

fn permits(x: usize) -> usize {
    x.count_ones() as usize
}

pub fn at_least(t: usize, n: usize) -> Gate {
    gate("at least t of n", format!("at least {t} of {n}"), n, |x| permits(x) >= t)
}

pub fn multiple(of: usize, n: usize) -> Gate {
    gate("multiples", format!("multiple of {of} over {n} inputs"), n, |x| x % of == 0)
}

pub fn exactly_one(n: usize) -> Gate {
    gate("exactly one of n", format!("exactly one of {n}"), n, |x| permits(x) == 1)
}

/// From a quarter of the numbers up to three quarters or to the last but two, both included.
fn ranges(n: usize) -> [Gate; 2] {
    let (first, last) = ((1 << n) / 4 + 1, (1 << n) * 3 / 4);
    [last, (1 << n) - 3].map(|last| {
        gate("ranges", format!("{first} to {last} over {n} inputs"), n, |x| {
            (first..=last).contains(&x)
        })
    })
}

/// The number of the low half against that of the high half.
fn comparisons(n: usize) -> Vec<Gate> {
    if n % 2 == 1 {
        return Vec::new();
    }
    let half = n / 2;
    let both = |x: usize| (x & ((1 << half) - 1), x >> half);
    let compared = |name: &str, holds: fn(usize, usize) -> bool| {
        gate("comparisons", format!("{name}, {half} bits each"), n, |x| {
            let (low, high) = both(x);
            holds(low, high)
        })
    };
    vec![
        compared("below", |low, high| low < high),
        compared("at most", |low, high| low <= high),
        compared("the same", |low, high| low == high),
    ]
}

/// Three inputs are a session's number, of which 5 is the one; two of the permits must be there.
fn session(n: usize) -> Gate {
    gate("a session with two of the permits", format!("session 5 of {n} inputs"), n, |x| {
        x & 7 == 5 && permits(x >> 3) >= 2
    })
}

/// All of them, for gates of so many inputs.
pub fn family(inputs: RangeInclusive<usize>) -> Vec<Gate> {
    let mut list = Vec::new();
    for n in inputs {
        list.extend([2, 3, (n + 1) / 2, n - 1].map(|t| at_least(t, n)));
        list.push(exactly_one(n));
        list.extend(comparisons(n));
        list.extend(ranges(n));
        list.push(session(n));
        list.extend([3, 5].map(|of| multiple(of, n)));
    }
    list
}

/// A few that are larger, for cells of six inputs: every search takes longer there.
pub fn larger() -> Vec<Gate> {
    let found_early =
        [14, 16].into_iter().flat_map(|n| comparisons(n).into_iter().chain(ranges(n)));
    let searched = [at_least(2, 13), exactly_one(13), multiple(3, 13)];
    searched.into_iter().chain(found_early).collect()
}
