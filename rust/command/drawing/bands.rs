//! What stands in which column. Cells stand by their depth, and a signal that passes a column on its
//! way has a lane of its own there, so that no line runs behind a box. A sheet that is deeper than a
//! page is wide goes over several bands: what a band reads of those above stands among its inputs by
//! its number, and what others read of it goes out on the right.

use super::layout::{width, Placed, Thing, CHARACTER, PAD};
use crate::listed::Listed;
use std::collections::HashMap;
use std::ops::RangeInclusive;

/// The width of a band of more than one depth: what a page shows without being shrunk much.
const WIDE: f64 = 960.0;
/// The digits of a table on one line.
const DIGITS: usize = 16;
/// The longest formula that is written into a box.
const FORMULA: usize = 34;

/// The columns of each band.
pub fn of(shown: &Listed) -> Vec<Vec<Vec<Placed>>> {
    let deepest = shown.sheet.depth();
    let (mut bands, mut from) = (Vec::new(), 1);
    while from <= deepest {
        let mut to = from;
        let mut columns = columns_of(shown, from..=to);
        while to < deepest {
            let more = columns_of(shown, from..=to + 1);
            if width(&more) > WIDE {
                break;
            }
            (columns, to) = (more, to + 1);
        }
        bands.push(columns);
        from = to + 1;
    }
    bands
}

/// Where a signal comes from: 0 for an input.
fn depth(shown: &Listed, signal: usize) -> usize {
    let cell = signal.checked_sub(shown.sheet.n);
    cell.map_or(0, |at| shown.sheet.cells[at].depth)
}

/// The columns of the cells of some depths: first what they read from elsewhere, at last what goes
/// out of them, and lanes between.
fn columns_of(shown: &Listed, depths: RangeInclusive<usize>) -> Vec<Vec<Placed>> {
    let (before, deepest) = (depths.start() - 1, *depths.end());
    let last = deepest - before + 1;
    let mut columns: Vec<Vec<Placed>> = vec![Vec::new(); last + 1];
    let reach = reaches(shown, before, deepest);
    for signal in 0..shown.sheet.n + shown.sheet.count() {
        let (from, to) = (depth(shown, signal), reach.get(&signal).copied());
        let column = from.saturating_sub(before);
        match signal.checked_sub(shown.sheet.n) {
            Some(at) if depths.contains(&from) => columns[column].push(cell_of(shown, at, column)),
            _ if to.is_some() => columns[0].push(input_of(shown, signal)),
            _ => continue,
        }
        for lane in column + 1..to.unwrap_or(0) {
            columns[lane].push(Placed::new(Thing::Lane(signal), Vec::new(), vec![signal], lane));
        }
        if to == Some(last) {
            let name = vec![out_name(shown, signal)];
            columns[last].push(Placed::new(Thing::Output, name, vec![signal], last));
        }
    }
    // What comes from a band above goes into the first cells: it stands before the inputs.
    columns[0].sort_by_key(|placed| placed.gives < Some(shown.sheet.n));
    columns
}

/// The last column of a band to which each signal goes; one that a deeper cell reads goes out.
fn reaches(shown: &Listed, before: usize, deepest: usize) -> HashMap<usize, usize> {
    let out = deepest - before + 1;
    let given_here = |signal| (before + 1..=deepest).contains(&depth(shown, signal));
    let mut reach: HashMap<usize, usize> = HashMap::new();
    for cell in shown.sheet.cells.iter().filter(|cell| cell.depth > before) {
        for &read in &cell.reads {
            if cell.depth <= deepest || given_here(read) {
                let furthest = reach.entry(read).or_insert(0);
                *furthest = (*furthest).max((cell.depth - before).min(out));
            }
        }
    }
    let output = shown.sheet.n + shown.sheet.count() - 1;
    if given_here(output) {
        reach.insert(output, out);
    }
    reach
}

fn out_name(shown: &Listed, signal: usize) -> String {
    if signal + 1 == shown.sheet.n + shown.sheet.count() {
        return shown.names.output.clone();
    }
    shown.names.of_signal(signal)
}

fn input_of(shown: &Listed, signal: usize) -> Placed {
    let mut lines = vec![shown.names.of_signal(signal)];
    lines.extend(shown.times.inputs.get(signal).filter(|time| !time.is_empty()).cloned());
    Placed::new(Thing::Input(signal), lines, Vec::new(), 0)
}

fn cell_of(shown: &Listed, at: usize, column: usize) -> Placed {
    let cell = &shown.sheet.cells[at];
    let mut lines = vec![format!("[{}]", cell.signal)];
    let digits: Vec<char> = cell.hex().chars().collect();
    lines.extend(digits.chunks(DIGITS).map(|part| part.iter().collect::<String>()));
    let gives = Some(shown.gives(at)).filter(|_| shown.gives[at].is_some());
    lines.extend(gives.filter(|gives| gives.chars().count() <= FORMULA));
    lines.extend(shown.times.cells.get(at).cloned());
    let mut placed = Placed::new(Thing::Cell(cell.signal), lines, cell.reads.clone(), column);
    let names = cell.reads.iter().map(|&read| shown.names.of_signal(read).chars().count());
    let longest = names.max().unwrap_or(0) as f64 * CHARACTER + 2.0 * PAD;
    placed.width = placed.width.max(longest);
    placed
}
