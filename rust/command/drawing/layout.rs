//! Where everything of a drawing stands: the columns of each band beside each other, the bands one
//! under another.

use super::bands;
use crate::listed::Listed;
use std::collections::HashMap;

/// The width of a character, the height of a line, the space around text, between two things of a
/// column and between two columns.
pub const CHARACTER: f64 = 7.3;
pub const LINE: f64 = 17.0;
pub const PAD: f64 = 9.0;
const BETWEEN: f64 = 14.0;
const CHANNEL: f64 = 76.0;
const MARGIN: f64 = 14.0;

/// What stands in a column: with its signal what comes in or a cell.
#[derive(Clone, Copy, Debug, PartialEq, Eq)]
pub enum Thing {
    Input(usize),
    Cell(usize),
    /// A signal that passes.
    Lane(usize),
    /// What goes out.
    Output,
}

#[derive(Clone, Debug)]
pub struct Placed {
    pub thing: Thing,
    /// The lines of text, those of a cell above its ports.
    pub lines: Vec<String>,
    /// The signals that come in, in the order of their ports.
    pub ports: Vec<usize>,
    /// The signal that goes on to the next column.
    pub gives: Option<usize>,
    pub column: usize,
    pub top: f64,
    pub width: f64,
    pub height: f64,
}

#[derive(Default)]
pub struct Layout {
    pub placed: Vec<Placed>,
    /// The left edge and the width of each column.
    pub columns: Vec<(f64, f64)>,
    /// The upper and the lower edge of each band.
    pub bands: Vec<(f64, f64)>,
    pub width: f64,
    pub height: f64,
}

impl Placed {
    pub fn new(thing: Thing, lines: Vec<String>, ports: Vec<usize>, column: usize) -> Placed {
        let names = ports.len();
        let gives = match thing {
            Thing::Input(signal) | Thing::Cell(signal) | Thing::Lane(signal) => Some(signal),
            Thing::Output => None,
        };
        let longest = lines.iter().map(|line| line.chars().count()).max().unwrap_or(0);
        let (width, height) = match thing {
            Thing::Lane(_) => (0.0, 4.0),
            Thing::Cell(_) => (
                longest as f64 * CHARACTER + 2.0 * PAD,
                (lines.len() + names) as f64 * LINE + 2.0 * PAD,
            ),
            _ => (longest as f64 * CHARACTER + PAD, lines.len() as f64 * LINE),
        };
        Placed { thing, lines, ports, gives, column, top: 0.0, width, height }
    }

    pub fn middle(&self) -> f64 {
        self.top + self.height / 2.0
    }

    /// The height at which a signal comes in: its port, or the middle.
    pub fn port(&self, signal: usize) -> f64 {
        match (self.thing, self.ports.iter().position(|port| *port == signal)) {
            (Thing::Cell(_), Some(at)) => {
                self.top + PAD + (self.lines.len() + at) as f64 * LINE + LINE / 2.0
            }
            _ => self.middle(),
        }
    }
}

impl Layout {
    pub fn of(shown: &Listed) -> Layout {
        let mut layout = Layout::default();
        for columns in bands::of(shown) {
            layout.add(columns);
        }
        layout
    }

    /// A band under those before it.
    fn add(&mut self, mut columns: Vec<Vec<Placed>>) {
        order(&mut columns);
        stack(&mut columns);
        for column in 1..columns.len() {
            settle(&mut columns, column);
        }
        let before = self.columns.len();
        let mut left = MARGIN;
        for column in &columns {
            self.columns.push((left, widest(column)));
            left += widest(column) + CHANNEL;
        }
        self.width = self.width.max(width(&columns));
        let mut placed = columns.concat();
        let least = placed.iter().map(|thing| thing.top).fold(f64::INFINITY, f64::min);
        for thing in &mut placed {
            thing.top += self.height + MARGIN - least;
            thing.column += before;
        }
        let bottom = placed.iter().map(|thing| thing.top + thing.height).fold(0.0, f64::max);
        self.bands.push((self.height, bottom + MARGIN));
        self.height = bottom + MARGIN;
        self.placed.extend(placed);
    }

    /// What a signal comes from in a column.
    pub fn giver(&self, signal: usize, column: usize) -> Option<&Placed> {
        self.placed.iter().find(|placed| placed.gives == Some(signal) && placed.column == column)
    }
}

fn widest(column: &[Placed]) -> f64 {
    column.iter().map(|thing| thing.width).fold(0.0, f64::max)
}

/// The width of columns beside each other.
pub fn width(columns: &[Vec<Placed>]) -> f64 {
    let channels = columns.len().saturating_sub(1) as f64 * CHANNEL;
    columns.iter().map(|column| widest(column)).sum::<f64>() + channels + 2.0 * MARGIN
}

/// Orders each column by where its signals come from, and the ports of each cell alike.
fn order(columns: &mut [Vec<Placed>]) {
    for at in 1..columns.len() {
        let before = columns[at - 1].iter().enumerate();
        let heights: HashMap<usize, f64> =
            before.filter_map(|(place, thing)| Some((thing.gives?, place as f64))).collect();
        let height = |signal: &usize| heights.get(signal).copied().unwrap_or(0.0);
        for thing in &mut columns[at] {
            thing.ports.sort_by(|a, b| height(a).total_cmp(&height(b)));
        }
        let mean = |thing: &Placed| {
            thing.ports.iter().map(height).sum::<f64>() / thing.ports.len().max(1) as f64
        };
        columns[at].sort_by(|a, b| mean(a).total_cmp(&mean(b)));
    }
}

/// Each column from the top down, all centred alike.
fn stack(columns: &mut [Vec<Placed>]) {
    for column in columns {
        let all: f64 = column.iter().map(|thing| thing.height + BETWEEN).sum();
        let mut top = -all / 2.0;
        for thing in column {
            thing.top = top;
            top += thing.height + BETWEEN;
        }
    }
}

/// Moves the things of a column towards where their signals come from, without changing their order.
fn settle(columns: &mut [Vec<Placed>], at: usize) {
    let heights: HashMap<usize, f64> =
        columns[at - 1].iter().filter_map(|thing| Some((thing.gives?, thing.middle()))).collect();
    let wanted = |thing: &Placed| {
        let places = thing
            .ports
            .iter()
            .filter_map(|signal| Some(heights.get(signal)? - (thing.port(*signal) - thing.top)));
        let places: Vec<f64> = places.collect();
        places.iter().sum::<f64>() / places.len().max(1) as f64
    };
    let wanted: Vec<f64> = columns[at].iter().map(wanted).collect();
    let mut below = f64::NEG_INFINITY;
    for (thing, wanted) in columns[at].iter_mut().zip(&wanted) {
        thing.top = wanted.max(below);
        below = thing.top + thing.height + BETWEEN;
    }
    let moved: f64 =
        columns[at].iter().zip(&wanted).map(|(thing, wanted)| wanted - thing.top).sum();
    let moved = moved / wanted.len().max(1) as f64;
    for thing in &mut columns[at] {
        thing.top += moved;
    }
}
