//! A drawing as SVG.

use super::layout::{Layout, Placed, Thing, LINE, PAD};
use crate::exports::escaped;
use crate::listed::Listed;

/// The lines' colours, by signal: dark enough to be told apart on paper.
const COLOURS: [&str; 8] =
    ["#1f5fa8", "#b3432b", "#2f7d4f", "#7a4fa3", "#a8741f", "#227f8c", "#a83a73", "#5b6470"];

/// The whole drawing.
pub fn write(shown: &Listed, layout: &Layout, title: &str) -> String {
    let (note, more) = note(shown, layout.height);
    part(shown, layout, title, (0.0, layout.height, more), &note)
}

/// Each band as a drawing of its own, all as wide, so that a page may end between them.
pub fn parts(shown: &Listed, layout: &Layout, title: &str) -> String {
    let last = layout.bands.len().saturating_sub(1);
    let band = |(at, &(top, bottom)): (usize, &(f64, f64))| {
        let (note, more) = if at == last { note(shown, bottom) } else { Default::default() };
        part(shown, layout, title, (top, bottom, more), &note)
    };
    layout.bands.iter().enumerate().map(band).collect()
}

/// What stands between two edges, and a note of so much height under it.
fn part(
    shown: &Listed,
    layout: &Layout,
    title: &str,
    (top, bottom, more): (f64, f64, f64),
    note: &str,
) -> String {
    let (width, height) = (layout.width.ceil(), (bottom - top).ceil() + more);
    let mut text = format!(
        "<svg xmlns=\"http://www.w3.org/2000/svg\" width=\"{width}\" height=\"{height}\" \
         viewBox=\"0 {} {width} {height}\" font-family=\"monospace\" font-size=\"12\">\n\
         <title>{}</title>\n<rect y=\"{}\" width=\"100%\" height=\"100%\" fill=\"white\"/>\n",
        top.floor(),
        escaped(title),
        top.floor()
    );
    let here = |placed: &&Placed| placed.top >= top && placed.top < bottom;
    for placed in layout.placed.iter().filter(here) {
        for &signal in &placed.ports {
            text.push_str(&line(layout, placed, signal));
        }
    }
    for placed in layout.placed.iter().filter(here) {
        text.push_str(&thing(shown, layout, placed));
    }
    text.push_str(note);
    text.push_str("</svg>\n");
    text
}

/// The line of a signal from where the column before gives it, and through a lane to its end.
fn line(layout: &Layout, placed: &Placed, signal: usize) -> String {
    let giver = match layout.giver(signal, placed.column - 1) {
        Some(giver) => giver,
        None => return String::new(),
    };
    let (left, wide) = layout.columns[giver.column];
    let (to, width) = layout.columns[placed.column];
    let (start, end) = (left + giver.width, left + wide);
    let (y, goal) = (giver.middle(), placed.port(signal));
    let bend = (to - end) / 2.0;
    let through = match placed.thing {
        Thing::Lane(_) => format!(" H{:.1}", to + width),
        _ => String::new(),
    };
    let colour = COLOURS[signal % COLOURS.len()];
    let start = if matches!(giver.thing, Thing::Lane(_)) { end } else { start };
    format!(
        "<path d=\"M{start:.1} {y:.1} H{end:.1} C{:.1} {y:.1} {:.1} {goal:.1} {to:.1} {goal:.1}\
         {through}\" fill=\"none\" stroke=\"{colour}\" stroke-width=\"1.5\"/>\n",
        end + bend,
        to - bend
    )
}

fn thing(shown: &Listed, layout: &Layout, placed: &Placed) -> String {
    let left = layout.columns[placed.column].0;
    match placed.thing {
        Thing::Lane(_) => String::new(),
        Thing::Cell(_) => boxed(shown, placed, left),
        Thing::Input(_) => words(placed, left, "start"),
        Thing::Output => words(placed, left + 4.0, "start"),
    }
}

/// The lines of an input or of the output.
fn words(placed: &Placed, left: f64, anchor: &str) -> String {
    let line = |(at, line): (usize, &String)| {
        let y = placed.top + at as f64 * LINE + LINE * 0.72;
        let weight = if at == 0 { " font-weight=\"bold\"" } else { "" };
        let text = escaped(line);
        format!(
            "<text x=\"{left:.1}\" y=\"{y:.1}\" text-anchor=\"{anchor}\"{weight}>{text}</text>\n"
        )
    };
    placed.lines.iter().enumerate().map(line).collect()
}

/// A cell: its lines, and under them the names of what it reads, each at its port.
fn boxed(shown: &Listed, placed: &Placed, left: f64) -> String {
    let Placed { top, width, height, .. } = placed;
    let mut text = format!(
        "<rect x=\"{left:.1}\" y=\"{top:.1}\" width=\"{width:.1}\" height=\"{height:.1}\" rx=\"5\" \
         fill=\"#f5f8fc\" stroke=\"#33475b\"/>\n"
    );
    for (at, line) in placed.lines.iter().enumerate() {
        let y = top + PAD + at as f64 * LINE + LINE * 0.72;
        let weight = if at == 0 { " font-weight=\"bold\"" } else { "" };
        let (x, line) = (left + PAD, escaped(line));
        text.push_str(&format!("<text x=\"{x:.1}\" y=\"{y:.1}\"{weight}>{line}</text>\n"));
    }
    for &signal in &placed.ports {
        let (x, y) = (left + PAD, placed.port(signal) + LINE * 0.22);
        let (name, colour) = (shown.names.of_signal(signal), COLOURS[signal % COLOURS.len()]);
        let name = escaped(&name);
        text.push_str(&format!(
            "<text x=\"{x:.1}\" y=\"{y:.1}\" fill=\"{colour}\">{name}</text>\n"
        ));
    }
    text
}

/// Which inputs nothing reads, under the drawing, and the height that this takes.
fn note(shown: &Listed, top: f64) -> (String, f64) {
    let unread = (0..shown.sheet.n).filter(|&signal| !shown.sheet.reads(signal));
    let unread: Vec<String> =
        unread.map(|signal| escaped(&shown.names.of_signal(signal))).collect();
    if unread.is_empty() {
        return (String::new(), 0.0);
    }
    let mut text = String::new();
    let mut height = 0.0;
    for name in std::iter::once("not read:".to_string()).chain(unread) {
        let y = top + height + LINE * 0.5;
        text.push_str(&format!("<text x=\"14\" y=\"{y:.1}\" fill=\"#5b6470\">{name}</text>\n"));
        height += LINE;
    }
    (text, height + 6.0)
}
