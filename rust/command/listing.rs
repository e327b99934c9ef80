//! A sheet as a person reads it: a line for each cell.

use crate::listed::Listed;
use crate::shown::Shown;

/// The longest formula on one line; a longer one goes on under it.
const WIDE: usize = 64;

pub fn write(shown: &Shown) -> String {
    format!("{}\n{}", shown.summary(), cells(shown))
}

pub fn cells(shown: &Listed) -> String {
    let mut head = vec!["signal", "reads", "table", "depth"];
    if !shown.times.cells.is_empty() {
        head.push("settles");
    }
    head.push("gives");
    let mut rows = vec![head.iter().map(|word| word.to_string()).collect::<Vec<_>>()];
    for (at, cell) in shown.sheet.cells.iter().enumerate() {
        let reads: Vec<String> = cell.reads.iter().map(|&s| shown.names.of_signal(s)).collect();
        let reads = reads.join(", ").replace(['[', ']'], "");
        let mut row = vec![shown.signal(at), reads, cell.hex(), cell.depth.to_string()];
        row.extend(shown.times.cells.get(at).cloned());
        row.push(shown.gives(at));
        rows.push(row);
    }
    columns(&rows)
}

/// Rows of words in columns; the last column goes on under itself where it is too wide.
pub fn columns(rows: &[Vec<String>]) -> String {
    let columns = rows.iter().map(Vec::len).max().unwrap_or(0);
    let width = |column: usize| {
        let cells = rows.iter().filter_map(|row| row.get(column));
        cells.map(|cell| cell.chars().count()).max().unwrap_or(0)
    };
    let widths: Vec<usize> = (0..columns.saturating_sub(1)).map(width).collect();
    let indent: usize = widths.iter().map(|width| width + 2).sum::<usize>() + 2;
    let mut text = String::new();
    for row in rows {
        text.push_str("  ");
        for (at, cell) in row.iter().enumerate() {
            match widths.get(at) {
                Some(width) => text.push_str(&format!("{cell:width$}  ")),
                None => text.push_str(&folded(cell, indent)),
            }
        }
        text.truncate(text.trim_end().len());
        text.push('\n');
    }
    text
}

/// A long text on several lines, broken at spaces.
fn folded(text: &str, indent: usize) -> String {
    let mut lines = vec![String::new()];
    for word in text.split(' ') {
        let last = lines.len() - 1;
        let line = &mut lines[last];
        if !line.is_empty() && line.chars().count() + 1 + word.chars().count() > WIDE {
            lines.push(word.to_string());
        } else {
            if !line.is_empty() {
                line.push(' ');
            }
            line.push_str(word);
        }
    }
    lines.join(&format!("\n{}", " ".repeat(indent)))
}
