//! A sheet as BLIF, for ABC and yosys.

use super::signal_names;
use crate::sheets::Cell;
use crate::shown::Shown;

pub fn write(shown: &Shown) -> String {
    let names = signal_names(shown);
    let n = shown.sheet.n;
    let output = names.last().cloned().unwrap_or_default();
    let mut text = format!("# {}\n.model gate\n", shown.summary());
    text.push_str(&format!(".inputs {}\n.outputs {output}\n", names[..n].join(" ")));
    for cell in &shown.sheet.cells {
        let reads: String =
            cell.reads.iter().map(|&signal| format!(" {}", names[signal])).collect();
        // ABC takes a constant only if it reads nothing.
        let reads = if constant(cell) { String::new() } else { reads };
        text.push_str(&format!(".names{reads} {}\n{}", names[cell.signal], rows(cell)));
    }
    text.push_str(".end\n");
    text
}

fn constant(cell: &Cell) -> bool {
    cell.bits.iter().all(|bit| *bit == cell.bits[0])
}

/// The rows where the cell is 1, or, if they are fewer, those where it is 0.
fn rows(cell: &Cell) -> String {
    if constant(cell) {
        return if cell.bits[0] { "1\n".to_string() } else { String::new() };
    }
    let ones = cell.bits.iter().filter(|bit| **bit).count();
    let value = 2 * ones <= cell.bits.len();
    let taken = (0..cell.bits.len()).filter(|&x| cell.bits[x] == value);
    let row = |x: usize| {
        let places = (0..cell.reads.len()).map(|j| if x >> j & 1 == 1 { '1' } else { '0' });
        format!("{} {}\n", places.collect::<String>(), u8::from(value))
    };
    taken.map(row).collect()
}
