//! What a cell computes, as a short formula. It is found by trying, and shown only if the proved
//! reader reads it as the cell's table.

use crate::sheets::Cell;
use pelzurivan::{read_formula, table_length};
use std::collections::HashMap;

/// A formula over a cell's inputs, which are numbered from 0.
#[derive(Clone, Debug, PartialEq, Eq)]
pub enum Formula {
    Constant(bool),
    Input(usize, bool),
    Joined(char, Vec<Formula>),
}

use Formula::{Constant, Input, Joined};

/// The short formula of a cell, if the proved reader takes it for the cell's table.
pub fn of(cell: &Cell) -> Option<Formula> {
    let inputs: Vec<usize> = (0..cell.reads.len()).collect();
    let formula = Search::default().shortest(&cell.bits, &inputs);
    let letters: String = formula.text(&|j| char::from(b'a' + j as u8).to_string());
    let text: Vec<u8> = letters.bytes().filter(|c| *c != b' ').collect();
    let mut table = vec![0; table_length(cell.reads.len())];
    read_formula(cell.reads.len() as u64, &text, &mut table).ok()?;
    let same = |x: usize| (table[x / 8] >> (x % 8) & 1 == 1) == cell.bits[x];
    (0..cell.bits.len()).all(same).then_some(formula)
}

impl Formula {
    /// The text, with a name for each input.
    pub fn text(&self, name: &dyn Fn(usize) -> String) -> String {
        match self {
            Constant(one) => if *one { "1" } else { "0" }.to_string(),
            Input(j, true) => name(*j),
            Input(j, false) => format!("!{}", name(*j)),
            Joined(by, parts) => {
                let part = |part: &Formula| match part {
                    Joined(inner, _) if binds(*inner) <= binds(*by) => {
                        format!("({})", part.text(name))
                    }
                    _ => part.text(name),
                };
                parts.iter().map(part).collect::<Vec<_>>().join(&format!(" {by} "))
            }
        }
    }

    fn length(&self) -> usize {
        match self {
            Joined(_, parts) => parts.iter().map(|part| part.length() + 1).sum::<usize>() + 1,
            _ => 1,
        }
    }
}

fn binds(by: char) -> u8 {
    match by {
        '|' => 0,
        '^' => 1,
        _ => 2,
    }
}

/// Joins two formulas; a part that is joined the same way is taken apart.
fn join(by: char, one: Formula, other: Formula) -> Formula {
    match (by, &one, &other) {
        ('&', Constant(true), _) | ('|', Constant(false), _) => return other,
        ('&', _, Constant(true)) | ('|', _, Constant(false)) => return one,
        _ => {}
    }
    let mut parts = Vec::new();
    for formula in [one, other] {
        match formula {
            Joined(inner, inside) if inner == by => parts.extend(inside),
            whole => parts.push(whole),
        }
    }
    Joined(by, parts)
}

/// What was found already, by the table and its inputs.
#[derive(Default)]
struct Search {
    found: HashMap<(Vec<bool>, Vec<usize>), Formula>,
}

impl Search {
    fn shortest(&mut self, bits: &[bool], inputs: &[usize]) -> Formula {
        if let Some(at) =
            (0..inputs.len()).find(|&at| half(bits, at, false) == half(bits, at, true))
        {
            return self.shortest(&half(bits, at, false), &without(inputs, at));
        }
        match inputs {
            [] => return Constant(bits[0]),
            [input] => return Input(*input, bits[1]),
            _ => {}
        }
        let key = (bits.to_vec(), inputs.to_vec());
        if let Some(formula) = self.found.get(&key) {
            return formula.clone();
        }
        let formula = self.parted(bits, inputs).unwrap_or_else(|| self.halved(bits, inputs));
        self.found.insert(key, formula.clone());
        formula
    }

    /// Two sides that share no input, joined by and, or, or exclusive or. The first side has the
    /// last input, and as few others as will do.
    fn parted(&mut self, bits: &[bool], inputs: &[usize]) -> Option<Formula> {
        let last = 1 << (inputs.len() - 1);
        let mut sides: Vec<usize> = (last..2 * last - 1).collect();
        sides.sort_by_key(|side| side.count_ones());
        for side in sides {
            let rest = (2 * last - 1) & !side;
            for by in ['&', '|', '^'] {
                let (one, other) = (shadow(bits, side, by, false), shadow(bits, rest, by, true));
                let joined = |x: usize| match by {
                    '&' => one[x] & other[x],
                    '|' => one[x] | other[x],
                    _ => one[x] ^ other[x],
                };
                if (0..bits.len()).all(|x| joined(x) == bits[x]) {
                    let other = self.shortest(&other, inputs);
                    return Some(join(by, other, self.shortest(&one, inputs)));
                }
            }
        }
        None
    }

    /// By the value of one input: whichever makes the shortest.
    fn halved(&mut self, bits: &[bool], inputs: &[usize]) -> Formula {
        let mut best: Option<Formula> = None;
        for at in 0..inputs.len() {
            let (low, high) = (half(bits, at, false), half(bits, at, true));
            let rest = without(inputs, at);
            let within = |a: &[bool], b: &[bool]| a.iter().zip(b).all(|(a, b)| !a || *b);
            let (one, none) = (Input(inputs[at], true), Input(inputs[at], false));
            let (f, g) = (self.shortest(&low, &rest), self.shortest(&high, &rest));
            let formula = if within(&low, &high) {
                join('|', f, join('&', one, g))
            } else if within(&high, &low) {
                join('|', g, join('&', none, f))
            } else {
                join('|', join('&', one, g), join('&', none, f))
            };
            if best.as_ref().map_or(true, |best| formula.length() < best.length()) {
                best = Some(formula);
            }
        }
        best.unwrap_or(Constant(false))
    }
}

/// The half of a table at one value of an input.
fn half(bits: &[bool], at: usize, value: bool) -> Vec<bool> {
    let taken = (0..bits.len()).filter(|x| (x >> at & 1 == 1) == value);
    taken.map(|x| bits[x]).collect()
}

fn without(inputs: &[usize], at: usize) -> Vec<usize> {
    let others = inputs.iter().enumerate().filter(|(place, _)| *place != at);
    others.map(|(_, input)| *input).collect()
}

/// What one side alone could give: for and, whether the table is 1 for some values of the others;
/// for or, whether for all; for exclusive or its value where the others are 0, less the corner on the
/// second side.
fn shadow(bits: &[bool], side: usize, by: char, second: bool) -> Vec<bool> {
    let mut seen = vec![by == '|'; bits.len()];
    for x in 0..bits.len() {
        match by {
            '&' => seen[x & side] |= bits[x],
            '|' => seen[x & side] &= bits[x],
            _ => seen[x & side] = bits[x & side] ^ (second & bits[0]),
        }
    }
    (0..bits.len()).map(|x| seen[x & side]).collect()
}

#[cfg(test)]
mod tests {
    use super::*;

    fn cell(k: usize, table: u64) -> Cell {
        let bits = (0..1 << k).map(|x| table >> x & 1 == 1).collect();
        Cell { signal: 20, reads: (0..k).collect(), bits, depth: 1 }
    }

    fn text(k: usize, table: u64) -> String {
        let name = |j: usize| char::from(b'a' + j as u8).to_string();
        of(&cell(k, table)).map_or_else(String::new, |formula| formula.text(&name))
    }

    #[test]
    fn known_cells_are_said_shortly() {
        assert_eq!(text(2, 8), "a & b");
        assert_eq!(text(2, 9), "a ^ !b");
        assert_eq!(text(3, 0xCA), "c & b | !c & a");
        assert_eq!(text(3, 0xE8), "b & c | a & (b | c)");
        assert_eq!(text(6, 1 << 63), "a & b & c & d & e & f");
        assert_eq!(text(3, 0x96), "a ^ b ^ c");
        assert_eq!(text(2, 0xF), "1");
        assert_eq!(text(2, 0xC), "b");
    }

    /// Every table of up to three inputs and many of six has a formula that reads back.
    #[test]
    fn every_formula_reads_back() {
        for k in 1..=3 {
            for table in 0..1u64 << (1 << k) {
                assert!(of(&cell(k, table)).is_some(), "{k} {table:X}");
            }
        }
        let mut table = 0x9E37_79B9_7F4A_7C15u64;
        for _ in 0..40 {
            table = table.wrapping_mul(0x5851_F42D_4C95_7F2D).wrapping_add(0x1405_7B7E_F767_814F);
            assert!(of(&cell(6, table)).is_some(), "{table:X}");
        }
    }
}
