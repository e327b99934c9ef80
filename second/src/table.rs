//! A gate table: one bit for each assignment, kept as a plain list.

use crate::sets::size;

/// The most inputs a gate may have.
pub const MOST_INPUTS: usize = 16;

#[derive(Clone, Debug, PartialEq, Eq)]
pub struct Table {
    pub inputs: usize,
    /// The bit for assignment x stands at place x.
    pub bits: Vec<bool>,
}

impl Table {
    /// The table whose bit at each assignment is what the rule says.
    pub fn from_rule(inputs: usize, rule: impl FnMut(usize) -> bool) -> Table {
        let bits = (0..1usize << inputs).map(rule).collect();
        Table { inputs, bits }
    }

    /// How many bytes the table of a gate takes: one up to 3 inputs, then 2^(n-3).
    pub fn byte_length(inputs: usize) -> usize {
        if inputs <= 3 {
            1
        } else {
            1 << (inputs - 3)
        }
    }

    /// Reads 2^n bits; the bytes must be long enough, spare bits are not looked at.
    pub fn from_bytes(inputs: usize, bytes: &[u8]) -> Table {
        Table::from_rule(inputs, |x| (bytes[x / 8] >> (x % 8)) & 1 == 1)
    }

    /// The bytes of the table, spare bits zero.
    pub fn to_bytes(&self) -> Vec<u8> {
        let mut bytes = vec![0; Table::byte_length(self.inputs)];
        for (x, &bit) in self.bits.iter().enumerate() {
            if bit {
                bytes[x / 8] |= 1 << (x % 8);
            }
        }
        bytes
    }

    /// The table of a cell (at most 6 inputs) from its number.
    pub fn from_number(inputs: usize, number: u64) -> Table {
        Table::from_rule(inputs, |x| (number >> x) & 1 == 1)
    }

    /// The number of a cell's table (at most 6 inputs).
    pub fn to_number(&self) -> u64 {
        let ones = self.bits.iter().enumerate().filter(|(_, &bit)| bit);
        ones.map(|(x, _)| 1u64 << x).sum()
    }

    /// How many words of 64 bits have a bit that is set.
    pub fn words(&self) -> usize {
        self.bits.chunks(64).filter(|word| word.contains(&true)).count()
    }

    /// Whether flipping this input alone changes the bit somewhere.
    pub fn depends_on(&self, input: usize) -> bool {
        (0..self.bits.len()).any(|x| self.bits[x] != self.bits[x ^ (1 << input)])
    }

    /// The inputs that count: the set of those that the table depends on.
    pub fn counting(&self) -> u16 {
        (0..self.inputs).filter(|&input| self.depends_on(input)).map(|input| 1 << input).sum()
    }

    /// The table over a set of its inputs, all others fixed at 0.
    pub fn over(&self, set: u16) -> Table {
        let left = (0..self.bits.len()).filter(|x| x & !usize::from(set) == 0);
        Table { inputs: size(set), bits: left.map(|x| self.bits[x]).collect() }
    }
}
