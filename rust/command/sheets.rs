//! A sheet's records, read plainly, for whoever prints or draws them. Whether they keep the rules is
//! the library's to say: a sheet is listed only after one of its calls took it.

use crate::tables::hex_of;
use pelzurivan::{RECORD, RECORDS, SECOND_RECORD};

/// How records of an edition lie.
#[derive(Clone, Copy, Debug, PartialEq, Eq)]
pub struct Edition {
    pub told: u64,
    pub most_inputs: usize,
    pub record: usize,
    desk_at: usize,
    table_at: usize,
}

impl Edition {
    /// The second, or the first for any other number, which the library refuses.
    pub fn of(told: u64) -> Edition {
        match told {
            2 => Edition { told, most_inputs: 8, record: SECOND_RECORD, desk_at: 9, table_at: 16 },
            _ => Edition { told, most_inputs: 6, record: RECORD, desk_at: 7, table_at: 8 },
        }
    }

    /// The bytes of room for a sheet.
    pub fn sheet(&self) -> usize {
        RECORDS * self.record
    }
}

/// One record: its signals, the desk and its table's bits.
pub fn record(edition: &Edition, reads: &[u8], desk: u8, bits: &[bool]) -> Vec<u8> {
    let mut bytes = vec![0; edition.record];
    bytes[0] = reads.len() as u8;
    bytes[1..=edition.most_inputs].fill(255);
    bytes[1..=reads.len()].copy_from_slice(reads);
    bytes[edition.desk_at] = desk;
    for (x, _) in bits.iter().enumerate().filter(|(_, bit)| **bit) {
        bytes[edition.table_at + x / 8] |= 1 << (x % 8);
    }
    bytes
}

/// A cell as it is shown.
#[derive(Clone, Debug)]
pub struct Cell {
    pub signal: usize,
    pub reads: Vec<usize>,
    pub bits: Vec<bool>,
    /// 1 for a cell that reads inputs alone, else one more than the deepest cell that it reads.
    pub depth: usize,
}

impl Cell {
    /// The table most significant first, as many digits as it has bits for.
    pub fn hex(&self) -> String {
        let digits = (self.bits.len() + 3) / 4;
        let mut bytes = vec![0u8; (digits + 1) / 2];
        for x in (0..self.bits.len()).filter(|&x| self.bits[x]) {
            bytes[x / 8] |= 1 << (x % 8);
        }
        let all = hex_of(bytes.iter().rev());
        all[all.len() - digits..].to_string()
    }
}

/// A sheet that the library took: n, the edition, the desk and the cells.
#[derive(Clone, Debug)]
pub struct Sheet {
    pub n: usize,
    pub edition: Edition,
    pub desk: u8,
    pub bytes: Vec<u8>,
    pub cells: Vec<Cell>,
}

impl Sheet {
    pub fn new(n: usize, edition: Edition, bytes: &[u8]) -> Sheet {
        let mut cells: Vec<Cell> = Vec::new();
        for (i, record) in bytes.chunks_exact(edition.record).enumerate() {
            let k = usize::from(record[0]).min(edition.most_inputs);
            let reads: Vec<usize> = record[1..=k].iter().map(|&s| usize::from(s)).collect();
            let bit = |x: usize| record[edition.table_at + x / 8] >> (x % 8) & 1 == 1;
            let below = reads.iter().filter_map(|&s| cells.get(s.checked_sub(n)?));
            let depth = 1 + below.map(|cell| cell.depth).max().unwrap_or(0);
            let bits = (0..1 << k).map(bit).collect();
            cells.push(Cell { signal: n + i, reads, bits, depth });
        }
        let desk = bytes.get(edition.desk_at).copied().unwrap_or(0);
        Sheet { n, edition, desk, bytes: bytes.to_vec(), cells }
    }

    pub fn count(&self) -> usize {
        self.cells.len()
    }

    /// The most inputs that a cell has.
    pub fn widest(&self) -> usize {
        self.cells.iter().map(|cell| cell.reads.len()).max().unwrap_or(0)
    }

    /// The longest way from an input to the output, in cells.
    pub fn depth(&self) -> usize {
        self.cells.iter().map(|cell| cell.depth).max().unwrap_or(0)
    }

    /// Whether a signal is read by some cell.
    pub fn reads(&self, signal: usize) -> bool {
        self.cells.iter().any(|cell| cell.reads.contains(&signal))
    }
}

#[cfg(test)]
mod tests {
    use super::*;

    #[test]
    fn records_are_read_as_they_are_written() {
        for told in [1, 2] {
            let edition = Edition::of(told);
            let mut bytes = record(&edition, &[0, 2], 3, &[false, false, false, true]);
            bytes.extend(record(&edition, &[1, 3], 3, &[true, false, false, true]));
            let sheet = Sheet::new(3, edition, &bytes);
            let shown: Vec<_> = sheet.cells.iter().map(|c| (c.signal, c.hex(), c.depth)).collect();
            assert_eq!(shown, [(3, "8".to_string(), 1), (4, "9".to_string(), 2)]);
            assert_eq!((sheet.desk, sheet.cells[1].reads.clone()), (3, vec![1, 3]));
        }
    }

    #[test]
    fn tables_have_as_many_digits_as_bits_ask_for() {
        let cell = |k: usize| Cell { signal: 9, reads: vec![], bits: vec![true; 1 << k], depth: 1 };
        let all: Vec<String> = (1..=6).map(|k| cell(k).hex()).collect();
        assert_eq!(all[..4], ["3", "F", "FF", "FFFF"]);
        assert_eq!((all[4].len(), all[5].len()), (8, 16));
    }
}
