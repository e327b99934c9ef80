//! Cells, and the records that hold them on a sheet, in two editions.

use crate::table::Table;

pub const MOST_RECORDS: usize = 15;
/// What stands in each unused signal place.
pub const UNUSED: u8 = 255;
/// The desk of bench use, and the last of the others.
pub const BENCH: u8 = 0;
pub const LAST_DESK: u8 = 4;

/// An edition of the sheet: how large a cell may be, and how its record is laid
/// out. Byte 0 is k, the signal places come right behind it, then the desk, then
/// zeros up to the table, if there is anything between.
#[derive(Debug, PartialEq, Eq)]
pub struct Edition {
    /// How a call is told.
    pub told: u64,
    /// The most inputs a cell may have.
    pub most_reads: usize,
    pub record_bytes: usize,
    pub desk_at: usize,
    pub table_at: usize,
}

pub static FIRST: Edition = Edition {
    told: 1,
    most_reads: MOST_READS,
    record_bytes: RECORD_BYTES,
    desk_at: 7,
    table_at: 8,
};
pub static SECOND: Edition =
    Edition { told: 2, most_reads: 8, record_bytes: 48, desk_at: 9, table_at: 16 };

// The first edition's numbers, for those that know only that: cards, times and the programs.
pub const MOST_READS: usize = 6;
pub const RECORD_BYTES: usize = 16;
pub const SHEET_BYTES: usize = RECORD_BYTES * MOST_RECORDS;

#[derive(Clone, Debug, PartialEq, Eq)]
pub struct Cell {
    /// The signals it reads, strictly increasing, the first as bit 0.
    pub reads: Vec<usize>,
    pub table: Table,
}

impl Cell {
    /// A cell with the table of this number (at most 6 inputs).
    pub fn numbered(reads: Vec<usize>, number: u64) -> Cell {
        let table = Table::from_number(reads.len(), number);
        Cell { reads, table }
    }
}

impl Edition {
    /// The longest sheet.
    pub fn sheet_bytes(&self) -> usize {
        self.record_bytes * MOST_RECORDS
    }

    pub fn record(&self, cell: &Cell, desk: u8) -> Vec<u8> {
        let mut record = vec![0; self.record_bytes];
        record[0] = cell.reads.len() as u8;
        record[1..self.desk_at].fill(UNUSED);
        for (place, &signal) in record[1..self.desk_at].iter_mut().zip(&cell.reads) {
            *place = signal as u8;
        }
        record[self.desk_at] = desk;
        for (byte, &table) in record[self.table_at..].iter_mut().zip(&cell.table.to_bytes()) {
            *byte = table;
        }
        record
    }

    /// Reads a record of a desk that may read only signals below `limit`; nothing
    /// if it breaks a record rule.
    pub fn cell(&self, record: &[u8], limit: usize, desk: u8) -> Option<Cell> {
        let k = record[0] as usize;
        if !(1..=self.most_reads).contains(&k) {
            return None;
        }
        let (signals, unused) = record[1..self.desk_at].split_at(k);
        let reads: Vec<usize> = signals.iter().map(|&signal| signal as usize).collect();
        let increasing = reads.windows(2).all(|two| two[0] < two[1]);
        let known = reads.iter().all(|&signal| signal < limit);
        let unused_right = unused.iter().all(|&place| place == UNUSED);
        let of_desk = record[self.desk_at] == desk;
        let between_clear = record[self.desk_at + 1..self.table_at].iter().all(|&byte| byte == 0);
        // As many bits as the largest cell has.
        let bits = Table::from_bytes(self.most_reads, &record[self.table_at..]).bits;
        let (used, spare) = bits.split_at(1 << k);
        let spare_clear = !spare.contains(&true);
        let sound = increasing && known && unused_right && of_desk && between_clear && spare_clear;
        sound.then(|| Cell { reads, table: Table { inputs: k, bits: used.to_vec() } })
    }

    /// The cells of a sheet whose length is right, or the index of its first bad
    /// record. The first record decides the desk of all.
    pub fn read_sheet(&self, n: usize, sheet: &[u8]) -> Result<Vec<Cell>, usize> {
        match self.desk_of(sheet) {
            desk if desk > LAST_DESK => Err(0),
            desk => self.read_records(n, desk, sheet),
        }
    }

    /// The cells of records that must all be one desk's, or the index of the first bad one.
    pub fn read_records(&self, n: usize, desk: u8, records: &[u8]) -> Result<Vec<Cell>, usize> {
        let records = records.chunks(self.record_bytes).enumerate();
        records.map(|(i, record)| self.cell(record, n + i, desk).ok_or(i)).collect()
    }

    pub fn write_sheet(&self, desk: u8, cells: &[Cell]) -> Vec<u8> {
        cells.iter().flat_map(|cell| self.record(cell, desk)).collect()
    }

    /// The desk that a sheet is for.
    pub fn desk_of(&self, sheet: &[u8]) -> u8 {
        sheet[self.desk_at]
    }

    /// Puts another desk into each whole record.
    pub fn set_desk(&self, sheet: &mut [u8], desk: u8) {
        for record in sheet.chunks_exact_mut(self.record_bytes) {
            record[self.desk_at] = desk;
        }
    }
}

// The same for the first edition.

pub fn read_sheet(n: usize, sheet: &[u8]) -> Result<Vec<Cell>, usize> {
    FIRST.read_sheet(n, sheet)
}

pub fn read_records(n: usize, desk: u8, records: &[u8]) -> Result<Vec<Cell>, usize> {
    FIRST.read_records(n, desk, records)
}

/// A sheet for bench use.
pub fn write_sheet(cells: &[Cell]) -> Vec<u8> {
    FIRST.write_sheet(BENCH, cells)
}

pub fn write_sheet_for(desk: u8, cells: &[Cell]) -> Vec<u8> {
    FIRST.write_sheet(desk, cells)
}

pub fn desk_of(sheet: &[u8]) -> u8 {
    FIRST.desk_of(sheet)
}

pub fn set_desk(sheet: &mut [u8], desk: u8) {
    FIRST.set_desk(sheet, desk);
}
