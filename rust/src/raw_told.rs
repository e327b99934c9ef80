//! The calls beside those of raw.rs that came with the second edition of the sheet, with the lower
//! bound on cells and with several first cells in one chain.

use crate::raw::{In, Made, Out, Placed, Ran, Sought};

/// D is 256 bits, least word first.
#[repr(C)]
pub struct TriedTold {
    pub number: u64,
    pub d: [u64; 4],
    pub b: u64,
    pub columns: u64,
}

#[repr(C)]
pub struct Rewritten {
    pub number: u64,
    pub index: u64,
    pub count: u64,
}

#[repr(C)]
pub struct Bounded {
    pub number: u64,
    pub least: u64,
}

extern "C" {
    pub fn pelzurivan_try_told(
        edition: u64,
        n: u64,
        k: u64,
        own: u64,
        shared: u64,
        table: In,
        table_length: usize,
        room: Out,
        room_length: usize,
    ) -> TriedTold;
    pub fn pelzurivan_find_told(
        edition: u64,
        n: u64,
        k: u64,
        table: In,
        table_length: usize,
        work: Out,
        work_length: usize,
    ) -> Sought;
    pub fn pelzurivan_make_told(
        edition: u64,
        n: u64,
        k: u64,
        desk: u64,
        table: In,
        table_length: usize,
        sheet: Out,
        sheet_length: usize,
        work: Out,
        work_length: usize,
    ) -> Made;
    pub fn pelzurivan_run_told(edition: u64, n: u64, sheet: In, sheet_length: usize, x: u64)
        -> Ran;
    pub fn pelzurivan_rebuild_told(
        edition: u64,
        n: u64,
        sheet: In,
        sheet_length: usize,
        table: Out,
        table_length: usize,
    ) -> Placed;
    pub fn pelzurivan_check_told(
        edition: u64,
        n: u64,
        table: In,
        table_length: usize,
        sheet: In,
        sheet_length: usize,
    ) -> Placed;
    pub fn pelzurivan_rewrite(
        n: u64,
        sheet: In,
        sheet_length: usize,
        room: Out,
        room_length: usize,
    ) -> Rewritten;
    pub fn pelzurivan_bound(
        edition: u64,
        n: u64,
        k: u64,
        table: In,
        table_length: usize,
        work: Out,
        work_length: usize,
    ) -> Bounded;
    pub fn pelzurivan_make_any(
        n: u64,
        k: u64,
        desk: u64,
        table: In,
        table_length: usize,
        sheet: Out,
        sheet_length: usize,
        work: Out,
        work_length: usize,
    ) -> Made;
}
