//! Every call, one file each.

pub mod check;
pub mod check_in;
pub mod cut_load;
pub mod find;
pub mod find_in;
pub mod find_several;
pub mod least_cells;
pub mod load;
pub mod look_up;
pub mod make;
pub mod make_any;
pub mod make_for_desk;
pub mod make_in;
pub mod one_store;
pub mod read_formula;
pub mod rebuild;
pub mod rebuild_in;
pub mod rewrite;
pub mod run;
pub mod run_desk;
pub mod run_in;
pub mod settle;
pub mod shorter;
pub mod slack;
pub mod try_in;
pub mod try_several;
pub mod try_split;
pub mod turn;
pub mod write_formula;

use crate::case::{Call, Case};
use crate::cell::{Edition, FIRST, SECOND};
use crate::table::Table;

/// The calls that are answered today, by code. A call stands here from the day
/// its request lands: without its line none of its cases is asked or answered.
pub static TABLE: &[&Call] = &[
    &try_split::CALL,
    &find::CALL,
    &make::CALL,
    &run::CALL,
    &rebuild::CALL,
    &check::CALL,
    &settle::CALL,
    &slack::CALL,
    &shorter::CALL,
    &read_formula::CALL,
    &write_formula::CALL,
    &make_for_desk::CALL,
    &load::CALL,
    &run_desk::CALL,
    &cut_load::CALL,
    &try_several::CALL,
    &find_several::CALL,
    &try_in::CALL,
    &find_in::CALL,
    &make_in::CALL,
    &run_in::CALL,
    &rebuild_in::CALL,
    &check_in::CALL,
    &rewrite::CALL,
    &least_cells::CALL,
    &one_store::CALL,
    &turn::CALL,
    &look_up::CALL,
    &make_any::CALL,
];

pub fn call_of(code: u8) -> Option<&'static Call> {
    TABLE.iter().copied().find(|call| call.code == code)
}

/// One case of every call that runs or rewrites a sheet, for numbers that are n
/// (in order) and x, and a table of n inputs.
pub fn all_that_read(edition: &Edition, [n, x]: [u64; 2], table: &[u8], sheet: &[u8]) -> Vec<Case> {
    let (told, room) = (edition.told, Table::byte_length(n as usize));
    let (table, sheet) = (|| table.to_vec(), || sheet.to_vec());
    let mut list = vec![
        run_in::case(told, n, x, sheet()),
        rebuild_in::case(told, n, sheet(), room),
        check_in::case(told, n, table(), sheet()),
    ];
    if *edition == FIRST {
        list.push(run::case(n, x, sheet()));
        list.push(rebuild::case(n, sheet(), room));
        list.push(check::case(n, table(), sheet()));
        list.push(rewrite::case(n, sheet(), SECOND.sheet_bytes()));
    }
    list
}
