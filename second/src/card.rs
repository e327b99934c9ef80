//! A card: for each of four desks fifteen record places, then a status record.

use crate::cell::{RECORD_BYTES, SHEET_BYTES};

pub const DESKS: usize = 4;
/// The record places of a desk and its status record.
pub const DESK_BYTES: usize = SHEET_BYTES + RECORD_BYTES;
pub const CARD_BYTES: usize = DESKS * DESK_BYTES;
/// The open mark, where a desk answers.
pub const OPEN: u8 = 1;
/// How many stores a load makes.
pub const STORES: usize = DESK_BYTES + 1;

/// Where in a desk's bytes its mark, n and the count of cells stand.
pub const MARK_AT: usize = SHEET_BYTES;
pub const N_AT: usize = SHEET_BYTES + 1;
pub const COUNT_AT: usize = SHEET_BYTES + 2;

/// A byte and the place of the card where it goes.
#[derive(Clone, Copy, Debug, PartialEq, Eq)]
pub struct Store {
    pub place: usize,
    pub byte: u8,
}

/// Where the bytes of a desk (1 to 4) begin.
pub fn start_of(desk: usize) -> usize {
    (desk - 1) * DESK_BYTES
}

/// The bytes of a desk (1 to 4).
pub fn desk_bytes(card: &[u8], desk: usize) -> &[u8] {
    &card[start_of(desk)..][..DESK_BYTES]
}

/// The stores of a load in their order: the mark to 0, the places upward, unused
/// ones zero, the rest of the status upward, the mark to 1.
pub fn stores(desk: usize, n: usize, sheet: &[u8]) -> Vec<Store> {
    let start = start_of(desk);
    let mark = |byte: u8| Store { place: start + MARK_AT, byte };
    let mut list = vec![mark(0)];
    for place in 0..SHEET_BYTES {
        let byte = sheet.get(place).copied().unwrap_or(0);
        list.push(Store { place: start + place, byte });
    }
    for place in N_AT..DESK_BYTES {
        let byte = match place {
            N_AT => n as u8,
            COUNT_AT => (sheet.len() / RECORD_BYTES) as u8,
            _ => 0,
        };
        list.push(Store { place: start + place, byte });
    }
    list.push(mark(OPEN));
    list
}

pub fn put(card: &mut [u8], stores: &[Store]) {
    for store in stores {
        card[store.place] = store.byte;
    }
}
