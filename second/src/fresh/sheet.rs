//! What the calls that take a sheet can be asked, and the ways to spoil it.

use super::sheets::{padded, KINDS};
use super::Tagged;
use super::{bad, damage};
use crate::case::{SHEET_BUFFER, TABLE_BUFFER};
use crate::cell::{Edition, BENCH, FIRST, MOST_RECORDS, SECOND};
use crate::network::{first_unread, rebuild};
use crate::random::Random;
use crate::table::Table;
use crate::times::Time;

/// What may be asked about a sheet, sound at first and then perhaps spoiled.
#[derive(Clone)]
pub struct Ask {
    /// The edition that the sheet is in, and the one that the call is told.
    pub of: &'static Edition,
    pub edition: u64,
    pub n: u64,
    pub x: u64,
    /// The table that the sheet carries, for a call that takes one.
    pub table: Vec<u8>,
    pub sheet: Vec<u8>,
    pub room: usize,
    /// The inputs' times, for a call that takes them.
    pub delay: f64,
    pub times: Vec<Time>,
    pub deadline: i64,
    pub tags: Vec<String>,
}

impl Tagged for Ask {
    fn tags(&mut self) -> &mut Vec<String> {
        &mut self.tags
    }
}

pub type Fault = super::Fault<Ask>;

// The spare bit comes first because it changes n, n itself comes last.
pub const SPARE: Fault = ("spare bit", spare_bit);
pub const PADDED: Fault = ("a cell that nobody reads", pad);
pub const DIFFERENCE: Fault = ("another bit in the table", difference);
pub const RECORD: Fault = ("a record", bad_record);
pub const LENGTH: Fault = ("sheet length", bad_sheet_length);
pub const ASSIGNMENT: Fault = ("assignment", bad_assignment);
pub const ROOM: Fault = ("room for the table", bad_room);
pub const TABLE_LENGTH: Fault = ("table length", bad_table_length);
pub const INPUTS: Fault = ("n", bad_inputs);
pub const EDITION: Fault = ("edition", bad_edition);
pub const OTHER_EDITION: Fault = ("the other edition", other_edition);
pub const NEW_ROOM: Fault = ("room for the new sheet", short_new_room);

/// An n for a call that goes through all assignments: seldom a large one.
pub fn walked_inputs(random: &mut Random) -> usize {
    match random.below(60) {
        0 => random.between(13, 16),
        1..=3 => random.between(9, 12),
        _ => random.between(1, 8),
    }
}

/// A sound sheet for a gate of n inputs.
pub fn draw(random: &mut Random, edition: &'static Edition, n: usize) -> Ask {
    let kind = random.pick(&KINDS);
    let mut sheet = kind.draw_in(random, edition, n);
    let desk = any_desk(random);
    edition.set_desk(&mut sheet, desk);
    let cells = edition.read_sheet(n, &sheet).expect("a sound sheet");
    let read = if first_unread(n, &cells).is_none() { "each read" } else { "not each read" };
    let of = if desk == BENCH { "bench use" } else { "one of the four" };
    let mut tags = vec![
        format!("sheet: {}", kind.name()),
        format!("cells: {read}"),
        format!("desk of a sheet: {of}"),
        format!("edition of a sheet: {}", edition.told),
    ];
    let large = |words: usize| cells.iter().any(|cell| cell.table.words() >= words);
    tags.extend(large(2).then(|| "cells: some of 7 or 8 inputs".to_string()));
    tags.extend(large(4).then(|| "cells: some table in all four words".to_string()));
    Ask {
        of: edition,
        edition: edition.told,
        n: n as u64,
        x: 0,
        table: Vec::new(),
        sheet,
        room: Table::byte_length(n),
        delay: 0.0,
        times: Vec::new(),
        deadline: 0,
        tags,
    }
}

/// Mostly the second.
pub fn any_edition(random: &mut Random) -> &'static Edition {
    random.pick(&[&FIRST, &SECOND, &SECOND, &SECOND])
}

/// Room enough for a sheet of the second edition, or more.
pub fn lend_new_room(random: &mut Random, ask: &mut Ask) {
    let (room, tag) = bad::enough(random, SECOND.sheet_bytes(), SHEET_BUFFER);
    ask.room = room;
    ask.tags.push(format!("room: {tag}"));
}

/// In every other case bench use.
pub fn any_desk(random: &mut Random) -> u8 {
    random.pick(&[BENCH, BENCH, BENCH, BENCH, 1, 2, 3, 4])
}

/// The same, with the table that the sheet carries.
pub fn draw_with_table(random: &mut Random, edition: &'static Edition, n: usize) -> Ask {
    let ask = draw(random, edition, n);
    let cells = edition.read_sheet(n, &ask.sheet).expect("a sound sheet");
    Ask { table: rebuild(n, &cells).to_bytes(), ..ask }
}

/// No fault in every third case: there is much that can be wrong with a sheet.
pub fn spoil(random: &mut Random, ask: &mut Ask, faults: &[Fault]) {
    super::spoil(random, ask, faults, 4);
}

/// Damages the first, a middle or the last record.
fn bad_record(random: &mut Random, ask: &mut Ask) {
    let records = ask.sheet.len() / ask.of.record_bytes;
    let (index, place) = match random.below(3) {
        0 => (0, "the first record"),
        1 if records > 2 => (random.between(1, records - 2), "a middle record"),
        _ => (records - 1, "the last record"),
    };
    let kind = random.pick(&damage::all(ask.of));
    let name = damage::apply(random, ask.of, kind, &mut ask.sheet, ask.n as usize, index);
    ask.tags.push(format!("damage: {name}"));
    ask.tags.push(format!("damage at {place}"));
}

/// One cell more, or as many as there is room for.
fn pad(random: &mut Random, ask: &mut Ask) {
    let n = ask.n as usize;
    let mut cells = ask.of.read_sheet(n, &ask.sheet).expect("a sound sheet");
    let most = MOST_RECORDS - cells.len();
    let more = if random.coin() { most.min(1) } else { most };
    for _ in 0..more {
        let at = random.below(cells.len());
        cells = padded(random, n, &cells, at);
    }
    ask.sheet = ask.of.write_sheet(ask.of.desk_of(&ask.sheet), &cells);
}

fn bad_sheet_length(random: &mut Random, ask: &mut Ask) {
    let (whole, most) = (ask.sheet.len(), ask.of.sheet_bytes());
    // Record by record too long, and lengths that are no whole records.
    let (length, name) = match random.below(6) {
        0 => (0, "empty"),
        1 => (whole - 1, "one byte short"),
        2 => (whole + 1, "one byte long"),
        3 => (random.between(1, whole + 15), "any length"),
        4 => (most + ask.of.record_bytes, "16 records"),
        _ => (random.between(most + 1, SHEET_BUFFER), "far too long"),
    };
    let longer = ask.sheet.iter().copied().cycle().take(length).collect();
    ask.sheet = longer;
    ask.tags.push(format!("sheet length: {name}"));
}

fn bad_assignment(random: &mut Random, ask: &mut Ask) {
    let first_bad = 1u64 << ask.n;
    let wrapped = (ask.x & (first_bad - 1)) + (1 << random.pick(&[16, 32, 63]));
    let (x, name) = match random.below(4) {
        0 => (first_bad, "2^n"),
        1 => (u64::MAX, "the largest number"),
        2 => (wrapped, "right in its low bits only"),
        _ => (first_bad + random.bits() % first_bad, "below 2^(n+1)"),
    };
    ask.x = x;
    ask.tags.push(format!("assignment: {name}"));
}

fn bad_room(random: &mut Random, ask: &mut Ask) {
    let most = if random.one_in(20) { TABLE_BUFFER } else { 2 * ask.room + 20 };
    ask.room = bad::wrong(random, ask.room, most);
}

fn bad_table_length(random: &mut Random, ask: &mut Ask) {
    let most = if random.one_in(20) { TABLE_BUFFER } else { 2 * ask.table.len() + 20 };
    let length = bad::wrong(random, ask.table.len(), most);
    ask.table.resize(length, 0);
}

fn spare_bit(random: &mut Random, ask: &mut Ask) {
    let n = random.between(1, 2);
    *ask = draw_with_table(random, ask.of, n);
    ask.table[0] |= 1 << random.between(1 << n, 7);
}

/// Turns the table's bit at one assignment or at several.
fn difference(random: &mut Random, ask: &mut Ask) {
    let last = (1usize << ask.n) - 1;
    let (mut places, name) = match random.below(4) {
        0 => (vec![0], "the first"),
        1 => (vec![last], "the last"),
        2 => (vec![random.below(last + 1)], "any one"),
        _ => ((0..random.between(2, 9)).map(|_| random.below(last + 1)).collect(), "several"),
    };
    places.sort();
    places.dedup();
    for x in places {
        ask.table[x / 8] ^= 1 << (x % 8);
    }
    ask.tags.push(format!("another bit at assignments: {name}"));
}

fn bad_inputs(random: &mut Random, ask: &mut Ask) {
    ask.n = bad::inputs(random, ask.n);
}

fn bad_edition(random: &mut Random, ask: &mut Ask) {
    ask.edition = bad::edition(random, ask.edition);
    ask.tags.push(bad::edition_tag(ask.edition));
}

/// The call is told the one, the sheet is in the other.
fn other_edition(_: &mut Random, ask: &mut Ask) {
    ask.edition = 3 - ask.of.told;
}

/// For a call that writes a sheet of the second edition.
fn short_new_room(random: &mut Random, ask: &mut Ask) {
    let (room, tag) = bad::too_short(random, SECOND.sheet_bytes());
    ask.room = room;
    ask.tags.push(format!("room: {tag}"));
}
