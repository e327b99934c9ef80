//! Cards, what the calls that take one can be asked, and the ways to spoil it.

use super::damage::other_desk;
use super::sheet;
use super::sheets::Kind;
use super::{Fresh, Tagged};
use crate::calls;
use crate::card::{
    desk_bytes, put, start_of, stores, CARD_BYTES, COUNT_AT, DESKS, DESK_BYTES, MARK_AT, N_AT,
    OPEN, STORES,
};
use crate::case::CARD_BUFFER;
use crate::cell::{set_desk, FIRST, RECORD_BYTES, SHEET_BYTES};
use crate::random::Random;

/// What may be asked about a card, sound at first and then perhaps spoiled.
pub struct Ask {
    pub desk: u64,
    /// The sheet that is loaded or lies on the card, its n, and the assignment.
    pub of: sheet::Ask,
    /// What a run finds in the desk's status; the count is the sheet's, if nothing is said.
    mark: u8,
    count: Option<u8>,
    length: usize,
    pub card: Vec<u8>,
    pub tags: Vec<String>,
}

impl Tagged for Ask {
    fn tags(&mut self) -> &mut Vec<String> {
        &mut self.tags
    }
}

type Fault = super::Fault<Ask>;

const PADDED: Fault =
    ("a cell that nobody reads", |random, ask| sheet::PADDED.1(random, &mut ask.of));
const RECORD: Fault = ("a record", |random, ask| sheet::RECORD.1(random, &mut ask.of));
const LENGTH: Fault = ("sheet length", |random, ask| sheet::LENGTH.1(random, &mut ask.of));
const ASSIGNMENT: Fault = ("assignment", |random, ask| sheet::ASSIGNMENT.1(random, &mut ask.of));
const INPUTS: Fault = ("n", |random, ask| sheet::INPUTS.1(random, &mut ask.of));
const ONE_DESK: Fault = ("one record of another desk", one_of_another);
const ALL_DESKS: Fault = ("a sheet of another desk", all_of_another);
const MARK: Fault = ("mark", bad_mark);
const STORED_INPUTS: Fault = ("stored n", bad_stored_inputs);
const COUNT: Fault = ("stored count", bad_count);
const DESK: Fault = ("desk", bad_desk);
const CARD: Fault = ("card length", bad_card_length);

// The assignment goes by n, which comes later.
const LOAD_FAULTS: [Fault; 8] = [PADDED, RECORD, ONE_DESK, ALL_DESKS, LENGTH, INPUTS, DESK, CARD];
const RUN_FAULTS: [Fault; 10] =
    [PADDED, RECORD, ONE_DESK, ALL_DESKS, ASSIGNMENT, STORED_INPUTS, COUNT, MARK, DESK, CARD];

/// A load onto any card.
pub fn draw_load(random: &mut Random) -> Ask {
    let mut ask = draw(random);
    super::spoil(random, &mut ask, &LOAD_FAULTS, 4);
    ask.card = any_card(random);
    finish(random, ask)
}

/// A run of a sheet that lies on a card.
pub fn draw_run(random: &mut Random) -> Ask {
    let mut ask = draw(random);
    super::spoil(random, &mut ask, &RUN_FAULTS, 4);
    ask.card = any_card(random);
    let desk = match ask.desk {
        desk @ 1..=4 => desk as usize,
        _ => random.between(1, DESKS),
    };
    let own = &mut ask.card[start_of(desk)..][..DESK_BYTES];
    let noisy = random.coin();
    own.copy_from_slice(&if noisy { random.bytes(DESK_BYTES) } else { vec![0; DESK_BYTES] });
    own[..ask.of.sheet.len()].copy_from_slice(&ask.of.sheet);
    own[MARK_AT] = ask.mark;
    own[N_AT] = ask.of.n as u8;
    own[COUNT_AT] = ask.count.unwrap_or((ask.of.sheet.len() / RECORD_BYTES) as u8);
    let unused = if noisy { "any bytes" } else { "zeros" };
    ask.tags.push(format!("on the card, what is not looked at: {unused}"));
    finish(random, ask)
}

fn draw(random: &mut Random) -> Ask {
    let desk = random.between(1, DESKS);
    let n = if random.one_in(4) { random.between(9, 16) } else { random.between(1, 8) };
    let mut of = sheet::draw(random, &FIRST, n);
    of.tags.retain(|tag| !tag.starts_with("desk"));
    set_desk(&mut of.sheet, desk as u8);
    let last = (1u64 << n) - 1;
    of.x = random.bits() & last;
    of.x = random.pick(&[0, last, of.x, of.x]);
    let tags = vec![format!("desk on a card: {desk}")];
    let card = Vec::new();
    Ask { desk: desk as u64, of, mark: OPEN, count: None, length: CARD_BYTES, card, tags }
}

fn finish(random: &mut Random, mut ask: Ask) -> Ask {
    let more = random.bytes(CARD_BUFFER);
    let whole = [&ask.card[..], &more].concat();
    ask.card = whole[..ask.length].to_vec();
    ask.tags.append(&mut ask.of.tags);
    ask
}

/// A card on which each desk is loaded, loaded and closed, empty, or anything at all.
pub fn any_card(random: &mut Random) -> Vec<u8> {
    let mut card = Vec::new();
    for desk in 1..=DESKS {
        match random.below(6) {
            0 => card.extend(vec![0; DESK_BYTES]),
            1 => card.extend(random.bytes(DESK_BYTES)),
            state => {
                let mut one = vec![0; CARD_BYTES];
                let (n, sheet) = any_sheet(random, desk);
                put(&mut one, &stores(desk, n, &sheet));
                card.extend(desk_bytes(&one, desk));
                if state == 2 {
                    card[start_of(desk) + MARK_AT] = random.pick(&[0, 0, 2, 255]);
                }
            }
        }
    }
    card
}

/// A sheet that a desk can be loaded with, and its n.
pub fn any_sheet(random: &mut Random, desk: usize) -> (usize, Vec<u8>) {
    let n = random.between(1, 8);
    let kind = random.pick(&[Kind::Handmade, Kind::OneInput, Kind::Wide, Kind::Longest]);
    let mut sheet = kind.draw_read(random, n);
    set_desk(&mut sheet, desk as u8);
    (n, sheet)
}

fn one_of_another(random: &mut Random, ask: &mut Ask) {
    let records = ask.of.sheet.len() / RECORD_BYTES;
    let index = if records > 1 { random.between(1, records - 1) } else { 0 };
    let record = &mut ask.of.sheet[index * RECORD_BYTES..][..RECORD_BYTES];
    let desk = other_desk(random, ask.desk as u8);
    set_desk(record, desk);
}

fn all_of_another(random: &mut Random, ask: &mut Ask) {
    let desk = other_desk(random, ask.desk as u8);
    set_desk(&mut ask.of.sheet, desk);
    let name = match desk {
        0 => "bench use",
        1..=4 => "another of the four",
        _ => "none",
    };
    ask.tags.push(format!("a sheet of another desk: {name}"));
}

fn bad_mark(random: &mut Random, ask: &mut Ask) {
    ask.mark = random.pick(&[0, 0, 2, 3, 128, 254, 255]);
}

fn bad_stored_inputs(random: &mut Random, ask: &mut Ask) {
    ask.of.n = random.pick(&[0, 0, 17, 17, 18, 32, 64, 128, 255]);
}

/// A count outside 1 to 15, or one that is not the sheet's.
fn bad_count(random: &mut Random, ask: &mut Ask) {
    let inside = random.between(1, 15) as u8;
    ask.count = Some(random.pick(&[0, 0, 16, 16, 17, 128, 255, inside]));
}

fn bad_desk(random: &mut Random, ask: &mut Ask) {
    let wrapped = ask.desk + (1 << random.pick(&[8, 16, 31, 32, 63]));
    ask.desk = random.pick(&[0, 0, 5, 5, 6, 255, wrapped, wrapped, u64::MAX]);
}

fn bad_card_length(random: &mut Random, ask: &mut Ask) {
    let any = random.below(CARD_BUFFER + 1);
    let lengths = [0, DESK_BYTES, CARD_BYTES - 1, CARD_BYTES + 1, CARD_BUFFER, any];
    ask.length = match random.pick(&lengths) {
        CARD_BYTES => CARD_BYTES - 16,
        length => length,
    };
}

/// A store, or how many of them, and a word about it.
pub fn any_store(random: &mut Random) -> (u64, &'static str) {
    let last = STORES as u64 - 1;
    let beyond = random.pick(&[last + 2, 1 << 8, 1 << 16, 1 << 32 | 5, 1 << 63 | 256, u64::MAX]);
    match random.below(12) {
        0 => (0, "0"),
        1 => (1, "1"),
        2 => (random.between(SHEET_BYTES - 1, SHEET_BYTES + 3) as u64, "about the status"),
        3 => (last, "256"),
        4 => (last + 1, "257"),
        5 | 6 if beyond > last => (beyond, "more"),
        _ => (random.between(2, STORES - 2) as u64, "any"),
    }
}

/// A load cut after each of its stores, and each of its stores alone; a card
/// with every byte damaged in turn, and run.
pub fn cases(random: &mut Random) -> Vec<Fresh> {
    let mut list = Vec::new();
    let mut push = |case, tag: &str| list.push(Fresh { case, tags: vec![tag.to_string()] });
    let desk = random.between(1, DESKS);
    let (n, sheet) = any_sheet(random, desk);
    let card = any_card(random);
    for store in 0..=STORES as u64 + 1 {
        let (desk, n) = (desk as u64, n as u64);
        let cut = calls::cut_load::case(store, desk, n, sheet.clone(), card.clone());
        let one = calls::one_store::case(store, desk, n, sheet.clone(), card.clone());
        push(cut, "a load cut after each store");
        push(one, "each store of a load");
    }
    let card = full_card(random);
    for place in 0..CARD_BYTES {
        let mut damaged = card.clone();
        damaged[place] = other_byte(random, damaged[place]);
        let own = place / DESK_BYTES + 1;
        let other = own % DESKS + 1;
        for (desk, tag) in [(own, "its own desk"), (other, "another")] {
            let x = random.below(1 << desk_bytes(&card, desk)[N_AT]) as u64;
            let case = calls::run_desk::case(desk as u64, x, damaged.clone());
            push(case, &format!("every byte of a card damaged: {tag} is run"));
        }
    }
    list
}

/// A card whose four desks answer.
pub fn full_card(random: &mut Random) -> Vec<u8> {
    let mut card = random.bytes(CARD_BYTES);
    for desk in 1..=DESKS {
        let (n, sheet) = any_sheet(random, desk);
        put(&mut card, &stores(desk, n, &sheet));
    }
    card
}

/// Any other value of a byte, often one beside it.
pub fn other_byte(random: &mut Random, byte: u8) -> u8 {
    let any = byte ^ random.between(1, 255) as u8;
    random.pick(&[byte ^ 1, byte ^ 1, byte ^ 0x80, any, any])
}
