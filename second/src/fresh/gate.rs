//! What the calls that take a table can be asked, and the ways to spoil it.

use super::bad;
use super::tables::{chain_for, compose, flip_bits, Drawn, KINDS};
use super::Tagged;
use crate::case::{TABLE_BUFFER, WORK_BUFFER};
use crate::cell::{FIRST, MOST_READS, SECOND};
use crate::random::Random;
use crate::refusals::WORK_BYTES;
use crate::sets::{all, size};
use crate::split::Split;

/// What may be asked about a table, sound at first and then perhaps spoiled.
pub struct Ask {
    /// The edition that a call is told.
    pub edition: u64,
    pub n: u64,
    pub k: u64,
    /// The desk to make a sheet for.
    pub desk: u64,
    /// How many first cells, for a call that is told.
    pub r: u64,
    pub split: Split,
    pub table: Vec<u8>,
    /// How much room is needed, and how much is lent.
    pub needed: usize,
    pub room: usize,
    pub work: usize,
    pub tags: Vec<String>,
}

impl Tagged for Ask {
    fn tags(&mut self) -> &mut Vec<String> {
        &mut self.tags
    }
}

pub type Fault = super::Fault<Ask>;

// The spare bit comes first because it changes n, n itself comes last.
pub const SPARE: Fault = ("spare bit", spare_bit);
pub const SETS: Fault = ("own and shared sets", bad_sets);
pub const DESK: Fault = ("desk", bad_desk);
pub const ROOM: Fault = ("room", short_room);
pub const WORK: Fault = ("work area", short_work);
pub const LENGTH: Fault = ("table length", bad_length);
pub const CELL_SIZE: Fault = ("K", bad_cell_size);
pub const INPUTS: Fault = ("n", bad_inputs);
pub const EDITION: Fault = ("edition", bad_edition);
pub const OTHER_EDITION: Fault = ("the other edition", other_edition);

/// A sound question. Only try is cheap enough for many large tables.
pub fn draw(random: &mut Random, cheap: bool) -> Ask {
    let n = match random.below(40) {
        0..=2 => random.between(1, 2),
        3..=34 => random.between(3, 8),
        35..=38 if cheap => random.between(9, 16),
        35..=37 => random.between(9, 12),
        _ => random.between(5, 9),
    };
    let kind = random.pick(&KINDS);
    let drawn = kind.draw(random, n);
    let mut ask = about(random, &drawn, MOST_READS);
    let work_tag = std::mem::replace(&mut ask.tags, vec![format!("table: {}", kind.name())]);
    if !cheap {
        ask.tags.extend(work_tag);
    }
    ask
}

/// A sound question to a call that is told the edition, mostly the second.
pub fn draw_in(random: &mut Random, cheap: bool) -> Ask {
    if random.one_in(4) {
        let mut ask = draw(random, cheap);
        ask.tags.push("edition told: first".to_string());
        return ask;
    }
    let n = match random.below(20) {
        0 => random.between(1, 2),
        1..=4 => random.between(3, 7),
        19 if cheap => random.between(10, 16),
        19 => random.between(10, 11),
        _ => random.between(8, 10),
    };
    let (drawn, name) = match random.below(6) {
        0 if n > 8 => (wide(random, n), "built for 7 or 8 places".to_string()),
        1 if n > 8 => {
            let mut drawn = wide(random, n);
            flip_bits(random, &mut drawn.table);
            (drawn, "near miss for 7 or 8 places".to_string())
        }
        2 if n > 8 => {
            let k = random.between(7, SECOND.most_reads);
            (chain_for(random, n, k), "chain for 7 or 8 places".to_string())
        }
        _ => {
            let kind = random.pick(&KINDS);
            (kind.draw(random, n), kind.name())
        }
    };
    let mut ask = about(random, &drawn, SECOND.most_reads);
    ask.edition = SECOND.told;
    ask.tags = vec![format!("table: {name}"), "edition told: second".to_string()];
    if ask.k > MOST_READS as u64 {
        ask.tags.push("K 7 or 8".to_string());
    }
    ask
}

fn wide(random: &mut Random, n: usize) -> Drawn {
    let both = random.between(7, SECOND.most_reads);
    let own = random.between(2, both);
    compose(random, n, own, both - own)
}

/// A sound question about a table, for cells of at most so many places.
pub fn about(random: &mut Random, drawn: &Drawn, places: usize) -> Ask {
    let k = suitable_cell_size(random, drawn, places);
    let split = choose_sets(random, drawn, k);
    let (work, work_tag) = bad::enough(random, WORK_BYTES, WORK_BUFFER);
    let table = drawn.table.to_bytes();
    let n = drawn.table.inputs as u64;
    let desk = random.below(5) as u64;
    let tags = vec![format!("work area: {work_tag}")];
    let edition = FIRST.told;
    Ask { edition, n, k: k as u64, desk, r: 1, split, table, needed: 0, room: 0, work, tags }
}

/// Mostly a cell size that leaves something to split, and one that suits the
/// table if it was built for one.
fn suitable_cell_size(random: &mut Random, drawn: &Drawn, places: usize) -> usize {
    let n = drawn.table.inputs;
    match drawn.suits {
        Some(suits) if !random.one_in(4) => random.between(suits, places),
        _ if n > 2 && !random.one_in(4) => random.between(2, places.min(n - 1)),
        _ => random.between(2, places),
    }
}

/// The planted pair, or any pair that may be named (where n = 1 has none).
fn choose_sets(random: &mut Random, drawn: &Drawn, k: usize) -> Split {
    let n = drawn.table.inputs;
    if let Some(split) = drawn.planted {
        if size(split.own | split.shared) <= k && !random.one_in(4) {
            return split;
        }
    }
    let own_size = random.between(2, k.min(n).max(2));
    let own = random.part_of(all(n), own_size);
    let shared_size = random.below(k - own_size + 1);
    let shared = random.part_of(all(n) & !own, shared_size);
    Split { own, shared }
}

/// Room enough, or more.
pub fn lend_room(random: &mut Random, ask: &mut Ask, most: usize) {
    let (room, tag) = bad::enough(random, ask.needed, most);
    ask.room = room;
    ask.tags.push(format!("room: {tag}"));
}

/// No fault in most cases, since it is the answers that cost most to get right.
pub fn spoil(random: &mut Random, ask: &mut Ask, faults: &[Fault]) {
    super::spoil(random, ask, faults, 7);
}

fn bad_inputs(random: &mut Random, ask: &mut Ask) {
    ask.n = bad::inputs(random, ask.n);
}

fn bad_cell_size(random: &mut Random, ask: &mut Ask) {
    let most = if ask.edition == SECOND.told { SECOND.most_reads } else { MOST_READS };
    ask.k = bad::cell_size(random, ask.k, most);
}

fn bad_edition(random: &mut Random, ask: &mut Ask) {
    ask.edition = bad::edition(random, ask.edition);
    ask.tags.push(bad::edition_tag(ask.edition));
}

fn other_edition(_: &mut Random, ask: &mut Ask) {
    ask.edition = FIRST.told + SECOND.told - ask.edition;
}

fn bad_desk(random: &mut Random, ask: &mut Ask) {
    ask.desk = bad::desk(random, ask.desk);
}

fn bad_length(random: &mut Random, ask: &mut Ask) {
    // The longest lengths are rare: they cost time and show nothing new.
    let most = if random.one_in(20) { TABLE_BUFFER } else { 2 * ask.table.len() + 20 };
    let length = bad::wrong(random, ask.table.len(), most);
    ask.table.resize(length, 0);
}

fn spare_bit(random: &mut Random, ask: &mut Ask) {
    ask.n = random.between(1, 2) as u64;
    let bits = 1 << ask.n;
    let spare = 1 << random.between(bits, 7);
    ask.table = vec![(random.below(1 << bits) | spare | (random.below(256) >> bits << bits)) as u8];
}

fn short_room(random: &mut Random, ask: &mut Ask) {
    let (room, tag) = bad::too_short(random, ask.needed);
    ask.room = room;
    ask.tags.push(format!("room: {tag}"));
}

fn short_work(random: &mut Random, ask: &mut Ask) {
    let (work, tag) = bad::too_short(random, WORK_BYTES);
    ask.work = work;
    ask.tags.push(format!("work area: {tag}"));
}

/// Spoils the sets in one of the ways that line 5 of the refusals names.
fn bad_sets(random: &mut Random, ask: &mut Ask) {
    let Split { own, shared } = ask.split;
    let n = (ask.n as usize).clamp(1, 16);
    let beyond = random.part_of(!all(n), 1);
    let way = random.below(6);
    ask.split = match way {
        0 => Split { own: 0, shared },
        1 => Split { own: random.part_of(own, 1), shared },
        2 => Split { own, shared: shared | random.part_of(own, 1) },
        3 => Split { own: random.part_of(own, size(own) - 1) | beyond, shared },
        4 => Split { own, shared: random.part_of(shared, size(shared).max(1) - 1) | beyond },
        _ => Split { own, shared: random.part_of(all(n) & !own, ask.k as usize + 1 - size(own)) },
    };
    let names = ["A empty", "A of one", "overlap", "A beyond n", "B beyond n", "A and B above K"];
    ask.tags.push(format!("sets: {}", names[way]));
}
