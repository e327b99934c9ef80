//! Damage to one record of a sheet, field by field.

use crate::cell::{Edition, UNUSED};
use crate::random::Random;

#[derive(Clone, Copy, Debug, PartialEq, Eq)]
pub enum Damage {
    NoInputs,
    TooManyInputs,
    OneInputLess,
    OneInputMore,
    /// A signal place, used or not.
    Place(usize),
    Desk,
    /// A byte between the desk and the table.
    Between(usize),
    TableByte(usize),
    SpareBit,
    Order,
    Repeat,
    Forward,
    AnyByte,
}

/// Every kind of damage, each place and each table byte by itself.
pub fn all(edition: &Edition) -> Vec<Damage> {
    let mut list = vec![
        Damage::NoInputs,
        Damage::TooManyInputs,
        Damage::OneInputLess,
        Damage::OneInputMore,
        Damage::Desk,
        Damage::SpareBit,
        Damage::Order,
        Damage::Repeat,
        Damage::Forward,
        Damage::AnyByte,
    ];
    list.extend((1..=edition.most_reads).map(Damage::Place));
    list.extend((edition.desk_at + 1..edition.table_at).map(Damage::Between));
    // The second edition has many of them: as many as the first will do.
    let step = (edition.record_bytes - edition.table_at) / 8;
    list.extend((edition.table_at..edition.record_bytes).step_by(step).map(Damage::TableByte));
    list
}

/// Damages the record with this index and says in words what was done.
pub fn apply(
    random: &mut Random,
    edition: &Edition,
    damage: Damage,
    sheet: &mut [u8],
    n: usize,
    index: usize,
) -> String {
    let start = index * edition.record_bytes;
    let record = &mut sheet[start..start + edition.record_bytes];
    let k = (record[0] as usize).clamp(1, edition.most_reads);
    let limit = (n + index).min(100) as u8;
    match damage {
        Damage::NoInputs => record[0] = 0,
        Damage::TooManyInputs => {
            let above = edition.most_reads as u8 + 1;
            record[0] = random.pick(&[above, above, above + 1, 64, 128, 255]);
        }
        Damage::OneInputLess => record[0] = record[0].wrapping_sub(1),
        Damage::OneInputMore => record[0] = record[0].wrapping_add(1),
        Damage::Place(place) => return spoil_place(random, record, place, k, limit),
        Damage::Desk => record[edition.desk_at] = other_desk(random, record[edition.desk_at]),
        Damage::Between(byte) => record[byte] = random.pick(&[1, 2, 128, 255]),
        Damage::TableByte(byte) => record[byte] ^= 1 << random.below(8),
        Damage::SpareBit => spare_bit(random, edition, record, k),
        Damage::Order => swap_two(random, record, k),
        Damage::Repeat => record[1] = record[k.min(2)],
        Damage::Forward => record[k] = limit + random.pick(&[0, 0, 1, 5]),
        Damage::AnyByte => record[random.below(edition.record_bytes)] = random.bits() as u8,
    }
    name(damage)
}

fn name(damage: Damage) -> String {
    let name = match damage {
        Damage::NoInputs => "k is 0",
        Damage::TooManyInputs => "k too large",
        Damage::OneInputLess => "k one less",
        Damage::OneInputMore => "k one more",
        Damage::Place(_) => "signal place",
        Damage::Desk => "desk",
        Damage::Between(byte) => return format!("byte {byte}"),
        Damage::TableByte(byte) => return format!("table byte {byte:02}"),
        Damage::SpareBit => "spare bit of a table",
        Damage::Order => "order of signals",
        Damage::Repeat => "repeated signal",
        Damage::Forward => "reads its own or a later signal",
        Damage::AnyByte => "any byte",
    };
    name.to_string()
}

/// Another desk, or none.
pub fn other_desk(random: &mut Random, desk: u8) -> u8 {
    let others: Vec<u8> = (0..=6).chain([128, 254, 255]).filter(|&other| other != desk).collect();
    random.pick(&others)
}

/// Another value in a signal place; near the limit it may even stay sound.
fn spoil_place(
    random: &mut Random,
    record: &mut [u8],
    place: usize,
    k: usize,
    limit: u8,
) -> String {
    if place > k {
        record[place] = random.pick(&[0, 128, 254, limit - 1, limit, record[k].wrapping_add(1)]);
        return format!("unused place {place}");
    }
    let neighbour = record[if place > 1 { place - 1 } else { (place + 1).min(k) }];
    record[place] = random.pick(&[UNUSED, 254, 0, neighbour, limit - 1, limit, limit + 1]);
    format!("signal place {place}")
}

/// Sets a bit from 2^k up; the largest cell has none, there a used bit changes.
fn spare_bit(random: &mut Random, edition: &Edition, record: &mut [u8], k: usize) {
    let first_spare = if k == edition.most_reads { 0 } else { 1 << k };
    let last = (1 << edition.most_reads) - 1;
    // The first spare bit is the one most easily taken for a used one.
    let bit = if random.coin() { first_spare } else { random.between(first_spare, last) };
    record[edition.table_at + bit / 8] ^= 1 << (bit % 8);
}

/// Swaps two neighbouring signals; a single signal changes places with an unused one.
fn swap_two(random: &mut Random, record: &mut [u8], k: usize) {
    let place = if k == 1 { 1 } else { random.between(1, k - 1) };
    record.swap(place, place + 1);
}
