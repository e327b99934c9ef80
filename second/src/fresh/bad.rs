//! Numbers that no call may take, and lengths around those it may.

use crate::random::Random;

/// An n outside 1 to 16. Sums with a power of two look right to a program
/// that keeps only the low bits.
pub fn inputs(random: &mut Random, sound: u64) -> u64 {
    let wrapped = sound + (1 << random.pick(&[8, 16, 31, 32, 63]));
    random.pick(&[0, 17, 18, 20, 64, 255, wrapped, wrapped, 1 << 63, u64::MAX])
}

/// A K outside 2 to the most there may be.
pub fn cell_size(random: &mut Random, sound: u64, most: usize) -> u64 {
    let above = most as u64 + 1;
    let wrapped = sound + (1 << random.pick(&[8, 16, 31, 32, 63]));
    random.pick(&[0, 1, 1, above, above, above + 1, 16, 255, wrapped, wrapped, u64::MAX])
}

/// An edition other than 1 or 2.
pub fn edition(random: &mut Random, sound: u64) -> u64 {
    let wrapped = sound + (1 << random.pick(&[8, 16, 31, 32, 63]));
    random.pick(&[0, 0, 3, 3, 4, 255, wrapped, wrapped, u64::MAX])
}

/// What that is counted under.
pub fn edition_tag(edition: u64) -> String {
    let name = match edition {
        0 | 3 => return format!("edition told: {edition}"),
        u64::MAX => "the largest number",
        _ => "any other",
    };
    format!("edition told: {name}")
}

/// A desk above 4.
pub fn desk(random: &mut Random, sound: u64) -> u64 {
    let wrapped = sound + (1 << random.pick(&[8, 16, 31, 32, 63]));
    random.pick(&[5, 5, 6, 8, 128, 255, wrapped, wrapped, u64::MAX])
}

/// An r outside 1 to 3.
pub fn first_cells(random: &mut Random, sound: u64) -> u64 {
    let wrapped = sound + (1 << random.pick(&[8, 16, 31, 32, 63]));
    random.pick(&[0, 0, 4, 4, 5, 8, 255, wrapped, wrapped, u64::MAX])
}

/// A length that is enough: exact, a little more, or as much as can be named.
pub fn enough(random: &mut Random, needed: usize, most: usize) -> (usize, &'static str) {
    match random.below(20) {
        0..=9 => (needed, "exact"),
        10..=12 => ((needed + 1).min(most), "one more"),
        13..=18 => ((needed + random.between(2, 40)).min(most), "longer"),
        _ => (most, "as long as can be"),
    }
}

/// A length that is too short (needed is at least 1).
pub fn too_short(random: &mut Random, needed: usize) -> (usize, &'static str) {
    match random.below(4) {
        0 | 1 => (needed - 1, "one short"),
        2 => (0, "none"),
        _ => (random.below(needed), "shorter"),
    }
}

/// Any length but the one that is needed.
pub fn wrong(random: &mut Random, needed: usize, most: usize) -> usize {
    let any = random.below(most + 1);
    let choice = random.pick(&[0, needed - 1, needed + 1, needed * 2, needed / 2, any]);
    if choice == needed || choice > most {
        needed + 1
    } else {
        choice
    }
}
