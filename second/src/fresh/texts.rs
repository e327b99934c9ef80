//! Texts of formulas, by the grammar, and the ways to spoil them.

use super::Tagged;
use crate::case::{TABLE_BUFFER, TEXT_BUFFER};
use crate::random::Random;
use crate::table::{Table, MOST_INPUTS};
use crate::text::{MOST_LEVELS, MOST_TEXT};

pub struct Ask {
    pub n: u64,
    pub text: Vec<u8>,
    pub room: usize,
    pub tags: Vec<String>,
}

impl Tagged for Ask {
    fn tags(&mut self) -> &mut Vec<String> {
        &mut self.tags
    }
}

// Room and n come last: a text is drawn for the n that was sound.
const FAULTS: [super::Fault<Ask>; 9] = [
    ("cut anywhere", cut),
    ("one byte changed", change),
    ("one byte more", insert),
    ("a letter beyond n", letter_beyond),
    ("levels", many_levels),
    ("length", long),
    ("white space", white_space),
    ("room for the table", bad_room),
    ("n", bad_inputs),
];

const BYTES: &[u8] = b"abcdefghijklmnop01!()&^|qA2`*~ \n\0\xFF";

/// A text for a gate of n inputs, sound at first and then perhaps spoiled.
pub fn draw(random: &mut Random, n: usize) -> Ask {
    let size = random.pick(&[1, 2, 5, 20, 100, 300]);
    let text = sum(random, n, MOST_LEVELS, size);
    let mut ask = Ask { n: n as u64, text, room: Table::byte_length(n), tags: Vec::new() };
    super::spoil(random, &mut ask, &FAULTS, 4);
    ask.text.truncate(TEXT_BUFFER);
    ask
}

/// A sum of about so many factors within the levels.
fn sum(random: &mut Random, n: usize, levels: usize, size: usize) -> Vec<u8> {
    let mut text = Vec::new();
    let mut left = size;
    loop {
        let here = random.between(1, left);
        factor(random, n, levels, here, &mut text);
        left -= here;
        if left == 0 || text.len() > MOST_TEXT / 2 {
            return text;
        }
        text.push(random.pick(b"&^|"));
    }
}

fn factor(random: &mut Random, n: usize, levels: usize, size: usize, text: &mut Vec<u8>) {
    if levels > 0 && random.one_in(4) {
        text.push(b'!');
        factor(random, n, levels - 1, size, text);
    } else if levels > 0 && (size > 1 || random.one_in(8)) {
        text.push(b'(');
        text.extend(sum(random, n, levels - 1, size));
        text.push(b')');
    } else if random.one_in(8) {
        text.push(random.pick(b"01"));
    } else {
        text.push(b'a' + random.below(n) as u8);
    }
}

fn cut(random: &mut Random, ask: &mut Ask) {
    let length = random.below(ask.text.len() + 1);
    ask.text.truncate(length);
}

fn change(random: &mut Random, ask: &mut Ask) {
    if !ask.text.is_empty() {
        let place = random.below(ask.text.len());
        ask.text[place] = random.pick(BYTES);
    }
}

fn insert(random: &mut Random, ask: &mut Ask) {
    let place = random.below(ask.text.len() + 1);
    ask.text.insert(place, random.pick(BYTES));
}

fn letter_beyond(random: &mut Random, ask: &mut Ask) {
    let beyond = b'a' + random.between(ask.n as usize, MOST_INPUTS) as u8;
    let letters: Vec<usize> =
        (0..ask.text.len()).filter(|&place| ask.text[place].is_ascii_lowercase()).collect();
    if !letters.is_empty() {
        ask.text[random.pick(&letters)] = beyond;
    }
}

/// The most levels, or one more, of `!`, of parentheses or of both.
fn many_levels(random: &mut Random, ask: &mut Ask) {
    let kind = random.below(3);
    let mut text = vec![b'a'];
    for _ in 0..MOST_LEVELS + random.below(2) {
        if kind == 0 || (kind == 2 && random.coin()) {
            text.insert(0, b'!');
        } else {
            text = [b"(", &text[..], b")"].concat();
        }
    }
    ask.text = text;
}

/// As long as a text may be, or longer: what there is, joined over and over, `a` and `0` at last.
fn long(random: &mut Random, ask: &mut Ask) {
    let length = random.pick(&[MOST_TEXT - 1, MOST_TEXT, MOST_TEXT, MOST_TEXT + 1, TEXT_BUFFER]);
    let mut text = ask.text.clone();
    while text.len() + 1 + ask.text.len() <= length && !ask.text.is_empty() {
        text.push(random.pick(b"&^|"));
        text.extend(&ask.text);
    }
    while text.len() < length {
        let whole =
            text.last().map_or(false, |byte| b"01)".contains(byte) || byte.is_ascii_lowercase());
        text.push(if whole { b'^' } else { b'a' });
    }
    ask.text = text;
}

fn white_space(random: &mut Random, ask: &mut Ask) {
    let place = if random.coin() { ask.text.len() } else { random.below(ask.text.len() + 1) };
    ask.text.insert(place, random.pick(b" \n\t\r"));
}

fn bad_room(random: &mut Random, ask: &mut Ask) {
    ask.room = match random.below(3) {
        0 => ask.room - 1,
        1 => ask.room + 1,
        _ => random.below(TABLE_BUFFER + 1),
    };
}

fn bad_inputs(random: &mut Random, ask: &mut Ask) {
    ask.n = random.pick(&[0, 17, 255, 256 + ask.n, (1 << 32) + ask.n, u64::MAX]);
}
