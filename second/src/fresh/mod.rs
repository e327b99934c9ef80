//! Fresh cases for every call, sound and damaged.

mod bad;
pub mod breaks;
pub mod cards;
pub mod damage;
pub mod desks;
pub mod every_bit;
pub mod every_rule;
pub mod gate;
pub mod ignored;
mod large;
pub mod least;
pub mod networks;
pub mod printing;
pub mod rewritten;
pub mod several;
pub mod several_chains;
pub mod sheet;
pub mod sheets;
pub mod tables;
pub mod texts;
pub mod timing;
pub mod trees;
pub mod two_sheets;
pub mod unread;
pub mod whole_book;

use crate::calls::{call_of, TABLE};
use crate::case::{Case, Field};
use crate::random::Random;

/// A case and what is to be counted about it.
pub struct Fresh {
    pub case: Case,
    pub tags: Vec<String>,
}

/// So many fresh cases, the calls in turn; besides, every two faults of a call at once,
/// a few large ones, splits that break at a known place, every split of some small
/// tables with several first cells, tables that ignore inputs in every place, every
/// rule of the records broken, every bit of some sheets flipped, cells that nobody
/// reads at every place, records of other desks, cuts of a load and damaged cards,
/// sheets rewritten for every desk, counting gates and the lower bound on cells for
/// every K and n.
pub fn cases(random: &mut Random, count: usize) -> Vec<Fresh> {
    let mut list = in_turn(random, count);
    let turns = list.len();
    list.extend(pairs(random));
    list.extend(large::cases(random));
    list.extend(breaks::cases(random));
    list.extend(several::cases(random));
    list.extend(ignored::cases(random));
    list.extend(every_rule::cases(random));
    list.extend(every_bit::cases(random));
    list.extend(unread::cases(random));
    list.extend(desks::cases(random));
    list.extend(cards::cases(random));
    list.extend(rewritten::cases(random));
    list.extend(several_chains::cases(random));
    list.extend(least::cases(random));
    list.retain(|fresh| call_of(fresh.case.call.code).is_some());
    tag_sizes(&mut list[turns..]);
    list
}

/// So many fresh cases, the calls in turn, and nothing besides.
pub fn in_turn(random: &mut Random, count: usize) -> Vec<Fresh> {
    let mut list: Vec<Fresh> = (0..count).map(|i| (TABLE[i % TABLE.len()].fresh)(random)).collect();
    tag_sizes(&mut list);
    list
}

fn tag_sizes(list: &mut [Fresh]) {
    for fresh in list {
        fresh.tags.extend(size_tag(&fresh.case));
    }
}

/// No call has more faults than that.
const MOST_FAULTS: usize = 12;

/// For each call every two of its faults at once, so that one sees which number wins.
pub fn pairs(random: &mut Random) -> Vec<Fresh> {
    let mut list = Vec::new();
    for call in TABLE {
        for two in 1..MOST_FAULTS {
            for one in 0..two {
                random.planned = Some([one, two]);
                let fresh = (call.fresh)(random);
                let faults = fresh.tags.iter().filter(|tag| tag.starts_with("fault: "));
                // A plan beyond the call's faults comes to fewer.
                if faults.count() > 1 {
                    list.extend([fresh, (call.fresh)(random)]);
                }
            }
        }
    }
    random.planned = None;
    list
}

/// The range in which n lies, for a call that is told n.
fn size_tag(case: &Case) -> Option<String> {
    let mut names = case.call.asks.iter().filter_map(|field| match field {
        Field::Number(name, _) => Some(*name),
        _ => None,
    });
    let range = match case.numbers[names.position(|name| name == "n")?] {
        0 => "0",
        1..=3 => "01 to 03",
        4..=8 => "04 to 08",
        9..=12 => "09 to 12",
        13..=16 => "13 to 16",
        17..=65_535 => "17 and more",
        _ => "2^16 and more",
    };
    Some(format!("n: {range}"))
}

/// What is to be asked, and the words to count it under.
trait Tagged {
    fn tags(&mut self) -> &mut Vec<String>;
}

/// A way to spoil what is to be asked, with its name.
pub type Fault<Ask> = (&'static str, fn(&mut Random, &mut Ask));

/// No fault in so many of twelve cases, else one, now and then two or more at
/// once (so that one sees that the lowest number wins).
fn spoil<Ask: Tagged>(random: &mut Random, ask: &mut Ask, faults: &[Fault<Ask>], sound: usize) {
    let mut names = Vec::new();
    for at in chosen(random, faults.len(), sound) {
        let (name, fault) = faults[at];
        fault(random, ask);
        names.push(name);
    }
    let tags = ask.tags();
    tags.extend(names.iter().map(|name| format!("fault: {name}")));
    if names.len() > 1 {
        tags.push("several faults at once".to_string());
    }
}

/// Which of so many faults, in their order.
fn chosen(random: &mut Random, many: usize, sound: usize) -> Vec<usize> {
    if let Some(planned) = random.planned {
        return planned.into_iter().filter(|&at| at < many).collect();
    }
    let plan = random.below(12);
    if plan < sound {
        return Vec::new();
    }
    let (one, two) = (random.below(many), random.below(many));
    let mut all =
        |at: &usize| *at == one || (plan >= 10 && *at == two) || (plan == 11 && random.one_in(4));
    (0..many).filter(|at| all(at)).collect()
}
