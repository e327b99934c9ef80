//! Counting what passed, and whether the cases covered what they should.

use std::collections::BTreeMap;

use crate::calls::TABLE;
use crate::case::Call;

/// Each call must give each of its numbers at least this often.
pub const LEAST: usize = 10;

#[derive(Default)]
pub struct Tally {
    /// By code and number.
    numbers: BTreeMap<(u8, u8), usize>,
    tags: BTreeMap<String, usize>,
}

impl Tally {
    /// Counts a case that passed, with the answer both programs gave.
    pub fn count(&mut self, call: &Call, answer: &[u8], tags: &[String]) {
        *self.numbers.entry((call.code, call.number_in(answer))).or_default() += 1;
        for tag in tags {
            *self.tags.entry(tag.clone()).or_default() += 1;
        }
    }

    fn of(&self, call: &Call, number: u8) -> usize {
        self.numbers.get(&(call.code, number)).copied().unwrap_or(0)
    }

    pub fn print(&self) {
        let given = || TABLE.iter().flat_map(|call| call.gives);
        let most = given().copied().max().unwrap_or(0);
        println!("passed, by call and number:");
        let head: Vec<String> = (0..=most).map(|number| format!("{number:>6}")).collect();
        println!("  {:<16}{}", "", head.concat());
        for call in TABLE {
            let row = (0..=most).map(|number| match self.of(call, number) {
                0 if !call.gives.contains(&number) => format!("{:>6}", "-"),
                count => format!("{count:>6}"),
            });
            println!("  {:02X} {:<13}{}", call.code, call.name, row.collect::<String>());
        }
        println!("passed, by kind (a case may count under several):");
        for (tag, count) in &self.tags {
            println!("  {tag:<48}{count:>6}");
        }
    }

    /// Every pair of call and number that came too seldom.
    pub fn too_seldom(&self) -> Vec<String> {
        let mut list = Vec::new();
        for call in TABLE {
            for &number in call.gives {
                let count = self.of(call, number);
                if count < LEAST {
                    let name = call.name;
                    list.push(format!("{name} gave {number} only {count} times, not {LEAST}"));
                }
            }
        }
        list
    }
}
