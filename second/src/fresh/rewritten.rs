//! Sheets of every kind for every desk, rewritten into rooms about as long as is
//! needed; and the new sheets, read in their edition.

use super::sheets::KINDS;
use super::Fresh;
use crate::calls;
use crate::cell::{FIRST, LAST_DESK, SECOND};
use crate::network::rebuild;
use crate::random::Random;

pub fn cases(random: &mut Random) -> Vec<Fresh> {
    let mut list = Vec::new();
    for kind in KINDS {
        for desk in 0..=LAST_DESK {
            let n = random.between(1, 8);
            let mut sheet = kind.draw_read(random, n);
            FIRST.set_desk(&mut sheet, desk);
            let needed = SECOND.sheet_bytes();
            for room in needed - 1..=needed + 1 {
                let case = calls::rewrite::case(n as u64, sheet.clone(), room);
                list.push(Fresh { case, tags: vec![format!("rewritten into: {room} bytes")] });
            }
            let cells = FIRST.read_sheet(n, &sheet).expect("a sound sheet");
            let table = rebuild(n, &cells).to_bytes();
            let new = SECOND.write_sheet(desk, &cells);
            let x = random.below(1 << n) as u64;
            let read = calls::all_that_read(&SECOND, [n as u64, x], &table, &new);
            let tags = || vec!["a rewritten sheet is read".to_string()];
            list.extend(read.into_iter().map(|case| Fresh { case, tags: tags() }));
        }
    }
    list
}
