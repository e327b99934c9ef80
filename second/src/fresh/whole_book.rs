//! The whole book: every table looked up, and every pair of tables turned.

use super::Fresh;
use crate::calls::{look_up, turn};

pub fn cases() -> Vec<Fresh> {
    let tagged = |case, tag: &str| Fresh { case, tags: vec![tag.to_string()] };
    let mut list = Vec::new();
    for first in 0..=255 {
        list.push(tagged(look_up::case(first), "book: every table"));
        for second in 0..=255 {
            list.push(tagged(turn::case(first, second), "book: every pair"));
        }
    }
    list
}
