//! The masks of one size in increasing order, less those that what is known rules out.

use super::columns::Split;
use super::learned::{meets, Learned};
use super::pairs::Pairs;
use super::witness::look;

pub struct Walk<'a> {
    pub t: &'a [u8],
    pub n: u32,
    pub pairs: &'a Pairs,
    pub learned: Learned,
}

impl Walk<'_> {
    /// Looks for a witness and keeps what it rules out; whether that is this split. Of two own inputs with nothing
    /// shared it would tell of hardly another.
    fn learn(&mut self, s: &Split) -> bool {
        if s.shared == 0 && s.own.count_ones() == 2 {
            return false;
        }
        let w = match look(s) {
            Some(found) => found.shrunk(self.t, self.n),
            None => return false,
        };
        let p = w.own();
        if !w.shows(self.t, self.n, p) {
            return false;
        }
        self.learned.keep(p, w.d);
        meets(p, w.d, s.own, s.own | s.shared)
    }

    /// The pair of masks, if it is possible.
    fn attempt(&mut self, own: u16, shared: u16) -> Option<(u16, u16)> {
        if self.learned.ruled(own as u32, (own | shared) as u32) {
            return None;
        }
        let s = Split::of(self.t, self.n, own, shared);
        if self.learn(&s) {
            return None;
        }
        s.few_columns().then_some((own, shared))
    }

    fn shared(&mut self, own: u16, need: u16, p: u32, acc: u16, k: u32) -> Option<(u16, u16)> {
        if k > p {
            return None;
        }
        let left = need & !acc;
        if left.count_ones() > k || (left as u32) >> p & 1 == 1 {
            return None;
        }
        if k == 0 {
            return self.attempt(own, acc);
        }
        let j = p - 1;
        if let Some(found) = self.shared(own, need, j, acc, k) {
            return Some(found);
        }
        if own >> j & 1 == 1 {
            return None;
        }
        self.shared(own, need, j, acc | 1 << j, k - 1)
    }

    pub fn own(&mut self, q: u32, need: u16, p: u32, acc: u16, k: u32) -> Option<(u16, u16)> {
        if k > p {
            return None;
        }
        let left = need & !acc;
        if left.count_ones() > q + k {
            return None;
        }
        if k == 0 {
            return self.shared(acc, left, self.n, 0, q);
        }
        let j = p - 1;
        if let Some(found) = self.own(q, need, j, acc, k) {
            return Some(found);
        }
        let more = self.pairs.needed(acc, j, need);
        self.own(q, more, j, acc | 1 << j, k - 1)
    }
}
