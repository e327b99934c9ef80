//! Witnesses: three points and an offset at which the table shows three columns, found by whole words and made small.

use super::columns::{next, Split};
use crate::table::bit;

#[derive(Clone, Copy)]
pub struct Witness {
    pub x: u32,
    pub y: u32,
    pub z: u32,
    pub d: u32,
}

impl Witness {
    /// The positions at which the points differ.
    pub fn own(&self) -> u32 {
        (self.x ^ self.y) | (self.x ^ self.z)
    }

    /// Whether two points have the same column: the bit at the point, and the bit at the point moved.
    fn alike(t: &[u8], x: u32, y: u32, d: u32) -> bool {
        let here = bit(t, x) == bit(t, y);
        let moved = bit(t, x ^ d) == bit(t, y ^ d);
        here && moved
    }

    /// Whether the six bits show three different columns, and the points differ at positions of `own` alone.
    pub fn shows(&self, t: &[u8], n: u32, own: u32) -> bool {
        let all = 1u32 << n;
        self.x < all
            && self.y < all
            && self.z < all
            && self.d < all
            && self.x & !own == self.y & !own
            && self.x & !own == self.z & !own
            && !Self::alike(t, self.x, self.y, self.d)
            && !Self::alike(t, self.x, self.z, self.d)
            && !Self::alike(t, self.y, self.z, self.d)
    }

    fn holds(&self, t: &[u8], n: u32) -> bool {
        self.shows(t, n, u32::MAX)
    }

    fn without_free(self, t: &[u8], n: u32, e: u32) -> Witness {
        if self.d & e == 0 {
            return self;
        }
        let stay = Witness { d: self.d ^ e, ..self };
        if stay.holds(t, n) {
            return stay;
        }
        let moved = Witness { x: self.x ^ e, y: self.y ^ e, z: self.z ^ e, d: self.d ^ e };
        if moved.holds(t, n) {
            return moved;
        }
        self
    }

    fn without_own(self, t: &[u8], n: u32, e: u32) -> Witness {
        let set = Witness { x: self.x | e, y: self.y | e, z: self.z | e, d: self.d };
        if set.holds(t, n) {
            return set;
        }
        let cleared = Witness { x: self.x & !e, y: self.y & !e, z: self.z & !e, d: self.d };
        if cleared.holds(t, n) {
            return cleared;
        }
        self
    }

    /// Without each position that the points or the offset can do without: two times through the positions.
    pub fn shrunk(self, t: &[u8], n: u32) -> Witness {
        let mut w = self;
        for _ in 0..2 {
            for j in 0..n {
                let e = 1 << j;
                w = w.without_free(t, n, e);
                if w.own() & e != 0 {
                    w = w.without_own(t, n, e);
                }
            }
        }
        w
    }
}

/// Three columns of a split, if one of its shared assignments has so many.
pub fn look(s: &Split) -> Option<Witness> {
    let mut b = 0u32;
    loop {
        if let Some(w) = third(s, b) {
            return Some(w);
        }
        b = next(s.shared, b);
        if b == 0 {
            return None;
        }
    }
}

/// The six bits that tell three columns apart, of which the first two differ at the free part c.
fn told(s: &Split, x: u32, y: u32, z: u32, c: u32) -> Option<Witness> {
    let from_y = s.differ(y, z)?;
    let from_x = s.differ(x, z)?;
    let apart = bit(s.t, x | c) != bit(s.t, z | c);
    let e = if apart { from_y } else { from_x };
    Some(Witness { x: x | c, y: y | c, z: z | c, d: c ^ e })
}

/// A third column of the shared assignment b.
fn third(s: &Split, b: u32) -> Option<Witness> {
    let mut y = b;
    let mut at = None;
    let mut a = 0u32;
    loop {
        let z = b | a;
        match at {
            None => {
                y = z;
                at = s.differ(b, z);
            }
            Some(c) => {
                let found = told(s, b, y, z, c);
                if found.is_some() {
                    return found;
                }
            }
        }
        a = next(s.own, a);
        if a == 0 {
            return None;
        }
    }
}
