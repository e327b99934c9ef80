//! What was learned: at most 64 pairs of masks, each of which rules out splits.

pub struct Learned {
    own: [u32; 64],
    free: [u32; 64],
    kept: usize,
}

impl Learned {
    pub fn new() -> Learned {
        Learned { own: [1; 64], free: [1; 64], kept: 0 }
    }

    /// Whether a pair rules out this split; what helped moves halfway to the front.
    pub fn ruled(&mut self, own: u32, both: u32) -> bool {
        let count = self.kept.min(64);
        for i in 0..count {
            if meets(self.own[i], self.free[i], own, both) {
                self.own.swap(i, i / 2);
                self.free.swap(i, i / 2);
                return true;
            }
        }
        false
    }

    /// Keeps a pair: after the first 64 the second half is used in turn.
    pub fn keep(&mut self, own: u32, free: u32) {
        let at = if self.kept < 64 { self.kept } else { 32 + self.kept % 32 };
        self.own[at] = own;
        self.free[at] = free;
        self.kept = self.kept % 65536 + 1;
    }
}

/// Whether the mask p is inside `own` and q outside `both`.
pub fn meets(p: u32, q: u32, own: u32, both: u32) -> bool {
    p & !own == 0 && q & both == 0
}
