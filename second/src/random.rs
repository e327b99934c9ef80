//! A small source of random numbers, so that a seed brings every case back.

pub struct Random {
    state: u64,
    /// The faults that a question is to have, where they aren't left to chance.
    pub planned: Option<[usize; 2]>,
}

impl Random {
    pub fn new(seed: u64) -> Random {
        Random { state: seed, planned: None }
    }

    /// A seed nobody chose.
    pub fn clock_seed() -> u64 {
        let now = std::time::SystemTime::now().duration_since(std::time::UNIX_EPOCH);
        now.map(|since| since.as_nanos() as u64).unwrap_or(1)
    }

    /// The next 64 bits (the splitmix rule).
    pub fn bits(&mut self) -> u64 {
        self.state = self.state.wrapping_add(0x9E37_79B9_7F4A_7C15);
        let mut z = self.state;
        z = (z ^ (z >> 30)).wrapping_mul(0xBF58_476D_1CE4_E5B9);
        z = (z ^ (z >> 27)).wrapping_mul(0x94D0_49BB_1331_11EB);
        z ^ (z >> 31)
    }

    pub fn below(&mut self, limit: usize) -> usize {
        (self.bits() % limit as u64) as usize
    }

    /// Both ends included.
    pub fn between(&mut self, least: usize, most: usize) -> usize {
        least + self.below(most - least + 1)
    }

    pub fn coin(&mut self) -> bool {
        self.one_in(2)
    }

    pub fn one_in(&mut self, many: usize) -> bool {
        self.below(many) == 0
    }

    pub fn pick<T: Copy>(&mut self, list: &[T]) -> T {
        list[self.below(list.len())]
    }

    pub fn bytes(&mut self, length: usize) -> Vec<u8> {
        (0..length).map(|_| self.bits() as u8).collect()
    }

    pub fn shuffle<T>(&mut self, list: &mut [T]) {
        for last in (1..list.len()).rev() {
            list.swap(last, self.below(last + 1));
        }
    }

    /// A random part of a set, of the given size (or the whole set, if smaller).
    pub fn part_of(&mut self, mask: u16, size: usize) -> u16 {
        let mut left = crate::sets::members(mask);
        let mut part = 0;
        for _ in 0..size.min(left.len()) {
            part |= 1 << left.swap_remove(self.below(left.len()));
        }
        part
    }
}
