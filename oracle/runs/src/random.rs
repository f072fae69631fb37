//! A small random number generator (splitmix64), so that runs can be made again from a seed.

pub struct Random(u64);

impl Random {
    pub fn new(seed: &[u64]) -> Random {
        Random(hash(seed))
    }

    pub fn word(&mut self) -> u64 {
        self.0 = self.0.wrapping_add(0x9e37_79b9_7f4a_7c15);
        mixed(self.0)
    }

    /// A number below the bound.
    pub fn below(&mut self, bound: u64) -> u64 {
        self.word() % bound
    }

    /// True so many times in a thousand.
    pub fn chance(&mut self, thousandths: u64) -> bool {
        self.below(1000) < thousandths
    }

    pub fn pick<T: Copy>(&mut self, items: &[T]) -> T {
        items[self.below(items.len() as u64) as usize]
    }

    /// A handle: mostly any, sometimes a small one or one of the bounds.
    pub fn handle(&mut self) -> u64 {
        match self.below(10) {
            0 => self.pick(&[1, 2, (1 << 32) - 1]),
            1..=3 => 1 + self.below(9),
            _ => 1 + self.below((1 << 32) - 1),
        }
    }
}

fn mixed(word: u64) -> u64 {
    let word = (word ^ word >> 30).wrapping_mul(0xbf58_476d_1ce4_e5b9);
    let word = (word ^ word >> 27).wrapping_mul(0x94d0_49bb_1331_11eb);
    word ^ word >> 31
}

/// One number out of several.
pub fn hash(words: &[u64]) -> u64 {
    words.iter().fold(0x1234_5678, |h, w| mixed(h ^ mixed(w.wrapping_add(0x9e37_79b9))))
}
