//! A small generator of numbers that look random and depend on the seed alone.

pub struct Random {
    state: u64,
}

impl Random {
    /// `stream` parts the traces of one seed from one another.
    pub fn new(seed: u64, stream: u64) -> Random {
        let mut random = Random { state: seed };
        let mixed = random.next() ^ stream.wrapping_mul(0xD1B5_4A32_D192_ED03);
        random.state = mixed;
        random.next();
        random
    }

    /// SplitMix64: a counter, scrambled.
    pub fn next(&mut self) -> u64 {
        self.state = self.state.wrapping_add(0x9E37_79B9_7F4A_7C15);
        let mut mixed = self.state;
        mixed = (mixed ^ (mixed >> 30)).wrapping_mul(0xBF58_476D_1CE4_E5B9);
        mixed = (mixed ^ (mixed >> 27)).wrapping_mul(0x94D0_49BB_1331_11EB);
        mixed ^ (mixed >> 31)
    }

    /// A number from 0 to `count` − 1.
    pub fn below(&mut self, count: usize) -> usize {
        (self.next() % count as u64) as usize
    }

    /// A number from `least` to `most`, both included.
    pub fn between(&mut self, least: u64, most: u64) -> u64 {
        least + self.next() % (most - least + 1)
    }

    /// True in `percent` of a hundred cases.
    pub fn chance(&mut self, percent: u64) -> bool {
        self.next() % 100 < percent
    }

    pub fn pick<'a, T: ?Sized>(&mut self, items: &[&'a T]) -> &'a T {
        items[self.below(items.len())]
    }
}
