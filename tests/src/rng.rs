//! A small generator of numbers: the same seed gives the same numbers everywhere.

pub struct Rng(u64);

impl Rng {
    pub fn new(seed: u64) -> Rng {
        Rng(seed)
    }

    /// SplitMix64.
    pub fn number(&mut self) -> u64 {
        self.0 = self.0.wrapping_add(0x9e37_79b9_7f4a_7c15);
        let mut z = self.0;
        z = (z ^ (z >> 30)).wrapping_mul(0xbf58_476d_1ce4_e5b9);
        z = (z ^ (z >> 27)).wrapping_mul(0x94d0_49bb_1331_11eb);
        z ^ (z >> 31)
    }

    pub fn byte(&mut self) -> u8 {
        self.number() as u8
    }

    /// From 0 up to but not including `end`, which is not 0.
    pub fn below(&mut self, end: usize) -> usize {
        ((u128::from(self.number()) * end as u128) >> 64) as usize
    }

    /// From `low` to `high`, both included.
    pub fn within(&mut self, low: u32, high: u32) -> u32 {
        low + self.below((high - low) as usize + 1) as u32
    }

    /// True in so many of a hundred cases.
    pub fn chance(&mut self, percent: usize) -> bool {
        self.below(100) < percent
    }

    pub fn pick<T: Copy>(&mut self, items: &[T]) -> T {
        items[self.below(items.len())]
    }

    /// Puts items in any order.
    pub fn shuffle<T>(&mut self, items: &mut [T]) {
        for last in (1..items.len()).rev() {
            items.swap(last, self.below(last + 1));
        }
    }

    /// One of the bits that are set, as its number; the mask is not 0.
    pub fn bit(&mut self, mask: u16) -> u8 {
        let wanted = self.below(mask.count_ones() as usize);
        let mut bits = (0..16u8).filter(|bit| mask >> bit & 1 == 1);
        bits.nth(wanted).expect("a set bit")
    }

    /// Bytes that all differ from call to call; a long one is a run of one byte between others.
    pub fn bytes(&mut self, length: usize) -> Vec<u8> {
        let middle = self.within(1, 255) as u8;
        let ends = |index: usize| index < 4 || index + 4 >= length;
        let byte = |index| if ends(index) { self.byte() } else { middle };
        (0..length).map(byte).collect()
    }

    /// Bytes without any order.
    pub fn noise(&mut self, length: usize) -> Vec<u8> {
        (0..length).map(|_| self.byte()).collect()
    }
}
