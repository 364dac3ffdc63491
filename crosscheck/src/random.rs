//! A small seeded generator (splitmix64) and helpers for drawing words, members and sets.

use crate::reference::field::P;
use crate::reference::members;

/// A generator; equal seeds draw equal sequences.
pub struct Random {
    state: u64,
}

impl Random {
    pub fn new(seed: u64) -> Self {
        Random { state: seed }
    }

    /// The next 64 bits.
    pub fn draw(&mut self) -> u64 {
        self.state = self.state.wrapping_add(0x9e37_79b9_7f4a_7c15);
        let mut z = self.state;
        z = (z ^ (z >> 30)).wrapping_mul(0xbf58_476d_1ce4_e5b9);
        z = (z ^ (z >> 27)).wrapping_mul(0x94d0_49bb_1331_11eb);
        z ^ (z >> 31)
    }

    /// A number below `bound`, which is not 0.
    pub fn below(&mut self, bound: usize) -> usize {
        (self.draw() % bound as u64) as usize
    }

    /// A number from `low` to `high`, both included.
    pub fn within(&mut self, low: usize, high: usize) -> usize {
        low + self.below(high - low + 1)
    }

    /// True once in `n` draws.
    pub fn once_in(&mut self, n: usize) -> bool {
        self.below(n) == 0
    }

    pub fn coin(&mut self) -> bool {
        self.once_in(2)
    }

    pub fn pick<T: Copy>(&mut self, from: &[T]) -> T {
        from[self.below(from.len())]
    }

    /// Any 16-bit word.
    pub fn word(&mut self) -> u16 {
        self.draw() as u16
    }

    pub fn words(&mut self, count: usize) -> Vec<u16> {
        (0..count).map(|_| self.word()).collect()
    }

    /// Any three words.
    pub fn three(&mut self) -> [u16; 3] {
        [(); 3].map(|_| self.word())
    }

    pub fn bytes(&mut self, count: usize) -> Vec<u8> {
        let drawn = (0..count.div_ceil(8)).flat_map(|_| self.draw().to_le_bytes());
        drawn.take(count).collect()
    }

    /// A field word; the ends of the range come up often.
    pub fn field(&mut self) -> u16 {
        match self.below(24) {
            0 => 0,
            1 => 1,
            2 => (P - 1) as u16,
            _ => self.below(P as usize) as u16,
        }
    }

    pub fn fields(&mut self, count: usize) -> Vec<u16> {
        (0..count).map(|_| self.field()).collect()
    }

    /// A field word other than `word`.
    pub fn other(&mut self, word: u16) -> u16 {
        let step = self.within(1, P as usize - 1);
        let step = if self.once_in(4) { 1 } else { step };
        ((word as usize + step) % P as usize) as u16
    }

    /// A word that is no field word.
    pub fn above(&mut self) -> u16 {
        match self.below(3) {
            0 => P as u16,
            1 => u16::MAX,
            _ => self.within(P as usize, 65535) as u16,
        }
    }

    /// A day; the ends of the range come up often.
    pub fn day(&mut self) -> u16 {
        match self.below(6) {
            0 => 1,
            1 => (P - 1) as u16,
            _ => self.within(1, P as usize - 1) as u16,
        }
    }

    /// A day other than `day`, often the next one; the last is followed by the first.
    pub fn other_day(&mut self, day: u16) -> u16 {
        match self.other(day) {
            0 if day == 1 => 2,
            0 => 1,
            other => other,
        }
    }

    /// A word that is no day.
    pub fn no_day(&mut self) -> u16 {
        match self.coin() {
            true => 0,
            false => self.above(),
        }
    }

    /// Any 32-bit mask.
    pub fn mask(&mut self) -> u32 {
        self.draw() as u32
    }

    /// `count` members of the set, which has as many.
    pub fn choose(&mut self, set: u32, count: usize) -> u32 {
        let mut left = members(set);
        self.shuffle(&mut left);
        left[..count].iter().fold(0, |mask, i| mask | 1 << (i - 1))
    }

    /// Any part of the set.
    pub fn part(&mut self, set: u32) -> u32 {
        match self.below(3) {
            0 => set & self.mask(),
            1 => set & (self.mask() | self.mask()),
            _ => set & (self.mask() | self.mask() | self.mask()),
        }
    }

    pub fn shuffle<T>(&mut self, list: &mut [T]) {
        for i in (1..list.len()).rev() {
            list.swap(i, self.below(i + 1));
        }
    }
}
