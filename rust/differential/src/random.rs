//! A small generator of numbers with a fixed start, so that every run is the same.

pub struct Random(u64);

impl Random {
    pub fn new(seed: u64) -> Self {
        Random(seed)
    }

    /// From a name: each call has its own numbers, whatever calls stand beside it.
    pub fn named(name: &str, seed: u64) -> Self {
        let start = name.bytes().fold(seed ^ 0x9e37_79b9_7f4a_7c15, |n, b| {
            (n ^ u64::from(b)).wrapping_mul(0x0000_0100_0000_01b3)
        });
        Random(start)
    }

    /// splitmix64
    pub fn next(&mut self) -> u64 {
        self.0 = self.0.wrapping_add(0x9e37_79b9_7f4a_7c15);
        let mut z = self.0;
        z = (z ^ (z >> 30)).wrapping_mul(0xbf58_476d_1ce4_e5b9);
        z = (z ^ (z >> 27)).wrapping_mul(0x94d0_49bb_1331_11eb);
        z ^ (z >> 31)
    }

    pub fn below(&mut self, n: usize) -> usize {
        (self.next() % n.max(1) as u64) as usize
    }

    /// True in `part` of `whole` cases.
    pub fn chance(&mut self, part: usize, whole: usize) -> bool {
        self.below(whole) < part
    }

    pub fn pick<T: Copy>(&mut self, list: &[T]) -> T {
        list[self.below(list.len())]
    }

    pub fn shuffle<T>(&mut self, list: &mut [T]) {
        for i in (1..list.len()).rev() {
            list.swap(i, self.below(i + 1));
        }
    }

    /// A 64-bit field: few values, so that they meet; now and then an extreme one.
    pub fn field(&mut self) -> u64 {
        match self.below(10) {
            0 => self.pick(&[u64::MAX, u64::MAX - 1, 1 << 63, (1 << 63) - 1, 1 << 32, 255, 256]),
            1 => self.next(),
            _ => self.below(6) as u64,
        }
    }

    /// A 32-bit count, with the edges.
    pub fn count(&mut self) -> u32 {
        match self.below(8) {
            0 => self.pick(&[u32::MAX, u32::MAX - 1, u32::MAX - 2, 1 << 31]),
            1 => self.next() as u32,
            2 => 0,
            _ => self.below(4) as u32 + 1,
        }
    }

    /// A 64-bit total, with the edges.
    pub fn total(&mut self) -> u64 {
        match self.below(8) {
            0 => u64::MAX - self.below(5) as u64,
            1 => self.next(),
            2 => u64::MAX - u64::from(self.count()),
            3 => u64::from(self.count()),
            _ => self.below(6) as u64,
        }
    }
}
