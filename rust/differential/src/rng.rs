//! Numbers that depend on a seed alone (SplitMix64).

/// Values that sums and comparisons trip over.
pub const EDGES: [u64; 7] = [0, 1, 2, (1 << 63) - 2, (1 << 63) - 1, 1 << 63, u64::MAX];

/// A generator.
pub struct Rng {
    seed: u64,
    state: u64,
}

impl Rng {
    /// The generator of a seed.
    pub fn new(seed: u64) -> Rng {
        Rng { seed, state: seed }
    }

    /// The seed.
    pub fn seed(&self) -> u64 {
        self.seed
    }

    /// Any number.
    pub fn number(&mut self) -> u64 {
        self.state = self.state.wrapping_add(0x9e37_79b9_7f4a_7c15);
        let mut mixed = self.state;
        mixed = (mixed ^ (mixed >> 30)).wrapping_mul(0xbf58_476d_1ce4_e5b9);
        mixed = (mixed ^ (mixed >> 27)).wrapping_mul(0x94d0_49bb_1331_11eb);
        mixed ^ (mixed >> 31)
    }

    /// A number below `limit`.
    pub fn below(&mut self, limit: usize) -> usize {
        (self.number() % limit as u64) as usize
    }

    /// True once in so many times.
    pub fn one_in(&mut self, times: usize) -> bool {
        self.below(times) == 0
    }

    /// One of the items.
    pub fn pick<T: Copy>(&mut self, items: &[T]) -> T {
        items[self.below(items.len())]
    }

    /// Some of the items, each at most once.
    pub fn distinct<T: Copy, const N: usize>(&mut self, items: &[T]) -> [T; N] {
        let mut left = items.to_vec();
        std::array::from_fn(|_| left.swap_remove(self.below(left.len())))
    }

    /// An edge value, or one of its neighbours, or any number.
    pub fn edge(&mut self) -> u64 {
        let edge = self.pick(&EDGES);
        match self.below(8) {
            0 => self.number(),
            1 => edge.wrapping_sub(1),
            2 => edge.wrapping_add(1),
            _ => edge,
        }
    }

    /// Any bytes.
    pub fn bytes(&mut self, length: usize) -> Vec<u8> {
        (0..length).map(|_| self.number() as u8).collect()
    }

    /// Any bytes, of one of these lengths.
    pub fn bytes_of(&mut self, lengths: &[usize]) -> Vec<u8> {
        let length = self.pick(lengths);
        self.bytes(length)
    }

    /// As many bytes as the array has.
    pub fn array<const N: usize>(&mut self) -> [u8; N] {
        std::array::from_fn(|_| self.number() as u8)
    }

    /// Turns over one bit.
    pub fn flip_bit(&mut self, bytes: &mut [u8]) {
        if !bytes.is_empty() {
            let at = self.below(bytes.len());
            bytes[at] ^= 1 << self.below(8);
        }
    }
}
