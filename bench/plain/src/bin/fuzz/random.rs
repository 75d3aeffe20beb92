//! Numbers by chance, the same for the same seed.

/// SplitMix64.
pub struct Random(u64);

impl Random {
    /// The numbers of the k-th trace of a seed.
    pub fn new(seed: u64, k: u64) -> Self {
        let mut first = Random(seed);
        let start = first.word();
        Random(start ^ k.wrapping_mul(0xd134_2543_de82_ef95))
    }

    pub fn word(&mut self) -> u64 {
        self.0 = self.0.wrapping_add(0x9e37_79b9_7f4a_7c15);
        let mut mixed = self.0;
        mixed = (mixed ^ (mixed >> 30)).wrapping_mul(0xbf58_476d_1ce4_e5b9);
        mixed = (mixed ^ (mixed >> 27)).wrapping_mul(0x94d0_49bb_1331_11eb);
        mixed ^ (mixed >> 31)
    }

    /// A number below n, which isn't 0.
    pub fn below(&mut self, n: u32) -> u32 { (self.word() % u64::from(n)) as u32 }

    pub fn within(&mut self, least: u32, most: u32) -> u32 { least + self.below(most - least + 1) }

    /// Whether it happens that happens so often in a thousand times.
    pub fn happens(&mut self, per_thousand: u32) -> bool { self.below(1000) < per_thousand }

    pub fn place(&mut self, len: usize) -> usize { (self.word() % len as u64) as usize }

    pub fn pick<T: Copy>(&mut self, from: &[T]) -> T { from[self.place(from.len())] }
}
