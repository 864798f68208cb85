//! Numbers by chance from a fixed seed.

pub struct Chance(u64);

impl Chance {
    pub fn new() -> Self {
        Chance(20_190_101)
    }

    /// xorshift64*
    fn next(&mut self) -> u64 {
        self.0 ^= self.0 >> 12;
        self.0 ^= self.0 << 25;
        self.0 ^= self.0 >> 27;
        self.0.wrapping_mul(0x2545_F491_4F6C_DD1D)
    }

    /// From 0 up to a greatest one.
    pub fn up_to(&mut self, most: u64) -> u64 {
        self.next() % (most + 1)
    }

    pub fn one_in(&mut self, many: u64) -> bool {
        self.up_to(many - 1) == 0
    }

    /// Often the least, the greatest or a small one.
    pub fn some(&mut self, most: u64) -> u64 {
        match self.up_to(7) {
            0 => 0,
            1 => most,
            2 => self.up_to(20).min(most),
            _ => self.up_to(most),
        }
    }

    /// So many names, rising.
    pub fn names(&mut self, count: usize) -> Vec<u16> {
        let step = 65_535 / count.max(1) as u64;
        (0..count as u64).map(|row| (row * step + 1 + self.up_to(step - 1)) as u16).collect()
    }
}
