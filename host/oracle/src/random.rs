/// splitmix64: the same numbers from the same seed, on every machine.
pub struct Random(u64);

impl Random {
    /// A stream of its own for each part, so that one part's length does not move another's numbers.
    pub fn new(seed: u64, part: u64) -> Self {
        Self(seed.wrapping_mul(0x2545_F491_4F6C_DD1D) ^ part)
    }

    /// Any number.
    #[allow(clippy::should_implement_trait)]
    pub fn next(&mut self) -> u64 {
        self.0 = self.0.wrapping_add(0x9E37_79B9_7F4A_7C15);
        let mut z = self.0;
        z = (z ^ (z >> 30)).wrapping_mul(0xBF58_476D_1CE4_E5B9);
        z = (z ^ (z >> 27)).wrapping_mul(0x94D0_49BB_1331_11EB);
        z ^ (z >> 31)
    }

    /// A number below n.
    pub fn below(&mut self, n: u64) -> u64 {
        self.next() % n
    }

    /// A number of any magnitude: 0 to 64 bits long, and as often with all bits turned over.
    pub fn wide(&mut self) -> u64 {
        let shape = self.next();
        let number = self.next().checked_shr((shape % 65) as u32).unwrap_or(0);
        if shape >> 63 == 0 { number } else { !number }
    }
}
