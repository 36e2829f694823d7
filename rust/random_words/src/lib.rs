//! A small generator of pseudo-random words of 64 bits, splitmix64: a run gives the same inputs everywhere.

pub struct Words(u64);

impl Words {
    /// Streams of different seeds and numbers have nothing to do with each other.
    pub fn new(seed: u64, name: &str, block: u64) -> Self {
        let mut words = Words(seed);
        for byte in name.bytes() {
            words.0 = words.any() ^ u64::from(byte);
        }
        words.0 = words.any() ^ block;
        words.any();
        words
    }

    /// Any word.
    pub fn any(&mut self) -> u64 {
        self.0 = self.0.wrapping_add(0x9E37_79B9_7F4A_7C15);
        let z = (self.0 ^ self.0 >> 30).wrapping_mul(0xBF58_476D_1CE4_E5B9);
        let z = (z ^ z >> 27).wrapping_mul(0x94D0_49BB_1331_11EB);
        z ^ z >> 31
    }

    /// A number below n.
    pub fn below(&mut self, n: u64) -> u64 {
        ((u128::from(self.any()) * u128::from(n)) >> 64) as u64
    }

    /// A number from low to high, both included.
    pub fn between(&mut self, low: i64, high: i64) -> i64 {
        low + self.below((high - low + 1) as u64) as i64
    }

    pub fn choice<T: Copy>(&mut self, of: &[T]) -> T {
        of[self.below(of.len() as u64) as usize]
    }

    /// A float from 0 up to 1, without 1.
    pub fn unit(&mut self) -> f64 {
        (self.any() >> 11) as f64 / (1_u64 << 53) as f64
    }

    /// A float from low to high, every place as likely.
    pub fn uniform(&mut self, low: f64, high: f64) -> f64 {
        low + (high - low) * self.unit()
    }
}
