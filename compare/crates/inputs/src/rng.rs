//! A small random number generator (SplitMix64).

pub struct Rng(u64);

impl Rng {
    /// A stream of its own for each part of a run, whichever thread does it.
    pub fn stream(seed: u64, family: u64, part: u64) -> Rng {
        let mut rng = Rng(seed);
        for word in [family, part] {
            rng.0 = rng.word() ^ word;
        }
        Rng(rng.word())
    }

    pub fn word(&mut self) -> u64 {
        self.0 = self.0.wrapping_add(0x9E37_79B9_7F4A_7C15);
        let mut x = self.0;
        x = (x ^ (x >> 30)).wrapping_mul(0xBF58_476D_1CE4_E5B9);
        x = (x ^ (x >> 27)).wrapping_mul(0x94D0_49BB_1331_11EB);
        x ^ (x >> 31)
    }

    /// A number below n, which is not 0.
    pub fn below(&mut self, n: usize) -> usize {
        ((u128::from(self.word()) * n as u128) >> 64) as usize
    }

    /// A number from lo to hi, both included.
    pub fn between(&mut self, lo: usize, hi: usize) -> usize {
        lo + self.below(hi - lo + 1)
    }

    /// A whole number from lo to hi, both included, as a price.
    pub fn whole(&mut self, lo: i32, hi: i32) -> f64 {
        f64::from(lo) + self.below((hi - lo + 1) as usize) as f64
    }

    /// A price from lo up to hi.
    pub fn real(&mut self, lo: f64, hi: f64) -> f64 {
        lo + (hi - lo) * ((self.word() >> 11) as f64 / (1u64 << 53) as f64)
    }

    /// True once in n times.
    pub fn one_in(&mut self, n: usize) -> bool {
        self.below(n) == 0
    }

    pub fn pick<T: Copy>(&mut self, from: &[T]) -> T {
        from[self.below(from.len())]
    }
}
