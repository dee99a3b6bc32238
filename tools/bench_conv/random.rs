//! Numbers to try, the same in every run.

pub struct Random(pub u64);

impl Random {
    fn next(&mut self) -> u64 {
        self.0 ^= self.0 << 13;
        self.0 ^= self.0 >> 7;
        self.0 ^= self.0 << 17;
        self.0
    }
    pub fn below(&mut self, n: usize) -> usize {
        (self.next() >> 20) as usize % n
    }
    pub fn pick<T: Copy>(&mut self, from: &[T]) -> T {
        from[self.below(from.len())]
    }
    /// From -1 to 1.
    pub fn signal(&mut self) -> f32 {
        (self.next() >> 40) as f32 / (1u64 << 23) as f32 - 1.0
    }
    /// Mostly a signal, seldom a zero of either sign, something tiny or huge, an infinity or a NaN.
    pub fn any(&mut self) -> f32 {
        match self.below(400) {
            0 => f32::NAN,
            1 => f32::INFINITY,
            2 => f32::NEG_INFINITY,
            3..=20 => -0.0,
            21..=30 => 0.0,
            31..=36 => 1.0e-42,
            37..=40 => -3.0e38,
            _ => self.signal(),
        }
    }
}
