//! Things to try, the same for the same seed.

#[derive(Clone)]
pub struct Random(u64);

/// Which numbers are drawn. Infinities and NaN spread over everything that follows, so most plays have none.
#[derive(Clone, Copy, Debug, PartialEq)]
pub enum Kind {
    Ordinary,
    /// zeros of both signs and small whole numbers, so that sums cancel
    Zeros,
    Huge,
    /// subnormal, and small enough to become so
    Small,
    /// ordinary, with a seldom infinity, NaN or zero
    Wild,
    /// any pattern at all
    Any,
}

impl Random {
    /// Play `index` of a run: its numbers hang on nothing but these two.
    pub fn new(seed: u64, index: u64) -> Random {
        let mut r = Random(seed ^ index.wrapping_mul(0xd134_2543_de82_ef95));
        r.next();
        r
    }
    /// splitmix64
    pub fn next(&mut self) -> u64 {
        self.0 = self.0.wrapping_add(0x9e37_79b9_7f4a_7c15);
        let mut z = self.0;
        z = (z ^ z >> 30).wrapping_mul(0xbf58_476d_1ce4_e5b9);
        z = (z ^ z >> 27).wrapping_mul(0x94d0_49bb_1331_11eb);
        z ^ z >> 31
    }
    pub fn word(&mut self) -> u32 {
        (self.next() >> 32) as u32
    }
    pub fn below(&mut self, n: usize) -> usize {
        (self.next() >> 11) as usize % n
    }
    pub fn within(&mut self, low: usize, high: usize) -> usize {
        low + self.below(high - low + 1)
    }
    /// Once in n times.
    pub fn once_in(&mut self, n: usize) -> bool {
        self.below(n) == 0
    }
    pub fn pick<T: Copy>(&mut self, from: &[T]) -> T {
        from[self.below(from.len())]
    }
    /// From -1 to 1.
    pub fn signal(&mut self) -> f32 {
        (self.next() >> 40) as f32 / (1u64 << 23) as f32 - 1.0
    }
    pub fn kind(&mut self) -> Kind {
        use Kind::*;
        self.pick(&[Ordinary, Ordinary, Ordinary, Ordinary, Zeros, Zeros, Huge, Small, Small, Wild, Wild, Any])
    }
    fn power(&mut self, low: i32, high: i32) -> f32 {
        let e = low + self.below((high - low + 1) as usize) as i32;
        self.signal() * (2.0f64).powi(e) as f32
    }
    pub fn number(&mut self, kind: Kind) -> f32 {
        match kind {
            Kind::Ordinary => self.signal(),
            Kind::Zeros => self.pick(&[0.0, -0.0, -0.0, 1.0, -1.0, 0.5, -2.0]),
            Kind::Huge if self.once_in(8) => self.power(40, 127),
            Kind::Small if self.once_in(2) => self.power(-149, -100),
            Kind::Wild if self.once_in(40) => self.pick(&[0.0, -0.0, f32::INFINITY, f32::NEG_INFINITY, f32::NAN, 1.0e-42, -3.0e38]),
            Kind::Any => f32::from_bits(self.word()),
            _ => self.signal(),
        }
    }
    pub fn numbers(&mut self, kind: Kind, count: usize) -> Vec<f32> {
        (0..count).map(|_| self.number(kind)).collect()
    }
}
