//! Numbers from a seed: xoshiro256**, seeded by splitmix64, so that a seed gives the same files everywhere and for ever.

pub struct Random([u64; 4]);

impl Random {
    /// A stream of its own for each pair.
    pub fn new(seed: u64, stream: u64) -> Self {
        let mut x = seed ^ stream.wrapping_mul(0xd1b5_4a32_d192_ed03);
        let mut next = || {
            x = x.wrapping_add(0x9e37_79b9_7f4a_7c15);
            let mut z = x;
            z = (z ^ (z >> 30)).wrapping_mul(0xbf58_476d_1ce4_e5b9);
            z = (z ^ (z >> 27)).wrapping_mul(0x94d0_49bb_1331_11eb);
            z ^ (z >> 31)
        };
        Self([next(), next(), next(), next()])
    }

    pub fn word(&mut self) -> u64 {
        let s = &mut self.0;
        let out = s[1].wrapping_mul(5).rotate_left(7).wrapping_mul(9);
        let t = s[1] << 17;
        s[2] ^= s[0];
        s[3] ^= s[1];
        s[1] ^= s[2];
        s[0] ^= s[3];
        s[2] ^= t;
        s[3] = s[3].rotate_left(45);
        out
    }

    /// One of 0..n.
    pub fn below(&mut self, n: usize) -> usize {
        ((u128::from(self.word()) * n as u128) >> 64) as usize
    }

    /// One of lo..=hi.
    pub fn from_to(&mut self, lo: usize, hi: usize) -> usize {
        lo + self.below(hi - lo + 1)
    }

    /// Yes, once in n.
    pub fn once_in(&mut self, n: usize) -> bool {
        self.below(n) == 0
    }

    pub fn one_of<T: Copy>(&mut self, of: &[T]) -> T {
        of[self.below(of.len())]
    }

    /// In 0..1.
    pub fn unit(&mut self) -> f64 {
        (self.word() >> 11) as f64 / (1_u64 << 53) as f64
    }

    pub fn between(&mut self, lo: f64, hi: f64) -> f64 {
        lo + (hi - lo) * self.unit()
    }

    /// Between 10^lo and 10^hi, evenly over the decades: by products alone, so the same on every platform.
    pub fn decades(&mut self, lo: i32, hi: i32) -> f64 {
        let at = lo + self.below((hi - lo) as usize) as i32;
        let by = if at < 0 { 0.1 } else { 10.0 };
        (0..at.abs()).fold(self.between(1.0, 10.0), |x, _| x * by)
    }

    /// About the normal distribution: the sum of twelve.
    pub fn normal(&mut self) -> f64 {
        (0..12).map(|_| self.unit()).fold(-6.0, |a, b| a + b)
    }

    /// Any bits: NaNs, infinities, subnormals and all sizes.
    pub fn any_float(&mut self) -> f64 {
        f64::from_bits(self.word())
    }

    /// A float that a reader of bits may get wrong.
    pub fn special(&mut self) -> f64 {
        let bits = self.one_of(&[
            0,
            1 << 63,                    // -0
            1,                          // the smallest
            (1 << 63) + 1,              // and below zero
            0x000f_ffff_ffff_ffff,      // the largest subnormal
            0x0010_0000_0000_0000,      // the smallest normal
            0x7fef_ffff_ffff_ffff,      // the largest
            0xffef_ffff_ffff_ffff,      // and below zero
            0x7ff0_0000_0000_0000,      // infinity
            0xfff0_0000_0000_0000,      // -infinity
            0x7ff8_0000_0000_0000,      // NaN
            0xfff8_0000_0000_0001,      // a NaN with a sign and a load
            0x7ff0_0000_0000_0001,      // a signalling NaN
            0x7fff_ffff_ffff_ffff,      // a NaN of ones
            0x3ff0_0000_0000_0000,      // 1
            0xbff0_0000_0000_0000,      // -1
            0x3fef_ffff_ffff_ffff,      // just below 1
            0x3ff0_0000_0000_0001,      // just above 1
            0x4000_0000_0000_0000,      // 2
            0x4000_0000_0000_0001,      // just above 2
            0x1ff0_0000_0000_0000,      // its square is about the smallest
            0x5fe0_0000_0000_0000,      // its square is about the largest
            0x3e45_798e_e230_8c3a,      // 1e-8
            0x3cb0_0000_0000_0000,      // the spacing at 1
        ]);
        f64::from_bits(bits)
    }

    /// A neighbour of x, up to `steps` floats away.
    pub fn near(&mut self, x: f64, steps: usize) -> f64 {
        let by = self.below(2 * steps + 1) as i64 - steps as i64;
        f64::from_bits(x.to_bits().wrapping_add(by as u64))
    }
}
