//! Random inputs.

pub struct Draw(u64);

impl Draw {
    pub fn new(seed: u64) -> Self {
        Self(seed)
    }

    /// Any 64 bits (splitmix64).
    pub fn bits(&mut self) -> u64 {
        self.0 = self.0.wrapping_add(0x9e37_79b9_7f4a_7c15);
        let z = (self.0 ^ (self.0 >> 30)).wrapping_mul(0xbf58_476d_1ce4_e5b9);
        let z = (z ^ (z >> 27)).wrapping_mul(0x94d0_49bb_1331_11eb);
        z ^ (z >> 31)
    }

    pub fn below(&mut self, n: u64) -> u64 {
        ((self.bits() as u128 * n as u128) >> 64) as u64
    }

    /// A whole number from `low` to `high`, both taken.
    pub fn whole(&mut self, low: i64, high: i64) -> i64 {
        low + self.below((high - low + 1) as u64) as i64
    }

    /// From 0 up to 1, evenly.
    pub fn fraction(&mut self) -> f64 {
        (self.bits() >> 11) as f64 / (1u64 << 53) as f64
    }

    pub fn between(&mut self, low: f64, high: f64) -> f64 {
        low + (high - low) * self.fraction()
    }

    pub fn pick(&mut self, from: &[f64]) -> f64 {
        from[self.below(from.len() as u64) as usize]
    }

    pub fn sign(&mut self) -> f64 {
        if self.bits() & 1 == 0 { 1.0 } else { -1.0 }
    }

    /// Every bit pattern: infinities, NaN and all.
    pub fn pattern(&mut self) -> f64 {
        f64::from_bits(self.bits())
    }

    /// Of either sign, the exponent evenly from `low` to `high`; every fourth has few bits set.
    pub fn magnitude(&mut self, low: i64, high: i64) -> f64 {
        let exponent = self.whole(low, high);
        let mut tail = self.bits() >> 12;
        if self.below(4) == 0 {
            tail &= !0 << self.whole(30, 52);
        }
        let biased = (exponent + 1023) as u64;
        f64::from_bits((self.bits() & (1 << 63)) | (biased << 52) | tail)
    }

    /// Above 0 and below the least normal number, of either sign, of every length.
    pub fn subnormal(&mut self) -> f64 {
        let length = self.below(52);
        f64::from_bits((self.bits() & (1 << 63)) | (self.bits() >> (12 + length)))
    }

    /// A unit vector, up to rounding; every third along a coordinate.
    pub fn direction(&mut self) -> [f64; 3] {
        let mut v = [0.0; 3];
        if self.below(3) == 0 {
            v[self.below(3) as usize] = self.sign();
            return v;
        }
        v.fill_with(|| self.between(-1.0, 1.0));
        let length = v.iter().map(|x| x * x).sum::<f64>().sqrt();
        v.map(|x| x / length)
    }

    /// A number up to `ulps` steps from x.
    pub fn near(&mut self, x: f64, ulps: u64) -> f64 {
        let step = self.whole(-(ulps as i64), ulps as i64);
        if x == 0.0 && step != 0 {
            return f64::from_bits(step.unsigned_abs()) * step.signum() as f64;
        }
        f64::from_bits(x.to_bits().wrapping_add(step as u64))
    }
}

/// Zeros, ones, the ends of the format, of the range that entries take, infinities, NaN.
pub const SPECIAL: &[f64] = &[
    0.0,
    -0.0,
    1.0,
    -1.0,
    0.5,
    -0.5,
    5e-324,
    -5e-324,
    f64::MIN_POSITIVE,
    -f64::MIN_POSITIVE,
    f64::from_bits(0x000f_ffff_ffff_ffff),
    f64::MAX,
    f64::MIN,
    f64::INFINITY,
    f64::NEG_INFINITY,
    f64::NAN,
    -f64::NAN,
    1_048_576.0,
    -1_048_576.0,
    ABOVE,
    -ABOVE,
];

/// The next number above 1,048,576.
pub const ABOVE: f64 = f64::from_bits(0x4130_0000_0000_0001);
