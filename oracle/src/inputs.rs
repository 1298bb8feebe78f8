//! What the leaves are tried on: edges of the float formats and seeded random patterns.

/// A xorshift generator with a fixed seed, so that the same command writes the same files.
pub struct Random(u64);

impl Random {
    pub fn new(seed: u64) -> Self {
        Random(seed.wrapping_mul(0x9e37_79b9_7f4a_7c15) | 1)
    }

    pub fn word(&mut self) -> u64 {
        self.0 ^= self.0 << 13;
        self.0 ^= self.0 >> 7;
        self.0 ^= self.0 << 17;
        self.0
    }

    /// A whole number below `n`.
    pub fn below(&mut self, n: u64) -> u64 {
        (self.word() >> 16) % n
    }

    /// A whole number of 1 to `n` binary digits.
    pub fn digits(&mut self, n: u64) -> u64 {
        let count = 1 + self.below(n);
        self.below(1 << count)
    }

    pub fn pick<T: Copy>(&mut self, from: &[T]) -> T {
        from[self.below(from.len() as u64) as usize]
    }

    /// A number from -size to size.
    pub fn within(&mut self, size: f32) -> f32 {
        let whole = self.below(1 << 25) as f32 - 16_777_216.0;
        whole * (size / 16_777_216.0)
    }

    /// Any pattern.
    pub fn f32(&mut self) -> f32 {
        f32::from_bits((self.word() >> 24) as u32)
    }

    /// A finite number of any size.
    pub fn finite(&mut self) -> f32 {
        loop {
            let x = self.f32();
            if x.is_finite() {
                return x;
            }
        }
    }

    pub fn f64(&mut self) -> f64 {
        let high = self.word() & 0xffff_ffff_0000_0000;
        f64::from_bits(high | (self.word() >> 32))
    }
}

/// 2^e, for the exponent of a normal number.
pub fn power_of_two(e: i32) -> f32 {
    f32::from_bits(((e + 127) as u32) << 23)
}

/// The pattern before, the pattern itself, the pattern after.
pub fn around(x: f32) -> [f32; 3] {
    let b = x.to_bits();
    [b.wrapping_sub(1), b, b.wrapping_add(1)].map(f32::from_bits)
}

pub fn around_f64(x: f64) -> [f64; 3] {
    let b = x.to_bits();
    [b.wrapping_sub(1), b, b.wrapping_add(1)].map(f64::from_bits)
}

/// Each value and its negative.
pub fn both_signs(values: &[f32]) -> Vec<f32> {
    values.iter().flat_map(|&x| [x, -x]).collect()
}

/// The values at which binary32 changes its ways, and those that the leaves compare with.
pub fn edges() -> Vec<f32> {
    let mut sizes = vec![
        0x0000_0000, // zero
        0x0000_0001, // the smallest subnormal numbers
        0x0000_0002,
        0x0040_0000,
        0x007f_fffe, // the largest
        0x007f_ffff,
        0x0080_0000, // the smallest normal numbers
        0x0080_0001,
        0x7f7f_fffe, // the largest
        0x7f7f_ffff,
        0x7f80_0000, // infinity
        0x7f80_0001, // NaNs, signaling and quiet
        0x7fa0_0000,
        0x7fbf_ffff,
        0x7fc0_0000,
        0x7fc0_0001,
        0x7fd5_5555,
        0x7fff_ffff,
    ];
    for x in [
        1e-30f32,
        0.05,
        0.125,
        0.5,
        1.0,
        2.0,
        std::f32::consts::FRAC_1_SQRT_2,
    ] {
        sizes.extend(around(x).map(f32::to_bits));
    }
    sizes
        .iter()
        .flat_map(|&b| [b, b | 0x8000_0000])
        .map(f32::from_bits)
        .collect()
}

/// A few of the edges, for leaves of several inputs.
pub fn few_edges() -> Vec<f32> {
    let mut few = both_signs(&[
        0.0,
        f32::from_bits(1),
        1e-30,
        f32::MIN_POSITIVE,
        0.5,
        1.0,
        f32::MAX,
        f32::INFINITY,
    ]);
    few.extend([f32::NAN, f32::from_bits(0xff80_0001)]);
    few
}
