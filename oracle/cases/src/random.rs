//! A small seeded source of numbers and floats (splitmix64), the same on every machine.

/// The floats at which the detector's tests turn, and the ends of the format.
pub const TURNING: [f32; 30] = [
    0.0,
    -0.0,
    1e-10,
    -1e-10,
    1e-6,
    -1e-6,
    0.6,
    -0.6,
    1.0,
    -1.0,
    0.25,
    0.5,
    2.0,
    4.0,
    core::f32::consts::SQRT_2,
    f32::MIN_POSITIVE,
    -f32::MIN_POSITIVE,
    1e-45,
    -1e-45,
    1.1754942e-38,
    f32::MAX,
    f32::MIN,
    f32::INFINITY,
    f32::NEG_INFINITY,
    f32::NAN,
    1e19,
    -1e19,
    1.8446743e19,
    3e-20,
    16777216.0,
];

/// A seeded source.
pub struct Random {
    state: u64,
}

impl Random {
    /// The source for one case: every family and number has its own.
    pub fn new(seed: u64, family: u64, number: u64) -> Self {
        let mut source = Self {
            state: seed ^ 0x9e37_79b9_7f4a_7c15,
        };
        for part in [family, number] {
            source.state = source.word() ^ part.wrapping_mul(0xd129_0d3b_6b5d_4f1d);
        }
        source
    }

    /// The next 64 bits.
    pub fn word(&mut self) -> u64 {
        self.state = self.state.wrapping_add(0x9e37_79b9_7f4a_7c15);
        let mut z = self.state;
        z = (z ^ (z >> 30)).wrapping_mul(0xbf58_476d_1ce4_e5b9);
        z = (z ^ (z >> 27)).wrapping_mul(0x94d0_49bb_1331_11eb);
        z ^ (z >> 31)
    }

    /// A whole number under `bound`, which is at least 1.
    pub fn below(&mut self, bound: usize) -> usize {
        ((u128::from(self.word()) * bound as u128) >> 64) as usize
    }

    /// A whole number from `low` to `high`, both counted.
    pub fn from_to(&mut self, low: usize, high: usize) -> usize {
        low + self.below(high - low + 1)
    }

    /// True once in `times`.
    pub fn once_in(&mut self, times: usize) -> bool {
        self.below(times) == 0
    }

    /// One of the given values.
    pub fn pick<T: Copy>(&mut self, values: &[T]) -> T {
        values[self.below(values.len())]
    }

    /// One of the given values, which is not copied.
    pub fn pick_of<'a, T>(&mut self, values: &'a [T]) -> &'a T {
        &values[self.below(values.len())]
    }

    /// A number from 0 up to 1.
    pub fn unit(&mut self) -> f64 {
        (self.word() >> 11) as f64 / (1u64 << 53) as f64
    }

    /// A float between two bounds.
    pub fn between(&mut self, low: f64, high: f64) -> f32 {
        (low + (high - low) * self.unit()) as f32
    }

    /// A float of uniform bits.
    pub fn pattern(&mut self) -> f32 {
        f32::from_bits(self.word() as u32)
    }

    /// A float of uniform bits that is finite.
    pub fn finite_pattern(&mut self) -> f32 {
        loop {
            let value = self.pattern();
            if value.is_finite() {
                return value;
            }
        }
    }

    /// A turning float or one of the floats beside it.
    pub fn turning(&mut self) -> f32 {
        let value = self.pick(&TURNING);
        match self.below(4) {
            0 => value.next_up(),
            1 => value.next_down(),
            _ => value,
        }
    }

    /// A float of any kind: ordinary, whole, near a power of two, turning, or uniform bits.
    pub fn any(&mut self) -> f32 {
        match self.below(10) {
            0..=3 => self.between(-4.0, 4.0),
            4 => self.from_to(0, 8) as f32 - 4.0,
            5 => self.between(-1.0, 1.0) * power(self.from_to(0, 250) as i32 - 125) as f32,
            6 => self.between(-1.0, 1.0) * power(self.from_to(0, 40) as i32 - 30) as f32,
            7 | 8 => self.turning(),
            _ => self.pattern(),
        }
    }

    /// Four floats of any kind, or a whole family of ordinary ones.
    pub fn four(&mut self) -> [f32; 4] {
        match self.below(4) {
            0 => core::array::from_fn(|_| self.any()),
            1 => {
                let size = power(self.from_to(0, 40) as i32 - 24);
                core::array::from_fn(|_| self.between(-size, size))
            }
            2 => {
                let few = self.pick(&[3, 9]);
                core::array::from_fn(|_| self.from_to(0, 2 * few) as f32 - few as f32)
            }
            _ => core::array::from_fn(|_| self.between(-1.0, 1.0)),
        }
    }
}

/// Two to a whole power, exactly.
pub fn power(exponent: i32) -> f64 {
    f64::from_bits(((1023 + exponent) as u64) << 52)
}
