//! A small generator of numbers (splitmix64): the same seed gives the same draws everywhere.

pub struct Random(u64);

impl Random {
    pub fn new(seed: u64) -> Self {
        Self(seed)
    }

    pub fn bits(&mut self) -> u64 {
        self.0 = self.0.wrapping_add(0x9E37_79B9_7F4A_7C15);
        let mut mixed = self.0;
        mixed = (mixed ^ (mixed >> 30)).wrapping_mul(0xBF58_476D_1CE4_E5B9);
        mixed = (mixed ^ (mixed >> 27)).wrapping_mul(0x94D0_49BB_1331_11EB);
        mixed ^ (mixed >> 31)
    }

    /// A number of `low..=high`.
    pub fn range(&mut self, low: i64, high: i64) -> i64 {
        let width = (high - low + 1) as u64;
        low + ((u128::from(self.bits()) * u128::from(width)) >> 64) as i64
    }

    pub fn word(&mut self, low: i16, high: i16) -> i16 {
        self.range(i64::from(low), i64::from(high)) as i16
    }

    /// Any 16-bit number.
    pub fn any(&mut self) -> i16 {
        self.bits() as i16
    }

    /// Any 32-bit number.
    pub fn long(&mut self) -> i32 {
        self.bits() as i32
    }

    /// True once in `times`.
    pub fn once_in(&mut self, times: i64) -> bool {
        self.range(1, times) == 1
    }

    pub fn of<T: Copy>(&mut self, choices: &[T]) -> T {
        choices[self.range(0, choices.len() as i64 - 1) as usize]
    }

    /// A 16-bit number at one of the edges.
    pub fn edge(&mut self) -> i16 {
        self.of(&[-32768, -32767, -1, 0, 1, 32766, 32767])
    }
}
