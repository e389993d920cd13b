//! Random values: the same for the same seed. Few different ones where that makes equal tags and equal distances
//! likely.

use reference::item::{MAX_WEIGHT, Profile, Space};

/// The least valid tag.
pub const MIN_TAG: u64 = 1_000_000_000_000;
/// The largest valid national number.
pub const MAX_NATIONAL: u64 = 274_877_906_943;
/// The largest valid measure.
pub const MAX_MEASURE: i32 = 1_000_000;
/// The last day.
pub const MAX_DAY: u16 = 65_535;

// Weights about half a cent and at the ends of the bands that dues go by.
const EDGE_WEIGHTS: [i32; 9] = [0, 24, 25, 39_999, 40_000, 40_001, 59_999, 60_000, 60_001];

/// A generator (xorshift64*).
#[derive(Clone, Debug)]
pub struct Random(u64);

impl Random {
    /// From any seed.
    pub fn new(seed: u64) -> Random {
        Random(seed.wrapping_mul(0x9E37_79B9_7F4A_7C15) | 1)
    }

    /// Any 64 bits.
    pub fn word(&mut self) -> u64 {
        self.0 ^= self.0 >> 12;
        self.0 ^= self.0 << 25;
        self.0 ^= self.0 >> 27;
        self.0.wrapping_mul(0x2545_F491_4F6C_DD1D)
    }

    /// 0 to n - 1, and 0 where n is 0.
    pub fn below(&mut self, n: usize) -> usize {
        if n == 0 { 0 } else { ((self.word() >> 11) % n as u64) as usize }
    }

    /// From the first to the last, both included.
    pub fn within(&mut self, first: i64, last: i64) -> i64 {
        first + ((self.word() >> 11) % (last - first + 1) as u64) as i64
    }

    /// True once in n times.
    pub fn one_in(&mut self, n: usize) -> bool {
        self.below(n) == 0
    }

    /// One of these.
    pub fn pick<T: Copy>(&mut self, of: &[T]) -> T {
        of[self.below(of.len())]
    }

    /// A valid tag, one of so many.
    pub fn tag(&mut self, pool: usize) -> u64 {
        MIN_TAG * 36 + self.below(pool) as u64 * 7
    }

    /// A tag at an end of the valid ones, valid or not.
    pub fn edge_tag(&mut self) -> u64 {
        let country = self.pick(&[0, 1, 36, 999, 1000]) * MIN_TAG;
        match self.below(3) {
            0 => country + self.pick(&[0, MAX_NATIONAL, MAX_NATIONAL + 1, MIN_TAG - 1]),
            1 => country + MAX_NATIONAL + self.below(2) as u64,
            _ => self.pick(&[0, MIN_TAG - 1, MIN_TAG, u64::MAX, 1 << 32]),
        }
    }

    /// A valid profile.
    pub fn profile(&mut self) -> Profile {
        match self.below(4) {
            0 | 1 => self.few_profile(),
            2 => self.even_profile(),
            _ => self.edge_profile(),
        }
    }

    // one of few, so that many distances are equal
    fn few_profile(&mut self) -> Profile {
        let measures = [0; 4].map(|_| self.within(-1, 2) as i32);
        let code = [0; 2].map(|_| self.word() & 7);
        Profile { measures, code }
    }

    fn even_profile(&mut self) -> Profile {
        let last = MAX_MEASURE as i64;
        let measures = [0; 4].map(|_| self.within(-last, last) as i32);
        Profile { measures, code: [self.word(), self.word()] }
    }

    fn edge_profile(&mut self) -> Profile {
        let mut measures = [0; 4].map(|_| self.pick(&[-MAX_MEASURE, 0, MAX_MEASURE]));
        if self.one_in(2) {
            measures[0] = self.pick(&EDGE_WEIGHTS);
        }
        let code = [0; 2].map(|_| self.pick(&[0, u64::MAX, 1, 1 << 63]));
        Profile { measures, code }
    }

    /// A profile with a measure just or far outside its range.
    pub fn bad_profile(&mut self) -> Profile {
        let mut profile = self.profile();
        let at = self.below(4);
        profile.measures[at] = self.pick(&[MAX_MEASURE + 1, -MAX_MEASURE - 1, i32::MIN, i32::MAX]);
        profile
    }

    /// A profile of any 32-bit measures.
    pub fn any_profile(&mut self) -> Profile {
        match self.below(3) {
            0 => self.profile(),
            1 => self.bad_profile(),
            _ => Profile { measures: [0; 4].map(|_| self.word() as i32), code: [self.word(), self.word()] },
        }
    }

    /// A valid day: mostly one of few, the first and the last among them.
    pub fn day(&mut self) -> u16 {
        if self.one_in(4) { self.within(1, MAX_DAY as i64) as u16 } else { self.pick(&[1, 2, 300, 301, MAX_DAY]) }
    }

    /// The first day of a search: one that leaves no item out, or one of those that items have.
    pub fn first_day(&mut self) -> u16 {
        if self.one_in(3) { 0 } else { self.day() }
    }

    /// A slot's day in a lent table: any 32 bits, often at the ends of 16.
    pub fn any_day(&mut self) -> u32 {
        match self.below(3) {
            0 => self.day() as u32,
            1 => self.pick(&[0, 1, 0xFFFF, 0x1_0000, 0x1_0001, 0x1_FFFF, 1 << 31, u32::MAX]),
            _ => self.word() as u32,
        }
    }

    /// A radius or a threshold: small, middling, at the end or any.
    pub fn reach(&mut self) -> u32 {
        match self.below(5) {
            0 | 1 => self.below(12) as u32,
            2 => self.below(3_000_000) as u32 * self.pick(&[1, 100]),
            3 => self.pick(&[0, 128, 8_000_000, 800_000_000, u32::MAX, u32::MAX - 1]),
            _ => self.word() as u32,
        }
    }

    /// Valid weights: all 1, or each by itself, the ends more often than others.
    pub fn weights(&mut self) -> [u32; 4] {
        if self.one_in(3) {
            return [1; 4];
        }
        let mut one = || if self.one_in(3) { self.below(101) as u32 } else { self.pick(&[0, 1, MAX_WEIGHT]) };
        [0; 4].map(|_| one())
    }

    /// Weights with one just or far outside their range.
    pub fn bad_weights(&mut self) -> [u32; 4] {
        let mut weights = self.weights();
        weights[self.below(4)] = self.bad_weight();
        weights
    }

    /// A weight just or far outside its range.
    pub fn bad_weight(&mut self) -> u32 {
        self.pick(&[MAX_WEIGHT + 1, 255, 256, 257, 1 << 31, u32::MAX])
    }

    /// By this metric, with valid weights.
    pub fn space(&mut self, metric: u32) -> Space {
        Space { metric, weights: self.weights() }
    }

    /// Elements of any content.
    pub fn fill<T>(&mut self, n: usize, mut one: impl FnMut(&mut Random) -> T) -> Vec<T> {
        (0..n).map(|_| one(self)).collect()
    }
}
