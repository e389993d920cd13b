//! Herds and queries: the same for the same seed.

/// What distances are worked out from, as a plain Rust program has it.
#[derive(Clone, Copy, Debug, Default, PartialEq, Eq)]
pub struct Profile {
    pub measures: [i32; 4],
    pub code: [u64; 2],
}

/// What is asked for: likeness to a profile, among items not weighed before the first day.
#[derive(Clone, Copy)]
pub struct Query {
    pub profile: Profile,
    pub first_day: u16,
}

/// On which every item was weighed.
pub const DAY: u16 = 1;

/// xorshift64*
pub struct Random(pub u64);

impl Random {
    pub fn next(&mut self) -> u64 {
        self.0 ^= self.0 >> 12;
        self.0 ^= self.0 << 25;
        self.0 ^= self.0 >> 27;
        self.0.wrapping_mul(0x2545_F491_4F6C_DD1D)
    }

    pub fn below(&mut self, n: usize) -> usize {
        ((self.next() >> 11) % n as u64) as usize
    }

    fn even(&mut self) -> Profile {
        let measures = [0; 4].map(|_| self.below(2_000_001) as i32 - 1_000_000);
        Profile { measures, code: [self.next(), self.next()] }
    }

    // measures within 10,000 of the centre's, codes with up to so many bits flipped
    fn near(&mut self, centre: &Profile, flips: u32) -> Profile {
        let measures = centre.measures.map(|m| (m + self.below(20_001) as i32 - 10_000).clamp(-1_000_000, 1_000_000));
        let mut code = centre.code;
        for _ in 0..flips {
            let bit = self.below(128);
            code[bit / 64] ^= 1 << (bit % 64);
        }
        Profile { measures, code }
    }
}

/// How items are spread: in 64 clusters, codes with up to so many bits flipped, or evenly.
#[derive(Clone, Copy)]
pub struct Spread {
    pub name: &'static str,
    flips: Option<u32>,
}

/// How tight a cluster is decides what metric 1 can leave out, so three are measured.
pub const SPREADS: [Spread; 4] = [
    Spread { name: "cluster 8", flips: Some(8) },
    Spread { name: "cluster 6", flips: Some(6) },
    Spread { name: "cluster 4", flips: Some(4) },
    Spread { name: "even", flips: None },
];

/// So many profiles.
pub fn profiles(seed: u64, spread: Spread, n: usize) -> Vec<Profile> {
    let mut random = Random(seed);
    let centres: Vec<Profile> = (0..64).map(|_| random.even()).collect();
    let mut one = || match spread.flips {
        Some(flips) => {
            let centre = random.below(64);
            random.near(&centres[centre], flips)
        }
        None => random.even(),
    };
    (0..n).map(|_| one()).collect()
}

/// So many groups of so many profiles, those of a group about one centre of the herd of this seed, or in an even herd about
/// any profile.
pub fn groups(seed: u64, spread: Spread, groups: usize, size: usize) -> Vec<Vec<Profile>> {
    let mut random = Random(seed);
    let centres: Vec<Profile> = (0..64).map(|_| random.even()).collect();
    random.0 ^= 0xA5A5_A5A5;
    let mut group = || {
        let centre = if spread.flips.is_some() { centres[random.below(64)] } else { random.even() };
        (0..size).map(|_| random.near(&centre, spread.flips.unwrap_or(8))).collect()
    };
    (0..groups).map(|_| group()).collect()
}

/// Distinct valid tags, in no order.
pub fn tag(i: usize) -> u64 {
    276_000_000_000_000 + (i as u64 * 7919) % 1_000_003
}
