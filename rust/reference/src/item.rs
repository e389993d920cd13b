//! Tags, profiles, items and slots, the three distances, and a slot's row.

use crate::refusal::{BAD_DAY, BAD_MEASURE, BAD_TAG, BAD_WEIGHT, Refused, ensure};

/// The words of a row: the header's `VPINDEX_ROW_WORDS`, as `vpindex::ffi::ROW_WORDS` is.
pub const ROW_WORDS: usize = 13;
/// A row of the table or of the work area.
pub type Row = [u32; ROW_WORDS];
/// An entry of the result area: tag, distance.
pub type Entry = [u64; 2];

/// The largest order.
pub const MAX_ORDER: u32 = 12;
/// The largest number of a metric.
pub const MAX_METRIC: u32 = 2;
/// The largest weight of a measure.
pub const MAX_WEIGHT: u32 = 100;

const COUNTRY: u64 = 1_000_000_000_000;
const MAX_NATIONAL: u64 = 274_877_906_943;
const MAX_MEASURE: u32 = 1_000_000;

/// Four measures and a code of two words.
#[derive(Clone, Copy, Debug, Default, PartialEq, Eq)]
pub struct Profile {
    /// In hundredths.
    pub measures: [i32; 4],
    /// Any value.
    pub code: [u64; 2],
}

/// What is put into a table.
#[derive(Clone, Copy, Debug, Default, PartialEq, Eq)]
pub struct Item {
    /// What it is known by.
    pub tag: u64,
    /// What it is like.
    pub profile: Profile,
    /// When it was weighed.
    pub day: u32,
}

/// What a slot holds.
#[derive(Clone, Copy, Debug, Default, PartialEq, Eq)]
pub struct Slot {
    /// Country and national number.
    pub tag: u64,
    /// What distances are worked out from.
    pub profile: Profile,
    /// The distance that parts the halves.
    pub threshold: u32,
    /// 0 live, else dead.
    pub mark: u32,
    /// On which the item was weighed; in a lent table any 32 bits.
    pub day: u32,
}

impl Slot {
    /// The item in it, live or dead.
    pub fn item(&self) -> Item {
        Item { tag: self.tag, profile: self.profile, day: self.day }
    }

    /// Whether its item is live.
    pub fn is_live(&self) -> bool {
        self.mark == 0
    }

    /// Whether a search may report it.
    pub fn may_report(&self, first_day: u16) -> bool {
        self.is_live() && self.day >= first_day as u32
    }

    /// The slot that a row is.
    pub fn of(row: &Row) -> Slot {
        Slot {
            tag: join(row[0], row[1]),
            profile: Profile {
                measures: [row[2], row[3], row[4], row[5]].map(|word| word as i32),
                code: [join(row[6], row[7]), join(row[8], row[9])],
            },
            threshold: row[10],
            mark: row[11],
            day: row[12],
        }
    }

    /// Its row.
    pub fn row(&self) -> Row {
        let mut row = [0; ROW_WORDS];
        row[..2].copy_from_slice(&halves(self.tag));
        for (word, measure) in row[2..6].iter_mut().zip(self.profile.measures) {
            *word = measure as u32;
        }
        row[6..8].copy_from_slice(&halves(self.profile.code[0]));
        row[8..10].copy_from_slice(&halves(self.profile.code[1]));
        row[10] = self.threshold;
        row[11] = self.mark;
        row[12] = self.day;
        row
    }
}

fn join(low: u32, high: u32) -> u64 {
    low as u64 | (high as u64) << 32
}

fn halves(n: u64) -> [u32; 2] {
    [n as u32, (n >> 32) as u32]
}

/// The tag's form: country 1 to 999, and a national number of 38 bits.
pub fn check_tag(tag: u64) -> Result<(), Refused> {
    ensure((1..=999).contains(&(tag / COUNTRY)) && tag % COUNTRY <= MAX_NATIONAL, BAD_TAG)
}

/// The measures' range.
pub fn check_measures(profile: &Profile) -> Result<(), Refused> {
    ensure(profile.measures.iter().all(|m| m.unsigned_abs() <= MAX_MEASURE), BAD_MEASURE)
}

/// The day's range; it is asked of days of 16 bits alone.
pub fn check_day(day: u32) -> Result<(), Refused> {
    ensure(day != 0, BAD_DAY)
}

/// The weights' range.
pub fn check_weights(weights: &[u32; 4]) -> Result<(), Refused> {
    ensure(weights.iter().all(|weight| *weight <= MAX_WEIGHT), BAD_WEIGHT)
}

/// What a distance depends on.
#[derive(Clone, Copy, Debug, Default, PartialEq, Eq)]
pub struct Space {
    /// 0, 1 or 2.
    pub metric: u32,
    /// By what the difference of each measure is multiplied; metric 1 knows none.
    pub weights: [u32; 4],
}

impl Space {
    /// By this metric, every measure of weight 1.
    pub fn plain(metric: u32) -> Space {
        Space { metric, weights: [1; 4] }
    }
}

/// The distance of two profiles.
pub fn distance(space: &Space, p: &Profile, q: &Profile) -> u32 {
    let weighted = (0..4).map(|i| p.measures[i].abs_diff(q.measures[i]).saturating_mul(space.weights[i]));
    match space.metric {
        0 => weighted.fold(0, u32::saturating_add),
        1 => (0..2).map(|i| (p.code[i] ^ q.code[i]).count_ones()).sum(),
        _ => weighted.max().expect("four differences"),
    }
}

#[cfg(test)]
mod tests {
    use super::*;

    fn away(metric: u32, weights: [u32; 4], measures: [i32; 4]) -> u32 {
        let far = Profile { measures, code: [7, 0] };
        let space = Space { metric, weights };
        assert_eq!(distance(&space, &far, &Profile::default()), distance(&space, &Profile::default(), &far));
        distance(&space, &far, &Profile::default())
    }

    #[test]
    fn weights() {
        for (metric, plain, weighted, none) in [(0, 16, 705, 0), (1, 3, 3, 3), (2, 7, 700, 0)] {
            assert_eq!(away(metric, [1; 4], [3, 5, -7, 1]), plain);
            assert_eq!(away(metric, [1, 0, 100, 2], [3, 5, -7, 1]), weighted);
            assert_eq!(away(metric, [0; 4], [3, 5, -7, 1]), none);
        }
        assert_eq!(away(0, [100; 4], [1_000_000, -1_000_000, 1_000_000, -1_000_000]), 400_000_000);
    }

    // 42,949,672 · 100 + 95 is the largest distance.
    #[test]
    fn saturation() {
        let weights = [100, 1, 0, 1];
        for (rest, sum) in [(94, u32::MAX - 1), (95, u32::MAX), (96, u32::MAX), (i32::MAX, u32::MAX)] {
            assert_eq!(away(0, weights, [42_949_672, rest, i32::MIN, 0]), sum);
        }
        assert_eq!(away(2, weights, [42_949_672, 95, i32::MIN, 0]), 4_294_967_200);
        assert_eq!(away(2, weights, [42_949_673, 95, i32::MIN, 0]), u32::MAX);
        assert_eq!(away(0, weights, [42_949_673, 0, 0, 0]), u32::MAX);
        assert_eq!(away(0, [100; 4], [i32::MIN; 4]), u32::MAX);
        assert_eq!(away(2, [100; 4], [i32::MIN; 4]), u32::MAX);
        assert_eq!(away(0, [1; 4], [i32::MIN; 4]), u32::MAX);
        assert_eq!(away(2, [1; 4], [i32::MIN; 4]), 1 << 31);
    }

    // Every thirteen words are some slot.
    #[test]
    fn rows() {
        let row: Row = std::array::from_fn(|i| (i as u32 + 1) * 0x0123_4567);
        let slot = Slot::of(&row);
        assert_eq!((slot.row(), slot.day, slot.item().day), (row, row[12], row[12]));
        assert_eq!(Slot { day: 7, ..slot }.row()[..12], row[..12]);
    }

    #[test]
    fn days_that_may_be_reported() {
        let cases = [(0, 0, true), (0, 1, false), (7, 7, true), (6, 7, false), (65_535, 65_535, true)];
        let past_16_bits = [(65_536, 65_535, true), (u32::MAX, 65_535, true), (65_536, 0, true)];
        for (day, first_day, reported) in cases.into_iter().chain(past_16_bits) {
            assert_eq!(Slot { day, ..Slot::default() }.may_report(first_day), reported, "{day} since {first_day}");
            assert!(!Slot { day, mark: 1, ..Slot::default() }.may_report(first_day));
        }
        assert_eq!([0, 1, 65_535].map(check_day), [Err(33), Ok(()), Ok(())]);
    }

    #[test]
    fn weights_in_their_range() {
        for at in 0..4 {
            for (weight, reply) in [(0, Ok(())), (100, Ok(())), (101, Err(32)), (u32::MAX, Err(32))] {
                let mut weights = [1; 4];
                weights[at] = weight;
                assert_eq!(check_weights(&weights), reply);
            }
        }
    }
}
