//! Arguments that are checked once, when they are made.

use core::fmt;
use core::num::NonZeroU16;

use crate::{Refusal, ffi};

pub(crate) const COUNTRY: u64 = 1_000_000_000_000;
pub(crate) const LAST_NATIONAL: u64 = 274_877_906_943;

/// What an item is known by: a country, 1 to 999, and a national number of 38 bits.
#[derive(Clone, Copy, PartialEq, Eq, PartialOrd, Ord, Hash)]
#[repr(transparent)]
pub struct Tag(u64);

impl Tag {
    /// From its two parts.
    ///
    /// # Errors
    ///
    /// [`Refusal::BadTag`] if one is not in its range.
    pub const fn new(country: u32, national: u64) -> Result<Tag, Refusal> {
        let is_valid = 1 <= country && country <= 999 && national <= LAST_NATIONAL;
        if is_valid { Ok(Tag(country as u64 * COUNTRY + national)) } else { Err(Refusal::BadTag) }
    }

    /// 1 to 999.
    pub const fn country(self) -> u32 {
        (self.0 / COUNTRY) as u32
    }

    /// At most 274,877,906,943.
    pub const fn national(self) -> u64 {
        self.0 % COUNTRY
    }

    pub(crate) fn as_stored(tag: u64) -> Tag {
        Tag(tag)
    }
}

/// From country × 10^12 + national; else [`Refusal::BadTag`].
impl TryFrom<u64> for Tag {
    type Error = Refusal;

    fn try_from(tag: u64) -> Result<Tag, Refusal> {
        let country = u32::try_from(tag / COUNTRY).map_err(|_| Refusal::BadTag)?;
        Tag::new(country, tag % COUNTRY)
    }
}

impl From<Tag> for u64 {
    fn from(tag: Tag) -> u64 {
        tag.0
    }
}

/// What distances are worked out from: four measures in hundredths, and a code of two words.
#[derive(Clone, Copy, Default, PartialEq, Eq, Hash)]
pub struct Profile(ffi::Profile);

impl Profile {
    /// The largest measure; the least is its negative.
    pub const MAX_MEASURE: i32 = 1_000_000;

    /// Of four measures and any code.
    ///
    /// # Errors
    ///
    /// [`Refusal::BadMeasure`] if a measure is not in its range.
    pub const fn new(measures: [i32; 4], code: [u64; 2]) -> Result<Profile, Refusal> {
        const fn fits(measure: i32) -> bool {
            -Profile::MAX_MEASURE <= measure && measure <= Profile::MAX_MEASURE
        }
        let [a, b, c, d] = measures;
        let is_valid = fits(a) && fits(b) && fits(c) && fits(d);
        if is_valid { Ok(Profile(ffi::Profile { measures, code })) } else { Err(Refusal::BadMeasure) }
    }

    /// The measures.
    pub const fn measures(&self) -> [i32; 4] {
        self.0.measures
    }

    /// The code.
    pub const fn code(&self) -> [u64; 2] {
        self.0.code
    }

    pub(crate) fn raw(&self) -> ffi::Profile {
        self.0
    }

    pub(crate) fn as_stored(profile: ffi::Profile) -> Profile {
        Profile(profile)
    }
}

impl fmt::Debug for Profile {
    fn fmt(&self, f: &mut fmt::Formatter<'_>) -> fmt::Result {
        f.debug_struct("Profile").field("measures", &self.measures()).field("code", &self.code()).finish()
    }
}

/// A query of [`Table::range_batch`](crate::Table::range_batch): a profile with a radius and a first day of its own.
#[derive(Clone, Copy, Debug, PartialEq, Eq, Hash)]
pub struct RangeQuery {
    /// From which distances are worked out.
    pub profile: Profile,
    /// The largest distance that is found.
    pub radius: u32,
    /// The first day; `None` is any day.
    pub first_day: Option<Day>,
}

impl RangeQuery {
    // the row of the header's `vpindex_range_batch`
    pub(crate) fn raw(&self) -> ffi::Row {
        let ffi::Profile { measures: [a, b, c, d], code } = self.profile.raw();
        let halves = code.map(|word| [word as u32, (word >> 32) as u32]);
        let [[e, f], [g, h]] = halves;
        let day = Day::raw_first(self.first_day) as u32;
        [0, 0, a as u32, b as u32, c as u32, d as u32, e, f, g, h, self.radius, 0, day]
    }
}

/// The day on which an item was weighed, 1 to 65,535, counted from a date that the caller chooses. An `Option<Day>` is no
/// larger than a day.
#[derive(Clone, Copy, Debug, PartialEq, Eq, PartialOrd, Ord, Hash)]
pub struct Day(NonZeroU16);

impl Day {
    /// Day 1.
    pub const MIN: Day = Day(NonZeroU16::MIN);
    /// Day 65,535.
    pub const MAX: Day = Day(NonZeroU16::MAX);

    /// Of any number but 0.
    ///
    /// # Errors
    ///
    /// [`Refusal::BadDay`] if it is 0.
    pub const fn new(day: u16) -> Result<Day, Refusal> {
        match NonZeroU16::new(day) {
            Some(day) => Ok(Day(day)),
            None => Err(Refusal::BadDay),
        }
    }

    /// Its number.
    pub const fn get(self) -> u16 {
        self.0.get()
    }

    // `None` is any day
    pub(crate) fn raw_first(first_day: Option<Day>) -> u16 {
        first_day.map_or(ffi::ANY_DAY, Day::get)
    }

    // the day of an item in a table is not 0
    pub(crate) fn as_stored(day: u32) -> Day {
        Day(NonZeroU16::new(day as u16).expect("a day"))
    }
}

impl From<NonZeroU16> for Day {
    fn from(day: NonZeroU16) -> Day {
        Day(day)
    }
}

impl From<Day> for NonZeroU16 {
    fn from(day: Day) -> NonZeroU16 {
        day.0
    }
}

/// What the difference of each measure is multiplied by before it counts, 0 to 100: of a measure of weight 0 the
/// distance knows nothing. A table by [`Metric::DifferingBits`] keeps its weights and has no use for them.
#[derive(Clone, Copy, PartialEq, Eq, Hash)]
pub struct Weights(ffi::Weights);

impl Weights {
    /// The largest weight.
    pub const MAX: u32 = 100;
    /// Every measure counts as it is.
    pub const ONE: Weights = Weights(ffi::Weights { each: [1; 4] });

    /// Of the four measures in their order.
    ///
    /// # Errors
    ///
    /// [`Refusal::BadWeight`] if one is above [`Weights::MAX`].
    pub const fn new(each: [u32; 4]) -> Result<Weights, Refusal> {
        let [a, b, c, d] = each;
        let is_valid = a <= Weights::MAX && b <= Weights::MAX && c <= Weights::MAX && d <= Weights::MAX;
        if is_valid { Ok(Weights(ffi::Weights { each })) } else { Err(Refusal::BadWeight) }
    }

    /// Of the four measures in their order.
    pub const fn each(self) -> [u32; 4] {
        self.0.each
    }

    pub(crate) fn raw(self) -> ffi::Weights {
        self.0
    }
}

/// As `Weights([10, 1, 1, 0])`.
impl fmt::Debug for Weights {
    fn fmt(&self, f: &mut fmt::Formatter<'_>) -> fmt::Result {
        f.debug_tuple("Weights").field(&self.each()).finish()
    }
}

/// As [`Weights::new`].
impl TryFrom<[u32; 4]> for Weights {
    type Error = Refusal;

    fn try_from(each: [u32; 4]) -> Result<Weights, Refusal> {
        Weights::new(each)
    }
}

impl From<Weights> for [u32; 4] {
    fn from(weights: Weights) -> [u32; 4] {
        weights.each()
    }
}

/// [`Weights::ONE`].
impl Default for Weights {
    fn default() -> Weights {
        Weights::ONE
    }
}

/// How large a table is: one of order T has buckets 0 to T and holds at most 2^T items.
#[derive(Clone, Copy, Debug, PartialEq, Eq, PartialOrd, Ord, Hash)]
pub struct Order(u32);

impl Order {
    /// One item.
    pub const MIN: Order = Order(0);
    /// 4,096 items.
    pub const MAX: Order = Order(12);

    /// 0 to 12.
    ///
    /// # Errors
    ///
    /// [`Refusal::BadOrder`] if it is another.
    pub const fn new(order: u32) -> Result<Order, Refusal> {
        if order <= Order::MAX.0 { Ok(Order(order)) } else { Err(Refusal::BadOrder) }
    }

    /// The least order whose tables hold so many items.
    ///
    /// # Errors
    ///
    /// [`Refusal::BadOrder`] where none does.
    pub const fn holding(items: usize) -> Result<Order, Refusal> {
        let mut order = Order::MIN;
        while order.capacity() < items && order.0 < Order::MAX.0 {
            order = Order(order.0 + 1);
        }
        if order.capacity() >= items { Ok(order) } else { Err(Refusal::BadOrder) }
    }

    /// Its number.
    pub const fn get(self) -> u32 {
        self.0
    }

    /// How many items a table of this order holds.
    pub const fn capacity(self) -> usize {
        1 << self.0
    }

    /// How many rows the area of a table of this order has.
    pub const fn table_rows(self) -> usize {
        self.0 as usize + 1 + (2 << self.0)
    }

    /// How many rows the work area has beside it.
    pub const fn work_rows(self) -> usize {
        1 << self.0
    }

    /// As many bytes as any image of this order can have: every slot of every bucket built.
    pub const fn image_bytes(self) -> usize {
        self.bytes_of_image((2 << self.0) - 1)
    }

    // with so many built slots
    pub(crate) const fn bytes_of_image(self, built: usize) -> usize {
        8 + 4 * (self.0 as usize + 1) + 50 * built
    }
}

/// By which rule two profiles have a distance.
#[derive(Clone, Copy, Debug, PartialEq, Eq, Hash)]
#[non_exhaustive]
#[repr(u32)]
pub enum Metric {
    /// The sum of the absolute differences of the four measures, each multiplied by its weight.
    SumOfDifferences = 0,
    /// The number of bits in which the codes differ.
    DifferingBits = 1,
    /// The largest of the absolute differences of the four measures, each multiplied by its weight.
    LargestDifference = 2,
}

impl Metric {
    /// All metrics in the order of their numbers.
    pub const ALL: [Metric; 3] = [Metric::SumOfDifferences, Metric::DifferingBits, Metric::LargestDifference];

    /// Its number.
    pub const fn get(self) -> u32 {
        self as u32
    }
}

/// By its number; else [`Refusal::BadMetric`].
impl TryFrom<u32> for Metric {
    type Error = Refusal;

    fn try_from(number: u32) -> Result<Metric, Refusal> {
        Metric::ALL.into_iter().find(|metric| metric.get() == number).ok_or(Refusal::BadMetric)
    }
}

impl From<Metric> for u32 {
    fn from(metric: Metric) -> u32 {
        metric.get()
    }
}

/// What a snapshot is saved under: a number, 1 to 8.
#[derive(Clone, Copy, Debug, PartialEq, Eq, PartialOrd, Ord, Hash)]
pub struct Name(u32);

impl Name {
    /// How many names there are.
    pub const COUNT: usize = 8;

    /// 1 to 8.
    ///
    /// # Errors
    ///
    /// [`Refusal::BadName`] if it is another.
    pub const fn new(name: u32) -> Result<Name, Refusal> {
        if 1 <= name && name <= Name::COUNT as u32 { Ok(Name(name)) } else { Err(Refusal::BadName) }
    }

    /// All names in their order.
    pub fn all() -> impl Iterator<Item = Name> {
        (1..=Name::COUNT as u32).map(Name)
    }

    /// Its number.
    pub const fn get(self) -> u32 {
        self.0
    }
}
