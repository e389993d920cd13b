//! RULES 14.1: the numbers by which a call is refused.

/// Tag outside its form.
pub const BAD_TAG: u32 = 1;
/// A measure outside its range.
pub const BAD_MEASURE: u32 = 2;
/// Order above the largest.
pub const BAD_ORDER: u32 = 3;
/// Unknown metric.
pub const BAD_METRIC: u32 = 4;
/// Nearest with k = 0.
pub const NO_COUNT: u32 = 5;
/// Result area too short.
pub const NO_ROOM: u32 = 6;
/// Image length wrong.
pub const BAD_LENGTH: u32 = 7;
/// An image of no known form, or a field of a slot breaks a rule.
pub const BAD_IMAGE: u32 = 8;
/// Tag already live.
pub const ALREADY_LIVE: u32 = 20;
/// Tag not live.
pub const NOT_LIVE: u32 = 21;
/// 2^T items live.
pub const FULL: u32 = 22;
/// A lent table or work area too short.
pub const SHORT_AREA: u32 = 23;
/// Sizes, order, metric, weights or marks break the rules.
pub const BAD_TABLE: u32 = 24;
/// A herd list's header differs or lacks its line feed.
pub const BAD_LIST_HEADER: u32 = 30;
/// A line of a herd list is not of the form.
pub const BAD_LIST_LINE: u32 = 31;
/// A weight above the largest.
pub const BAD_WEIGHT: u32 = 32;
/// Day 0.
pub const BAD_DAY: u32 = 33;
/// A name outside 1 to 8.
pub const BAD_NAME: u32 = 34;
/// Nothing was saved under the name.
pub const NOT_SAVED: u32 = 35;
/// A slot's tag was met before in its bucket, or live before where it is live.
pub const DUPLICATE_TAG: u32 = 36;
/// A slot is not the item that the layout puts there.
pub const MISPLACED_ITEM: u32 = 37;
/// A slot's threshold is not the layout's.
pub const BAD_THRESHOLD: u32 = 38;
/// A listed item weighs below 0, or the list is too long.
pub const NO_DUES: u32 = 39;
/// No radius, too many, or a place that is not in their list.
pub const BAD_RADII: u32 = 41;

/// No query in a batch, or more than 16.
pub const BAD_BATCH: u32 = 40;

/// A refusal is an error by its number.
pub type Refused = u32;

/// Why an image is not loaded, and the slot that the refusal is of, 0 where it is of none.
#[derive(Clone, Copy, Debug, PartialEq, Eq)]
pub struct Unloaded {
    /// By its number.
    pub refusal: Refused,
    /// Counted from 0 over all slots of the image.
    pub slot: u32,
}

impl From<Refused> for Unloaded {
    fn from(refusal: Refused) -> Unloaded {
        Unloaded { refusal, slot: 0 }
    }
}

/// Ok if the condition holds, else refused by the number.
pub fn ensure(condition: bool, number: Refused) -> Result<(), Refused> {
    if condition { Ok(()) } else { Err(number) }
}
