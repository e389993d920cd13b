//! RULES 20: what the items of a list pay at the gate.

use crate::refusal::{NO_DUES, NO_ROOM, NOT_LIVE, Refused, ensure};

/// The most tags of a list.
pub const MOST_LISTED: usize = 4096;

/// What a weight in hundredths of a kilo pays, in cents. A weight where two bands meet pays by the heavier one.
pub fn cents(weight: u32) -> u32 {
    let rate = match weight {
        0..40_000 => 2,
        40_000..60_000 => 3,
        _ => 4,
    };
    let (whole, rest) = (weight as u64 * rate / 100, weight as u64 * rate % 100);
    (whole + (rest >= 50) as u64) as u32
}

/// What each tag of a list pays, by what its item weighs, if there is one. The dues area has room for so many.
pub fn dues(tags: &[u64], room: usize, weight: impl Fn(u64) -> Option<i32>) -> Result<Vec<u32>, Refused> {
    let weights: Option<Vec<i32>> = tags.iter().map(|&tag| weight(tag)).collect();
    let weights = weights.ok_or(NOT_LIVE)?;
    ensure(weights.len() <= MOST_LISTED && weights.iter().all(|&weight| weight >= 0), NO_DUES)?;
    ensure(weights.len() <= room, NO_ROOM)?;
    Ok(weights.into_iter().map(|weight| cents(weight as u32)).collect())
}

/// Their sum.
pub fn total(dues: &[u32]) -> u64 {
    dues.iter().map(|&cents| cents as u64).sum()
}
