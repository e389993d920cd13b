//! What items pay at the gate.

#[cfg(feature = "alloc")]
use alloc::{vec, vec::Vec};
use core::fmt;
#[cfg(feature = "alloc")]
use core::ops::Deref;

use crate::text;
#[cfg(feature = "alloc")]
use crate::{Refusal, Row, Table, Tag, ffi};

/// An amount of money, written as whole units and cents: 1,234 cents as `12.34`.
#[derive(Clone, Copy, Debug, Default, PartialEq, Eq, PartialOrd, Ord, Hash)]
pub struct Cents(u64);

impl Cents {
    /// How many.
    pub const fn get(self) -> u64 {
        self.0
    }
}

impl From<Cents> for u64 {
    fn from(cents: Cents) -> u64 {
        cents.0
    }
}

impl fmt::Display for Cents {
    fn fmt(&self, f: &mut fmt::Formatter<'_>) -> fmt::Result {
        text::pad(f, format_args!("{}.{:02}", self.0 / 100, self.0 % 100))
    }
}

/// What the items of a list pay.
#[cfg(feature = "alloc")]
#[derive(Clone, Debug, PartialEq, Eq, Hash)]
pub struct Dues {
    /// Of each tag, in the order of the list.
    pub each: Vec<Cents>,
    /// The sum of these.
    pub total: Cents,
}

#[cfg(feature = "alloc")]
impl<A: Deref<Target = [Row]>> Table<A> {
    /// What these items pay at the gate: each one rate on its whole weight, its first measure as kilos, to the nearest
    /// cent. Below 400.00 kg it is 2 cents a kilo, below 600.00 kg 3, else 4. A tag that is listed twice pays twice.
    ///
    /// ```
    /// use vpindex::{Day, Metric, Order, Profile, Table, Tag};
    ///
    /// let mut table = Table::new(Order::new(4)?, Metric::SumOfDifferences);
    /// let tags = [Tag::new(36, 1)?, Tag::new(36, 2)?];
    /// table.add(tags[0], &Profile::new([41_250, 12_900, 18_500, 95], [0, 0])?, Day::MIN)?;
    /// table.add(tags[1], &Profile::new([40_000, 12_700, 18_100, 90], [0, 0])?, Day::MIN)?;
    ///
    /// // both at 3 cents a kilo
    /// let dues = table.dues(&tags)?;
    /// assert_eq!(dues.each.iter().map(|cents| cents.to_string()).collect::<Vec<_>>(), ["12.38", "12.00"]);
    /// assert_eq!(dues.total.to_string(), "24.38");
    /// # Ok::<(), vpindex::Error>(())
    /// ```
    ///
    /// # Errors
    ///
    /// [`Refusal::NotLive`] if one of them is not there, else [`Refusal::NoDues`] if one weighs below 0 or the list has
    /// more than 4,096 tags.
    pub fn dues(&self, tags: &[Tag]) -> Result<Dues, Refusal> {
        let listed: Vec<u64> = tags.iter().copied().map(u64::from).collect();
        let mut each = vec![0; listed.len()];
        let reply = ffi::dues(&self.rows, &listed, &mut each);
        Refusal::check(reply.refusal)?;
        let each = each.into_iter().map(|cents| Cents(cents.into())).collect();
        Ok(Dues { each, total: Cents(reply.total) })
    }
}

#[cfg(test)]
mod tests {
    use std::{format, string::ToString};

    use super::*;

    #[test]
    fn money() {
        let written = |cents| Cents(cents).to_string();
        assert_eq!([0, 1, 10, 99, 100, 1_234].map(written), ["0.00", "0.01", "0.10", "0.99", "1.00", "12.34"]);
        assert_eq!(written(u64::MAX), "184467440737095516.15");
        assert_eq!(format!("{:>8}|{:<6}|", Cents(800), Cents(5)), "    8.00|0.05  |");
    }
}
