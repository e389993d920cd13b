//! Calls that change a table.

use core::error::Error;
use core::fmt;
use core::ops::DerefMut;

use crate::{Day, Item, LookedUp, Profile, Refusal, Row, Table, Tag, ffi};

/// What an add did.
#[derive(Clone, Copy, Debug, PartialEq, Eq, Hash)]
pub struct Added {
    /// The bucket that was built, with the new item in it.
    pub bucket: u32,
    /// Distances worked out by the build.
    pub distances: u32,
}

/// What a replace did.
#[derive(Clone, Copy, Debug, PartialEq, Eq, Hash)]
pub struct Replaced {
    /// The item as it was before.
    pub before: Item,
    /// The bucket that was built, with the new item in it.
    pub bucket: u32,
    /// Distances worked out by the builds of the removal and of the add.
    pub distances: u32,
}

/// At which item an extend stopped, and why. The items before it stay added.
///
/// It is written as, for one, `036000000000101: the tag is in the table already (2 added before it)`.
#[derive(Clone, Copy, Debug, PartialEq, Eq, Hash)]
pub struct ExtendRefusal {
    /// The item that was refused.
    pub item: Item,
    /// Why, as the archive says it.
    pub refusal: Refusal,
    /// Items added before it.
    pub added: usize,
}

impl fmt::Display for ExtendRefusal {
    fn fmt(&self, f: &mut fmt::Formatter<'_>) -> fmt::Result {
        write!(f, "{}: {} ({} added before it)", self.item.tag, self.refusal, self.added)
    }
}

impl Error for ExtendRefusal {}

impl<A: DerefMut<Target = [Row]>> Table<A> {
    /// Adds an item that was weighed on this day.
    ///
    /// # Errors
    ///
    /// [`Refusal::AlreadyLive`] if its tag is in the table, [`Refusal::Full`] if there is no room.
    pub fn add(&mut self, tag: Tag, profile: &Profile, day: Day) -> Result<Added, Refusal> {
        let reply = ffi::add(&mut self.rows, &mut self.work, tag.into(), profile.raw(), day.get());
        Refusal::check(reply.refusal)?;
        Ok(Added { bucket: reply.bucket, distances: reply.distances })
    }

    /// Removes an item, and gives the number of distances that were worked out.
    ///
    /// # Errors
    ///
    /// [`Refusal::NotLive`] if it is not there.
    pub fn remove(&mut self, tag: Tag) -> Result<u32, Refusal> {
        let reply = ffi::remove(&mut self.rows, &mut self.work, tag.into());
        Refusal::check(reply.refusal)?;
        Ok(reply.distances)
    }

    /// Puts a new profile and day in the place of an item's, as when it is weighed again: a removal and an add, or
    /// neither.
    ///
    /// ```
    /// use vpindex::{Day, Metric, Order, Profile, Refusal, Table, Tag};
    ///
    /// let mut table = Table::new(Order::new(4)?, Metric::SumOfDifferences);
    /// let (tag, then) = (Tag::new(36, 1)?, Profile::new([41_250, 12_900, 18_500, 95], [0, 0])?);
    /// table.add(tag, &then, Day::new(210)?)?;
    ///
    /// let now = Profile::new([43_000, 12_950, 18_700, 88], [0, 0])?;
    /// assert_eq!(table.replace(tag, &now, Day::new(305)?)?.before.profile, then);
    /// assert_eq!(table.look_up(tag)?.profile, now);
    /// assert_eq!(table.replace(Tag::new(36, 2)?, &now, Day::MIN), Err(Refusal::NotLive));
    /// # Ok::<(), vpindex::Error>(())
    /// ```
    ///
    /// # Errors
    ///
    /// [`Refusal::NotLive`] if it is not there. A removal makes room for the add, so no other refusal comes from this
    /// archive; were the add refused, the item would be put back as it was.
    pub fn replace(&mut self, tag: Tag, profile: &Profile, day: Day) -> Result<Replaced, Refusal> {
        let LookedUp { profile: old, day: old_day, .. } = self.look_up(tag)?;
        let removing = self.remove(tag)?;
        match self.add(tag, profile, day) {
            Ok(Added { bucket, distances }) => {
                let before = Item { tag, profile: old, day: old_day };
                Ok(Replaced { before, bucket, distances: removing + distances })
            }
            Err(refusal) => {
                self.add(tag, &old, old_day).expect("it was in the table just now");
                Err(refusal)
            }
        }
    }

    /// Adds items one after the other, and gives how many they were.
    ///
    /// ```
    /// use vpindex::{Day, Metric, Order, Table};
    ///
    /// let mut herd = Table::new(Order::new(4)?, Metric::SumOfDifferences);
    /// herd.read_list(b"tag;kg;hip;girth;gain\n036000000000101;412,50;129,00;185,00;0,95\n", Day::MIN)?;
    ///
    /// // the same head by another metric
    /// let mut by_bits = Table::new(herd.order(), Metric::DifferingBits);
    /// assert_eq!(by_bits.try_extend(&herd)?, 1);
    /// let again = by_bits.try_extend(&herd).unwrap_err();
    /// assert_eq!(again.to_string(), "036000000000101: the tag is in the table already (0 added before it)");
    /// # Ok::<(), vpindex::Error>(())
    /// ```
    ///
    /// # Errors
    ///
    /// As [`Table::add`] at the first item that it refuses, where it stops; the items before it stay added.
    pub fn try_extend(&mut self, items: impl IntoIterator<Item = Item>) -> Result<usize, ExtendRefusal> {
        let mut added = 0;
        for item in items {
            let done = self.add(item.tag, &item.profile, item.day);
            done.map_err(|refusal| ExtendRefusal { item, refusal, added })?;
            added += 1;
        }
        Ok(added)
    }
}

#[cfg(all(test, feature = "alloc"))]
mod tests {
    use super::*;
    use crate::{Metric, Order};

    // No value of this crate makes an archive refuse the add of a replace, so one that the crate would not make does.
    #[test]
    fn a_refused_replace_puts_the_item_back() {
        let bad = Profile::as_stored(ffi::Profile { measures: [Profile::MAX_MEASURE + 1, 0, 0, 0], code: [0, 0] });
        let tag = |national| Tag::new(36, national).expect("valid");
        for (order, items) in [(0, 1), (2, 3), (2, 4), (4, 16)] {
            let mut table = Table::new(Order::new(order).expect("valid"), Metric::SumOfDifferences);
            for national in 0..items {
                let profile = Profile::new([national as i32, 7, 0, 0], [national, 1]).expect("in range");
                table.add(tag(national), &profile, Day::MAX).expect("room");
            }
            let before = table.clone();
            for national in 0..items {
                assert_eq!(table.replace(tag(national), &bad, Day::MIN), Err(Refusal::BadMeasure));
                assert!(table.same_items(&before));
            }
            assert_eq!(table.replace(tag(items), &bad, Day::MIN), Err(Refusal::NotLive));
            Table::load(&table.image()).expect("a table that calls left");
        }
    }
}
