//! Items drafted into lots.

use alloc::{vec, vec::Vec};
use core::ops::Deref;

use crate::ffi::{self, MAX_RADII};
use crate::{Order, Refusal, Row, Table, Tag};

/// What a radius drafts the items of a table into.
#[derive(Clone, Copy, Debug, Default, PartialEq, Eq, Hash)]
pub struct Drafted {
    /// How many lots.
    pub lots: u32,
    /// How many items are in the largest.
    pub largest: u32,
}

/// Items drafted by each of some radii, with the lots by one of them.
///
/// [`Table::lots`](crate::Table::lots) returns one. It is also what a caller lends to
/// [`Table::lots_into`](crate::Table::lots_into), again and again, where a drafting must not allocate.
#[derive(Clone, Debug)]
pub struct Lots {
    by_radius: Vec<Drafted>,
    tags: Vec<Tag>,
    // of each lot, where the next begins
    ends: Vec<usize>,
    // what the call is lent
    work: Vec<ffi::Entry>,
    listing: Vec<ffi::Entry>,
}

impl Lots {
    /// Nothing drafted yet, with room for any table of this order or a lower one.
    pub fn new(order: Order) -> Lots {
        let items = order.capacity();
        Lots {
            by_radius: Vec::with_capacity(MAX_RADII),
            tags: Vec::with_capacity(items),
            ends: Vec::with_capacity(items),
            work: vec![[0; 2]; items],
            listing: vec![[0; 2]; items],
        }
    }

    /// What each radius drafts the items into, in the order of the radii.
    pub fn by_radius(&self) -> &[Drafted] {
        &self.by_radius
    }

    /// How many lots the chosen radius makes.
    pub fn len(&self) -> usize {
        self.ends.len()
    }

    /// Whether it makes none, which is so where there are no items.
    pub fn is_empty(&self) -> bool {
        self.ends.is_empty()
    }

    /// The lots by the chosen radius in the order in which they were led, each the tags of its items, its leader's first
    /// and the others by tag.
    pub fn iter(&self) -> impl ExactSizeIterator<Item = &[Tag]> {
        let start = |lot: usize| if lot == 0 { 0 } else { self.ends[lot - 1] };
        (0..self.ends.len()).map(move |lot| &self.tags[start(lot)..self.ends[lot]])
    }

    // By a call that is lent work area, summary and listing. A refused one drafts nothing, and no vector grows.
    pub(crate) fn fill(
        &mut self,
        radii: usize,
        call: impl FnOnce(&mut [ffi::Entry], &mut [ffi::Summary], &mut [ffi::Entry]) -> u32,
    ) -> Result<(), Refusal> {
        self.by_radius.clear();
        self.tags.clear();
        self.ends.clear();
        let mut summary = [[0; 2]; MAX_RADII];
        Refusal::check(call(&mut self.work, &mut summary, &mut self.listing))?;
        self.by_radius.extend(summary[..radii].iter().map(|&[lots, largest]| Drafted { lots, largest }));
        let listed = self.listing.iter().take_while(|entry| entry[1] != 0).count();
        let listing = &self.listing[..listed];
        self.tags.extend(listing.iter().map(|entry| Tag::as_stored(entry[0])));
        self.ends.extend((1..=listed).filter(|&i| listing.get(i).is_none_or(|next| next[1] != listing[i - 1][1])));
        Ok(())
    }

    // what is kept for long has no more room than it needs
    pub(crate) fn trimmed(mut self) -> Lots {
        (self.work, self.listing) = (Vec::new(), Vec::new());
        self.by_radius.shrink_to_fit();
        self.tags.shrink_to_fit();
        self.ends.shrink_to_fit();
        self
    }
}

impl<A: Deref<Target = [Row]>> Table<A> {
    /// The items drafted into lots by each of 1 to 32 radii, with the lots by one of them, chosen by its place in the list
    /// from 1. By a radius the item of the lowest tag that is in no lot yet leads one, of itself and of every other in no
    /// lot yet within the radius of it, until all are in one.
    ///
    /// ```
    /// use vpindex::{Day, Metric, Order, Profile, Table, Tag};
    ///
    /// let mut table = Table::new(Order::new(4)?, Metric::SumOfDifferences);
    /// let tags: Vec<Tag> = (1..=4).map(|national| Tag::new(36, national)).collect::<Result<_, _>>()?;
    /// for (&tag, weight) in tags.iter().zip([41_000, 45_000, 43_500, 41_800]) {
    ///     table.add(tag, &Profile::new([weight, 0, 0, 0], [0, 0])?, Day::MIN)?;
    /// }
    ///
    /// let lots = table.lots(&[500, 1_500, 2_500], 2)?;
    /// assert_eq!(lots.by_radius().iter().map(|drafted| drafted.lots).collect::<Vec<_>>(), [4, 2, 2]);
    /// assert_eq!(lots.iter().collect::<Vec<_>>(), [[tags[0], tags[3]], [tags[1], tags[2]]]);
    /// # Ok::<(), vpindex::Error>(())
    /// ```
    ///
    /// # Errors
    ///
    /// [`Refusal::BadRadii`] if there are not 1 to 32 radii, or the chosen place is not in their list.
    pub fn lots(&self, radii: &[u32], chosen: u32) -> Result<Lots, Refusal> {
        let mut lots = Lots::new(self.order());
        self.lots_into(radii, chosen, &mut lots)?;
        Ok(lots.trimmed())
    }

    /// As [`Table::lots`], in place of what was drafted before, and with nothing allocated.
    ///
    /// ```
    /// use vpindex::{Day, Lots, Metric, Order, Profile, Table, Tag};
    ///
    /// let mut table = Table::new(Order::new(4)?, Metric::SumOfDifferences);
    /// let mut lots = Lots::new(table.order());
    /// for (national, kilos) in [(1, 41_000), (2, 45_000), (3, 43_500)] {
    ///     table.add(Tag::new(36, national)?, &Profile::new([kilos, 0, 0, 0], [0, 0])?, Day::MIN)?;
    ///     table.lots_into(&[2_000], 1, &mut lots)?;
    /// }
    /// assert_eq!((lots.len(), lots.by_radius()[0].largest), (2, 2));
    /// # Ok::<(), vpindex::Error>(())
    /// ```
    ///
    /// # Errors
    ///
    /// [`Refusal::ShortArea`] if the lots have room for a lower order alone, and else as [`Table::lots`]. Nothing is
    /// drafted then.
    pub fn lots_into(&self, radii: &[u32], chosen: u32, lots: &mut Lots) -> Result<(), Refusal> {
        lots.fill(radii.len(), |work, summary, listing| ffi::lots(&self.rows, work, radii, summary, listing, chosen))
    }
}

/// The lots and what each radius drafts; how much room there is does not count.
impl PartialEq for Lots {
    fn eq(&self, other: &Lots) -> bool {
        self.by_radius == other.by_radius && self.tags == other.tags && self.ends == other.ends
    }
}

impl Eq for Lots {}

#[cfg(test)]
mod tests {
    use super::*;

    #[test]
    fn parts_of_a_listing() {
        let mut lots = Lots::new(Order::new(3).expect("valid"));
        let listed = [[1, 1], [4, 1], [2, 2], [3, 3], [5, 3]];
        let filled = lots.fill(1, |_, summary, listing| {
            summary[0] = [3, 2];
            listing[..5].copy_from_slice(&listed);
            0
        });
        assert_eq!(filled, Ok(()));
        let tags: Vec<Vec<u64>> = lots.iter().map(|lot| lot.iter().map(|&tag| tag.into()).collect()).collect();
        assert_eq!(tags, [vec![1, 4], vec![2], vec![3, 5]]);
        assert_eq!((lots.len(), lots.by_radius()), (3, &[Drafted { lots: 3, largest: 2 }][..]));
        assert_eq!(lots.clone().trimmed(), lots);
        assert_eq!(lots.fill(1, |_, _, _| 41), Err(Refusal::BadRadii));
        assert!(lots.is_empty() && lots.iter().next().is_none() && lots.by_radius().is_empty());
    }
}
