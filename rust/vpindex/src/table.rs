//! The table, with the areas that its calls are lent.

#[cfg(feature = "alloc")]
use alloc::vec::Vec;
use core::fmt;
use core::ops::Deref;

use crate::buckets::{self, Bucket};
use crate::{Day, Item, Items, Metric, Order, Profile, Refusal, Row, Tag, Weights, ffi};

/// Where an item is, and what was handed over with it.
#[derive(Clone, Copy, Debug, PartialEq, Eq, Hash)]
pub struct LookedUp {
    /// The bucket that it is in.
    pub bucket: u32,
    /// Its profile.
    pub profile: Profile,
    /// On which it was weighed.
    pub day: Day,
}

/// Items that can be asked for by likeness.
///
/// Threads can search one table together: every call that leaves the table as it is takes `&self` and writes nothing but
/// what it returns.
///
/// `Table` alone is one that owns its areas. It allocates when it is made: 52·(3·2^T + T + 1) bytes where its order is T,
/// some 625 KiB at order 12. A call allocates what it returns, where that is of no fixed size; those that add, remove and
/// replace, [`Table::look_up`] and those whose names end in `into` allocate nothing. [`Table::lots`] needs some 128 KiB
/// more at order 12 while it works.
///
/// A `Table<&mut [Row]>` is in areas that the caller lends to [`Table::lent`] or [`Table::load_lent`], and the same in
/// all else. It is what there is without the feature `alloc`.
#[derive(Clone)]
pub struct Table<#[cfg(feature = "alloc")] A = Vec<Row>, #[cfg(not(feature = "alloc"))] A> {
    pub(crate) header: Header,
    pub(crate) rows: A,
    pub(crate) work: A,
}

// What a table's first row says.
#[derive(Clone, Copy, Debug, PartialEq, Eq)]
pub(crate) struct Header {
    pub order: Order,
    pub metric: Metric,
    pub weights: Weights,
}

impl Header {
    // What a newer archive may take and this crate does not know is refused, as the making of such a value is.
    pub(crate) fn of(row: &Row) -> Result<Header, Refusal> {
        let &[order, metric, a, b, c, d, ..] = row;
        let (order, metric) = (Order::new(order)?, Metric::try_from(metric)?);
        Ok(Header { order, metric, weights: Weights::new([a, b, c, d])? })
    }
}

#[cfg(feature = "alloc")]
impl Table {
    /// An empty table in which every measure counts as it is: of weights [`Weights::ONE`].
    pub fn new(order: Order, metric: Metric) -> Table {
        Table::with_weights(order, metric, Weights::ONE)
    }

    /// An empty table in which some measures count more than others.
    ///
    /// ```
    /// use vpindex::{Day, Metric, Order, Profile, Table, Tag, Weights};
    ///
    /// // kilos count ten times, the daily gain not at all
    /// let weights = Weights::new([10, 1, 1, 0])?;
    /// let mut table = Table::with_weights(Order::new(4)?, Metric::SumOfDifferences, weights);
    /// table.add(Tag::new(36, 1)?, &Profile::new([41_250, 12_900, 18_500, 95], [0, 0])?, Day::MIN)?;
    /// let query = Profile::new([41_000, 12_900, 18_400, 40], [0, 0])?;
    /// assert_eq!(table.nearest(&query, 1, None)?[0].distance(), 2_600);
    /// # Ok::<(), vpindex::Error>(())
    /// ```
    pub fn with_weights(order: Order, metric: Metric, weights: Weights) -> Table {
        let mut table = Table::blank(Header { order, metric, weights });
        let refusal = ffi::fresh(&mut table.rows, order.get(), metric.get(), weights.raw());
        assert_eq!(refusal, 0, "order, metric and weights are valid, and the area is as long as the order needs");
        table
    }

    // Areas of the lengths that the order needs, not a table yet.
    pub(crate) fn blank(header: Header) -> Table {
        let row: Row = [0; ffi::ROW_WORDS];
        let (rows, work) = (header.order.table_rows(), header.order.work_rows());
        Table { header, rows: alloc::vec![row; rows], work: alloc::vec![row; work] }
    }
}

impl<'a> Table<&'a mut [Row]> {
    /// An empty table in areas that the caller lends, of any content: [`Order::table_rows`] and [`Order::work_rows`] say
    /// how many rows each has at least.
    ///
    /// ```
    /// use vpindex::{Day, Hits, Metric, Order, Profile, ROW_WORDS, Row, Table, Weights};
    ///
    /// const ORDER: Order = match Order::holding(16) {
    ///     Ok(order) => order,
    ///     Err(_) => panic!("no table holds so many"),
    /// };
    /// static ROWS: [Row; ORDER.table_rows()] = [[0; ROW_WORDS]; ORDER.table_rows()];
    ///
    /// let (mut rows, mut work) = (ROWS, [[0; ROW_WORDS]; ORDER.work_rows()]);
    /// let mut table = Table::lent(&mut rows, &mut work, ORDER, Metric::SumOfDifferences, Weights::ONE)?;
    /// table.add("036000000000101".parse()?, &Profile::default(), Day::new(305)?)?;
    ///
    /// let mut room = [[0; 2]; 4];
    /// let mut hits = Hits::lent(&mut room);
    /// table.nearest_into(&Profile::default(), 4, None, &mut hits)?;
    /// assert_eq!(hits[0].tag().national(), 101);
    /// # Ok::<(), vpindex::Error>(())
    /// ```
    ///
    /// # Errors
    ///
    /// [`Refusal::ShortArea`] if an area has fewer rows, and then both are left as they are.
    pub fn lent(
        rows: &'a mut [Row],
        work: &'a mut [Row],
        order: Order,
        metric: Metric,
        weights: Weights,
    ) -> Result<Table<&'a mut [Row]>, Refusal> {
        if work.len() < order.work_rows() {
            return Err(Refusal::ShortArea);
        }
        Refusal::check(ffi::fresh(rows, order.get(), metric.get(), weights.raw()))?;
        Ok(Table { header: Header { order, metric, weights }, rows, work })
    }
}

impl<A: Deref<Target = [Row]>> Table<A> {
    /// Gives an item's bucket, its profile and its day.
    ///
    /// # Errors
    ///
    /// [`Refusal::NotLive`] if it is not there.
    pub fn look_up(&self, tag: Tag) -> Result<LookedUp, Refusal> {
        let reply = ffi::look_up(&self.rows, tag.into());
        Refusal::check(reply.refusal)?;
        let (profile, day) = (Profile::as_stored(reply.profile), Day::as_stored(reply.day));
        Ok(LookedUp { bucket: reply.bucket, profile, day })
    }

    /// The item with this tag, if it is there.
    pub fn get(&self, tag: Tag) -> Option<Item> {
        self.look_up(tag).ok().map(|LookedUp { profile, day, .. }| Item { tag, profile, day })
    }

    /// Whether an item has this tag.
    pub fn contains(&self, tag: Tag) -> bool {
        self.look_up(tag).is_ok()
    }

    /// Whether the other table has the same items, metric and weights. Range and nearest then find the same in both by
    /// every query, whatever was added, removed and loaded before; orders and numbers of distances may differ.
    ///
    /// ```
    /// use vpindex::{Day, Metric, Order, Profile, Table, Tag};
    ///
    /// let (first, second) = (Tag::new(36, 1)?, Tag::new(36, 2)?);
    /// let mut one = Table::new(Order::new(4)?, Metric::SumOfDifferences);
    /// one.add(first, &Profile::default(), Day::MIN)?;
    /// let mut other = Table::new(Order::new(1)?, Metric::SumOfDifferences);
    /// other.add(second, &Profile::default(), Day::MIN)?;
    /// other.add(first, &Profile::default(), Day::MIN)?;
    /// assert!(!one.same_items(&other));
    /// other.remove(second)?;
    /// assert!(one.same_items(&other) && one.image() != other.image());
    /// # Ok::<(), vpindex::Error>(())
    /// ```
    #[cfg(feature = "alloc")]
    pub fn same_items<B: Deref<Target = [Row]>>(&self, other: &Table<B>) -> bool {
        let by_tag = |items: Items<'_>| {
            let mut items: Vec<Item> = items.collect();
            items.sort_unstable_by_key(|item| item.tag);
            items
        };
        self.metric() == other.metric()
            && self.weights() == other.weights()
            && self.len() == other.len()
            && by_tag(self.iter()) == by_tag(other.iter())
    }

    /// All items, in no order that can be relied on.
    ///
    /// ```
    /// use vpindex::{Day, Metric, Order, Profile, Table, Tag};
    ///
    /// let mut table = Table::new(Order::new(4)?, Metric::SumOfDifferences);
    /// for (national, kilos) in [(1, 41_250), (2, 39_800), (3, 55_600)] {
    ///     table.add(Tag::new(36, national)?, &Profile::new([kilos, 0, 0, 0], [0, 0])?, Day::MIN)?;
    /// }
    /// assert_eq!(table.iter().filter(|item| item.profile.measures()[0] > 40_000).count(), 2);
    /// # Ok::<(), vpindex::Error>(())
    /// ```
    pub fn iter(&self) -> Items<'_> {
        let (front, slots) = self.rows.split_at(self.order().get() as usize + 2);
        Items::new(&front[1..], slots)
    }

    /// All buckets, from bucket 0 up, empty ones too.
    pub fn buckets(&self) -> impl ExactSizeIterator<Item = Bucket<'_>> {
        buckets::all(&self.rows, self.order().get())
    }

    // the size rows of the buckets: built, live
    pub(crate) fn sizes(&self) -> core::slice::Iter<'_, Row> {
        self.rows[1..=self.order().get() as usize + 1].iter()
    }

    /// The order that it was made with.
    pub fn order(&self) -> Order {
        self.header.order
    }

    /// The metric that it was made with.
    pub fn metric(&self) -> Metric {
        self.header.metric
    }

    /// The weights that it was made with.
    pub fn weights(&self) -> Weights {
        self.header.weights
    }

    /// How many items it can hold.
    pub fn capacity(&self) -> usize {
        self.order().capacity()
    }

    /// How many items there are.
    pub fn len(&self) -> usize {
        self.sizes().map(|size| size[1] as usize).sum()
    }

    /// Whether there are none.
    pub fn is_empty(&self) -> bool {
        self.len() == 0
    }
}

/// Short: what it was made with, and the number of items.
impl<A: Deref<Target = [Row]>> fmt::Debug for Table<A> {
    fn fmt(&self, f: &mut fmt::Formatter<'_>) -> fmt::Result {
        f.debug_struct("Table")
            .field("order", &self.order().get())
            .field("metric", &self.metric())
            .field("weights", &self.weights().each())
            .field("len", &self.len())
            .finish()
    }
}

impl<'a, A: Deref<Target = [Row]>> IntoIterator for &'a Table<A> {
    type Item = Item;
    type IntoIter = Items<'a>;

    fn into_iter(self) -> Items<'a> {
        self.iter()
    }
}

#[cfg(test)]
mod tests {
    use super::*;

    // Rows that a newer archive could leave: none of them makes a table here, and nothing panics.
    #[test]
    fn a_header_that_is_not_known() {
        let row = |front: [u32; 6]| {
            let mut row = [9; ffi::ROW_WORDS];
            row[..6].copy_from_slice(&front);
            Header::of(&row)
        };
        let weights = Weights::new([0, 1, 7, 100]).expect("in range");
        let known = Header { order: Order::MAX, metric: Metric::LargestDifference, weights };
        assert_eq!(row([12, 2, 0, 1, 7, 100]), Ok(known));
        assert_eq!(row([13, 2, 0, 1, 7, 100]), Err(Refusal::BadOrder));
        assert_eq!(row([12, 3, 0, 1, 7, 100]), Err(Refusal::BadMetric));
        for at in 2..6 {
            let mut front = [12, 2, 0, 1, 7, 100];
            front[at] = 101;
            assert_eq!(row(front), Err(Refusal::BadWeight));
        }
    }
}
