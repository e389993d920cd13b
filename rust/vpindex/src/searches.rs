//! Calls that search a table.

use core::ops::{Deref, DerefMut};

use crate::{Batch, Day, Hit, Hits, Profile, RangeQuery, Refusal, Row, Table, ffi};

impl<A: Deref<Target = [Row]>> Table<A> {
    /// All items whose distance from the query is at most the radius and which were weighed on the first day or later;
    /// `None` is any day.
    #[cfg(feature = "alloc")]
    pub fn range(&self, query: &Profile, radius: u32, first_day: Option<Day>) -> Hits {
        let mut hits = Hits::with_capacity(self.len());
        let done = self.range_into(query, radius, first_day, &mut hits);
        assert_eq!(done, Ok(()), "the query is valid, and there is room for every item");
        hits.trimmed()
    }

    /// As [`Table::range`], in place of what was found before, and with nothing allocated.
    ///
    /// ```
    /// use vpindex::{Day, Hits, Metric, Order, Profile, Table, Tag};
    ///
    /// let mut table = Table::new(Order::new(4)?, Metric::SumOfDifferences);
    /// table.add(Tag::new(36, 1)?, &Profile::new([41_250, 12_900, 18_500, 95], [0, 0])?, Day::MIN)?;
    ///
    /// let mut hits = Hits::with_capacity(table.capacity());
    /// for (kilos, found) in [(41_000, 1), (45_000, 0)] {
    ///     let query = Profile::new([kilos, 12_900, 18_500, 95], [0, 0])?;
    ///     table.range_into(&query, 500, None, &mut hits)?;
    ///     assert_eq!(hits.len(), found);
    /// }
    /// # Ok::<(), vpindex::Error>(())
    /// ```
    ///
    /// # Errors
    ///
    /// [`Refusal::NoRoom`] if more is found than there is room for, and then there are no hits; room for
    /// [`Table::capacity`] is always enough.
    pub fn range_into(
        &self,
        query: &Profile,
        radius: u32,
        first_day: Option<Day>,
        hits: &mut Hits<impl DerefMut<Target = [Hit]>>,
    ) -> Result<(), Refusal> {
        hits.fill(|result| ffi::range(&self.rows, result, query.raw(), radius, Day::raw_first(first_day)))
    }

    /// Of the items weighed on the first day or later the `count` nearest to the query, or all where there are fewer;
    /// `None` is any day. Of items at the same distance the lower tag goes first.
    ///
    /// # Errors
    ///
    /// [`Refusal::NoCount`] where `count` is 0.
    #[cfg(feature = "alloc")]
    pub fn nearest(&self, query: &Profile, count: u32, first_day: Option<Day>) -> Result<Hits, Refusal> {
        let mut hits = Hits::with_capacity(self.len().min(count as usize));
        self.nearest_into(query, count, first_day, &mut hits)?;
        Ok(hits.trimmed())
    }

    /// As [`Table::nearest`], in place of what was found before, and with nothing allocated.
    ///
    /// # Errors
    ///
    /// [`Refusal::NoCount`] where `count` is 0; [`Refusal::NoRoom`] if more is found than there is room for. Then there
    /// are no hits; room for `count` is always enough.
    pub fn nearest_into(
        &self,
        query: &Profile,
        count: u32,
        first_day: Option<Day>,
        hits: &mut Hits<impl DerefMut<Target = [Hit]>>,
    ) -> Result<(), Refusal> {
        hits.fill(|result| ffi::nearest(&self.rows, result, query.raw(), count, Day::raw_first(first_day)))
    }

    /// For each of 1 to 16 queries what [`Table::range`] gives; a slot that several of them meet is met once.
    ///
    /// ```
    /// use vpindex::{Day, Metric, Order, Profile, RangeQuery, Table, Tag};
    ///
    /// let mut table = Table::new(Order::new(4)?, Metric::SumOfDifferences);
    /// table.add(Tag::new(36, 1)?, &Profile::new([41_250, 12_900, 18_500, 95], [0, 0])?, Day::new(210)?)?;
    /// table.add(Tag::new(36, 2)?, &Profile::new([39_800, 12_700, 18_100, 90], [0, 0])?, Day::new(305)?)?;
    ///
    /// let profile = Profile::new([41_000, 12_900, 18_400, 95], [0, 0])?;
    /// let near = RangeQuery { profile, radius: 500, first_day: None };
    /// let later = RangeQuery { radius: 5_000, first_day: Some(Day::new(300)?), ..near };
    /// let batch = table.range_batch(&[near, later])?;
    /// assert_eq!((batch[0][0].tag(), batch[1][0].tag()), (Tag::new(36, 1)?, Tag::new(36, 2)?));
    /// assert_eq!((batch[0].len(), batch[1].len(), batch.distances()), (1, 1, 2));
    /// # Ok::<(), vpindex::Error>(())
    /// ```
    ///
    /// # Errors
    ///
    /// [`Refusal::BadBatch`] for no query or more than 16; no other refusal can come back.
    #[cfg(feature = "alloc")]
    pub fn range_batch(&self, queries: &[RangeQuery]) -> Result<Batch, Refusal> {
        let mut batch = Batch::with_capacity(self.len() * queries.len().min(ffi::MAX_QUERIES));
        self.range_batch_into(queries, &mut batch)?;
        Ok(batch.trimmed())
    }

    /// As [`Table::range_batch`], in place of what was found before, and with nothing allocated.
    ///
    /// # Errors
    ///
    /// [`Refusal::BadBatch`] for no query or more than 16; [`Refusal::NoRoom`] if a query finds more than its part of the
    /// room holds. Then there are no hits; room for [`Table::capacity`] times the number of queries is always enough.
    pub fn range_batch_into(
        &self,
        queries: &[RangeQuery],
        batch: &mut Batch<impl DerefMut<Target = [Hit]>>,
    ) -> Result<(), Refusal> {
        let mut rows = [[0; ffi::ROW_WORDS]; ffi::MAX_QUERIES];
        // more than there are rows for are refused as none are
        let asked = if queries.len() <= rows.len() { queries } else { &[] };
        for (row, query) in rows.iter_mut().zip(asked) {
            *row = query.raw();
        }
        batch.fill(asked.len(), |result| ffi::range_batch(&self.rows, result, &rows[..asked.len()]))
    }
}
