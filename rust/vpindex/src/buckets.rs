//! The buckets of a table, with their trees slot by slot.

use crate::ffi;
use crate::items::{Item, LIVE, MARK};

// What a slot's row has behind its item's profile.
const THRESHOLD: usize = 10;

/// A bucket of a table.
#[derive(Clone, Copy, Debug)]
pub struct Bucket<'a> {
    number: u32,
    live: u32,
    built: &'a [ffi::Row],
}

/// A slot of a bucket's tree.
#[derive(Clone, Copy, Debug, PartialEq, Eq, Hash)]
pub struct Slot {
    /// What stands in it, which guides searches also once it was removed.
    pub item: Item,
    /// The largest distance of the left half below it, 0 without one.
    pub threshold: u32,
    /// Whether its item was not removed.
    pub is_live: bool,
}

impl Bucket<'_> {
    /// Its number: bucket k has room for 2^k slots.
    pub fn number(&self) -> u32 {
        self.number
    }

    /// How many slots it has room for.
    pub fn room(&self) -> usize {
        1 << self.number
    }

    /// How many slots were filled when it was last built, those whose item was removed since among them; 0 if it is
    /// empty.
    pub fn built(&self) -> usize {
        self.built.len()
    }

    /// Of these the live ones.
    pub fn live(&self) -> usize {
        self.live as usize
    }

    /// The slots of its tree. Of a tree of n slots the first is the vantage point, n / 2 slots after it the left half, the
    /// others the right half, each a tree of its own.
    ///
    /// ```
    /// use vpindex::{Day, Metric, Order, Profile, Table, Tag};
    ///
    /// let mut table = Table::new(Order::new(1)?, Metric::SumOfDifferences);
    /// for (national, kilos) in [(1, 41_250), (2, 39_800)] {
    ///     table.add(Tag::new(36, national)?, &Profile::new([kilos, 0, 0, 0], [0, 0])?, Day::MIN)?;
    /// }
    /// table.remove(Tag::new(36, 1)?)?;
    /// let bucket = table.buckets().last().expect("bucket 1");
    /// assert_eq!((bucket.number(), bucket.built(), bucket.live()), (1, 2, 1));
    /// let slots: Vec<_> = bucket.slots().map(|slot| (slot.item.tag.national(), slot.threshold, slot.is_live)).collect();
    /// assert_eq!(slots, [(1, 1_450, false), (2, 0, true)]);
    /// # Ok::<(), vpindex::Error>(())
    /// ```
    pub fn slots(&self) -> impl ExactSizeIterator<Item = Slot> {
        self.built.iter().map(|row| Slot { item: Item::of(row), threshold: row[THRESHOLD], is_live: row[MARK] == LIVE })
    }
}

// Row 0 is the header's; then one for the sizes of each bucket; then the slots of bucket k from 1 + T + 2^k on.
pub(crate) fn all(rows: &[ffi::Row], order: u32) -> impl ExactSizeIterator<Item = Bucket<'_>> {
    (0..order + 1).map(move |number| {
        let [built, live, ..] = rows[1 + number as usize];
        let first = 1 + order as usize + (1 << number);
        Bucket { number, live, built: &rows[first..first + built as usize] }
    })
}
