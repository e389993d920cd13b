//! The items of a table, one after the other.

use core::iter::FusedIterator;
use core::slice;

use crate::{Day, Profile, Tag, ffi};

// What a slot's row has where, and the mark of a live one.
pub(crate) const MARK: usize = 11;
pub(crate) const LIVE: u32 = 0;

/// An item of a table.
#[derive(Clone, Copy, Debug, PartialEq, Eq, Hash)]
pub struct Item {
    /// What it is known by.
    pub tag: Tag,
    /// What distances are worked out from.
    pub profile: Profile,
    /// On which it was weighed.
    pub day: Day,
}

impl Item {
    pub(crate) fn of(&[t0, t1, a, b, c, d, e, f, g, h, _, _, day]: &ffi::Row) -> Item {
        let word = |low: u32, high: u32| (high as u64) << 32 | low as u64;
        let profile = ffi::Profile { measures: [a, b, c, d].map(|m| m as i32), code: [word(e, f), word(g, h)] };
        Item { tag: Tag::as_stored(word(t0, t1)), profile: Profile::as_stored(profile), day: Day::as_stored(day) }
    }
}

/// The items of a table, as [`Table::iter`](crate::Table::iter) gives them.
#[derive(Clone, Debug)]
pub struct Items<'a> {
    // the buckets that were not begun yet: their size rows and all their slots
    sizes: slice::Iter<'a, ffi::Row>,
    slots: &'a [ffi::Row],
    // how many slots the next of them has room for
    room: usize,
    // the built slots of the one that was begun
    built: slice::Iter<'a, ffi::Row>,
    left: usize,
}

impl<'a> Items<'a> {
    // Bucket k is 2^k slots, of which the first so many are built as its size row says; the rest are no items.
    pub(crate) fn new(sizes: &'a [ffi::Row], slots: &'a [ffi::Row]) -> Items<'a> {
        let left = sizes.iter().map(|size| size[1] as usize).sum();
        Items { sizes: sizes.iter(), slots, room: 1, built: [].iter(), left }
    }

    fn begin(&mut self) -> Option<()> {
        let size = self.sizes.next()?;
        let (bucket, rest) = self.slots.split_at(self.room);
        (self.slots, self.room) = (rest, 2 * self.room);
        self.built = bucket[..size[0] as usize].iter();
        Some(())
    }
}

impl Iterator for Items<'_> {
    type Item = Item;

    fn next(&mut self) -> Option<Item> {
        loop {
            if let Some(slot) = self.built.find(|slot| slot[MARK] == LIVE) {
                self.left -= 1;
                return Some(Item::of(slot));
            }
            self.begin()?;
        }
    }

    fn size_hint(&self) -> (usize, Option<usize>) {
        (self.left, Some(self.left))
    }
}

impl ExactSizeIterator for Items<'_> {}

impl FusedIterator for Items<'_> {}
