//! What a search found.

#[cfg(feature = "alloc")]
use alloc::{vec, vec::Vec};
use core::cmp::Ordering;
use core::fmt;
use core::ops::{Deref, DerefMut};
use core::slice;

use crate::{Entry, Refusal, Tag, ffi};

/// An item that a search found.
#[derive(Clone, Copy, PartialEq, Eq, Hash)]
#[repr(transparent)]
pub struct Hit(Entry);

impl Hit {
    /// The item's tag.
    pub fn tag(&self) -> Tag {
        Tag::as_stored(self.0[0])
    }

    /// Its distance from the query.
    pub fn distance(&self) -> u32 {
        self.0[1] as u32
    }

    // for so many; they are none yet
    #[cfg(feature = "alloc")]
    pub(crate) fn room(hits: usize) -> Vec<Hit> {
        vec![Hit([0; 2]); hits]
    }

    pub(crate) fn entries(hits: &mut [Hit]) -> &mut [Entry] {
        // SAFETY: a hit is an entry and nothing else (`repr(transparent)`), and every entry is a hit.
        unsafe { &mut *(hits as *mut [Hit] as *mut [Entry]) }
    }

    // room in entries that are lent, of any content; what no search put there is never shown
    pub(crate) fn lent(entries: &mut [Entry]) -> &mut [Hit] {
        // SAFETY: as above.
        unsafe { &mut *(entries as *mut [Entry] as *mut [Hit]) }
    }
}

/// As hits stand in a result: by distance, then tag.
impl Ord for Hit {
    fn cmp(&self, other: &Hit) -> Ordering {
        (self.distance(), self.tag()).cmp(&(other.distance(), other.tag()))
    }
}

impl PartialOrd for Hit {
    fn partial_cmp(&self, other: &Hit) -> Option<Ordering> {
        Some(self.cmp(other))
    }
}

/// As `Hit(036000000000101, 350)`.
impl fmt::Debug for Hit {
    fn fmt(&self, f: &mut fmt::Formatter<'_>) -> fmt::Result {
        write!(f, "Hit({}, {})", self.tag(), self.distance())
    }
}

/// What a search found: a slice of hits by distance, then tag.
///
/// [`Table::range`](crate::Table::range) and [`Table::nearest`](crate::Table::nearest) return one. It is also what a
/// caller lends to [`Table::range_into`](crate::Table::range_into) and
/// [`Table::nearest_into`](crate::Table::nearest_into), again and again, where a search must not allocate. `Hits` alone
/// own their room; those of [`Hits::lent`] are in entries of the caller.
#[derive(Clone)]
pub struct Hits<#[cfg(feature = "alloc")] R = Vec<Hit>, #[cfg(not(feature = "alloc"))] R> {
    // of any content past the hits that were found
    room: R,
    found: usize,
    distances: u32,
}

#[cfg(feature = "alloc")]
impl Hits {
    /// Nothing found yet, with room for so many hits. It never grows: a search that finds more is refused.
    pub fn with_capacity(hits: usize) -> Hits {
        Hits { room: Hit::room(hits), found: 0, distances: 0 }
    }

    // what is kept for long has no more room than it needs
    pub(crate) fn trimmed(mut self) -> Hits {
        self.room.truncate(self.found);
        self.room.shrink_to_fit();
        self
    }
}

/// Nothing found, and no room.
#[cfg(feature = "alloc")]
impl Default for Hits {
    fn default() -> Hits {
        Hits::with_capacity(0)
    }
}

impl<'a> Hits<&'a mut [Hit]> {
    /// Nothing found yet, with room for as many hits as there are entries, of any content.
    pub fn lent(entries: &'a mut [Entry]) -> Hits<&'a mut [Hit]> {
        Hits { room: Hit::lent(entries), found: 0, distances: 0 }
    }
}

impl<R: Deref<Target = [Hit]>> Hits<R> {
    /// For how many hits there is room.
    pub fn capacity(&self) -> usize {
        self.room.len()
    }

    /// How many slots the search met by the rule, each of which counts one distance; those worked out in fact are 1.0 to
    /// 1.4 times as many, as up to seven are at once.
    pub fn distances(&self) -> u32 {
        self.distances
    }

    // A refused search's reply is zeros but for the number, so nothing is found then.
    pub(crate) fn fill(&mut self, search: impl FnOnce(&mut [Entry]) -> ffi::Searched) -> Result<(), Refusal>
    where
        R: DerefMut,
    {
        let reply = search(Hit::entries(&mut self.room));
        (self.found, self.distances) = (reply.found as usize, reply.distances);
        Refusal::check(reply.refusal)
    }
}

impl<R: Deref<Target = [Hit]>> Deref for Hits<R> {
    type Target = [Hit];

    fn deref(&self) -> &[Hit] {
        &self.room[..self.found]
    }
}

/// The hits and the number of distances; how much room there is does not count.
impl<R: Deref<Target = [Hit]>> PartialEq for Hits<R> {
    fn eq(&self, other: &Hits<R>) -> bool {
        self[..] == other[..] && self.distances == other.distances
    }
}

impl<R: Deref<Target = [Hit]>> Eq for Hits<R> {}

impl<R: Deref<Target = [Hit]>> fmt::Debug for Hits<R> {
    fn fmt(&self, f: &mut fmt::Formatter<'_>) -> fmt::Result {
        f.debug_struct("Hits").field("hits", &&self[..]).field("distances", &self.distances).finish()
    }
}

impl<'a, R: Deref<Target = [Hit]>> IntoIterator for &'a Hits<R> {
    type Item = &'a Hit;
    type IntoIter = slice::Iter<'a, Hit>;

    fn into_iter(self) -> Self::IntoIter {
        self.iter()
    }
}

#[cfg(feature = "alloc")]
impl IntoIterator for Hits {
    type Item = Hit;
    type IntoIter = vec::IntoIter<Hit>;

    fn into_iter(mut self) -> Self::IntoIter {
        self.room.truncate(self.found);
        self.room.into_iter()
    }
}
