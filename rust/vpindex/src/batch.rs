//! What a batch of queries found.

#[cfg(feature = "alloc")]
use alloc::vec::Vec;
use core::fmt;
use core::iter::FusedIterator;
use core::ops::{Deref, DerefMut, Index};
use core::slice;

use crate::ffi::{self, MAX_QUERIES};
use crate::{Entry, Hit, Refusal};

/// What a batch found: the hits of each query, in the order of the queries.
///
/// [`Table::range_batch`](crate::Table::range_batch) returns one. It is also what a caller lends to
/// [`Table::range_batch_into`](crate::Table::range_batch_into), again and again, where a search must not allocate.
/// `Batch` alone owns its room; that of [`Batch::lent`] is in entries of the caller.
#[derive(Clone)]
pub struct Batch<#[cfg(feature = "alloc")] R = Vec<Hit>, #[cfg(not(feature = "alloc"))] R> {
    room: R,
    // where the hits of each query begin, and how many they are
    lists: [(usize, usize); MAX_QUERIES],
    queries: usize,
    distances: u32,
}

#[cfg(feature = "alloc")]
impl Batch {
    /// Nothing found yet, with room for so many hits in all. The queries of a batch have equal parts of it, and it never
    /// grows: a batch of which one query finds more than its part holds is refused.
    pub fn with_capacity(hits: usize) -> Batch {
        Batch::of(Hit::room(hits))
    }

    // what is kept for long has no more room than it needs
    pub(crate) fn trimmed(mut self) -> Batch {
        let mut end = 0;
        for (start, found) in &mut self.lists[..self.queries] {
            self.room.copy_within(*start..*start + *found, end);
            *start = end;
            end += *found;
        }
        self.room.truncate(end);
        self.room.shrink_to_fit();
        self
    }
}

/// Nothing found, and no room.
#[cfg(feature = "alloc")]
impl Default for Batch {
    fn default() -> Batch {
        Batch::with_capacity(0)
    }
}

impl<'a> Batch<&'a mut [Hit]> {
    /// Nothing found yet, with room for as many hits in all as there are entries, of any content. The queries of a
    /// batch have equal parts of it.
    pub fn lent(entries: &'a mut [Entry]) -> Batch<&'a mut [Hit]> {
        Batch::of(Hit::lent(entries))
    }
}

impl<R: Deref<Target = [Hit]>> Batch<R> {
    fn of(room: R) -> Batch<R> {
        Batch { room, lists: [(0, 0); MAX_QUERIES], queries: 0, distances: 0 }
    }

    /// For how many hits there is room in all.
    pub fn capacity(&self) -> usize {
        self.room.len()
    }

    /// How many queries there were.
    pub fn len(&self) -> usize {
        self.queries
    }

    /// Whether there were none, which is so before the first batch and after one that was refused.
    pub fn is_empty(&self) -> bool {
        self.queries == 0
    }

    /// The hits of each query, in the order of the queries.
    pub fn iter(&self) -> BatchHits<'_> {
        BatchHits { room: &self.room, lists: self.lists[..self.queries].iter() }
    }

    /// How many slots the batch met: each once, however many of its queries met it.
    pub fn distances(&self) -> u32 {
        self.distances
    }

    // Each of so many queries has its part of the room, rounded down. A refused batch is none.
    pub(crate) fn fill(
        &mut self,
        queries: usize,
        search: impl FnOnce(&mut [Entry]) -> ffi::Ranges,
    ) -> Result<(), Refusal>
    where
        R: DerefMut,
    {
        (self.queries, self.distances) = (0, 0);
        let reply = search(Hit::entries(&mut self.room));
        Refusal::check(reply.refusal)?;
        (self.queries, self.distances) = (queries, reply.distances);
        let part = self.room.len() / queries;
        for (j, list) in self.lists[..queries].iter_mut().enumerate() {
            *list = (j * part, reply.found[j] as usize);
        }
        Ok(())
    }
}

/// The hits of each query of a batch, as [`Batch::iter`] gives them.
#[derive(Clone)]
pub struct BatchHits<'a> {
    room: &'a [Hit],
    lists: slice::Iter<'a, (usize, usize)>,
}

impl<'a> Iterator for BatchHits<'a> {
    type Item = &'a [Hit];

    fn next(&mut self) -> Option<&'a [Hit]> {
        self.lists.next().map(|&(start, found)| &self.room[start..][..found])
    }

    fn size_hint(&self) -> (usize, Option<usize>) {
        self.lists.size_hint()
    }
}

impl fmt::Debug for BatchHits<'_> {
    fn fmt(&self, f: &mut fmt::Formatter<'_>) -> fmt::Result {
        f.debug_list().entries(self.clone()).finish()
    }
}

impl ExactSizeIterator for BatchHits<'_> {}

impl FusedIterator for BatchHits<'_> {}

impl<'a, R: Deref<Target = [Hit]>> IntoIterator for &'a Batch<R> {
    type Item = &'a [Hit];
    type IntoIter = BatchHits<'a>;

    fn into_iter(self) -> BatchHits<'a> {
        self.iter()
    }
}

/// The hits of one query, the first being query 0.
impl<R: Deref<Target = [Hit]>> Index<usize> for Batch<R> {
    type Output = [Hit];

    fn index(&self, query: usize) -> &[Hit] {
        let (start, found) = self.lists[..self.queries][query];
        &self.room[start..][..found]
    }
}

/// The hits and the number of distances; how much room there is does not count.
impl<R: Deref<Target = [Hit]>> PartialEq for Batch<R> {
    fn eq(&self, other: &Batch<R>) -> bool {
        self.iter().eq(other.iter()) && self.distances == other.distances
    }
}

impl<R: Deref<Target = [Hit]>> Eq for Batch<R> {}

impl<R: Deref<Target = [Hit]>> fmt::Debug for Batch<R> {
    fn fmt(&self, f: &mut fmt::Formatter<'_>) -> fmt::Result {
        f.debug_struct("Batch").field("hits", &self.iter()).field("distances", &self.distances).finish()
    }
}
