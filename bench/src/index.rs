//! What is measured: an index, by the archive's calls or in plain Rust.

use std::hint::black_box;

use vpindex::ffi;

use crate::items::{DAY, Profile, Query};

/// A distance and a tag.
pub type Hit = (u32, u64);

/// What both kinds weigh by: every measure as it is. The calls read the weights from the table, so the plain programs
/// are kept from knowing them beforehand.
pub fn weights() -> [u32; 4] {
    black_box([1; 4])
}

/// The first day of every query, which leaves no item out. The plain programs are kept from knowing it too.
pub fn first_day() -> u16 {
    black_box(ffi::ANY_DAY)
}

/// The calls, each of which must be accepted. Changes and searches give the number of distances.
pub trait Index {
    fn new(order: u32, metric: u32) -> Self;
    fn add(&mut self, tag: u64, profile: &Profile) -> u32;
    fn remove(&mut self, tag: u64) -> u32;
    fn look_up(&mut self, tag: u64) -> Profile;
    /// `room` is the length of the result area, where there is one.
    fn range(&mut self, query: &Query, radius: u32, room: usize) -> u32;
    fn nearest(&mut self, query: &Query, k: usize) -> u32;
    /// Of the last search.
    fn hits(&self) -> Vec<Hit>;
    fn write(&mut self);
    /// What was written last.
    fn image(&self) -> &[u8];
    fn load(&mut self, image: &[u8]);
}

/// The archive's calls on areas of the lengths that the order needs.
pub struct Archive {
    table: Vec<ffi::Row>,
    work: Vec<ffi::Row>,
    result: Vec<ffi::Entry>,
    found: usize,
    image: Vec<u8>,
    length: usize,
}

fn raw(profile: &Profile) -> ffi::Profile {
    ffi::Profile { measures: profile.measures, code: profile.code }
}

/// A query of a batch.
pub fn batch_row(query: &Query, radius: u32) -> ffi::Row {
    let Profile { measures: [a, b, c, d], code: [e, f] } = query.profile;
    let halves = |word: u64| (word as u32, (word >> 32) as u32);
    let ((e, g), (f, h)) = (halves(e), halves(f));
    [0, 0, a as u32, b as u32, c as u32, d as u32, e, g, f, h, radius, 0, query.first_day as u32]
}

impl Archive {
    /// A batch, each of whose parts has `room` entries: how many entries it found in all, and the slots that it met.
    pub fn range_batch(&mut self, queries: &[ffi::Row], room: usize) -> [u32; 2] {
        let reply = ffi::range_batch(&self.table, &mut self.result[..room * queries.len()], queries);
        assert_eq!(reply.refusal, 0);
        [reply.found.iter().sum(), reply.distances]
    }

    /// Its table.
    pub fn table(&self) -> &[ffi::Row] {
        &self.table
    }

    fn searched(&mut self, reply: ffi::Searched) -> u32 {
        assert_eq!(reply.refusal, 0);
        self.found = reply.found as usize;
        reply.distances
    }
}

impl Index for Archive {
    fn new(order: u32, metric: u32) -> Archive {
        let n = 1 << order;
        let mut table = vec![[0; ffi::ROW_WORDS]; order as usize + 1 + 2 * n];
        assert_eq!(ffi::fresh(&mut table, order, metric, ffi::Weights { each: weights() }), 0);
        let image = vec![0; 8 + 4 * (order as usize + 1) + 50 * (2 * n - 1)];
        let result = vec![[0; 2]; ffi::MAX_QUERIES * n];
        Archive { table, work: vec![[0; ffi::ROW_WORDS]; n], result, found: 0, image, length: 0 }
    }

    fn add(&mut self, tag: u64, profile: &Profile) -> u32 {
        let reply = ffi::add(&mut self.table, &mut self.work, tag, raw(profile), DAY);
        assert_eq!(reply.refusal, 0);
        reply.distances
    }

    fn remove(&mut self, tag: u64) -> u32 {
        let reply = ffi::remove(&mut self.table, &mut self.work, tag);
        assert_eq!(reply.refusal, 0);
        reply.distances
    }

    fn look_up(&mut self, tag: u64) -> Profile {
        let reply = ffi::look_up(&self.table, tag);
        assert_eq!(reply.refusal, 0);
        Profile { measures: reply.profile.measures, code: reply.profile.code }
    }

    fn range(&mut self, query: &Query, radius: u32, room: usize) -> u32 {
        let result = &mut self.result[..room];
        let reply = ffi::range(&self.table, result, raw(&query.profile), radius, query.first_day);
        self.searched(reply)
    }

    fn nearest(&mut self, query: &Query, k: usize) -> u32 {
        let result = &mut self.result[..k];
        let reply = ffi::nearest(&self.table, result, raw(&query.profile), k as u32, query.first_day);
        self.searched(reply)
    }

    fn hits(&self) -> Vec<Hit> {
        self.result[..self.found].iter().map(|entry| (entry[1] as u32, entry[0])).collect()
    }

    fn write(&mut self) {
        let reply = ffi::write(&self.table, &mut self.image);
        assert_eq!(reply.refusal, 0);
        self.length = reply.length as usize;
    }

    fn image(&self) -> &[u8] {
        &self.image[..self.length]
    }

    fn load(&mut self, image: &[u8]) {
        assert_eq!(ffi::load(&mut self.table, image).refusal, 0);
    }
}
