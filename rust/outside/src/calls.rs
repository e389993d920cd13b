//! One call, by the reference and by the archive.

use reference::calls as plain;
use reference::item::{Entry, Item, Profile, Row, Space};
use reference::list::ListRead;
use reference::lots::Summary;
use reference::refusal::Unloaded;
use vpindex::ffi;

use crate::random::Random;

/// The areas that a call is lent.
#[derive(Clone, Debug, Default, PartialEq, Eq)]
pub struct Areas {
    /// Rows of the table.
    pub table: Vec<Row>,
    /// Rows of the work area, or the queries of a batch.
    pub work: Vec<Row>,
    /// Entries of the result area.
    pub result: Vec<Entry>,
    /// Bytes: an image, written by write and read by load, a herd list, or the states.
    pub bytes: Vec<u8>,
    /// A list of tags, which dues reads.
    pub tags: Vec<u64>,
    /// Numbers of the dues area.
    pub dues: Vec<u32>,
    /// Radii, which a drafting reads.
    pub radii: Vec<u32>,
    /// Entries of a drafting's work area.
    pub draft: Vec<Entry>,
    /// Entries of its summary.
    pub summary: Vec<Summary>,
    /// Entries of its listing.
    pub listing: Vec<Entry>,
}

/// The same as slices.
pub struct Lent<'a> {
    table: &'a mut [Row],
    work: &'a mut [Row],
    result: &'a mut [Entry],
    bytes: &'a mut [u8],
    tags: &'a [u64],
    dues: &'a mut [u32],
    radii: &'a [u32],
    draft: &'a mut [Entry],
    summary: &'a mut [Summary],
    listing: &'a mut [Entry],
}

impl Areas {
    /// All of them, lent.
    pub fn lent(&mut self) -> Lent<'_> {
        let Areas { table, work, result, bytes, tags, dues, radii, draft, summary, listing } = self;
        Lent { table, work, result, bytes, tags, dues, radii, draft, summary, listing }
    }
}

/// A call with its arguments, the areas aside.
#[allow(missing_docs)]
#[derive(Clone, Copy, Debug, PartialEq, Eq)]
pub enum Call {
    Fresh { order: u32, space: Space },
    Load,
    Add { tag: u64, profile: Profile, day: u16 },
    Remove { tag: u64 },
    LookUp { tag: u64 },
    Range { query: Profile, radius: u32, first_day: u16 },
    Nearest { query: Profile, k: u32, first_day: u16 },
    RangeBatch,
    Write,
    ReadList { day: u16 },
    Save { name: u32 },
    Restore { name: u32 },
    Dues,
    Lots { chosen: u32 },
}

/// What a call returned; fields that it has not are zero.
#[allow(missing_docs)]
#[derive(Clone, Copy, Debug, Default, PartialEq, Eq)]
pub struct Reply {
    pub refusal: u32,
    pub slot: u32,
    pub bucket: u32,
    pub found: u32,
    pub each_found: [u16; 16],
    pub length: u32,
    pub line: u32,
    pub added: u32,
    pub distances: u32,
    pub profile: Profile,
    pub day: u32,
    pub total: u64,
}

fn accepted<T>(result: Result<T, u32>, reply: impl Fn(T) -> Reply) -> Reply {
    match result {
        Ok(value) => reply(value),
        Err(refusal) => Reply { refusal, ..Reply::default() },
    }
}

fn searched((found, distances): plain::Searched) -> Reply {
    Reply { found, distances, ..Reply::default() }
}

fn loaded(result: Result<(), Unloaded>) -> Reply {
    let Unloaded { refusal, slot } = result.err().unwrap_or(Unloaded { refusal: 0, slot: 0 });
    Reply { refusal, slot, ..Reply::default() }
}

/// The call by the reference.
pub fn by_reference(call: &Call, areas: &mut Areas) -> Reply {
    let Areas { table, work, result, bytes, tags, dues, radii, draft, summary, listing } = areas;
    let nothing = |()| Reply::default();
    match *call {
        Call::Fresh { order, space } => accepted(plain::fresh(table, order, space), nothing),
        Call::Load => loaded(plain::load(table, bytes)),
        Call::Add { tag, profile, day } => {
            let added = |(bucket, distances)| Reply { bucket, distances, ..Reply::default() };
            accepted(plain::add(table, work, tag, profile, day), added)
        }
        Call::Remove { tag } => {
            accepted(plain::remove(table, work, tag), |distances| Reply { distances, ..Reply::default() })
        }
        Call::LookUp { tag } => {
            let found = |(bucket, Item { profile, day, .. })| Reply { bucket, profile, day, ..Reply::default() };
            accepted(plain::look_up(table, tag), found)
        }
        Call::Range { query, radius, first_day } => {
            accepted(plain::range(table, result, query, radius, first_day), searched)
        }
        Call::Nearest { query, k, first_day } => accepted(plain::nearest(table, result, query, k, first_day), searched),
        Call::RangeBatch => {
            accepted(plain::range_batch(table, result, work), |(found, distances)| ranges(found, distances))
        }
        Call::Write => accepted(plain::write(table, bytes), |length| Reply { length, ..Reply::default() }),
        Call::ReadList { day } => {
            let ListRead { refusal, line, added, distances } = plain::read_list(table, work, bytes, day);
            Reply { refusal, line, added, distances, ..Reply::default() }
        }
        Call::Save { name } => accepted(plain::save(table, bytes, name), |length| Reply { length, ..Reply::default() }),
        Call::Restore { name } => loaded(plain::restore(table, bytes, name)),
        Call::Dues => accepted(plain::dues(table, tags, dues), |total| Reply { total, ..Reply::default() }),
        Call::Lots { chosen } => accepted(plain::lots(table, draft, radii, summary, listing, chosen), nothing),
    }
}

fn raw(profile: Profile) -> ffi::Profile {
    ffi::Profile { measures: profile.measures, code: profile.code }
}

fn looked_up(reply: ffi::LookedUp) -> Reply {
    let profile = Profile { measures: reply.profile.measures, code: reply.profile.code };
    Reply { refusal: reply.refusal, bucket: reply.bucket, profile, day: reply.day, ..Reply::default() }
}

fn hits(reply: ffi::Searched) -> Reply {
    Reply { refusal: reply.refusal, found: reply.found, distances: reply.distances, ..Reply::default() }
}

fn begun(ffi::Loaded { refusal, slot }: ffi::Loaded) -> Reply {
    Reply { refusal, slot, ..Reply::default() }
}

// the numbers are at most that of the slots of a table
fn ranges(found: [u32; 16], distances: u32) -> Reply {
    Reply { each_found: found.map(|n| n.try_into().expect("few")), distances, ..Reply::default() }
}

// With a frame of its own, which no other call's stack is measured with.
#[inline(never)]
fn batch_by_archive(table: &[Row], result: &mut [Entry], queries: &[Row]) -> Reply {
    let ffi::Ranges { refusal, distances, found } = ffi::range_batch(table, result, queries);
    Reply { refusal, ..ranges(found, distances) }
}

/// The call by the archive, on areas as they are.
pub fn by_archive(call: &Call, areas: Lent<'_>) -> Reply {
    let Lent { table, work, result, bytes, tags, dues, radii, draft, summary, listing } = areas;
    match *call {
        Call::Fresh { order, space } => {
            let weights = ffi::Weights { each: space.weights };
            Reply { refusal: ffi::fresh(table, order, space.metric, weights), ..Reply::default() }
        }
        Call::Load => begun(ffi::load(table, bytes)),
        Call::Add { tag, profile, day } => {
            let ffi::Added { refusal, bucket, distances } = ffi::add(table, work, tag, raw(profile), day);
            Reply { refusal, bucket, distances, ..Reply::default() }
        }
        Call::Remove { tag } => {
            let ffi::Removed { refusal, distances } = ffi::remove(table, work, tag);
            Reply { refusal, distances, ..Reply::default() }
        }
        Call::LookUp { tag } => looked_up(ffi::look_up(table, tag)),
        Call::Range { query, radius, first_day } => hits(ffi::range(table, result, raw(query), radius, first_day)),
        Call::Nearest { query, k, first_day } => hits(ffi::nearest(table, result, raw(query), k, first_day)),
        Call::RangeBatch => batch_by_archive(table, result, work),
        Call::Write => {
            let ffi::Written { refusal, length } = ffi::write(table, bytes);
            Reply { refusal, length, ..Reply::default() }
        }
        Call::ReadList { day } => {
            let ffi::ListRead { refusal, line, added, distances } = ffi::read_list(table, work, bytes, day);
            Reply { refusal, line, added, distances, ..Reply::default() }
        }
        Call::Save { name } => {
            let ffi::Written { refusal, length } = ffi::save(table, bytes, name);
            Reply { refusal, length, ..Reply::default() }
        }
        Call::Restore { name } => begun(ffi::restore(table, bytes, name)),
        Call::Dues => {
            let ffi::Dues { refusal, total } = ffi::dues(table, tags, dues);
            Reply { refusal, total, ..Reply::default() }
        }
        Call::Lots { chosen } => {
            Reply { refusal: ffi::lots(table, draft, radii, summary, listing, chosen), ..Reply::default() }
        }
    }
}

// An area with words of random content before and after it, so that it is aligned as a word is and no more.
struct Guarded<W> {
    before: Vec<W>,
    words: Vec<W>,
    after: Vec<W>,
}

impl<W: Copy + PartialEq + std::fmt::Debug> Guarded<W> {
    fn new(content: &[W], random: &mut Random, any: impl Fn(u64) -> W) -> Guarded<W> {
        let (n, m) = (1 + random.below(16), 1 + random.below(32));
        let before = random.fill(n, |random| any(random.word()));
        let after = random.fill(m, |random| any(random.word()));
        Guarded { words: [&before, content, &after].concat(), before, after }
    }

    fn lent(&mut self) -> &mut [W] {
        let end = self.words.len() - self.after.len();
        &mut self.words[self.before.len()..end]
    }

    // the content again, once the guards were seen to be as they were
    fn back(mut self) -> Vec<W> {
        assert!(self.words.starts_with(&self.before), "words before the area were changed");
        assert!(self.words.ends_with(&self.after), "words after the area were changed");
        self.lent().to_vec()
    }
}

/// The call by the archive, every area with guards around it.
pub fn by_archive_guarded(call: &Call, areas: &mut Areas, random: &mut Random) -> Reply {
    let mut table = Guarded::new(areas.table.as_flattened(), random, |word| word as u32);
    let mut work = Guarded::new(areas.work.as_flattened(), random, |word| word as u32);
    let mut result = Guarded::new(areas.result.as_flattened(), random, |word| word);
    let mut bytes = Guarded::new(&areas.bytes, random, |word| word as u8);
    let mut tags = Guarded::new(&areas.tags, random, |word| word);
    let mut dues = Guarded::new(&areas.dues, random, |word| word as u32);
    let mut radii = Guarded::new(&areas.radii, random, |word| word as u32);
    let mut draft = Guarded::new(areas.draft.as_flattened(), random, |word| word);
    let mut summary = Guarded::new(areas.summary.as_flattened(), random, |word| word as u32);
    let mut listing = Guarded::new(areas.listing.as_flattened(), random, |word| word);
    let lent = Lent {
        table: table.lent().as_chunks_mut().0,
        work: work.lent().as_chunks_mut().0,
        result: result.lent().as_chunks_mut().0,
        bytes: bytes.lent(),
        tags: tags.lent(),
        dues: dues.lent(),
        radii: radii.lent(),
        draft: draft.lent().as_chunks_mut().0,
        summary: summary.lent().as_chunks_mut().0,
        listing: listing.lent().as_chunks_mut().0,
    };
    let reply = by_archive(call, lent);
    *areas = Areas {
        table: table.back().as_chunks().0.to_vec(),
        work: work.back().as_chunks().0.to_vec(),
        result: result.back().as_chunks().0.to_vec(),
        bytes: bytes.back(),
        tags: tags.back(),
        dues: dues.back(),
        radii: radii.back(),
        draft: draft.back().as_chunks().0.to_vec(),
        summary: summary.back().as_chunks().0.to_vec(),
        listing: listing.back().as_chunks().0.to_vec(),
    };
    reply
}

/// The call by both. Replies and areas must be the same, and the areas' lengths those lent.
pub fn compare(call: &Call, areas: &mut Areas, random: &mut Random) -> Reply {
    let mut expected = areas.clone();
    let reply = by_reference(call, &mut expected);
    let header = areas.table.first().copied();
    let got = by_archive_guarded(call, areas, random);
    assert_eq!(got, reply, "archive, then reference: {call:?} on a table with header {header:?}");
    same("table", call, &areas.table, &expected.table);
    same("work area", call, &areas.work, &expected.work);
    same("result area", call, &areas.result, &expected.result);
    same("bytes", call, &areas.bytes, &expected.bytes);
    same("tags", call, &areas.tags, &expected.tags);
    same("dues area", call, &areas.dues, &expected.dues);
    same("radii", call, &areas.radii, &expected.radii);
    same("work area of entries", call, &areas.draft, &expected.draft);
    same("summary", call, &areas.summary, &expected.summary);
    same("listing", call, &areas.listing, &expected.listing);
    reply
}

fn same<T: PartialEq + std::fmt::Debug>(area: &str, call: &Call, got: &[T], expected: &[T]) {
    assert_eq!(got.len(), expected.len());
    if let Some(i) = (0..got.len()).find(|&i| got[i] != expected[i]) {
        panic!("{area} at {i}: archive {:?}, reference {:?} after {call:?}", got[i], expected[i]);
    }
}
