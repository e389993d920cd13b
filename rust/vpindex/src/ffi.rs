//! The calls as the archive exports them; `include/vpindex.h` says what each does and what its caller has to see to.
#![allow(missing_docs)]

/// The words of a [`Row`].
pub const ROW_WORDS: usize = 13;

/// The first day of a search that leaves no item out: the header's `VPINDEX_ANY_DAY`.
pub const ANY_DAY: u16 = 0;

/// The most queries of a batch: the header's `VPINDEX_MAX_QUERIES`.
pub const MAX_QUERIES: usize = 16;

/// The most radii of a drafting: the header's `VPINDEX_MAX_RADII`.
pub const MAX_RADII: usize = 32;

/// A row of the areas that a table is lent: the header's `vpindex_row`.
pub type Row = [u32; ROW_WORDS];

/// An entry of the area that a search is lent: the header's `vpindex_entry`.
pub type Entry = [u64; 2];

#[repr(C)]
#[derive(Clone, Copy, Debug, Default, PartialEq, Eq, Hash)]
pub struct Profile {
    pub measures: [i32; 4],
    pub code: [u64; 2],
}

#[repr(C)]
#[derive(Clone, Copy, Debug, PartialEq, Eq, Hash)]
pub struct Weights {
    pub each: [u32; 4],
}

#[repr(C)]
#[derive(Clone, Copy, Debug, PartialEq, Eq)]
pub struct Added {
    pub refusal: u32,
    pub bucket: u32,
    pub distances: u32,
}

#[repr(C)]
#[derive(Clone, Copy, Debug, PartialEq, Eq)]
pub struct Removed {
    pub refusal: u32,
    pub distances: u32,
}

#[repr(C)]
#[derive(Clone, Copy, Debug, PartialEq, Eq)]
pub struct LookedUp {
    pub refusal: u32,
    pub bucket: u32,
    pub profile: Profile,
    pub day: u32,
}

#[repr(C)]
#[derive(Clone, Copy, Debug, PartialEq, Eq)]
pub struct Searched {
    pub refusal: u32,
    pub found: u32,
    pub distances: u32,
}

#[repr(C)]
#[derive(Clone, Copy, Debug, PartialEq, Eq)]
pub struct Ranges {
    pub refusal: u32,
    pub distances: u32,
    pub found: [u32; MAX_QUERIES],
}

#[repr(C)]
#[derive(Clone, Copy, Debug, PartialEq, Eq)]
pub struct Written {
    pub refusal: u32,
    pub length: u32,
}

#[repr(C)]
#[derive(Clone, Copy, Debug, PartialEq, Eq)]
pub struct Loaded {
    pub refusal: u32,
    pub slot: u32,
}

#[repr(C)]
#[derive(Clone, Copy, Debug, PartialEq, Eq)]
pub struct ListRead {
    pub refusal: u32,
    pub line: u32,
    pub added: u32,
    pub distances: u32,
}

#[repr(C)]
#[derive(Clone, Copy, Debug, PartialEq, Eq)]
pub struct Dues {
    pub refusal: u32,
    pub total: u64,
}

/// An entry of a drafting's summary: the number of lots, and the size of the largest.
pub type Summary = [u32; 2];

mod raw {
    use super::*;

    unsafe extern "C" {
        pub fn vpindex_fresh(table: *mut Row, table_rows: usize, order: u32, metric: u32, weights: Weights) -> u32;
        pub fn vpindex_load(table: *mut Row, table_rows: usize, image: *const u8, image_bytes: usize) -> Loaded;
        pub fn vpindex_add(
            table: *mut Row,
            table_rows: usize,
            work: *mut Row,
            work_rows: usize,
            tag: u64,
            profile: Profile,
            day: u16,
        ) -> Added;
        pub fn vpindex_remove(
            table: *mut Row,
            table_rows: usize,
            work: *mut Row,
            work_rows: usize,
            tag: u64,
        ) -> Removed;
        pub fn vpindex_look_up(table: *const Row, table_rows: usize, tag: u64) -> LookedUp;
        pub fn vpindex_range(
            table: *const Row,
            table_rows: usize,
            result: *mut Entry,
            result_entries: usize,
            query: Profile,
            radius: u32,
            first_day: u16,
        ) -> Searched;
        pub fn vpindex_nearest(
            table: *const Row,
            table_rows: usize,
            result: *mut Entry,
            result_entries: usize,
            query: Profile,
            k: u32,
            first_day: u16,
        ) -> Searched;
        pub fn vpindex_range_batch(
            table: *const Row,
            table_rows: usize,
            result: *mut Entry,
            result_entries: usize,
            queries: *const Row,
            query_count: usize,
        ) -> Ranges;
        pub fn vpindex_write(table: *const Row, table_rows: usize, image: *mut u8, image_bytes: usize) -> Written;
        pub fn vpindex_read_list(
            table: *mut Row,
            table_rows: usize,
            work: *mut Row,
            work_rows: usize,
            list: *const u8,
            list_bytes: usize,
            day: u16,
        ) -> ListRead;
        pub fn vpindex_save(
            table: *const Row,
            table_rows: usize,
            states: *mut u8,
            states_bytes: usize,
            name: u32,
        ) -> Written;
        pub fn vpindex_restore(
            table: *mut Row,
            table_rows: usize,
            states: *const u8,
            states_bytes: usize,
            name: u32,
        ) -> Loaded;
        pub fn vpindex_dues(
            table: *const Row,
            table_rows: usize,
            tags: *const u64,
            tag_count: usize,
            dues: *mut u32,
            dues_numbers: usize,
        ) -> Dues;
        pub fn vpindex_lots(
            table: *const Row,
            table_rows: usize,
            work: *mut Entry,
            work_entries: usize,
            radii: *const u32,
            radius_count: usize,
            summary: *mut Summary,
            summary_entries: usize,
            listing: *mut Entry,
            listing_entries: usize,
            chosen: u32,
        ) -> u32;
    }
}

// Each call on slices. A slice's pointer is not null, is aligned and valid for its length, and two of them that are
// lent together do not overlap where one is lent to be written: that is all the calls ask of their caller. The header
// says so, and `raw` declares the calls as it does.

pub fn fresh(table: &mut [Row], order: u32, metric: u32, weights: Weights) -> u32 {
    // SAFETY: slices are what the call asks for.
    unsafe { raw::vpindex_fresh(table.as_mut_ptr(), table.len(), order, metric, weights) }
}

pub fn load(table: &mut [Row], image: &[u8]) -> Loaded {
    // SAFETY: slices are what the call asks for.
    unsafe { raw::vpindex_load(table.as_mut_ptr(), table.len(), image.as_ptr(), image.len()) }
}

pub fn add(table: &mut [Row], work: &mut [Row], tag: u64, profile: Profile, day: u16) -> Added {
    // SAFETY: slices are what the call asks for.
    unsafe { raw::vpindex_add(table.as_mut_ptr(), table.len(), work.as_mut_ptr(), work.len(), tag, profile, day) }
}

pub fn remove(table: &mut [Row], work: &mut [Row], tag: u64) -> Removed {
    // SAFETY: slices are what the call asks for.
    unsafe { raw::vpindex_remove(table.as_mut_ptr(), table.len(), work.as_mut_ptr(), work.len(), tag) }
}

pub fn look_up(table: &[Row], tag: u64) -> LookedUp {
    // SAFETY: slices are what the call asks for.
    unsafe { raw::vpindex_look_up(table.as_ptr(), table.len(), tag) }
}

pub fn range(table: &[Row], result: &mut [Entry], query: Profile, radius: u32, first_day: u16) -> Searched {
    let (rows, entries) = (table.len(), result.len());
    // SAFETY: slices are what the call asks for.
    unsafe { raw::vpindex_range(table.as_ptr(), rows, result.as_mut_ptr(), entries, query, radius, first_day) }
}

pub fn nearest(table: &[Row], result: &mut [Entry], query: Profile, k: u32, first_day: u16) -> Searched {
    let (rows, entries) = (table.len(), result.len());
    // SAFETY: slices are what the call asks for.
    unsafe { raw::vpindex_nearest(table.as_ptr(), rows, result.as_mut_ptr(), entries, query, k, first_day) }
}

pub fn range_batch(table: &[Row], result: &mut [Entry], queries: &[Row]) -> Ranges {
    let (rows, entries, asked) = (table.len(), result.len(), queries.len());
    // SAFETY: slices are what the call asks for.
    unsafe { raw::vpindex_range_batch(table.as_ptr(), rows, result.as_mut_ptr(), entries, queries.as_ptr(), asked) }
}

pub fn write(table: &[Row], image: &mut [u8]) -> Written {
    // SAFETY: slices are what the call asks for.
    unsafe { raw::vpindex_write(table.as_ptr(), table.len(), image.as_mut_ptr(), image.len()) }
}

pub fn read_list(table: &mut [Row], work: &mut [Row], list: &[u8], day: u16) -> ListRead {
    let (rows, working, bytes) = (table.len(), work.len(), list.len());
    // SAFETY: slices are what the call asks for.
    unsafe { raw::vpindex_read_list(table.as_mut_ptr(), rows, work.as_mut_ptr(), working, list.as_ptr(), bytes, day) }
}

pub fn save(table: &[Row], states: &mut [u8], name: u32) -> Written {
    // SAFETY: slices are what the call asks for.
    unsafe { raw::vpindex_save(table.as_ptr(), table.len(), states.as_mut_ptr(), states.len(), name) }
}

pub fn restore(table: &mut [Row], states: &[u8], name: u32) -> Loaded {
    // SAFETY: slices are what the call asks for.
    unsafe { raw::vpindex_restore(table.as_mut_ptr(), table.len(), states.as_ptr(), states.len(), name) }
}

pub fn dues(table: &[Row], tags: &[u64], dues: &mut [u32]) -> Dues {
    let (rows, listed, numbers) = (table.len(), tags.len(), dues.len());
    // SAFETY: slices are what the call asks for.
    unsafe { raw::vpindex_dues(table.as_ptr(), rows, tags.as_ptr(), listed, dues.as_mut_ptr(), numbers) }
}

pub fn lots(
    table: &[Row],
    work: &mut [Entry],
    radii: &[u32],
    summary: &mut [Summary],
    listing: &mut [Entry],
    chosen: u32,
) -> u32 {
    // SAFETY: slices are what the call asks for.
    unsafe {
        raw::vpindex_lots(
            table.as_ptr(),
            table.len(),
            work.as_mut_ptr(),
            work.len(),
            radii.as_ptr(),
            radii.len(),
            summary.as_mut_ptr(),
            summary.len(),
            listing.as_mut_ptr(),
            listing.len(),
            chosen,
        )
    }
}
