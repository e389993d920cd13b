//! The fourteen calls, on lent areas.

use crate::dues;
use crate::image;
use crate::item::{
    Entry, Item, MAX_METRIC, MAX_ORDER, Profile, ROW_WORDS, Row, Slot, Space, check_day, check_measures, check_tag,
    check_weights,
};
use crate::list::{self, ListRead};
use crate::lots::{self, Summary};
use crate::refusal::{
    ALREADY_LIVE, BAD_BATCH, BAD_METRIC, BAD_ORDER, FULL, NO_COUNT, NO_ROOM, NOT_LIVE, Refused, SHORT_AREA, Unloaded,
    ensure,
};
use crate::states;
use crate::table::{Bucket, Table, capacity, first_row, put_bucket, put_sizes, put_table, table_rows};
use crate::tree::{Hit, Search, Wanted, cost, layout, mark_met};

/// Bucket that was built, and distances of the build.
pub type Added = (u32, u32);
/// Number found, and distances.
pub type Searched = (u32, u32);
/// Number found by each query, and slots that some query meets.
pub type Ranges = ([u32; MAX_QUERIES], u32);

/// The most queries of a batch.
pub const MAX_QUERIES: usize = 16;

/// An empty table of this order, metric and weights.
pub fn fresh(table: &mut [Row], order: u32, space: Space) -> Result<(), Refused> {
    ensure(order <= MAX_ORDER, BAD_ORDER)?;
    ensure(space.metric <= MAX_METRIC, BAD_METRIC)?;
    check_weights(&space.weights)?;
    ensure(table.len() >= table_rows(order), SHORT_AREA)?;
    let buckets = vec![Bucket::default(); order as usize + 1];
    put_table(table, &Table { order, space, buckets });
    Ok(())
}

/// The table of an image.
pub fn load(table: &mut [Row], bytes: &[u8]) -> Result<(), Unloaded> {
    let read = image::read(bytes, table.len())?;
    put_table(table, &read);
    Ok(())
}

/// Adds an item.
pub fn add(rows: &mut [Row], work: &mut [Row], tag: u64, profile: Profile, day: u16) -> Result<Added, Refused> {
    let (table, day) = (Table::open_to_change(rows, work.len())?, day as u32);
    check_tag(tag)?;
    check_measures(&profile)?;
    check_day(day)?;
    ensure(table.find(tag).is_none(), ALREADY_LIVE)?;
    ensure(table.live() < capacity(table.order), FULL)?;
    let empty = table.buckets.iter().position(|bucket| !bucket.in_use());
    let k = empty.unwrap_or(table.order as usize + 1);
    let mut items = vec![Slot { tag, profile, day, ..Slot::default() }];
    items.extend(table.buckets[..k].iter().flat_map(Bucket::live_items));
    let target = if 2 * items.len() > 1 << k { k } else { k - 1 };
    let distances = rebuild(rows, &table, &items, target, 0..k);
    work[..capacity(table.order)].fill([0; ROW_WORDS]);
    Ok((target as u32, distances))
}

/// Adds the lines of a herd list, all of one day, as far as they are accepted.
pub fn read_list(rows: &mut [Row], work: &mut [Row], bytes: &[u8], day: u16) -> ListRead {
    list::read(bytes, |tag, profile| add(rows, work, tag, profile, day).map(|(_, distances)| distances))
}

/// Removes an item, and gives the distances of the build.
pub fn remove(rows: &mut [Row], work: &mut [Row], tag: u64) -> Result<u32, Refused> {
    let mut table = Table::open_to_change(rows, work.len())?;
    check_tag(tag)?;
    let (k, slot) = table.find(tag).ok_or(NOT_LIVE)?;
    let bucket = &mut table.buckets[k];
    bucket.slots[slot].mark = 1;
    bucket.live -= 1;
    rows[first_row(table.order, k) + slot][11] = 1;
    put_sizes(rows, k, bucket.built, bucket.live);
    let distances = shrink(rows, &table, k);
    work[..capacity(table.order)].fill([0; ROW_WORDS]);
    Ok(distances)
}

// After a removal from bucket k: nothing, an emptying, or a build with a lower bucket.
fn shrink(rows: &mut [Row], table: &Table, k: usize) -> u32 {
    let live = table.buckets[k].live;
    if live == 0 {
        put_bucket(rows, table.order, k, 0, &[]);
        return 0;
    }
    if 4 * live > 1 << k {
        return 0;
    }
    let below = |down: usize| &table.buckets[k - down];
    let (other, target) = match (below(1).in_use(), below(2).in_use()) {
        (true, _) if below(1).live > 1 << (k - 2) => (Some(k - 1), k),
        (true, _) => (Some(k - 1), k - 1),
        (false, true) => (Some(k - 2), k - 1),
        (false, false) => (None, k - 2),
    };
    let gathered: Vec<usize> = [k].into_iter().chain(other).collect();
    let items: Vec<Slot> = gathered.iter().flat_map(|&j| table.buckets[j].live_items()).copied().collect();
    rebuild(rows, table, &items, target, gathered)
}

// Builds the items in the target bucket and empties the other gathered ones.
fn rebuild(
    rows: &mut [Row],
    table: &Table,
    items: &[Slot],
    target: usize,
    gathered: impl IntoIterator<Item = usize>,
) -> u32 {
    for k in gathered {
        put_bucket(rows, table.order, k, 0, &[]);
    }
    put_bucket(rows, table.order, target, items.len() as u32, &layout(&table.space, items));
    cost(items.len())
}

/// The bucket of an item, and the item.
pub fn look_up(rows: &[Row], tag: u64) -> Result<(u32, Item), Refused> {
    let table = Table::open(rows, |_| true)?;
    check_tag(tag)?;
    let (k, slot) = table.find(tag).ok_or(NOT_LIVE)?;
    Ok((k as u32, table.buckets[k].slots[slot].item()))
}

/// Writes what each listed tag pays and gives the total.
pub fn dues(rows: &[Row], tags: &[u64], area: &mut [u32]) -> Result<u64, Refused> {
    let table = Table::open(rows, |_| true)?;
    let weight = |tag| table.find(tag).map(|(k, slot)| table.buckets[k].slots[slot].profile.measures[0]);
    let dues = dues::dues(tags, area.len(), weight)?;
    area[..dues.len()].copy_from_slice(&dues);
    Ok(dues::total(&dues))
}

/// Drafts the live items by each radius: writes the summaries, and the listing of the chosen radius.
pub fn lots(
    rows: &[Row],
    work: &mut [Entry],
    radii: &[u32],
    summary: &mut [Summary],
    listing: &mut [Entry],
    chosen: u32,
) -> Result<(), Refused> {
    let table = Table::open_to_change(rows, work.len())?;
    lots::check_radii(radii, chosen)?;
    summary.fill([0; 2]);
    listing.fill([0; 2]);
    ensure(summary.len() >= radii.len() && listing.len() >= table.live(), NO_ROOM)?;
    let items: Vec<Item> = table.buckets.iter().flat_map(Bucket::live_items).map(Slot::item).collect();
    let draft = lots::draft(&table.space, &items, radii, chosen);
    summary[..radii.len()].copy_from_slice(&draft.summary);
    listing[..items.len()].copy_from_slice(&draft.listing);
    work[..capacity(table.order)].fill([0; 2]);
    Ok(())
}

/// All within the radius that are not of a day before the first.
pub fn range(
    rows: &[Row],
    result: &mut [Entry],
    query: Profile,
    radius: u32,
    first_day: u16,
) -> Result<Searched, Refused> {
    let table = Table::open(rows, |_| true)?;
    check_measures(&query)?;
    search(&table, result, Search::new(table.space, query, Wanted::Within(radius), first_day))
}

/// The k nearest of those that are not of a day before the first.
pub fn nearest(
    rows: &[Row],
    result: &mut [Entry],
    query: Profile,
    k: u32,
    first_day: u16,
) -> Result<Searched, Refused> {
    let table = Table::open(rows, |_| true)?;
    check_measures(&query)?;
    ensure(k != 0, NO_COUNT)?;
    search(&table, result, Search::new(table.space, query, Wanted::Nearest(k), first_day))
}

fn search(table: &Table, result: &mut [Entry], mut search: Search) -> Result<Searched, Refused> {
    for bucket in table.buckets.iter().rev() {
        search.visit(&bucket.slots);
    }
    result.fill([0; 2]);
    ensure(search.hits.len() <= result.len(), NO_ROOM)?;
    put_hits(result, &search.hits);
    Ok((search.hits.len() as u32, search.count))
}

fn put_hits(area: &mut [Entry], hits: &[Hit]) {
    for (entry, (distance, tag)) in area.iter_mut().zip(hits) {
        *entry = [*tag, *distance as u64];
    }
}

/// The query of a batch that a row is: a profile, a radius and a first day.
pub fn batch_query(row: &Row) -> (Profile, u32, u16) {
    let slot = Slot::of(row);
    (slot.profile, slot.threshold, slot.day as u16)
}

/// A batch of 1 to 16 queries whose measures are valid.
pub fn check_batch(queries: &[Row]) -> Result<(), Refused> {
    ensure((1..=MAX_QUERIES).contains(&queries.len()), BAD_BATCH)?;
    queries.iter().try_for_each(|row| check_measures(&Slot::of(row).profile))
}

/// Range for each query, each in its part of the area. A slot counts once if any of them meets it.
pub fn range_batch(rows: &[Row], result: &mut [Entry], queries: &[Row]) -> Result<Ranges, Refused> {
    let table = Table::open(rows, |_| true)?;
    check_batch(queries)?;
    let mut met: Vec<Vec<bool>> = table.buckets.iter().map(|bucket| vec![false; bucket.slots.len()]).collect();
    let mut lists = vec![];
    for (query, radius, first_day) in queries.iter().map(batch_query) {
        let mut search = Search::new(table.space, query, Wanted::Within(radius), first_day);
        for (bucket, met) in table.buckets.iter().zip(&mut met) {
            search.visit(&bucket.slots);
            mark_met(&table.space, &query, radius, &bucket.slots, met);
        }
        lists.push(search.hits);
    }
    result.fill([0; 2]);
    let part = result.len() / queries.len();
    ensure(lists.iter().all(|list| list.len() <= part), NO_ROOM)?;
    let mut found = [0; MAX_QUERIES];
    for (j, list) in lists.iter().enumerate() {
        put_hits(&mut result[j * part..], list);
        found[j] = list.len() as u32;
    }
    Ok((found, met.iter().flatten().filter(|met| **met).count() as u32))
}

/// Writes the image and gives its length.
pub fn write(rows: &[Row], area: &mut [u8]) -> Result<u32, Refused> {
    let bytes = image::bytes(&Table::open(rows, |_| true)?);
    ensure(area.len() >= bytes.len(), NO_ROOM)?;
    area[..bytes.len()].copy_from_slice(&bytes);
    Ok(bytes.len() as u32)
}

/// Saves the table under a name and gives the image's length.
pub fn save(rows: &[Row], area: &mut [u8], name: u32) -> Result<u32, Refused> {
    let part = states::part_of(area.len(), name)?;
    let bytes = image::bytes(&Table::open(rows, |_| true)?);
    states::put_image(&mut area[part], &bytes)?;
    Ok(bytes.len() as u32)
}

/// The table that was saved under a name.
pub fn restore(table: &mut [Row], area: &[u8], name: u32) -> Result<(), Unloaded> {
    load(table, states::image_in(area, name)?)
}
