//! RULES 16, the reference model: an order, a metric, four weights and a list of items, with neither buckets nor trees.
//! It is fed a call's arguments and the lengths of the lent areas, never an answer or what the table holds.

use crate::calls::{batch_query, check_batch};
use crate::dues;
use crate::image;
use crate::item::{
    Item, MAX_METRIC, MAX_ORDER, Profile, Row, Slot, Space, check_day, check_measures, check_tag, check_weights,
    distance,
};
use crate::list::{self, ListRead};
use crate::lots::{self, Draft};
use crate::refusal::{
    ALREADY_LIVE, BAD_METRIC, BAD_ORDER, FULL, NO_COUNT, NO_ROOM, NOT_LIVE, Refused, SHORT_AREA, Unloaded, ensure,
};
use crate::states;
use crate::table::{Bucket, capacity, table_rows};
use crate::tree::Hit;

/// The book.
#[derive(Clone, Debug, Default)]
pub struct Book {
    /// T.
    pub order: u32,
    /// By which distances are worked out.
    pub space: Space,
    /// As handed over, in any order.
    pub items: Vec<Item>,
}

impl Book {
    /// Order, metric and weights as given, no items.
    pub fn fresh(&mut self, rows: usize, order: u32, space: Space) -> Result<(), Refused> {
        ensure(order <= MAX_ORDER, BAD_ORDER)?;
        ensure(space.metric <= MAX_METRIC, BAD_METRIC)?;
        check_weights(&space.weights)?;
        ensure(rows >= table_rows(order), SHORT_AREA)?;
        *self = Book { order, space, items: vec![] };
        Ok(())
    }

    /// Those of the image, with its items of mark 0.
    pub fn load(&mut self, rows: usize, bytes: &[u8]) -> Result<(), Unloaded> {
        let read = image::read(bytes, rows)?;
        let live = read.buckets.iter().flat_map(Bucket::live_items);
        *self = Book { order: read.order, space: read.space, items: live.map(Slot::item).collect() };
        Ok(())
    }

    /// Those of the image in the part of a name.
    pub fn restore(&mut self, rows: usize, area: &[u8], name: u32) -> Result<(), Unloaded> {
        self.load(rows, states::image_in(area, name)?)
    }

    fn check_areas(&self, rows: usize, work: usize) -> Result<(), Refused> {
        ensure(rows >= table_rows(self.order) && work >= capacity(self.order), SHORT_AREA)
    }

    fn check_table(&self, rows: usize) -> Result<(), Refused> {
        self.check_areas(rows, usize::MAX)
    }

    fn find(&self, tag: u64) -> Option<usize> {
        self.items.iter().position(|item| item.tag == tag)
    }

    /// Puts the item in.
    pub fn add(&mut self, rows: usize, work: usize, item: Item) -> Result<(), Refused> {
        self.check_areas(rows, work)?;
        check_tag(item.tag)?;
        check_measures(&item.profile)?;
        check_day(item.day)?;
        ensure(self.find(item.tag).is_none(), ALREADY_LIVE)?;
        ensure(self.items.len() < capacity(self.order), FULL)?;
        self.items.push(item);
        Ok(())
    }

    /// Puts the items of a herd list in, all of one day, as far as its lines are accepted. It knows of no distances.
    pub fn read_list(&mut self, rows: usize, work: usize, bytes: &[u8], day: u16) -> ListRead {
        list::read(bytes, |tag, profile| self.add(rows, work, Item { tag, profile, day: day as u32 }).map(|()| 0))
    }

    /// Strikes the item out.
    pub fn remove(&mut self, rows: usize, work: usize, tag: u64) -> Result<(), Refused> {
        self.check_areas(rows, work)?;
        check_tag(tag)?;
        let at = self.find(tag).ok_or(NOT_LIVE)?;
        self.items.swap_remove(at);
        Ok(())
    }

    /// Gives the item.
    pub fn look_up(&self, rows: usize, tag: u64) -> Result<Item, Refused> {
        self.check_table(rows)?;
        check_tag(tag)?;
        self.find(tag).map(|at| self.items[at]).ok_or(NOT_LIVE)
    }

    /// What each listed tag pays.
    pub fn dues(&self, rows: usize, room: usize, tags: &[u64]) -> Result<Vec<u32>, Refused> {
        self.check_table(rows)?;
        dues::dues(tags, room, |tag| self.find(tag).map(|at| self.items[at].profile.measures[0]))
    }

    /// Its items drafted by each radius, in areas of these lengths: the work area, the summary and the listing.
    pub fn lots(
        &self,
        rows: usize,
        [work, summary, listing]: [usize; 3],
        radii: &[u32],
        chosen: u32,
    ) -> Result<Draft, Refused> {
        self.check_areas(rows, work)?;
        lots::check_radii(radii, chosen)?;
        ensure(summary >= radii.len() && listing >= self.items.len(), NO_ROOM)?;
        Ok(lots::draft(&self.space, &self.items, radii, chosen))
    }

    // Every item that is not of a day before the first, by distance, then tag.
    fn by_distance(&self, query: &Profile, first_day: u16) -> Vec<Hit> {
        let since = self.items.iter().filter(|item| item.day >= first_day as u32);
        let mut hits: Vec<Hit> = since.map(|item| (distance(&self.space, &item.profile, query), item.tag)).collect();
        hits.sort_unstable();
        hits
    }

    /// All of those within the radius.
    pub fn range(
        &self,
        rows: usize,
        room: usize,
        query: &Profile,
        radius: u32,
        first_day: u16,
    ) -> Result<Vec<Hit>, Refused> {
        self.check_table(rows)?;
        check_measures(query)?;
        let mut hits = self.by_distance(query, first_day);
        hits.retain(|hit| hit.0 <= radius);
        ensure(hits.len() <= room, NO_ROOM)?;
        Ok(hits)
    }

    /// For each query of a batch all within its radius, each in its part of the room.
    pub fn range_batch(&self, rows: usize, room: usize, queries: &[Row]) -> Result<Vec<Vec<Hit>>, Refused> {
        self.check_table(rows)?;
        check_batch(queries)?;
        let part = room / queries.len();
        let list = |row| {
            let (query, radius, first_day) = batch_query(row);
            self.range(rows, part, &query, radius, first_day)
        };
        queries.iter().map(list).collect()
    }

    /// The first k of those.
    pub fn nearest(
        &self,
        rows: usize,
        room: usize,
        query: &Profile,
        k: u32,
        first_day: u16,
    ) -> Result<Vec<Hit>, Refused> {
        self.check_table(rows)?;
        check_measures(query)?;
        ensure(k != 0, NO_COUNT)?;
        let mut hits = self.by_distance(query, first_day);
        hits.truncate(k as usize);
        ensure(hits.len() <= room, NO_ROOM)?;
        Ok(hits)
    }
}
