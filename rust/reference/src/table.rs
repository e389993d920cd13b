//! A table read from its rows, and the rows written where a call changes them.

use crate::item::{MAX_METRIC, MAX_ORDER, ROW_WORDS, Row, Slot, Space, check_weights};
use crate::refusal::{BAD_TABLE, Refused, SHORT_AREA, ensure};

/// A bucket as its size row and its built slots say.
#[derive(Clone, Debug, Default, PartialEq, Eq)]
pub struct Bucket {
    /// Slots filled at the last build.
    pub built: u32,
    /// Those of them that are live.
    pub live: u32,
    /// The built slots; none where the sizes break the rules.
    pub slots: Vec<Slot>,
}

/// A table whose order, metric, weights and sizes pass.
#[derive(Clone, Debug, PartialEq, Eq)]
pub struct Table {
    /// T.
    pub order: u32,
    /// By which distances are worked out.
    pub space: Space,
    /// 0 to T.
    pub buckets: Vec<Bucket>,
}

/// How many rows a table of this order takes.
pub fn table_rows(order: u32) -> usize {
    order as usize + 1 + (2 << order)
}

/// How many items a table of this order holds, and rows its work area has.
pub fn capacity(order: u32) -> usize {
    1 << order
}

/// The row of a bucket's first slot.
pub fn first_row(order: u32, k: usize) -> usize {
    order as usize + 1 + (1 << k)
}

/// Whether the sizes of all buckets, built and live, pass.
pub fn sizes_pass(order: u32, sizes: &[(u32, u32)]) -> bool {
    let each = sizes.iter().enumerate().all(|(k, &(built, live))| bucket_passes(k, built as u64, live as u64));
    let live: u64 = sizes.iter().map(|size| size.1 as u64).sum();
    each && live <= capacity(order) as u64
}

fn bucket_passes(k: usize, built: u64, live: u64) -> bool {
    let room = 1 << k;
    (built, live) == (0, 0) || live <= built && built <= room && 2 * built > room && 4 * live > room
}

impl Bucket {
    fn read(order: u32, k: usize, (built, live): (u32, u32), rows: &[Row]) -> Bucket {
        let first = first_row(order, k);
        let slots = rows[first..first + built as usize].iter().map(Slot::of).collect();
        Bucket { built, live, slots }
    }

    /// The slots of mark 0, in slot order.
    pub fn live_items(&self) -> impl Iterator<Item = &Slot> {
        self.slots.iter().filter(|slot| slot.is_live())
    }

    /// Whether the marks are 0 and 1 alone, and those of 0 number the live size.
    pub fn marks_pass(&self) -> bool {
        self.slots.iter().all(|slot| slot.mark <= 1) && self.live_items().count() == self.live as usize
    }

    /// Whether anything was built in it.
    pub fn in_use(&self) -> bool {
        self.built != 0
    }
}

impl Table {
    /// Reads a lent table: no rows, order and metric, length, weights and sizes are checked in this order. `needs` says
    /// whether the other areas that go by the order are long enough.
    pub fn open(rows: &[Row], needs: impl Fn(u32) -> bool) -> Result<Table, Refused> {
        let header = rows.first().ok_or(SHORT_AREA)?;
        let &[order, metric, a, b, c, d, ..] = header;
        let weights = [a, b, c, d];
        ensure(order <= MAX_ORDER && metric <= MAX_METRIC, BAD_TABLE)?;
        ensure(rows.len() >= table_rows(order) && needs(order), SHORT_AREA)?;
        let sizes: Vec<_> = rows[1..=order as usize + 1].iter().map(|row| (row[0], row[1])).collect();
        ensure(check_weights(&weights).is_ok() && sizes_pass(order, &sizes), BAD_TABLE)?;
        let buckets = sizes.into_iter().enumerate().map(|(k, size)| Bucket::read(order, k, size, rows)).collect();
        Ok(Table { order, space: Space { metric, weights }, buckets })
    }

    /// Reads a lent table that is to be changed or drafted: so many rows or entries of a work area are needed, and the
    /// marks are checked too.
    pub fn open_to_change(rows: &[Row], work: usize) -> Result<Table, Refused> {
        let table = Table::open(rows, |order| work >= capacity(order))?;
        ensure(table.buckets.iter().all(Bucket::marks_pass), BAD_TABLE)?;
        Ok(table)
    }

    /// Bucket and slot of the live item with this tag: lowest bucket first, then lowest slot.
    pub fn find(&self, tag: u64) -> Option<(usize, usize)> {
        let at = |bucket: &Bucket| bucket.slots.iter().position(|slot| slot.is_live() && slot.tag == tag);
        self.buckets.iter().enumerate().find_map(|(k, bucket)| Some((k, at(bucket)?)))
    }

    /// How many items are live, by the sizes.
    pub fn live(&self) -> usize {
        self.buckets.iter().map(|bucket| bucket.live as usize).sum()
    }
}

/// Writes a bucket's size row whole.
pub fn put_sizes(rows: &mut [Row], k: usize, built: u32, live: u32) {
    rows[1 + k] = [0; ROW_WORDS];
    rows[1 + k][..2].copy_from_slice(&[built, live]);
}

/// Writes a whole bucket: its sizes, its slots, and zeros after them. No slots empty it.
pub fn put_bucket(rows: &mut [Row], order: u32, k: usize, live: u32, slots: &[Slot]) {
    put_sizes(rows, k, slots.len() as u32, live);
    let first = first_row(order, k);
    let area = &mut rows[first..first + (1 << k)];
    area.fill([0; ROW_WORDS]);
    for (row, slot) in area.iter_mut().zip(slots) {
        *row = slot.row();
    }
}

/// Writes a whole table, header row and all.
pub fn put_table(rows: &mut [Row], table: &Table) {
    rows[0] = [0; ROW_WORDS];
    rows[0][..2].copy_from_slice(&[table.order, table.space.metric]);
    rows[0][2..6].copy_from_slice(&table.space.weights);
    for (k, bucket) in table.buckets.iter().enumerate() {
        put_bucket(rows, table.order, k, bucket.live, &bucket.slots);
    }
}
