//! A table's bytes.

use std::collections::HashSet;

use crate::item::{MAX_METRIC, MAX_ORDER, Profile, Slot, Space, check_day, check_measures, check_tag, check_weights};
use crate::refusal::{
    BAD_IMAGE, BAD_LENGTH, BAD_METRIC, BAD_ORDER, BAD_TABLE, BAD_THRESHOLD, DUPLICATE_TAG, MISPLACED_ITEM, Refused,
    SHORT_AREA, Unloaded, ensure,
};
use crate::table::{Bucket, Table, sizes_pass, table_rows};
use crate::tree::layout;

/// The newest form, the one that is written.
pub const LAST_FORM: u16 = 2;

// Form 0 is from before there were weights, form 1 from before there were days.
fn has_weights(form: u16) -> bool {
    form >= 1
}

fn has_days(form: u16) -> bool {
    form >= 2
}

/// The image of a table, in the newest form.
pub fn bytes(table: &Table) -> Vec<u8> {
    of_form(LAST_FORM, table)
}

/// The image of a table as this form has it: an older one without the weights or the days.
pub fn of_form(form: u16, table: &Table) -> Vec<u8> {
    let mut bytes = vec![table.order as u8, table.space.metric as u8];
    bytes.extend(form.to_le_bytes());
    if has_weights(form) {
        bytes.extend(table.space.weights.map(|weight| weight as u8));
    }
    for bucket in &table.buckets {
        bytes.extend((bucket.built as u16).to_le_bytes());
        bytes.extend((bucket.live as u16).to_le_bytes());
    }
    let slots = || table.buckets.iter().flat_map(|bucket| &bucket.slots);
    for slot in slots() {
        bytes.extend(slot.tag.to_le_bytes());
    }
    for slot in slots() {
        bytes.extend(record(form, slot));
    }
    bytes
}

fn record(form: u16, slot: &Slot) -> Vec<u8> {
    let mut bytes = vec![];
    for measure in slot.profile.measures {
        bytes.extend(measure.to_le_bytes());
    }
    for word in slot.profile.code {
        bytes.extend(word.to_le_bytes());
    }
    bytes.extend(slot.threshold.to_le_bytes());
    bytes.extend(slot.mark.to_le_bytes());
    if has_days(form) {
        bytes.extend((slot.day as u16).to_le_bytes());
    }
    bytes
}

// The bytes not read yet.
struct Reader<'a>(&'a [u8]);

impl Reader<'_> {
    fn take<const N: usize>(&mut self) -> [u8; N] {
        let (first, rest) = self.0.split_first_chunk().expect("as long as the sizes say");
        self.0 = rest;
        *first
    }

    fn word(&mut self) -> u32 {
        u32::from_le_bytes(self.take())
    }

    fn long(&mut self) -> u64 {
        u64::from_le_bytes(self.take())
    }

    fn short(&mut self) -> u32 {
        u16::from_le_bytes(self.take()) as u32
    }

    // They are 1 where there are none.
    fn weights(&mut self, form: u16) -> Result<[u32; 4], Refused> {
        if !has_weights(form) {
            return Ok([1; 4]);
        }
        ensure(self.0.len() >= 4, BAD_LENGTH)?;
        let weights = self.take().map(|byte: u8| byte as u32);
        check_weights(&weights)?;
        Ok(weights)
    }

    fn size(&mut self) -> (u32, u32) {
        (self.short(), self.short())
    }

    // The day is 1 where there is none.
    fn record(&mut self, form: u16, tag: u64) -> Slot {
        let measures = [0; 4].map(|_| self.word() as i32);
        let code = [0; 2].map(|_| self.long());
        let (threshold, mark) = (self.word(), self.word());
        let day = if has_days(form) { self.short() } else { 1 };
        Slot { tag, profile: Profile { measures, code }, threshold, mark, day }
    }
}

// The bytes of a tag and its record.
fn slot_bytes(form: u16) -> usize {
    if has_days(form) { 50 } else { 48 }
}

/// The table of an image, to be put into so many rows; every check in its order.
pub fn read(bytes: &[u8], rows: usize) -> Result<Table, Unloaded> {
    ensure(bytes.len() >= 4, BAD_LENGTH)?;
    let mut reader = Reader(bytes);
    let [order, metric, form @ ..] = reader.take::<4>();
    let form = u16::from_le_bytes(form);
    let (order, metric) = (order as u32, metric as u32);
    ensure(order <= MAX_ORDER, BAD_ORDER)?;
    ensure(metric <= MAX_METRIC, BAD_METRIC)?;
    ensure(form <= LAST_FORM, BAD_IMAGE)?;
    let weights = reader.weights(form)?;
    ensure(reader.0.len() >= 4 * (order as usize + 1), BAD_LENGTH)?;
    let sizes: Vec<_> = (0..=order).map(|_| reader.size()).collect();
    ensure(sizes_pass(order, &sizes), BAD_TABLE)?;
    let total: usize = sizes.iter().map(|size| size.0 as usize).sum();
    ensure(reader.0.len() == slot_bytes(form) * total, BAD_LENGTH)?;
    ensure(rows >= table_rows(order), SHORT_AREA)?;
    let buckets = buckets(&mut reader, form, &sizes, total);
    let table = Table { order, space: Space { metric, weights }, buckets };
    table.buckets.iter().flat_map(|bucket| &bucket.slots).try_for_each(|slot| check_day(slot.day))?;
    ensure(fields_pass(&table), BAD_IMAGE)?;
    check_trees(&table)?;
    Ok(table)
}

fn buckets(reader: &mut Reader, form: u16, sizes: &[(u32, u32)], total: usize) -> Vec<Bucket> {
    let tags: Vec<u64> = (0..total).map(|_| reader.long()).collect();
    let mut tags = tags.into_iter();
    let mut one = |&(built, live)| {
        let slots = tags.by_ref().take(built as usize).map(|tag| reader.record(form, tag)).collect();
        Bucket { built, live, slots }
    };
    sizes.iter().map(&mut one).collect()
}

/// Whether fields and trees keep the rules; sizes and days are taken to.
pub fn is_sound(table: &Table) -> bool {
    fields_pass(table) && check_trees(table).is_ok()
}

fn fields_pass(table: &Table) -> bool {
    let fields = |slot: &Slot| check_tag(slot.tag).is_ok() && check_measures(&slot.profile).is_ok();
    table.buckets.iter().all(|bucket| bucket.slots.iter().all(fields) && bucket.marks_pass())
}

// Slot by slot over all buckets, beside the layout of all that its bucket has built.
fn check_trees(table: &Table) -> Result<(), Unloaded> {
    let (mut slot, mut live) = (0, HashSet::new());
    for bucket in &table.buckets {
        let mut own = HashSet::new();
        for (laid, found) in layout(&table.space, &bucket.slots).iter().zip(&bucket.slots) {
            let is_new = own.insert(found.tag);
            let is_new_live = !found.is_live() || live.insert(found.tag);
            check_slot(is_new && is_new_live, laid, found).map_err(|refusal| Unloaded { refusal, slot })?;
            slot += 1;
        }
    }
    Ok(())
}

fn check_slot(is_new: bool, laid: &Slot, found: &Slot) -> Result<(), Refused> {
    ensure(is_new, DUPLICATE_TAG)?;
    ensure(laid.item() == found.item(), MISPLACED_ITEM)?;
    ensure(laid.threshold == found.threshold, BAD_THRESHOLD)
}
