//! Images to load, of every form: sound ones, and such as break one rule or several.

use reference::image;
use reference::item::{Slot, Space};
use reference::table::Table;
use reference::tree::layout;

use crate::random::{MAX_MEASURE, Random};
use crate::sound;

/// The image of a sound table, or a damaged one; once in three of an older form.
pub fn image(random: &mut Random, order: u32, space: Space) -> Vec<u8> {
    let form = random.pick(&[0, 1, 2, 2, 2, 2]);
    of_form(random, form, order, space)
}

/// The same of one form; where that has no weights, mostly of a table of weights 1.
pub fn of_form(random: &mut Random, form: u16, order: u32, mut space: Space) -> Vec<u8> {
    if form == 0 && !random.one_in(6) {
        space.weights = [1; 4];
    }
    let written = |table: &Table| image::of_form(form, table);
    let sizes = sound::nearly(random, order);
    let mut table = sound::table_of(random, order, space, sizes);
    match random.below(10) {
        0 => written(&table),
        1 => cut(random, written(&table)),
        2 | 3 => header(random, written(&table)),
        4 => flipped(random, written(&table)),
        // one fault, and now and then another behind or before it
        _ => {
            a_fault(random, &mut table);
            while random.one_in(3) {
                a_fault(random, &mut table);
            }
            written(&table)
        }
    }
}

/// The translation of an image of form 0 or 1 to form 2: weights 1 where it has none, and day 1 behind every record.
/// None if it is of no older form, or not of the length that its sizes give.
pub fn translated(image: &[u8]) -> Option<Vec<u8>> {
    let (&[order, metric, form, 0], rest) = image.split_first_chunk()? else { return None };
    let (weights, rest) = match form {
        0 => ([1; 4], rest),
        1 => rest.split_first_chunk().map(|(weights, rest)| (*weights, rest))?,
        _ => return None,
    };
    let (sizes, slots) = rest.split_at_checked(4 * (order as usize + 1))?;
    let built: usize = sizes.chunks(4).map(|size| size[0] as usize + 256 * size[1] as usize).sum();
    let (tags, records) = slots.split_at_checked(8 * built)?;
    let with_days: Vec<u8> = records.chunks(40).flat_map(|record| [record, &[1, 0]].concat()).collect();
    let whole = [&[order, metric, 2, 0], &weights[..], sizes, tags, &with_days].concat();
    (records.len() == 40 * built).then_some(whole)
}

/// Another length.
pub fn cut(random: &mut Random, mut bytes: Vec<u8>) -> Vec<u8> {
    let length = match random.below(4) {
        0 => random.below(12),
        1 => random.below(bytes.len() + 1),
        2 => bytes.len() - 1,
        _ => bytes.len() + 1 + random.below(50),
    };
    bytes.resize(length, random.word() as u8);
    bytes
}

// another value in the bytes before the tags: in the start, in the weights or what form 0 has there, in the sizes
fn header(random: &mut Random, mut bytes: Vec<u8>) -> Vec<u8> {
    let sizes = 4 * (bytes[0] as usize + 1);
    let front = if bytes[2] == 0 { 4 } else { 8 };
    let any = random.pick(&[0, 1, 2, 3, 12, 13, 14, 128, 255]);
    let (at, byte) = match random.below(3) {
        0 => (random.below(4), any),
        1 => (4 + random.below(4), random.pick(&[0, 100, 101, 255])),
        _ => (front + random.below(sizes), any),
    };
    bytes[at] = byte;
    bytes
}

fn flipped(random: &mut Random, mut bytes: Vec<u8>) -> Vec<u8> {
    let at = random.below(bytes.len());
    bytes[at] ^= 1 << random.below(8);
    bytes
}

// One slot or size that breaks a rule, or that nearly does.
fn a_fault(random: &mut Random, table: &mut Table) {
    let used: Vec<usize> = (0..table.buckets.len()).filter(|&k| table.buckets[k].in_use()).collect();
    if used.is_empty() {
        return;
    }
    let k = random.pick(&used);
    let j = if random.one_in(2) { k } else { random.pick(&used) };
    let other = random.below(table.buckets[j].slots.len());
    let other = table.buckets[j].slots[other];
    let bucket = &mut table.buckets[k];
    let at = random.below(bucket.slots.len());
    match random.below(10) {
        0..3 => {
            let with = random.below(bucket.slots.len());
            bucket.slots.swap(at, with);
        }
        3 => {
            bucket.slots[at].mark ^= 1;
            if random.one_in(2) {
                bucket.live = bucket.live_items().count() as u32;
            }
        }
        4..7 => relaid(table, k, at, |slot| slot.tag = other.tag),
        7 => field(random, &mut bucket.slots[at]),
        // a day, and now and then what is tested after it
        8 => {
            bucket.slots[at].day = 0;
            if random.one_in(3) {
                field(random, &mut bucket.slots[at]);
            }
        }
        _ => {
            let measure = random.below(4);
            let value = random.pick(&[MAX_MEASURE, MAX_MEASURE + 1, -MAX_MEASURE, -MAX_MEASURE - 1]);
            relaid(table, k, at, |slot| slot.profile.measures[measure] = value);
        }
    }
}

fn field(random: &mut Random, slot: &mut Slot) {
    match random.below(4) {
        0 => slot.threshold = slot.threshold.wrapping_add(random.pick(&[1, u32::MAX])),
        1 => slot.mark = random.pick(&[0, 1, 2, u32::MAX]),
        2 => slot.tag = random.edge_tag(),
        _ => slot.profile = random.any_profile(),
    }
}

// Changes a slot and lays the bucket out again, each slot with its mark, so that no other rule is broken by it.
fn relaid(table: &mut Table, k: usize, at: usize, change: impl Fn(&mut Slot)) {
    let bucket = &mut table.buckets[k];
    change(&mut bucket.slots[at]);
    let mut marks: Vec<(u64, u32)> = bucket.slots.iter().map(|slot| (slot.tag, slot.mark)).collect();
    bucket.slots = layout(&table.space, &bucket.slots);
    for slot in &mut bucket.slots {
        let of = marks.iter().position(|mark| mark.0 == slot.tag).expect("every slot was there before");
        slot.mark = marks.swap_remove(of).1;
    }
}
