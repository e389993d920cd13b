//! What is wrong with a refused image. The archive says why in a number; here its bytes are looked at once more, to say
//! in which field, and in words.

use alloc::format;
use alloc::string::{String, ToString};
use core::fmt;
use core::ops::Range;

use crate::image_fields::{self, FIRST_FIELDS, Field, Layout, NEWEST_FORM, Slot};
use crate::values::{COUNTRY, LAST_NATIONAL};
use crate::{Metric, Order, Profile, Refusal, SlotAt, Weights};

const LENGTH: &str = "length";

/// What is wrong in a refused image, and where. It is written as a sentence: for one, `the weight of hip at byte 5 is
/// 101, and the largest is 100`.
///
/// Where several fields break the rule it is the first of the weights; of the sizes those of the lowest bucket, built
/// before live, and then the sum of the live ones; of the slots the lowest, in it the tag, then the measures, then the
/// mark, and then the number of a bucket's marks.
#[derive(Clone, Debug, PartialEq, Eq, Hash)]
pub struct ImageFault {
    /// The field that is wrong:
    ///
    /// - of the image `order`, `metric`, `form`, `weight of kg`, `weight of hip`, `weight of girth`, `weight of gain`,
    ///   or `length`, of all its bytes;
    /// - of a bucket `built size` or `live size`; the latter also if too many are live in all, of the last bucket, or if
    ///   the bucket's marks do not number it;
    /// - of a slot `tag`, `measure kg`, `measure hip`, `measure girth`, `measure gain`, `mark`, `day`, `threshold`, or
    ///   `item`, which is tag, measures, code and day together.
    pub field: &'static str,
    /// The bytes of the image that hold it; of an item those of its tag. Of an image that is cut short it is the empty
    /// range at its end, of one that is too long what lies past the length that its sizes make.
    pub bytes: Range<usize>,
    /// The bucket that it is of, or that its slot is in.
    pub bucket: Option<u32>,
    /// The slot that it is of.
    pub slot: Option<SlotAt>,
    /// What is wrong with it: for one, `is 101, and the largest is 100`.
    pub words: String,
}

impl fmt::Display for ImageFault {
    fn fmt(&self, f: &mut fmt::Formatter<'_>) -> fmt::Result {
        let ImageFault { field, bytes, bucket, slot, words } = self;
        match (slot, bucket) {
            (Some(slot), _) => write!(f, "{slot}, its "),
            (None, Some(bucket)) => write!(f, "bucket {bucket}, its "),
            (None, None) if *field == LENGTH => return write!(f, "the image {words}"),
            (None, None) => f.write_str("the "),
        }?;
        write!(f, "{field} at byte {} {words}", bytes.start)
    }
}

impl ImageFault {
    // Of an image that was refused so, at this slot if it is for a tree; none where its bytes do not show why.
    pub(crate) fn of(image: &[u8], refusal: Refusal, slot: u32) -> Option<ImageFault> {
        match refusal {
            Refusal::BadLength => length_fault(image),
            Refusal::BadOrder => past(image_fields::order(image)?, "largest", Order::MAX.get()),
            Refusal::BadMetric => past(image_fields::metric(image)?, "largest", Metric::LargestDifference.get()),
            Refusal::BadImage => {
                past(image_fields::form(image)?, "newest", NEWEST_FORM).or_else(|| field_fault(&Layout::of(image)?))
            }
            Refusal::BadWeight => Layout::of(image)?.weights().find_map(|weight| past(weight, "largest", Weights::MAX)),
            Refusal::BadTable => size_fault(&Layout::of(image)?),
            Refusal::BadDay => Layout::of(image)?.slots()?.iter().find_map(|slot| day_fault(slot.day()?)),
            _ => tree_fault(&Layout::of(image)?.slots()?, refusal, slot as usize),
        }
    }
}

impl Field {
    fn fault(self, words: String) -> ImageFault {
        let Field { name, bytes, bucket, slot, .. } = self;
        ImageFault { field: name, bytes, bucket, slot, words }
    }
}

fn past(field: Field, last: &str, most: u32) -> Option<ImageFault> {
    let found = field.number;
    (found > most.into()).then(|| field.fault(format!("is {found}, and the {last} is {most}")))
}

fn length_fault(image: &[u8]) -> Option<ImageFault> {
    let has = image.len();
    let (takes, what) = match Layout::of(image) {
        None if has < FIRST_FIELDS => (FIRST_FIELDS, "its first fields take"),
        None => return None,
        Some(layout) if has < layout.sizes => (layout.sizes, "its fields before the sizes take"),
        Some(layout) if has < layout.tags => (layout.tags, "its fields before the tags take"),
        Some(layout) => (layout.length()?, "its sizes make"),
    };
    let bytes = if has == 1 { "byte" } else { "bytes" };
    let words = format!("has {has} {bytes}, and {what} {takes}");
    let fault = ImageFault { field: LENGTH, bytes: takes.min(has)..has, bucket: None, slot: None, words };
    (has != takes).then_some(fault)
}

fn size_fault(layout: &Layout) -> Option<ImageFault> {
    layout.buckets().find_map(|bucket| bucket_fault(layout, bucket)).or_else(|| total_fault(layout))
}

fn bucket_fault(layout: &Layout, bucket: u32) -> Option<ImageFault> {
    let (built, live, room) = (layout.built(bucket)?, layout.live(bucket)?, 1 << bucket);
    let fault = match (built.number, live.number) {
        (0, 0) => return None,
        (found, _) if found > room => built.fault(format!("is {found}, and the bucket has room for {room}")),
        (found @ 1.., _) if 2 * found <= room => {
            let least = room / 2 + 1;
            built.fault(format!("is {found}, and a bucket of {room} slots has none built or at least {least}"))
        }
        (slots, found) if found > slots => live.fault(format!("is {found}, and its built size is {slots}")),
        (_, found) if 4 * found <= room => {
            let least = room / 4 + 1;
            live.fault(format!("is {found}, and a bucket of {room} slots in use has at least {least} live"))
        }
        _ => return None,
    };
    Some(fault)
}

// All buckets but the last together have room for fewer than the table holds, so it is the last that makes too many.
fn total_fault(layout: &Layout) -> Option<ImageFault> {
    let (last, most) = (layout.live(layout.order.get())?, layout.order.capacity() as u64);
    let total: u64 = layout.buckets().filter_map(|bucket| Some(layout.live(bucket)?.number)).sum();
    let words = format!("is {}, which makes {total} live in all, and the table holds {most}", last.number);
    (total > most).then(|| last.fault(words))
}

fn day_fault(day: Field) -> Option<ImageFault> {
    (day.number == 0).then(|| day.fault("is 0, and the least is 1".to_string()))
}

fn field_fault(layout: &Layout) -> Option<ImageFault> {
    let slots = layout.slots()?;
    let in_bucket = |bucket| marks_fault(layout.live(bucket)?, &slots);
    slots.iter().find_map(slot_fault).or_else(|| layout.buckets().find_map(in_bucket))
}

fn slot_fault(slot: &Slot) -> Option<ImageFault> {
    tag_fault(slot.tag()?).or_else(|| slot.measures().find_map(measure_fault)).or_else(|| mark_fault(slot.mark()?))
}

fn tag_fault(tag: Field) -> Option<ImageFault> {
    let words = match (tag.number / COUNTRY, tag.number % COUNTRY) {
        (0, _) => "has country 0".to_string(),
        (country @ 1000.., _) => format!("has country {country}, and the largest is 999"),
        (_, national) if national > LAST_NATIONAL => {
            format!("has national number {national}, and the largest is {LAST_NATIONAL}")
        }
        _ => return None,
    };
    Some(tag.fault(words))
}

fn measure_fault(measure: Field) -> Option<ImageFault> {
    const MOST: i32 = Profile::MAX_MEASURE;
    let words = match measure.number as i32 {
        found if found > MOST => format!("is {found}, and the largest is {MOST}"),
        found if found < -MOST => format!("is {found}, and the least is -{MOST}"),
        _ => return None,
    };
    Some(measure.fault(words))
}

fn mark_fault(mark: Field) -> Option<ImageFault> {
    let found = mark.number;
    (found > 1).then(|| mark.fault(format!("is {found}, and a mark is 0 or 1")))
}

// The live size of a bucket whose marks say otherwise.
fn marks_fault(live: Field, slots: &[Slot]) -> Option<ImageFault> {
    let marked = slots.iter().filter(|slot| Some(slot.at.bucket) == live.bucket && slot.is_live()).count();
    let found = live.number;
    (found != marked as u64).then(|| live.fault(format!("is {found}, and the number of its 0 marks is {marked}")))
}

fn tree_fault(slots: &[Slot], refusal: Refusal, at: usize) -> Option<ImageFault> {
    let slot = slots.get(at)?;
    match refusal {
        Refusal::DuplicateTag => twice_fault(&slots[..at], slot),
        Refusal::MisplacedItem => {
            Some(slot.item()?.fault("is not the one that the tree's layout puts there".to_string()))
        }
        Refusal::BadThreshold => {
            let threshold = slot.threshold()?;
            let words = format!("is {}, which is not what the tree's layout gives it", threshold.number);
            Some(threshold.fault(words))
        }
        _ => None,
    }
}

fn twice_fault(earlier: &[Slot], slot: &Slot) -> Option<ImageFault> {
    let tag = slot.tag()?;
    let is_beside = |other: &Slot| other.at.bucket == slot.at.bucket;
    let other = earlier.iter().find(|other| {
        let has_it = other.tag().is_some_and(|other| other.number == tag.number);
        has_it && (is_beside(other) || other.is_live() && slot.is_live())
    })?;
    let also = if is_beside(other) { "" } else { ", and both are live" };
    let words = format!("is {:015}, which {} has{also}", tag.number, other.at);
    Some(tag.fault(words))
}

#[cfg(test)]
mod tests {
    use std::vec::Vec;

    use super::*;
    use crate::{Day, Table, Tag};

    // Of order 2 in every form, and full: two in bucket 1, and four in bucket 2, of which these two are dead. Tags and
    // measures are at the ends of their ranges.
    fn images() -> [Vec<u8>; 3] {
        let most = Profile::MAX_MEASURE;
        let profile = Profile::new([most, -most, most, -most], [0, 0]).expect("in range");
        let tags = [(1, 0), (1, LAST_NATIONAL), (999, 0), (999, LAST_NATIONAL)];
        let tags = tags.map(|(country, national)| Tag::new(country, national).expect("valid"));
        let mut table = Table::new(Order::new(2).expect("valid"), Metric::SumOfDifferences);
        tags.iter().for_each(|&tag| _ = table.add(tag, &profile, Day::MIN).expect("room"));
        tags[..2].iter().for_each(|&tag| _ = table.remove(tag).expect("there"));
        tags[..2].iter().for_each(|&tag| _ = table.add(tag, &profile, Day::MIN).expect("room"));
        let image = table.image();
        let (front, records) = image.split_at(8 + 3 * 4 + 6 * 8);
        let undated: Vec<&[u8]> = records.chunks(42).map(|record| &record[..40]).collect();
        let of_form = |start: &[u8]| [start, &front[8..], &undated.concat()].concat();
        [of_form(&[2, 0, 0, 0]), of_form(&[2, 0, 1, 0, 1, 1, 1, 1]), image]
    }

    fn refusals() -> impl Iterator<Item = Refusal> {
        (1..=42).filter_map(|number| Refusal::check(number).err())
    }

    // Whatever an archive refuses a sound image for: of a tree it is the slot alone that is known.
    #[test]
    fn no_fault_in_sound_bytes() {
        for image in images() {
            Table::load(&image).expect("it is sound");
            for (refusal, slot) in refusals().flat_map(|refusal| (0..8).map(move |slot| (refusal, slot))) {
                let fault = ImageFault::of(&image, refusal, slot);
                let is_told = matches!(refusal, Refusal::MisplacedItem | Refusal::BadThreshold) && slot < 6;
                assert_eq!(fault.map(|fault| fault.slot.map(|at| at.slot)), is_told.then_some(Some(slot)));
            }
        }
    }

    // Weights and days that the form does not have, and slots where the length is not theirs.
    #[test]
    fn no_fault_in_fields_that_are_not_there() {
        let weightless = [0, 0, 0, 0, 101, 101, 101, 101];
        assert_eq!(ImageFault::of(&weightless, Refusal::BadWeight, 0), None);
        for mut undated in images().into_iter().take(2) {
            let records = undated.len() - 6 * 40;
            undated[records..].fill(0);
            assert_eq!(ImageFault::of(&undated, Refusal::BadDay, 0), None);
        }
        for image in images() {
            let longer = [&image[..], &[0]].concat();
            for refusal in refusals().filter(|&refusal| refusal != Refusal::BadLength) {
                let faults = [&image[..image.len() - 1], &longer].map(|other| ImageFault::of(other, refusal, 1));
                assert_eq!(faults, [None, None], "{refusal}");
            }
        }
    }

    // Any bytes, in an image or cut from it, by any refusal and at any slot: what is told lies in them.
    #[test]
    fn any_bytes_by_any_refusal() {
        let mut state = 1_u64;
        let mut below = |bound: usize| {
            state = state.wrapping_mul(6_364_136_223_846_793_005).wrapping_add(1_442_695_040_888_963_407);
            (state >> 33) as usize % bound
        };
        let (images, mut told) = (images(), 0);
        for round in 0..2_000 {
            let mut bytes = images[round % 3].clone();
            for _ in 0..below(6) {
                let (at, byte) = (below(bytes.len()), below(256) as u8);
                bytes[at] = [byte, 0, 1, 12, 255][below(5)];
            }
            bytes.truncate(if below(4) == 0 { below(bytes.len()) } else { bytes.len() });
            let slot = [0, 5, 6, u32::MAX][below(4)];
            for fault in refusals().filter_map(|refusal| ImageFault::of(&bytes, refusal, slot)) {
                assert!(fault.bytes.start <= fault.bytes.end && fault.bytes.end <= bytes.len(), "{fault}");
                told += 1;
            }
        }
        assert!(told > 2_000, "{told}");
    }
}
