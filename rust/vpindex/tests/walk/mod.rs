//! The fields of an image, read from its first byte on and apart from how the crate does it, and which of them it was
//! refused for.

use std::ops::Range;

use vpindex::{Metric, Order, Profile, SlotAt, Tag, Weights, ffi};

const WEIGHTS: [&str; 4] = ["weight of kg", "weight of hip", "weight of girth", "weight of gain"];
pub const MEASURES: [&str; 4] = ["measure kg", "measure hip", "measure girth", "measure gain"];

// A field of an image, with its number.
pub struct Part {
    pub name: &'static str,
    pub bytes: Range<usize>,
    pub bucket: Option<u32>,
    pub slot: Option<SlotAt>,
    pub number: u64,
}

// The fields of an image one after the other, as far as it goes.
struct Walk<'a> {
    image: &'a [u8],
    parts: Vec<Part>,
}

impl Walk<'_> {
    fn take(&mut self, name: &'static str, length: usize, bucket: Option<u32>, slot: Option<SlotAt>) -> u64 {
        let at = self.parts.last().map_or(0, |part| part.bytes.end);
        let Some(bytes) = self.image.get(at..at + length) else { return 0 };
        let mut number = [0; 8];
        number[..length].copy_from_slice(bytes);
        let number = u64::from_le_bytes(number);
        self.parts.push(Part { name, bytes: at..at + length, bucket, slot, number });
        number
    }

    fn sizes(&mut self, bucket: u32) -> u64 {
        let [built, _] = ["built size", "live size"].map(|name| self.take(name, 2, Some(bucket), None));
        built
    }

    fn record(&mut self, slot: SlotAt, has_day: bool) {
        let [kg, hip, girth, gain] = MEASURES.map(|name| (name, 4));
        let behind = [("code", 8), ("code", 8), ("threshold", 4), ("mark", 4), ("day", 2)];
        let fields = [kg, hip, girth, gain].into_iter().chain(behind).take(8 + has_day as usize);
        fields.for_each(|(name, length)| _ = self.take(name, length, Some(slot.bucket), Some(slot)));
    }
}

pub fn walked(image: &[u8]) -> Vec<Part> {
    let mut walk = Walk { image, parts: vec![] };
    let [order, _, form] = [("order", 1), ("metric", 1), ("form", 2)].map(|(name, n)| walk.take(name, n, None, None));
    let weights = WEIGHTS.into_iter().filter(|_| form != 0);
    weights.for_each(|name| _ = walk.take(name, 1, None, None));
    let mut slots: Vec<SlotAt> = vec![];
    for bucket in 0..=order as u32 {
        // there is no byte for more slots than this
        let built = walk.sizes(bucket).min(image.len() as u64) as u32;
        slots.extend((slots.len() as u32..).zip(0..built).map(|(slot, place)| SlotAt { slot, bucket, place }));
    }
    slots.iter().for_each(|&slot| _ = walk.take("tag", 8, Some(slot.bucket), Some(slot)));
    slots.iter().for_each(|&slot| walk.record(slot, form == 2));
    walk.parts
}

// Whether it breaks a rule by itself.
fn is_wrong(part: &Part) -> bool {
    let number = part.number as u32;
    match part.name {
        "order" => Order::new(number).is_err(),
        "metric" => Metric::try_from(number).is_err(),
        "form" => number > 2,
        "tag" => Tag::try_from(part.number).is_err(),
        "mark" => number > 1,
        "day" => number == 0,
        name if WEIGHTS.contains(&name) => Weights::new([number, 0, 0, 0]).is_err(),
        name if MEASURES.contains(&name) => Profile::new([number as i32, 0, 0, 0], [0, 0]).is_err(),
        _ => false,
    }
}

fn first_wrong<'a>(parts: &'a [Part], names: &[&str]) -> Option<&'a Part> {
    let wrong = parts.iter().filter(|part| names.contains(&part.name) && is_wrong(part));
    wrong.min_by_key(|part| (part.slot.map(|at| at.slot), part.bytes.start))
}

fn all<'a>(parts: &'a [Part], name: &'static str) -> impl Iterator<Item = &'a Part> + Clone {
    parts.iter().filter(move |part| part.name == name)
}

// The live size that the marks of its bucket do not number.
fn wrong_count(parts: &[Part]) -> Option<&Part> {
    all(parts, "live size").find(|live| {
        let marked = all(parts, "mark").filter(|mark| mark.bucket == live.bucket && mark.number == 0);
        marked.count() as u64 != live.number
    })
}

// Of the first bucket whose sizes break a rule, else the last live size, with which there are too many.
fn wrong_size(parts: &[Part]) -> Option<&Part> {
    let sizes = all(parts, "built size").zip(all(parts, "live size"));
    let wrong = sizes.filter_map(|(built, live)| {
        let (room, n, m) = (1 << built.bucket?, built.number, live.number);
        let is_built_wrong = n > room || n > 0 && 2 * n <= room;
        let is_live_wrong = m > n || n > 0 && 4 * m <= room;
        if is_built_wrong { Some(built) } else { is_live_wrong.then_some(live) }
    });
    wrong.chain(all(parts, "live size").last()).next()
}

// The field that an image was refused for.
pub fn expected(parts: &[Part], reply: ffi::Loaded) -> Option<&Part> {
    let of_slot = |name| all(parts, name).nth(reply.slot as usize);
    match reply.refusal {
        3 => first_wrong(parts, &["order"]),
        4 => first_wrong(parts, &["metric"]),
        8 => first_wrong(parts, &["form"])
            .or_else(|| first_wrong(parts, &[&MEASURES[..], &["tag", "mark"]].concat()))
            .or_else(|| wrong_count(parts)),
        24 => wrong_size(parts),
        32 => first_wrong(parts, &WEIGHTS),
        33 => first_wrong(parts, &["day"]),
        36 | 37 => of_slot("tag"),
        38 => of_slot("threshold"),
        number => panic!("{number} is for no field"),
    }
}

// How long its fields make an image, those before the slots if it ends in them.
pub fn length_of(image: &[u8]) -> usize {
    let &[order, _, form, _, ..] = image else { return 4 };
    let front = if form == 0 { 4 } else { 8 };
    let tags = front + 4 * (order as usize + 1);
    let built: u64 = all(&walked(image), "built size").map(|built| built.number).sum();
    let whole = tags + if form == 2 { 50 } else { 48 } * built as usize;
    [front, tags].into_iter().find(|&end| image.len() < end).unwrap_or(whole)
}

// The words for a tag that an earlier slot has.
pub fn twice(parts: &[Part], slot: usize) -> String {
    let slots = all(parts, "tag").zip(all(parts, "mark"));
    let (tag, mark) = slots.clone().nth(slot).expect("a slot");
    let is_beside = |other: &Part| other.bucket == tag.bucket;
    let (earlier, _) = slots
        .take(slot)
        .find(|(other, its)| other.number == tag.number && (is_beside(other) || [mark.number, its.number] == [0, 0]))
        .expect("an earlier slot");
    let SlotAt { slot, bucket, place } = earlier.slot.expect("of a slot");
    let also = if is_beside(earlier) { "" } else { ", and both are live" };
    format!("is {:015}, which slot {slot} (slot {place} of bucket {bucket}) has{also}", tag.number)
}
