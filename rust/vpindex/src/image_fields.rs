//! Where the fields of an image stand, and the numbers in them; docs/FORMAT.md shows them byte by byte. A field past
//! the image's end, or one that its form does not have, is not there.

use alloc::vec::Vec;
use core::fmt;
use core::ops::{Range, RangeInclusive};

use crate::Order;

/// A slot of an image. It is written as, for one, `slot 4 (slot 3 of bucket 2)`.
#[derive(Clone, Copy, Debug, PartialEq, Eq, Hash)]
pub struct SlotAt {
    /// Counted from 0 over all slots of the image.
    pub slot: u32,
    /// The bucket that it is in.
    pub bucket: u32,
    /// Counted from 0 in its bucket.
    pub place: u32,
}

impl fmt::Display for SlotAt {
    fn fmt(&self, f: &mut fmt::Formatter<'_>) -> fmt::Result {
        let SlotAt { slot, bucket, place } = self;
        write!(f, "slot {slot} (slot {place} of bucket {bucket})")
    }
}

// Order, metric and form.
pub(crate) const FIRST_FIELDS: usize = 4;
const SHORT: usize = 2;
const WORD: usize = 4;
const LONG: usize = 8;
// In a record.
const THRESHOLD: usize = 32;
const MARK: usize = 36;
const DAY: usize = 40;

const WEIGHTS: [&str; 4] = ["weight of kg", "weight of hip", "weight of girth", "weight of gain"];
const MEASURES: [&str; 4] = ["measure kg", "measure hip", "measure girth", "measure gain"];

// By the form: where the sizes begin, behind the weights if it has any, and the bytes of a record, with its day if it has
// one.
const FORMS: [(usize, usize); 3] = [(4, 40), (8, 40), (8, 42)];
pub(crate) const NEWEST_FORM: u32 = FORMS.len() as u32 - 1;

pub(crate) struct Field {
    pub name: &'static str,
    pub bytes: Range<usize>,
    pub bucket: Option<u32>,
    pub slot: Option<SlotAt>,
    pub number: u64,
}

impl Field {
    fn read(image: &[u8], name: &'static str, at: usize, length: usize) -> Option<Field> {
        let bytes = at..at + length;
        let number = image.get(bytes.clone())?.iter().rev().fold(0, |number, &byte| number << 8 | byte as u64);
        Some(Field { name, bytes, bucket: None, slot: None, number })
    }
}

pub(crate) fn order(image: &[u8]) -> Option<Field> {
    Field::read(image, "order", 0, 1)
}

pub(crate) fn metric(image: &[u8]) -> Option<Field> {
    Field::read(image, "metric", 1, 1)
}

pub(crate) fn form(image: &[u8]) -> Option<Field> {
    Field::read(image, "form", 2, 2)
}

// What the first fields say of the others.
pub(crate) struct Layout<'a> {
    image: &'a [u8],
    pub order: Order,
    // where they begin
    pub sizes: usize,
    pub tags: usize,
    // the bytes of one
    record: usize,
}

impl<'a> Layout<'a> {
    // None if order or form are cut short, or not known here.
    pub(crate) fn of(image: &'a [u8]) -> Option<Layout<'a>> {
        let &(sizes, record) = FORMS.get(form(image)?.number as usize)?;
        let order = Order::new(order(image)?.number as u32).ok()?;
        let tags = sizes + 2 * SHORT * (order.get() as usize + 1);
        Some(Layout { image, order, sizes, tags, record })
    }

    pub(crate) fn weights(&self) -> impl Iterator<Item = Field> {
        let each = (FIRST_FIELDS..self.sizes).zip(WEIGHTS);
        each.filter_map(|(at, name)| Field::read(self.image, name, at, 1))
    }

    pub(crate) fn buckets(&self) -> RangeInclusive<u32> {
        0..=self.order.get()
    }

    pub(crate) fn built(&self, bucket: u32) -> Option<Field> {
        self.size("built size", bucket, 0)
    }

    pub(crate) fn live(&self, bucket: u32) -> Option<Field> {
        self.size("live size", bucket, SHORT)
    }

    fn size(&self, name: &'static str, bucket: u32, behind: usize) -> Option<Field> {
        let field = Field::read(self.image, name, self.sizes + 2 * SHORT * bucket as usize + behind, SHORT)?;
        Some(Field { bucket: Some(bucket), ..field })
    }

    // How long the sizes make the image.
    pub(crate) fn length(&self) -> Option<usize> {
        Some(self.records()? + self.record * self.count()?)
    }

    fn records(&self) -> Option<usize> {
        Some(self.tags + LONG * self.count()?)
    }

    fn count(&self) -> Option<usize> {
        self.buckets().map(|bucket| Some(self.built(bucket)?.number as usize)).sum()
    }

    // In their order. They are not there if the image is not as long as its sizes make it.
    pub(crate) fn slots(&self) -> Option<Vec<Slot<'a>>> {
        let records = self.records().filter(|_| self.length() == Some(self.image.len()))?;
        let sizes = self.buckets().filter_map(|bucket| Some((bucket, self.built(bucket)?.number as u32)));
        let places = sizes.flat_map(|(bucket, built)| (0..built).map(move |place| (bucket, place)));
        let slot = |(slot, (bucket, place))| {
            let (at, n) = (SlotAt { slot, bucket, place }, slot as usize);
            let record = records + self.record * n;
            Slot { image: self.image, at, tag: self.tags + LONG * n, record: record..record + self.record }
        };
        Some((0..).zip(places).map(slot).collect())
    }
}

pub(crate) struct Slot<'a> {
    image: &'a [u8],
    pub at: SlotAt,
    // where it begins
    tag: usize,
    record: Range<usize>,
}

impl Slot<'_> {
    pub(crate) fn tag(&self) -> Option<Field> {
        self.field("tag", self.tag, LONG)
    }

    // The whole of it, told by its tag.
    pub(crate) fn item(&self) -> Option<Field> {
        self.field("item", self.tag, LONG)
    }

    pub(crate) fn measures(&self) -> impl Iterator<Item = Field> {
        let each = self.record.clone().step_by(WORD).zip(MEASURES);
        each.filter_map(|(at, name)| self.field(name, at, WORD))
    }

    pub(crate) fn threshold(&self) -> Option<Field> {
        self.field("threshold", self.record.start + THRESHOLD, WORD)
    }

    pub(crate) fn mark(&self) -> Option<Field> {
        self.field("mark", self.record.start + MARK, WORD)
    }

    pub(crate) fn is_live(&self) -> bool {
        self.mark().is_some_and(|mark| mark.number == 0)
    }

    pub(crate) fn day(&self) -> Option<Field> {
        let at = self.record.start + DAY;
        if at < self.record.end { self.field("day", at, SHORT) } else { None }
    }

    fn field(&self, name: &'static str, at: usize, length: usize) -> Option<Field> {
        let field = Field::read(self.image, name, at, length)?;
        Some(Field { bucket: Some(self.at.bucket), slot: Some(self.at), ..field })
    }
}
