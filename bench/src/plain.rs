//! The same method in plain Rust, as one would write it who owns the table: buckets of slots, built, searched and
//! shrunk by the same rules, with no check of what it wrote itself. And the scans.

use crate::index::{Hit, Index, weights};
use crate::items::{DAY, Profile, Query};

#[derive(Clone, Copy, Default)]
pub struct Slot {
    pub tag: u64,
    pub profile: Profile,
    threshold: u32,
    mark: u32,
    day: u16,
}

#[derive(Clone, Default)]
struct Bucket {
    live: usize,
    slots: Vec<Slot>,
}

/// What a distance depends on.
#[derive(Clone, Copy)]
pub struct Space {
    metric: u32,
    weights: [u32; 4],
}

pub struct Plain {
    order: usize,
    space: Space,
    buckets: Vec<Bucket>,
    hits: Vec<Hit>,
    image: Vec<u8>,
}

impl Space {
    pub fn new(metric: u32) -> Space {
        Space { metric, weights: weights() }
    }
}

// A sum of four differences of 32 bits, each by a weight up to 100, fits 64 bits.
pub fn distance(space: &Space, a: &Profile, b: &Profile) -> u32 {
    let weighted = (0..4).map(|i| a.measures[i].abs_diff(b.measures[i]) as u64 * space.weights[i] as u64);
    match space.metric {
        0 => weighted.sum::<u64>().min(u32::MAX as u64) as u32,
        1 => (a.code[0] ^ b.code[0]).count_ones() + (a.code[1] ^ b.code[1]).count_ones(),
        _ => weighted.fold(0, u64::max).min(u32::MAX as u64) as u32,
    }
}

// The tree of these items, in place: the smallest tag first, the rest by distance from it and tag, each half likewise.
// The threshold has the distance on the way. Gives the number of distances.
fn build(space: &Space, part: &mut [Slot]) -> u32 {
    let Some(least) = (0..part.len()).min_by_key(|&i| part[i].tag) else { return 0 };
    part.swap(0, least);
    let half = part.len() / 2;
    let (first, rest) = part.split_first_mut().expect("not empty");
    for slot in rest.iter_mut() {
        slot.threshold = distance(space, &first.profile, &slot.profile);
    }
    rest.sort_unstable_by_key(|slot| (slot.threshold, slot.tag));
    first.threshold = if half == 0 { 0 } else { rest[half - 1].threshold };
    first.mark = 0;
    let n = rest.len() as u32;
    let (left, right) = rest.split_at_mut(half);
    n + build(space, left) + build(space, right)
}

impl Plain {
    fn find(&self, tag: u64) -> Option<(usize, usize)> {
        let at = |bucket: &Bucket| bucket.slots.iter().position(|slot| slot.tag == tag && slot.mark == 0);
        self.buckets.iter().enumerate().find_map(|(k, bucket)| Some((k, at(bucket)?)))
    }

    fn gather(&mut self, k: usize, items: &mut Vec<Slot>) {
        let bucket = &mut self.buckets[k];
        items.extend(bucket.slots.drain(..).filter(|slot| slot.mark == 0));
        bucket.live = 0;
    }

    fn put(&mut self, k: usize, mut items: Vec<Slot>) -> u32 {
        let distances = build(&self.space, &mut items);
        self.buckets[k] = Bucket { live: items.len(), slots: items };
        distances
    }

    fn shrink(&mut self, k: usize) -> u32 {
        let live = self.buckets[k].live;
        if live == 0 {
            self.buckets[k].slots.clear();
        }
        if live == 0 || 4 * live > 1 << k {
            return 0;
        }
        let used = |down: usize| !self.buckets[k - down].slots.is_empty();
        let (other, target) = match (used(1), used(2)) {
            (true, _) if self.buckets[k - 1].live > 1 << (k - 2) => (Some(k - 1), k),
            (true, _) => (Some(k - 1), k - 1),
            (false, true) => (Some(k - 2), k - 1),
            (false, false) => (None, k - 2),
        };
        let mut items = vec![];
        self.gather(k, &mut items);
        if let Some(other) = other {
            self.gather(other, &mut items);
        }
        self.put(target, items)
    }

    /// All items, in any order: what a scan goes over.
    pub fn items(&self) -> Vec<Slot> {
        self.buckets.iter().flat_map(|bucket| &bucket.slots).filter(|slot| slot.mark == 0).copied().collect()
    }
}

impl Index for Plain {
    fn new(order: u32, metric: u32) -> Plain {
        let order = order as usize;
        Plain {
            order,
            space: Space::new(metric),
            buckets: vec![Bucket::default(); order + 1],
            hits: vec![],
            image: vec![],
        }
    }

    fn add(&mut self, tag: u64, profile: &Profile) -> u32 {
        assert!(self.find(tag).is_none());
        let k = self.buckets.iter().position(|bucket| bucket.slots.is_empty()).unwrap_or(self.order + 1);
        let mut items = Vec::with_capacity(1 << k);
        items.push(Slot { tag, profile: *profile, day: DAY, ..Slot::default() });
        for lower in 0..k {
            self.gather(lower, &mut items);
        }
        let target = if 2 * items.len() > 1 << k { k } else { k - 1 };
        self.put(target, items)
    }

    fn remove(&mut self, tag: u64) -> u32 {
        let (k, slot) = self.find(tag).expect("live");
        self.buckets[k].slots[slot].mark = 1;
        self.buckets[k].live -= 1;
        self.shrink(k)
    }

    fn look_up(&mut self, tag: u64) -> Profile {
        let (k, slot) = self.find(tag).expect("live");
        self.buckets[k].slots[slot].profile
    }

    fn range(&mut self, query: &Query, radius: u32, _room: usize) -> u32 {
        let mut hits = std::mem::take(&mut self.hits);
        hits.clear();
        let mut count = 0;
        for bucket in self.buckets.iter().rev() {
            tree_range(&self.space, &bucket.slots, query, radius, &mut hits, &mut count);
        }
        hits.sort_unstable();
        self.hits = hits;
        count
    }

    fn nearest(&mut self, query: &Query, k: usize) -> u32 {
        let mut hits = std::mem::take(&mut self.hits);
        hits.clear();
        let mut count = 0;
        for bucket in self.buckets.iter().rev() {
            tree_nearest(&self.space, &bucket.slots, query, k, &mut hits, &mut count);
        }
        self.hits = hits;
        count
    }

    fn hits(&self) -> Vec<Hit> {
        self.hits.clone()
    }

    fn write(&mut self) {
        let image = &mut self.image;
        image.clear();
        image.extend([self.order as u8, self.space.metric as u8, 2, 0]);
        image.extend(self.space.weights.map(|weight| weight as u8));
        for bucket in &self.buckets {
            image.extend((bucket.slots.len() as u16).to_le_bytes());
            image.extend((bucket.live as u16).to_le_bytes());
        }
        for slot in self.buckets.iter().flat_map(|bucket| &bucket.slots) {
            image.extend(slot.tag.to_le_bytes());
        }
        for slot in self.buckets.iter().flat_map(|bucket| &bucket.slots) {
            image.extend(slot.profile.measures.map(i32::to_le_bytes).as_flattened());
            image.extend(slot.profile.code.map(u64::to_le_bytes).as_flattened());
            image.extend(slot.threshold.to_le_bytes());
            image.extend(slot.mark.to_le_bytes());
            image.extend(slot.day.to_le_bytes());
        }
    }

    fn image(&self) -> &[u8] {
        &self.image
    }

    // Reads the slots and builds every bucket again, to see that the image has the same trees.
    fn load(&mut self, image: &[u8]) {
        let mut at = 8;
        let mut take = |n: usize| {
            at += n;
            &image[at - n..at]
        };
        let word = |bytes: &[u8]| bytes.iter().rev().fold(0u64, |sum, byte| sum << 8 | *byte as u64);
        let sizes: Vec<[usize; 2]> = (0..=self.order).map(|_| [0; 2].map(|_| word(take(2)) as usize)).collect();
        for (bucket, [built, live]) in self.buckets.iter_mut().zip(&sizes) {
            bucket.live = *live;
            bucket.slots.clear();
            bucket.slots.extend((0..*built).map(|_| Slot { tag: word(take(8)), ..Slot::default() }));
        }
        for slot in self.buckets.iter_mut().flat_map(|bucket| &mut bucket.slots) {
            slot.profile.measures = [0; 4].map(|_| word(take(4)) as i32);
            slot.profile.code = [0; 2].map(|_| word(take(8)));
            (slot.threshold, slot.mark) = (word(take(4)) as u32, word(take(4)) as u32);
            slot.day = word(take(2)) as u16;
        }
        for bucket in &self.buckets {
            let mut again = bucket.slots.clone();
            build(&self.space, &mut again);
            let same = |(a, b): (&Slot, &Slot)| a.tag == b.tag && a.threshold == b.threshold;
            assert!(again.iter().zip(&bucket.slots).all(same));
        }
    }
}

impl Slot {
    fn may_report(&self, query: &Query) -> bool {
        self.mark == 0 && self.day >= query.first_day
    }
}

fn tree_range(space: &Space, slots: &[Slot], query: &Query, radius: u32, hits: &mut Vec<Hit>, count: &mut u32) {
    let Some((slot, rest)) = slots.split_first() else { return };
    let d = distance(space, &slot.profile, &query.profile);
    *count += 1;
    if d <= radius && slot.may_report(query) {
        hits.push((d, slot.tag));
    }
    let (left, right) = rest.split_at(slots.len() / 2);
    let (d, m, r) = (d as u64, slot.threshold as u64, radius as u64);
    if d <= m + r {
        tree_range(space, left, query, radius, hits, count);
    }
    if d + r >= m {
        tree_range(space, right, query, radius, hits, count);
    }
}

fn tree_nearest(space: &Space, slots: &[Slot], query: &Query, k: usize, best: &mut Vec<Hit>, count: &mut u32) {
    let Some((slot, rest)) = slots.split_first() else { return };
    let d = distance(space, &slot.profile, &query.profile);
    *count += 1;
    if (best.len() < k || (d, slot.tag) < best[k - 1]) && slot.may_report(query) {
        insert(best, k, (d, slot.tag));
    }
    let (left, right) = rest.split_at(slots.len() / 2);
    let (d, m) = (d as u64, slot.threshold as u64);
    let bound = |best: &Vec<Hit>| if best.len() < k { u32::MAX as u64 * 2 } else { best[k - 1].0 as u64 };
    let left_first = d <= m;
    for is_left in [left_first, !left_first] {
        if is_left && d <= m + bound(best) {
            tree_nearest(space, left, query, k, best, count);
        }
        if !is_left && d + bound(best) >= m {
            tree_nearest(space, right, query, k, best, count);
        }
    }
}

// The hit is put in its order among the best, of which there are at most k.
fn insert(best: &mut Vec<Hit>, k: usize, hit: Hit) {
    if best.len() == k {
        best.pop();
    }
    let at = best.partition_point(|other| *other < hit);
    best.insert(at, hit);
}

/// A scan that keeps the k best. The metric is told before the loop, the worst one kept is at hand, and the distance is
/// asked before the tag: without any of these the scan was slower.
pub fn scan_nearest(space: &Space, slots: &[Slot], query: &Query, k: usize, best: &mut Vec<Hit>) {
    let by = |metric| Space { metric, ..*space };
    let (asked, first_day) = (&query.profile, query.first_day);
    match space.metric {
        0 => keep_best(slots, first_day, k, best, |p| distance(&by(0), p, asked)),
        1 => keep_best(slots, first_day, k, best, |p| distance(&by(1), p, asked)),
        _ => keep_best(slots, first_day, k, best, |p| distance(&by(2), p, asked)),
    }
}

fn keep_best(slots: &[Slot], first_day: u16, k: usize, best: &mut Vec<Hit>, distance_of: impl Fn(&Profile) -> u32) {
    best.clear();
    let mut worst = (u32::MAX, u64::MAX);
    for slot in slots {
        let hit = (distance_of(&slot.profile), slot.tag);
        if hit.0 <= worst.0 && hit < worst && slot.day >= first_day {
            insert(best, k, hit);
            if best.len() == k {
                worst = best[k - 1];
            }
        }
    }
}

/// A scan that sorts its hits.
pub fn scan_range(space: &Space, slots: &[Slot], query: &Query, radius: u32, hits: &mut Vec<Hit>) {
    hits.clear();
    for slot in slots {
        let d = distance(space, &slot.profile, &query.profile);
        if d <= radius && slot.day >= query.first_day {
            hits.push((d, slot.tag));
        }
    }
    hits.sort_unstable();
}
