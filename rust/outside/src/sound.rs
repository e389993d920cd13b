//! Tables that keep every rule, made directly: any sizes that pass, dead slots too.

use std::collections::HashSet;

use reference::item::{Slot, Space};
use reference::table::{Bucket, Table, capacity};
use reference::tree::layout;

use crate::random::Random;

/// Sizes that pass, built and live: each bucket empty or in use, and at most so many live in all.
fn sizes(random: &mut Random, order: u32, most: usize) -> Vec<(u32, u32)> {
    let mut left = most as i64;
    let mut sizes = vec![(0, 0); order as usize + 1];
    for k in (0..=order).rev() {
        let room = 1i64 << k;
        let least = room / 4 + 1;
        if least <= left && !random.one_in(3) {
            let built = random.within(room / 2 + 1, room).max(least);
            let live = if random.one_in(3) { least } else { random.within(least, built) }.min(left);
            left -= live;
            sizes[k as usize] = (built as u32, live as u32);
        }
    }
    sizes
}

// Tags that no slot of this bucket has, and if it is to be live no live slot at all.
struct Tags {
    live: HashSet<u64>,
    dead: Vec<u64>,
}

impl Tags {
    fn next(&mut self, random: &mut Random, bucket: &HashSet<u64>, live: bool, pool: usize) -> u64 {
        loop {
            let tag = self.candidate(random, pool);
            let taken = bucket.contains(&tag) || live && self.live.contains(&tag);
            if !taken {
                return tag;
            }
        }
    }

    // a dead one may be of another bucket's tag
    fn candidate(&self, random: &mut Random, pool: usize) -> u64 {
        if !self.dead.is_empty() && random.one_in(4) { random.pick(&self.dead) } else { random.tag(pool) }
    }
}

fn bucket(random: &mut Random, space: &Space, (built, live): (u32, u32), tags: &mut Tags, pool: usize) -> Bucket {
    let mut own = HashSet::new();
    let mut items = vec![];
    for i in 0..built {
        let is_live = i < live;
        let tag = tags.next(random, &own, is_live, pool);
        own.insert(tag);
        if is_live {
            tags.live.insert(tag);
        } else {
            tags.dead.push(tag);
        }
        let (profile, day) = (random.profile(), random.day() as u32);
        items.push(Slot { tag, profile, threshold: 0, mark: !is_live as u32, day });
    }
    let dead: HashSet<u64> = items.iter().filter(|item| !item.is_live()).map(|item| item.tag).collect();
    let mut slots = layout(space, &items);
    for slot in &mut slots {
        slot.mark = dead.contains(&slot.tag) as u32;
    }
    Bucket { built, live, slots }
}

/// How many different tags a list on a table of this order uses.
pub fn pool(order: u32) -> usize {
    4 * capacity(order) + 4
}

/// A table of this order, metric and weights that load would accept.
pub fn table(random: &mut Random, order: u32, space: Space) -> Table {
    let sizes = sizes(random, order, capacity(order));
    table_of(random, order, space, sizes)
}

/// Sizes that pass, or such as have too many live in all and break no other rule.
pub fn nearly(random: &mut Random, order: u32) -> Vec<(u32, u32)> {
    let mut sizes = sizes(random, order, capacity(order));
    if random.one_in(6) {
        let (k, last) = (random.below(order as usize), order as usize);
        sizes[k] = (1 << k, 1 << k);
        sizes[last] = (1 << last, 1 << last);
    }
    sizes
}

/// A table of these sizes that keeps every other rule.
pub fn table_of(random: &mut Random, order: u32, space: Space, sizes: Vec<(u32, u32)>) -> Table {
    let mut tags = Tags { live: HashSet::new(), dead: vec![] };
    let buckets = sizes.into_iter().map(|size| bucket(random, &space, size, &mut tags, pool(order))).collect();
    Table { order, space, buckets }
}
