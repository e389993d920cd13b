//! One tree: its layout, what a build costs, and the searches over its slots.

use crate::item::{Profile, Slot, Space, distance};

/// The slots of the tree of these items, which rank as they stand.
pub fn layout(space: &Space, items: &[Slot]) -> Vec<Slot> {
    let mut slots = Vec::with_capacity(items.len());
    place(space, items.iter().enumerate().collect(), &mut slots);
    slots
}

// The smallest tag, then the left half of the others and the right one, each laid out likewise.
fn place(space: &Space, ranked: Vec<(usize, &Slot)>, slots: &mut Vec<Slot>) {
    let Some(&(least, first)) = ranked.iter().min_by_key(|(rank, item)| (item.tag, *rank)) else { return };
    let away = |item: &Slot| distance(space, &first.profile, &item.profile);
    let mut left: Vec<_> = ranked.iter().filter(|(rank, _)| *rank != least).copied().collect();
    left.sort_by_key(|(rank, item)| (away(item), item.tag, *rank));
    let right = left.split_off(ranked.len() / 2);
    slots.push(Slot { threshold: left.last().map_or(0, |(_, item)| away(item)), mark: 0, ..*first });
    place(space, left, slots);
    place(space, right, slots);
}

/// c(n), the distances that a build of n items works out.
pub fn cost(n: usize) -> u32 {
    if n < 2 { 0 } else { (n - 1) as u32 + cost(n / 2) + cost(n - 1 - n / 2) }
}

/// Marks the slots that a search within the radius meets: those all of whose ancestors let their side be entered.
pub fn mark_met(space: &Space, query: &Profile, radius: u32, slots: &[Slot], met: &mut [bool]) {
    let Some((first, rest)) = slots.split_first() else { return };
    met[0] = true;
    let (left, right) = rest.split_at(slots.len() / 2);
    let (met_left, met_right) = met[1..].split_at_mut(left.len());
    let (d, m, r) = (distance(space, &first.profile, query) as u64, first.threshold as u64, radius as u64);
    if d <= m + r {
        mark_met(space, query, radius, left, met_left);
    }
    if d + r >= m {
        mark_met(space, query, radius, right, met_right);
    }
}

/// A distance and a tag: so they stand in order.
pub type Hit = (u32, u64);

/// What is looked for: how many at most, or how far at most.
#[derive(Clone, Copy)]
pub enum Wanted {
    /// All within the radius.
    Within(u32),
    /// The nearest, so many.
    Nearest(u32),
}

/// A search on its way through the trees.
pub struct Search {
    space: Space,
    query: Profile,
    wanted: Wanted,
    first_day: u16,
    /// What was found, in order.
    pub hits: Vec<Hit>,
    /// How many slots were met.
    pub count: u32,
}

impl Search {
    /// Before its first slot.
    pub fn new(space: Space, query: Profile, wanted: Wanted, first_day: u16) -> Search {
        Search { space, query, wanted, first_day, hits: vec![], count: 0 }
    }

    /// Goes through one tree.
    pub fn visit(&mut self, slots: &[Slot]) {
        let Some((first, rest)) = slots.split_first() else { return };
        let d = distance(&self.space, &first.profile, &self.query);
        self.count += 1;
        if first.may_report(self.first_day) {
            self.take((d, first.tag));
        }
        let (left, right) = rest.split_at(slots.len() / 2);
        let (d, m) = (d as u64, first.threshold as u64);
        // The half on the query's side goes first. For range the order makes no difference.
        for is_left in if d <= m { [true, false] } else { [false, true] } {
            let enters = self.radius().is_none_or(|r| if is_left { d <= m + r } else { d + r >= m });
            if enters {
                self.visit(if is_left { left } else { right });
            }
        }
    }

    // How far from the query a half may lie, where there is a bound yet.
    fn radius(&self) -> Option<u64> {
        match self.wanted {
            Wanted::Within(radius) => Some(radius as u64),
            Wanted::Nearest(k) if self.hits.len() < k as usize => None,
            Wanted::Nearest(_) => self.hits.last().map(|hit| hit.0 as u64),
        }
    }

    fn take(&mut self, hit: Hit) {
        if matches!(self.wanted, Wanted::Within(radius) if hit.0 > radius) {
            return;
        }
        let at = self.hits.partition_point(|other| *other < hit);
        self.hits.insert(at, hit);
        if let Wanted::Nearest(k) = self.wanted {
            self.hits.truncate(k as usize);
        }
    }
}
