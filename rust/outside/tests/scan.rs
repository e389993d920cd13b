//! Long random lists through the safe interface, with every search held to a plain scan.

use outside::random::Random;
use reference::item::{Space, distance};
use vpindex::{Day, Hits, Item, Metric, Order, Profile, Refusal, Table, Tag, Weights};

struct Both {
    table: Table,
    items: Vec<Item>,
    // lent to every search, with room for all
    hits: Hits,
    random: Random,
}

fn plain(profile: &Profile) -> reference::item::Profile {
    reference::item::Profile { measures: profile.measures(), code: profile.code() }
}

impl Both {
    fn profile(&mut self) -> Profile {
        let profile = self.random.profile();
        Profile::new(profile.measures, profile.code).expect("in range")
    }

    fn add(&mut self, national: u64) {
        let (tag, profile) = (Tag::new(36, national).expect("valid"), self.profile());
        let day = Day::new(self.random.day()).expect("not 0");
        match self.table.add(tag, &profile, day) {
            Ok(_) => self.items.push(Item { tag, profile, day }),
            Err(refusal) => {
                assert_eq!((refusal, self.items.len()), (Refusal::Full, self.table.order().capacity()));
            }
        }
    }

    fn remove(&mut self) {
        if self.items.is_empty() {
            return;
        }
        let at = self.random.below(self.items.len());
        let item = self.items.swap_remove(at);
        assert_eq!(self.table.get(item.tag), Some(item));
        self.table.remove(item.tag).expect("live");
        assert!(!self.table.contains(item.tag));
    }

    // every item not weighed before the first day, by distance, then tag
    fn scan(&self, query: &Profile, first_day: Option<Day>) -> Vec<(u32, Tag)> {
        let space = Space { metric: self.table.metric().get(), weights: self.table.weights().each() };
        let away = |profile| distance(&space, &plain(profile), &plain(query));
        let since = self.items.iter().filter(|item| first_day.is_none_or(|first| item.day >= first));
        let mut all: Vec<_> = since.map(|item| (away(&item.profile), item.tag)).collect();
        all.sort_unstable();
        all
    }

    fn search(&mut self) {
        let (query, radius) = (self.profile(), self.random.reach());
        let (count, first_day) = (1 + self.random.below(40), Day::new(self.random.first_day()).ok());
        let all = self.scan(&query, first_day);
        let within: Vec<_> = all.iter().copied().filter(|hit| hit.0 <= radius).collect();
        let hits = self.table.range(&query, radius, first_day);
        assert!(hits.iter().map(|hit| (hit.distance(), hit.tag())).eq(within));
        self.table.range_into(&query, radius, first_day, &mut self.hits).expect("room for all");
        assert_eq!(self.hits, hits);
        let hits = self.table.nearest(&query, count as u32, first_day).expect("a count");
        assert!(hits.iter().map(|hit| (hit.distance(), hit.tag())).eq(all.into_iter().take(count)));
        self.table.nearest_into(&query, count as u32, first_day, &mut self.hits).expect("room for all");
        assert_eq!(self.hits, hits);
    }

    // every item that is live, once
    fn items(&self) {
        let by_tag = |mut items: Vec<Item>| {
            items.sort_unstable_by_key(|item| item.tag);
            items
        };
        assert_eq!(by_tag(self.table.iter().collect()), by_tag(self.items.clone()));
    }

    fn reload(&mut self) {
        let image = self.table.image();
        let weights = self.table.weights();
        self.table = Table::load(&image).expect("an image that was written");
        assert_eq!((self.table.image(), self.table.weights()), (image, weights));
    }
}

// Grows to so many, then as many adds as removals, then shrinks; searched on the way.
fn grow_and_shrink(order: u32, metric: Metric, weights: Weights, most: usize) {
    let order = Order::new(order).expect("valid");
    let table = Table::with_weights(order, metric, weights);
    let hits = Hits::with_capacity(table.capacity());
    let mut both = Both { table, items: vec![], hits, random: Random::new(order.get() as u64 + 1) };
    for (step, national) in (0..3 * most as u64).enumerate() {
        if step < most || step < 2 * most && step % 2 == 0 {
            both.add(national);
        } else {
            both.remove();
        }
        if step % 16 == 0 {
            both.search();
            both.items();
        }
        if step % 1000 == 999 {
            both.reload();
        }
        assert_eq!(both.table.len(), both.items.len());
    }
}

#[test]
fn searches_find_what_a_scan_finds() {
    for metric in [Metric::SumOfDifferences, Metric::DifferingBits, Metric::LargestDifference] {
        for each in [[1; 4], [10, 1, 100, 0], [100; 4], [0; 4]] {
            let weights = Weights::new(each).expect("in range");
            for order in [0, 1, 2, 5, 8] {
                grow_and_shrink(order, metric, weights, 1 << order);
            }
        }
        for each in [[1; 4], [10, 1, 100, 0]] {
            grow_and_shrink(12, metric, Weights::new(each).expect("in range"), 4096);
        }
    }
}
