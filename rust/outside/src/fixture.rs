//! A table with areas as long as its order needs, for tests that make their calls one by one.

use reference::item::{Profile, ROW_WORDS, Row, Space};
use reference::table::{capacity, table_rows};

use crate::calls::{Areas, Call, Reply, compare};
use crate::random::{MIN_TAG, Random};

/// The tag of country 36 with this national number.
pub fn tag(national: u64) -> u64 {
    36 * MIN_TAG + national
}

/// A profile of these measures and code zero.
pub fn measured(measures: [i32; 4]) -> Profile {
    Profile { measures, code: [0, 0] }
}

/// The areas, none of them zero before its first call.
pub struct Fixture {
    /// As the last call left them.
    pub areas: Areas,
    /// For the guards around them.
    pub random: Random,
}

impl Fixture {
    /// With this table, of an order for which the other areas are long enough.
    pub fn of(order: u32, table: Vec<Row>) -> Fixture {
        let areas = Areas {
            table,
            work: vec![[1; ROW_WORDS]; capacity(order)],
            result: vec![[1; 2]; capacity(order)],
            bytes: vec![1; 4096],
            tags: vec![],
            dues: vec![],
            radii: vec![],
            draft: vec![[1; 2]; capacity(order)],
            summary: vec![],
            listing: vec![[1; 2]; capacity(order)],
        };
        Fixture { areas, random: Random::new(11) }
    }

    /// With a fresh table.
    pub fn fresh(order: u32, space: Space) -> Fixture {
        let mut fixture = Fixture::of(order, vec![[1; ROW_WORDS]; table_rows(order)]);
        assert_eq!(fixture.refusal(Call::Fresh { order, space }), 0);
        fixture
    }

    /// The call, by the archive and by the reference.
    pub fn call(&mut self, call: Call) -> Reply {
        compare(&call, &mut self.areas, &mut self.random)
    }

    /// By which the call is refused, or 0.
    pub fn refusal(&mut self, call: Call) -> u32 {
        self.call(call).refusal
    }

    /// An add, of day 1.
    pub fn add(&mut self, national: u64, profile: Profile) -> Reply {
        self.call(Call::Add { tag: tag(national), profile, day: 1 })
    }

    /// The distances of an accepted removal.
    pub fn remove(&mut self, national: u64) -> u32 {
        let reply = self.call(Call::Remove { tag: tag(national) });
        assert_eq!(reply.refusal, 0);
        reply.distances
    }

    /// The entries of an accepted search as national number and distance, and its count.
    pub fn search(&mut self, call: Call) -> (Vec<(u64, u64)>, u32) {
        let reply = self.call(call);
        assert_eq!(reply.refusal, 0);
        let found = &self.areas.result[..reply.found as usize];
        (found.iter().map(|entry| (entry[0] - tag(0), entry[1])).collect(), reply.distances)
    }

    /// A search by range for items of any day.
    pub fn range(&mut self, query: Profile, radius: u32) -> (Vec<(u64, u64)>, u32) {
        self.search(Call::Range { query, radius, first_day: 0 })
    }

    /// A search for the nearest items of any day.
    pub fn nearest(&mut self, query: Profile, k: u32) -> (Vec<(u64, u64)>, u32) {
        self.search(Call::Nearest { query, k, first_day: 0 })
    }
}
