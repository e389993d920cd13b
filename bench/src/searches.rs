//! The searches of a full table beside the same method in plain Rust and the scans.

use std::hint::black_box;

use vpindex::ffi;

use crate::index::{Archive, Hit, Index, batch_row, first_day};
use crate::items::{Profile, Query, Random, Spread, groups, profiles, tag};
use crate::measure::turns;
use crate::plain::{Plain, Slot, Space, scan_nearest, scan_range};

const QUERIES: usize = 256;
const ROUNDS: usize = 41;
const K: usize = 10;

/// Nanoseconds of a search, means of what it found and of the slots it met.
pub struct Line {
    pub search: String,
    pub found: f64,
    pub visited: f64,
    pub calls: f64,
    pub plain: f64,
    pub scan: f64,
}

/// Batches of 16 queries beside as many single calls: what a batch found in all, the slots that it met and those that the
/// single calls met together, and nanoseconds of both.
pub struct Batches {
    pub found: f64,
    pub met: f64,
    pub met_singly: f64,
    pub batch: f64,
    pub singles: f64,
}

/// A table of each kind, full or with removals in its past, and the queries.
pub struct Full {
    archive: Archive,
    plain: Plain,
    items: Vec<Slot>,
    queries: Vec<Query>,
    space: Space,
}

/// How the herd came to be: by 2^T adds, after which a quarter were removed at random, or replaced one by one.
#[derive(Clone, Copy, PartialEq, Eq)]
pub enum Past {
    Added,
    Removed,
    Replaced,
}

impl Full {
    pub fn new(seed: u64, spread: Spread, order: u32, metric: u32) -> Full {
        Full::with_past(seed, spread, order, metric, Past::Added)
    }

    pub fn with_past(seed: u64, spread: Spread, order: u32, metric: u32, past: Past) -> Full {
        let n = 1 << order;
        let mut added = profiles(seed, spread, n + QUERIES + n / 4);
        let replacing = added.split_off(n + QUERIES);
        let asked = added.split_off(n);
        let queries = asked.into_iter().map(|profile| Query { profile, first_day: first_day() }).collect();
        let (archive, plain) = (Archive::new(order, metric), Plain::new(order, metric));
        let mut full = Full { archive, plain, items: vec![], queries, space: Space::new(metric) };
        for (i, profile) in added.iter().enumerate() {
            full.add(tag(i), profile);
        }
        let (mut random, mut live) = (Random(seed), (0..n).collect::<Vec<usize>>());
        for (i, profile) in replacing.iter().enumerate().filter(|_| past != Past::Added) {
            full.remove(tag(live.swap_remove(random.below(live.len()))));
            if past == Past::Replaced {
                full.add(tag(n + i), profile);
                live.push(n + i);
            }
        }
        full.items = full.plain.items();
        full
    }

    fn add(&mut self, tag: u64, profile: &Profile) {
        assert_eq!(self.archive.add(tag, profile), self.plain.add(tag, profile));
    }

    fn remove(&mut self, tag: u64) {
        assert_eq!(self.archive.remove(tag), self.plain.remove(tag));
    }

    // Archive and plain program found the same by the same number of distances, and the scan found it too.
    fn check(&self, counts: [u32; 2], scanned: &[Hit]) -> [f64; 2] {
        assert_eq!(counts[0], counts[1]);
        assert_eq!(self.archive.hits(), scanned);
        assert_eq!(self.plain.hits(), scanned);
        [scanned.len() as f64, counts[0] as f64]
    }

    pub fn nearest(&mut self) -> Line {
        let queries = self.queries.clone();
        let mut best = vec![];
        let mut sums = [0.0; 2];
        for query in &queries {
            let counts = [self.archive.nearest(query, K), self.plain.nearest(query, K)];
            scan_nearest(&self.space, &self.items, query, K, &mut best);
            add(&mut sums, self.check(counts, &best));
        }
        let (archive, plain, items, space) = (&mut self.archive, &mut self.plain, &self.items, self.space);
        let times = turns(
            ROUNDS,
            QUERIES,
            [
                &mut |q| _ = black_box(archive.nearest(&queries[q], K)),
                &mut |q| _ = black_box(plain.nearest(&queries[q], K)),
                &mut |q| scan_nearest(&space, items, &queries[q], K, black_box(&mut best)),
            ],
        );
        line(format!("nearest {K}"), sums, times)
    }

    /// Batches of queries about one centre, or of queries like the items, each with a radius for so many hits.
    pub fn batches(&mut self, alike: Option<(u64, Spread)>, hits: usize) -> Batches {
        const SIZE: usize = ffi::MAX_QUERIES;
        let asked: Vec<Query> = match alike {
            Some((seed, spread)) => {
                let profiles = groups(seed, spread, QUERIES / SIZE, SIZE).into_iter().flatten();
                profiles.map(|profile| Query { profile, first_day: first_day() }).collect()
            }
            None => self.queries.clone(),
        };
        let radii: Vec<u32> = asked.iter().map(|query| self.radius(query, hits)).collect();
        let rows: Vec<ffi::Row> = asked.iter().zip(&radii).map(|(query, &radius)| batch_row(query, radius)).collect();
        let (mut most, mut singly) = (0, vec![]);
        for (query, &radius) in asked.iter().zip(&radii) {
            let met = self.archive.range(query, radius, self.items.len());
            most = most.max(self.archive.hits().len());
            singly.push([self.archive.hits().len() as u32, met]);
        }
        let room = most.next_power_of_two();
        let (mut sums, n) = ([0.0; 3], (QUERIES / SIZE) as f64);
        for (rows, singly) in rows.chunks(SIZE).zip(singly.chunks(SIZE)) {
            let [found, met] = self.archive.range_batch(rows, room);
            let (each, together) = (singly.iter().map(|s| s[0]).sum::<u32>(), singly.iter().map(|s| s[1]).sum::<u32>());
            assert!(found == each && met <= together);
            for (sum, value) in sums.iter_mut().zip([found, met, together]) {
                *sum += value as f64 / n;
            }
        }
        let archive = std::cell::RefCell::new(&mut self.archive);
        let times = turns(
            ROUNDS,
            QUERIES / SIZE,
            [&mut |b| _ = black_box(archive.borrow_mut().range_batch(&rows[b * SIZE..][..SIZE], room)), &mut |b| {
                for q in b * SIZE..(b + 1) * SIZE {
                    black_box(archive.borrow_mut().range(&asked[q], radii[q], room));
                }
            }],
        );
        Batches { found: sums[0], met: sums[1], met_singly: sums[2], batch: times[0], singles: times[1] }
    }

    // The radius within which a query has so many hits, or a few more at the same distance.
    fn radius(&self, query: &Query, hits: usize) -> u32 {
        let mut best = vec![];
        scan_nearest(&self.space, &self.items, query, hits, &mut best);
        best.last().map_or(0, |hit| hit.0)
    }

    /// The result area has `room` entries, or where it is `None` the next power of two that holds the largest reply.
    pub fn range(&mut self, hits: usize, room: Option<usize>) -> Line {
        let queries = self.queries.clone();
        let radii: Vec<u32> = queries.iter().map(|query| self.radius(query, hits)).collect();
        let mut found = vec![];
        let (mut sums, mut most) = ([0.0; 2], 0);
        for (query, &radius) in queries.iter().zip(&radii) {
            let counts = [self.archive.range(query, radius, self.items.len()), self.plain.range(query, radius, 0)];
            scan_range(&self.space, &self.items, query, radius, &mut found);
            most = most.max(found.len());
            add(&mut sums, self.check(counts, &found));
        }
        let room = room.unwrap_or(most.next_power_of_two());
        let (archive, plain, items, space) = (&mut self.archive, &mut self.plain, &self.items, self.space);
        let times = turns(
            ROUNDS,
            QUERIES,
            [
                &mut |q| _ = black_box(archive.range(&queries[q], radii[q], room)),
                &mut |q| _ = black_box(plain.range(&queries[q], radii[q], 0)),
                &mut |q| scan_range(&space, items, &queries[q], radii[q], black_box(&mut found)),
            ],
        );
        line(format!("range ~{hits}, room {room}"), sums, times)
    }
}

fn add(sums: &mut [f64; 2], more: [f64; 2]) {
    for (sum, n) in sums.iter_mut().zip(more) {
        *sum += n / QUERIES as f64;
    }
}

fn line(search: String, [found, visited]: [f64; 2], [calls, plain, scan]: [f64; 3]) -> Line {
    Line { search, found, visited, calls, plain, scan }
}
