//! Adds, removals, look ups, writing and loading beside the same in plain Rust.

use std::hint::black_box;

use crate::index::{Archive, Index};
use crate::items::{Profile, Random, Spread, profiles, tag};
use crate::measure::{median, timed, turns};
use crate::plain::Plain;

/// Nanoseconds of a call.
pub struct Line {
    pub call: &'static str,
    pub calls: f64,
    pub plain: f64,
}

/// What is done to both.
pub struct Work {
    order: u32,
    metric: u32,
    items: Vec<Profile>,
    // of a day: what is removed and what is added, in turn
    day: Vec<(usize, usize)>,
}

impl Work {
    pub fn new(seed: u64, spread: Spread, order: u32, metric: u32) -> Work {
        let n = 1usize << order;
        let items = profiles(seed, spread, 2 * n);
        let mut random = Random(seed);
        let mut live: Vec<usize> = (0..n / 2).collect();
        let mut change = |next: usize| {
            let at = random.below(live.len());
            (std::mem::replace(&mut live[at], next), next)
        };
        let day = (n / 2..n / 2 + n).map(&mut change).collect();
        Work { order, metric, items, day }
    }

    fn filled<I: Index>(&self, n: usize) -> I {
        let mut index = I::new(self.order, self.metric);
        for (i, profile) in self.items[..n].iter().enumerate() {
            index.add(tag(i), profile);
        }
        index
    }

    // The mean of 2^T adds into an empty table, and after it the image.
    fn fill<I: Index>(&self) -> (f64, Vec<u8>) {
        let n = 1 << self.order;
        let (time, mut index) = timed(|| self.filled::<I>(n));
        index.write();
        (time / n as f64, index.image().to_vec())
    }

    // The means of a day's removals and of its adds, 2^(T-1) being live, and after it the image.
    fn spend_day<I: Index>(&self) -> ([f64; 2], Vec<u8>) {
        let mut index = self.filled::<I>(1 << (self.order - 1));
        let mut sums = [0.0; 2];
        for &(gone, new) in &self.day {
            sums[0] += timed(|| index.remove(tag(gone))).0;
            sums[1] += timed(|| index.add(tag(new), &self.items[new])).0;
        }
        index.write();
        (sums.map(|sum| sum / self.day.len() as f64), index.image().to_vec())
    }

    /// All lines, each the median over the rounds.
    pub fn measure(&self, rounds: usize) -> Vec<Line> {
        let mut times = [const { vec![] }; 6];
        for _ in 0..rounds {
            let (fills, days) = (
                (self.fill::<Archive>(), self.fill::<Plain>()),
                (self.spend_day::<Archive>(), self.spend_day::<Plain>()),
            );
            assert!(fills.0.1 == fills.1.1 && days.0.1 == days.1.1, "the tables are the same");
            let ([remove, add], [plain_remove, plain_add]) = (days.0.0, days.1.0);
            let all = [fills.0.0, fills.1.0, add, plain_add, remove, plain_remove];
            times.iter_mut().zip(all).for_each(|(times, time)| times.push(time));
        }
        let [fill, plain_fill, add, plain_add, remove, plain_remove] = times.map(median);
        let mut lines = vec![
            Line { call: "add, from empty to full", calls: fill, plain: plain_fill },
            Line { call: "add, a day at half full", calls: add, plain: plain_add },
            Line { call: "remove, a day at half full", calls: remove, plain: plain_remove },
        ];
        lines.extend(self.reads());
        lines
    }

    // Look ups of every tag, and writing and loading the full table.
    fn reads(&self) -> [Line; 3] {
        let n = 1 << self.order;
        let (mut archive, mut plain) = (self.filled::<Archive>(n), self.filled::<Plain>(n));
        let look_up = turns(
            5,
            n,
            [&mut |i| _ = black_box(archive.look_up(tag(i))), &mut |i| _ = black_box(plain.look_up(tag(i)))],
        );
        let write = turns(21, 4, [&mut |_| archive.write(), &mut |_| plain.write()]);
        assert_eq!(archive.image(), plain.image());
        let image = plain.image().to_vec();
        let load = turns(21, 1, [&mut |_| archive.load(&image), &mut |_| plain.load(&image)]);
        let line = |call, [calls, plain]: [f64; 2]| Line { call, calls, plain };
        [line("look up", look_up), line("write", write), line("load", load)]
    }
}
