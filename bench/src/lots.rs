//! Drafting into lots by one radius and by 32, beside the same in plain Rust.

use vpindex::ffi;

use crate::index::{Archive, Index};
use crate::items::{Profile, Random, Spread, profiles, tag};
use crate::measure::turns;
use crate::plain::{Space, distance};

const ORDER: u32 = 12;
const ITEMS: usize = 1 << ORDER;

/// Milliseconds of a drafting by so many radii, and the distances that it works out.
pub struct Line {
    pub radii: &'static str,
    pub distances: u64,
    pub calls: f64,
    pub plain: f64,
}

// The lots of items by tag: their number, the size of the largest, and the distances worked out.
fn draft(space: &Space, items: &[Profile], lots: &mut [u32], radius: u32) -> ([u32; 2], u64) {
    lots.fill(0);
    let (mut lot, mut largest, mut distances) = (0, 0, 0);
    for leader in 0..items.len() {
        if lots[leader] != 0 {
            continue;
        }
        lot += 1;
        lots[leader] = lot;
        let mut size = 1;
        for i in leader + 1..items.len() {
            if lots[i] == 0 {
                distances += 1;
                if distance(space, &items[leader], &items[i]) <= radius {
                    lots[i] = lot;
                    size += 1;
                }
            }
        }
        largest = largest.max(size);
    }
    ([lot, largest], distances)
}

// Radii by the share of all pairs that are within them, of a sample of pairs.
fn shares(space: &Space, items: &[Profile], shares: &[f64]) -> Vec<u32> {
    let mut random = Random(1);
    let mut pair = || distance(space, &items[random.below(ITEMS)], &items[random.below(ITEMS)]);
    let mut sample: Vec<u32> = (0..20_000).map(|_| pair()).collect();
    sample.sort_unstable();
    shares.iter().map(|share| sample[(share * (sample.len() - 1) as f64) as usize]).collect()
}

/// By the radius that one in 64 pairs is within, which are as many as stand in the same cluster; by 32 radii from one that
/// hardly a pair is within to one that all are; and at worst, by 32 radii of 0, where every item leads a lot of its own.
pub fn lines(seed: u64, spread: Spread, metric: u32) -> Vec<Line> {
    let space = Space::new(metric);
    let mut index = Archive::new(ORDER, metric);
    let stored = profiles(seed, spread, ITEMS);
    for (i, profile) in stored.iter().enumerate() {
        index.add(tag(i), profile);
    }
    let mut by_tag: Vec<usize> = (0..ITEMS).collect();
    by_tag.sort_unstable_by_key(|&i| tag(i));
    let items: Vec<Profile> = by_tag.iter().map(|&i| stored[i]).collect();
    let even: Vec<f64> = (0..32).map(|i| i as f64 / 31.0).collect();
    let (one, all) = (shares(&space, &items, &[1.0 / 64.0]), shares(&space, &items, &even));
    let lists = [("1", one, 5), ("32", all, 5), ("32 of 0", vec![0; 32], 1)];
    lists.map(|(name, radii, rounds)| line(&index, &space, &items, name, &radii, rounds)).into()
}

fn line(index: &Archive, space: &Space, items: &[Profile], name: &'static str, radii: &[u32], rounds: usize) -> Line {
    let (mut work, mut listing) = (vec![[0; 2]; ITEMS], vec![[0; 2]; ITEMS]);
    let mut summary = vec![[0; 2]; radii.len()];
    let mut lots = vec![0; ITEMS];
    let (mut expected, mut distances) = (vec![], 0);
    let mut call = |_| assert_eq!(ffi::lots(index.table(), &mut work, radii, &mut summary, &mut listing, 1), 0);
    let mut plain = |_| {
        let told: Vec<_> = radii.iter().map(|&radius| draft(space, items, &mut lots, radius)).collect();
        distances = told.iter().map(|told| told.1).sum();
        expected = told.into_iter().map(|told| told.0).collect();
    };
    let [calls, by_plain] = turns(rounds, 1, [&mut call, &mut plain]).map(|time| time / 1e6);
    assert_eq!(summary, expected);
    Line { radii: name, distances, calls, plain: by_plain }
}
