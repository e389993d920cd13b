//! Each call at order 12 in a thread with a 256 KiB stack, and how much of it the call used: load and restore at most
//! 72 KiB, where the array of 4,096 entries is, dues at most 20 KiB, where 4,096 numbers are, a batch of 16 queries at
//! most 8 KiB, and every other at most 6 KiB. Save uses no more than write does, and restore no more than load, but for
//! a small frame of their own.

use std::collections::HashMap;

use outside::calls::{Areas, Call, by_archive};
use outside::item_lists;
use outside::random::Random;
use outside::stack::used_by;
use reference::item::{ROW_WORDS, Row, Slot, Space};
use reference::table::{Bucket, Table, capacity, put_table, table_rows};
use reference::tree::layout;

const ORDER: u32 = 12;

// The frame that save and restore may have of their own.
const FRAME: usize = 64;

// Buckets of these built and live sizes; the dead slots are the last ones.
fn table(random: &mut Random, space: Space, sizes: &[(usize, u32, u32)]) -> Table {
    let mut buckets = vec![Bucket::default(); ORDER as usize + 1];
    let mut nationals = 1u64..;
    for &(k, built, live) in sizes {
        let item = |national| {
            let (profile, day) = (random.profile(), random.day() as u32);
            Slot { tag: 36_000_000_000_000 + national, profile, day, ..Slot::default() }
        };
        let items: Vec<Slot> = nationals.by_ref().take(built as usize).map(item).collect();
        let mut slots = layout(&space, &items);
        slots[live as usize..].iter_mut().for_each(|slot| slot.mark = 1);
        buckets[k] = Bucket { built, live, slots };
    }
    Table { order: ORDER, space, buckets }
}

fn rows(table: &Table) -> Vec<Row> {
    let mut rows = vec![[0; ROW_WORDS]; table_rows(ORDER)];
    put_table(&mut rows, table);
    rows
}

// The tag of an item that weighs not below 0.
fn payer(table: &Table) -> u64 {
    let mut live = table.buckets.iter().flat_map(Bucket::live_items);
    live.find(|slot| slot.profile.measures[0] >= 0).expect("some weigh not below 0").tag
}

fn areas(table: &Table) -> Areas {
    Areas {
        table: rows(table),
        work: vec![[0; ROW_WORDS]; capacity(ORDER)],
        result: vec![[0; 2]; capacity(ORDER)],
        bytes: reference::image::bytes(table),
        tags: vec![payer(table); 4096],
        dues: vec![0; 4096],
        radii: vec![1000; 32],
        draft: vec![[0; 2]; capacity(ORDER)],
        summary: vec![[0; 2]; 32],
        listing: vec![[0; 2]; capacity(ORDER)],
    }
}

// With the image in the last part, and as much room in every other.
fn states(image: &[u8]) -> Vec<u8> {
    let snapshot = [&(image.len() as u32).to_le_bytes(), image].concat();
    [vec![0; 7 * snapshot.len()], snapshot].concat()
}

// The call must be accepted.
fn measure(name: &str, call: Call, mut areas: Areas) -> usize {
    let mut refusal = u32::MAX;
    let used = used_by(|| {
        refusal = by_archive(&call, areas.lent()).refusal;
    });
    assert_eq!(refusal, 0, "{name}");
    println!("{name}: {used} bytes of stack");
    used
}

#[test]
fn every_call_in_a_small_stack() {
    for metric in 0..=2 {
        let mut random = Random::new(9);
        let space = Space { metric, weights: [10, 1, 100, 0] };
        let full = table(&mut random, space, &[(12, 4096, 4096)]);
        let each: Vec<_> = (0..12).map(|k| (k, 1 << k, 1 << k)).collect();
        let one_short = table(&mut random, space, &each);
        let thin = table(&mut random, space, &[(12, 4096, 1025), (11, 2048, 2048)]);
        let first = thin.buckets[12].slots[0];
        let query = random.profile();
        let tag = 40_000_000_000_000;
        let calls = [
            ("fresh", Call::Fresh { order: ORDER, space }, &full),
            ("load", Call::Load, &full),
            ("add", Call::Add { tag, profile: query, day: 1 }, &one_short),
            ("remove", Call::Remove { tag: first.tag }, &thin),
            ("look up", Call::LookUp { tag: first.tag }, &thin),
            ("range", Call::Range { query, radius: u32::MAX, first_day: 0 }, &full),
            ("nearest", Call::Nearest { query, k: u32::MAX, first_day: 0 }, &full),
            ("range batch", Call::RangeBatch, &full),
            ("write", Call::Write, &full),
            ("read list", Call::ReadList { day: 1 }, &one_short),
            ("save", Call::Save { name: 8 }, &full),
            ("restore", Call::Restore { name: 8 }, &full),
            ("dues", Call::Dues, &full),
            ("lots", Call::Lots { chosen: 32 }, &full),
        ];
        let mut seen = HashMap::new();
        for (name, call, table) in calls {
            let mut areas = areas(table);
            if let Call::RangeBatch = call {
                let query = Slot { profile: query, threshold: u32::MAX, ..Slot::default() };
                areas.work = vec![query.row(); 16];
                areas.result = vec![[0; 2]; 16 * capacity(ORDER)];
            }
            if matches!(call, Call::ReadList { .. }) {
                areas.bytes = item_lists::of(&[item_lists::line(tag, query.measures)]);
            }
            if let Call::Save { .. } | Call::Restore { .. } = call {
                areas.bytes = states(&areas.bytes);
            }
            let most = match call {
                Call::Load | Call::Restore { .. } => 72 * 1024,
                Call::Dues => 20 * 1024,
                Call::RangeBatch => 8 * 1024,
                _ => 6 * 1024,
            };
            let used = measure(&format!("{name}, metric {metric}"), call, areas);
            assert!(used <= most, "{name}, metric {metric}: {used} bytes of stack, more than {most}");
            seen.insert(name, used);
        }
        for (name, part) in [("save", "write"), ("restore", "load")] {
            assert!(seen[name] <= seen[part] + FRAME, "{name}, metric {metric}, uses more stack than {part}");
        }
    }
}
