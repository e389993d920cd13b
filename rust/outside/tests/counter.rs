//! A table that was only added to counts its adds in binary, and its builds keep within n·L·(L+1)/2 distances, L being
//! the place of the highest one bit of n.

use outside::calls::{Areas, Call, by_archive};
use outside::fixture::tag;
use outside::history::{History, Sums};
use outside::item_lists;
use outside::random::Random;
use reference::item::{ROW_WORDS, Row, Slot, Space};
use reference::table::{capacity, first_row, table_rows};

// Bucket k is in use exactly if bit k of n is one; then it has 2^k slots, each of mark 0.
fn counts(rows: &[Row], order: u32, n: u64) {
    for k in 0..=order as usize {
        let size = if n >> k & 1 == 1 { 1 << k } else { 0 };
        assert_eq!(rows[1 + k][..2], [size, size], "bucket {k} after {n} adds");
        let first = first_row(order, k);
        assert!(rows[first..first + size as usize].iter().all(|row| Slot::of(row).is_live()));
    }
}

fn bound(n: u64) -> u64 {
    let place = n.ilog2() as u64;
    n * place * (place + 1) / 2
}

// How close the distances of n adds come to their bound: the largest share, in thousandths, and at which n.
#[derive(Debug, Default)]
struct Share {
    thousandths: u64,
    at: u64,
}

impl Share {
    fn note(&mut self, n: u64, distances: u64) {
        assert!(distances <= bound(n), "{distances} distances after {n} adds");
        let thousandths = 1000 * distances / bound(n).max(1);
        if thousandths > self.thousandths {
            *self = Share { thousandths, at: n };
        }
    }
}

// One add after the other at order 12, until the table is full.
#[test]
fn a_full_table_of_order_12() {
    let order = 12;
    let (table, work) = (vec![[1; ROW_WORDS]; table_rows(order)], vec![[1; ROW_WORDS]; capacity(order)]);
    let mut areas = Areas { table, work, ..Areas::default() };
    let fresh = Call::Fresh { order, space: Space::plain(0) };
    assert_eq!(by_archive(&fresh, areas.lent()).refusal, 0);
    let (mut random, mut share, mut distances) = (Random::new(31), Share::default(), 0);
    for n in 1..=capacity(order) as u64 {
        let call = Call::Add { tag: tag(n * 7919 % 100_003), profile: random.profile(), day: 1 };
        let reply = by_archive(&call, areas.lent());
        assert_eq!((reply.refusal, reply.bucket), (0, n.trailing_zeros()));
        distances += reply.distances as u64;
        counts(&areas.table, order, n);
        share.note(n, distances);
        if n.is_power_of_two() {
            println!("{n} adds: {distances} of at most {} distances", bound(n));
        }
    }
    assert_eq!(distances, 139_263);
    println!("at most {} thousandths of the bound, after {} adds", share.thousandths, share.at);
}

fn list_of(random: &mut Random, tags: &[u64]) -> Vec<u8> {
    let lines: Vec<String> = tags.iter().map(|&tag| item_lists::line(tag, random.profile().measures)).collect();
    item_lists::of(&lines)
}

// Adds and herd lists with other calls between them: refused ones of every kind, searches, writings and saves.
fn only_added(order: u32, metric: u32, random: &mut Random) -> Share {
    let mut history = History::new(random.word(), order, metric);
    let mut share = Share::default();
    while history.sums().adds < capacity(order) as u64 {
        let live = history.book().items.first().map_or(0, |item| item.tag);
        let (next, profile) = (tag(history.sums().adds + 1), random.profile());
        let space = history.book().space;
        let (call, bytes) = match random.below(11) {
            0 => (Call::Fresh { order: 13, space }, vec![]),
            1 => (Call::Load, vec![0; 3]),
            2 => (Call::Remove { tag: tag(900_000) }, vec![]),
            3 => (Call::Add { tag: live, profile, day: 1 }, vec![]),
            4 => (Call::Range { query: profile, radius: 9, first_day: 0 }, vec![]),
            5 => (Call::Write, vec![0; 100_000]),
            6 => (Call::ReadList { day: 3 }, list_of(random, &[next, next + 1, next + 2, next + 3, next + 4])),
            7 => (Call::ReadList { day: 3 }, list_of(random, &[next, next + 1, next, next + 2])),
            8 => (Call::Save { name: 3 }, vec![0; 100_000]),
            9 => (Call::Restore { name: 9 }, vec![0; 100]),
            _ => (Call::Add { tag: next, profile, day: 9 }, vec![]),
        };
        history.make(&call, bytes);
        let Sums { adds, removals, distances } = history.sums();
        assert_eq!(removals, 0);
        counts(history.rows(), order, adds);
        if adds > 0 {
            share.note(adds, distances);
        }
    }
    share
}

#[test]
fn other_calls_in_between() {
    let mut random = Random::new(32);
    for order in 0..=7 {
        for metric in 0..=2 {
            let share = only_added(order, metric, &mut random);
            println!("order {order}, metric {metric}: {share:?}");
        }
    }
}
