//! Dues: what a weight pays at the ends of each band, the refusals of a list in their order, and the area after them.

use outside::calls::{Call, Reply};
use outside::fixture::{Fixture, measured, tag};
use outside::random::{MAX_MEASURE, Random};
use outside::{foreign, sound};
use reference::item::{ROW_WORDS, Row, Slot, Space};
use reference::table::{Bucket, Table, put_table, table_rows};
use reference::tree::layout;

const KEPT: u32 = 7;

// The reply, and the area of so many numbers after the call.
fn dues_in(fixture: &mut Fixture, tags: &[u64], room: usize) -> (Reply, Vec<u32>) {
    fixture.areas.tags = tags.to_vec();
    fixture.areas.dues = vec![KEPT; room];
    let reply = fixture.call(Call::Dues);
    (reply, fixture.areas.dues.clone())
}

// What an accepted list pays, and the total; a number past the list is kept.
fn paid(fixture: &mut Fixture, tags: &[u64]) -> (Vec<u32>, u64) {
    let (reply, mut dues) = dues_in(fixture, tags, tags.len() + 1);
    assert_eq!((reply.refusal, dues.pop()), (0, Some(KEPT)));
    (dues, reply.total)
}

// The refusal of a list, which leaves the area as it was.
fn refused(fixture: &mut Fixture, tags: &[u64], room: usize) -> u32 {
    let (reply, dues) = dues_in(fixture, tags, room);
    assert!(reply.refusal != 0 && reply.total == 0 && dues.iter().all(|&number| number == KEPT));
    reply.refusal
}

fn herd(order: u32, weights: &[i32]) -> Fixture {
    let mut fixture = Fixture::fresh(order, Space::plain(0));
    for (national, &weight) in (1..).zip(weights) {
        assert_eq!(fixture.add(national, measured([weight, 0, 0, 0])).refusal, 0);
    }
    fixture
}

// Weights in hundredths of a kilo, and cents.
const PAID: [(i32, u32); 10] = [
    (0, 0),
    (24, 0),
    (25, 1),
    (39_999, 800),
    (40_000, 1_200),
    (40_001, 1_200),
    (59_999, 1_800),
    (60_000, 2_400),
    (60_001, 2_400),
    (MAX_MEASURE, 40_000),
];

#[test]
fn weights_at_the_ends_of_the_bands() {
    let mut fixture = herd(4, &PAID.map(|(weight, _)| weight));
    for ((_, cents), national) in PAID.into_iter().zip(1..) {
        assert_eq!(paid(&mut fixture, &[tag(national)]), (vec![cents], cents as u64));
    }
    let all: Vec<u64> = (1..=10).map(tag).collect();
    let dues = PAID.map(|(_, cents)| cents);
    assert_eq!(paid(&mut fixture, &all), (dues.to_vec(), dues.iter().map(|&cents| cents as u64).sum()));
}

// The total is the sum of what was rounded, and a tag that is listed again pays again.
#[test]
fn a_tag_listed_twice_pays_twice() {
    let mut fixture = herd(2, &[25, 24, 50_050]);
    assert_eq!(paid(&mut fixture, &[]), (vec![], 0));
    assert_eq!(paid(&mut fixture, &[tag(1), tag(1)]), (vec![1, 1], 2));
    assert_eq!(paid(&mut fixture, &[tag(2); 4]), (vec![0; 4], 0));
    assert_eq!(paid(&mut fixture, &[tag(3), tag(2), tag(1), tag(3)]), (vec![1_502, 0, 1, 1_502], 3_005));
}

// 21 for any tag, then 39 for any weight, then 6.
#[test]
fn refusals_of_a_list_in_their_order() {
    let mut fixture = herd(2, &[100, -1, -MAX_MEASURE, 0]);
    fixture.remove(4);
    let lists: [&[u64]; 3] = [&[tag(1), tag(2), tag(4)], &[tag(5), tag(2)], &[tag(2), tag(1), 0]];
    for (tags, room) in lists.into_iter().flat_map(|tags| [(tags, 0), (tags, 1), (tags, 4)]) {
        assert_eq!(refused(&mut fixture, tags, room), 21);
    }
    for (tags, room) in [([tag(2), tag(1)], 0), ([tag(1), tag(3)], 1), ([tag(1), tag(2)], 2)] {
        assert_eq!(refused(&mut fixture, &tags, room), 39);
    }
    assert_eq!([0, 1].map(|room| refused(&mut fixture, &[tag(1); 2], room)), [6; 2]);
    assert_eq!(dues_in(&mut fixture, &[tag(1); 2], 2).1, [2, 2]);
}

// 4,096 tags are a list, one more is not: 39, unless one of them is not live.
#[test]
fn lists_of_as_many_tags_as_there_may_be() {
    let mut fixture = herd(2, &[25, -1]);
    assert_eq!(paid(&mut fixture, &[tag(1); 4096]), (vec![1; 4096], 4096));
    assert_eq!(refused(&mut fixture, &[tag(1); 4096], 4095), 6);
    for room in [0, 4096, 4097, 9000] {
        assert_eq!(refused(&mut fixture, &[tag(1); 4097], room), 39);
        let mut tags = vec![tag(1); 9000];
        assert_eq!(refused(&mut fixture, &tags, room), 39);
        tags[8999] = tag(3);
        assert_eq!(refused(&mut fixture, &tags, room), 21);
    }
}

// The table goes before its list: no rows, a metric, a length and a weight that do not pass.
#[test]
fn the_table_is_tested_first() {
    type Fault = fn(&mut Vec<Row>);
    let faults: [(Fault, u32); 4] = [
        (|rows| rows.clear(), 23),
        (|rows| rows[0][1] = 3, 24),
        (|rows| rows.truncate(table_rows(2) - 1), 23),
        (|rows| rows[0][4] = 101, 24),
    ];
    for (fault, number) in faults {
        let mut fixture = herd(2, &[25, -1]);
        fault(&mut fixture.areas.table);
        for tags in [vec![], vec![tag(1)], vec![tag(2)], vec![tag(3)], vec![tag(1); 4097]] {
            assert_eq!(refused(&mut fixture, &tags, 0), number);
        }
    }
}

// A lent table of order 2 with these slots in bucket 2.
fn lent(slots: &[Slot; 4]) -> Fixture {
    let mut buckets = vec![Bucket::default(); 3];
    let live = slots.iter().filter(|slot| slot.is_live()).count() as u32;
    buckets[2] = Bucket { built: 4, live: live.max(2), slots: slots.to_vec() };
    let mut rows = vec![[0; ROW_WORDS]; table_rows(2)];
    put_table(&mut rows, &Table { order: 2, space: Space::plain(0), buckets });
    Fixture::of(2, rows)
}

fn slot(tag: u64, weight: i32, mark: u32) -> Slot {
    Slot { tag, profile: measured([weight, -5, -5, -5]), mark, ..Slot::default() }
}

// Any measure of 32 bits, up to the largest; other measures are not asked.
#[test]
fn measures_of_a_lent_table() {
    let weights = [(i32::MAX, 85_899_346), (i32::MAX - 1, 85_899_346), (1 << 30, 42_949_673), (1_000_001, 40_000)];
    let slots = [1, 2, 3, 4].map(|n| slot(tag(n), weights[n as usize - 1].0, 0));
    let mut fixture = lent(&slots);
    let tags = slots.map(|slot| slot.tag);
    let total = weights.iter().map(|weight| weight.1 as u64).sum();
    assert_eq!(paid(&mut fixture, &tags), (weights.map(|weight| weight.1).to_vec(), total));
    assert_eq!(paid(&mut fixture, &[tag(1); 4096]).1, 4096 * 85_899_346);
    for weight in [-1, i32::MIN, i32::MIN + 1, -40_000] {
        let mut slots = slots;
        slots[2].profile.measures[0] = weight;
        assert_eq!(refused(&mut lent(&slots), &tags, 4), 39);
        assert_eq!(paid(&mut lent(&slots), &tags[..2]).0, [85_899_346; 2]);
    }
}

// The form of a tag is not asked, a slot of any mark but 0 is dead, and of equal tags the first slot pays.
#[test]
fn tags_of_a_lent_table() {
    let slots = [slot(0, 100, 1), slot(0, 200, 2), slot(u64::MAX, 300, 0), slot(u64::MAX, 400, 0)];
    let mut fixture = lent(&slots);
    assert_eq!(refused(&mut fixture, &[0], 1), 21);
    assert_eq!(paid(&mut fixture, &[u64::MAX, u64::MAX]), (vec![6, 6], 12));
    let slots = [slot(0, 100, u32::MAX), slot(0, 200, 0), slot(0, 300, 0), slot(tag(1), 400, 0)];
    assert_eq!(paid(&mut lent(&slots), &[0, tag(1)]), (vec![4, 8], 12));
}

// A full table of order 12, every item of it listed, with weights beside every edge and every half cent.
#[test]
fn every_item_of_a_full_table() {
    let mut random = Random::new(31);
    for first in [0, 38_000, 58_000, 990_000] {
        let item = |n: u64| {
            let profile = measured([first + (n as i32 - 1), 0, 0, 0]);
            Slot { tag: tag(n), profile, day: 1, ..Slot::default() }
        };
        let items: Vec<Slot> = (1..=4096).map(item).collect();
        let mut buckets = vec![Bucket::default(); 13];
        buckets[12] = Bucket { built: 4096, live: 4096, slots: layout(&Space::plain(0), &items) };
        let table = Table { order: 12, space: Space::plain(0), buckets };
        let rows = foreign::rows_of(&mut random, &table, 0);
        let (dues, total) = paid(&mut Fixture::of(12, rows), &(1..=4096).map(tag).collect::<Vec<_>>());
        assert_eq!(total, dues.iter().map(|&cents| cents as u64).sum());
    }
}

// Tables of every kind, each with lists of its tags and others.
#[test]
fn lists_of_any_tags() {
    let mut random = Random::new(32);
    let mut met = [0; 40];
    for round in 0..3000 {
        let (order, space) = (round % 6, random.space(round % 3));
        let rows = match random.below(2) {
            0 => foreign::table(&mut random, order, space),
            _ => {
                let table = sound::table(&mut random, order, space);
                foreign::rows_of(&mut random, &table, 0)
            }
        };
        let (any, listed) = (random.one_in(3), random.below(4));
        let kept = |slot: &Slot| any || (slot.is_live() && slot.tag != 0);
        let mut stored: Vec<u64> = rows.iter().map(Slot::of).filter(kept).map(|slot| slot.tag).collect();
        stored.push(tag(1));
        let mut fixture = Fixture::of(order, rows);
        let tags = random.fill(listed, |random| random.pick(&stored));
        let room = random.below(listed + 2);
        met[dues_in(&mut fixture, &tags, room).0.refusal as usize] += 1;
    }
    assert!([0, 6, 21, 24, 39].into_iter().all(|number| met[number] >= 50), "{met:?}");
}
