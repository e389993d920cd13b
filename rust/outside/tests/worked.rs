//! RULES A: the small herds that the rules work out line by line.

use outside::calls::Call;
use outside::fixture::{Fixture, measured, tag};
use outside::item_lists;
use outside::random::{MAX_NATIONAL, MIN_TAG};
use reference::item::{Profile, ROW_WORDS, Slot, Space};
use reference::table::{Table, put_bucket};
use reference::tree::layout;

fn item(national: u64) -> Slot {
    Slot { tag: tag(national), profile: valued(national as i32), day: 1, ..Slot::default() }
}

fn valued(first: i32) -> Profile {
    measured([first, 0, 0, 0])
}

// An empty table of metric 0 and weights 1.
fn fresh(order: u32) -> Fixture {
    Fixture::fresh(order, Space::plain(0))
}

// nationals 1 to 4 with 10, 13, 13, 20
fn of_four() -> Fixture {
    let mut fixture = fresh(2);
    let mut report = |(&value, national)| fixture.add(national, valued(value)).distances;
    let reports: Vec<u32> = [10, 13, 13, 20].iter().zip(1..).map(&mut report).collect();
    assert_eq!(reports, [0, 1, 0, 4]);
    fixture
}

// what this is of a bucket's built slots, those of dead ones too
fn bucket<T>(fixture: &Fixture, k: usize, of: impl Fn(&Slot) -> T) -> Vec<T> {
    let table = Table::open(&fixture.areas.table, |_| true).expect("a sound table");
    table.buckets[k].slots.iter().map(of).collect()
}

fn nationals(fixture: &Fixture, k: usize) -> Vec<u64> {
    bucket(fixture, k, |slot| slot.tag - tag(0))
}

fn thresholds(fixture: &Fixture, k: usize) -> Vec<u32> {
    bucket(fixture, k, |slot| slot.threshold)
}

#[test]
fn four_end_in_bucket_2() {
    let mut fixture = of_four();
    assert_eq!(nationals(&fixture, 2), [1, 2, 3, 4]);
    assert_eq!(thresholds(&fixture, 2), [3, 0, 0, 0]);
    assert_eq!(fixture.add(5, valued(11)).refusal, 22);
    assert_eq!(fixture.add(4, valued(11)).refusal, 20);
}

#[test]
fn searches_of_four() {
    let mut fixture = of_four();
    assert_eq!(fixture.range(valued(13), 0), (vec![(2, 0), (3, 0)], 4));
    assert_eq!(fixture.range(valued(30), 5), (vec![], 2));
    assert_eq!(fixture.nearest(valued(13), 1), (vec![(2, 0)], 4));
    assert_eq!(fixture.nearest(valued(30), 1), (vec![(4, 10)], 2));
    assert_eq!(fixture.range(valued(0), u32::MAX).0.len(), 4);
}

#[test]
fn removals() {
    let mut fixture = of_four();
    assert_eq!([4, 3, 2].map(|national| fixture.remove(national)), [0, 0, 0]);
    assert_eq!((nationals(&fixture, 0), nationals(&fixture, 2)), (vec![1], vec![]));

    let mut fixture = of_four();
    assert_eq!(fixture.remove(4), 0);
    assert_eq!(fixture.add(5, valued(11)).refusal, 0);
    assert_eq!([3, 2].map(|national| fixture.remove(national)), [0, 1]);
    assert_eq!(nationals(&fixture, 1), [1, 5]);
}

// The tests of fresh, one after the other: order, metric, weights, length.
#[test]
fn fresh_refuses_in_order() {
    let mut fixture = fresh(2);
    let mut refusal = |order, metric, weight| {
        let space = Space { metric, weights: [1, 100, 0, weight] };
        fixture.refusal(Call::Fresh { order, space })
    };
    assert_eq!([refusal(13, 3, 101), refusal(13, 2, 101), refusal(13, 3, 1), refusal(13, 2, 1)], [3; 4]);
    assert_eq!([refusal(12, 3, 101), refusal(12, 3, 1), refusal(2, 3, 101)], [4; 3]);
    assert_eq!([refusal(12, 0, 101), refusal(12, 1, 101), refusal(12, 2, u32::MAX), refusal(2, 1, 101)], [32; 4]);
    assert_eq!([refusal(12, 2, 100), refusal(3, 0, 0)], [23; 2]);
    assert_eq!(refusal(2, 2, 100), 0);
}

// Order 3, live sizes 1, 1, 2, 3, so no bucket is empty: an add builds all 8 in bucket 3.
#[test]
fn an_add_over_dead_slots() {
    let mut fixture = fresh(3);
    let mut items = (1..).map(item);
    for (k, (built, live)) in [(1, 1), (2, 1), (3, 2), (5, 3)].into_iter().enumerate() {
        let items: Vec<Slot> = items.by_ref().take(built).collect();
        let mut slots = layout(&Space::plain(0), &items);
        slots[live..].iter_mut().for_each(|slot| slot.mark = 1);
        put_bucket(&mut fixture.areas.table, 3, k, live as u32, &slots);
    }
    let reply = fixture.add(20, valued(20));
    assert_eq!((reply.refusal, reply.bucket, reply.distances), (0, 3, 13));
    assert_eq!([0, 1, 2, 3].map(|k| nationals(&fixture, k).len()), [0, 0, 0, 8]);
}

// A foreign table with tags that are live in two buckets. Bucket 3 has 3 live items, and the removal of one unites the
// two left with those of another bucket: with 3 or 2 of bucket 2, or with 2 of bucket 1. Equal tags rank by the order
// gathered, bucket 3 first, so national 1 with 10, not with 30, is the first slot, and the whole layout follows from
// that.
#[test]
fn a_unite_takes_bucket_k_first() {
    let live = |national, value| Slot { profile: valued(value), ..item(national) };
    let dead = Slot { mark: 1, ..item(7) };
    let of_bucket_3 = [live(1, 10), live(2, 20), live(9, 90), dead, dead];
    let others = [live(1, 30), live(2, 40), live(1, 50)];
    let of_four = (4, vec![(1, 10, 20), (1, 30, 10), (2, 20, 0), (2, 40, 0)]);
    let of_five = (6, vec![(1, 10, 20), (1, 30, 10), (2, 20, 0), (1, 50, 10), (2, 40, 0)]);
    let cases = [
        (2, [&others[..], &[dead]].concat(), 3, of_five),
        (2, [&others[..2], &[dead]].concat(), 2, of_four.clone()),
        (1, others[..2].to_vec(), 2, of_four),
    ];
    for (other, slots, target, (distances, expected)) in cases {
        let mut fixture = fresh(3);
        put_bucket(&mut fixture.areas.table, 3, 3, 3, &of_bucket_3);
        let live = slots.iter().filter(|slot| slot.is_live()).count();
        put_bucket(&mut fixture.areas.table, 3, other, live as u32, &slots);
        assert_eq!(fixture.remove(9), distances);
        let table = Table::open(&fixture.areas.table, |_| true).expect("sizes that pass");
        let shown = |slot: &Slot| (slot.tag - tag(0), slot.profile.measures[0], slot.threshold);
        assert_eq!(table.buckets[target].slots.iter().map(shown).collect::<Vec<_>>(), expected);
        assert_eq!(table.live(), expected.len());
    }
}

// National 274,877,906,943 is the last: each call that takes a tag asks, and a load; a search of a foreign table does
// not.
#[test]
fn nationals_of_38_bits() {
    for country in [1, 36, 999] {
        let [last, past] = [MAX_NATIONAL, MAX_NATIONAL + 1].map(|national| country * MIN_TAG + national);
        for (tag, refusal, in_image) in [(last, 0, 0), (past, 1, 8)] {
            let mut fixture = fresh(0);
            assert_eq!(fixture.refusal(Call::Add { tag, profile: valued(1), day: 1 }), refusal);
            assert_eq!(fixture.refusal(Call::LookUp { tag }), refusal);
            assert_eq!(fixture.refusal(Call::Remove { tag }), refusal);
            let slot = Slot { tag, profile: valued(1), day: 1, ..Slot::default() };
            put_bucket(&mut fixture.areas.table, 0, 0, 1, &layout(&Space::plain(0), &[slot]));
            assert_eq!(fixture.call(Call::Range { query: valued(1), radius: 0, first_day: 0 }).found, 1);
            assert_eq!(fixture.areas.result[0], [tag, 0]);
            assert_eq!(fixture.refusal(Call::Remove { tag }), refusal);
            put_bucket(&mut fixture.areas.table, 0, 0, 1, &layout(&Space::plain(0), &[slot]));
            fixture.areas.bytes = vec![0; 62];
            assert_eq!(fixture.refusal(Call::Write), 0);
            assert_eq!(fixture.refusal(Call::Load), in_image);
        }
    }
}

// The four as a list: their reports add up to 0 + 1 + 0 + 4. The fifth finds the table full, and no line after it is
// read.
#[test]
fn the_four_as_a_list() {
    let list = |values: &[(u64, i32)]| {
        let lines: Vec<String> = values.iter().map(|&(n, value)| item_lists::line(tag(n), [value, 0, 0, 0])).collect();
        item_lists::of(&lines)
    };
    let mut fixture = fresh(2);
    fixture.areas.bytes = list(&[(1, 10), (2, 13), (3, 13), (4, 20), (5, 11), (4, 20)]);
    let reply = fixture.call(Call::ReadList { day: 1 });
    assert_eq!((reply.refusal, reply.line, reply.added, reply.distances), (22, 6, 4, 5));
    assert_eq!((nationals(&fixture, 2), thresholds(&fixture, 2)), (vec![1, 2, 3, 4], vec![3, 0, 0, 0]));
    assert_eq!(fixture.areas.work, [[0; ROW_WORDS]; 4]);
    assert_eq!(fixture.range(valued(13), 0), (vec![(2, 0), (3, 0)], 4));

    assert_eq!(fixture.remove(4), 0);
    fixture.areas.bytes = list(&[(4, -5)]);
    assert_eq!(fixture.call(Call::ReadList { day: 1 }).added, 1);
    assert_eq!(fixture.call(Call::LookUp { tag: tag(4) }).profile, valued(-5));
}

// Metric 2: from all zeros the differences are 3, 5, 7 and 1, and from the other query 7, 0, 7 and 1.
#[test]
fn the_worst_measure_decides() {
    let mut fixture = fresh(1);
    assert_eq!(fixture.refusal(Call::Fresh { order: 1, space: Space::plain(3) }), 4);
    assert_eq!(fixture.refusal(Call::Fresh { order: 1, space: Space::plain(2) }), 0);
    for (national, measures) in [(1, [0; 4]), (2, [3, 5, -7, 1])] {
        assert_eq!(fixture.add(national, measured(measures)).refusal, 0);
    }
    assert_eq!(fixture.range(valued(0), 6), (vec![(1, 0)], 2));
    assert_eq!(fixture.range(valued(0), 7), (vec![(1, 0), (2, 7)], 2));
    assert_eq!(fixture.nearest(measured([-4, 5, 0, 0]), 2), (vec![(1, 5), (2, 7)], 2));
}

#[test]
fn an_empty_table() {
    let mut fixture = fresh(2);
    assert_eq!(fixture.range(valued(0), u32::MAX), (vec![], 0));
    assert_eq!(fixture.nearest(valued(0), 3), (vec![], 0));
}
