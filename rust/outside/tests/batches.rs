//! Range for several queries at once: each list as the single call gives it, each in its part, and a slot counted once.

use outside::calls::{Areas, Call, Reply, compare};
use outside::fixture::{Fixture, measured, tag};
use outside::lists::range_batch;
use outside::random::Random;
use outside::{foreign, sound};
use reference::item::{Entry, Profile, ROW_WORDS, Row, Slot, Space};
use reference::table::{Bucket, Table, put_bucket, put_table, table_rows};

const OTHER: Entry = [8, 8];

fn valued(first: i32) -> Profile {
    measured([first, 0, 0, 0])
}

fn asks(profile: Profile, radius: u32, first_day: u16) -> Row {
    Slot { profile, threshold: radius, day: first_day as u32, ..Slot::default() }.row()
}

// RULES A's four items with days of their own: nationals 1 to 4 with 10, 13, 13, 20.
fn four() -> Fixture {
    let mut fixture = Fixture::fresh(2, Space::plain(0));
    for (national, value, day) in [(1, 10, 5), (2, 13, 65_535), (3, 13, 4), (4, 20, 3)] {
        assert_eq!(fixture.refusal(Call::Add { tag: tag(national), profile: valued(value), day }), 0);
    }
    fixture
}

// In an area of so many entries that held other content.
fn batch(fixture: &mut Fixture, queries: &[Row], room: usize) -> Reply {
    fixture.areas.work = queries.to_vec();
    fixture.areas.result = vec![OTHER; room];
    fixture.call(Call::RangeBatch)
}

fn single(areas: &Areas, query: &Row) -> (Vec<Entry>, Reply) {
    let Slot { profile, threshold, day, .. } = Slot::of(query);
    let call = Call::Range { query: profile, radius: threshold, first_day: day as u16 };
    let mut areas = Areas { result: vec![OTHER; 1 << 13], ..areas.clone() };
    let reply = compare(&call, &mut areas, &mut Random::new(3));
    (areas.result[..reply.found as usize].to_vec(), reply)
}

fn entries(list: &[(u64, u64)]) -> Vec<Entry> {
    list.iter().map(|&(national, distance)| [tag(national), distance]).collect()
}

// From the first slot one query goes left alone and one right alone: two slots each, and three together.
#[test]
fn a_slot_counts_once() {
    let mut fixture = four();
    let queries = [asks(valued(10), 0, 0), asks(valued(30), 5, 0)];
    let reply = batch(&mut fixture, &queries, 9);
    assert_eq!((reply.refusal, reply.distances, &reply.each_found[..3]), (0, 3, &[1, 0, 0][..]));
    let mut expected = vec![[0; 2]; 9];
    expected[0] = [tag(1), 0];
    assert_eq!(fixture.areas.result, expected);
    assert_eq!(queries.map(|query| single(&fixture.areas, &query).1.distances), [2, 2]);
}

// Parts exactly long enough, one entry short, longer, and with up to n - 1 entries left over.
#[test]
fn parts_of_an_area() {
    let mut fixture = four();
    for n in [1, 2, 3, 15, 16] {
        let queries = vec![asks(valued(13), 3, 0); n];
        let list = entries(&[(2, 0), (3, 0), (1, 3)]);
        for room in [0, 1, 3 * n - 1, 3 * n, 3 * n + n / 2, 4 * n - 1, 4 * n, 9 * n] {
            let reply = batch(&mut fixture, &queries, room);
            let (part, mut expected) = (room / n, vec![[0; 2]; room]);
            if part < 3 {
                assert_eq!((reply.refusal, reply.distances, reply.each_found), (6, 0, [0; 16]));
            } else {
                (0..n).for_each(|j| expected[j * part..][..3].copy_from_slice(&list));
                let found: [u16; 16] = std::array::from_fn(|j| if j < n { 3 } else { 0 });
                assert_eq!((reply.refusal, reply.distances, reply.each_found), (0, 4, found));
            }
            assert_eq!(fixture.areas.result, expected);
        }
    }
}

// One list that does not fit is enough, whichever it is; lists of nothing fit parts of no entry.
#[test]
fn one_part_too_short() {
    let mut fixture = four();
    for at in 0..16 {
        let mut queries = [asks(valued(99), 1, 0); 16];
        assert_eq!(batch(&mut fixture, &queries, 15).refusal, 0);
        assert_eq!(fixture.areas.result, [[0; 2]; 15]);
        queries[at] = asks(valued(13), 0, 0);
        for (room, refusal) in [(15, 6), (16, 6), (31, 6), (32, 0), (47, 0)] {
            assert_eq!(batch(&mut fixture, &queries, room).refusal, refusal);
        }
        assert_eq!(fixture.areas.result[2 * at..][..2], entries(&[(2, 0), (3, 0)]));
    }
}

// Each query goes by its own radius and its own first day, the lowest 16 bits of its word; other words are ignored.
#[test]
fn queries_of_their_own() {
    let mut fixture = four();
    let days = [(0, 4), (3, 4), (4, 3), (5, 2), (6, 1), (65_535, 1)];
    let queries = days.map(|(day, _)| {
        let mut row = asks(valued(0), u32::MAX, day);
        for (word, other) in [(0, 7), (1, u32::MAX), (11, 1), (11, 9)] {
            row[word] = other;
        }
        row[12] |= 0xABCD_0000;
        row
    });
    let reply = batch(&mut fixture, &queries, 24);
    assert_eq!((reply.refusal, reply.distances), (0, 4));
    assert_eq!(reply.each_found[..6], days.map(|(_, found)| found));
    let queries = [0, 2, 3, 9, 10, u32::MAX].map(|radius| asks(valued(11), radius, 0));
    let reply = batch(&mut fixture, &queries, 24);
    assert_eq!(reply.each_found[..7], [0, 3, 3, 4, 4, 4, 0]);
}

// 40 is after 23 and 24 and before 2, and 2 before 6; each leaves the area but 6.
#[test]
fn refusals_in_their_order() {
    let bad = asks(valued(1_000_001), 0, 0);
    let near = asks(valued(13), 0, 0);
    for (queries, refusal) in [
        (vec![], 40),
        (vec![near; 17], 40),
        (vec![bad; 17], 40),
        (vec![near; 18], 40),
        (vec![near, bad], 2),
        (vec![bad], 2),
        ([vec![near; 15], vec![bad]].concat(), 2),
    ] {
        let mut fixture = four();
        assert_eq!(batch(&mut fixture, &queries, 1).refusal, refusal);
        assert_eq!(fixture.areas.result, [OTHER]);
        for (row, word, other) in [(0, 0, 13), (0, 1, 3), (0, 2, 101), (1, 0, 2)] {
            let mut fixture = four();
            fixture.areas.table[row][word] = other;
            assert_eq!(batch(&mut fixture, &queries, 1).refusal, 24);
        }
        for rows in [0, 10] {
            let mut fixture = four();
            fixture.areas.table.truncate(rows);
            assert_eq!(batch(&mut fixture, &queries, 1).refusal, 23);
        }
    }
}

// An empty table meets nothing.
#[test]
fn an_empty_table() {
    let mut fixture = Fixture::fresh(3, Space::plain(2));
    let reply = batch(&mut fixture, &[asks(valued(0), u32::MAX, 0); 16], 20);
    assert_eq!((reply.refusal, reply.distances, reply.each_found), (0, 0, [0; 16]));
    assert_eq!(fixture.areas.result, [[0; 2]; 20]);
}

// Any batches on any tables, foreign ones too, beside the single calls: lists and numbers are theirs, and the count is at
// least each of theirs, at most all of them, and the same for one query.
#[test]
fn batches_beside_single_calls() {
    let mut random = Random::new(41);
    let mut accepted = 0;
    for round in 0..900 {
        let (order, space) = (round % 7, random.space(round / 7 % 3));
        let table = if random.one_in(2) {
            let sound = sound::table(&mut random, order, space);
            foreign::rows_of(&mut random, &sound, 0)
        } else {
            foreign::table(&mut random, order, space)
        };
        let mut areas = Areas { table, ..Areas::default() };
        let call = range_batch(&mut random, &mut areas, order);
        let reply = compare(&call, &mut areas, &mut random);
        if reply.refusal != 0 {
            continue;
        }
        accepted += 1;
        let part = areas.result.len() / areas.work.len();
        let (mut most, mut sum) = (0, 0);
        for (j, query) in areas.work.iter().enumerate() {
            let (list, alone) = single(&areas, query);
            assert_eq!((alone.refusal, reply.each_found[j] as u32), (0, alone.found));
            assert_eq!(areas.result[j * part..][..list.len()], list);
            assert!(areas.result[j * part..][list.len()..part].iter().all(|entry| *entry == [0; 2]));
            (most, sum) = (most.max(alone.distances), sum + alone.distances);
        }
        assert!(areas.result[areas.work.len() * part..].iter().all(|entry| *entry == [0; 2]));
        assert!(most <= reply.distances && reply.distances <= sum);
        assert!(areas.work.len() > 1 || reply.distances == sum);
    }
    assert!(accepted >= 300, "{accepted} accepted");
}

// Equal tags in a foreign table: equal entries stand as often as they are found, in each list.
#[test]
fn equal_tags() {
    let (order, space) = (1, Space::plain(0));
    let mut rows = vec![[0; ROW_WORDS]; table_rows(order)];
    put_table(&mut rows, &Table { order, space, buckets: vec![Bucket::default(); 2] });
    let slot = Slot { tag: tag(1), profile: valued(3), day: 1, ..Slot::default() };
    put_bucket(&mut rows, order, 1, 2, &[slot, slot]);
    let mut fixture = Fixture::of(order, rows);
    let reply = batch(&mut fixture, &[asks(valued(3), 0, 0), asks(valued(0), 3, 0)], 5);
    assert_eq!((reply.refusal, reply.distances, &reply.each_found[..2]), (0, 2, &[2, 2][..]));
    assert_eq!(fixture.areas.result[..4], entries(&[(1, 0), (1, 0), (1, 3), (1, 3)]));
}
