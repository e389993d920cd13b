//! Days: on which an item was weighed, kept through every rebuild, and the first day that a search takes.

use outside::calls::Call;
use outside::fixture::{Fixture, measured, tag};
use outside::foreign;
use outside::random::{MAX_DAY, Random};
use outside::sound;
use reference::item::{Profile, ROW_WORDS, Slot, Space};
use reference::table::{Bucket, Table, put_bucket, put_table, table_rows};
use reference::tree::layout;

// First days: none, the ends, and about the days that items here have.
const FIRST_DAYS: [u16; 9] = [0, 1, 2, 299, 300, 301, 32_768, MAX_DAY - 1, MAX_DAY];

fn valued(first: i32) -> Profile {
    measured([first, 0, 0, 0])
}

fn add(fixture: &mut Fixture, national: u64, value: i32, day: u16) -> u32 {
    fixture.refusal(Call::Add { tag: tag(national), profile: valued(value), day })
}

// A table of metric 0 with these items: national number, first measure, day.
fn herd(order: u32, items: &[(u64, i32, u16)]) -> Fixture {
    let mut fixture = Fixture::fresh(order, Space::plain(0));
    for &(national, value, day) in items {
        assert_eq!(add(&mut fixture, national, value, day), 0);
    }
    fixture
}

fn day_of(fixture: &mut Fixture, national: u64) -> u32 {
    let reply = fixture.call(Call::LookUp { tag: tag(national) });
    assert_eq!(reply.refusal, 0);
    reply.day
}

// 33 is after 1 and 2 and before 20 and 22.
#[test]
fn add_refuses_day_0_in_its_place() {
    let mut fixture = herd(1, &[(1, 5, 1)]);
    let mut refusal = |tag, value, day| fixture.refusal(Call::Add { tag, profile: valued(value), day });
    assert_eq!([refusal(0, 1_000_001, 0), refusal(0, 5, 0), refusal(0, 5, 1)], [1; 3]);
    assert_eq!([refusal(tag(1), 1_000_001, 0), refusal(tag(2), -1_000_001, 0), refusal(tag(2), 1_000_001, 1)], [2; 3]);
    assert_eq!([refusal(tag(1), 5, 0), refusal(tag(2), 5, 0)], [33; 2]);
    assert_eq!([refusal(tag(1), 5, 1), refusal(tag(1), 5, MAX_DAY)], [20; 2]);
    assert_eq!(refusal(tag(2), 5, MAX_DAY), 0);
    // the table is full
    assert_eq!([refusal(tag(3), 5, 0), refusal(tag(2), 5, 0)], [33; 2]);
    assert_eq!([refusal(tag(2), 5, 1), refusal(tag(3), 5, 1)], [20, 22]);
}

// The areas go before the day.
#[test]
fn areas_are_tested_before_the_day() {
    let mut fixture = herd(1, &[]);
    fixture.areas.work.truncate(1);
    assert_eq!(add(&mut fixture, 1, 5, 0), 23);
    let mut fixture = herd(1, &[]);
    fixture.areas.table[0][5] = 101;
    assert_eq!(add(&mut fixture, 1, 5, 0), 24);
}

// Every build of adds and removals moves the day with its item.
#[test]
fn days_are_kept_through_every_rebuild() {
    let day = |national: u64| [1, MAX_DAY, 300, 256, 255][national as usize % 5];
    let mut fixture = herd(5, &[]);
    let mut live = vec![];
    for national in 1..=32 {
        assert_eq!(add(&mut fixture, national, (national * 37 % 50) as i32, day(national)), 0);
        live.push(national);
        assert!(live.iter().all(|&n| day_of(&mut fixture, n) == day(n) as u32));
    }
    for national in (1..=32).map(|n| n * 7 % 33) {
        fixture.remove(national);
        live.retain(|&n| n != national);
        assert!(live.iter().all(|&n| day_of(&mut fixture, n) == day(n) as u32));
        if national % 3 == 0 {
            assert_eq!(add(&mut fixture, 100 + national, 5, day(100 + national)), 0);
            live.push(100 + national);
        }
    }
    assert_eq!(live.len(), 10);
}

// An item that is struck out and put in again has its new day.
#[test]
fn an_item_weighed_again() {
    let mut fixture = herd(2, &[(1, 10, 300), (2, 20, 301), (3, 30, 302)]);
    fixture.remove(2);
    assert_eq!(add(&mut fixture, 2, 21, 1), 0);
    assert_eq!([1, 2, 3].map(|national| day_of(&mut fixture, national)), [300, 1, 302]);
}

// A first day reports itself and what is later. Of the nearest, an older item does not take the place of another.
#[test]
fn searches_from_a_first_day() {
    let items = [(1, 10, 300), (2, 20, 1), (3, 30, 301), (4, 40, MAX_DAY), (5, 50, 300), (6, 60, 2)];
    for first_day in FIRST_DAYS {
        let mut fixture = herd(3, &items);
        let since: Vec<(u64, u64)> =
            items.iter().filter(|item| item.2 >= first_day).map(|item| (item.0, item.1 as u64)).collect();
        for radius in [0, 9, 10, 35, 60, u32::MAX] {
            let within: Vec<_> = since.iter().copied().filter(|hit| hit.1 <= radius as u64).collect();
            assert_eq!(fixture.search(Call::Range { query: valued(0), radius, first_day }).0, within);
        }
        for k in [1, 2, 3, 6, 7, u32::MAX] {
            let nearest: Vec<_> = since.iter().copied().take(k as usize).collect();
            assert_eq!(fixture.search(Call::Nearest { query: valued(0), k, first_day }).0, nearest);
        }
    }
}

// Of items at the same distance the lower tag goes first, if it is not older.
#[test]
fn ties_from_a_first_day() {
    let mut fixture = herd(2, &[(1, 10, 5), (2, -10, 7), (3, 10, 6), (4, -10, 8)]);
    let mut nearest = |k, first_day| -> Vec<u64> {
        let found = fixture.search(Call::Nearest { query: valued(0), k, first_day }).0;
        found.iter().map(|hit| hit.0).collect()
    };
    assert_eq!([nearest(2, 5), nearest(2, 6), nearest(2, 7)], [[1, 2], [2, 3], [2, 4]]);
    assert_eq!([nearest(1, 8), nearest(4, 8)], [[4], [4]]);
    assert_eq!(nearest(4, 9), []);
}

// A sound table of any order up to 5, by any metric.
fn any_table(random: &mut Random, round: u32) -> (Table, Fixture) {
    let (order, space) = (round % 6, random.space(round / 6 % 3));
    let table = sound::table(random, order, space);
    let rows = foreign::rows_of(random, &table, 0);
    (table, Fixture::of(order, rows))
}

// Which slots range visits does not go by the day, and those that it reports are those of the first day or later.
#[test]
fn range_visits_the_same_slots() {
    let mut random = Random::new(22);
    for round in 0..300 {
        let (_, mut fixture) = any_table(&mut random, round);
        let (query, radius) = (random.profile(), random.reach());
        let (all, visited) = fixture.search(Call::Range { query, radius, first_day: 0 });
        for first_day in FIRST_DAYS.into_iter().chain([random.first_day()]) {
            let (found, count) = fixture.search(Call::Range { query, radius, first_day });
            let since: Vec<_> =
                all.iter().copied().filter(|hit| day_of(&mut fixture, hit.0) >= first_day as u32).collect();
            assert_eq!((found, count), (since, visited));
        }
    }
}

// Nearest goes on until it has k that may be reported: below that every slot is met, and the older ones are no bound.
#[test]
fn older_items_are_no_bound() {
    let mut random = Random::new(23);
    for round in 0..300 {
        let (table, mut fixture) = any_table(&mut random, round);
        let slots: Vec<Slot> = table.buckets.into_iter().flat_map(|bucket| bucket.slots).collect();
        for first_day in FIRST_DAYS {
            let since = slots.iter().filter(|slot| slot.may_report(first_day)).count();
            for k in 1..=since + 1 {
                let call = Call::Nearest { query: random.profile(), k: k as u32, first_day };
                let (found, count) = fixture.search(call);
                assert_eq!(found.len(), k.min(since));
                assert!(k <= since || count as usize == slots.len(), "below k every slot is met");
            }
        }
    }
}

// 6 goes by the number that may be reported: an area for those is enough, one entry fewer is not.
#[test]
fn room_for_those_that_are_reported() {
    let items = [(1, 10, 300), (2, 20, 1), (3, 30, 301), (4, 40, MAX_DAY), (5, 50, 300), (6, 60, 2)];
    for first_day in FIRST_DAYS {
        let since = items.iter().filter(|item| item.2 >= first_day).count();
        for room in 0..=items.len() {
            let mut fixture = herd(3, &items);
            fixture.areas.result.truncate(room);
            let refusal = |found: usize| if found > room { 6 } else { 0 };
            let range = Call::Range { query: valued(0), radius: u32::MAX, first_day };
            assert_eq!(fixture.refusal(range), refusal(since));
            for k in 1..=7 {
                let nearest = Call::Nearest { query: valued(0), k, first_day };
                assert_eq!(fixture.refusal(nearest), refusal(since.min(k as usize)));
            }
        }
    }
}

// One live item in a table of order 0, or 1 where a build is to follow, with this word as its day.
fn lent(order: u32, day: u32) -> Fixture {
    let mut rows = vec![[0; ROW_WORDS]; table_rows(order)];
    let buckets = vec![Bucket::default(); order as usize + 1];
    put_table(&mut rows, &Table { order, space: Space::plain(0), buckets });
    let slot = Slot { tag: tag(1), profile: valued(3), day, ..Slot::default() };
    put_bucket(&mut rows, order, 0, 1, &layout(&Space::plain(0), &[slot]));
    Fixture::of(order, rows)
}

const WORDS: [u32; 9] = [0, 1, 0xFFFF, 0x1_0000, 0x1_0001, 0x1_FFFF, 0xFFFF_0000, 1 << 31, u32::MAX];

// A lent table may hold any word there: look up gives it, searches compare it as a number, builds move it, and write
// keeps its lowest 16 bits.
#[test]
fn days_of_a_lent_table() {
    for word in WORDS {
        let mut fixture = lent(0, word);
        assert_eq!(day_of(&mut fixture, 1), word);
        for first_day in FIRST_DAYS {
            let expected = if word >= first_day as u32 { vec![(1, 3)] } else { vec![] };
            assert_eq!(fixture.search(Call::Range { query: valued(0), radius: 3, first_day }), (expected.clone(), 1));
            assert_eq!(fixture.search(Call::Nearest { query: valued(0), k: 1, first_day }), (expected, 1));
        }
        assert_eq!(fixture.call(Call::Write).length, 62);
        assert_eq!(fixture.areas.bytes[60..63], [word as u8, (word >> 8) as u8, 1]);
        fixture.areas.bytes.truncate(62);
        let low = word as u16;
        assert_eq!(fixture.refusal(Call::Load), if low == 0 { 33 } else { 0 });
        assert_eq!(day_of(&mut fixture, 1), if low == 0 { word } else { low as u32 });

        let mut fixture = lent(1, word);
        assert_eq!(add(&mut fixture, 2, 5, 7), 0);
        assert_eq!([day_of(&mut fixture, 1), day_of(&mut fixture, 2)], [word, 7]);
    }
}

// The word is left where it stands by a removal, which writes the mark and nothing else of the slot.
#[test]
fn a_removal_leaves_the_day() {
    let mut fixture = herd(2, &[(1, 10, 300), (2, 20, 301), (3, 30, 302), (4, 40, 303)]);
    let before = fixture.areas.table.clone();
    fixture.remove(3);
    let changed: Vec<_> = (0..before.len()).filter(|&at| fixture.areas.table[at] != before[at]).collect();
    let slot = changed[1];
    assert_eq!(changed, [3, slot]);
    assert_eq!((before[slot][11], before[slot][12]), (0, 302));
    let mut dead = before[slot];
    dead[11] = 1;
    assert_eq!(fixture.areas.table[slot], dead);
}
