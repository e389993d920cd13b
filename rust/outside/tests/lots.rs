//! Lots: who leads and who follows, the summary of every radius, the listing of one, and the areas after them.

use outside::calls::{Call, Reply};
use outside::fixture::{Fixture, measured, tag};
use outside::random::Random;
use outside::{foreign, sound};
use reference::item::{Entry, ROW_WORDS, Row, Slot, Space};
use reference::lots::Summary;
use reference::table::{Bucket, Table, capacity, put_table, table_rows};

const KEPT: u64 = 7;

// The lengths of the work area, of the summary and of the listing.
type Lengths = [usize; 3];

fn lend(fixture: &mut Fixture, radii: &[u32], [work, summary, listing]: Lengths) {
    fixture.areas.radii = radii.to_vec();
    fixture.areas.draft = vec![[KEPT; 2]; work];
    fixture.areas.summary = vec![[KEPT as u32; 2]; summary];
    fixture.areas.listing = vec![[KEPT; 2]; listing];
}

fn draft(fixture: &mut Fixture, radii: &[u32], chosen: u32, lengths: Lengths) -> Reply {
    lend(fixture, radii, lengths);
    fixture.call(Call::Lots { chosen })
}

// The summary and the listing of an accepted drafting, in areas of just the lengths that it needs.
fn drafted(fixture: &mut Fixture, order: u32, items: usize, radii: &[u32], chosen: u32) -> (Vec<Summary>, Vec<Entry>) {
    let reply = draft(fixture, radii, chosen, [capacity(order), radii.len(), items]);
    assert_eq!(reply.refusal, 0);
    assert!(fixture.areas.draft.iter().all(|entry| *entry == [0; 2]));
    (fixture.areas.summary.clone(), fixture.areas.listing.clone())
}

// The nationals of each lot.
fn nationals(listing: &[Entry]) -> Vec<Vec<u64>> {
    let mut lots: Vec<Vec<u64>> = vec![];
    for &[stored, lot] in listing {
        lots.resize(lot as usize, vec![]);
        lots[lot as usize - 1].push(stored - tag(0));
    }
    lots
}

fn herd(order: u32, weights: &[(u64, i32)]) -> Fixture {
    let mut fixture = Fixture::fresh(order, Space::plain(0));
    for &(national, weight) in weights {
        assert_eq!(fixture.add(national, measured([weight, 0, 0, 0])).refusal, 0);
    }
    fixture
}

// Put in by no order of their tags.
const HERD: [(u64, i32); 4] = [(3, 16), (1, 10), (4, 13), (2, 20)];

#[test]
fn the_lowest_tag_leads_and_the_first_leader_is_followed() {
    let mut fixture = herd(2, &HERD);
    // item 3 is nearer to 2 than to 1, which leads before 2
    let by_six = (vec![[2, 3]], vec![vec![1, 3, 4], vec![2]]);
    // item 3 is within 4 of 4 and of 2: of these 2 leads and 4 does not
    let by_four = (vec![[2, 2]], vec![vec![1, 4], vec![2, 3]]);
    let by_three = (vec![[3, 2]], vec![vec![1, 4], vec![2], vec![3]]);
    let by_none = (vec![[4, 1]], vec![vec![1], vec![2], vec![3], vec![4]]);
    let all = (vec![[1, 4]], vec![vec![1, 2, 3, 4]]);
    let cases = [(0, &by_none), (3, &by_three), (4, &by_four), (6, &by_six), (10, &all), (u32::MAX, &all)];
    for (radius, (summary, lots)) in cases {
        let told = drafted(&mut fixture, 2, 4, &[radius], 1);
        assert_eq!((&told.0, &nationals(&told.1)), (summary, lots), "radius {radius}");
    }
    // the same radii together, with one of them twice, and each of them chosen
    let radii = [6, 0, 4, u32::MAX, 4, 3];
    let told = [&by_six, &by_none, &by_four, &all, &by_four, &by_three];
    for (chosen, (_, lots)) in (1..).zip(told) {
        let (summary, listing) = drafted(&mut fixture, 2, 4, &radii, chosen);
        assert_eq!(summary, told.map(|(summary, _)| summary[0]));
        assert_eq!(&nationals(&listing), lots);
    }
}

#[test]
fn no_items_and_one() {
    let mut fixture = herd(3, &[]);
    assert_eq!(drafted(&mut fixture, 3, 0, &[5, 5], 2), (vec![[0, 0]; 2], vec![]));
    fixture.add(9, measured([1, 1, 1, 1]));
    assert_eq!(drafted(&mut fixture, 3, 1, &[0], 1), (vec![[1, 1]], vec![[tag(9), 1]]));
}

// 1 to 32 radii, and a place in their list: else 41, which leaves every area.
#[test]
fn radii_and_their_places() {
    let mut fixture = herd(2, &HERD);
    for count in 1..=32 {
        drafted(&mut fixture, 2, 4, &vec![count as u32; count], count as u32);
    }
    let lists = [(0, 0), (0, 1), (1, 0), (1, 2), (32, 0), (32, 33), (32, u32::MAX), (33, 1), (33, 33), (300, 300)];
    for (count, chosen) in lists {
        for lengths in [[4, 0, 0], [4, 9, 9], [9, 300, 4]] {
            let reply = draft(&mut fixture, &vec![6; count], chosen, lengths);
            assert_eq!(reply.refusal, 41, "{chosen} of {count}");
            assert!(fixture.areas.draft.iter().chain(&fixture.areas.listing).all(|entry| *entry == [KEPT; 2]));
            assert!(fixture.areas.summary.iter().all(|entry| *entry == [KEPT as u32; 2]));
        }
    }
}

// 23 goes before 41, and that before 6: both areas are then zero, and the work area is kept.
#[test]
fn short_areas() {
    let mut fixture = herd(2, &HERD);
    assert_eq!(draft(&mut fixture, &[], 0, [3, 0, 0]).refusal, 23);
    for lengths in [[4, 1, 4], [4, 2, 3], [4, 0, 0], [4, 1, 9], [4, 9, 0], [6, 9, 3]] {
        assert_eq!(draft(&mut fixture, &[6, 6], 1, lengths).refusal, 6);
        assert!(fixture.areas.draft.iter().all(|entry| *entry == [KEPT; 2]));
        assert!(fixture.areas.listing.iter().all(|entry| *entry == [0; 2]));
        assert!(fixture.areas.summary.iter().all(|entry| *entry == [0; 2]));
    }
    // longer ones: zeros past the entries, and what is past the work area's 2^T is kept
    assert_eq!(draft(&mut fixture, &[6, 6], 1, [6, 5, 7]).refusal, 0);
    assert_eq!(fixture.areas.draft, [[0; 2], [0; 2], [0; 2], [0; 2], [KEPT; 2], [KEPT; 2]]);
    assert_eq!(fixture.areas.summary[2..], [[0; 2]; 3]);
    assert_eq!(fixture.areas.listing[4..], [[0; 2]; 3]);
}

// The table goes before the radii, its marks too: those of an add.
#[test]
fn the_table_is_tested_first() {
    type Fault = fn(&mut Vec<Row>);
    let faults: [(Fault, u32); 6] = [
        (|rows| rows.clear(), 23),
        (|rows| rows[0][1] = 3, 24),
        (|rows| rows.truncate(table_rows(2) - 1), 23),
        (|rows| rows[0][4] = 101, 24),
        (|rows| rows.last_mut().expect("some")[11] = 2, 24),
        (|rows| rows.last_mut().expect("some")[11] = 1, 24),
    ];
    for (fault, number) in faults {
        let mut fixture = herd(2, &HERD);
        fault(&mut fixture.areas.table);
        for radii in [vec![], vec![6], vec![6; 33]] {
            assert_eq!(draft(&mut fixture, &radii, 1, [4, 0, 0]).refusal, number);
        }
    }
}

// A lent table of order 2 with these slots in bucket 2 and one in bucket 0.
fn lent(slots: [Slot; 3], lowest: Slot) -> Fixture {
    let mut buckets = vec![Bucket::default(); 3];
    let live = slots.iter().filter(|slot| slot.is_live()).count() as u32;
    buckets[0] = Bucket { built: 1, live: 1, slots: vec![lowest] };
    buckets[2] = Bucket { built: 3, live, slots: slots.to_vec() };
    let mut rows = vec![[0; ROW_WORDS]; table_rows(2)];
    put_table(&mut rows, &Table { order: 2, space: Space::plain(0), buckets });
    Fixture::of(2, rows)
}

fn slot(tag: u64, weight: i32, mark: u32) -> Slot {
    Slot { tag, profile: measured([weight, 0, 0, 0]), threshold: 1, mark, day: 0 }
}

// Equal tags go by bucket, then slot, and dead slots are in no lot; thresholds and days play no part.
#[test]
fn equal_tags_of_a_lent_table() {
    // the one in bucket 0 leads before the one between the others
    let mut fixture = lent([slot(tag(5), 20, 0), slot(tag(5), 10, 0), slot(tag(2), 41, 0)], slot(tag(5), 30, 0));
    let (summary, listing) = drafted(&mut fixture, 2, 4, &[10, 11], 1);
    assert_eq!(summary, [[3, 2], [2, 2]]);
    assert_eq!(listing, [[tag(2), 1], [tag(5), 2], [tag(5), 2], [tag(5), 3]]);
    // and so does the one in the first slot
    let mut fixture = lent([slot(tag(5), 10, 0), slot(tag(5), 20, 0), slot(tag(5), 30, 0)], slot(tag(6), 99, 0));
    assert_eq!(drafted(&mut fixture, 2, 4, &[10], 1).0, [[3, 2]]);
    let mut fixture = lent([slot(0, 10, 0), slot(0, 20, 1), slot(u64::MAX, 0, 0)], slot(u64::MAX, 10, 0));
    assert_eq!(drafted(&mut fixture, 2, 3, &[9], 1), (vec![[2, 2]], vec![[0, 1], [u64::MAX, 1], [u64::MAX, 2]]));
}

// Random tables, sound and foreign, by each metric, with areas about as long as needed.
#[test]
fn random_tables() {
    let mut random = Random::new(14);
    let mut met = [0; 42];
    for n in 0..1500 {
        let (order, space) = (random.below(7) as u32, random.space(n % 3));
        let rows = match random.below(2) {
            0 => {
                let mut rows = vec![[0; ROW_WORDS]; table_rows(order)];
                put_table(&mut rows, &sound::table(&mut random, order, space));
                rows
            }
            _ => foreign::table(&mut random, order, space),
        };
        let live = Table::open(&rows, |_| true).map_or(0, |table| table.live());
        let count = 1 + random.below(5);
        let mut radii = random.fill(count, Random::reach);
        radii.push(random.pick(&radii));
        let chosen = random.below(radii.len() + 2) as u32;
        let lengths = [capacity(order), radii.len() + 2 - random.below(4), (live + 2).saturating_sub(random.below(4))];
        let mut fixture = Fixture::of(order, rows);
        met[draft(&mut fixture, &radii, chosen, lengths).refusal as usize] += 1;
    }
    assert!([0, 6, 24, 41].into_iter().all(|number| met[number] >= 50), "{met:?}");
}
