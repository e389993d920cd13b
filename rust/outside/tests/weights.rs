//! Weights: each at its own measure, at the ends of their range and beyond it, and differences that saturate.

use outside::calls::Call;
use outside::fixture::{Fixture, measured, tag};
use outside::foreign::any_row;
use outside::item_lists;
use outside::random::{MAX_MEASURE, Random};
use outside::sound;
use reference::item::{Profile, ROW_WORDS, Row, Slot, Space};
use reference::table::{Table, put_bucket, put_table, table_rows};
use reference::tree::layout;

const BAD: [u32; 5] = [101, 256, 257, 1 << 31, u32::MAX];

fn fresh(order: u32, metric: u32, weights: [u32; 4]) -> Fixture {
    Fixture::fresh(order, Space { metric, weights })
}

fn add(fixture: &mut Fixture, national: u64, profile: Profile) {
    assert_eq!(fixture.add(national, profile).refusal, 0);
}

// entries as national and distance
fn nearest(fixture: &mut Fixture, measures: [i32; 4], k: u32) -> Vec<(u64, u64)> {
    fixture.nearest(measured(measures), k).0
}

fn range(fixture: &mut Fixture, measures: [i32; 4], radius: u32) -> Vec<(u64, u64)> {
    fixture.range(measured(measures), radius).0
}

// Row 0 has order, metric and weights, and zeros behind them.
#[test]
fn fresh_writes_the_weights() {
    for metric in 0..=2 {
        for weights in [[1; 4], [0; 4], [100; 4], [3, 0, 100, 1]] {
            let fixture = fresh(2, metric, weights);
            let [a, b, c, d] = weights;
            assert_eq!(fixture.areas.table[0], [2, metric, a, b, c, d, 0, 0, 0, 0, 0, 0, 0]);
            assert!(fixture.areas.table[1..].iter().all(|row| *row == [0; ROW_WORDS]));
        }
    }
}

// Every place of the four, every metric, in a table that is long enough and in one that is not.
#[test]
fn fresh_refuses_a_weight_above_100() {
    for (metric, at) in (0..=2).flat_map(|metric| (0..4).map(move |at| (metric, at))) {
        for (weight, rows) in BAD.iter().flat_map(|weight| [0, table_rows(2)].map(|rows| (*weight, rows))) {
            let mut weights = [1; 4];
            weights[at] = weight;
            let mut fixture = Fixture::of(2, vec![[7; ROW_WORDS]; rows]);
            assert_eq!(fixture.refusal(Call::Fresh { order: 2, space: Space { metric, weights } }), 32);
            weights[at] = 100;
            let refusal = if rows == 0 { 23 } else { 0 };
            assert_eq!(fixture.refusal(Call::Fresh { order: 2, space: Space { metric, weights } }), refusal);
        }
    }
}

// The difference of a measure is multiplied by the weight of that measure.
#[test]
fn each_measure_has_its_own_weight() {
    let weights = [2, 3, 5, 7];
    for (at, weight) in weights.into_iter().enumerate() {
        let mut measures = [0; 4];
        measures[at] = -11;
        for (metric, distance) in [(0, 11 * weight), (1, 0), (2, 11 * weight)] {
            let mut fixture = fresh(0, metric, weights);
            add(&mut fixture, 1, measured(measures));
            assert_eq!(nearest(&mut fixture, [0; 4], 1), [(1, distance as u64)]);
        }
    }
    for (metric, distance) in [(0, 2 + 6 + 15 + 28), (1, 0), (2, 28)] {
        let mut fixture = fresh(0, metric, weights);
        add(&mut fixture, 1, measured([1, -2, 3, -4]));
        assert_eq!(nearest(&mut fixture, [0; 4], 1), [(1, distance)]);
    }
}

// Kilos ten times: the item that is nearest otherwise comes second, and the trees are made by these distances too.
#[test]
fn weights_change_the_order() {
    let herd = [[0, 30, 0, 0], [5, 0, 0, 0], [0, 0, 40, 0], [9, 0, 0, 9]];
    let with = |weights| {
        let mut fixture = fresh(2, 0, weights);
        (1..).zip(herd).for_each(|(national, measures)| add(&mut fixture, national, measured(measures)));
        fixture
    };
    let mut plain = with([1; 4]);
    assert_eq!(nearest(&mut plain, [0; 4], 4), [(2, 5), (4, 18), (1, 30), (3, 40)]);
    let mut weighted = with([10, 1, 1, 0]);
    assert_eq!(nearest(&mut weighted, [0; 4], 4), [(1, 30), (3, 40), (2, 50), (4, 90)]);
    assert_eq!(range(&mut weighted, [0; 4], 40), [(1, 30), (3, 40)]);
    assert_ne!(plain.areas.table[7..], weighted.areas.table[7..]);
}

// The distances as they were before there were weights.
fn unweighted(metric: u32, p: &Profile, q: &Profile) -> u64 {
    let gap = |i: usize| (p.measures[i] as i64 - q.measures[i] as i64).unsigned_abs();
    match metric {
        0 => (gap(0) + gap(1) + gap(2) + gap(3)).min(u32::MAX as u64),
        1 => ((p.code[0] ^ q.code[0]).count_ones() + (p.code[1] ^ q.code[1]).count_ones()) as u64,
        _ => gap(0).max(gap(1)).max(gap(2)).max(gap(3)),
    }
}

#[test]
fn weights_of_one_are_the_plain_distances() {
    for metric in 0..=2 {
        let mut fixture = fresh(4, metric, [1; 4]);
        let profiles = fixture.random.fill(16, |random| random.profile());
        for (profile, national) in profiles.iter().zip(1..) {
            add(&mut fixture, national, *profile);
        }
        for query in &profiles {
            let away = |(profile, national)| (national, unweighted(metric, profile, query));
            let mut expected: Vec<(u64, u64)> = profiles.iter().zip(1..).map(away).collect();
            expected.sort_by_key(|&(national, distance)| (distance, national));
            assert_eq!(fixture.nearest(*query, 16).0, expected);
        }
        // measures of any 32 bits, in a foreign table
        for _ in 0..200 {
            let measures = fixture.random.any_profile().measures;
            let mut foreign = Fixture::of(0, foreign(Space::plain(metric), measures));
            let distance = unweighted(metric, &measured(measures), &Profile::default());
            assert_eq!(nearest(&mut foreign, [0; 4], 1), [(1, distance)]);
        }
    }
}

// All weights 0: different profiles at distance 0, by tag. Metric 1 is as ever.
#[test]
fn weights_of_zero() {
    for metric in [0, 2] {
        let mut fixture = fresh(2, metric, [0; 4]);
        for national in [3, 1, 4, 2] {
            add(&mut fixture, national, measured([national as i32 * 1000, -MAX_MEASURE, MAX_MEASURE, 0]));
        }
        assert_eq!(range(&mut fixture, [0; 4], 0), [(1, 0), (2, 0), (3, 0), (4, 0)]);
        assert_eq!(nearest(&mut fixture, [0; 4], 2), [(1, 0), (2, 0)]);
    }
    let mut fixture = fresh(0, 1, [0; 4]);
    add(&mut fixture, 1, Profile { measures: [0; 4], code: [7, 1] });
    assert_eq!(nearest(&mut fixture, [0; 4], 1), [(1, 4)]);
}

// The largest distance of valid items.
#[test]
fn the_largest_of_valid_items() {
    for (metric, distance) in [(0, 800_000_000), (2, 200_000_000)] {
        let mut fixture = fresh(0, metric, [100; 4]);
        add(&mut fixture, 1, measured([MAX_MEASURE; 4]));
        assert_eq!(nearest(&mut fixture, [-MAX_MEASURE; 4], 1), [(1, distance)]);
    }
}

// One item of any measures, in bucket 0 of a foreign table.
fn foreign(space: Space, measures: [i32; 4]) -> Vec<Row> {
    let mut rows = vec![[0; ROW_WORDS]; table_rows(0)];
    put_table(&mut rows, &Table { order: 0, space, buckets: vec![Default::default()] });
    let slot = Slot { tag: tag(1), profile: measured(measures), ..Slot::default() };
    put_bucket(&mut rows, 0, 0, 1, &layout(&space, &[slot]));
    rows
}

// Each weighted difference is taken as 4,294,967,295 where it is above that, and then the sum. A product or a sum that
// wraps would give a small number.
#[test]
fn differences_that_saturate() {
    const TOP: u64 = u32::MAX as u64;
    let (low, high) = (i32::MIN, i32::MAX);
    let cases = [
        ([100, 1, 1, 1], [42_949_672, 94, 0, 0], TOP - 1, 4_294_967_200),
        ([100, 1, 1, 1], [42_949_672, 95, 0, 0], TOP, 4_294_967_200),
        ([100, 1, 1, 1], [42_949_672, 96, 0, 0], TOP, 4_294_967_200),
        ([1, 100, 1, 1], [0, 42_949_673, 0, 0], TOP, TOP),
        ([1, 1, 100, 1], [0, 0, -42_949_673, 0], TOP, TOP),
        ([1, 1, 1, 2], [0, 0, 0, low], TOP, TOP),
        ([1, 1, 1, 2], [0, 0, 0, high], TOP - 1, TOP - 1),
        ([1, 1, 1, 2], [1, 0, 0, high], TOP, TOP - 1),
        ([100; 4], [low; 4], TOP, TOP),
        ([2; 4], [low; 4], TOP, TOP),
        ([64, 0, 0, 0], [1 << 26, 0, 0, 0], TOP, TOP),
        ([0, 1, 0, 0], [low, 5, high, low], 5, 5),
        ([0; 4], [low; 4], 0, 0),
        ([1; 4], [low; 4], TOP, 1 << 31),
    ];
    for (weights, measures, sum, largest) in cases {
        for (metric, distance) in [(0, sum), (1, 0), (2, largest)] {
            let mut fixture = Fixture::of(0, foreign(Space { metric, weights }, measures));
            assert_eq!(nearest(&mut fixture, [0; 4], 1), [(1, distance)], "{weights:?}, {measures:?}, metric {metric}");
            assert_eq!(range(&mut fixture, [0; 4], u32::MAX), [(1, distance)]);
            if let Some(less) = (distance as u32).checked_sub(1) {
                assert_eq!(range(&mut fixture, [0; 4], less), []);
            }
        }
    }
}

// Builds over items of any measures: layouts, thresholds and counts with saturated distances.
#[test]
fn builds_of_saturated_distances() {
    let mut random = Random::new(12);
    for round in 0..600 {
        let space = Space { metric: round % 3, weights: random.pick(&[[100; 4], [1; 4], [100, 0, 1, 64], [2; 4]]) };
        let mut table = sound::table(&mut random, 4, space);
        for slot in table.buckets.iter_mut().flat_map(|bucket| &mut bucket.slots) {
            slot.profile = random.any_profile();
        }
        let mut rows = vec![[0; ROW_WORDS]; table_rows(4)];
        put_table(&mut rows, &table);
        let mut fixture = Fixture { random: random.clone(), ..Fixture::of(4, rows) };
        for n in 0..12 {
            let (tag, query) = (random.tag(sound::pool(4)), random.profile());
            fixture.call(match n % 4 {
                0 => Call::Add { tag, profile: query, day: random.day() },
                1 => Call::Remove { tag },
                2 => Call::Range { query, radius: random.reach(), first_day: random.first_day() },
                _ => Call::Nearest { query, k: 1 + random.below(16) as u32, first_day: random.first_day() },
            });
        }
    }
}

fn every_call() -> [Call; 7] {
    let query = Profile::default();
    [
        Call::Add { tag: tag(9), profile: query, day: 1 },
        Call::Remove { tag: tag(1) },
        Call::LookUp { tag: tag(1) },
        Call::Range { query, radius: 0, first_day: 0 },
        Call::Nearest { query, k: 1, first_day: 0 },
        Call::Write,
        Call::ReadList { day: 1 },
    ]
}

// A lent table with a weight above 100 is 24 by every call and every metric, after the lengths' 23 and before what the
// call says of its own arguments.
#[test]
fn a_lent_table_with_a_weight_above_100() {
    let space = |metric| Space { metric, weights: [1; 4] };
    for (metric, at) in (0..=2).flat_map(|metric| (0..4).map(move |at| (metric, at))) {
        for (weight, refusal) in BAD.map(|weight| (weight, 24)).into_iter().chain([(0, 0), (100, 0)]) {
            for call in every_call() {
                let lent = |rows: usize, work: usize| {
                    let mut fixture = Fixture::of(0, foreign(space(metric), [3; 4]));
                    fixture.areas.table[0][2 + at] = weight;
                    fixture.areas.table.truncate(rows);
                    fixture.areas.work.truncate(work);
                    if matches!(call, Call::ReadList { .. }) {
                        fixture.areas.bytes = item_lists::of(&[item_lists::line(0, [0; 4])]);
                    }
                    fixture.refusal(call)
                };
                // the one item fills the table, and a list's line has no tag
                let own = match call {
                    Call::Add { .. } => 22,
                    Call::ReadList { .. } => 1,
                    _ => 0,
                };
                let whole = table_rows(0);
                assert_eq!(lent(whole, 4), if refusal == 0 { own } else { 24 }, "{call:?}");
                assert_eq!(lent(whole - 1, 4), 23, "{call:?}");
                let asks_work = matches!(call, Call::Add { .. } | Call::Remove { .. } | Call::ReadList { .. });
                assert_eq!(lent(whole, 0) == 23, asks_work, "{call:?}");
            }
        }
    }
}

// Order and metric go before the lengths, the weights do not; and 24 goes before the arguments' own refusals.
#[test]
fn weights_are_tested_with_the_sizes() {
    let broken = |change: &dyn Fn(&mut Row), rows: usize| {
        let mut fixture = Fixture::of(0, foreign(Space::plain(0), [3; 4]));
        change(&mut fixture.areas.table[0]);
        fixture.areas.table.truncate(rows);
        fixture.refusal(Call::LookUp { tag: 0 })
    };
    let whole = table_rows(0);
    assert_eq!(
        [broken(&|row| row[0] = 13, 1), broken(&|row| row[1] = 3, 1), broken(&|row| row[2] = 101, 1)],
        [24, 24, 23]
    );
    assert_eq!([broken(&|row| row[2] = 101, whole), broken(&|_| (), whole)], [24, 1]);
    assert_eq!(broken(&|row| (row[1], row[2]) = (3, 101), 1), 24);
    let mut fixture = Fixture::of(0, vec![]);
    assert_eq!(fixture.refusal(Call::LookUp { tag: tag(1) }), 23);
}

// Words 6 to 12 of row 0 are ignored, and no call but fresh and load writes row 0.
#[test]
fn row_0_is_left_as_it_was() {
    let mut random = Random::new(13);
    for metric in 0..=2 {
        let mut fixture = fresh(3, metric, [0, 1, 7, 100]);
        let other = any_row(&mut random);
        fixture.areas.table[0][6..].copy_from_slice(&other[6..]);
        let header = fixture.areas.table[0];
        for n in 1..=8 {
            add(&mut fixture, n, measured([n as i32, 0, -(n as i32), 1]));
            nearest(&mut fixture, [0; 4], 3);
        }
        for n in 1..=7 {
            fixture.remove(n);
        }
        assert_eq!(fixture.areas.table[0], header);
    }
}
