//! Save and restore: every part of areas of every small length, damaged lengths, and snapshots that stay while all around
//! them is written.

use outside::calls::{Areas, Call, Reply, compare};
use outside::foreign::{self, any_row, rows_of};
use outside::random::Random;
use outside::{snapshots, sound};
use reference::image::bytes;
use reference::item::{ROW_WORDS, Row, Space};
use reference::refusal::{BAD_LENGTH, BAD_NAME, NO_ROOM, NOT_SAVED, SHORT_AREA};
use reference::states::{LENGTH_BYTES, part_of};
use reference::table::{Table, table_rows};

const NAMES: std::ops::RangeInclusive<u32> = 1..=8;

fn save(random: &mut Random, rows: &[Row], states: &mut Vec<u8>, name: u32) -> Reply {
    let mut areas = Areas { table: rows.to_vec(), bytes: std::mem::take(states), ..Areas::default() };
    let reply = compare(&Call::Save { name }, &mut areas, random);
    assert_eq!(areas.table, rows, "a save leaves the table as it is");
    *states = areas.bytes;
    reply
}

fn restore(random: &mut Random, rows: &mut Vec<Row>, states: &[u8], name: u32) -> u32 {
    let mut areas = Areas { table: std::mem::take(rows), bytes: states.to_vec(), ..Areas::default() };
    let reply = compare(&Call::Restore { name }, &mut areas, random);
    assert_eq!(areas.bytes, states, "a restore leaves the states as they are");
    *rows = areas.table;
    reply.refusal
}

fn any_bytes(random: &mut Random, n: usize) -> Vec<u8> {
    random.fill(n, |random| random.word() as u8)
}

fn sound_rows(random: &mut Random, order: u32, metric: u32) -> (Table, Vec<Row>) {
    let space = random.space(metric);
    let table = sound::table(random, order, space);
    let rows = rows_of(random, &table, 0);
    (table, rows)
}

// A table of order 0 with nothing in it, the one with the shortest image.
fn smallest(random: &mut Random) -> Vec<Row> {
    let mut areas = Areas { table: vec![[0; ROW_WORDS]; table_rows(0)], ..Areas::default() };
    let reply = compare(&Call::Fresh { order: 0, space: Space::plain(0) }, &mut areas, random);
    assert_eq!(reply.refusal, 0);
    areas.table
}

// No image fits: every part has at most 5 bytes. Every name, and numbers that are none.
#[test]
fn areas_of_0_to_40_bytes() {
    let mut random = Random::new(71);
    let rows = smallest(&mut random);
    for n in 0..=40 {
        for name in (0..=10).chain([256, u32::MAX]) {
            let is_name = NAMES.contains(&name);
            for fill in [Some(0), Some(1), Some(255), None] {
                let mut states = fill.map_or_else(|| any_bytes(&mut random, n), |byte| vec![byte; n]);
                let refused = save(&mut random, &rows, &mut states, name).refusal;
                assert_eq!(refused, if is_name { NO_ROOM } else { BAD_NAME }, "name {name} in {n} bytes");
                let refused = restore(&mut random, &mut rows.clone(), &states, name);
                match (is_name, n / 8, fill) {
                    (false, ..) => assert_eq!(refused, BAD_NAME, "name {name} in {n} bytes"),
                    (_, 0..4, _) | (_, _, Some(0)) => assert_eq!(refused, NOT_SAVED, "name {name} in {n} bytes"),
                    (_, _, Some(_)) => assert_eq!(refused, BAD_LENGTH, "name {name} in {n} bytes"),
                    (_, _, None) => assert!([BAD_LENGTH, NOT_SAVED].contains(&refused)),
                }
            }
        }
    }
}

// Parts from too short by a few bytes to a few too long, and lengths of the area that are no multiple of 8.
#[test]
fn parts_of_every_length_about_the_snapshot() {
    let mut random = Random::new(72);
    for (order, metric) in (0..=3).flat_map(|order| [0, 1, 2].map(|metric| (order, metric))) {
        let (table, rows) = sound_rows(&mut random, order, metric);
        let needed = LENGTH_BYTES + bytes(&table).len();
        for n in 8 * (needed - 3)..8 * (needed + 3) {
            let name = 1 + (n % 8) as u32;
            let before = any_bytes(&mut random, n);
            let mut states = before.clone();
            let reply = save(&mut random, &rows, &mut states, name);
            let fits = n / 8 >= needed;
            assert_eq!((reply.refusal, reply.length as usize), if fits { (0, needed - 4) } else { (NO_ROOM, 0) });
            let own = part_of(n, name).expect("a name").start;
            let changed = (0..n).filter(|&at| states[at] != before[at]);
            assert!(changed.into_iter().all(|at| fits && (own..own + needed).contains(&at)), "{n} bytes, name {name}");
        }
    }
}

// Saved under each name in turn, other bytes written at random in between: what was saved last under a name comes back,
// every row, into tables of any content, and is refused by 23 where the table is too short.
#[test]
fn snapshots_stay() {
    let mut random = Random::new(73);
    for round in 0..60 {
        let tables: Vec<_> = (0..12).map(|_| sound_rows(&mut random, round % 5, round % 3)).collect();
        let longest = tables.iter().map(|(table, _)| LENGTH_BYTES + bytes(table).len()).max().expect("some");
        let n = 8 * (longest + random.below(9)) + random.below(8);
        let mut states = any_bytes(&mut random, n);
        let mut last: [Option<&(Table, Vec<Row>)>; 8] = [None; 8];
        for table in &tables {
            let name = 1 + random.below(8) as u32;
            assert_eq!(save(&mut random, &table.1, &mut states, name).refusal, 0);
            last[name as usize - 1] = Some(table);
        }
        for name in NAMES {
            let Some((table, saved)) = last[name as usize - 1] else { continue };
            let states = snapshots::elsewhere(&mut random, &states, name);
            let needed = table_rows(table.order);
            let more = random.below(4);
            let mut rows = random.fill(needed + more, any_row);
            assert_eq!(restore(&mut random, &mut rows, &states, name), 0);
            assert_eq!(rows[..needed], saved[..needed]);
            let mut short = random.fill(needed - 1, any_row);
            assert_eq!(restore(&mut random, &mut short, &states, name), SHORT_AREA);
        }
    }
}

// A snapshot whose length or image has one bit flipped, or whose length is any of those about its own and the part's.
#[test]
fn damaged_snapshots() {
    let mut random = Random::new(74);
    for (order, metric) in (0..=2).flat_map(|order| [0, 1, 2].map(|metric| (order, metric))) {
        let (table, rows) = sound_rows(&mut random, order, metric);
        let length = bytes(&table).len();
        let name = 1 + random.below(8) as u32;
        let mut whole = any_bytes(&mut random, 8 * (LENGTH_BYTES + length + 5) + 3);
        assert_eq!(save(&mut random, &rows, &mut whole, name).refusal, 0);
        let start = part_of(whole.len(), name).expect("a name").start;
        for bit in 0..8 * (LENGTH_BYTES + length) {
            let mut states = whole.clone();
            states[start + bit / 8] ^= 1 << (bit % 8);
            let mut rows = random.fill(table_rows(3), any_row);
            restore(&mut random, &mut rows, &states, name);
        }
        for said in 0..length + 12 {
            let mut states = whole.clone();
            states[start..start + LENGTH_BYTES].copy_from_slice(&(said as u32).to_le_bytes());
            let mut rows = random.fill(table_rows(order), any_row);
            let refused = restore(&mut random, &mut rows, &states, name);
            let expected = if said == 0 { NOT_SAVED } else { BAD_LENGTH };
            assert_eq!(refused, if said == length { 0 } else { expected }, "length {said} of {length}");
        }
    }
}

// A shorter snapshot over a longer one: the rest of the longer one stays behind it, and is not read.
#[test]
fn shorter_over_longer() {
    let mut random = Random::new(75);
    let (long, long_rows) = sound_rows(&mut random, 4, 0);
    let short_rows = smallest(&mut random);
    let length = bytes(&long).len();
    let mut states = vec![0; 8 * (LENGTH_BYTES + length)];
    for name in NAMES {
        assert_eq!(save(&mut random, &long_rows, &mut states, name).refusal, 0);
        let before = states.clone();
        let written = save(&mut random, &short_rows, &mut states, name).length as usize;
        let part = part_of(states.len(), name).expect("a name");
        assert_eq!(states[part.start + LENGTH_BYTES + written..], before[part.start + LENGTH_BYTES + written..]);
        let mut rows = random.fill(table_rows(4), any_row);
        assert_eq!(restore(&mut random, &mut rows, &states, name), 0);
        assert_eq!(rows[..table_rows(0)], short_rows);
    }
}

// 34 before anything of the table is looked at; then the table's own refusals, before 6.
#[test]
fn refusals_in_their_order() {
    let mut random = Random::new(76);
    let (_, good) = sound_rows(&mut random, 2, 0);
    let mut bad = good.clone();
    bad[1][0] = u32::MAX;
    let tables: [(&[Row], u32); 4] = [(&[], 23), (&good[..3], 23), (&bad, 24), (&good, NO_ROOM)];
    for (rows, refusal) in tables {
        for n in [0, 24, 31, 32, 47] {
            for name in [0, 1, 8, 9] {
                let mut states = any_bytes(&mut random, n);
                let expected = if NAMES.contains(&name) { refusal } else { BAD_NAME };
                assert_eq!(save(&mut random, rows, &mut states, name).refusal, expected);
            }
        }
    }
    // foreign tables are saved as they are, and mostly refused when they are restored
    for _ in 0..200 {
        let space = random.space(0);
        let rows = foreign::table(&mut random, 2, space);
        let mut states = any_bytes(&mut random, 8 * 700);
        if save(&mut random, &rows, &mut states, 3).refusal == 0 {
            restore(&mut random, &mut rows.clone(), &states, 3);
        }
    }
}
