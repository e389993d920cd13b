//! Tables that these calls did not leave: sizes that pass or nearly, slots, thresholds, marks and days of any content.

use reference::item::{ROW_WORDS, Row, Slot, Space};
use reference::table::{Table, first_row, put_table, table_rows};

use crate::random::Random;
use crate::sound;

/// The rows of a table, with random rows after them.
pub fn rows_of(random: &mut Random, table: &Table, more: usize) -> Vec<Row> {
    let mut rows = vec![[0; ROW_WORDS]; table_rows(table.order)];
    put_table(&mut rows, table);
    rows.extend(random.fill(more, any_row));
    rows
}

/// A row of any words.
pub fn any_row(random: &mut Random) -> Row {
    [0; ROW_WORDS].map(|_| random.word() as u32)
}

/// A foreign table: a sound one in which much was changed.
pub fn table(random: &mut Random, order: u32, space: Space) -> Vec<Row> {
    let sizes = sound::nearly(random, order);
    let sound = sound::table_of(random, order, space, sizes);
    let mut rows = rows_of(random, &sound, 0);
    unnamed_words(random, &mut rows, order);
    match random.below(3) {
        0 => some_slots(random, &mut rows, order),
        1 => all_slots(random, &mut rows, &sound),
        _ => (),
    }
    if random.one_in(3) {
        some_marks(random, &mut rows, order);
    }
    if random.one_in(3) {
        some_days(random, &mut rows, order);
    }
    if random.one_in(4) {
        a_size(random, &mut rows, order);
    }
    if random.one_in(12) {
        rows[0][random.below(2)] = random.pick(&[2, 3, 12, 13, 255, u32::MAX]);
    }
    match random.below(24) {
        0 => rows[0][2 + random.below(4)] = random.bad_weight(),
        // other weights than the trees were made by
        1..4 => rows[0][2..6].copy_from_slice(&random.weights()),
        _ => (),
    }
    rows
}

// words that are ignored when read
fn unnamed_words(random: &mut Random, rows: &mut [Row], order: u32) {
    for (i, row) in rows[..=order as usize + 1].iter_mut().enumerate() {
        let named = if i == 0 { 6 } else { 2 };
        for word in &mut row[named..] {
            *word = if random.one_in(2) { random.word() as u32 } else { 0 };
        }
    }
}

fn any_slot(random: &mut Random, mark: u32, pool: usize) -> Slot {
    let tag = if random.one_in(8) { random.edge_tag() } else { random.tag(pool) };
    Slot { tag, profile: random.any_profile(), threshold: random.reach(), mark, day: random.any_day() }
}

// a few slots, inside the built parts or not, changed in all but their marks
fn some_slots(random: &mut Random, rows: &mut [Row], order: u32) {
    let first = first_row(order, 0);
    for _ in 0..1 + random.below(6) {
        let at = first + random.below(rows.len() - first);
        rows[at] = any_slot(random, rows[at][11], sound::pool(order)).row();
    }
}

// every built slot, of few different tags, its mark kept; other slots not zero
fn all_slots(random: &mut Random, rows: &mut [Row], table: &Table) {
    let pool = 1 + random.below(8);
    for (k, bucket) in table.buckets.iter().enumerate() {
        let first = first_row(table.order, k);
        for (i, slot) in bucket.slots.iter().enumerate() {
            rows[first + i] = any_slot(random, slot.mark, pool).row();
        }
        for row in &mut rows[first + bucket.slots.len()..first + (1 << k)] {
            *row = any_row(random);
        }
    }
}

fn some_marks(random: &mut Random, rows: &mut [Row], order: u32) {
    some_words(random, rows, order, 11, |random| random.pick(&[0, 1, 1, 2, u32::MAX]));
}

fn some_days(random: &mut Random, rows: &mut [Row], order: u32) {
    some_words(random, rows, order, 12, Random::any_day);
}

// another word at this place of a slot or two, or of many
fn some_words(random: &mut Random, rows: &mut [Row], order: u32, place: usize, any: impl Fn(&mut Random) -> u32) {
    let first = first_row(order, 0);
    let slots = rows.len() - first;
    for _ in 0..1 + random.pick(&[0, 1, slots / 2, slots]) {
        let at = first + random.below(slots);
        rows[at][place] = any(random);
    }
}

// one size at or past a bound
fn a_size(random: &mut Random, rows: &mut [Row], order: u32) {
    let k = random.below(order as usize + 1);
    let room = 1u32 << k;
    let size = &mut rows[1 + k][random.below(2)];
    *size = match random.below(4) {
        0 => size.wrapping_add(1),
        1 => size.wrapping_sub(1),
        2 => random.pick(&[0, room, room / 2, room / 2 + 1, room / 4, room / 4 + 1, room + 1]),
        _ => random.pick(&[1 << 30, 1 << 31, (1 << 31) + room, u32::MAX, 1 << 16]),
    };
}
