//! Random lists of calls on areas of any content, each call compared with the reference.

use std::collections::BTreeMap;

use reference::image::bytes;
use reference::item::{Profile, ROW_WORDS, Row, Slot, Space};
use reference::refusal::SHORT_AREA;
use reference::table::{Bucket, Table, capacity, first_row, table_rows};

use crate::calls::{Areas, Call, Reply, compare};
use crate::foreign::{any_row, rows_of};
use crate::random::Random;
use crate::{foreign, images, item_lists, snapshots, sound};

/// How often each call was refused by each number, 0 being accepted, how many removals built a tree, and how many
/// readings of a herd list were refused with lines added before.
#[derive(Clone, Debug, Default)]
pub struct Tally {
    /// By call and number.
    pub met: BTreeMap<(&'static str, u32), usize>,
    /// Removals that worked out distances.
    pub shrunk: usize,
    /// Readings that stopped after a line that was added.
    pub stopped: usize,
}

/// The numbers that each call can be refused by, and 0.
pub const NUMBERS: [(&str, &[u32]); 14] = [
    ("fresh", &[0, 3, 4, 23, 32]),
    ("load", &[0, 3, 4, 7, 8, 23, 24, 32, 33, 36, 37, 38]),
    ("add", &[0, 1, 2, 20, 22, 23, 24, 33]),
    ("remove", &[0, 1, 21, 23, 24]),
    ("look up", &[0, 1, 21, 23, 24]),
    ("range", &[0, 2, 6, 23, 24]),
    ("nearest", &[0, 2, 5, 6, 23, 24]),
    ("range batch", &[0, 2, 6, 23, 24, 40]),
    ("write", &[0, 6, 23, 24]),
    ("read list", &[0, 1, 2, 20, 22, 23, 24, 30, 31, 33]),
    ("save", &[0, 6, 23, 24, 34]),
    ("restore", &[0, 3, 4, 7, 8, 23, 24, 32, 33, 34, 35, 36, 37, 38]),
    ("dues", &[0, 6, 21, 23, 24, 39]),
    ("lots", &[0, 6, 23, 24, 41]),
];

impl Tally {
    /// Counts a call.
    pub fn note(&mut self, call: &Call, reply: &Reply) {
        *self.met.entry((name(call), reply.refusal)).or_default() += 1;
        self.shrunk += (matches!(call, Call::Remove { .. }) && reply.distances > 0) as usize;
        self.stopped += (reply.refusal != 0 && reply.added > 0) as usize;
    }

    /// How many calls there were.
    pub fn calls(&self) -> usize {
        self.met.values().sum()
    }

    /// Adds another tally to this one.
    pub fn join(&mut self, other: Tally) {
        for (key, n) in other.met {
            *self.met.entry(key).or_default() += n;
        }
        self.shrunk += other.shrunk;
        self.stopped += other.stopped;
    }
}

fn name(call: &Call) -> &'static str {
    match call {
        Call::Fresh { .. } => "fresh",
        Call::Load => "load",
        Call::Add { .. } => "add",
        Call::Remove { .. } => "remove",
        Call::LookUp { .. } => "look up",
        Call::Range { .. } => "range",
        Call::Nearest { .. } => "nearest",
        Call::RangeBatch => "range batch",
        Call::Write => "write",
        Call::ReadList { .. } => "read list",
        Call::Save { .. } => "save",
        Call::Restore { .. } => "restore",
        Call::Dues => "dues",
        Call::Lots { .. } => "lots",
    }
}

/// A list of so many calls on a table of this order and metric, with any weights.
pub fn list(random: &mut Random, order: u32, metric: u32, calls: usize) -> Tally {
    let space = random.space(metric);
    let mut left = start(random, order, space);
    let mut states = vec![];
    let mut tally = Tally::default();
    for _ in 0..calls {
        let mut areas = lent(random, &left, order);
        if !areas.table.is_empty() && random.one_in(30) {
            let at = random.below(areas.table.len());
            areas.table[at][random.below(ROW_WORDS)] = random.reach();
        }
        let call = next(random, &mut areas, order, space, &states);
        let reply = compare(&call, &mut areas, random);
        tally.note(&call, &reply);
        keep_states(&mut states, &call, areas.bytes);
        keep(&mut left, areas.table);
        if reply.refusal >= SHORT_AREA && random.one_in(3) {
            left = start(random, order, space);
        }
    }
    tally
}

/// What is left of a table after a call: the area's rows, and those that it did not reach.
pub fn keep(left: &mut Vec<Row>, area: Vec<Row>) {
    left.splice(..area.len().min(left.len()), area);
}

/// The states after a call: those that were saved into last.
pub fn keep_states(states: &mut Vec<u8>, call: &Call, bytes: Vec<u8>) {
    if matches!(call, Call::Save { .. }) {
        *states = bytes;
    }
}

fn start(random: &mut Random, order: u32, space: Space) -> Vec<Row> {
    match random.below(12) {
        0 => random.fill(table_rows(order), any_row),
        1..6 => {
            let sound = sound::table(random, order, space);
            rows_of(random, &sound, 0)
        }
        _ => foreign::table(random, order, space),
    }
}

/// A length about that needed: mostly enough, now and then too short or none.
pub fn length(random: &mut Random, needed: usize) -> usize {
    match random.below(40) {
        0 => random.below(needed + 1),
        1 => needed.saturating_sub(1),
        2 => 0,
        _ => needed + random.below(4),
    }
}

/// The areas for the next call: the table's rows as far as the area reaches, and other rows after them.
pub fn lent(random: &mut Random, left: &[Row], order: u32) -> Areas {
    let (rows, working) = (length(random, table_rows(order)), length(random, capacity(order)));
    let mut table = left[..rows.min(left.len())].to_vec();
    table.extend(random.fill(rows - table.len(), any_row));
    let room = if random.one_in(3) { random.below(4) } else { length(random, capacity(order)) };
    Areas {
        table,
        work: random.fill(working, any_row),
        result: random.fill(room, |random| [random.word(), random.word()]),
        ..Areas::default()
    }
}

/// The next call, with the image, the list or the states that it reads or the bytes, dues or lots that it writes to.
pub fn next(random: &mut Random, areas: &mut Areas, order: u32, space: Space, states: &[u8]) -> Call {
    match random.below(54) {
        0 => fresh(random, order, space.metric),
        1..4 => load(random, areas, order, space),
        4 | 5 => write(random, areas, order),
        6..14 => add(random, order),
        14..20 => Call::Remove { tag: tag(random, areas, order) },
        20..23 => Call::LookUp { tag: tag(random, areas, order) },
        23..27 => {
            let (query, first_day) = (query(random, areas, order), random.first_day());
            Call::Range { query, radius: random.reach(), first_day }
        }
        27..31 => read_list(random, areas, order),
        31 | 32 => save(random, areas, states),
        33..38 => restore(random, areas, order, space, states),
        38..41 => dues(random, areas, order),
        41..46 => range_batch(random, areas, order),
        46..49 => lots(random, areas, order),
        _ => {
            let (query, first_day) = (query(random, areas, order), random.first_day());
            Call::Nearest { query, k: count(random, order), first_day }
        }
    }
}

/// An add, a removal or a herd list.
pub fn change(random: &mut Random, areas: &mut Areas, order: u32) -> Call {
    match random.below(16) {
        0..7 => add(random, order),
        7 => read_list(random, areas, order),
        _ => Call::Remove { tag: tag(random, areas, order) },
    }
}

// Now and then enough lines to fill the table.
fn read_list(random: &mut Random, areas: &mut Areas, order: u32) -> Call {
    let most = if order < 6 && random.one_in(3) { 2 * capacity(order) } else { 8 };
    areas.bytes = item_lists::list(random, order, most);
    Call::ReadList { day: if random.one_in(10) { 0 } else { random.day() } }
}

// Mostly of items that weigh not below 0, now and then too many.
fn dues(random: &mut Random, areas: &mut Areas, order: u32) -> Call {
    let most = if order < 7 && random.one_in(4) { 5000 } else { 2 * capacity(order).min(40) };
    let (listed, faults) = (random.below(most + 1), random.one_in(3));
    let payers = payers(&areas.table);
    areas.tags = random.fill(listed, |random| match random.below(2 * listed) {
        0 if faults => tag(random, areas, order),
        _ if payers.is_empty() => tag(random, areas, order),
        _ => random.pick(&payers),
    });
    let room = length(random, listed);
    areas.dues = random.fill(room, |random| random.word() as u32);
    Call::Dues
}

// The tags of the live slots whose weight is not below 0.
fn payers(rows: &[Row]) -> Vec<u64> {
    let Ok(table) = Table::open(rows, |_| true) else { return vec![] };
    let live = table.buckets.iter().flat_map(Bucket::live_items);
    live.filter(|slot| slot.profile.measures[0] >= 0).map(|slot| slot.tag).collect()
}

// Mostly by few radii, now and then by none, as many as there may be or one more; often one of them twice.
fn lots(random: &mut Random, areas: &mut Areas, order: u32) -> Call {
    let count = match random.below(12) {
        0 => random.pick(&[0, 33, 40]),
        1 if order < 6 => 32,
        _ => 1 + random.below(3),
    };
    areas.radii = random.fill(count, Random::reach);
    if count > 1 && random.one_in(2) {
        areas.radii[count - 1] = areas.radii[0];
    }
    let any_entry = |random: &mut Random| [random.word(), random.word()];
    let (working, told, listed) =
        (length(random, capacity(order)), length(random, count), length(random, capacity(order)));
    areas.draft = random.fill(working, any_entry);
    areas.summary = random.fill(told, |random| [random.word() as u32, random.word() as u32]);
    areas.listing = random.fill(listed, any_entry);
    let chosen =
        if random.one_in(10) { random.pick(&[0, count + 1, u32::MAX as usize]) } else { 1 + random.below(count) };
    Call::Lots { chosen: chosen as u32 }
}

// Each argument by itself may be one that is refused.
fn fresh(random: &mut Random, order: u32, metric: u32) -> Call {
    let order = if random.one_in(6) { random.pick(&[13, 12, 31, 32, 64, u32::MAX]) } else { order };
    let metric = if random.one_in(6) { random.pick(&[3, 4, 256, u32::MAX]) } else { metric };
    let weights = if random.one_in(5) { random.bad_weights() } else { random.weights() };
    Call::Fresh { order, space: Space { metric, weights } }
}

// Sometimes the table is a sound or a foreign one afterwards, whatever it was: a load of an image gives the first.
fn load(random: &mut Random, areas: &mut Areas, order: u32, space: Space) -> Call {
    areas.bytes = image(random, areas, order, space);
    Call::Load
}

fn image(random: &mut Random, areas: &Areas, order: u32, space: Space) -> Vec<u8> {
    let space = if random.one_in(2) { random.space(space.metric) } else { space };
    match (random.below(4), Table::open(&areas.table, |_| true)) {
        (0, Ok(table)) => bytes(&table),
        (1, Ok(table)) => images::cut(random, bytes(&table)),
        (2, _) => few_bytes(random),
        _ => images::image(random, order, space),
    }
}

fn few_bytes(random: &mut Random) -> Vec<u8> {
    let length = random.below(60);
    let mut bytes = random.fill(length, |random| random.below(4) as u8);
    let front = [random.pick(&[0, 0, 1, 2, 3, 13, 255]), random.below(4) as u8, random.below(4) as u8, 0];
    bytes.iter_mut().zip(front).for_each(|(byte, other)| *byte = other);
    // a weight, where the form has them
    if bytes.len() >= 8 && random.one_in(2) {
        bytes[4 + random.below(4)] = random.pick(&[100, 101, 255]);
    }
    bytes
}

// The bytes of the table's image, if it has one.
fn image_bytes(areas: &Areas) -> usize {
    Table::open(&areas.table, |_| true).map_or(8, |table| bytes(&table).len())
}

// Mostly into the states that were saved into before.
fn save(random: &mut Random, areas: &mut Areas, states: &[u8]) -> Call {
    let is_new = states.is_empty() || random.one_in(4);
    areas.bytes = if is_new { snapshots::area(random, image_bytes(areas)) } else { states.to_vec() };
    Call::Save { name: snapshots::name(random) }
}

// From these states, or from such as hold an image of some kind.
fn restore(random: &mut Random, areas: &mut Areas, order: u32, space: Space, states: &[u8]) -> Call {
    let name = snapshots::name(random);
    areas.bytes = if random.one_in(3) {
        snapshots::elsewhere(random, states, name)
    } else {
        let image = image(random, areas, order, space);
        snapshots::holding(random, &image, name)
    };
    Call::Restore { name }
}

fn write(random: &mut Random, areas: &mut Areas, order: u32) -> Call {
    let needed = image_bytes(areas);
    let room = if random.one_in(4) { length(random, 8 * capacity(order)) } else { length(random, needed) };
    areas.bytes = random.fill(room, |random| random.word() as u8);
    Call::Write
}

fn add(random: &mut Random, order: u32) -> Call {
    let tag = if random.one_in(30) { random.edge_tag() } else { random.tag(sound::pool(order)) };
    let profile = if random.one_in(30) { random.bad_profile() } else { random.profile() };
    let day = if random.one_in(30) { 0 } else { random.day() };
    Call::Add { tag, profile, day }
}

// mostly one that some slot has
fn tag(random: &mut Random, areas: &Areas, order: u32) -> u64 {
    match random.below(20) {
        0 => random.edge_tag(),
        1 | 2 => random.tag(sound::pool(order)),
        _ => a_slot(random, areas, order).map_or(0, |row| row[0] as u64 | (row[1] as u64) << 32),
    }
}

// A slot of a bucket that is in use, if the table is long enough.
fn a_slot(random: &mut Random, areas: &Areas, order: u32) -> Option<Row> {
    let used = |k: &usize| areas.table.get(1 + k).is_some_and(|row| row[0] > 0);
    let used: Vec<usize> = (0..=order as usize).filter(used).collect();
    let k = *used.get(random.below(used.len()))?;
    let built = areas.table[1 + k][0] as usize;
    areas.table.get(first_row(order, k) + random.below(built)).copied()
}

/// A batch of a number of queries at or near an end, or of any; often several are alike. The area has parts that are long
/// enough, or about as long as a few entries, and entries left over.
pub fn range_batch(random: &mut Random, areas: &mut Areas, order: u32) -> Call {
    let n = match random.below(8) {
        0 => random.pick(&[0, 17, 18]),
        1..4 => random.pick(&[1, 2, 15, 16]),
        _ => 1 + random.below(16),
    };
    let mut queries: Vec<Row> = vec![];
    for _ in 0..n {
        let again = !queries.is_empty() && random.one_in(4);
        queries.push(if again { random.pick(&queries) } else { batch_query(random, areas, order) });
    }
    let part = if random.one_in(3) { random.below(4) } else { length(random, capacity(order)) };
    let room = n * part + random.below(n.max(1));
    areas.result = random.fill(room, |random| [random.word(), random.word()]);
    areas.work = queries;
    Call::RangeBatch
}

// The words that are ignored hold anything.
fn batch_query(random: &mut Random, areas: &Areas, order: u32) -> Row {
    let profile = if random.one_in(4) { random.profile() } else { query(random, areas, order) };
    let day = (random.word() as u32) << 16 | random.first_day() as u32;
    Slot { tag: random.word(), profile, threshold: random.reach(), mark: random.word() as u32, day }.row()
}

// any valid one, one like a slot's, or one that is refused
fn query(random: &mut Random, areas: &Areas, order: u32) -> Profile {
    match random.below(20) {
        0 => random.bad_profile(),
        1..10 => a_slot(random, areas, order).map_or_else(Default::default, |row| Slot::of(&row).profile),
        _ => random.profile(),
    }
}

fn count(random: &mut Random, order: u32) -> u32 {
    match random.below(8) {
        0 => 0,
        1 => u32::MAX,
        2 => 1 + random.below(2 * capacity(order)) as u32,
        _ => 1 + random.below(12) as u32,
    }
}
