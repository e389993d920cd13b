//! Areas of every small length, with guards around them.

use outside::calls::{Areas, Call, compare};
use outside::foreign::{self, any_row, rows_of};
use outside::random::Random;
use outside::{item_lists, snapshots, sound};
use reference::image::{bytes, of_form};
use reference::item::{Row, Space};
use reference::table::{Table, capacity, table_rows};

// How many tags dues is given, and radii a drafting.
const LISTED: usize = 5;
const RADII: usize = 3;

// A table of some kind, every row of which is one that the order needs.
fn tables(random: &mut Random, order: u32, space: Space) -> Vec<Vec<Row>> {
    let sound = [0; 2].map(|_| sound::table(random, order, space));
    let mut tables: Vec<_> = sound.iter().map(|table| rows_of(random, table, 0)).collect();
    tables.extend([0; 2].map(|_| foreign::table(random, order, space)));
    tables
}

struct Lengths {
    table: usize,
    work: usize,
    result: usize,
    bytes: usize,
    dues: usize,
    draft: usize,
    summary: usize,
    listing: usize,
}

fn lent(random: &mut Random, rows: &[Row], lengths: Lengths) -> Areas {
    let mut table = rows.to_vec();
    table.resize_with(lengths.table, || any_row(random));
    Areas {
        table,
        work: random.fill(lengths.work, any_row),
        result: random.fill(lengths.result, |random| [random.word(), random.word()]),
        bytes: random.fill(lengths.bytes, |random| random.word() as u8),
        tags: vec![],
        dues: random.fill(lengths.dues, |random| random.word() as u32),
        radii: vec![],
        draft: random.fill(lengths.draft, |random| [random.word(), random.word()]),
        summary: random.fill(lengths.summary, |random| [random.word() as u32, random.word() as u32]),
        listing: random.fill(lengths.listing, |random| [random.word(), random.word()]),
    }
}

fn calls(random: &mut Random, rows: &[Row], order: u32, space: Space) -> Vec<Call> {
    let live = Table::open(rows, |_| true).ok().and_then(|table| {
        let slots: Vec<_> = table.buckets.iter().flat_map(|bucket| bucket.live_items().copied()).collect();
        slots.first().map(|slot| slot.tag)
    });
    let tag = live.unwrap_or_else(|| random.tag(1));
    let query = random.profile();
    vec![
        Call::Fresh { order, space },
        Call::Load,
        Call::Add { tag: random.tag(100), profile: query, day: random.day() },
        Call::Remove { tag },
        Call::LookUp { tag },
        Call::Range { query, radius: u32::MAX, first_day: random.first_day() },
        Call::Nearest { query, k: u32::MAX, first_day: random.first_day() },
        Call::Write,
        Call::ReadList { day: random.day() },
        Call::Save { name: snapshots::name(random) },
        Call::Restore { name: snapshots::name(random) },
        Call::Dues,
        Call::Lots { chosen: 1 + random.below(RADII) as u32 },
    ]
}

// One area at a time has every length from none to a few elements more than is needed; the others are long enough.
fn every_length(random: &mut Random, rows: &[Row], order: u32, space: Space) -> usize {
    let (table, work, result) = (table_rows(order), capacity(order), 2 * capacity(order));
    let image = 8 + 4 * (order as usize + 1) + 50 * result;
    let of = |at: usize, n: usize| {
        let one = |i: usize, needed: usize| if i == at { n } else { needed };
        Lengths {
            table: one(0, table),
            work: one(1, work),
            result: one(2, result),
            bytes: one(3, image),
            dues: one(4, LISTED),
            draft: one(5, work),
            summary: one(6, RADII),
            listing: one(7, work),
        }
    };
    let mut count = 0;
    for (at, needed) in [table, work, result, image, LISTED, work, RADII, work].into_iter().enumerate() {
        for n in 0..=needed + 3 {
            for call in calls(random, rows, order, space).into_iter().filter(|call| is_lent(call, at)) {
                let mut areas = lent(random, rows, of(at, n));
                if matches!(call, Call::ReadList { .. }) {
                    areas.bytes = item_lists::list(random, order, 4);
                }
                if let Call::Save { name } | Call::Restore { name } = call {
                    let image = Table::open(rows, |_| true).map_or_else(|_| vec![], |table| bytes(&table));
                    areas.bytes = snapshots::holding(random, &image, name);
                }
                if matches!(call, Call::Lots { .. }) {
                    areas.radii = random.fill(RADII, Random::reach);
                }
                if call == Call::Dues {
                    areas.tags = live_tags(rows, LISTED);
                }
                compare(&call, &mut areas, random);
                count += 1;
            }
        }
    }
    count
}

// So many tags of live items, the first ones again where there are fewer; none where there is none.
fn live_tags(rows: &[Row], count: usize) -> Vec<u64> {
    let Ok(table) = Table::open(rows, |_| true) else { return vec![] };
    let live: Vec<u64> = table.buckets.iter().flat_map(|bucket| bucket.live_items().map(|slot| slot.tag)).collect();
    live.into_iter().cycle().take(count).collect()
}

// Whether the call is lent this area: table, work, result, bytes, dues, and a drafting's work area, summary and listing.
fn is_lent(call: &Call, at: usize) -> bool {
    match call {
        Call::Add { .. } | Call::Remove { .. } | Call::ReadList { .. } => at <= 1,
        Call::Range { .. } | Call::Nearest { .. } => at == 0 || at == 2,
        Call::Load | Call::Write => at == 0 || at == 3,
        Call::Dues => at == 0 || at == 4,
        Call::Lots { .. } => at == 0 || at >= 5,
        _ => at == 0,
    }
}

#[test]
fn areas_of_every_small_length() {
    let mut random = Random::new(4);
    let mut count = 0;
    for (order, metric) in (0..=3).flat_map(|order| [0, 1, 2].map(|metric| (order, metric))) {
        let space = random.space(metric);
        for rows in tables(&mut random, order, space) {
            count += every_length(&mut random, &rows, order, space);
        }
    }
    println!("{count} calls");
}

// A sound image of each form, cut at every length and with bytes after it, into tables of every length.
#[test]
fn images_of_every_length() {
    let mut random = Random::new(5);
    for (order, metric, form) in (0..=4).flat_map(|order| (0..9).map(move |n| (order, n % 3, n / 3))) {
        let space = if form == 0 { Space::plain(metric) } else { random.space(metric) };
        let image = of_form(form as u16, &sound::table(&mut random, order, space));
        let mut load = |bytes: &[u8], rows: usize| {
            let mut areas = Areas { table: random.fill(rows, any_row), bytes: bytes.to_vec(), ..Areas::default() };
            compare(&Call::Load, &mut areas, &mut random).refusal
        };
        for n in 0..image.len() {
            assert_eq!(load(&image[..n], table_rows(order)), 7);
        }
        assert_eq!(load(&[&image[..], &[0]].concat(), table_rows(order)), 7);
        for rows in 0..table_rows(order) + 3 {
            assert_eq!(load(&image, rows), if rows < table_rows(order) { 23 } else { 0 });
        }
    }
}
