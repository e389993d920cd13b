//! The forms of an image: form 2 with weights and days, form 1 from before there were days, form 0 from before there
//! were weights; and each check of load in its order.

use outside::calls::{Areas, Call, compare};
use outside::foreign::any_row;
use outside::images::{self, translated};
use outside::random::{MAX_DAY, Random};
use outside::sound;
use reference::image::{bytes, of_form};
use reference::item::{ROW_WORDS, Row, Slot, Space};
use reference::table::{Bucket, Table as PlainTable, put_table, table_rows};
use vpindex::{Day, Metric, Order, Profile, Table, Tag, Weights};

// Loads into so many rows of any content, and gives the table after it too.
fn load(random: &mut Random, bytes: &[u8], rows: usize) -> (u32, Vec<Row>) {
    let mut areas = Areas { table: random.fill(rows, any_row), bytes: bytes.to_vec(), ..Areas::default() };
    let refusal = compare(&Call::Load, &mut areas, random).refusal;
    (refusal, areas.table)
}

fn written(random: &mut Random, table: &[Row]) -> Vec<u8> {
    let mut areas = Areas { table: table.to_vec(), bytes: vec![0; 4096], ..Areas::default() };
    let reply = compare(&Call::Write, &mut areas, random);
    assert_eq!(reply.refusal, 0);
    areas.bytes.truncate(reply.length as usize);
    areas.bytes
}

// An image of order 1 with both slots of bucket 1 in use, one of them dead.
fn small(form: u16, weights: [u32; 4]) -> Vec<u8> {
    let mut random = Random::new(14);
    let table = sound::table_of(&mut random, 1, Space { metric: 0, weights }, vec![(0, 0), (2, 1)]);
    of_form(form, &table)
}

fn changed(image: &[u8], changes: &[(usize, u8)], length: usize) -> Vec<u8> {
    let mut image = image.to_vec();
    changes.iter().for_each(|&(at, byte)| image[at] = byte);
    image.resize(length, 0);
    image
}

// Each check of load, reached by an image that passes those before it and breaks all after it that it still can: those
// of the header.
#[test]
fn the_checks_of_the_header_in_their_order() {
    let mut random = Random::new(15);
    let mut refusal = |image: &[u8], rows: usize| load(&mut random, image, rows).0;
    let needed = table_rows(1);
    let whole = small(2, [1, 0, 100, 7]);
    let form_2 = |changes: &[(usize, u8)], length: usize| changed(&whole, changes, length);
    // under 4 bytes, whatever they are
    for n in 0..4 {
        assert_eq!(refusal(&form_2(&[(0, 13), (1, 3), (2, 3)], n), 0), 7);
    }
    // order, metric, form, each at once with all that follow
    assert_eq!(refusal(&form_2(&[(0, 13), (1, 3), (2, 3)], 4), 0), 3);
    assert_eq!(refusal(&form_2(&[(1, 3), (2, 3)], 4), 0), 4);
    for form in [[3, 0], [255, 0], [0, 1], [1, 1], [2, 1], [255, 255]] {
        assert_eq!(refusal(&form_2(&[(2, form[0]), (3, form[1])], 4), 0), 8);
    }
    // weights cut short, then a weight, with the sizes cut short
    for n in 4..8 {
        assert_eq!(refusal(&form_2(&[(4, 101)], n), 0), 7);
    }
    for (at, weight) in (4..8).flat_map(|at| [101, 128, 255].map(|weight| (at, weight))) {
        assert_eq!(refusal(&form_2(&[(at, weight)], 8), 0), 32);
        assert_eq!(refusal(&form_2(&[(at, weight), (12, 1)], whole.len()), needed), 32);
    }
}

// Those behind it.
#[test]
fn the_checks_behind_the_header_in_their_order() {
    let mut random = Random::new(16);
    let mut refusal = |image: &[u8], rows: usize| load(&mut random, image, rows).0;
    let needed = table_rows(1);
    let whole = small(2, [1, 0, 100, 7]);
    assert_eq!(whole[..16], [1, 0, 2, 0, 1, 0, 100, 7, 0, 0, 0, 0, 2, 0, 1, 0]);
    assert_eq!(whole.len(), 4 + 4 + 2 * 4 + 2 * 50);
    let form_2 = |changes: &[(usize, u8)], length: usize| changed(&whole, changes, length);
    // sizes cut short, then sizes, with the total length wrong
    for n in 8..16 {
        assert_eq!(refusal(&form_2(&[(8, 1)], n), 0), 7);
    }
    assert_eq!(refusal(&form_2(&[(12, 1)], 16), 0), 24);
    // the total length, then the rows, then a day, then the rest
    for n in (16..whole.len()).chain([whole.len() + 1]) {
        assert_eq!(refusal(&form_2(&[], n), 0), 7);
    }
    let (no_day, a_mark) = ([(whole.len() - 2, 0), (whole.len() - 1, 0)], (whole.len() - 3, 1));
    let broken = form_2(&[&no_day[..], &[a_mark]].concat(), whole.len());
    assert_eq!([needed - 1, needed].map(|rows| refusal(&broken, rows)), [23, 33]);
    let marked = form_2(&[a_mark], whole.len());
    assert_eq!([needed - 1, needed].map(|rows| refusal(&marked, rows)), [23, 8]);
    assert_eq!([needed - 1, needed].map(|rows| refusal(&whole, rows)), [23, 0]);
}

// A day 0 in any record, of a live item or of a dead one, and whatever else is wrong with the slots; with one bit of
// either byte the record has a day.
#[test]
fn a_record_without_a_day() {
    let mut random = Random::new(20);
    let whole = small(2, [1; 4]);
    let needed = table_rows(1);
    let days = [whole.len() - 44, whole.len() - 2];
    let marks = days.map(|at| whole[at - 4]);
    assert!(marks.contains(&0) && marks.contains(&1), "one is live and one dead");
    for at in days {
        for day in [0, 1, 255, 256, 0x8000, MAX_DAY] {
            let [low, high] = day.to_le_bytes();
            let image = changed(&whole, &[(at, low), (at + 1, high)], whole.len());
            let (refusal, rows) = load(&mut random, &image, needed);
            assert_eq!(refusal, if day == 0 { 33 } else { 0 });
            if day != 0 {
                assert!(rows.iter().any(|row| row[12] == day as u32));
                assert_eq!(written(&mut random, &rows), image);
            }
            // a tag, a measure, a threshold, a mark
            for (other, byte, number) in [(23, 1, 8), (35, 127, 8), (whole.len() - 10, 9, 38), (whole.len() - 6, 2, 8)]
            {
                let damaged = changed(&image, &[(other, byte)], whole.len());
                assert_eq!(load(&mut random, &damaged, needed).0, if day == 0 { 33 } else { number });
            }
        }
    }
}

// Every record of larger images in turn.
#[test]
fn no_record_lacks_its_day() {
    let mut random = Random::new(21);
    for round in 0..60 {
        let space = random.space(round % 3);
        let mut table = sound::table(&mut random, round % 6, space);
        let rows = table_rows(table.order);
        for (k, at) in places(&table) {
            let day = std::mem::take(&mut table.buckets[k].slots[at].day);
            assert_eq!(load(&mut random, &bytes(&table), rows).0, 33);
            table.buckets[k].slots[at].day = day;
        }
        assert_eq!(load(&mut random, &bytes(&table), rows).0, 0);
    }
}

// bucket and slot of all that are built
fn places(table: &PlainTable) -> Vec<(usize, usize)> {
    let of_bucket = |(k, bucket): (usize, &Bucket)| (0..bucket.slots.len()).map(|at| (k, at)).collect::<Vec<_>>();
    table.buckets.iter().enumerate().flat_map(of_bucket).collect()
}

// An older form has no days, and form 0 no weights: 33 is none of its refusals, nor of form 0's 32, and the bytes where
// they would stand are others or too many.
#[test]
fn the_checks_of_older_forms() {
    let mut random = Random::new(16);
    let mut refusal = |image: &[u8], rows: usize| load(&mut random, image, rows).0;
    let needed = table_rows(1);
    for (form, front) in [(0, 4), (1, 8)] {
        let whole = small(form, [1; 4]);
        let start = [[1, 0, form as u8, 0], [1; 4]].concat();
        assert_eq!(whole[..front + 8], [&start[..front], &[0, 0, 0, 0, 2, 0, 1, 0]].concat());
        assert_eq!(whole.len(), front + 2 * 4 + 2 * 48);
        let older = |at: usize, byte: u8| changed(&whole, &[(at, byte)], whole.len());
        for n in 0..front + 8 {
            assert_eq!(refusal(&whole[..n], 0), 7);
        }
        assert_eq!(refusal(&older(4, 101), needed), if form == 0 { 24 } else { 32 });
        assert_eq!(refusal(&older(front, 101), needed), 24);
        assert_eq!(refusal(&older(front + 4, 1)[..front + 8], 0), 24);
        assert_eq!(refusal(&whole[..front + 8], 0), 7);
        assert_eq!(refusal(&[&whole[..], &[1, 0, 1, 0]].concat(), needed), 7);
        let marked = older(whole.len() - 1, 1);
        assert_eq!([needed - 1, needed].map(|rows| refusal(&marked, rows)), [23, 8]);
        assert_eq!([needed - 1, needed].map(|rows| refusal(&whole, rows)), [23, 0]);
        // with other weights the trees would be others: nothing of an image says so but its form
        assert_eq!(refusal(&translated(&whole).expect("of an older form"), needed), 0);
    }
}

// Weights and days of an image are the loaded table's, and go back into its image; a layout by other weights is refused.
#[test]
fn weights_and_days_go_with_the_image() {
    let mut random = Random::new(17);
    let mut others = 0;
    for round in 0..600 {
        let space = random.space(round % 3);
        let table = sound::table(&mut random, 1 + round % 5, space);
        let image = bytes(&table);
        let mut rows = vec![[0; ROW_WORDS]; table_rows(table.order)];
        put_table(&mut rows, &table);
        assert_eq!(load(&mut random, &image, rows.len()), (0, rows.clone()));
        assert_eq!(written(&mut random, &rows), image);
        let mut other = image.clone();
        other[4..8].copy_from_slice(&random.weights().map(|weight| weight as u8));
        others += [37, 38].contains(&load(&mut random, &other, rows.len()).0) as u32;
    }
    assert!(others > 100, "{others} images were no layout by other weights");
}

// An image of an older form, sound or damaged, whose length is the one that its sizes give is accepted exactly if its
// translation is, and then loads as the same table, every item of day 1.
#[test]
fn an_older_form_as_its_translation() {
    let mut random = Random::new(18);
    for form in 0..2 {
        let mut count = [0; 2];
        for round in 0..9000u32 {
            let (order, space) = (round % 6, random.space(round / 6 % 3));
            let older = images::of_form(&mut random, form, order, space);
            let Some(newer) = translated(&older) else { continue };
            let rows = table_rows(order) - random.one_in(16) as usize;
            let table = random.fill(rows, any_row);
            let both = [&older, &newer].map(|bytes| {
                let mut areas = Areas { table: table.clone(), bytes: bytes.clone(), ..Areas::default() };
                let refusal = compare(&Call::Load, &mut areas, &mut random).refusal;
                (refusal, areas.table)
            });
            assert_eq!(both[0], both[1]);
            let (refusal, loaded) = &both[0];
            count[(*refusal != 0) as usize] += 1;
            if *refusal == 0 {
                assert!(slots(loaded).iter().all(|slot| slot.day == 1));
                assert_eq!(written(&mut random, loaded), newer);
            }
        }
        println!("form {form}, accepted, refused: {count:?}");
        assert!(count.iter().all(|n| *n > 1000));
    }
}

// all that are built
fn slots(rows: &[Row]) -> Vec<Slot> {
    let table = PlainTable::open(rows, |_| true).expect("sizes that pass");
    table.buckets.into_iter().flat_map(|bucket| bucket.slots).collect()
}

fn tag(national: u64) -> Tag {
    Tag::new(36, national).expect("valid")
}

// The item of the stored images with this national number.
fn stored_item(national: u64) -> Profile {
    let n = national as i32;
    let measures = [n * n * 37 % 1000 - 300, -(n * 91 % 500), n * 7 % 40, 1_000_000 - n];
    Profile::new(measures, [national.wrapping_mul(0x9E37_79B9_7F4A_7C15), 1 << national]).expect("in range")
}

// An image that the calls wrote when its form was the newest: of order 4, nationals 1 to 15 added, then 2, 7, 11 and 15
// removed.
struct Stored {
    metric: Metric,
    weights: [u32; 4],
    image: &'static [u8],
}

macro_rules! stored {
    ($metric:ident, $weights:expr, $file:literal) => {
        Stored { metric: Metric::$metric, weights: $weights, image: include_bytes!($file) }
    };
}

const STORED: [Stored; 6] = [
    stored!(SumOfDifferences, [1; 4], "form_0/metric_0.image"),
    stored!(DifferingBits, [1; 4], "form_0/metric_1.image"),
    stored!(LargestDifference, [1; 4], "form_0/metric_2.image"),
    stored!(SumOfDifferences, [10, 1, 100, 0], "form_1/metric_0.image"),
    stored!(DifferingBits, [10, 1, 100, 0], "form_1/metric_1.image"),
    stored!(LargestDifference, [10, 1, 100, 0], "form_1/metric_2.image"),
];

impl Stored {
    // The table that the same calls make today, with these weights and day 1.
    fn made(&self) -> Table {
        let weights = Weights::new(self.weights).expect("in range");
        let mut made = Table::with_weights(Order::new(4).expect("valid"), self.metric, weights);
        for n in 1..=15 {
            made.add(tag(n), &stored_item(n), Day::MIN).expect("room");
        }
        for n in [2, 7, 11, 15] {
            made.remove(tag(n)).expect("live");
        }
        made
    }

    // The image and its translation.
    fn both(&self) -> [Vec<u8>; 2] {
        [self.image.to_vec(), translated(self.image).expect("of an older form")]
    }
}

#[test]
fn stored_images_are_of_their_forms() {
    let starts = STORED.map(|stored| (stored.image.len(), stored.image[..4].to_vec()));
    let of_form = |form, length| [0, 1, 2].map(|metric| (length, vec![4, metric, form, 0]));
    assert_eq!(starts.to_vec(), [of_form(0, 696), of_form(1, 700)].concat());
}

// They load as the table that the same calls make today, and so does the translation of each; what is written of it is
// the translation.
#[test]
fn stored_images_of_older_forms() {
    for stored in STORED {
        let (made, both) = (stored.made(), stored.both());
        assert_eq!(made.image(), both[1]);
        for bytes in &both {
            let loaded = Table::load(bytes).expect("a sound image");
            assert_eq!((loaded.order(), loaded.metric()), (made.order(), made.metric()));
            assert_eq!((loaded.weights(), loaded.len()), (made.weights(), 11));
            assert_eq!(loaded.image(), both[1]);
            assert_eq!(loaded.look_up(tag(1)).map(|found| found.day), Ok(Day::MIN));
            for query in (0..16).map(stored_item) {
                for first_day in [None, Some(Day::MIN)] {
                    assert_eq!(loaded.nearest(&query, 5, first_day), made.nearest(&query, 5, first_day));
                }
                assert!(loaded.nearest(&query, 5, Day::new(2).ok()).expect("a count").is_empty());
            }
        }
    }
}

// The rows too: both forms of a stored image leave the same ones in any area.
#[test]
fn stored_images_row_by_row() {
    let mut random = Random::new(19);
    for stored in STORED {
        let mut table = random.fill(table_rows(4) + 3, any_row);
        table[0][6..].fill(9);
        let loaded = stored.both().map(|bytes| {
            let mut areas = Areas { table: table.clone(), bytes, ..Areas::default() };
            assert_eq!(compare(&Call::Load, &mut areas, &mut random).refusal, 0);
            areas.table
        });
        assert_eq!(loaded[0], loaded[1]);
        let [a, b, c, d] = stored.weights;
        assert_eq!(loaded[0][0], [4, stored.metric.get(), a, b, c, d, 0, 0, 0, 0, 0, 0, 0]);
        assert!(slots(&loaded[0]).iter().all(|slot| slot.day == 1));
    }
}
