//! Herd lists: every form of a line, lists cut and altered at every byte, and lists on areas of every kind.

use std::ops::RangeInclusive;

use outside::calls::{Areas, Call, Reply, compare};
use outside::fixture::tag;
use outside::foreign::{self, any_row, rows_of};
use outside::item_lists::{self, NO_TAGS, NO_VALUES, line};
use outside::random::{MAX_DAY, MAX_NATIONAL, MIN_TAG, Random};
use outside::sound;
use reference::item::{Item, Profile, ROW_WORDS, Row, Space};
use reference::list::HEADER;
use reference::table::{Table, capacity, put_table, table_rows};
use vpindex::ffi;

fn lines(nationals: RangeInclusive<u64>) -> Vec<String> {
    nationals.map(|n| line(tag(n), [41_250 + 7 * n as i32, 12_900, -5, 0])).collect()
}

// An empty table of this order.
fn empty(order: u32) -> Vec<Row> {
    let mut rows = vec![[0; ROW_WORDS]; table_rows(order)];
    let buckets = vec![Default::default(); order as usize + 1];
    put_table(&mut rows, &Table { order, space: Space::plain(0), buckets });
    rows
}

// The day of most lists here.
const DAY: u16 = 300;

struct Fixture {
    rows: Vec<Row>,
    work: usize,
    day: u16,
    random: Random,
}

impl Fixture {
    fn new(order: u32) -> Fixture {
        Fixture { rows: empty(order), work: capacity(order), day: DAY, random: Random::new(3) }
    }

    // Reads the list on a copy of the table, and gives the table after it too.
    fn read(&mut self, list: &[u8]) -> (Reply, Vec<Row>) {
        let work = self.random.fill(self.work, any_row);
        let mut areas = Areas { table: self.rows.clone(), work, bytes: list.to_vec(), ..Areas::default() };
        let reply = compare(&Call::ReadList { day: self.day }, &mut areas, &mut self.random);
        (reply, areas.table)
    }

    // refusal, line and number added
    fn shown(&mut self, list: &[u8]) -> (u32, u32, u32) {
        let reply = self.read(list).0;
        (reply.refusal, reply.line, reply.added)
    }

    // of a list with two valid lines, then this one, then a valid one
    fn third(&mut self, text: &str) -> (u32, u32, u32) {
        self.shown(&item_lists::of(&[lines(1..=2), vec![text.to_string()], lines(3..=3)].concat()))
    }
}

#[test]
fn headers() {
    let mut fixture = Fixture::new(3);
    assert_eq!(fixture.shown(HEADER), (0, 0, 0));
    for cut in 0..HEADER.len() {
        assert_eq!(fixture.shown(&HEADER[..cut]), (30, 1, 0));
    }
    let others: [&[u8]; 9] = [
        b"tag;kg;hip;girth;gain\r\n",
        b"tag;kg;hip;girth;gain \n",
        b"tag;kg;hip;girth;gain;\n",
        b"tag;kg;hip;gain;girth\n",
        b"TAG;KG;HIP;GIRTH;GAIN\n",
        b"tag,kg,hip,girth,gain\n",
        b"\xef\xbb\xbftag;kg;hip;girth;gain\n",
        b"\ntag;kg;hip;girth;gain\n",
        b"036000000000001;0,00;0,00;0,00;0,00\n",
    ];
    for header in others {
        assert_eq!(fixture.shown(&[header, lines(1..=1)[0].as_bytes()].concat()), (30, 1, 0));
    }
    assert_eq!(fixture.shown(&[HEADER, HEADER].concat()), (31, 2, 0));
}

#[test]
fn values_of_the_form() {
    let mut fixture = Fixture::new(3);
    let valid = [("0,05", 5), ("-0,05", -5), ("-0,00", 0), ("00000,00", 0), ("00012,30", 1230), ("-12,34", -1234)];
    let ends = [("10000,00", 1_000_000), ("-10000,00", -1_000_000)];
    for (text, hundredths) in valid.into_iter().chain(ends) {
        for at in 0..4 {
            let mut values = ["0,00"; 4];
            values[at] = text;
            let (reply, rows) = fixture.read(&item_lists::of(&[format!("036000000000009;{}\n", values.join(";"))]));
            assert_eq!((reply.refusal, reply.added), (0, 1), "{text}");
            let mut profile = Profile::default();
            profile.measures[at] = hundredths;
            let item = Item { tag: tag(9), profile, day: DAY as u32 };
            assert_eq!(reference::calls::look_up(&rows, tag(9)), Ok((0, item)), "{text}");
        }
    }
    for past in ["10000,01", "-10000,01", "99999,99", "-99999,99"] {
        assert_eq!(fixture.third(&format!("036000000000009;0,00;0,00;{past};0,00\n")), (2, 4, 2), "{past}");
    }
}

// Lines that are wrong in more than one field, or in their end.
const NO_LINES: [&str; 17] = [
    "\n",
    "\r\n",
    "?\n",
    ";;;;\n",
    "036000000000009;0,00;0,00;0,00;0,00\r\n",
    "036000000000009;0,00;0,00;0,00;0,00;\n",
    "036000000000009;0,00;0,00;0,00;0,00;0,00\n",
    "036000000000009;0,00;0,00;0,00\n",
    "036000000000009;0,00;0,00;;0,00;0,00\n",
    "036000000000009;;0,00;0,00;0,00\n",
    ";036000000000009;0,00;0,00;0,00;0,00\n",
    "036000000000009 0,00 0,00 0,00 0,00\n",
    "036000000000009,0;00,0;00,0;00,0;00\n",
    "036000000000009;0,00;0,00;0,00;0,00\n\n",
    "A 036000000000009 0.00 0.00 0.00 0.00 -\n",
    "036000000000009;0,00;0,00;0,00;0,00",
    "tag;kg;hip;girth;gain\n",
];

#[test]
fn lines_not_of_the_form() {
    let mut fixture = Fixture::new(3);
    for text in NO_VALUES {
        for at in 0..4 {
            let mut values = ["0,00"; 4];
            values[at] = text;
            assert_eq!(
                fixture.third(&format!("036000000000009;{}\n", values.join(";"))),
                (31, 4, 2),
                "{text:?} at {at}"
            );
        }
    }
    for text in NO_TAGS {
        assert_eq!(fixture.third(&format!("{text};0,00;0,00;0,00;0,00\n")), (31, 4, 2), "{text:?}");
    }
    for text in NO_LINES {
        let line = if text.ends_with("\n\n") { 5 } else { 4 };
        assert_eq!(fixture.third(text), (31, line, line - 2), "{text:?}");
    }
    let long = "0".repeat(100_000);
    assert_eq!(fixture.third(&format!("{long};0,00;0,00;0,00;0,00\n")), (31, 4, 2));
    assert_eq!(fixture.third(&format!("036000000000009;{long},00;0,00;0,00;0,00\n")), (31, 4, 2));
}

// Cut at a line's end it is a shorter list, cut elsewhere its last line lacks the line feed.
#[test]
fn cut_at_every_length() {
    for order in [2, 3] {
        let mut fixture = Fixture::new(order);
        let list = item_lists::of(&lines(1..=6));
        for n in 0..=list.len() {
            let whole = list[..n].iter().filter(|byte| **byte == b'\n').count() as u32;
            let added = whole.saturating_sub(1).min(capacity(order) as u32);
            let expected = match list.get(n.wrapping_sub(1)) {
                _ if whole == 0 => (30, 1, 0),
                Some(b'\n') if whole - 1 == added => (0, 0, added),
                _ if whole - 1 == added => (31, whole + 1, added),
                _ => (22, added + 2, added),
            };
            assert_eq!(fixture.shown(&list[..n]), expected, "cut at {n}, order {order}");
        }
    }
}

// Each byte of a short list in turn: any other value, taken out, twice, and a byte before it.
#[test]
fn altered_at_every_byte() {
    let mut fixture = Fixture::new(2);
    let list = item_lists::of(&lines(1..=3));
    assert_eq!(fixture.shown(&list), (0, 0, 3));
    let mut count = [0; 2];
    let mut read = |list: &[u8]| count[(fixture.shown(list).0 != 0) as usize] += 1;
    for at in 0..list.len() {
        let (before, after) = list.split_at(at);
        for byte in 0..=255 {
            read(&[before, &[byte], &after[1..]].concat());
        }
        read(&[before, &after[1..]].concat());
        read(&[before, &after[..1], after].concat());
        for byte in *b"09;,-+. \t\r\n\0\xff" {
            read(&[before, &[byte], after].concat());
        }
    }
    println!("accepted, refused: {count:?}");
    assert!(count.iter().all(|n| *n > 1000));
}

#[test]
fn random_bytes() {
    let mut fixture = Fixture::new(3);
    for _ in 0..20_000 {
        let list = item_lists::of(&lines(1..=fixture.random.below(4) as u64));
        let list = item_lists::damaged(&mut fixture.random, list);
        fixture.shown(&list);
        let (count, headed) = (fixture.random.below(100), !fixture.random.one_in(4));
        let bytes = fixture.random.fill(count, item_lists::byte);
        fixture.shown(&[if headed { HEADER } else { b"" }, &bytes].concat());
    }
}

#[test]
fn refusals_at_a_line() {
    let mut fixture = Fixture::new(2);
    let [low, high] = [MAX_NATIONAL, MAX_NATIONAL + 1].map(|n| line(tag(n), [0; 4]));
    assert_eq!(fixture.third(&low), (0, 0, 4));
    for bad in [high, line(MIN_TAG - 1, [0; 4]), line(0, [0; 4]), line(1000 * MIN_TAG - 1, [0; 4])] {
        assert_eq!(fixture.third(&bad), (1, 4, 2), "{bad}");
    }
    // tag before measures, measures before what is live
    assert_eq!(fixture.third(&line(0, [1_000_001; 4])), (1, 4, 2));
    assert_eq!(fixture.third(&line(tag(1), [0, 0, 0, 1_000_001])), (2, 4, 2));
    assert_eq!(fixture.third(&lines(2..=2)[0]), (20, 4, 2));
    assert_eq!(fixture.shown(&item_lists::of(&lines(1..=5))), (22, 6, 4));
    // the table is full: a live tag is 20, and the form goes before both
    let full = fixture.read(&item_lists::of(&lines(1..=4))).1;
    fixture.rows = full;
    assert_eq!(fixture.shown(&item_lists::of(&lines(4..=4))), (20, 2, 0));
    assert_eq!(fixture.shown(&item_lists::of(&lines(9..=9))), (22, 2, 0));
    assert_eq!(fixture.shown(&item_lists::of(&lines(9..=9))[..60]), (31, 2, 0));
}

// All lines are of the one day given: the first, the last or any between them.
#[test]
fn a_list_has_one_day() {
    let mut fixture = Fixture::new(3);
    for day in [1, DAY, MAX_DAY] {
        fixture.day = day;
        let (reply, rows) = fixture.read(&item_lists::of(&lines(1..=6)));
        assert_eq!((reply.refusal, reply.added), (0, 6));
        for n in 1..=6 {
            assert_eq!(reference::calls::look_up(&rows, tag(n)).map(|(_, item)| item.day), Ok(day as u32));
        }
    }
}

// Day 0 is 33 at the first line that no refusal before it meets: form, tag and measures go before it, what is live and
// a full table behind it. A list of no line has no day to refuse.
#[test]
fn a_list_of_day_0() {
    let mut fixture = Fixture::new(2);
    fixture.rows = fixture.read(&item_lists::of(&lines(1..=3))).1;
    fixture.day = 0;
    let one = |line: &String| item_lists::of([line]);
    assert_eq!(fixture.shown(HEADER), (0, 0, 0));
    assert_eq!(fixture.shown(&HEADER[1..]), (30, 1, 0));
    assert_eq!(fixture.shown(&one(&"?\n".into())), (31, 2, 0));
    assert_eq!(fixture.shown(&one(&line(0, [1_000_001; 4]))), (1, 2, 0));
    assert_eq!(fixture.shown(&one(&line(tag(1), [1_000_001; 4]))), (2, 2, 0));
    assert_eq!(fixture.shown(&item_lists::of(&lines(4..=5))), (33, 2, 0));
    assert_eq!(fixture.shown(&item_lists::of(&lines(1..=1))), (33, 2, 0));
    fixture.day = DAY;
    fixture.rows = fixture.read(&item_lists::of(&lines(4..=4))).1;
    assert_eq!(fixture.shown(&item_lists::of(&lines(5..=5))), (22, 2, 0));
    fixture.day = 0;
    assert_eq!(fixture.shown(&item_lists::of(&lines(5..=5))), (33, 2, 0));
    fixture.work = 3;
    assert_eq!(fixture.shown(&item_lists::of(&lines(5..=5))), (23, 2, 0));
    fixture.work = 4;
    fixture.rows[0][2] = 101;
    assert_eq!(fixture.shown(&item_lists::of(&lines(5..=5))), (24, 2, 0));
    fixture.rows.clear();
    assert_eq!(fixture.shown(HEADER), (0, 0, 0));
}

// The header is looked at before any area, a line's form before the table, and a list of no line asks for no table.
#[test]
fn areas_that_no_add_takes() {
    let [headed, cut, whole] = [HEADER.to_vec(), item_lists::of(&["?\n".into()]), item_lists::of(&lines(1..=2))];
    let with = |change: &dyn Fn(&mut [Row])| {
        let mut rows = empty(2);
        change(&mut rows);
        rows
    };
    // bucket 1 with one item, too few; bucket 0 with one whose mark is not 0
    let a_size = |rows: &mut [Row]| rows[2][..2].fill(1);
    let a_mark = |rows: &mut [Row]| (rows[1], rows[4]) = ([1; ROW_WORDS], [1; ROW_WORDS]);
    let tables = [
        (vec![], 4, 23),
        (empty(2)[..10].to_vec(), 4, 23),
        (empty(2), 3, 23),
        (with(&|rows| rows[0][0] = 13), 4, 24),
        (with(&|rows| rows[0][1] = 3), 4, 24),
        (with(&|rows| rows[0][5] = 101), 4, 24),
        (with(&|rows| rows[0][5] = 101), 3, 23),
        (with(&a_size), 4, 24),
        (with(&a_mark), 4, 24),
    ];
    for (rows, work, refusal) in tables {
        let mut fixture = Fixture { rows, work, day: DAY, random: Random::new(5) };
        assert_eq!(fixture.shown(b""), (30, 1, 0));
        assert_eq!(fixture.shown(&whole[1..]), (30, 1, 0));
        assert_eq!(fixture.shown(&headed), (0, 0, 0));
        assert_eq!(fixture.shown(&cut), (31, 2, 0));
        assert_eq!(fixture.shown(&whole), (refusal, 2, 0));
    }
}

#[test]
fn areas_of_every_small_length() {
    let mut random = Random::new(6);
    for order in 0..=3 {
        let list = item_lists::of(&lines(1..=capacity(order) as u64));
        for table in 0..table_rows(order) + 3 {
            for work in 0..capacity(order) + 3 {
                let mut rows = empty(order);
                rows.resize_with(table, || any_row(&mut random));
                let mut fixture = Fixture { rows, work, day: DAY, random: random.clone() };
                let fits = table >= table_rows(order) && work >= capacity(order);
                let expected = if fits { (0, 0, capacity(order) as u32) } else { (23, 2, 0) };
                assert_eq!(fixture.shown(&list), expected);
                random.word();
            }
        }
    }
}

// Sound and foreign tables, by every metric and with any weights, with lists of every kind.
#[test]
fn tables_of_every_kind() {
    let mut random = Random::new(7);
    let mut stopped = 0;
    for round in 0..6000 {
        let (order, space) = (round % 7, random.space(round / 7 % 3));
        let rows = if random.one_in(2) {
            foreign::table(&mut random, order, space)
        } else {
            let table = sound::table(&mut random, order, space);
            rows_of(&mut random, &table, 0)
        };
        let list = item_lists::list(&mut random, order, 2 * capacity(order).min(16));
        let (work, day) = (capacity(order) + random.below(2), random.day());
        let reply = Fixture { rows, work, day, random: random.clone() }.read(&list).0;
        stopped += (reply.refusal != 0 && reply.added > 0) as u32;
    }
    assert!(stopped > 500, "{stopped} lists stopped after an add");
}

// The reading is the archive's own adds, one after the other, at the largest order and by every metric.
#[test]
fn a_list_is_its_adds() {
    for metric in 0..=2 {
        let mut random = Random::new(8);
        let profiles = random.fill(4097, |random| Profile { code: [0, 0], ..random.profile() });
        let mut listed = vec![[0; ROW_WORDS]; table_rows(12)];
        assert_eq!(ffi::fresh(&mut listed, 12, metric, ffi::Weights { each: [1, 0, 100, 7] }), 0);
        let mut added = listed.clone();
        let mut work = vec![[0; ROW_WORDS]; capacity(12)];
        let list: Vec<String> = profiles.iter().zip(1..).map(|(profile, n)| line(tag(n), profile.measures)).collect();
        let reply = ffi::read_list(&mut listed, &mut work, &item_lists::of(&list), DAY);
        let mut distances = 0;
        for (profile, n) in profiles.iter().take(4096).zip(1..) {
            let profile = ffi::Profile { measures: profile.measures, code: profile.code };
            let add = ffi::add(&mut added, &mut work, tag(n), profile, DAY);
            assert_eq!(add.refusal, 0);
            distances += add.distances;
        }
        assert_eq!(reply, ffi::ListRead { refusal: 22, line: 4098, added: 4096, distances });
        assert!(listed == added, "the tables are alike");
    }
}
