//! What is said of an image that is refused.

mod walk;

use std::collections::BTreeSet;
use std::ops::Range;

use vpindex::{Day, ImageFault, ImageRefusal, Metric, Name, Order, Profile, Refusal, States, Table, Tag, ffi};
use walk::{MEASURES, Part, expected, length_of, twice, walked};

fn tag(national: u64) -> Tag {
    Tag::new(36, national).expect("valid")
}

fn add(table: &mut Table, national: u64, measures: [i32; 4]) {
    let profile = Profile::new(measures, [national, !national]).expect("in range");
    table.add(tag(national), &profile, Day::new(64 * national as u16).expect("not 0")).expect("room");
}

// An image of form 2 as another form has it: without the days, and without the weights.
fn of_form(form: u16, image: &[u8]) -> Vec<u8> {
    let (first, rest) = image.split_at(8);
    let (sizes, slots) = rest.split_at(4 * (image[0] as usize + 1));
    let (tags, records) = slots.split_at(slots.len() / 50 * 8);
    let weights = if form == 0 { &[] } else { &first[4..] };
    let records: Vec<&[u8]> = records.chunks(42).map(|record| if form == 2 { record } else { &record[..40] }).collect();
    [&first[..2], &form.to_le_bytes(), weights, sizes, tags, &records.concat()].concat()
}

// Order 3: tag 5 in bucket 0; tags 1 to 4 in bucket 2, where 2 is dead. In form 2 the sizes begin at byte 8, the tags
// at byte 24 and the records at byte 64.
fn herd(form: u16) -> Vec<u8> {
    let mut table = Table::new(Order::new(3).expect("valid"), Metric::SumOfDifferences);
    for (national, measure) in [(1, 10), (2, 13), (3, 13), (4, 20), (5, 0)] {
        add(&mut table, national, [measure, 0, 0, -5]);
    }
    table.remove(tag(2)).expect("there");
    of_form(form, &table.image())
}

// Of orders 0 to 3 in every form. From order 1 on bucket T has dead slots, and lower ones have some of their tags or
// are empty.
fn sound() -> Vec<Vec<u8>> {
    let image = |order| {
        let mut table = Table::new(Order::new(order).expect("valid"), Metric::SumOfDifferences);
        let measures = |n: i32| [n * 37 % 101, 70 * n, -n, n % 3];
        (1..=1 << order).for_each(|n| add(&mut table, n, measures(n as i32)));
        for n in (1..=1 << order).step_by(3) {
            table.remove(tag(n)).expect("there");
        }
        (1..=1 << order).step_by(3).take(2).for_each(|n| add(&mut table, n, measures(-(n as i32))));
        table.image()
    };
    let images = (0..4).map(image);
    images.flat_map(|image| [0, 1, 2].map(|form| of_form(form, &image))).collect()
}

// What is said of an image, held to its fields; none if it is accepted.
fn told(image: &[u8]) -> Option<ImageRefusal> {
    let refused = Table::load(image).err()?;
    let Some(fault) = &refused.fault else { panic!("no fault: {refused}: {}", image.escape_ascii()) };
    let order = image.first().map_or(0, |&order| order.min(12));
    let reply = ffi::load(&mut vec![[0; ffi::ROW_WORDS]; order as usize + 1 + (2 << order)], image);
    assert_eq!(refused.refusal.number(), reply.refusal);
    let place = (fault.field, fault.bytes.clone(), fault.bucket, fault.slot);
    if refused.refusal == Refusal::BadLength {
        let (has, takes) = (image.len(), length_of(image));
        assert_eq!(place, ("length", takes.min(has)..has, None, None));
        assert!(fault.words.ends_with(&format!(" {takes}")), "{refused}: {takes}");
        return Some(refused);
    }
    let parts = walked(image);
    let part = expected(&parts, reply).expect("a field breaks the rule");
    let (field, words) = match (reply.refusal, part.name) {
        (36, name) => (name, twice(&parts, reply.slot as usize)),
        (37, _) => ("item", "is not the one that the tree's layout puts there".to_string()),
        (_, "tag") => ("tag", "has ".to_string()),
        (_, name) if MEASURES.contains(&name) => (name, format!("is {}, ", part.number as i32)),
        (_, name) => (name, format!("is {}, ", part.number)),
    };
    assert_eq!(place, (field, part.bytes.clone(), part.bucket, part.slot), "{refused}");
    assert!(fault.words.starts_with(&words), "{refused}: {words}");
    Some(refused)
}

fn said(image: &[u8]) -> (Refusal, Range<usize>, String) {
    let refused = told(image).expect("it is refused");
    let sentence = refused.to_string();
    (refused.refusal, refused.fault.expect("a fault").bytes, sentence)
}

// A form; where the herd's image has these bytes instead, and nothing else is wrong; the bytes that are told; and the
// sentence in two parts, whose field it is first.
type Case<'a> = (u16, usize, &'a [u8], Range<usize>, &'a str, &'a str);

fn try_cases(refusal: Refusal, cases: &[Case]) {
    for (form, at, bytes, place, whose, words) in cases {
        let mut image = herd(*form);
        image[*at..at + bytes.len()].copy_from_slice(bytes);
        assert_eq!(said(&image), (refusal, place.clone(), format!("{whose} {words}")));
    }
}

const FIRST: &str = "slot 0 (slot 0 of bucket 0), its";
const DEAD: &str = "slot 2 (slot 1 of bucket 2), its";
const LAST: &str = "slot 4 (slot 3 of bucket 2), its";

#[test]
fn first_fields() {
    try_cases(
        Refusal::BadOrder,
        &[
            (0, 0, &[13], 0..1, "the", "order at byte 0 is 13, and the largest is 12"),
            (2, 0, &[255], 0..1, "the", "order at byte 0 is 255, and the largest is 12"),
        ],
    );
    try_cases(Refusal::BadMetric, &[(2, 1, &[3], 1..2, "the", "metric at byte 1 is 3, and the largest is 2")]);
    try_cases(
        Refusal::BadImage,
        &[
            (1, 2, &[3], 2..4, "the", "form at byte 2 is 3, and the newest is 2"),
            (2, 3, &[1], 2..4, "the", "form at byte 2 is 258, and the newest is 2"),
        ],
    );
    try_cases(
        Refusal::BadWeight,
        &[
            (1, 4, &[101], 4..5, "the", "weight of kg at byte 4 is 101, and the largest is 100"),
            (2, 5, &[101], 5..6, "the", "weight of hip at byte 5 is 101, and the largest is 100"),
            (2, 6, &[255], 6..7, "the", "weight of girth at byte 6 is 255, and the largest is 100"),
            (1, 7, &[128], 7..8, "the", "weight of gain at byte 7 is 128, and the largest is 100"),
        ],
    );
}

#[test]
fn sizes() {
    let room = "is 9, and the bucket has room for 8";
    let half = "is 2, and a bucket of 4 slots has none built or at least 3";
    let quarter = "is 1, and a bucket of 4 slots in use has at least 2 live";
    let total = "is 8, which makes 12 live in all, and the table holds 8";
    for (form, at, bytes, told, bucket, size, words) in [
        (2, 20, &[9][..], 20, 3, "built", room),
        (1, 20, &[9], 20, 3, "built", room),
        (0, 16, &[9], 16, 3, "built", room),
        (2, 9, &[1], 8, 0, "built", "is 257, and the bucket has room for 1"),
        (2, 16, &[2], 16, 2, "built", half),
        (0, 12, &[2], 12, 2, "built", half),
        (2, 18, &[5], 18, 2, "live", "is 5, and its built size is 4"),
        (2, 16, &[0], 18, 2, "live", "is 3, and its built size is 0"),
        (2, 11, &[1], 10, 0, "live", "is 257, and its built size is 1"),
        (2, 18, &[1], 18, 2, "live", quarter),
        (0, 14, &[1], 14, 2, "live", quarter),
        (2, 20, &[8, 0, 8], 22, 3, "live", total),
        (0, 16, &[8, 0, 8], 18, 3, "live", total),
    ] {
        let (whose, words) = (format!("bucket {bucket}, its"), format!("{size} size at byte {told} {words}"));
        try_cases(Refusal::BadTable, &[(form, at, bytes, told..told + 2, &whose, &words)]);
    }
}

// Every small built and live size of each bucket: the bounds that are said are those that the archive keeps.
#[test]
fn sizes_at_their_bounds() {
    let small = || 0..20;
    for bucket in 0..4 {
        let said = |built: u8, live: u8| {
            let mut image = [&[3, 0, 2, 0, 1, 1, 1, 1][..], &[0; 16]].concat();
            (image[8 + 4 * bucket], image[10 + 4 * bucket]) = (built, live);
            told(&image).filter(|refused| refused.refusal == Refusal::BadTable).map(|refused| refused.to_string())
        };
        let has_live = |&built: &u8| built > 0 && small().any(|live| said(built, live).is_none());
        let least = small().find(has_live).expect("some are in order");
        let room = small().rfind(has_live).expect("some are in order");
        for (built, live) in small().flat_map(|built| small().map(move |live| (built, live))) {
            let Some(sentence) = said(built, live) else { continue };
            let least_live = small().find(|&live| said(built, live).is_none());
            let words = match (built, least_live) {
                (1.., Some(least)) if live < least => {
                    format!("live, and a bucket of {room} slots in use has at least {least} live")
                }
                (_, Some(_)) => format!("live, and its built size is {built}"),
                (_, None) if built > room => format!("built, and the bucket has room for {room}"),
                (_, None) => format!("built, and a bucket of {room} slots has none built or at least {least}"),
            };
            let (size, words) = words.split_once(',').expect("a comma");
            let (at, found) = if size == "built" { (8, built) } else { (10, live) };
            let at = at + 4 * bucket;
            assert_eq!(sentence, format!("bucket {bucket}, its {size} size at byte {at} is {found},{words}"));
        }
    }
}

#[test]
fn days() {
    try_cases(
        Refusal::BadDay,
        &[
            (2, 104, &[0, 0], 104..106, FIRST, "day at byte 104 is 0, and the least is 1"),
            (2, 188, &[0, 0], 188..190, DEAD, "day at byte 188 is 0, and the least is 1"),
            (2, 272, &[0, 0], 272..274, LAST, "day at byte 272 is 0, and the least is 1"),
        ],
    );
}

#[test]
fn tags_and_measures_and_marks() {
    let past_38_bits = "tag at byte 24 has national number 274877906944, and the largest is 274877906943";
    let national = 36_274_877_906_944_u64.to_le_bytes();
    let [above, below, least] = [1_000_001, -1_000_001, i32::MIN].map(i32::to_le_bytes);
    try_cases(
        Refusal::BadImage,
        &[
            (2, 56, &[0; 8], 56..64, LAST, "tag at byte 56 has country 0"),
            (1, 56, &[0; 8], 56..64, LAST, "tag at byte 56 has country 0"),
            (0, 52, &[255; 8], 52..60, LAST, "tag at byte 52 has country 18446744, and the largest is 999"),
            (2, 24, &national, 24..32, FIRST, past_38_bits),
            (2, 64, &above, 64..68, FIRST, "measure kg at byte 64 is 1000001, and the largest is 1000000"),
            (2, 236, &below, 236..240, LAST, "measure hip at byte 236 is -1000001, and the least is -1000000"),
            (1, 232, &above, 232..236, LAST, "measure girth at byte 232 is 1000001, and the largest is 1000000"),
            (0, 152, &least, 152..156, DEAD, "measure gain at byte 152 is -2147483648, and the least is -1000000"),
            (2, 184, &[2], 184..188, DEAD, "mark at byte 184 is 2, and a mark is 0 or 1"),
            (1, 180, &[2], 180..184, DEAD, "mark at byte 180 is 2, and a mark is 0 or 1"),
            (0, 259, &[255], 256..260, LAST, "mark at byte 256 is 4278190080, and a mark is 0 or 1"),
        ],
    );
}

// A mark that is changed, or the live size.
#[test]
fn marks_that_do_not_number_the_live_size() {
    let second = "bucket 2, its";
    try_cases(
        Refusal::BadImage,
        &[
            (2, 268, &[1], 18..20, second, "live size at byte 18 is 3, and the number of its 0 marks is 2"),
            (1, 180, &[0], 18..20, second, "live size at byte 18 is 3, and the number of its 0 marks is 4"),
            (0, 14, &[2], 14..16, second, "live size at byte 14 is 2, and the number of its 0 marks is 3"),
            (2, 100, &[1], 10..12, "bucket 0, its", "live size at byte 10 is 1, and the number of its 0 marks is 0"),
        ],
    );
}

#[test]
fn thresholds_and_items() {
    try_cases(
        Refusal::BadThreshold,
        &[
            (2, 264, &[7], 264..268, LAST, "threshold at byte 264 is 7, which is not what the tree's layout gives it"),
            (1, 256, &[7], 256..260, LAST, "threshold at byte 256 is 7, which is not what the tree's layout gives it"),
            (0, 92, &[1], 92..96, FIRST, "threshold at byte 92 is 1, which is not what the tree's layout gives it"),
        ],
    );
    let [two, three] = [2, 3].map(|national| u64::from(tag(national)).to_le_bytes());
    let swapped = [three, two].concat();
    try_cases(
        Refusal::MisplacedItem,
        &[
            (2, 40, &swapped, 40..48, DEAD, "item at byte 40 is not the one that the tree's layout puts there"),
            (0, 36, &swapped, 36..44, DEAD, "item at byte 36 is not the one that the tree's layout puts there"),
        ],
    );
}

// Of items that are all alike, so that by tag they are laid out: national number and mark of each, bucket by bucket.
fn alike(buckets: &[&[(u64, u8)]]) -> Vec<u8> {
    let live = |bucket: &[(u64, u8)]| bucket.iter().filter(|(_, mark)| *mark == 0).count() as u8;
    let sizes: Vec<u8> = buckets.iter().flat_map(|bucket| [bucket.len() as u8, 0, live(bucket), 0]).collect();
    let slots = || buckets.iter().copied().flatten();
    let tags: Vec<[u8; 8]> = slots().map(|&(national, _)| u64::from(tag(national)).to_le_bytes()).collect();
    let records: Vec<Vec<u8>> = slots().map(|&(_, mark)| [&[0; 36][..], &[mark, 0, 0, 0, 1, 0]].concat()).collect();
    [&[buckets.len() as u8 - 1, 0, 2, 0, 1, 1, 1, 1][..], &sizes, &tags.concat(), &records.concat()].concat()
}

// The earlier slot that is named is the lowest by which the tag is refused: in its bucket, or if both are live.
#[test]
fn tags_that_occur_twice() {
    let twice = |buckets: &[&[(u64, u8)]]| said(&alike(buckets));
    let tag = "036000000000007";
    assert_eq!(
        twice(&[&[], &[], &[(5, 0), (7, 1), (7, 0)]]),
        (
            Refusal::DuplicateTag,
            36..44,
            format!("slot 2 (slot 2 of bucket 2), its tag at byte 36 is {tag}, which slot 1 (slot 1 of bucket 2) has")
        )
    );
    let elsewhere = |slot: &str, byte: usize, earlier: &str| {
        let words = format!("{slot}, its tag at byte {byte} is {tag}, which {earlier} has, and both are live");
        (Refusal::DuplicateTag, byte..byte + 8, words)
    };
    assert_eq!(
        twice(&[&[(7, 0)], &[], &[(5, 0), (7, 0), (8, 1)]]),
        elsewhere("slot 2 (slot 1 of bucket 2)", 36, "slot 0 (slot 0 of bucket 0)")
    );
    assert_eq!(
        twice(&[&[(7, 0)], &[], &[(7, 1), (7, 0), (8, 0)]]),
        elsewhere("slot 2 (slot 1 of bucket 2)", 36, "slot 0 (slot 0 of bucket 0)")
    );
    let last = &[(7, 0), (8, 0), (9, 0), (10, 1), (11, 1)];
    assert_eq!(
        twice(&[&[], &[(1, 0), (7, 1)], &[(2, 0), (3, 0), (7, 0)], last]),
        elsewhere("slot 5 (slot 0 of bucket 3)", 64, "slot 4 (slot 2 of bucket 2)")
    );
    assert_eq!(told(&alike(&[&[], &[(1, 0), (7, 1)], &[(2, 0), (3, 0), (7, 1)], last])), None);
}

type Change = fn(&mut Vec<u8>);

// In the order in which load meets them.
const STEPS: [(Change, &str); 24] = [
    (|image| image.truncate(3), "the image has 3 bytes, and its first fields take 4"),
    (|image| image[0] = 13, "the order at byte 0 is 13, and the largest is 12"),
    (|image| image[1] = 3, "the metric at byte 1 is 3, and the largest is 2"),
    (|image| image[2] = 3, "the form at byte 2 is 3, and the newest is 2"),
    (|image| image.truncate(7), "the image has 7 bytes, and its fields before the sizes take 8"),
    (|image| image[5] = 101, "the weight of hip at byte 5 is 101, and the largest is 100"),
    (|image| image[7] = 102, "the weight of gain at byte 7 is 102, and the largest is 100"),
    (|image| image.truncate(23), "the image has 23 bytes, and its fields before the tags take 24"),
    (|image| image[8] = 2, "bucket 0, its built size at byte 8 is 2, and the bucket has room for 1"),
    (|image| image[18] = 5, "bucket 2, its live size at byte 18 is 5, and its built size is 4"),
    (
        |image| image[20..24].copy_from_slice(&[8, 0, 8, 0]),
        "bucket 3, its live size at byte 22 is 8, which makes 11 live in all, and the table holds 8",
    ),
    (|image| image.push(0), "the image has 275 bytes, and its sizes make 274"),
    (|image| image[104..106].fill(0), "slot 0 (slot 0 of bucket 0), its day at byte 104 is 0, and the least is 1"),
    (|image| image[272..274].fill(0), "slot 4 (slot 3 of bucket 2), its day at byte 272 is 0, and the least is 1"),
    (|image| image[24..32].fill(0), "slot 0 (slot 0 of bucket 0), its tag at byte 24 has country 0"),
    (
        |image| image[71] = 1,
        "slot 0 (slot 0 of bucket 0), its measure hip at byte 68 is 16777216, and the largest is 1000000",
    ),
    (
        |image| image[79] = 1,
        "slot 0 (slot 0 of bucket 0), its measure gain at byte 76 is 33554427, and the largest is 1000000",
    ),
    (|image| image[100] = 2, "slot 0 (slot 0 of bucket 0), its mark at byte 100 is 2, and a mark is 0 or 1"),
    (|image| image[56..64].fill(0), "slot 4 (slot 3 of bucket 2), its tag at byte 56 has country 0"),
    (|image| image[100] = 1, "bucket 0, its live size at byte 10 is 1, and the number of its 0 marks is 0"),
    (|image| image[18] = 2, "bucket 2, its live size at byte 18 is 2, and the number of its 0 marks is 3"),
    (
        |image| image[138] = 4,
        "slot 1 (slot 0 of bucket 2), its threshold at byte 138 is 4, which is not what the tree's layout gives it",
    ),
    (
        |image| image[40] = 3,
        "slot 3 (slot 2 of bucket 2), its tag at byte 48 is 036000000000003, which slot 2 (slot 1 of bucket 2) has",
    ),
    (
        |image| image[264] = 1,
        "slot 4 (slot 3 of bucket 2), its threshold at byte 264 is 1, which is not what the tree's layout gives it",
    ),
];

// All of these at once, then without the first, and so on.
#[test]
fn the_first_of_several() {
    for (first, (_, sentence)) in STEPS.iter().enumerate() {
        let mut image = herd(2);
        STEPS[first..].iter().rev().for_each(|(change, _)| change(&mut image));
        assert_eq!(said(&image).2, *sentence);
    }
}

// Cut at every length, and lengthened.
#[test]
fn lengths() {
    for image in sound() {
        let (order, form, whole) = (image[0] as usize, image[2], image.len());
        let front = if form == 0 { 4 } else { 8 };
        let tags = front + 4 * (order + 1);
        let mut longer = image.clone();
        longer.extend([255; 60]);
        for has in (0..whole + 60).filter(|&has| has != whole) {
            let what = match has {
                0..4 => "its first fields take 4".to_string(),
                _ if has < front => "its fields before the sizes take 8".to_string(),
                _ if has < tags => format!("its fields before the tags take {tags}"),
                _ => format!("its sizes make {whole}"),
            };
            let bytes = if has == 1 { "byte" } else { "bytes" };
            let sentence = format!("the image has {has} {bytes}, and {what}");
            assert_eq!(said(&longer[..has]), (Refusal::BadLength, whole.min(has)..has, sentence));
        }
    }
}

// The fields that each refusal can be for.
const FIELDS: [(u32, &[&str]); 10] = [
    (3, &["order"]),
    (4, &["metric"]),
    (7, &["length"]),
    (8, &["form", "tag", "measure kg", "measure hip", "measure girth", "measure gain", "mark", "live size"]),
    (24, &["built size", "live size"]),
    (32, &["weight of kg", "weight of hip", "weight of girth", "weight of gain"]),
    (33, &["day"]),
    (36, &["tag"]),
    (37, &["item"]),
    (38, &["threshold"]),
];

// Whether one field alone breaks the rule.
fn is_of_a_field(number: u32, fault: &ImageFault) -> bool {
    matches!(number, 3 | 4 | 8 | 32 | 33) && fault.field != "live size"
}

// Whether an image in which this field alone was changed can have the fault.
fn can_be_of(changed: &Part, number: u32, fault: &ImageFault) -> bool {
    let says_where_others_are = matches!(changed.name, "order" | "form" | "built size");
    let is_beside = changed.bucket == fault.bucket;
    match number {
        _ if is_of_a_field(number, fault) => changed.bytes == fault.bytes,
        7 => says_where_others_are,
        8 => is_beside && matches!(changed.name, "live size" | "mark"),
        24 => {
            matches!(changed.name, "order" | "form") || is_beside && matches!(changed.name, "built size" | "live size")
        }
        36 => changed.name == "tag",
        _ => is_beside || changed.name == "metric" || changed.name.starts_with("weight"),
    }
}

// Every byte of a sound image by itself: what is told is the field that was changed, or a rule that it has part in.
#[test]
fn one_byte_replaced() {
    let mut met = BTreeSet::new();
    for image in sound() {
        let parts = walked(&image);
        let others =
            |byte: u8| [0, 1, 2, 3, 13, 100, 101, 128, 255, byte ^ 1, byte.wrapping_add(2), byte.wrapping_sub(1)];
        for (at, byte) in image.iter().enumerate().flat_map(|(at, &byte)| others(byte).map(|other| (at, other))) {
            let mut damaged = image.clone();
            damaged[at] = byte;
            let Some(refused) = told(&damaged) else { continue };
            let (number, fault) = (refused.refusal.number(), refused.fault.as_ref().expect("a fault"));
            let changed = parts.iter().find(|part| part.bytes.contains(&at)).expect("it is in some field");
            assert!(can_be_of(changed, number, fault), "{refused}: {byte} at {at} in {}", image.escape_ascii());
            met.insert((number, fault.field));
        }
    }
    let each = FIELDS.iter().flat_map(|&(number, fields)| fields.iter().map(move |&field| (number, field)));
    assert_eq!(met, each.collect());
}

// Numbers that look random, the same in every run.
struct Random(u64);

impl Random {
    fn below(&mut self, bound: usize) -> usize {
        self.0 ^= self.0 << 13;
        self.0 ^= self.0 >> 7;
        self.0 ^= self.0 << 17;
        (self.0 >> 20) as usize % bound
    }

    fn pick<T: Clone>(&mut self, all: &[T]) -> T {
        all[self.below(all.len())].clone()
    }
}

// Each field that is told was damaged. With its bytes put back the next is told, until none is left that breaks a rule
// alone.
#[test]
fn several_bytes_replaced() {
    let (images, mut random, mut put_back) = (sound(), Random(1), [0; 5]);
    for _ in 0..20_000 {
        let image = random.pick(&images);
        let mut damaged = image.clone();
        for _ in 0..5 {
            let (at, byte) = (random.below(image.len()), random.below(256) as u8);
            damaged[at] = random.pick(&[byte, 0, 1, 2, 255]);
        }
        let mut rounds = 0;
        while let Some(ImageRefusal { refusal, fault: Some(fault) }) = told(&damaged)
            && is_of_a_field(refusal.number(), &fault)
        {
            assert_ne!(damaged[fault.bytes.clone()], image[fault.bytes.clone()], "{fault}");
            damaged[fault.bytes.clone()].copy_from_slice(&image[fault.bytes]);
            put_back[rounds] += 1;
            rounds += 1;
        }
    }
    assert!(put_back[..4].iter().all(|&count| count > 100), "{put_back:?}");
}

// Of bytes that are no image.
#[test]
fn any_bytes() {
    let (mut random, mut met) = (Random(2), BTreeSet::new());
    for _ in 0..50_000 {
        let length = random.below(80);
        let mut bytes: Vec<u8> = (0..length).map(|_| random.below(256) as u8).collect();
        let few = random.below(60).min(length);
        bytes[..few].iter_mut().for_each(|byte| *byte = random.pick(&[0, 0, 0, 0, 1, 1, 2, 2, 3]));
        met.extend(told(&bytes).map(|refused| refused.refusal.number()));
    }
    assert!(met.into_iter().eq([3, 4, 7, 8, 24, 32]));
}

// A restore says what a load of the image says, whatever lies behind it in its part.
#[test]
fn restored() {
    let (image, name) = (herd(2), Name::new(3).expect("a name"));
    let part = image.len() + 20;
    let restore = |length: u32, image: &[u8]| {
        let mut bytes = vec![1; 8 * part + 7];
        bytes[2 * part..2 * part + 4].copy_from_slice(&length.to_le_bytes());
        bytes[2 * part + 4..][..image.len()].copy_from_slice(image);
        Table::restore(&States::from(bytes), name).err()
    };
    let own = image.len() as u32;
    for at in 0..image.len() {
        for byte in [0, 255, image[at] ^ 1] {
            let mut damaged = image.clone();
            damaged[at] = byte;
            assert_eq!(restore(own, &damaged), told(&damaged));
        }
    }
    let behind = [&image[..], &[1; 16]].concat();
    for length in 1..=behind.len() {
        assert_eq!(restore(length as u32, &image), told(&behind[..length]));
    }
    assert_eq!(restore(0, &image), Some(Refusal::NotSaved.into()));
    for past in [behind.len() as u32 + 1, u32::MAX] {
        let refused = restore(past, &image).expect("past its part");
        assert_eq!((refused.refusal, &refused.fault), (Refusal::BadLength, &None));
        assert_eq!(refused.to_string(), "the image's length is wrong, or past the part of the states that it is in");
    }
}
