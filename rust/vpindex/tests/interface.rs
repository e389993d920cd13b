//! What a Rust caller meets: values that are checked when they are made, and refusals.

use std::error::Error as _;
use std::num::NonZeroU16;

use vpindex::{
    Day, Error, ExtendRefusal, Item, ListRead, ListRefusal, Metric, Name, Order, ParseError, Profile, RangeQuery,
    Refusal, States, Table, Tag, Weights,
};

#[test]
fn tags() {
    assert_eq!(Tag::new(0, 5), Err(Refusal::BadTag));
    assert_eq!(Tag::new(1000, 5), Err(Refusal::BadTag));
    assert_eq!(Tag::new(36, 1_000_000_000_000), Err(Refusal::BadTag));
    assert_eq!(Tag::try_from(999_999_999_999), Err(Refusal::BadTag));
    assert_eq!(Tag::try_from(u64::MAX), Err(Refusal::BadTag));
    for country in [1, 36, 999] {
        let last = country as u64 * 1_000_000_000_000 + 274_877_906_943;
        assert_eq!(Tag::new(country, 274_877_906_943).map(u64::from), Ok(last));
        assert_eq!(Tag::try_from(last).map(u64::from), Ok(last));
        assert_eq!(Tag::new(country, 274_877_906_944), Err(Refusal::BadTag));
        assert_eq!(Tag::try_from(last + 1), Err(Refusal::BadTag));
    }
    let tag = Tag::new(1, 7).expect("valid");
    assert_eq!((tag.country(), tag.national(), tag.to_string().as_str()), (1, 7, "001000000000007"));
}

#[test]
fn profiles() {
    for at in 0..4 {
        for (measure, fits) in [(1_000_000, true), (-1_000_000, true), (1_000_001, false), (i32::MIN, false)] {
            let mut measures = [0; 4];
            measures[at] = measure;
            assert_eq!(Profile::new(measures, [u64::MAX, 1]).is_ok(), fits);
        }
    }
}

#[test]
fn orders_and_metrics() {
    assert_eq!(Order::new(13), Err(Refusal::BadOrder));
    assert_eq!(Order::new(12), Ok(Order::MAX));
    assert_eq!(
        [0, 1, 2, 3, 4096].map(|items| Order::holding(items).map(Order::get)),
        [Ok(0), Ok(0), Ok(1), Ok(2), Ok(12)]
    );
    assert_eq!(Order::holding(4097), Err(Refusal::BadOrder));
    for metric in [Metric::SumOfDifferences, Metric::DifferingBits, Metric::LargestDifference] {
        assert_eq!(Metric::try_from(metric.get()), Ok(metric));
    }
    assert_eq!(Metric::try_from(3), Err(Refusal::BadMetric));
}

#[test]
fn weights() {
    assert_eq!(Weights::new([1; 4]), Ok(Weights::ONE));
    assert_eq!(Weights::default(), Weights::ONE);
    for at in 0..4 {
        for (weight, fits) in [(0, true), (100, true), (101, false), (256, false), (u32::MAX, false)] {
            let mut each = [1; 4];
            each[at] = weight;
            let made = Weights::new(each).map(Weights::each);
            assert_eq!(made, if fits { Ok(each) } else { Err(Refusal::BadWeight) });
        }
    }
}

#[test]
fn days() {
    assert_eq!(Day::new(0), Err(Refusal::BadDay));
    assert_eq!([Day::new(1), Day::new(65_535)], [Ok(Day::MIN), Ok(Day::MAX)]);
    for day in [1, 2, 365, 65_534, 65_535] {
        assert_eq!(Day::new(day).map(Day::get), Ok(day));
    }
    assert!(Day::MIN < Day::MAX);
    assert_eq!(size_of::<Option<Day>>(), 2);
    let day = NonZeroU16::new(305).expect("not 0");
    assert_eq!((Day::from(day).get(), NonZeroU16::from(Day::from(day))), (305, day));
}

// Values that are checked when the program is compiled.
const CHECKED: (Tag, Profile, Day, Order) = {
    let (tag, profile) = (Tag::new(36, 101), Profile::new([41_250, 12_900, 18_500, 95], [0, 1]));
    match (tag, profile, Day::new(305), Order::holding(6)) {
        (Ok(tag), Ok(profile), Ok(day), Ok(order)) => (tag, profile, day, order),
        _ => panic!("one is not valid"),
    }
};

#[test]
fn constants() {
    let (tag, profile, day, order) = CHECKED;
    assert_eq!((tag.national(), profile.code(), day.get(), order.get()), (101, [0, 1], 305, 3));
    const { assert!(Weights::new([0, 1, 100, 101]).is_err() && Name::new(8).is_ok() && Metric::ALL[2].get() == 2) };
}

#[test]
fn what_values_show() {
    let (tag, profile, day, _) = CHECKED;
    let shown = "Profile { measures: [41250, 12900, 18500, 95], code: [0, 1] }";
    assert_eq!(format!("{profile:?}"), shown);
    let item = Item { tag, profile, day };
    assert_eq!(format!("{item:?}"), format!("Item {{ tag: Tag(036000000000101), profile: {shown}, day: Day(305) }}"));
    assert_eq!(format!("{:?}", Weights::ONE), "Weights([1, 1, 1, 1])");
}

// A search reports what was weighed on its first day or later, any day where there is none, and an image keeps the days.
#[test]
fn a_table_of_days() {
    let (order, query) = (Order::new(2).expect("valid"), Profile::default());
    let [first, middle, last] = [Day::MIN, Day::new(300).expect("not 0"), Day::MAX];
    let mut table = Table::new(order, Metric::SumOfDifferences);
    for (national, day) in [(1, first), (2, middle), (3, last)] {
        let profile = Profile::new([national as i32, 0, 0, 0], [0, 0]).expect("in range");
        table.add(Tag::new(36, national).expect("valid"), &profile, day).expect("room");
    }
    let loaded = Table::load(&table.image()).expect("an image that was written");
    for table in [&table, &loaded] {
        for (national, day) in [(1, first), (2, middle), (3, last)] {
            assert_eq!(table.look_up(Tag::new(36, national).expect("valid")).map(|found| found.day), Ok(day));
        }
        let just_after = Day::new(301).expect("not 0");
        for (since, expected) in [
            (None, vec![1, 2, 3]),
            (Some(first), vec![1, 2, 3]),
            (Some(middle), vec![2, 3]),
            (Some(just_after), vec![3]),
            (Some(last), vec![3]),
        ] {
            let nationals = |hits: vpindex::Hits| hits.iter().map(|hit| hit.tag().national()).collect::<Vec<_>>();
            assert_eq!(nationals(table.range(&query, 3, since)), expected);
            assert_eq!(nationals(table.nearest(&query, 3, since).expect("a count")), expected);
            assert_eq!(nationals(table.nearest(&query, 1, since).expect("a count")), expected[..1]);
        }
    }
}

// Each measure has its own weight, and an image keeps them.
#[test]
fn a_weighted_table() {
    let (tag, order) = (Tag::new(36, 1).expect("valid"), Order::new(2).expect("valid"));
    let weights = Weights::new([2, 0, 100, 1]).expect("in range");
    let item = Profile::new([3, 5, -7, 1], [7, 0]).expect("in range");
    for (metric, plain, weighted) in
        [(Metric::SumOfDifferences, 16, 707), (Metric::DifferingBits, 3, 3), (Metric::LargestDifference, 7, 700)]
    {
        let tables = [Table::new(order, metric), Table::with_weights(order, metric, weights)];
        for (mut table, (each, distance)) in tables.into_iter().zip([([1; 4], plain), ([2, 0, 100, 1], weighted)]) {
            table.add(tag, &item, Day::MIN).expect("room");
            let loaded = Table::load(&table.image()).expect("an image that was written");
            for table in [&table, &loaded] {
                assert_eq!((table.order(), table.metric(), table.weights().each()), (order, metric, each));
                assert_eq!(table.nearest(&Profile::default(), 1, None).expect("room")[0].distance(), distance);
            }
        }
    }
}

#[test]
fn a_table_refuses() {
    let mut table = Table::new(Order::MIN, Metric::DifferingBits);
    let (tag, other) = (Tag::new(36, 1).expect("valid"), Tag::new(36, 2).expect("valid"));
    let profile = Profile::default();
    assert!(table.is_empty());
    assert_eq!(table.remove(tag), Err(Refusal::NotLive));
    assert_eq!(table.add(tag, &profile, Day::MAX).map(|added| (added.bucket, added.distances)), Ok((0, 0)));
    assert_eq!(table.add(tag, &profile, Day::MIN), Err(Refusal::AlreadyLive));
    assert_eq!(table.add(other, &profile, Day::MIN), Err(Refusal::Full));
    assert_eq!(table.look_up(other), Err(Refusal::NotLive));
    assert_eq!(table.nearest(&profile, 0, None).err(), Some(Refusal::NoCount));
    assert_eq!(table.nearest(&profile, u32::MAX, None).map(|hits| hits.len()), Ok(1));
    assert_eq!((table.len(), table.order(), table.metric()), (1, Order::MIN, Metric::DifferingBits));
    assert_eq!(table.weights(), Weights::ONE);
}

#[test]
fn images_refused() {
    let table = Table::new(Order::new(3).expect("valid"), Metric::SumOfDifferences);
    let refused = |change: &dyn Fn(&mut Vec<u8>)| {
        let mut image = table.image();
        change(&mut image);
        Table::load(&image).err().map(|refused| refused.refusal)
    };
    assert_eq!(refused(&|_| ()), None);
    assert_eq!(refused(&|image| image.clear()), Some(Refusal::BadLength));
    assert_eq!(refused(&|image| image.push(0)), Some(Refusal::BadLength));
    assert_eq!(refused(&|image| image[0] = 13), Some(Refusal::BadOrder));
    assert_eq!(refused(&|image| image[1] = 2), None);
    assert_eq!(refused(&|image| image[1] = 3), Some(Refusal::BadMetric));
    assert_eq!(refused(&|image| image[2] = 1), None);
    assert_eq!(refused(&|image| image[2] = 3), Some(Refusal::BadImage));
    assert_eq!(refused(&|image| image[3] = 1), Some(Refusal::BadImage));
    assert_eq!(refused(&|image| image.truncate(7)), Some(Refusal::BadLength));
    assert_eq!(refused(&|image| image[7] = 100), None);
    assert_eq!(refused(&|image| image[7] = 101), Some(Refusal::BadWeight));
    assert_eq!(refused(&|image| image[8] = 1), Some(Refusal::BadTable));
}

// The last two bytes of an image are the day of the last item.
#[test]
fn an_image_without_a_day_is_refused() {
    let mut table = Table::new(Order::MIN, Metric::SumOfDifferences);
    table.add(Tag::new(36, 1).expect("valid"), &Profile::default(), Day::MAX).expect("room");
    let mut image = table.image();
    assert_eq!((image.len(), image[60..].to_vec()), (62, vec![255, 255]));
    image[60..].fill(0);
    assert_eq!(Table::load(&image).err().map(|refused| refused.refusal), Some(Refusal::BadDay));
}

fn read(table: &mut Table, list: &str) -> Result<u32, String> {
    table.read_list(list.as_bytes(), Day::MIN).map(|read| read.added).map_err(|refused| refused.to_string())
}

#[test]
fn a_list_is_read() {
    let mut table = Table::new(Order::new(2).expect("valid"), Metric::SumOfDifferences);
    assert_eq!(read(&mut table, "tag;kg;hip;girth;gain\n"), Ok(0));
    let list = "tag;kg;hip;girth;gain\n036000000000001;0,10;0,00;0,00;0,00\n036000000000002;0,13;-0,07;1,00;10000,00\n";
    let day = Day::new(305).expect("not 0");
    assert_eq!(table.read_list(list.as_bytes(), day), Ok(ListRead { added: 2, distances: 1 }));
    let second = table.look_up(Tag::new(36, 2).expect("valid")).expect("live");
    assert_eq!((second.profile.measures(), second.profile.code()), ([13, -7, 100, 1_000_000], [0, 0]));
    assert_eq!(second.day, day);
}

#[test]
fn a_list_stops_at_a_line() {
    let order = Order::new(2).expect("valid");
    let first = "tag;kg;hip;girth;gain\n036000000000001;0,10;0,00;0,00;0,00\n036000000000002;0,13;0,00;0,00;0,00\n";
    let after = |line: &str| {
        let mut table = Table::new(order, Metric::SumOfDifferences);
        let refused =
            table.read_list((first.to_string() + line).as_bytes(), Day::MIN).expect_err("the line is refused");
        assert_eq!((refused.added, refused.distances, table.len()), (2, 1, 2));
        (refused.line, refused.refusal)
    };
    assert_eq!(after("036000000000003;0,1;0,00;0,00;0,00\n"), (4, Refusal::BadListLine));
    assert_eq!(after("036000000000003;0,10;0,00;0,00;0,00"), (4, Refusal::BadListLine));
    assert_eq!(after("000000000000003;0,10;0,00;0,00;0,00\n"), (4, Refusal::BadTag));
    assert_eq!(after("036000000000003;0,10;99999,99;0,00;0,00\n"), (4, Refusal::BadMeasure));
    assert_eq!(after("036000000000001;0,10;0,00;0,00;0,00\n"), (4, Refusal::AlreadyLive));

    let one = "036000000000001;0,10;0,00;0,00;0,00\n";
    let mut table = Table::new(Order::MIN, Metric::SumOfDifferences);
    let whole = "tag;kg;hip;girth;gain\n".to_string() + one + "036000000000002;0,13;0,00;0,00;0,00\n";
    let full = ListRefusal { line: 3, refusal: Refusal::Full, fault: None, added: 1, distances: 0 };
    assert_eq!(table.read_list(whole.as_bytes(), Day::MIN), Err(full));
    let unheaded = table.read_list(one.as_bytes(), Day::MIN);
    assert_eq!(unheaded.map_err(|refused| refused.refusal), Err(Refusal::BadListHeader));
    assert_eq!(table.len(), 1);
}

#[test]
fn a_refusal_says_what_was_wrong() {
    assert_eq!(Refusal::Full.to_string(), "the table holds as many items as its order allows");
    assert_eq!((Refusal::BadTag.number(), Refusal::BadTable.number(), Refusal::BadListLine.number()), (1, 24, 31));
    assert_eq!((Refusal::BadWeight.number(), Refusal::BadWeight.to_string().as_str()), (32, "a weight is above 100"));
    assert_eq!((Refusal::BadDay.number(), Refusal::BadDay.to_string().as_str()), (33, "the day is 0"));
}

// Of each kind: its own words, nothing dropped, and as source what these words do not say.
#[test]
fn one_error_for_all() {
    let mut table = Table::new(Order::MIN, Metric::SumOfDifferences);
    let point = b"tag;kg;hip;girth;gain\n036000000000101;412.50;129,00;185,00;0,95\n";
    let list = table.read_list(point, Day::MIN).expect_err("a point");
    let image = Table::load(&[13, 0, 2, 0]).expect_err("an order");
    let (tag, profile, day, _) = CHECKED;
    let item = Item { tag, profile, day };
    let extend = table.try_extend([item, item]).expect_err("twice");
    let text = "036".parse::<Tag>().expect_err("three digits");
    for (error, words, source) in [
        (Error::from(Refusal::Full), Refusal::Full.to_string(), None),
        (Error::from(text), "not a tag of 15 digits".to_string(), None),
        (Error::from(ParseError::from(Refusal::BadTag)), Refusal::BadTag.to_string(), None),
        (Error::from(list.clone()), list.to_string(), Some(Refusal::BadListLine)),
        (
            Error::from(image.clone()),
            "the order at byte 0 is 13, and the largest is 12".into(),
            Some(Refusal::BadOrder),
        ),
        (Error::from(extend), "036000000000101: the tag is in the table already (1 added before it)".into(), None),
    ] {
        assert_eq!(error.to_string(), words);
        assert_eq!(error.source().map(|source| source.to_string()), source.map(|refusal| refusal.to_string()));
        assert!(source.is_none() || error.refusal() == source);
    }
    assert_eq!(Error::from(text).refusal(), None);
    assert_eq!(Error::from(extend).refusal(), Some(Refusal::AlreadyLive));
    assert_eq!(Error::from(list.clone()), Error::List(list));
}

// Weighed again in a table of every fill, a full one too: what it was comes back, and only this item is another.
#[test]
fn an_item_is_replaced() {
    let item = |national: u64, kilos, day| Item {
        tag: Tag::new(36, national).expect("valid"),
        profile: Profile::new([kilos, 0, 0, 0], [national, 0]).expect("in range"),
        day: Day::new(day).expect("not 0"),
    };
    for items in 1..=8 {
        let first: Vec<Item> = (0..items).map(|national| item(national, 10 * national as i32, 7)).collect();
        let again: Vec<Item> = (0..items).map(|national| item(national, 500 - national as i32, 8)).collect();
        let mut table = Table::new(Order::new(3).expect("valid"), Metric::SumOfDifferences);
        assert_eq!(table.try_extend(first.iter().copied()), Ok(items as usize));
        for (done, (before, Item { tag, profile, day })) in first.iter().zip(&again).enumerate() {
            let mut apart = table.clone();
            let distances =
                apart.remove(*tag).expect("it is there") + apart.add(*tag, profile, *day).expect("room").distances;
            let replaced = table.replace(*tag, profile, *day).expect("it is there");
            assert_eq!((replaced.before, replaced.distances, table.image()), (*before, distances, apart.image()));
            assert_eq!(table.look_up(*tag).map(|found| found.bucket), Ok(replaced.bucket));
            let mut expected = Table::new(Order::MAX, Metric::SumOfDifferences);
            expected.try_extend(again[..=done].iter().chain(&first[done + 1..]).copied()).expect("room");
            assert!(table.same_items(&expected));
        }
        let other = Tag::new(36, items).expect("valid");
        let before = table.image();
        assert_eq!(table.replace(other, &Profile::default(), Day::MIN), Err(Refusal::NotLive));
        assert_eq!(table.image(), before);
    }
}

// It stops at the first item that is refused, for its tag or for room.
#[test]
fn an_extend_stops() {
    let item =
        |national| Item { tag: Tag::new(36, national).expect("valid"), profile: Profile::default(), day: Day::MIN };
    for (nationals, stops) in [
        (&[][..], None),
        (&[1, 2, 3, 4], None),
        (&[1, 2, 1, 3], Some((2, Refusal::AlreadyLive))),
        (&[1, 2, 3, 4, 5, 6], Some((4, Refusal::Full))),
    ] {
        let mut table = Table::new(Order::new(2).expect("valid"), Metric::DifferingBits);
        let done = table.try_extend(nationals.iter().map(|&national| item(national)));
        let refused = stops.map(|(added, refusal)| ExtendRefusal { item: item(nationals[added]), refusal, added });
        assert_eq!(done, refused.map_or(Ok(nationals.len()), Err));
        assert_eq!(table.len(), stops.map_or(nationals.len(), |(added, _)| added));
    }
}

// What makes two tables differ in what a search finds, and what does not.
#[test]
fn the_same_items() {
    let (tag, profile, day, order) = CHECKED;
    let item = Item { tag, profile, day };
    let other = Item { tag: Tag::new(36, 102).expect("valid"), ..item };
    let table = |order, metric, weights, items: &[Item]| {
        let mut table = Table::with_weights(order, metric, weights);
        table.try_extend(items.iter().copied()).expect("room");
        table
    };
    let (sum, ones) = (Metric::SumOfDifferences, Weights::ONE);
    let one = table(order, sum, ones, &[item, other]);
    assert!(one.same_items(&one) && one.same_items(&table(Order::MAX, sum, ones, &[other, item])));
    let mut emptied = table(order, sum, ones, &[item]);
    emptied.remove(tag).expect("there");
    assert!(emptied.same_items(&Table::new(Order::MIN, sum)));

    let zero = Profile::default();
    for unlike in [
        table(order, Metric::LargestDifference, ones, &[item, other]),
        table(order, sum, Weights::new([1, 1, 1, 2]).expect("in range"), &[item, other]),
        table(order, sum, ones, &[item]),
        table(order, sum, ones, &[item, Item { profile: zero, ..other }]),
        table(order, sum, ones, &[item, Item { day: Day::MAX, ..other }]),
        table(order, sum, ones, &[item, Item { tag: Tag::new(36, 103).expect("valid"), ..other }]),
    ] {
        assert!(!one.same_items(&unlike) && !unlike.same_items(&one));
    }
}

#[test]
fn names() {
    for number in [0, 9, 256, u32::MAX] {
        assert_eq!(Name::new(number), Err(Refusal::BadName));
    }
    assert!(Name::all().map(Name::get).eq(1..=8));
    assert!(Name::all().all(|name| Name::new(name.get()) == Ok(name)));
}

// Saved under two names and restored in either order, from states that were kept as bytes; and a snapshot that is too
// long leaves the one before.
#[test]
fn named_states() {
    let name = |number| Name::new(number).expect("a name");
    let (order, profile) = (Order::new(3).expect("valid"), Profile::default());
    let tag = |national| Tag::new(36, national).expect("valid");
    let mut table = Table::new(order, Metric::DifferingBits);
    let mut states = States::new(order);
    assert_eq!(states.saved().count(), 0);
    assert_eq!(Table::restore(&states, name(4)).err(), Some(Refusal::NotSaved.into()));
    assert_eq!(table.save(&mut states, name(1)), Ok(()));
    table.add(tag(1), &profile, Day::MIN).expect("room");
    table.add(tag(2), &profile, Day::MIN).expect("room");
    table.remove(tag(1)).expect("there");
    assert_eq!(table.save(&mut states, name(8)), Ok(()));
    assert!(states.saved().eq([name(1), name(8)]) && !states.is_saved(name(2)));

    let kept: Vec<u8> = states.into();
    let mut states = States::from(kept);
    let restored = Table::restore(&states, name(8)).expect("saved");
    assert_eq!((restored.image(), restored.len()), (table.image(), 1));
    assert!(Table::restore(&states, name(1)).expect("saved").is_empty());

    let mut full = Table::new(Order::new(5).expect("valid"), Metric::SumOfDifferences);
    for national in 0..32 {
        full.add(tag(national), &profile, Day::MIN).expect("room");
    }
    assert_eq!(full.save(&mut states, name(1)), Err(Refusal::NoRoom));
    assert!(Table::restore(&states, name(1)).expect("still saved").is_empty());
}

// Bytes that are not as a save leaves them.
#[test]
fn states_refused() {
    let name = Name::new(2).expect("a name");
    let refused = |bytes: &[u8]| {
        let restored = Table::restore(&States::from(bytes.to_vec()), name);
        restored.err().map(|refused| refused.refusal)
    };
    assert_eq!(refused(&[]), Some(Refusal::NotSaved));
    assert_eq!(refused(&[255; 31]), Some(Refusal::NotSaved));
    assert_eq!(refused(&[255; 32]), Some(Refusal::BadLength));
    let mut states = States::new(Order::MIN);
    Table::new(Order::MIN, Metric::DifferingBits).save(&mut states, name).expect("room");
    let damaged = |at: usize, byte: u8| {
        let mut bytes = states.as_bytes().to_vec();
        let start = bytes.len() / 8;
        bytes[start + at] = byte;
        refused(&bytes)
    };
    assert_eq!(damaged(1, 0), None);
    assert_eq!(damaged(0, 1), Some(Refusal::BadLength));
    assert_eq!(damaged(3, 1), Some(Refusal::BadLength));
    assert_eq!(damaged(4, 13), Some(Refusal::BadOrder));
    assert_eq!(damaged(5, 3), Some(Refusal::BadMetric));
}

// A batch gives each query what its range gives; no query and more than 16 are refused.
#[test]
fn batches() {
    let mut table = Table::new(Order::new(5).expect("in range"), Metric::SumOfDifferences);
    let profile = |first: i32| Profile::new([first, -first, 0, 7], [first as u64, u64::MAX]).expect("in range");
    for national in 0..20 {
        let day = Day::new(1 + national as u16).expect("not 0");
        table.add(Tag::new(36, national).expect("valid"), &profile(national as i32 * 3 - 30), day).expect("room");
    }
    let query = |n: i32| {
        let first_day = (n % 3 != 0).then(|| Day::new(n as u16).expect("not 0"));
        RangeQuery { profile: profile(5 * n - 40), radius: 4 * n as u32, first_day }
    };
    let queries: Vec<RangeQuery> = (0..16).map(query).collect();
    for n in [1, 2, 15, 16] {
        let batch = table.range_batch(&queries[..n]).expect("1 to 16 queries");
        assert_eq!(batch.len(), n);
        let mut distances = 0;
        for (list, query) in batch.iter().zip(&queries) {
            let hits = table.range(&query.profile, query.radius, query.first_day);
            assert_eq!(list[..], hits[..]);
            distances += hits.distances();
        }
        assert!(batch.distances() <= distances && (n > 1 || batch.distances() == distances));
    }
    assert_eq!(table.range_batch(&[]).err(), Some(Refusal::BadBatch));
    assert_eq!(table.range_batch(&[queries[0]; 17]).err(), Some(Refusal::BadBatch));
}
