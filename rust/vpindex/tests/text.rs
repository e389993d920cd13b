//! What a value writes it reads back, and nothing else is read.

use std::fmt::{Debug, Display};
use std::str::FromStr;

use vpindex::{Day, Item, Metric, Name, Order, ParseError, Profile, Refusal, Tag, Weights};

fn reads_back<T: Display + FromStr<Err = ParseError> + PartialEq + Debug>(value: T, text: &str) {
    assert_eq!(value.to_string(), text);
    assert_eq!(text.parse::<T>(), Ok(value));
    assert_eq!(format!("{:>60}", text.parse::<T>().expect("read before")), format!("{text:>60}"));
}

// Each is near to a text that is read.
fn are_no<T: FromStr<Err = ParseError> + Debug>(texts: &[&str]) {
    for text in texts {
        let refused = text.parse::<T>().expect_err(text);
        assert!(matches!(refused, ParseError::Form(_)) && refused.to_string().starts_with("not "), "{text}: {refused}");
    }
}

fn refused<T: FromStr<Err = ParseError> + PartialEq + Debug>(text: &str, refusal: Refusal) {
    assert_eq!(text.parse::<T>(), Err(ParseError::Refused(refusal)));
    assert_eq!(ParseError::Refused(refusal).to_string(), refusal.to_string());
}

#[test]
fn tags() {
    reads_back(Tag::new(1, 0).expect("valid"), "001000000000000");
    reads_back(Tag::new(36, 101).expect("valid"), "036000000000101");
    reads_back(Tag::new(999, 274_877_906_943).expect("valid"), "999274877906943");
    are_no::<Tag>(&["", "36000000000101", "0036000000000101", "+36000000000101", " 36000000000101", "03600000000010a"]);
    refused::<Tag>("000000000000101", Refusal::BadTag);
    refused::<Tag>("036274877906944", Refusal::BadTag);
    assert_eq!("x".parse::<Tag>().map_err(|error| error.to_string()), Err("not a tag of 15 digits".to_string()));
    assert_eq!(format!("{:?}", Tag::new(36, 101)), "Ok(Tag(036000000000101))");
}

#[test]
fn profiles() {
    let profile = |measures, code| Profile::new(measures, code).expect("in range");
    reads_back(Profile::default(), "0.00 0.00 0.00 0.00 -");
    reads_back(profile([41_250, 12_900, 18_500, -95], [0, 0]), "412.50 129.00 185.00 -0.95 -");
    reads_back(
        profile([1_000_000, -1_000_000, 5, -1], [1, u64::MAX - 1]),
        "10000.00 -10000.00 0.05 -0.01 0000000000000001fffffffffffffffe",
    );
    reads_back(profile([0; 4], [0, 1]), "0.00 0.00 0.00 0.00 00000000000000000000000000000001");
    for field in ["", "-", "1", "1.0", "1.000", "1,00", ".50", "+1.00", "--1.00", "1.0a", "100000.00", " 1.00", "1.-1"]
    {
        for at in 0..4 {
            let mut fields = ["1.00", "2.00", "3.00", "4.00", "-"];
            fields[at] = field;
            are_no::<Profile>(&[&fields.join(" ")]);
        }
    }
    for code in ["", "--", "0", "0000000000000001FFFFFFFFFFFFFFFE", "+000000000000001fffffffffffffffe", "- "] {
        are_no::<Profile>(&[&format!("1.00 2.00 3.00 4.00 {code}")]);
    }
    are_no::<Profile>(&["1.00 2.00 3.00 4.00", "1.00 2.00 3.00 4.00 - 5", "1.00  2.00 3.00 4.00 -"]);
    refused::<Profile>("0.00 0.00 0.00 10000.01 -", Refusal::BadMeasure);
    refused::<Profile>("-10000.01 0.00 0.00 0.00 -", Refusal::BadMeasure);
}

#[test]
fn items() {
    let tag = Tag::new(36, 101).expect("valid");
    let profile = Profile::new([41_250, 12_900, 18_500, -95], [0, 0]).expect("in range");
    let item = Item { tag, profile, day: Day::new(305).expect("not 0") };
    reads_back(item, "036000000000101 412.50 129.00 185.00 -0.95 - 305");
    let coded = Profile::new([0; 4], [1, 2]).expect("in range");
    reads_back(
        Item { profile: coded, ..item },
        "036000000000101 0.00 0.00 0.00 0.00 00000000000000010000000000000002 305",
    );
    are_no::<Item>(&[
        "",
        "036000000000101",
        "036000000000101 305",
        "036000000000101 412.50 129.00 185.00 -0.95 -",
        "036000000000101 412.50 129.00 185.00 -0.95 - 305 ",
        "036000000000101  412.50 129.00 185.00 -0.95 - 305",
        "36000000000101 412.50 129.00 185.00 -0.95 - 305",
    ]);
    refused::<Item>("036000000000101 412.50 129.00 185.00 -0.95 - 0", Refusal::BadDay);
    refused::<Item>("036000000000101 412.50 129.00 185.00 10000.01 - 1", Refusal::BadMeasure);
    refused::<Item>("000000000000101 412.50 129.00 185.00 -0.95 - 1", Refusal::BadTag);
}

#[test]
fn weights() {
    reads_back(Weights::ONE, "1,1,1,1");
    reads_back(Weights::new([10, 1, 100, 0]).expect("in range"), "10,1,100,0");
    are_no::<Weights>(&[
        "",
        "1",
        "1,1,1",
        "1,1,1,1,1",
        "1, 1,1,1",
        "1,1,1,",
        "1,-1,1,1",
        "1;1;1;1",
        "1,1,1,4294967296",
    ]);
    refused::<Weights>("1,1,101,1", Refusal::BadWeight);
    assert_eq!(Weights::try_from([1, 2, 3, 4]).map(<[u32; 4]>::from), Ok([1, 2, 3, 4]));
    assert_eq!(Weights::try_from([1, 2, 3, 101]), Err(Refusal::BadWeight));
}

#[test]
fn metrics() {
    let names = ["sum-of-differences", "differing-bits", "largest-difference"];
    for ((number, metric), name) in Metric::ALL.into_iter().enumerate().zip(names) {
        reads_back(metric, name);
        assert_eq!(number.to_string().parse(), Ok(metric));
        assert_eq!(u32::from(metric), number as u32);
    }
    are_no::<Metric>(&["", "sum", "SumOfDifferences", "-1", "+0", "0 "]);
    refused::<Metric>("3", Refusal::BadMetric);
}

#[test]
fn numbers() {
    for number in 0..=12 {
        reads_back(Order::new(number).expect("in range"), &number.to_string());
        assert_eq!(Order::try_from(number).map(u32::from), Ok(number));
    }
    are_no::<Order>(&["", "+1", "-1", "1.0", " 1", "4294967296"]);
    refused::<Order>("13", Refusal::BadOrder);
    for number in [1, 2, 365, 65_535] {
        reads_back(Day::new(number).expect("not 0"), &number.to_string());
        assert_eq!(Day::try_from(number).map(u16::from), Ok(number));
    }
    are_no::<Day>(&["", "one", "+1", "65536"]);
    refused::<Day>("0", Refusal::BadDay);
    for name in Name::all() {
        reads_back(name, &name.get().to_string());
        assert_eq!(Name::try_from(name.get()).map(u32::from), Ok(name.get()));
    }
    are_no::<Name>(&["", "a", "-1"]);
    refused::<Name>("9", Refusal::BadName);
}
