//! The image that docs/FORMAT.md shows byte by byte.

use vpindex::{Day, Metric, Order, Profile, Refusal, Table, Tag};

const PAGE: &str = include_str!("../../../docs/FORMAT.md");

// The bytes of the page's one block of text; each line begins with its place.
fn shown() -> Vec<u8> {
    let block = PAGE.split("```text\n").nth(1).expect("a block").split("```").next().expect("its end");
    let mut bytes = Vec::new();
    for line in block.lines() {
        let mut parts = line.split("  ");
        let place = usize::from_str_radix(parts.next().expect("a place"), 16).expect("a place");
        assert_eq!(place, bytes.len(), "{line}");
        let pairs = parts.next().expect("bytes").split(' ');
        bytes.extend(pairs.map(|pair| u8::from_str_radix(pair, 16).expect("a byte")));
    }
    bytes
}

fn made() -> Result<Table, Refusal> {
    let mut table = Table::new(Order::new(1)?, Metric::SumOfDifferences);
    table.add(Tag::new(36, 1)?, &Profile::new([10, 0, 0, -5], [15, 0])?, Day::new(212)?)?;
    table.add(Tag::new(36, 2)?, &Profile::new([13, 0, 0, -5], [0, 0])?, Day::new(305)?)?;
    table.remove(Tag::new(36, 2)?)?;
    Ok(table)
}

#[test]
fn the_image_shown_is_written() {
    assert_eq!(made().expect("sound").image(), shown());
}

#[test]
fn the_image_shown_loads_and_is_written_again() {
    let table = Table::load(&shown()).expect("it loads");
    assert_eq!(table.image(), shown());
    let found = table.look_up(Tag::new(36, 1).expect("a tag")).expect("it is live");
    assert_eq!((found.bucket, found.day), (1, Day::new(212).expect("a day")));
}
