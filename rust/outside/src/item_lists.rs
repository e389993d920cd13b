//! Herd lists to read: valid ones, and such as have a line that is refused or are no list at all.

use reference::list::HEADER;

use crate::random::{MAX_MEASURE, Random};
use crate::sound;

/// A line of a list, of the form if the tag has at most 15 digits and each measure at most 5 before its comma.
pub fn line(tag: u64, measures: [i32; 4]) -> String {
    format!("{tag:015};{}\n", measures.map(value).join(";"))
}

fn value(hundredths: i32) -> String {
    let size = hundredths.unsigned_abs();
    format!("{}{},{:02}", if hundredths < 0 { "-" } else { "" }, size / 100, size % 100)
}

/// A list of these lines.
pub fn of<'a>(lines: impl IntoIterator<Item = &'a String>) -> Vec<u8> {
    let mut list = HEADER.to_vec();
    lines.into_iter().for_each(|line| list.extend(line.as_bytes()));
    list
}

/// Fields that are no value.
pub const NO_VALUES: [&str; 24] = [
    "",
    "-",
    ",",
    "1",
    "1,",
    "1,0",
    "1,000",
    ",50",
    "-,50",
    "--1,00",
    "+1,00",
    "1.00",
    "1,00,",
    "1,,00",
    "1;00",
    "-1,-5",
    " 1,00",
    "1,00 ",
    "1,00\r",
    "\t1,00",
    "100000,00",
    "-000000,00",
    "1,0a",
    "\u{b9},00",
];

/// Fields that are no tag.
pub const NO_TAGS: [&str; 8] = [
    "",
    "36",
    "36000000000101",
    "0360000000000101",
    "-36000000000101",
    "+36000000000101",
    " 36000000000101",
    "03600000000010a",
];

/// A list of at most so many lines for a table of this order: most of its lines are valid, and most of the lists whole.
pub fn list(random: &mut Random, order: u32, most: usize) -> Vec<u8> {
    let count = random.below(most + 1);
    let lines = random.fill(count, |random| a_line(random, order));
    let list = of(&lines);
    match random.below(12) {
        0 => damaged(random, list),
        1 => bytes(random, list),
        _ => list,
    }
}

// Now and then a tag or a measure at an end of its range, or a line not of the form.
fn a_line(random: &mut Random, order: u32) -> String {
    let pool = sound::pool(order);
    let (tag, mut measures) = (random.tag(pool), random.profile().measures);
    match random.below(40) {
        0 | 1 => line(random.edge_tag(), measures),
        2 => {
            measures[random.below(4)] = random.pick(&[MAX_MEASURE + 1, -MAX_MEASURE - 1, 9_999_999, 10_000_000]);
            line(tag, measures)
        }
        3 => malformed(random, &line(tag, measures)),
        _ => line(tag, measures),
    }
}

// One field that is none, or one too many or too few.
fn malformed(random: &mut Random, line: &str) -> String {
    let mut fields: Vec<&str> = line.trim_end().split(';').collect();
    let at = random.below(fields.len());
    match random.below(6) {
        0 => drop(fields.remove(at)),
        1 => fields.insert(at, ""),
        2 => fields.push("0,00"),
        _ if at == 0 => fields[0] = random.pick(&NO_TAGS),
        _ => fields[at] = random.pick(&NO_VALUES),
    }
    fields.join(";") + "\n"
}

/// A list with a byte or a few altered, put in or taken out, or cut.
pub fn damaged(random: &mut Random, mut list: Vec<u8>) -> Vec<u8> {
    for _ in 0..random.pick(&[1, 1, 1, 2, 5]) {
        let at = random.below(list.len());
        match random.below(4) {
            _ if list.is_empty() => (),
            0 => list[at] = byte(random),
            1 => list.insert(at, byte(random)),
            2 => drop(list.remove(at)),
            _ => list.truncate(at),
        }
    }
    list
}

// The header, or a part of it, and bytes that are hardly a line.
fn bytes(random: &mut Random, mut list: Vec<u8>) -> Vec<u8> {
    let kept = if random.one_in(3) { random.below(HEADER.len()) } else { HEADER.len() };
    list.truncate(kept);
    let count = random.below(80);
    list.extend(random.fill(count, byte));
    list
}

/// A byte, most often one that a list has.
pub fn byte(random: &mut Random) -> u8 {
    if random.one_in(4) { random.word() as u8 } else { random.pick(b"0123456789;;,,--+. \t\r\n\n\0") }
}
