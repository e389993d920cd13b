//! Herd lists as a scale head writes them.

use crate::item::Profile;
use crate::refusal::{BAD_LIST_HEADER, BAD_LIST_LINE, Refused};

/// The header line, its line feed with it.
pub const HEADER: &[u8] = b"tag;kg;hip;girth;gain\n";

/// What a reading came to.
#[derive(Clone, Copy, Debug, Default, PartialEq, Eq)]
pub struct ListRead {
    /// Of the line that was refused; 0 if none was.
    pub refusal: Refused,
    /// Its number, the header being line 1; 0 if none was refused.
    pub line: u32,
    /// How many lines before it were added.
    pub added: u32,
    /// The sum of what their adds worked out.
    pub distances: u32,
}

/// Reads a list. Each line is an add, which gives its distances; the first line refused ends the reading.
pub fn read(list: &[u8], mut add: impl FnMut(u64, Profile) -> Result<u32, Refused>) -> ListRead {
    let mut read = ListRead::default();
    let Some(lines) = list.strip_prefix(HEADER) else {
        return ListRead { refusal: BAD_LIST_HEADER, line: 1, ..read };
    };
    for (number, line) in (2..).zip(lines.split_inclusive(|byte| *byte == b'\n')) {
        match item(line).ok_or(BAD_LIST_LINE).and_then(|(tag, profile)| add(tag, profile)) {
            Ok(distances) => (read.added, read.distances) = (read.added + 1, read.distances + distances),
            Err(refusal) => return ListRead { refusal, line: number, ..read },
        }
    }
    read
}

/// Tag and profile of a line, its line feed with it; none if it is not of the form.
pub fn item(line: &[u8]) -> Option<(u64, Profile)> {
    let text = std::str::from_utf8(line.strip_suffix(b"\n")?).ok()?;
    let fields: Vec<&str> = text.split(';').collect();
    let &[tag, kg, hip, girth, gain] = &fields[..] else { return None };
    let tag = digits(tag, 15..=15)?;
    let measures = [value(kg)?, value(hip)?, value(girth)?, value(gain)?];
    Some((tag, Profile { measures, code: [0; 2] }))
}

// 1 to 5 digits, a comma, two digits; one minus before them covers them all
fn value(field: &str) -> Option<i32> {
    let (sign, size) = field.strip_prefix('-').map_or((1, field), |size| (-1, size));
    let (whole, hundredths) = size.split_once(',')?;
    let hundreds = 100 * digits(whole, 1..=5)?;
    Some(sign * (hundreds + digits(hundredths, 2..=2)?) as i32)
}

// a number of so many digits
fn digits(text: &str, count: std::ops::RangeInclusive<usize>) -> Option<u64> {
    let is_number = count.contains(&text.len()) && text.bytes().all(|byte| byte.is_ascii_digit());
    is_number.then(|| text.parse().expect("at most 15 digits"))
}

#[cfg(test)]
mod tests {
    use super::*;

    const TAIL: &str = ";0,00;0,00;0,00";

    fn first(value: &str) -> Option<i32> {
        item(format!("036000000000001;{value}{TAIL}\n").as_bytes()).map(|(_, profile)| profile.measures[0])
    }

    #[test]
    fn values() {
        let valid = [("0,05", 5), ("-0,05", -5), ("-12,34", -1234), ("412,50", 41_250), ("00000,00", 0), ("-0,00", 0)];
        let wide = [("00007,10", 710), ("10000,00", 1_000_000), ("99999,99", 9_999_999), ("-99999,99", -9_999_999)];
        for (text, hundredths) in valid.into_iter().chain(wide) {
            assert_eq!(first(text), Some(hundredths), "{text}");
        }
        let signs = ["+1,00", "--1,00", "-,50", "-", "- 1,00", "1,-05", "1-,05", "-1,-05"];
        let digits = ["100000,00", "1,0", "1,000", ",50", "1,", "1", "", ",", "1,00,", "1,,00", "1,0,0", "0x1,00"];
        let others = ["1.00", "1,0 ", " 1,00", "1 000,00", "1,00\r", "1\t,00", "1;00", "1,0\u{661}"];
        for text in signs.into_iter().chain(digits).chain(others) {
            assert_eq!(first(text), None, "{text}");
        }
    }

    #[test]
    fn lines() {
        let whole = b"036000000000101;412,50;129,00;-185,00;0,95\n";
        let profile = Profile { measures: [41_250, 12_900, -18_500, 95], code: [0, 0] };
        assert_eq!(item(whole), Some((36_000_000_000_101, profile)));
        for cut in 0..whole.len() {
            assert_eq!(item(&whole[..cut]), None);
        }
        let tags = ["03600000000101", "0360000000000101", "03600000000010a", "-36000000000101", "+36000000000101", ""];
        for tag in tags {
            assert_eq!(item(format!("{tag};0,00{TAIL}\n").as_bytes()), None, "{tag}");
        }
        let tag = "036000000000101";
        for parts in [";;0,00", "0,00", ";", ";0,00;", ";0,00;0,00", ";0,00;;", "", "\u{0};0,00", ";0,00\u{0}"] {
            assert_eq!(item(format!("{tag}{parts}{TAIL}\n").as_bytes()), None, "{parts}");
        }
        assert_eq!(item(b"\n"), None);
        assert_eq!(item(b"\xff36000000000101;0,00;0,00;0,00;0,00\n"), None);
    }

    // an add that has room for two, by tag, and gives 10 distances
    fn with_room_for_two(text: &str) -> (ListRead, Vec<u64>) {
        let mut tags = vec![];
        let read = read(text.as_bytes(), |tag, _| {
            if tags.len() == 2 {
                return Err(22);
            }
            tags.push(tag);
            Ok(10)
        });
        (read, tags)
    }

    #[test]
    fn readings() {
        let header = "tag;kg;hip;girth;gain\n";
        let line = |tag: u64| format!("{tag:015};0,00{TAIL}\n");
        let reply = |refusal, line, added| ListRead { refusal, line, added, distances: 10 * added };
        let differs =
            ["tag;kg;hip;girth;gain", "tag;kg;hip;girth;gain\r\n", "Tag;kg;hip;girth;gain\n", "", "\n", &line(1)];
        for text in differs {
            assert_eq!(with_room_for_two(text), (reply(30, 1, 0), vec![]), "{text}");
        }
        let of = |lines: &[String]| with_room_for_two(&(header.to_string() + &lines.concat()));
        assert_eq!(of(&[]), (reply(0, 0, 0), vec![]));
        assert_eq!(of(&[line(1), line(2)]), (reply(0, 0, 2), vec![1, 2]));
        assert_eq!(of(&[line(1), line(2), line(3)]), (reply(22, 4, 2), vec![1, 2]));
        assert_eq!(of(&[line(1), line(2), "\n".into()]), (reply(31, 4, 2), vec![1, 2]));
        assert_eq!(of(&[line(1), "?".into(), line(2)]), (reply(31, 3, 1), vec![1]));
        assert_eq!(of(&[line(1), line(2).trim_end().into()]), (reply(31, 3, 1), vec![1]));
        assert_eq!(of(&["\n".into(), line(1)]), (reply(31, 2, 0), vec![]));
    }
}
