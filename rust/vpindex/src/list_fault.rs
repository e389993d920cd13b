//! What is wrong with a refused line of a herd list. The archive says which line and why in a number; here its text is
//! looked at once more, to say it in words.

use alloc::format;
use alloc::string::{String, ToString};

use crate::{Profile, Refusal};

const HEADER: &str = "tag;kg;hip;girth;gain";
const FIELDS: usize = 5;
const BYTE_ORDER_MARKS: [&[u8]; 3] = [b"\xEF\xBB\xBF", b"\xFF\xFE", b"\xFE\xFF"];

/// What is wrong with a line of a herd list.
#[derive(Clone, Debug, PartialEq, Eq, Hash)]
#[non_exhaustive]
pub enum ListFault {
    /// A byte order mark stands before the header.
    ByteOrderMark,
    /// This stands where the header belongs; it is cut where it is long.
    OtherHeader(String),
    /// The line ends in a carriage return.
    CarriageReturn,
    /// The last line has no line feed.
    NoLineFeed,
    /// There is nothing in the line.
    EmptyLine,
    /// The line has so many fields, not five.
    FieldCount(usize),
    /// One field is wrong.
    Field {
        /// Its number, the tag being field 1.
        field: u32,
        /// What stands in it; it is cut where it is long.
        text: String,
        /// What is wrong with that: for one, `has a point where a comma belongs`.
        words: String,
    },
}

use ListFault::*;

impl ListFault {
    // Of the line that was refused so, counted from 1; none where its text does not show why.
    pub(crate) fn of(list: &[u8], line: u32, refusal: Refusal) -> Option<ListFault> {
        let at = line.checked_sub(1)? as usize;
        let whole = list.split_inclusive(|&byte| byte == b'\n').nth(at).unwrap_or_default();
        let text = whole.strip_suffix(b"\n");
        match refusal {
            Refusal::BadListHeader => Some(header_fault(whole, text)),
            Refusal::BadListLine => line_fault(whole, text),
            Refusal::BadTag => field_fault(text?, 0, country_or_national),
            Refusal::BadMeasure => (1..FIELDS).find_map(|at| field_fault(text?, at, past_range)),
            Refusal::AlreadyLive => field_fault(text?, 0, |_| Some("is in the table already".to_string())),
            _ => None,
        }
    }

    // A sentence that names the line.
    pub(crate) fn told(&self, line: u32) -> String {
        match self {
            ByteOrderMark => format!("line {line}: a byte order mark stands before the header"),
            OtherHeader(text) if text.is_empty() => format!("line {line}: nothing stands where `{HEADER}` belongs"),
            OtherHeader(text) => format!("line {line}: `{text}` stands where `{HEADER}` belongs"),
            CarriageReturn => format!("line {line} ends in a carriage return"),
            NoLineFeed => format!("line {line}: the last line has no line feed"),
            EmptyLine => format!("line {line} is empty"),
            FieldCount(1) => format!("line {line} has 1 field, and {FIELDS} belong there"),
            FieldCount(count) => format!("line {line} has {count} fields, and {FIELDS} belong there"),
            Field { field, text, .. } if text.is_empty() => format!("line {line}, field {field} is empty"),
            Field { field, text, words } => format!("line {line}, field {field}: `{text}` {words}"),
        }
    }
}

fn header_fault(whole: &[u8], text: Option<&[u8]>) -> ListFault {
    if BYTE_ORDER_MARKS.iter().any(|mark| whole.starts_with(mark)) {
        return ByteOrderMark;
    }
    match whole.strip_prefix(HEADER.as_bytes()) {
        Some([b'\r', ..]) => CarriageReturn,
        Some([]) => NoLineFeed,
        _ => OtherHeader(shown(text.unwrap_or(whole))),
    }
}

fn line_fault(whole: &[u8], text: Option<&[u8]>) -> Option<ListFault> {
    if text.unwrap_or(whole).ends_with(b"\r") {
        return Some(CarriageReturn);
    }
    let Some(text) = text else { return Some(NoLineFeed) };
    let count = fields(text).count();
    match (text, count) {
        ([], _) => Some(EmptyLine),
        (_, FIELDS) => {
            field_fault(text, 0, no_tag).or_else(|| (1..FIELDS).find_map(|at| field_fault(text, at, no_value)))
        }
        _ => Some(FieldCount(count)),
    }
}

fn fields(line: &[u8]) -> impl Iterator<Item = &[u8]> {
    line.split(|&byte| byte == b';')
}

fn field_fault(line: &[u8], at: usize, wrong: impl Fn(&[u8]) -> Option<String>) -> Option<ListFault> {
    let text = fields(line).nth(at)?;
    Some(Field { field: at as u32 + 1, text: shown(text), words: wrong(text)? })
}

// None of 15 digits.
fn no_tag(text: &[u8]) -> Option<String> {
    match (text.iter().find(|byte| !byte.is_ascii_digit()), text.len()) {
        (Some(&byte), _) => Some(stray(byte)),
        (None, 15) => None,
        (None, 1) => Some("has 1 digit, and a tag has 15".to_string()),
        (None, count) => Some(format!("has {count} digits, and a tag has 15")),
    }
}

// None of a minus or none, 1 to 5 digits, a comma and 2 digits.
fn no_value(text: &[u8]) -> Option<String> {
    let digits = text.strip_prefix(b"-").unwrap_or(text);
    let units = digits.iter().take_while(|byte| byte.is_ascii_digit()).count();
    let behind = match digits.get(units) {
        None if units == 0 => return Some("has no digits".to_string()),
        None => return Some("has no comma with 2 digits after it".to_string()),
        Some(b'.') => return Some("has a point where a comma belongs".to_string()),
        Some(b',') => &digits[units + 1..],
        Some(&byte) => return Some(stray(byte)),
    };
    match (behind.iter().find(|byte| !byte.is_ascii_digit()), units, behind.len()) {
        (Some(&byte), ..) => Some(stray(byte)),
        (None, 0, _) => Some("has no digit before its comma".to_string()),
        (None, 1..=5, 2) => None,
        (None, 1..=5, 1) => Some("has 1 digit after its comma, and 2 belong there".to_string()),
        (None, 1..=5, count) => Some(format!("has {count} digits after its comma, and 2 belong there")),
        (None, count, _) => Some(format!("has {count} digits before its comma, and at most 5 belong there")),
    }
}

fn stray(byte: u8) -> String {
    let what = match byte {
        b' ' => "a space".to_string(),
        b'\t' => "a tab".to_string(),
        b'\r' => "a carriage return".to_string(),
        b'!'..=b'~' => format!("`{}`", byte as char),
        _ => format!("the byte {byte:#04x}"),
    };
    format!("has {what}, which does not belong there")
}

// of a tag of 15 digits
fn country_or_national(text: &[u8]) -> Option<String> {
    let words = if text.starts_with(b"000") { "has country 000" } else { "has a national number above 274877906943" };
    Some(words.to_string())
}

// of a value that is of the form
fn past_range(text: &[u8]) -> Option<String> {
    let digits = text.iter().filter(|byte| byte.is_ascii_digit());
    let size = digits.fold(0, |size, digit| 10 * size + (digit - b'0') as i32);
    let words = if text.starts_with(b"-") { "is below -10000,00" } else { "is above 10000,00" };
    (size > Profile::MAX_MEASURE).then(|| words.to_string())
}

// So much of a text is shown, and nothing that a terminal would act on.
const SHOWN: usize = 40;

fn shown(text: &[u8]) -> String {
    let whole = String::from_utf8_lossy(text);
    let mut shown = String::new();
    for char in whole.chars().take(SHOWN) {
        match char {
            '"' | '\'' | '\\' => shown.push(char),
            _ => shown.extend(char.escape_debug()),
        }
    }
    if whole.chars().nth(SHOWN).is_some() {
        shown.push('…');
    }
    shown
}
