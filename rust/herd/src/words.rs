//! Values as this program's words, typed, printed and in JSON.

use std::fmt::Display;
use std::str::FromStr;

use vpindex::{Metric, Profile, Refusal, Table, Tag};

use crate::args::misuse;
use crate::json::{Json, list, number, object, text};
use crate::report::Failure;

/// The four measures, as a scale head's list names them.
pub const MEASURES: [&str; 4] = ["kg", "hip", "girth", "gain"];
// The fields of a profile.
const FIELDS: [&str; 5] = ["kg", "hip", "girth", "gain", "the coat code"];

const METRICS: [(Metric, &str, &str); 3] = [
    (Metric::SumOfDifferences, "sum", "the weighted differences of the four measures added up, in hundredths"),
    (Metric::DifferingBits, "bits", "the number of bits in which the coat codes differ"),
    (Metric::LargestDifference, "worst", "the largest of the weighted differences of the four measures, in hundredths"),
];

/// A metric's word, and what it is.
pub fn metric(metric: Metric) -> (&'static str, &'static str) {
    let known = METRICS.iter().find(|(known, ..)| *known == metric);
    known.map_or(("unknown", ""), |&(_, word, meaning)| (word, meaning))
}

/// A metric that was typed as its word.
pub struct MetricWord(pub Metric);

impl FromStr for MetricWord {
    type Err = &'static str;

    fn from_str(typed: &str) -> Result<MetricWord, &'static str> {
        let known = METRICS.iter().find(|(_, word, _)| *word == typed);
        known.map(|&(metric, ..)| MetricWord(metric)).ok_or("not sum, bits or worst")
    }
}

fn is_digits(text: &str) -> bool {
    !text.is_empty() && text.bytes().all(|byte| byte.is_ascii_digit())
}

/// A number that was typed: digits alone.
pub struct Whole(pub u32);

impl FromStr for Whole {
    type Err = &'static str;

    fn from_str(typed: &str) -> Result<Whole, &'static str> {
        let read = if is_digits(typed) { typed.parse().ok() } else { None };
        read.map(Whole).ok_or("not a whole number of 0 to 4294967295")
    }
}

/// A radius that was typed: a whole number of hundredths or of bits, or with a point one of units.
#[derive(Clone, Copy, Debug, PartialEq)]
pub struct Radius {
    number: u32,
    is_in_units: bool,
}

impl FromStr for Radius {
    type Err = &'static str;

    fn from_str(typed: &str) -> Result<Radius, &'static str> {
        let (digits, is_in_units) = match typed.split_once('.') {
            Some((units, rest)) if is_digits(units) && rest.len() == 2 => (format!("{units}{rest}"), true),
            _ => (typed.to_string(), false),
        };
        let Whole(number) = digits.parse().map_err(
            |_| "not a whole number of 0 to 4294967295, nor one of units with two digits after a point, such as 10.00",
        )?;
        Ok(Radius { number, is_in_units })
    }
}

impl Radius {
    /// As the calls take it.
    pub fn by(self, metric: Metric) -> Result<u32, Failure> {
        if self.is_in_units && metric == Metric::DifferingBits {
            return misuse(
                "a radius with a point is in units of measures, and by the metric bits it is a number of bits",
            );
        }
        Ok(self.number)
    }
}

/// A profile's four measures and its code, each as text.
pub fn profile(profile: &Profile) -> [String; 5] {
    let written = profile.to_string();
    let mut fields = written.split(' ').map(str::to_string);
    std::array::from_fn(|_| fields.next().unwrap_or_default())
}

/// A profile from its words, or which of them is wrong and why.
pub fn read_profile(words: &[&str]) -> Result<Profile, String> {
    if words.len() != FIELDS.len() {
        let count = counted(words.len(), "word is", "words are");
        return Err(format!("{count} there, and five belong there: kg, hip, girth, gain and the coat code or -"));
    }
    let faults = words.iter().enumerate().map(|(at, word)| if at < 4 { measure_fault(word) } else { code_fault(word) });
    match FIELDS.iter().zip(words).zip(faults).find_map(|((field, word), fault)| Some((field, word, fault?))) {
        Some((field, word, fault)) => Err(format!("{field} `{word}` {fault}")),
        None => words.join(" ").parse().map_err(of_herd),
    }
}

/// What is wrong with a measure, which is a minus or none, 1 to 5 digits, a point and 2 digits, up to 10000.00.
pub fn measure_fault(text: &str) -> Option<String> {
    let size = text.strip_prefix('-').unwrap_or(text);
    let Some((units, rest)) = size.split_once('.') else {
        let words = if size.contains(',') {
            "has a comma where a point belongs"
        } else {
            "has no point with 2 digits after it"
        };
        return Some(words.to_string());
    };
    if let Some(stray) = units.chars().chain(rest.chars()).find(|char| !char.is_ascii_digit()) {
        return Some(format!("has `{}`, which does not belong there", stray.escape_debug()));
    }
    match (units.len(), rest.len()) {
        (0, _) => Some("has no digit before its point".to_string()),
        (1..=5, 2) if format!("{units}{rest}").parse::<i32>().is_ok_and(|size| size <= Profile::MAX_MEASURE) => None,
        (1..=5, 2) if text.starts_with('-') => Some("is below -10000.00".to_string()),
        (1..=5, 2) => Some("is above 10000.00".to_string()),
        (1..=5, count) => Some(format!("has {} after its point, and 2 belong there", digits(count))),
        (count, _) => Some(format!("has {} before its point, and at most 5 belong there", digits(count))),
    }
}

/// What is wrong with a coat code, which is 32 lowercase hex digits or `-`.
pub fn code_fault(text: &str) -> Option<String> {
    let stray = text.chars().find(|char| !matches!(char, '0'..='9' | 'a'..='f'));
    match stray {
        _ if text == "-" => None,
        Some(char @ 'A'..='F') => Some(format!("has `{char}`, and its digits are lowercase")),
        Some(char) => Some(format!("has `{}`, which is no hex digit", char.escape_debug())),
        None if text.len() == 32 => None,
        None => Some(format!("has {}, and 32 belong there, or -", digits(text.len()))),
    }
}

fn digits(count: usize) -> String {
    counted(count, "digit", "digits")
}

/// A number with its noun.
pub fn counted(count: usize, one: &str, many: &str) -> String {
    format!("{count} {}", if count == 1 { one } else { many })
}

/// What a table was made with.
pub fn header(table: &Table) -> Json {
    object([
        ("order", number(table.order())),
        ("capacity", number(table.capacity())),
        ("metric", text(metric(table.metric()).0)),
        ("weights", list(table.weights().each().map(number))),
        ("head", number(table.len())),
    ])
}

/// An image's form.
pub fn form(image: &[u8]) -> u16 {
    image.get(2..4).map_or(0, |form| u16::from_le_bytes([form[0], form[1]]))
}

/// What a call says, in a yard's words: what the library calls a table is a herd, and its items are head.
pub fn of_herd(said: impl Display) -> String {
    said.to_string().replace("table", "herd").replace("items", "head").replace("item", "head")
}

/// Why a call refused a head.
pub fn refused(tag: Tag, refusal: Refusal) -> String {
    match refusal {
        Refusal::AlreadyLive => format!("{tag} is in the herd already"),
        Refusal::NotLive => format!("{tag} is not in the herd"),
        Refusal::NoDues => format!("{tag} weighs below 0, and pays no dues"),
        Refusal::Full => format!("{tag}: the herd is full"),
        _ => format!("{tag}: {}", of_herd(refusal)),
    }
}

#[cfg(test)]
mod tests {
    use super::*;

    #[test]
    fn radii() {
        let read = |typed: &str| typed.parse::<Radius>().map(|radius| (radius.number, radius.is_in_units));
        assert_eq!([read("0"), read("1000"), read("10.00")], [Ok((0, false)), Ok((1_000, false)), Ok((1_000, true))]);
        assert_eq!([read("4294967295"), read("42949672.95")], [Ok((u32::MAX, false)), Ok((u32::MAX, true))]);
        for typed in ["", ".", ".50", "10.", "10.5", "10.005", "1.0.0", "-1", "-1.00", "+1.00", "42949672.96", "1,00"] {
            assert!(read(typed).is_err(), "{typed}");
        }
        assert!(Radius { number: 3, is_in_units: true }.by(Metric::DifferingBits).is_err());
    }

    // What is told of a field agrees with whether the library takes it.
    #[test]
    fn faults_are_what_is_not_read() {
        let measures = [
            "0.00",
            "-0.05",
            "412.50",
            "10000.00",
            "-10000.00",
            "00412.50",
            "412.5",
            "412,50",
            "412",
            "",
            "-",
            ".50",
            "412.500",
            "10000.01",
            "-10000.01",
            "100000.00",
            "000412.50",
            "+1.00",
            "--1.00",
            "1.0x",
            "4 2.50",
            "1.00 ",
        ];
        for measure in measures {
            let is_read = format!("{measure} 0.00 0.00 0.00 -").parse::<Profile>().is_ok();
            assert_eq!(measure_fault(measure).is_none(), is_read, "{measure}");
        }
        let code = "0123456789abcdef0123456789abcdef";
        for code in
            ["-", code, &code[1..], &format!("{code}0"), &code.to_uppercase(), "", "--", &code.replace('f', "g")]
        {
            let is_read = format!("0.00 0.00 0.00 0.00 {code}").parse::<Profile>().is_ok();
            assert_eq!(code_fault(code).is_none(), is_read, "{code}");
        }
    }
}
