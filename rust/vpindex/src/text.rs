//! Values as text: what each writes it reads back.

use core::error::Error;
use core::fmt::{self, Write};
use core::str::{self, FromStr};

use crate::{Day, Item, Metric, Name, Order, Profile, Refusal, Tag, Weights};

/// Why a text is not a value.
#[derive(Clone, Copy, Debug, PartialEq, Eq, Hash)]
#[non_exhaustive]
pub enum ParseError {
    /// It is not this, in words: for one, `a tag of 15 digits`.
    Form(&'static str),
    /// It is of the form, and such a value is refused.
    Refused(Refusal),
}

impl fmt::Display for ParseError {
    fn fmt(&self, f: &mut fmt::Formatter<'_>) -> fmt::Result {
        match self {
            ParseError::Form(words) => write!(f, "not {words}"),
            ParseError::Refused(refusal) => refusal.fmt(f),
        }
    }
}

impl Error for ParseError {}

impl From<Refusal> for ParseError {
    fn from(refusal: Refusal) -> ParseError {
        ParseError::Refused(refusal)
    }
}

// The longest is an item.
const LONGEST: usize = 96;

struct Text {
    bytes: [u8; LONGEST],
    length: usize,
}

impl Write for Text {
    fn write_str(&mut self, more: &str) -> fmt::Result {
        let end = self.length + more.len();
        self.bytes.get_mut(self.length..end).ok_or(fmt::Error)?.copy_from_slice(more.as_bytes());
        self.length = end;
        Ok(())
    }
}

// Writes a text of several parts as one, so that a width counts for all of it, and allocates nothing.
pub(crate) fn pad(f: &mut fmt::Formatter<'_>, parts: fmt::Arguments<'_>) -> fmt::Result {
    let mut text = Text { bytes: [0; LONGEST], length: 0 };
    text.write_fmt(parts)?;
    f.pad(str::from_utf8(&text.bytes[..text.length]).map_err(|_| fmt::Error)?)
}

fn is_digits(text: &str) -> bool {
    !text.is_empty() && text.bytes().all(|byte| byte.is_ascii_digit())
}

// Digits alone: `parse` would take a plus too.
fn number<T: FromStr>(text: &str, form: &'static str) -> Result<T, ParseError> {
    let read = if is_digits(text) { text.parse().ok() } else { None };
    read.ok_or(ParseError::Form(form))
}

/// All 15 digits, as `036000000000101`.
impl fmt::Display for Tag {
    fn fmt(&self, f: &mut fmt::Formatter<'_>) -> fmt::Result {
        pad(f, format_args!("{:015}", u64::from(*self)))
    }
}

/// As `Tag(036000000000101)`.
impl fmt::Debug for Tag {
    fn fmt(&self, f: &mut fmt::Formatter<'_>) -> fmt::Result {
        write!(f, "Tag({self})")
    }
}

/// From its 15 digits.
impl FromStr for Tag {
    type Err = ParseError;

    fn from_str(text: &str) -> Result<Tag, ParseError> {
        let form = "a tag of 15 digits";
        if text.len() == 15 { Ok(Tag::try_from(number::<u64>(text, form)?)?) } else { Err(ParseError::Form(form)) }
    }
}

/// The measures in units, then the code as 32 hex digits, the first word first, or `-` where it is zero, as
/// `412.50 129.00 185.00 -0.95 -`: so the program `yard` takes it too.
impl fmt::Display for Profile {
    fn fmt(&self, f: &mut fmt::Formatter<'_>) -> fmt::Result {
        let [a, b, c, d] = self.measures().map(Units);
        match self.code() {
            [0, 0] => pad(f, format_args!("{a} {b} {c} {d} -")),
            [first, second] => pad(f, format_args!("{a} {b} {c} {d} {first:016x}{second:016x}")),
        }
    }
}

// A measure in units.
struct Units(i32);

impl fmt::Display for Units {
    fn fmt(&self, f: &mut fmt::Formatter<'_>) -> fmt::Result {
        let (sign, size) = (if self.0 < 0 { "-" } else { "" }, self.0.unsigned_abs());
        write!(f, "{sign}{}.{:02}", size / 100, size % 100)
    }
}

/// As it is written.
impl FromStr for Profile {
    type Err = ParseError;

    fn from_str(text: &str) -> Result<Profile, ParseError> {
        let form = "a profile: four measures with a point and two digits, such as -0.95, and a code of 32 lowercase hex \
                    digits or -, each after one space";
        let Some([a, b, c, d, code]) = split(text, ' ') else { return Err(ParseError::Form(form)) };
        let read = [a, b, c, d].map(hundredths);
        let ([Some(a), Some(b), Some(c), Some(d)], Some(code)) = (read, words(code)) else {
            return Err(ParseError::Form(form));
        };
        Ok(Profile::new([a, b, c, d], code)?)
    }
}

fn split<const N: usize>(text: &str, between: char) -> Option<[&str; N]> {
    let (mut parts, mut split) = (text.split(between), [""; N]);
    for part in &mut split {
        *part = parts.next()?;
    }
    parts.next().is_none().then_some(split)
}

// A minus or none, 1 to 5 digits, a point, 2 digits.
fn hundredths(text: &str) -> Option<i32> {
    let size = text.strip_prefix('-').unwrap_or(text);
    let (units, rest) = size.split_once('.')?;
    let is_measure = is_digits(units) && units.len() <= 5 && is_digits(rest) && rest.len() == 2;
    let size = if is_measure { 100 * units.parse::<i32>().ok()? + rest.parse::<i32>().ok()? } else { return None };
    Some(if text.starts_with('-') { -size } else { size })
}

fn words(code: &str) -> Option<[u64; 2]> {
    if code == "-" {
        return Some([0, 0]);
    }
    let is_code = code.len() == 32 && code.bytes().all(|byte| matches!(byte, b'0'..=b'9' | b'a'..=b'f'));
    let word = |digits| u64::from_str_radix(digits, 16).ok();
    if is_code { Some([word(&code[..16])?, word(&code[16..])?]) } else { None }
}

/// Its tag, its profile and its day, as `036000000000101 412.50 129.00 185.00 0.95 - 305`: so the program `yard` takes
/// it after the letter of an add.
impl fmt::Display for Item {
    fn fmt(&self, f: &mut fmt::Formatter<'_>) -> fmt::Result {
        pad(f, format_args!("{} {} {}", self.tag, self.profile, self.day))
    }
}

/// As it is written.
impl FromStr for Item {
    type Err = ParseError;

    fn from_str(text: &str) -> Result<Item, ParseError> {
        let parts = text.split_once(' ').and_then(|(tag, rest)| Some((tag, rest.rsplit_once(' ')?)));
        let Some((tag, (profile, day))) = parts else {
            return Err(ParseError::Form("an item: a tag, a profile and a day, each after one space"));
        };
        Ok(Item { tag: tag.parse()?, profile: profile.parse()?, day: day.parse()? })
    }
}

/// The four with commas, as `10,1,1,0`.
impl fmt::Display for Weights {
    fn fmt(&self, f: &mut fmt::Formatter<'_>) -> fmt::Result {
        let [a, b, c, d] = self.each();
        pad(f, format_args!("{a},{b},{c},{d}"))
    }
}

/// As they are written.
impl FromStr for Weights {
    type Err = ParseError;

    fn from_str(text: &str) -> Result<Weights, ParseError> {
        let form = "four weights of 0 to 100 with commas between them, such as 10,1,1,0";
        let each: [&str; 4] = split(text, ',').ok_or(ParseError::Form(form))?;
        let mut weights = [0; 4];
        for (weight, digits) in weights.iter_mut().zip(each) {
            *weight = number(digits, form)?;
        }
        Ok(Weights::new(weights)?)
    }
}

fn name_of(metric: Metric) -> &'static str {
    match metric {
        Metric::SumOfDifferences => "sum-of-differences",
        Metric::DifferingBits => "differing-bits",
        Metric::LargestDifference => "largest-difference",
    }
}

/// Its name, as `sum-of-differences`.
impl fmt::Display for Metric {
    fn fmt(&self, f: &mut fmt::Formatter<'_>) -> fmt::Result {
        f.pad(name_of(*self))
    }
}

/// From its name or its number.
impl FromStr for Metric {
    type Err = ParseError;

    fn from_str(text: &str) -> Result<Metric, ParseError> {
        let form = "a metric: sum-of-differences, differing-bits, largest-difference, or its number, 0 to 2";
        let named = Metric::ALL.into_iter().find(|&metric| name_of(metric) == text);
        named.map_or_else(|| Ok(Metric::try_from(number::<u32>(text, form)?)?), Ok)
    }
}

// A value that is a number is written in digits and read from digits alone.
macro_rules! number_as_text {
    ($value:ident, $number:ty, $form:literal) => {
        impl fmt::Display for $value {
            fn fmt(&self, f: &mut fmt::Formatter<'_>) -> fmt::Result {
                self.get().fmt(f)
            }
        }

        impl FromStr for $value {
            type Err = ParseError;

            fn from_str(text: &str) -> Result<$value, ParseError> {
                Ok($value::new(number::<$number>(text, $form)?)?)
            }
        }

        impl TryFrom<$number> for $value {
            type Error = Refusal;

            fn try_from(number: $number) -> Result<$value, Refusal> {
                $value::new(number)
            }
        }

        impl From<$value> for $number {
            fn from(value: $value) -> $number {
                value.get()
            }
        }
    };
}

number_as_text!(Order, u32, "an order, 0 to 12, in digits");
number_as_text!(Day, u16, "a day, 1 to 65535, in digits");
number_as_text!(Name, u32, "a name, 1 to 8, in digits");
