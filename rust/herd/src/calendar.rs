//! Days as dates, where the date of day 1 is known.

use std::env;
use std::process::Command;

use vpindex::Day;

use crate::args::{Args, Flag, misuse, value};
use crate::report::Failure;

/// The option that names the date of day 1.
pub const DAY_ONE: Flag = value("--day-one");
const VARIABLE: &str = "HERD_DAY_ONE";

/// A day is a number, and a date too where that of day 1 is known.
pub struct Calendar {
    // in days from 1970-01-01
    day_one: Option<i64>,
}

impl Calendar {
    /// By the option, or else by the environment.
    pub fn of(args: &Args) -> Result<Calendar, Failure> {
        let typed = match args.value::<String>(DAY_ONE.name)? {
            Some(typed) => Some((DAY_ONE.name, typed)),
            None => env::var(VARIABLE).ok().filter(|typed| !typed.is_empty()).map(|typed| (VARIABLE, typed)),
        };
        let Some((name, typed)) = typed else { return Ok(Calendar { day_one: None }) };
        match number_of(&typed) {
            Some(day_one) => Ok(Calendar { day_one: Some(day_one) }),
            None => misuse(format!("{name} `{typed}`: not a date such as 2026-11-17")),
        }
    }

    /// A day as it was typed: its number, its date, or the word `today`.
    pub fn read(&self, typed: &str) -> Result<Day, String> {
        if typed.bytes().all(|byte| byte.is_ascii_digit()) {
            return typed.parse().map_err(|error: vpindex::ParseError| error.to_string());
        }
        let date = if typed == "today" { today() } else { number_of(typed) };
        let date = date.ok_or("not a day, 1 to 65535, nor a date such as 2026-11-17, nor today")?;
        let Some(day_one) = self.day_one else {
            return Err(format!("a date, and neither {VARIABLE} nor {} says which is that of day 1", DAY_ONE.name));
        };
        let day = u16::try_from(date - day_one + 1).ok().and_then(|day| Day::new(day).ok());
        day.ok_or_else(|| format!("not from day 1, {}, to day 65535, {}", text_of(day_one), text_of(day_one + 65_534)))
    }

    /// A day as it is shown.
    pub fn shown(&self, day: Day) -> String {
        self.date(day).unwrap_or_else(|| day.to_string())
    }

    /// Its date, where that is known.
    pub fn date(&self, day: Day) -> Option<String> {
        self.day_one.map(|day_one| text_of(day_one + i64::from(day.get()) - 1))
    }
}

// By the clock on the wall, of which the system's own program knows.
fn today() -> Option<i64> {
    let written = Command::new("date").arg("+%Y-%m-%d").output().ok()?.stdout;
    number_of(String::from_utf8(written).ok()?.trim())
}

// The days of the months of a year that begins in March, and so ends with the day that a leap year has more.
const MONTHS: [i64; 12] = [31, 30, 31, 30, 31, 31, 30, 31, 30, 31, 31, 29];
// Of 400 years, and where the first of March of year 0 stands.
const CYCLE: i64 = 146_097;
const MARCH_0: i64 = -719_468;

// Of years that begin in March: the days before one.
fn before_year(year: i64) -> i64 {
    365 * year + year.div_euclid(4) - year.div_euclid(100) + year.div_euclid(400)
}

// Of a date such as 2026-11-17, in days from 1970-01-01; none where there is no such date.
fn number_of(text: &str) -> Option<i64> {
    let part = |range: std::ops::Range<usize>| {
        let digits = text.get(range)?;
        if digits.bytes().all(|byte| byte.is_ascii_digit()) { digits.parse::<i64>().ok() } else { None }
    };
    let (year, month, day) = (part(0..4)?, part(5..7)?, part(8..10)?);
    let from_march = (month + 9) % 12;
    let year = if month <= 2 { year - 1 } else { year };
    let in_year: i64 = MONTHS.iter().take(from_march as usize).sum();
    let number = MARCH_0 + before_year(year) + in_year + day - 1;
    // what is written back as it was typed is a date
    if text_of(number) == text { Some(number) } else { None }
}

fn text_of(number: i64) -> String {
    let days = number - MARCH_0;
    // at most one too late
    let guess = days * 400 / CYCLE;
    let year = if before_year(guess) > days { guess - 1 } else { guess };
    let year = if before_year(year + 1) <= days { year + 1 } else { year };
    let mut day = days - before_year(year);
    let mut from_march = 0;
    while day >= MONTHS[from_march] {
        day -= MONTHS[from_march];
        from_march += 1;
    }
    let month = (from_march + 2) % 12 + 1;
    format!("{:04}-{month:02}-{:02}", if month <= 2 { year + 1 } else { year }, day + 1)
}

#[cfg(test)]
mod tests {
    use super::*;

    #[test]
    fn dates() {
        assert_eq!(number_of("1970-01-01"), Some(0));
        assert_eq!(number_of("2000-02-29"), Some(11_016));
        assert_eq!(number_of("2026-11-17"), Some(20_774));
        // every day of 800 years is the one after the day before it, and is read as it is written
        let first = number_of("1600-01-01").expect("a date");
        let last = number_of("2399-12-31").expect("a date");
        assert_eq!(last - first + 1, 2 * CYCLE);
        for number in first..=last {
            assert_eq!(number_of(&text_of(number)), Some(number));
        }
        for text in
            ["2026-02-29", "1900-02-29", "2026-13-01", "2026-00-10", "2026-04-31", "2026-11-1", "2026-11-17 ", ""]
        {
            assert_eq!(number_of(text), None, "{text}");
        }
        for text in ["+026-11-17", "2026-+1-17", "17.11.2026", "2026/11/17", "20261117"] {
            assert_eq!(number_of(text), None, "{text}");
        }
    }

    #[test]
    fn days() {
        let calendar = Calendar { day_one: number_of("2026-01-01") };
        assert_eq!(calendar.read("2026-01-01"), calendar.read("1"));
        assert_eq!(calendar.read("2026-12-31").map(|day| day.get()), Ok(365));
        assert_eq!(calendar.read("2205-06-06").map(|day| day.get()), Ok(65_535));
        let past = Err("not from day 1, 2026-01-01, to day 65535, 2205-06-06".to_string());
        assert_eq!((calendar.read("2025-12-31"), calendar.read("2205-06-07")), (past.clone(), past));
        assert_eq!(calendar.shown(Day::MAX), "2205-06-06");
        assert_eq!(Calendar { day_one: None }.shown(Day::MAX), "65535");
        assert!(Calendar { day_one: None }.read("2026-01-01").is_err_and(|words| words.contains(VARIABLE)));
    }
}
