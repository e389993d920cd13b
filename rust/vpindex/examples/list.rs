//! `list FILE [DAY]`: reads a herd list as a scale head writes it, weighed on this day or on day 1, says how many items
//! were added or which line is wrong and why, and shows the three nearest to the first of them.

use std::env;
use std::error::Error;
use std::ffi::OsStr;
use std::fs;
use std::process::ExitCode;

use vpindex::{Day, LookedUp, Metric, Order, Table, Tag};

const HEADER: &str = "tag;kg;hip;girth;gain\n";

fn main() -> ExitCode {
    match run() {
        Ok(code) => code,
        Err(error) => {
            eprintln!("{error}");
            ExitCode::FAILURE
        }
    }
}

fn run() -> Result<ExitCode, Box<dyn Error>> {
    let mut words = env::args_os().skip(1);
    let file = words.next().ok_or("usage: list FILE [DAY]")?;
    let day = words.next().map_or(Ok(Day::MIN), |word| day_in(&word))?;
    let list = fs::read(&file).map_err(|error| format!("{}: {error}", file.display()))?;
    let mut table = Table::new(Order::MAX, Metric::SumOfDifferences);
    let read = table.read_list(&list, day);
    match &read {
        Ok(read) => println!("{} added, {} distances", read.added, read.distances),
        Err(refused) => println!("{refused}"),
    }
    if !table.is_empty() {
        nearest_to_first(&table, &list)?;
    }
    Ok(if read.is_ok() { ExitCode::SUCCESS } else { ExitCode::FAILURE })
}

fn day_in(word: &OsStr) -> Result<Day, String> {
    let day = word.to_str().and_then(|digits| digits.parse().ok());
    day.ok_or_else(|| format!("{}: not a day, 1 to 65535", word.display()))
}

// The line after the header was added, so it begins with the 15 digits of a valid tag. What follows it may be any
// bytes.
fn nearest_to_first(table: &Table, list: &[u8]) -> Result<(), Box<dyn Error>> {
    let tag: Tag = str::from_utf8(&list[HEADER.len()..][..15])?.parse()?;
    let LookedUp { profile, day, .. } = table.look_up(tag)?;
    println!("nearest 3 to {tag}, weighed on day {day}:");
    for hit in table.nearest(&profile, 3, None)? {
        println!("  {} {}", hit.tag(), hit.distance());
    }
    Ok(())
}
