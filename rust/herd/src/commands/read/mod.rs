//! `herd read`: a herd list, added.

mod csv;
mod scale;

use vpindex::{Day, Refusal};

use super::told;
use crate::args::{Args, misuse};
use crate::calendar::Calendar;
use crate::file::{self, INPUT, Image};
use crate::json::{Json, list, number, object, text};
use crate::list::List;
use crate::report::{Failure, Outcome, Report};
use crate::words::counted;

// So many refused lines are told one by one; JSON has all.
const TOLD: usize = 10;

/// What a list came to.
#[derive(Default)]
struct Reading {
    added: u32,
    replaced: u32,
    distances: u64,
    refused: Vec<Refused>,
    // by its last refused line, behind which so many were not read
    has_ended: bool,
    unread: usize,
}

/// A line that was refused; the header is line 1.
struct Refused {
    line: usize,
    number: u32,
    words: String,
}

pub fn run(args: &Args) -> Outcome {
    let calendar = Calendar::of(args)?;
    let day = args.day("--day", &calendar)?;
    let (name, list) = open(args)?;
    let is_csv = csv::is_csv(&list);
    if is_csv && day.is_some() {
        return misuse(format!("{name} has the day of each head in it, and --day is for a scale head's list"));
    }
    let (mut image, may_replace) = (Image::open_to_replace(&args.plain[0])?, args.has("--replace"));
    let before = image.table.len();
    let mut reading = match is_csv {
        true => csv::read(&mut image.table, &list, &calendar, may_replace),
        false => scale::read(&mut image.table, &list, day.unwrap_or(Day::MIN), may_replace),
    };
    if args.has("--all-or-nothing") && !reading.refused.is_empty() {
        (reading.added, reading.replaced, reading.distances) = (0, 0, 0);
    } else if reading.added + reading.replaced > 0 {
        image.replace()?;
    }
    let head = before + reading.added as usize;
    let report = told(args, || reading.summary(&args.name(0), head), || json(&reading, &list, head));
    let put_right = || format!("{name}: put right before it was read: {}", list.put_right.join(", "));
    let noticed = if list.put_right.is_empty() { vec![] } else { vec![put_right()] };
    let mut refused = reading.complaints(&name);
    if !may_replace && reading.refused.iter().any(|refused| refused.number == Refusal::AlreadyLive.number()) {
        refused.push(format!("{name}: with --replace a head that is in the herd already is weighed again"));
    }
    Ok(Report { refused, noticed, ..report })
}

// With what it is called.
fn open(args: &Args) -> Result<(String, List), Failure> {
    let path = args.plain[1].as_os_str();
    let (name, bytes) = if path == "-" { (INPUT.as_ref(), file::read_input()?) } else { (path, file::read(path)?) };
    let list = List::of(bytes).map_err(|words| file::refused_of(name, words))?;
    Ok((file::shown(name), list))
}

impl Reading {
    fn count(&mut self, added: u32, distances: u32) {
        self.added += added;
        self.distances += u64::from(distances);
    }

    fn count_replaced(&mut self, distances: u32) {
        self.replaced += 1;
        self.distances += u64::from(distances);
    }

    fn refuse(&mut self, line: usize, refusal: Refusal, words: String) {
        self.refused.push(Refused { line, number: refusal.number(), words });
    }

    // Nothing is read behind the last refused line.
    fn end(mut self, unread: usize) -> Reading {
        (self.has_ended, self.unread) = (true, unread);
        self
    }

    fn summary(&self, image: &str, head: usize) -> String {
        let (added, replaced, refused) = (self.added, self.replaced, self.refused.len());
        format!("{image}: {added} added, {replaced} replaced, {refused} refused, {head} head now\n")
    }

    // The line that ended the reading is told in any case.
    fn complaints(&self, list: &str) -> Vec<String> {
        let (others, last) = self.refused.split_at(self.refused.len() - usize::from(self.has_ended));
        let line = |refused: &Refused| format!("{list}, {}", refused.words);
        let mut complaints: Vec<String> = others.iter().take(TOLD).map(line).collect();
        complaints.extend(more(list, others.len().saturating_sub(TOLD), "refused"));
        complaints.extend(last.iter().map(line));
        complaints.extend(more(list, self.unread, "not read"));
        complaints
    }
}

fn more(list: &str, count: usize, what: &str) -> Option<String> {
    let lines = counted(count, "more line was", "more lines were");
    if count == 0 { None } else { Some(format!("{list}: {lines} {what}")) }
}

fn json(reading: &Reading, read: &List, head: usize) -> Json {
    let line = |refused: &Refused| {
        object([("line", number(refused.line)), ("refusal", number(refused.number)), ("words", text(&refused.words))])
    };
    object([
        ("added", number(reading.added)),
        ("replaced", number(reading.replaced)),
        ("distances", number(reading.distances)),
        ("head", number(head)),
        ("refused", list(reading.refused.iter().map(line))),
        ("unread", number(reading.unread)),
        ("put_right", list(read.put_right.iter().map(text))),
    ])
}
