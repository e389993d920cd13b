//! `herd check`: whether an image is accepted, or which rule is broken and where.

use std::ops::Range;

use vpindex::{ImageFault, ImageRefusal, Refusal, Table};

use super::told;
use crate::args::Args;
use crate::file;
use crate::json::{Json, list, number, text};
use crate::report::{Outcome, Report};
use crate::words;

// Of a line of bytes.
const WIDTH: usize = 16;

// What "accepted" does not say.
const NOT_SAID: &str = "Accepted means that no rule of an image is broken, not that no byte was changed since it was \
                        written:\nan image has no checksum. sha256sum beside a copy tells that.\n";

pub fn run(args: &Args) -> Outcome {
    let path = args.name(0);
    let bytes = file::read(&args.plain[0])?;
    Ok(match Table::load(&bytes) {
        Ok(table) => {
            let (form, order, head) = (words::form(&bytes), table.order(), table.len());
            let text = || format!("{path} is accepted: form {form}, order {order}, {head} head\n{NOT_SAID}");
            let json = || {
                let front = [("accepted", Json::Bool(true)), ("refusal", number(0)), ("form", number(form))];
                Json::Object(front.into_iter().chain([("order", number(order)), ("head", number(head))]).collect())
            };
            told(args, text, json)
        }
        Err(refused) => {
            let report = told(args, || in_words(&bytes, &refused), || json(&refused));
            Report { refused: vec![format!("{path}: {}", file::why_no_image(&bytes, &refused))], ..report }
        }
    })
}

// As docs/RULES.md has it: `BAD_TAG` for `BadTag`.
fn name(refusal: Refusal) -> String {
    let spelled = format!("{refusal:?}");
    let letter = |(at, letter): (usize, char)| {
        let between = if at > 0 && letter.is_uppercase() { "_" } else { "" };
        format!("{between}{}", letter.to_ascii_uppercase())
    };
    spelled.chars().enumerate().map(letter).collect()
}

// The rule of docs/RULES.md that is broken.
fn rule(refused: &ImageRefusal) -> &'static str {
    match (refused.refusal, refused.fault.as_ref().map(|fault| fault.field)) {
        (Refusal::BadOrder, _) => "5.1",
        (Refusal::BadMetric, _) => "3.1",
        (Refusal::BadImage, Some("form")) => "12.7",
        (Refusal::BadWeight, _) => "3.8",
        (Refusal::BadTable, _) => "14.6",
        (Refusal::BadDay, _) => "2.8",
        (Refusal::BadImage, _) => "12.5",
        (Refusal::DuplicateTag | Refusal::MisplacedItem | Refusal::BadThreshold, _) => "12.8",
        _ => "12.1",
    }
}

fn in_words(bytes: &[u8], refused: &ImageRefusal) -> String {
    let ImageRefusal { refusal, fault } = refused;
    let front = [
        ("refusal", format!("{} {}", refusal.number(), name(*refusal))),
        ("rule", format!("{} of docs/RULES.md", rule(refused))),
    ];
    let place = fault.iter().flat_map(|fault| {
        let bucket = fault.bucket.map(|bucket| ("bucket", bucket.to_string()));
        let slot = fault.slot.map(|at| ("slot", format!("{}, slot {} of its bucket", at.slot, at.place)));
        let field = [("field", words::of_herd(fault.field)), ("bytes", span(&fault.bytes))];
        bucket.into_iter().chain(slot).chain(field)
    });
    let lines: String = front.into_iter().chain(place).map(|(name, value)| format!("{name:<9}{value}\n")).collect();
    lines + &fault.as_ref().map(|fault| around(bytes, &fault.bytes)).unwrap_or_default()
}

fn span(bytes: &Range<usize>) -> String {
    match bytes.len() {
        0 => format!("none, the image ends before byte {}", bytes.start),
        1 => bytes.start.to_string(),
        _ => format!("{} to {}", bytes.start, bytes.end - 1),
    }
}

// The line of bytes in which the fault begins, and the next where it goes on, with brackets around it. Where the image
// ends too early, its last line.
fn around(bytes: &[u8], fault: &Range<usize>) -> String {
    let (first, last) = match fault.is_empty() {
        true => (fault.start.saturating_sub(1) / WIDTH, fault.start.saturating_sub(1) / WIDTH),
        false => (fault.start / WIDTH, (fault.end - 1) / WIDTH),
    };
    let lines: String = (first..=last.min(first + 1)).map(|line| hex_line(bytes, line * WIDTH, fault)).collect();
    if last > first + 1 { lines + "..\n" } else { lines }
}

fn hex_line(bytes: &[u8], start: usize, fault: &Range<usize>) -> String {
    let end = bytes.len().min(start + WIDTH);
    let between = |at: usize| match at {
        _ if at == fault.start && fault.is_empty() => '|',
        _ if at == fault.start => '[',
        _ if at == fault.end && at > start => ']',
        _ => ' ',
    };
    let cells: String = (start..end).map(|at| format!("{}{:02x}", between(at), bytes[at])).collect();
    format!("{start:06x}   {cells}{}\n", between(end)).replace(" \n", "\n")
}

fn json(refused: &ImageRefusal) -> Json {
    let ImageRefusal { refusal, fault } = refused;
    let front = [
        ("accepted", Json::Bool(false)),
        ("refusal", number(refusal.number())),
        ("name", text(name(*refusal))),
        ("rule", text(rule(refused))),
        ("words", text(words::of_herd(refused))),
    ];
    Json::Object(front.into_iter().chain(fault.iter().flat_map(place)).collect())
}

fn place(fault: &ImageFault) -> [(&'static str, Json); 5] {
    let maybe = |value: Option<u32>| value.map_or(Json::None, number);
    [
        ("field", text(words::of_herd(fault.field))),
        ("bytes", list([number(fault.bytes.start), number(fault.bytes.end)])),
        ("bucket", maybe(fault.bucket)),
        ("slot", maybe(fault.slot.map(|at| at.slot))),
        ("place", maybe(fault.slot.map(|at| at.place))),
    ]
}
