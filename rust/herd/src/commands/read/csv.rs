//! A list as `herd list --csv` writes it, with the day and the coat code of each head.

use vpindex::{Item, ParseError, Refusal, Table};

use super::Reading;
use crate::calendar::Calendar;
use crate::head::{self, Weighed};
use crate::list::List;
use crate::progress::Progress;
use crate::words::{self, MEASURES};

pub fn is_csv(list: &List) -> bool {
    list.bytes.starts_with(format!("{}\n", head::csv_header()).as_bytes())
}

// Every line behind the header is an add. None is added to a full herd, in which head can still be weighed again.
pub fn read(table: &mut Table, list: &List, calendar: &Calendar, may_replace: bool) -> Reading {
    let lines = list.lines();
    let (mut reading, progress) = (Reading::default(), Progress::new("lines", lines.len() - 1));
    for (at, line) in lines.iter().enumerate().skip(1) {
        progress.show(at - 1);
        let item = match head_of(line, calendar) {
            Ok(item) => item,
            Err(words) => {
                reading.refuse(at + 1, Refusal::BadListLine, format!("line {}{words}", at + 1));
                continue;
            }
        };
        match head::weigh(table, &item, may_replace) {
            Ok((Weighed::Added, distances)) => reading.count(1, distances),
            Ok((Weighed::Replaced, distances)) => reading.count_replaced(distances),
            Err(refusal) => {
                reading.refuse(at + 1, refusal, format!("line {}: {}", at + 1, words::refused(item.tag, refusal)));
                if refusal == Refusal::Full && !may_replace {
                    return reading.end(lines.len() - at - 1);
                }
            }
        }
    }
    reading
}

// A head from its line, or what is wrong in the line, to be read behind its number.
fn head_of(line: &[u8], calendar: &Calendar) -> Result<Item, String> {
    let text = String::from_utf8_lossy(line);
    let fields: Vec<&str> = text.trim_end_matches('\n').split(',').collect();
    if fields.len() != 3 + MEASURES.len() {
        return Err(format!(" has {}, and 7 belong there", words::counted(fields.len(), "field", "fields")));
    }
    let wrong = |at: usize, what: String| format!(", field {}: `{}`{what}", at + 1, fields[at].escape_debug());
    let tag = fields[0].parse().map_err(|error: ParseError| wrong(0, format!(": {error}")))?;
    let day = calendar.read(fields[1]).map_err(|error| wrong(1, format!(": {error}")))?;
    let of_measure = (2..6).find_map(|at| Some(wrong(at, format!(" {}", words::measure_fault(fields[at])?))));
    let fault = of_measure.or_else(|| Some(wrong(6, format!(" {}", words::code_fault(fields[6])?))));
    let profile = fault.map_or_else(|| words::read_profile(&fields[2..]), Err)?;
    Ok(Item { tag, profile, day })
}
