//! A scale head's list, read by the proved call.

use std::borrow::Cow;

use vpindex::{Day, ListRefusal, Refusal, Table, Tag};

use super::Reading;
use crate::list::List;
use crate::progress::Progress;

// Between two looks at how far it is.
const LINES: usize = 64;

// Every line is an add of its own, so the list is read some lines at a time, each time with the header before them, and
// read on behind a line that is refused.
pub fn read(table: &mut Table, list: &List, day: Day, may_replace: bool) -> Reading {
    let lines = list.lines();
    let (header, lines) = lines.split_at(lines.len().min(1));
    let (mut reading, progress) = (Reading::default(), Progress::new("lines", lines.len()));
    let mut next = 0;
    loop {
        progress.show(next);
        let end = lines.len().min(next + LINES);
        match table.read_list(&[header, &lines[next..end]].concat().concat(), day) {
            Ok(read) => {
                reading.count(read.added, read.distances);
                next = end;
            }
            Err(refused) => {
                reading.count(refused.added, refused.distances);
                // the header is line 1, and the first line behind it, which is counted from 0 here, line 2
                let line = refused.line as usize + next;
                let text = lines.get(line.wrapping_sub(2)).copied().unwrap_or_default();
                next = line - 1;
                if refused.refusal == Refusal::AlreadyLive && may_replace {
                    reading.count_replaced(weigh_again(table, header, text, day));
                } else {
                    reading.refuse(line, refused.refusal, told(&refused, line, text));
                }
                // no line is read under another header; in a full herd head can still be weighed again
                let is_last = refused.refusal == Refusal::BadListHeader;
                if is_last || (refused.refusal == Refusal::Full && !may_replace) {
                    return reading.end(lines.len() - next);
                }
            }
        }
        if next == lines.len() {
            return reading;
        }
    }
}

// Of a line that was refused because its tag is in the herd: there is room for it then, and every other rule was kept.
fn weigh_again(table: &mut Table, header: &[&[u8]], text: &[u8], day: Day) -> u32 {
    let removed = tag_of(text).parse().ok().and_then(|tag: Tag| table.remove(tag).ok());
    let read = table.read_list(&[header, &[text]].concat().concat(), day);
    removed.expect("it is in the herd") + read.expect("it is out of the herd").distances
}

fn tag_of(text: &[u8]) -> Cow<'_, str> {
    String::from_utf8_lossy(text.split(|&byte| byte == b';').next().unwrap_or_default())
}

fn told(refused: &ListRefusal, line: usize, text: &[u8]) -> String {
    match refused.refusal {
        Refusal::AlreadyLive => format!("line {line}: {} is in the herd already", tag_of(text)),
        Refusal::Full => format!("line {line}: the herd is full"),
        _ => ListRefusal { line: line as u32, ..refused.clone() }.words(),
    }
}
