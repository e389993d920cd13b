//! A head as people see it: in a line, a row or JSON.

use vpindex::{Item, Refusal, Table};

use crate::calendar::Calendar;
use crate::json::{Json, number, text};
use crate::layout::columns;
use crate::words::{self, MEASURES};

const FIELDS: [&str; 7] = ["tag", " day", " kg", " hip", " girth", " gain", "code"];

/// The first line of a list with commas.
pub fn csv_header() -> String {
    FIELDS.map(str::trim).join(",")
}

/// The fields of a head as text.
pub fn fields(item: &Item, calendar: &Calendar) -> [String; 7] {
    let [kg, hip, girth, gain, code] = words::profile(&item.profile);
    [item.tag.to_string(), calendar.shown(item.day), kg, hip, girth, gain, code]
}

/// Head in columns, each row with more before its own fields.
pub fn rows<'a>(headers: &[&str], rows: impl Iterator<Item = (Vec<String>, &'a Item)>, calendar: &Calendar) -> String {
    let row = |(more, item): (Vec<String>, &Item)| [more.as_slice(), &fields(item, calendar)].concat();
    columns(&[headers, &FIELDS].concat(), &rows.map(row).collect::<Vec<_>>())
}

/// A head, with what goes before its own fields. Its date is there where that of day 1 is known.
pub fn json<const N: usize>(more: [(&'static str, Json); N], item: &Item, calendar: &Calendar) -> Json {
    let [kg, hip, girth, gain, code] = words::profile(&item.profile);
    let measures = MEASURES.into_iter().zip([kg, hip, girth, gain].map(number));
    let front = more.into_iter().chain([("tag", text(item.tag)), ("day", number(item.day))]);
    let date = calendar.date(item.day).map(|date| ("date", text(date)));
    Json::Object(front.chain(date).chain(measures).chain([("code", text(code))]).collect())
}

/// The head by tag.
pub fn by_tag(table: &Table) -> Vec<Item> {
    let mut items: Vec<Item> = table.iter().collect();
    items.sort_by_key(|item| item.tag);
    items
}

/// What came of a head.
#[derive(Clone, Copy, PartialEq)]
pub enum Weighed {
    Added,
    Replaced,
}

/// Adds a head; one that is there already is weighed again where that is allowed. Gives the distances too.
pub fn weigh(table: &mut Table, item: &Item, may_replace: bool) -> Result<(Weighed, u32), Refusal> {
    let Item { tag, profile, day, .. } = item;
    match table.add(*tag, profile, *day) {
        Ok(added) => Ok((Weighed::Added, added.distances)),
        Err(Refusal::AlreadyLive) if may_replace => {
            Ok((Weighed::Replaced, table.replace(*tag, profile, *day)?.distances))
        }
        Err(refusal) => Err(refusal),
    }
}
