//! `herd dues`: what head pay at the gate.

use vpindex::{Cents, Refusal, Table, Tag};

use super::told;
use crate::args::Args;
use crate::file::Image;
use crate::json::{list, number, object, text};
use crate::layout::columns;
use crate::report::Outcome;
use crate::words;

pub fn run(args: &Args) -> Outcome {
    let tags = args.tags(1)?;
    let image = Image::open(&args.plain[0])?;
    let dues = image.table.dues(&tags).map_err(|refusal| image.refused(whose(&image.table, &tags, refusal)))?;
    let pays = || tags.iter().zip(&dues.each);
    let text_of = || {
        let row = |(tag, cents): (&Tag, &Cents)| vec![tag.to_string(), cents.to_string()];
        let rows: Vec<_> = pays().map(row).chain([vec!["total".to_string(), dues.total.to_string()]]).collect();
        columns(&["tag", " dues"], &rows)
    };
    let json = || {
        let each = pays().map(|(tag, cents)| object([("tag", text(tag)), ("dues", number(cents))]));
        object([("each", list(each)), ("total", number(dues.total))])
    };
    Ok(told(args, text_of, json))
}

// Which of them it is: the first that is refused alone; without one it is their number.
fn whose(table: &Table, tags: &[Tag], refusal: Refusal) -> String {
    let alone = tags.iter().find(|tag| table.dues(&[**tag]) == Err(refusal));
    let number = || format!("{} tags are too many: a list has at most 4096", tags.len());
    alone.map_or_else(number, |tag| words::refused(*tag, refusal))
}
