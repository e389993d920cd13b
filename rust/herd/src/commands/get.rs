//! `herd get`: one head, or some.

use vpindex::{Item, Refusal};

use super::told;
use crate::args::Args;
use crate::calendar::Calendar;
use crate::file::Image;
use crate::head;
use crate::json::list;
use crate::report::Outcome;
use crate::words;

pub fn run(args: &Args) -> Outcome {
    let (calendar, tags) = (Calendar::of(args)?, args.tags(1)?);
    let image = Image::open(&args.plain[0])?;
    let get = |tag| image.table.get(tag).ok_or_else(|| image.refused(words::refused(tag, Refusal::NotLive)));
    let items = tags.into_iter().map(get).collect::<Result<Vec<Item>, _>>()?;
    let text = || head::rows(&[], items.iter().map(|item| (vec![], item)), &calendar);
    Ok(told(args, text, || list(items.iter().map(|item| head::json([], item, &calendar)))))
}
