//! `herd add`: one head, with its coat code.

use vpindex::{Day, Item, Refusal};

use super::told;
use crate::args::Args;
use crate::calendar::Calendar;
use crate::file::Image;
use crate::head::{self, Weighed};
use crate::json::{Json, number, object, text};
use crate::report::Outcome;
use crate::words;

pub fn run(args: &Args) -> Outcome {
    let (calendar, tag, profile) = (Calendar::of(args)?, args.plain(1, "TAG")?, args.profile(2)?);
    let item = Item { tag, profile, day: args.day("--day", &calendar)?.unwrap_or(Day::MIN) };
    let mut image = Image::open_to_replace(&args.plain[0])?;
    let weighed = head::weigh(&mut image.table, &item, args.has("--replace"));
    let (weighed, distances) = weighed.map_err(|refusal| {
        let remedy = if refusal == Refusal::AlreadyLive { "; --replace weighs it again" } else { "" };
        image.refused(format!("{}{remedy}", words::refused(tag, refusal)))
    })?;
    image.replace()?;
    let head = image.table.len();
    let what = if weighed == Weighed::Added { "added to" } else { "replaced in" };
    let told_so = || format!("{tag} is {what} {}, {head} head now\n", args.name(0));
    let json = || {
        let is_replaced = Json::Bool(weighed == Weighed::Replaced);
        object([
            ("tag", text(tag)),
            ("replaced", is_replaced),
            ("distances", number(distances)),
            ("head", number(head)),
        ])
    };
    Ok(told(args, told_so, json))
}
