//! `herd remove`: head removed, all of them or none.

use super::told;
use crate::args::{Args, misuse};
use crate::file::Image;
use crate::json::{number, object};
use crate::report::Outcome;
use crate::words;

pub fn run(args: &Args) -> Outcome {
    let tags = args.tags(1)?;
    if let Some(twice) = tags.iter().enumerate().find(|(at, tag)| tags[..*at].contains(tag)) {
        return misuse(format!("TAG `{}` is there twice", twice.1));
    }
    let mut image = Image::open_to_replace(&args.plain[0])?;
    for tag in &tags {
        let removed = image.table.remove(*tag);
        removed.map_err(|refusal| image.refused(format!("{}; none was removed", words::refused(*tag, refusal))))?;
    }
    if !tags.is_empty() {
        image.replace()?;
    }
    let (removed, head) = (tags.len(), image.table.len());
    let text = || format!("{removed} removed from {}, {head} head now\n", args.name(0));
    Ok(told(args, text, || object([("removed", number(removed)), ("head", number(head))])))
}
