//! `herd convert`: an image of an older form written in the newest.

use std::fs;

use super::told;
use crate::args::Args;
use crate::file::{self, Image};
use crate::json::{number, object};
use crate::report::Outcome;
use crate::words;

pub fn run(args: &Args) -> Outcome {
    let (old, new) = (&args.plain[0], &args.plain[1]);
    let is_same = matches!((fs::canonicalize(old), fs::canonicalize(new)), (Ok(old), Ok(new)) if old == new);
    let image = if is_same { Image::open_to_replace(old) } else { Image::open(old) }?;
    let bytes = image.table.image();
    if is_same { image.replace() } else { file::write_new(new, &bytes) }?;
    let (from, to, head) = (words::form(&image.bytes), words::form(&bytes), image.table.len());
    let text = || format!("{} of form {from} is written as {} of form {to}: {head} head\n", args.name(0), args.name(1));
    Ok(told(args, text, || object([("from", number(from)), ("to", number(to)), ("head", number(head))])))
}
