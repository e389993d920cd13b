//! `herd save`, `herd restore` and `herd states`: a herd as it is, kept under one of eight names. They are kept in one
//! file beside the image, which is the area that the calls are lent.

use std::ffi::{OsStr, OsString};
use std::fs;

use vpindex::{ImageRefusal, Name, Order, Refusal, States, Table};

use super::told;
use crate::args::Args;
use crate::file::{self, Image};
use crate::json::{list, number, object};
use crate::layout::columns;
use crate::report::{self, Failure, Outcome, Report};
use crate::words;

const SUFFIX: &str = ".states";

pub fn save(args: &Args) -> Outcome {
    let (path, name): (_, Name) = (&args.plain[0], args.plain(1, "NAME")?);
    // while it is open no other `herd` saves beside it
    let image = Image::open_to_replace(path)?;
    let order = image.table.order();
    let mut states = match kept(path)? {
        Some(states) => with_room(states, order).map_err(|(name, refused)| refused_of(path, name, refused))?,
        None => States::new(order),
    };
    image.table.save(&mut states, name).map_err(|refusal| image.refused(words::of_herd(refusal)))?;
    file::put(&beside(path), states.as_bytes())?;
    let head = image.table.len();
    let text = || format!("{} is saved under {name}: {head} head\n", args.name(0));
    Ok(told(args, text, || object([("name", number(name)), ("head", number(head))])))
}

pub fn restore(args: &Args) -> Outcome {
    let (path, name): (_, Name) = (&args.plain[0], args.plain(1, "NAME")?);
    let image = if fs::symlink_metadata(path).is_ok() { Some(Image::open_to_replace(path)?) } else { None };
    let states = kept(path)?.unwrap_or(States::from(vec![]));
    let table = Table::restore(&states, name).map_err(|refused| refused_of(path, name, refused))?;
    let head = table.len();
    match image {
        Some(mut image) => {
            image.table = table;
            image.replace()?;
        }
        None => file::write_new(path, &table.image())?,
    }
    let text = || format!("{} is as it was saved under {name}: {head} head\n", args.name(0));
    Ok(told(args, text, || object([("name", number(name)), ("head", number(head))])))
}

pub fn list_all(args: &Args) -> Outcome {
    let path = &args.plain[0];
    let states = kept(path)?.unwrap_or(States::from(vec![]));
    let (mut tables, mut refused) = (Vec::new(), Vec::new());
    for name in states.saved() {
        match Table::restore(&states, name) {
            Ok(table) => tables.push((name, table)),
            Err(fault) => refused.push(damaged(path, name, &fault)),
        }
    }
    let row = |(name, table): &(Name, Table)| {
        let metric = words::metric(table.metric()).0.to_string();
        vec![name.to_string(), table.len().to_string(), table.order().to_string(), metric]
    };
    let text = || match states.saved().next() {
        None => format!("nothing is saved of {}\n", args.name(0)),
        Some(_) => columns(&[" name", " head", " order", "metric"], &tables.iter().map(row).collect::<Vec<_>>()),
    };
    let json = || {
        let state = |(name, table): &(Name, Table)| object([("name", number(name)), ("herd", words::header(table))]);
        list(tables.iter().map(state))
    };
    Ok(Report { refused, ..told(args, text, json) })
}

// Of the file that a link leads to.
fn beside(path: &OsStr) -> OsString {
    let target = if fs::symlink_metadata(path).is_ok_and(|found| found.is_symlink()) {
        fs::canonicalize(path).ok()
    } else {
        None
    };
    file::with_suffix(target.unwrap_or(path.into()), SUFFIX)
}

fn kept(path: &OsStr) -> Result<Option<States>, Failure> {
    let path = beside(path);
    if fs::symlink_metadata(&path).is_err() { Ok(None) } else { Ok(Some(States::from(file::read(&path)?))) }
}

fn refused_of(path: &OsStr, name: Name, refused: ImageRefusal) -> Failure {
    match refused.refusal {
        Refusal::NotSaved => file::refused_of(path, format!("nothing is saved under {name}")),
        _ => report::refused(damaged(path, name, &refused)),
    }
}

fn damaged(path: &OsStr, name: Name, refused: &ImageRefusal) -> String {
    format!("{}, what is saved under {name}: {}", file::shown(&beside(path)), words::of_herd(refused))
}

// Those of a herd of a lower order are laid out anew.
fn with_room(states: States, order: Order) -> Result<States, (Name, ImageRefusal)> {
    let mut wider = States::new(order);
    if states.as_bytes().len() >= wider.as_bytes().len() {
        return Ok(states);
    }
    for name in states.saved() {
        let saved = Table::restore(&states, name).and_then(|table| Ok(table.save(&mut wider, name)?));
        saved.map_err(|refused| (name, refused))?;
    }
    Ok(wider)
}
