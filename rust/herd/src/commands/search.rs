//! `herd range` and `herd nearest`, of one query or several.

use vpindex::{Hit, Item, Profile, RangeQuery, Refusal, Tag};

use super::told;
use crate::args::Args;
use crate::calendar::Calendar;
use crate::file::Image;
use crate::head;
use crate::json::{Json, list, number, object, text};
use crate::report::{Outcome, Report};
use crate::words::{Radius, Whole, of_herd};

// As many queries as one call takes.
const BATCH: usize = 16;

/// What was found: of which head, if it is one, how far, and what.
#[derive(Default)]
struct Found {
    hits: Vec<(Option<Tag>, u32, Item)>,
    distances: u64,
}

impl Found {
    fn take(&mut self, image: &Image, of: Option<Tag>, hits: &[Hit]) {
        let item = |tag| image.table.get(tag).expect("what was found is in the herd");
        self.hits.extend(hits.iter().map(|hit| (of, hit.distance(), item(hit.tag()))));
    }
}

pub fn range(args: &Args) -> Outcome {
    let radius: Radius = args.plain(1, "RADIUS")?;
    let (calendar, queries) = (Calendar::of(args)?, args.queries(2)?);
    let first_day = args.day("--since", &calendar)?;
    let image = Image::open(&args.plain[0])?;
    let (radius, queries) = (radius.by(image.table.metric())?, queries.profiles(&image)?);
    let mut found = Found::default();
    for some in queries.chunks(BATCH) {
        let query = |&(_, profile): &(Option<Tag>, Profile)| RangeQuery { profile, radius, first_day };
        let batch = image.table.range_batch(&some.iter().map(query).collect::<Vec<_>>());
        let batch = batch.map_err(|refusal| image.refused(of_herd(refusal)))?;
        found.distances += u64::from(batch.distances());
        some.iter().zip(batch.iter()).for_each(|((of, _), hits)| found.take(&image, *of, hits));
    }
    Ok(told_of(args, &found, queries.len(), &calendar))
}

pub fn nearest(args: &Args) -> Outcome {
    let Whole(count) = args.plain(1, "K")?;
    let (calendar, queries) = (Calendar::of(args)?, args.queries(2)?);
    let first_day = args.day("--since", &calendar)?;
    let image = Image::open(&args.plain[0])?;
    let (mut found, queries) = (Found::default(), queries.profiles(&image)?);
    for (of, profile) in &queries {
        let hits = image.table.nearest(profile, count, first_day).map_err(|refusal| match refusal {
            Refusal::NoCount => image.refused("K is 0, and the nearest are counted from 1"),
            _ => image.refused(of_herd(refusal)),
        })?;
        found.distances += u64::from(hits.distances());
        found.take(&image, *of, &hits);
    }
    Ok(told_of(args, &found, queries.len(), &calendar))
}

// Where there are several queries, each head stands behind the tag of its own.
fn told_of(args: &Args, found: &Found, queries: usize, calendar: &Calendar) -> Report {
    let columns = || {
        let more = |of: &Option<Tag>, distance: &u32| match of {
            Some(tag) if queries > 1 => vec![tag.to_string(), distance.to_string()],
            _ => vec![distance.to_string()],
        };
        let headers: &[&str] = if queries > 1 { &["of", " distance"] } else { &[" distance"] };
        head::rows(headers, found.hits.iter().map(|(of, distance, item)| (more(of, distance), item)), calendar)
    };
    let json = || {
        let hit = |(of, distance, item): &(Option<Tag>, u32, Item)| {
            head::json([("of", of.map_or(Json::None, text)), ("distance", number(distance))], item, calendar)
        };
        object([("found", list(found.hits.iter().map(hit))), ("distances", number(found.distances))])
    };
    told(args, columns, json)
}
