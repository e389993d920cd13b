//! `herd lots`: how radii would draft the herd.

use vpindex::{Lots, Metric, Order, Table, Tag};

use super::told;
use crate::args::{Args, misuse};
use crate::file::Image;
use crate::json::{Json, list, number, object, text};
use crate::layout::{bar, columns};
use crate::progress::Progress;
use crate::report::{Failure, Outcome};
use crate::words::{Radius, Whole, of_herd};

const BAR: usize = 20;
// As many as one call takes.
const MOST_RADII: usize = 32;
// Tags of a lot in a line, so that it has less than 80 characters.
const TAGS: usize = 4;

pub fn run(args: &Args) -> Outcome {
    let radii: Vec<Radius> = args.rest(1, "RADIUS")?;
    let chosen = args.value("--list")?.map(|Whole(place)| place);
    check(radii.len(), chosen.unwrap_or(1))?;
    let image = Image::open(&args.plain[0])?;
    let radii = radii.into_iter().map(|radius| radius.by(image.table.metric())).collect::<Result<Vec<u32>, _>>()?;
    let by_radius = drafted(&image, &radii)?;
    let listed = chosen.map(|place| place as usize - 1).map(|at| (radii[at], &by_radius[at]));
    let text = || {
        let listing = listed.map(|(radius, lots)| listing(radius, lots));
        summary(&radii, &by_radius, image.table.len()) + &listing.unwrap_or_default()
    };
    Ok(told(args, text, || json(&radii, &by_radius, listed)))
}

// Whether the call takes so many radii, of which a herd without head tells at once.
fn check(count: usize, chosen: u32) -> Result<(), Failure> {
    match Table::new(Order::MIN, Metric::SumOfDifferences).lots(&vec![0; count], chosen) {
        Ok(_) => Ok(()),
        Err(_) if count > MOST_RADII => misuse(format!("{count} radii are too many: {MOST_RADII} are the most")),
        Err(_) => misuse(format!("--list {chosen} is none of the radii, whose number is {count}")),
    }
}

// The lots by each radius. One call would do for all of them, but not say how far it is.
fn drafted(image: &Image, radii: &[u32]) -> Result<Vec<Lots>, Failure> {
    let progress = Progress::new("radii", radii.len());
    let lots = |(done, &radius): (usize, &u32)| {
        progress.show(done);
        image.table.lots(&[radius], 1).map_err(|refusal| image.refused(of_herd(refusal)))
    };
    radii.iter().enumerate().map(lots).collect()
}

fn largest(lots: &Lots) -> usize {
    lots.by_radius()[0].largest as usize
}

fn summary(radii: &[u32], by_radius: &[Lots], head: usize) -> String {
    let with_bar = |count: usize| [count.to_string(), bar(count, head, BAR)];
    let row = |(radius, lots): (&u32, &Lots)| {
        let ([lots, lots_bar], [largest, largest_bar]) = (with_bar(lots.len()), with_bar(largest(lots)));
        vec![radius.to_string(), lots, lots_bar, largest, largest_bar]
    };
    let rows: Vec<_> = radii.iter().zip(by_radius).map(row).collect();
    columns(&[" radius", " lots", "", " largest", ""], &rows)
}

fn listing(radius: u32, lots: &Lots) -> String {
    let tags = |tags: &[Tag]| tags.iter().map(|tag| tag.to_string()).collect::<Vec<_>>().join(" ");
    // the number of a lot and of its head stand at the first line of its tags
    let rows = lots.iter().zip(1..).flat_map(|(lot, at): (&[Tag], u32)| {
        let front = [at.to_string(), lot.len().to_string()];
        lot.chunks(TAGS).enumerate().map(move |(line, some)| {
            let [at, head] = if line == 0 { front.clone() } else { Default::default() };
            vec![at, head, tags(some)]
        })
    });
    format!("\nlots by radius {radius}\n{}", columns(&[" lot", " head", "tags"], &rows.collect::<Vec<_>>()))
}

fn json(radii: &[u32], by_radius: &[Lots], listed: Option<(u32, &Lots)>) -> Json {
    let row = |(radius, lots): (&u32, &Lots)| {
        object([("radius", number(radius)), ("lots", number(lots.len())), ("largest", number(largest(lots)))])
    };
    let lots = |lots: &Lots| list(lots.iter().map(|lot| list(lot.iter().map(text))));
    let listed =
        listed.map_or(Json::None, |(radius, listed)| object([("radius", number(radius)), ("lots", lots(listed))]));
    object([("by_radius", list(radii.iter().zip(by_radius).map(row))), ("listed", listed)])
}
