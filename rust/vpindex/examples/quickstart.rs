//! Adds a small herd, asks both questions, once more of those weighed of late and once where kilos weigh more, removes
//! one, saves and loads an image, and reads a list of two more.
//!
//! It writes what `c/quickstart.c` writes; `c/quickstart.expected` has it.

use vpindex::{Day, Error, Hits, ListRefusal, Metric, Order, Profile, Table, Tag, Weights};

// national number; weight, hip height, girth and daily gain, in hundredths; the day of the year
const ITEMS: [(u64, [i32; 4], u16); 6] = [
    (101, [41_250, 12_900, 18_500, 95], 305),
    (102, [39_800, 12_700, 18_100, 90], 305),
    (103, [55_600, 13_800, 20_700, 120], 291),
    (104, [40_900, 12_850, 18_450, 102], 212),
    (105, [56_100, 13_750, 20_900, 118], 305),
    (106, [28_300, 11_400, 15_600, 88], 298),
];

// of day 306; the second is in the table already
const LIST: &str = "tag;kg;hip;girth;gain\n\
                    036000000000107;402,50;128,00;183,00;-0,35\n\
                    036000000000101;412,50;129,00;185,00;0,95\n";

fn main() -> Result<(), Error> {
    let order = Order::holding(ITEMS.len())?;
    let mut table = Table::new(order, Metric::SumOfDifferences);
    for (national, measures, day) in ITEMS {
        let added = table.add(Tag::new(36, national)?, &Profile::new(measures, [0, 0])?, Day::new(day)?)?;
        println!("add {national}: bucket {}, {} distances", added.bucket, added.distances);
    }

    let query = Profile::new([41_000, 12_900, 18_400, 100], [0, 0])?;
    print("range 500", table.range(&query, 500, None));
    print("nearest 3", table.nearest(&query, 3, None)?);
    print("nearest 3, since day 290", table.nearest(&query, 3, Some(Day::new(290)?))?);

    // kilos ten times, the daily gain not at all
    let mut weighted = Table::with_weights(order, Metric::SumOfDifferences, Weights::new([10, 1, 1, 0])?);
    for (national, measures, day) in ITEMS {
        weighted.add(Tag::new(36, national)?, &Profile::new(measures, [0, 0])?, Day::new(day)?)?;
    }
    print("nearest 3, kilos weigh more", weighted.nearest(&query, 3, None)?);

    let tag = Tag::new(36, 104)?;
    println!("remove {}: {} distances", tag.national(), table.remove(tag)?);
    if let Err(refusal) = table.remove(tag) {
        println!("remove {} again: refusal {}", tag.national(), refusal.number());
    }
    let image = table.image();
    println!("image: {} bytes", image.len());
    let mut loaded = Table::load(&image)?;
    print("nearest 3, loaded", loaded.nearest(&query, 3, None)?);

    match loaded.read_list(LIST.as_bytes(), Day::new(306)?) {
        Ok(read) => println!("list: {} added, {} distances", read.added, read.distances),
        Err(ListRefusal { line, refusal, added, distances, .. }) => {
            println!("list: {added} added, {distances} distances; line {line}: refusal {}", refusal.number());
        }
    }
    println!("look up 107: weighed on day {}", loaded.look_up(Tag::new(36, 107)?)?.day.get());
    print("nearest 3, with the list", loaded.nearest(&query, 3, None)?);
    Ok(())
}

fn print(question: &str, hits: Hits) {
    println!("{question}: {} found, {} distances", hits.len(), hits.distances());
    for hit in &hits {
        println!("  {} {}", hit.tag(), hit.distance());
    }
}
