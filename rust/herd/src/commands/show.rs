//! `herd show`: what an image's table is made of.

use vpindex::{Bucket, Table};

use super::told;
use crate::args::Args;
use crate::file::Image;
use crate::json::{Json, list, number, object};
use crate::layout::{bucket_bar, columns};
use crate::report::Outcome;
use crate::words::{self, MEASURES};

pub fn run(args: &Args) -> Outcome {
    let image = Image::open(&args.plain[0])?;
    let text = || format!("{}\n{}", head(args, &image), buckets(&image.table));
    Ok(told(args, text, || json(&image)))
}

fn head(args: &Args, image: &Image) -> String {
    let table = &image.table;
    let (live, dead) = (table.len(), table.buckets().map(|bucket| bucket.built() - bucket.live()).sum::<usize>());
    let (metric, meaning) = words::metric(table.metric());
    let weights = MEASURES.iter().zip(table.weights().each()).map(|(name, weight)| format!("{name} {weight}"));
    let lines = [
        ("image", args.name(0)),
        ("form", format!("{} of {} bytes", words::form(&image.bytes), image.bytes.len())),
        ("order", format!("{}, for up to {} head", table.order(), table.capacity())),
        ("metric", format!("{metric}: {meaning}")),
        ("weights", weights.collect::<Vec<_>>().join(", ")),
        ("head", format!("{live} live, {dead} removed and not cleared yet")),
    ];
    lines.map(|(name, value)| format!("{name:<9}{value}\n")).concat()
}

fn buckets(table: &Table) -> String {
    let row = |bucket: Bucket| {
        let (room, built, live) = (bucket.room(), bucket.built(), bucket.live());
        let [number, room_of, built_of, live_of, dead] =
            [bucket.number() as usize, room, built, live, built - live].map(|count| count.to_string());
        vec![number, room_of, built_of, live_of, dead, bucket_bar(live, built, room)]
    };
    let rows: Vec<_> = table.buckets().map(row).collect();
    columns(&[" bucket", " room", " built", " live", " dead", ""], &rows)
}

fn json(image: &Image) -> Json {
    let bucket = |bucket: Bucket| {
        let (built, live) = (bucket.built(), bucket.live());
        object([
            ("bucket", number(bucket.number())),
            ("room", number(bucket.room())),
            ("built", number(built)),
            ("live", number(live)),
            ("dead", number(built - live)),
        ])
    };
    object([
        ("form", number(words::form(&image.bytes))),
        ("bytes", number(image.bytes.len())),
        ("table", words::header(&image.table)),
        ("buckets", list(image.table.buckets().map(bucket))),
    ])
}
