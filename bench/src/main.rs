//! Measures the calls beside plain Rust programs on the same herds in the same run, and compares what they give on the
//! way. `bench FOLDER [SEED]` writes calls.md and growth.svg into the folder; bench/run.sh runs it. `bench nearest
//! SEED..` prints what nearest takes beside the scan, a line for each herd, its past, metric and seed;
//! bench/nearest.sh runs it. `bench batch [SEED]` prints what batches of 16 queries take beside as many single calls;
//! bench/batch.sh runs it. `bench lots [SEED]` prints what a drafting takes, a line for each herd, metric and list of
//! radii; bench/lots.sh runs it.

mod changes;
mod index;
mod items;
mod lots;
mod measure;
mod plain;
mod plot;
mod searches;

use std::fmt::Write;
use std::{env, fs};

use changes::Work;
use items::{SPREADS, Spread};
use plot::Series;
use searches::{Full, Past};

const ORDERS: [u32; 5] = [4, 6, 8, 10, 12];
const METRICS: [u32; 3] = [0, 1, 2];
const SEED: u64 = 0x9E37_79B9_7F4A_7C15;

fn main() {
    let words: Vec<String> = env::args().skip(1).collect();
    match words.split_first() {
        Some((word, seeds)) if word == "nearest" => print_nearest(seeds),
        Some((word, seeds)) if word == "batch" => print_batches(first_seed(seeds)),
        Some((word, seeds)) if word == "lots" => print_lots(first_seed(seeds)),
        Some((folder, seeds)) => write_all(folder, first_seed(seeds)),
        None => eprintln!("usage: bench FOLDER [SEED], bench nearest SEED.., bench batch [SEED], or bench lots [SEED]"),
    }
}

fn seed_of(word: &str) -> u64 {
    u64::from_str_radix(word, 16).expect("a seed in hexadecimal")
}

fn first_seed(seeds: &[String]) -> u64 {
    seeds.first().map_or(SEED, |word| seed_of(word))
}

fn write_all(folder: &str, seed: u64) {
    let (growth, panels) = growth(seed);
    let tables = format!("{}\n{}\n{growth}", all_searches(seed), all_changes(seed));
    print!("{tables}");
    fs::write(format!("{folder}/calls.md"), tables).expect("calls.md written");
    fs::write(format!("{folder}/growth.svg"), plot::svg(&panels)).expect("growth.svg written");
}

// Herd, its past, metric, seed, slots met, nanoseconds by the call and by the scan: medians of both, taken in turn.
fn print_nearest(seeds: &[String]) {
    for spread in SPREADS {
        for (past, name) in [(Past::Added, "added"), (Past::Removed, "removed"), (Past::Replaced, "replaced")] {
            for metric in METRICS {
                for seed in seeds {
                    let line = Full::with_past(seed_of(seed), spread, 12, metric, past).nearest();
                    let searches::Line { visited, calls, scan, .. } = line;
                    println!("{}|{name}|{metric}|{seed}|{visited:.0}|{calls:.0}|{scan:.0}", spread.name);
                }
            }
        }
    }
}

// Over 4,096 items, 16 queries about one centre and 16 like the items.
fn print_batches(seed: u64) {
    println!("| herd | metric | queries | found | slots met | singly | share | batch µs | singly µs | /singly |");
    println!("|---|---|---|---|---|---|---|---|---|---|");
    for spread in SPREADS {
        for metric in METRICS {
            let mut full = Full::new(seed, spread, 12, metric);
            for (queries, alike) in [("alike", Some((seed, spread))), ("spread", None)] {
                for hits in [10, 100] {
                    let searches::Batches { found, met, met_singly, batch, singles } = full.batches(alike, hits);
                    let (share, ratio) = (met / met_singly, batch / singles);
                    let [batch, singles] = [batch, singles].map(|time| time / 1000.0);
                    println!(
                        "| {} | {metric} | {queries} | {found:.0} | {met:.0} | {met_singly:.0} | {share:.2} | {batch:.1} | {singles:.1} | {ratio:.2} |",
                        spread.name
                    );
                }
            }
        }
    }
}

fn print_lots(seed: u64) {
    println!("| herd | metric | radii | distances | calls ms | plain ms | /plain |\n|---|---|---|---|---|---|---|");
    for spread in [SPREADS[0], SPREADS[3]] {
        for metric in METRICS {
            for line in lots::lines(seed, spread, metric) {
                let lots::Line { radii, distances, calls, plain } = line;
                let name = spread.name;
                println!(
                    "| {name} | {metric} | {radii} | {distances} | {calls:.2} | {plain:.2} | {:.2} |",
                    calls / plain
                );
            }
        }
    }
}

fn search_row(line: &searches::Line) -> String {
    let searches::Line { search, found, visited, calls, plain, scan } = line;
    let (to_plain, to_scan) = (calls / plain, calls / scan);
    format!(
        "{search} | {found:.1} | {visited:.1} | {calls:.0} | {plain:.0} | {scan:.0} | {to_plain:.2} | {to_scan:.2} |"
    )
}

fn all_searches(seed: u64) -> String {
    let mut table =
        "| herd | metric | search | found | visited | calls ns | plain ns | scan ns | /plain | /scan |\n".to_string();
    table += "|---|---|---|---|---|---|---|---|---|---|\n";
    for spread in SPREADS {
        for metric in METRICS {
            eprintln!("searches: {}, metric {metric}", spread.name);
            let mut full = Full::new(seed, spread, 12, metric);
            let lines = [full.nearest(), full.range(10, None), full.range(10, Some(4096)), full.range(1000, None)];
            for line in &lines {
                _ = writeln!(table, "| {} | {metric} | {}", spread.name, search_row(line));
            }
        }
    }
    table
}

fn change_row(line: &changes::Line) -> String {
    let changes::Line { call, calls, plain } = line;
    format!("{call} | {:.2} | {:.2} | {:.2} |", calls / 1000.0, plain / 1000.0, calls / plain)
}

fn all_changes(seed: u64) -> String {
    let mut table = "| herd | metric | call | calls µs | plain µs | /plain |\n|---|---|---|---|---|---|\n".to_string();
    for spread in [SPREADS[0], SPREADS[3]] {
        for metric in METRICS {
            eprintln!("changes: {}, metric {metric}", spread.name);
            for line in Work::new(seed, spread, 12, metric).measure(5) {
                _ = writeln!(table, "| {} | {metric} | {}", spread.name, change_row(&line));
            }
        }
    }
    table
}

// At each order a full table of the first spread: a table of all lines, and for each metric a panel of the plot.
fn growth(seed: u64) -> (String, Vec<(String, Vec<Series>)>) {
    let mut table =
        "| T | metric | call | calls µs | plain µs | /plain | scan µs |\n|---|---|---|---|---|---|---|\n".to_string();
    let mut panels = vec![];
    for metric in METRICS {
        let mut lines: Vec<Series> = vec![];
        for order in ORDERS {
            eprintln!("growth: order {order}, metric {metric}");
            let rows = at_order(seed, SPREADS[0], order, metric);
            for row in &rows {
                let [calls, plain, scan] = row.times.map(|time| time / 1000.0);
                let scan = if scan > 0.0 { format!("{scan:.2}") } else { String::new() };
                let name = row.name;
                _ = writeln!(
                    table,
                    "| {order} | {metric} | {name} | {calls:.2} | {plain:.2} | {:.2} | {scan} |",
                    calls / plain
                );
            }
            plotted(&mut lines, order, &rows);
        }
        panels.push((format!("metric {metric}, clustered: time of a call against items"), lines));
    }
    (table, panels)
}

// Nanoseconds by the calls, in plain Rust, and by the scan where there is one, else 0.
struct Row {
    name: &'static str,
    times: [f64; 3],
}

fn at_order(seed: u64, spread: Spread, order: u32, metric: u32) -> Vec<Row> {
    let mut full = Full::new(seed, spread, order, metric);
    let (nearest, range) = (full.nearest(), full.range(10, None));
    let search = |name, line: searches::Line| Row { name, times: [line.calls, line.plain, line.scan] };
    let mut rows = vec![search("nearest 10", nearest), search("range ~10", range)];
    let rounds = if order < 10 { 51 } else { 5 };
    let changes = Work::new(seed, spread, order, metric).measure(rounds);
    rows.extend(changes.into_iter().map(|line| Row { name: line.call, times: [line.calls, line.plain, 0.0] }));
    rows
}

fn plotted(lines: &mut Vec<Series>, order: u32, rows: &[Row]) {
    let of = |name: &str, at: usize| {
        let row = rows.iter().find(|row| row.name == name).expect("measured");
        row.times[at]
    };
    let values = [
        ("nearest 10", of("nearest 10", 0)),
        ("nearest 10, plain Rust", of("nearest 10", 1)),
        ("scan that keeps the ten best", of("nearest 10", 2)),
        ("add, a day at half full", of("add, a day at half full", 0)),
        ("remove, a day at half full", of("remove, a day at half full", 0)),
        ("load", of("load", 0)),
    ];
    if lines.is_empty() {
        lines.extend(values.iter().map(|(name, _)| Series { name: name.to_string(), points: vec![] }));
    }
    for (line, (_, time)) in lines.iter_mut().zip(values) {
        line.points.push(((1u64 << order) as f64, time));
    }
}
