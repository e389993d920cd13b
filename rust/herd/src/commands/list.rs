//! `herd list`: the live head.

use super::told;
use crate::args::{Args, misuse};
use crate::calendar::Calendar;
use crate::file::Image;
use crate::head;
use crate::json::list;
use crate::report::Outcome;

pub fn run(args: &Args) -> Outcome {
    if args.has("--csv") && args.has("--json") {
        return misuse("either --csv or --json");
    }
    let calendar = Calendar::of(args)?;
    let items = head::by_tag(&Image::open(&args.plain[0])?.table);
    let csv = || {
        let lines = items.iter().map(|item| head::fields(item, &calendar).join(","));
        // no field has a comma or a quote in it
        [head::csv_header()].into_iter().chain(lines).map(|line| line + "\n").collect()
    };
    let columns = || head::rows(&[], items.iter().map(|item| (vec![], item)), &calendar);
    let text = || if args.has("--csv") { csv() } else { columns() };
    Ok(told(args, text, || list(items.iter().map(|item| head::json([], item, &calendar)))))
}
