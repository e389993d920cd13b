//! `herd new`: an image of a herd without head.

use vpindex::{Order, Table, Weights};

use super::told;
use crate::args::{Args, misuse};
use crate::file;
use crate::report::{Failure, Outcome};
use crate::words::{self, MetricWord, Whole};

pub fn run(args: &Args) -> Outcome {
    let (Some(order), Some(MetricWord(metric))) = (order(args)?, args.value("--metric")?) else {
        return misuse("--metric and one of --head and --order have to be there");
    };
    let weights = args.value::<Weights>("--weights")?.unwrap_or_default();
    let table = Table::with_weights(order, metric, weights);
    file::write_new(&args.plain[0], &table.image())?;
    let text = || {
        let path = args.name(0);
        format!("{path} is made: order {order} for up to {}, metric {}\n", table.capacity(), words::metric(metric).0)
    };
    Ok(told(args, text, || words::header(&table)))
}

/// The order that was typed, or the least for as many head as were typed.
pub fn order(args: &Args) -> Result<Option<Order>, Failure> {
    match (args.value("--order")?, args.value("--head")?) {
        (Some(_), Some(_)) => misuse("either --order or --head"),
        (order, None) => Ok(order),
        (None, Some(Whole(head))) => match Order::holding(head as usize) {
            Ok(order) => Ok(Some(order)),
            Err(_) => misuse(format!("--head `{head}`: a herd holds up to {}", Order::MAX.capacity())),
        },
    }
}
