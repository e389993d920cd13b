//! `herd copy`: the same head in another image, by another order, metric or weights.

use vpindex::Table;

use super::new::order;
use super::told;
use crate::args::Args;
use crate::file::{self, Image};
use crate::head;
use crate::report::Outcome;
use crate::words::{self, MetricWord};

pub fn run(args: &Args) -> Outcome {
    let (order, metric, weights) = (order(args)?, args.value("--metric")?, args.value("--weights")?);
    let image = Image::open(&args.plain[0])?;
    let old = &image.table;
    let metric = metric.map_or(old.metric(), |MetricWord(metric)| metric);
    let mut table = Table::with_weights(order.unwrap_or(old.order()), metric, weights.unwrap_or(old.weights()));
    if old.len() > table.capacity() {
        let (head, order, room) = (old.len(), table.order(), table.capacity());
        return Err(image.refused(format!("it has {head} head, and order {order} is for up to {room}")));
    }
    for item in head::by_tag(old) {
        let added = table.add(item.tag, &item.profile, item.day);
        added.map_err(|refusal| image.refused(words::refused(item.tag, refusal)))?;
    }
    file::write_new(&args.plain[1], &table.image())?;
    let text = || {
        let (new, metric) = (args.name(1), words::metric(metric).0);
        format!(
            "{new} is made: order {} for up to {}, metric {metric}, {} head\n",
            table.order(),
            table.capacity(),
            table.len()
        )
    };
    Ok(told(args, text, || words::header(&table)))
}
