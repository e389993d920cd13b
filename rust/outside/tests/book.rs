//! Lists of calls held to the plain book and to the bound on all rebuilds.

use outside::history::History;

// Calls of every kind, refused ones too, at every order and by every metric.
#[test]
fn table_and_book_are_alike() {
    let mut calls = 0;
    for order in 0..=12 {
        for (metric, seed) in [(0, 1), (1, 2), (2, 3), (0, 4), (1, 5), (2, 6)] {
            let mut history = History::new(seed * 100 + order as u64, order, metric);
            for _ in 0..170 {
                history.step();
            }
            calls += history.tally.calls();
        }
    }
    println!("{calls} calls");
}

// Adds, removals and herd lists alone: no fresh and no load, so that the sums are never begun again.
#[test]
fn rebuilds_keep_within_the_bound() {
    for order in 1..=8 {
        for metric in 0..=2 {
            let mut history = History::new(7 + order as u64, order, metric);
            for _ in 0..1000 {
                history.change();
            }
            println!("order {order}, metric {metric}: the rebuilds came to at most {} % of their bound", history.share);
        }
    }
}
