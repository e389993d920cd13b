//! The archive beside the reference, call by call.

use outside::lists::{NUMBERS, Tally, list};
use outside::random::Random;

fn lists_of(orders: std::ops::RangeInclusive<u32>, lists: u64) -> Tally {
    let mut tally = Tally::default();
    for order in orders {
        for (metric, seed) in (0..3 * lists).map(|n| (n as u32 % 3, n)) {
            let mut random = Random::new(1 + seed * 100 + order as u64);
            tally.join(list(&mut random, order, metric, 40));
        }
    }
    tally
}

// Lists of calls on tables of every kind, at every order and by every metric. Each call is met accepted and refused by
// each of its numbers, or the lists are no test.
#[test]
fn lists_of_calls() {
    let mut tally = lists_of(0..=8, 20);
    tally.join(lists_of(9..=12, 8));
    println!("{} calls: {tally:?}", tally.calls());
    assert!(tally.shrunk >= 100);
    assert!(tally.stopped >= 100);
    for (call, numbers) in NUMBERS {
        for number in numbers {
            assert!(tally.met.get(&(call, *number)).is_some_and(|&n| n >= 10), "{call} was hardly met with {number}");
        }
    }
}
