//! `compare SEED CALLS`: so many calls and a few more, each compared with the reference, and half of them with the
//! plain book.

use outside::history::History;
use outside::lists::{Tally, list};
use outside::random::Random;

fn main() {
    let numbers: Vec<u64> = std::env::args().skip(1).map(|word| word.parse().expect("SEED CALLS")).collect();
    let [seed, calls] = numbers[..] else { panic!("usage: compare SEED CALLS") };
    let mut random = Random::new(seed);
    let mut tally = Tally::default();
    while tally.calls() < calls as usize {
        let (order, metric, seed) = (random.below(13) as u32, random.below(3) as u32, random.word());
        println!("list {seed:#x} at order {order}, metric {metric}");
        tally.join(list(&mut Random::new(seed), order, metric, 50));
        let mut history = History::new(seed, order, metric);
        for _ in 0..50 {
            history.step();
        }
        tally.join(history.tally);
    }
    for ((call, refusal), n) in &tally.met {
        println!("{call}, {refusal}: {n}");
    }
    println!("{} calls, no difference", tally.calls());
}
