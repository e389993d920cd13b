//! What history cannot show: two lists of calls that end in the same items, by the same metric and weights, answer the
//! same, whatever else was added, removed or loaded in either and whatever their orders.

use outside::calls::{Areas, Call, Reply, by_archive};
use outside::history::History;
use outside::random::Random;
use reference::image;
use reference::item::{Entry, Item, MAX_ORDER, Row, Slot};
use reference::table::{Table, capacity};

// How often the pairs differed where they may, so that a test which compares a table with itself would show.
#[derive(Debug, Default)]
struct Seen {
    pairs: usize,
    orders: usize,
    rows: usize,
    searches: usize,
    counts: usize,
    ties: usize,
    batches: usize,
}

// Another list, of any order that holds the items, which comes to the same items: begun by a fresh, or by a load of what
// the first left, then changed at random, then mended in any order.
fn to_the_same(first: &History, random: &mut Random) -> History {
    let items = first.book().items.clone();
    let least = (0..=MAX_ORDER).find(|&order| capacity(order) >= items.len()).expect("an order holds them");
    let order = least + random.below(2.min((MAX_ORDER - least) as usize) + 1) as u32;
    let mut second = History::begun(Random::new(random.word()), order, first.book().space);
    if first.book().order == order && random.one_in(2) {
        let bytes = image::bytes(&Table::open(first.rows(), |_| true).expect("a table of the method"));
        assert_eq!(second.make(&Call::Load, bytes).refusal, 0);
    }
    for _ in 0..random.below(3 * capacity(order.min(6))) {
        second.change();
    }
    mend(&mut second, &items, random);
    second
}

fn mend(history: &mut History, items: &[Item], random: &mut Random) {
    loop {
        let book = history.book();
        let room = book.items.len() < capacity(book.order);
        let wrong = book.items.iter().filter(|item| !items.contains(item)).map(|item| Call::Remove { tag: item.tag });
        let lacking = items.iter().filter(|item| room && book.items.iter().all(|other| other.tag != item.tag));
        let added = lacking.map(|&Item { tag, profile, day }| Call::Add { tag, profile, day: day as u16 });
        let calls: Vec<Call> = wrong.chain(added).collect();
        if calls.is_empty() {
            return;
        }
        assert_eq!(history.make(&random.pick(&calls), vec![]).refusal, 0);
    }
}

// A search into an area of so many entries, with the queries of a batch: the reply, and the area after it.
fn asked(rows: &[Row], call: &Call, queries: &[Row], room: usize) -> (Reply, Vec<Entry>) {
    let (table, work, result) = (rows.to_vec(), queries.to_vec(), vec![[7; 2]; room]);
    let mut areas = Areas { table, work, result, ..Areas::default() };
    let reply = by_archive(call, areas.lent());
    assert_eq!(areas.table, rows, "a search leaves the table");
    (reply, areas.result)
}

// A search into an area of so many entries: the reply, and the entries found.
fn search(rows: &[Row], call: &Call, room: usize) -> (Reply, Vec<Entry>) {
    let (reply, mut result) = asked(rows, call, &[], room);
    result.truncate(reply.found as usize);
    (reply, result)
}

// A batch into parts of so many entries, and some left over: the reply, and the entries of each query.
fn batch(rows: &[Row], queries: &[Row], part: usize, over: usize) -> (Reply, Vec<Vec<Entry>>) {
    let (reply, result) = asked(rows, &Call::RangeBatch, queries, queries.len() * part + over);
    let found = |j: usize| result[j * part..][..reply.each_found[j] as usize].to_vec();
    (reply, (0..queries.len()).map(found).collect())
}

fn compare_batches(first: &History, second: &History, queries: &[Row], random: &mut Random, seen: &mut Seen) {
    let (reply, lists) = batch(first.rows(), queries, capacity(first.book().order), random.below(queries.len()));
    let most = lists.iter().map(Vec::len).max().unwrap_or(0);
    let (other, same) = batch(second.rows(), queries, most + random.below(2), random.below(queries.len()));
    assert_eq!((reply.refusal, reply.each_found, &lists), (other.refusal, other.each_found, &same), "{queries:?}");
    seen.batches += (most > 0) as usize;
}

fn compare(first: &History, second: &History, call: &Call, random: &mut Random, seen: &mut Seen) {
    let room = capacity(first.book().order) + random.below(3);
    let (reply, entries) = search(first.rows(), call, room);
    let (other, same) = search(second.rows(), call, entries.len() + random.pick(&[0, 0, 1, 9]));
    assert_eq!((reply.refusal, reply.found, &entries), (other.refusal, other.found, &same), "{call:?}");
    if !entries.is_empty() {
        assert_eq!(search(second.rows(), call, entries.len() - 1).0.refusal, 6, "one entry too few");
    }
    seen.searches += 1;
    seen.counts += (reply.distances != other.distances) as usize;
    seen.ties += entries.windows(2).any(|pair| pair[0][1] == pair[1][1]) as usize;
}

fn search_both(first: &History, second: &History, random: &mut Random, seen: &mut Seen) {
    let mut queries: Vec<Row> = vec![];
    for _ in 0..40 {
        let item = random.below(first.book().items.len().max(1));
        let of_item = first.book().items.get(item).filter(|_| random.one_in(2)).map(|item| item.profile);
        let query = of_item.unwrap_or_else(|| if random.one_in(12) { random.bad_profile() } else { random.profile() });
        let first_day = random.first_day();
        let radius = random.reach();
        compare(first, second, &Call::Range { query, radius, first_day }, random, seen);
        let day = first_day as u32;
        queries.push(Slot { profile: query, threshold: radius, day, ..Slot::default() }.row());
        if queries.len() > random.below(16) {
            compare_batches(first, second, &queries, random, seen);
            queries.clear();
        }
        let k = if random.one_in(8) { random.pick(&[0, u32::MAX]) } else { 1 + random.below(20) as u32 };
        compare(first, second, &Call::Nearest { query, k, first_day }, random, seen);
    }
    seen.pairs += 1;
    seen.orders += (first.book().order != second.book().order) as usize;
    seen.rows += (first.rows() != second.rows()) as usize;
}

// Lists of every kind of call, refused ones too, each with another that ends as it does.
#[test]
fn lists_that_end_in_the_same_items() {
    let (mut random, mut seen) = (Random::new(12), Seen::default());
    for round in 0..300 {
        let mut first = History::new(random.word(), round % 9, round / 9 % 3);
        for _ in 0..60 + random.below(120) {
            first.step();
        }
        let second = to_the_same(&first, &mut random);
        search_both(&first, &second, &mut random, &mut seen);
    }
    println!("{seen:?}");
    let Seen { pairs, orders, rows, searches, counts, ties, batches } = seen;
    assert!(3 * orders > pairs && 2 * rows > pairs, "the pairs differ in order and rows");
    assert!(batches > pairs, "batches find something");
    assert!(10 * counts > searches && 10 * ties > searches, "they differ in counts, and have equal distances");
}
