//! Random lists of calls on one table that an accepted fresh or load began, held to the plain book and to the bound on
//! all rebuilds. Each call is compared with the reference too.

use reference::book::Book;
use reference::dues::total;
use reference::image::is_sound;
use reference::item::{Entry, Item, Row, Slot, Space};
use reference::list::ListRead;
use reference::lots::Draft;
use reference::refusal::Unloaded;
use reference::table::{Bucket, Table, capacity};
use reference::tree::Hit;

use crate::calls::{Areas, Call, Reply, compare};
use crate::foreign::any_row;
use crate::lists::{Tally, change, keep, keep_states, lent, next};
use crate::random::{MAX_DAY, Random};

/// Adds, removals and the distances that they reported, since the last fresh, load or restore. The live items of an
/// image count as added, its dead ones as removed.
#[derive(Clone, Copy, Debug, Default)]
pub struct Sums {
    /// A.
    pub adds: u64,
    /// R.
    pub removals: u64,
    /// Of all rebuilds together.
    pub distances: u64,
}

impl Sums {
    // what the distances may come to at this order
    fn bound(&self, order: u32) -> u64 {
        let t = order as u64;
        4 * t * (t + 1) * self.adds + 11 * t * self.removals
    }

    fn note(&mut self, call: &Call, reply: &Reply, table: &[Row]) {
        // a list's lines stay added where a later one is refused
        if reply.refusal != 0 && !matches!(call, Call::ReadList { .. }) {
            return;
        }
        self.distances += match call {
            Call::Add { .. } | Call::Remove { .. } | Call::ReadList { .. } => reply.distances as u64,
            _ => 0,
        };
        match call {
            Call::Fresh { .. } => *self = Sums::default(),
            Call::Load | Call::Restore { .. } => {
                *self = Sums::of(&Table::open(table, |_| true).expect("a loaded table passes"))
            }
            Call::Add { .. } => self.adds += 1,
            Call::Remove { .. } => self.removals += 1,
            Call::ReadList { .. } => self.adds += reply.added as u64,
            _ => (),
        }
    }

    fn of(table: &Table) -> Sums {
        let built: usize = table.buckets.iter().map(|bucket| bucket.slots.len()).sum();
        Sums { adds: table.live() as u64, removals: (built - table.live()) as u64, distances: 0 }
    }
}

/// A list on its way.
pub struct History {
    random: Random,
    left: Vec<Row>,
    states: Vec<u8>,
    book: Book,
    sums: Sums,
    /// What was met.
    pub tally: Tally,
    /// The largest share of the bound that the distances came to, in hundredths.
    pub share: u64,
}

impl History {
    /// Begun by an accepted fresh, with any weights.
    pub fn new(seed: u64, order: u32, metric: u32) -> History {
        let mut random = Random::new(seed);
        let space = random.space(metric);
        History::begun(random, order, space)
    }

    /// Begun by an accepted fresh of this metric and these weights.
    pub fn begun(mut random: Random, order: u32, space: Space) -> History {
        let left = random.fill(reference::table::table_rows(order), any_row);
        let (book, sums, tally) = (Book::default(), Sums::default(), Tally::default());
        let mut history = History { random, left, states: vec![], book, sums, tally, share: 0 };
        let areas = Areas { table: history.left.clone(), ..Areas::default() };
        assert_eq!(history.call(&Call::Fresh { order, space }, areas).refusal, 0);
        history
    }

    /// One call more, any of the fourteen.
    pub fn step(&mut self) {
        let mut areas = lent(&mut self.random, &self.left, self.book.order);
        let call = next(&mut self.random, &mut areas, self.book.order, self.book.space, &self.states);
        self.call(&call, areas);
    }

    /// One add, removal or herd list more.
    pub fn change(&mut self) {
        let mut areas = lent(&mut self.random, &self.left, self.book.order);
        let call = change(&mut self.random, &mut areas, self.book.order);
        self.call(&call, areas);
    }

    /// This call, in areas as long as the order needs, the bytes being these.
    pub fn make(&mut self, call: &Call, bytes: Vec<u8>) -> Reply {
        let room = capacity(self.book.order);
        let (work, result) = (self.random.fill(room, any_row), vec![[1; 2]; room]);
        let areas = Areas { table: self.left.clone(), work, result, bytes, ..Areas::default() };
        self.call(call, areas)
    }

    /// The table's rows as the last call left them.
    pub fn rows(&self) -> &[Row] {
        &self.left
    }

    /// The book beside it.
    pub fn book(&self) -> &Book {
        &self.book
    }

    /// What was added up since the last fresh or load.
    pub fn sums(&self) -> Sums {
        self.sums
    }

    fn call(&mut self, call: &Call, mut areas: Areas) -> Reply {
        let lengths = [areas.table.len(), areas.work.len(), areas.result.len()];
        let reply = compare(call, &mut areas, &mut self.random);
        let hits = hits_in(&areas.result, reply.found);
        match call {
            Call::Dues => self.check_dues(&areas, &reply),
            Call::Lots { chosen } => self.check_lots(&areas, *chosen, &reply),
            _ => self.check_shown(call, &areas, lengths, &reply, hits),
        }
        self.sums.note(call, &reply, &areas.table);
        self.tally.note(call, &reply);
        keep_states(&mut self.states, call, areas.bytes);
        keep(&mut self.left, areas.table);
        self.check_state();
        reply
    }

    // Table and book are alike in the refusal (writing and saving excepted), a load's slot, look up's profile and day,
    // the number found and the entries, of a batch in each query's, and of a herd list in the line and the number added.
    fn check_shown(
        &mut self,
        call: &Call,
        areas: &Areas,
        [rows, work, room]: [usize; 3],
        reply: &Reply,
        hits: Vec<Hit>,
    ) {
        let (book, bytes) = (&mut self.book, &areas.bytes);
        let nothing = |()| (Item::default(), vec![]);
        let found = |hits| (Item::default(), hits);
        let expected = match *call {
            Call::Fresh { order, space } => book.fresh(rows, order, space).map(nothing),
            Call::Load => return same_slot(call, reply, book.load(rows, bytes)),
            Call::Restore { name } => return same_slot(call, reply, book.restore(rows, bytes, name)),
            Call::Add { tag, profile, day } => {
                book.add(rows, work, Item { tag, profile, day: day as u32 }).map(nothing)
            }
            Call::Remove { tag } => book.remove(rows, work, tag).map(nothing),
            Call::LookUp { tag } => book.look_up(rows, tag).map(|item| (Item { tag: 0, ..item }, vec![])),
            Call::Range { query, radius, first_day } => book.range(rows, room, &query, radius, first_day).map(found),
            Call::Nearest { query, k, first_day } => book.nearest(rows, room, &query, k, first_day).map(found),
            Call::RangeBatch => {
                let lists = book.range_batch(rows, room, &areas.work);
                let got = if reply.refusal == 0 { Ok(listed(areas, reply)) } else { Err(reply.refusal) };
                assert_eq!(got, lists, "table, then book: {call:?}");
                return;
            }
            Call::Write | Call::Save { .. } => return,
            Call::ReadList { day } => {
                let expected = book.read_list(rows, work, bytes, day);
                let got = ListRead { refusal: reply.refusal, line: reply.line, added: reply.added, distances: 0 };
                assert_eq!(got, expected, "table, then book: {call:?}");
                return;
            }
            Call::Dues | Call::Lots { .. } => unreachable!("held to the book by their own areas"),
        };
        let shown = Item { tag: 0, profile: reply.profile, day: reply.day };
        let got = if reply.refusal == 0 { Ok((shown, hits)) } else { Err(reply.refusal) };
        assert_eq!(got, expected, "table, then book: {call:?}");
    }

    // In the refusal, the dues and the total.
    fn check_dues(&self, areas: &Areas, reply: &Reply) {
        let expected = self.book.dues(areas.table.len(), areas.dues.len(), &areas.tags);
        let dues = areas.dues.iter().copied().take(areas.tags.len()).collect();
        let got = if reply.refusal == 0 { Ok(dues) } else { Err(reply.refusal) };
        assert_eq!(got, expected, "table, then book: dues of {:?}", areas.tags);
        assert_eq!(reply.total, expected.map_or(0, |dues| total(&dues)), "the total of {:?}", areas.tags);
    }

    // In the refusal, the summary and the listing.
    fn check_lots(&self, areas: &Areas, chosen: u32, reply: &Reply) {
        let lengths = [areas.draft.len(), areas.summary.len(), areas.listing.len()];
        let expected = self.book.lots(areas.table.len(), lengths, &areas.radii, chosen);
        let summary = areas.summary.iter().copied().take(areas.radii.len()).collect();
        let listing = areas.listing.iter().copied().take_while(|entry| entry[1] != 0).collect();
        let got = if reply.refusal == 0 { Ok(Draft { summary, listing }) } else { Err(reply.refusal) };
        assert_eq!(got, expected, "table, then book: lots by {:?}", areas.radii);
    }

    // The book's items, each once, are those in the built slots of mark 0; the distances keep within the bound.
    fn check_state(&mut self) {
        let table = Table::open(&self.left, |_| true).expect("order, metric, weights and sizes pass");
        assert_eq!((table.order, table.space), (self.book.order, self.book.space));
        let items = table.buckets.iter().flat_map(Bucket::live_items).map(Slot::item);
        assert_eq!(by_tag(items.collect()), by_tag(self.book.items.clone()));
        let mut slots = table.buckets.iter().flat_map(|bucket| &bucket.slots);
        assert!(slots.all(|slot| (1..=MAX_DAY as u32).contains(&slot.day)), "the days of dead slots too are valid");
        if table.order < 7 || self.random.one_in(16) {
            assert!(is_sound(&table), "fields, marks and trees keep the rules");
        }
        let bound = self.sums.bound(table.order);
        assert!(self.sums.distances <= bound, "{:?} at order {}", self.sums, table.order);
        self.share = self.share.max(100 * self.sums.distances / bound.max(1));
    }
}

fn same_slot(call: &Call, reply: &Reply, expected: Result<(), Unloaded>) {
    let got = if reply.refusal == 0 { Ok(()) } else { Err(Unloaded { refusal: reply.refusal, slot: reply.slot }) };
    assert_eq!(got, expected, "table, then book: {call:?}");
}

fn hits_in(area: &[Entry], found: u32) -> Vec<Hit> {
    area.iter().take(found as usize).map(|entry| (entry[1] as u32, entry[0])).collect()
}

// The lists in the parts of a batch's area.
fn listed(areas: &Areas, reply: &Reply) -> Vec<Vec<Hit>> {
    let part = areas.result.len() / areas.work.len();
    (0..areas.work.len()).map(|j| hits_in(&areas.result[j * part..], reply.each_found[j] as u32)).collect()
}

fn by_tag(mut items: Vec<Item>) -> Vec<Item> {
    items.sort_by_key(|item| item.tag);
    items
}
