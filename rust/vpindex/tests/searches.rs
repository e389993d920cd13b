//! Searches by several threads, searches that allocate nothing, and the items of a table.

use std::alloc::{GlobalAlloc, Layout, System};
use std::cell::Cell;
use std::collections::{BTreeSet, HashSet};
use std::thread;

use vpindex::{
    Added, Batch, BatchHits, Cents, Day, Drafted, Dues, Error, ExtendRefusal, Hit, Hits, ImageFault, ImageRefusal,
    Item, Items, ListFault, ListRead, ListRefusal, LookedUp, Lots, Metric, Name, Order, ParseError, Profile,
    RangeQuery, Refusal, Replaced, SlotAt, States, Table, Tag, Weights,
};

// Counts what this thread allocates.
struct Counting;

thread_local! {
    static ALLOCATED: Cell<u32> = const { Cell::new(0) };
}

// SAFETY: it is the system's own, and counting allocates nothing.
unsafe impl GlobalAlloc for Counting {
    unsafe fn alloc(&self, layout: Layout) -> *mut u8 {
        ALLOCATED.with(|allocated| allocated.set(allocated.get() + 1));
        // SAFETY: as the caller says.
        unsafe { System.alloc(layout) }
    }

    unsafe fn dealloc(&self, memory: *mut u8, layout: Layout) {
        // SAFETY: as the caller says.
        unsafe { System.dealloc(memory, layout) }
    }
}

#[global_allocator]
static COUNTING: Counting = Counting;

fn allocated(act: impl FnOnce()) -> u32 {
    let before = ALLOCATED.get();
    act();
    ALLOCATED.get() - before
}

fn tag(national: u64) -> Tag {
    Tag::new(36, national).expect("valid")
}

fn profile(n: u64) -> Profile {
    let n = n as i32;
    Profile::new([n * 37 % 101, -n, n % 7, 5], [n as u64, !(n as u64)]).expect("in range")
}

fn day(n: u64) -> Day {
    Day::new(1 + n as u16).expect("not 0")
}

// So many items of order 8, every third of them removed again.
fn table(items: u64) -> Table {
    let mut table = Table::new(Order::new(8).expect("valid"), Metric::SumOfDifferences);
    for n in 0..items {
        table.add(tag(n), &profile(n), day(n)).expect("room");
    }
    for n in (0..items).step_by(3) {
        table.remove(tag(n)).expect("there");
    }
    table
}

#[test]
fn all_can_be_sent_and_shared() {
    fn both<T: Send + Sync>() {}
    both::<Table>();
    both::<(Hit, Hits, Batch, BatchHits, RangeQuery, Item, Items, Added, Replaced, LookedUp, States)>();
    both::<(Tag, Profile, Day, Weights, Order, Metric, Name)>();
    both::<(Cents, Dues, Drafted, Lots, ListRead)>();
    both::<(Error, Refusal, ImageRefusal, ImageFault, SlotAt, ListRefusal, ListFault, ParseError, ExtendRefusal)>();
}

#[test]
fn threads_search_one_table() {
    let table = table(200);
    let alone: Vec<[Hits; 2]> = (0..40).map(|n| both_searches(&table, n)).collect();
    thread::scope(|scope| {
        for _ in 0..4 {
            scope.spawn(|| {
                for (n, expected) in alone.iter().enumerate() {
                    assert_eq!(both_searches(&table, n as u64), *expected);
                }
            });
        }
    });
    assert!(alone.iter().any(|[within, _]| !within.is_empty()));
}

fn both_searches(table: &Table, n: u64) -> [Hits; 2] {
    let since = n.is_multiple_of(2).then(|| day(n));
    [table.range(&profile(n), 10 * n as u32, since), table.nearest(&profile(n), 7, since).expect("a count")]
}

// One buffer for all of them, with nothing left in it of the search before.
#[test]
fn searches_into_a_buffer() {
    let table = table(200);
    let mut hits = Hits::with_capacity(table.capacity());
    assert_eq!((hits.len(), hits.capacity(), hits.distances()), (0, 256, 0));
    for n in 0..40 {
        let [within, nearest] = both_searches(&table, n);
        let (query, since) = (profile(n), n.is_multiple_of(2).then(|| day(n)));
        assert_eq!(allocated(|| table.range_into(&query, 10 * n as u32, since, &mut hits).expect("room")), 0);
        assert_eq!(hits, within);
        assert_eq!(allocated(|| table.nearest_into(&query, 7, since, &mut hits).expect("room")), 0);
        assert_eq!(hits, nearest);
    }
    assert_ne!(allocated(|| _ = table.range(&profile(0), 0, None)), 0);
    assert_eq!(allocated(|| _ = (table.look_up(tag(1)), table.contains(tag(0)), table.iter().count())), 0);
}

#[test]
fn a_buffer_that_is_short() {
    let table = table(30);
    let found = table.range(&profile(0), u32::MAX, None);
    assert_eq!((found.len(), found.capacity()), (20, 20));
    for room in 0..=20 {
        let mut hits = Hits::with_capacity(room);
        table.nearest_into(&profile(0), room.max(1) as u32, None, &mut hits).unwrap_or_default();
        let done = table.range_into(&profile(0), u32::MAX, None, &mut hits);
        let expected = if room < 20 { (Err(Refusal::NoRoom), Hits::default()) } else { (Ok(()), found.clone()) };
        assert_eq!((done, hits), expected);
    }
    for count in [1, 5, 20, 21, u32::MAX] {
        let nearest = table.nearest(&profile(0), count, None).expect("a count");
        assert_eq!(nearest[..], found[..nearest.len()]);
        let mut hits = Hits::with_capacity(20.min(count as usize));
        assert_eq!(table.nearest_into(&profile(0), count, None, &mut hits), Ok(()));
        assert_eq!(hits, nearest);
        let mut hits = Hits::with_capacity(nearest.len() - 1);
        assert_eq!(table.nearest_into(&profile(0), count, None, &mut hits), Err(Refusal::NoRoom));
        assert!(hits.is_empty());
    }
    let mut hits = found.clone();
    assert_eq!(table.nearest_into(&profile(0), 0, None, &mut hits), Err(Refusal::NoCount));
    assert!(hits.is_empty());
}

fn range_query(n: u64) -> RangeQuery {
    RangeQuery { profile: profile(n), radius: 10 * n as u32, first_day: n.is_multiple_of(2).then(|| day(n)) }
}

// One buffer for batches of every length, each beside its single searches.
#[test]
fn batches_into_a_buffer() {
    let table = table(200);
    let mut batch = Batch::with_capacity(16 * table.capacity());
    assert_eq!((batch.len(), batch.is_empty(), batch.capacity(), batch.distances()), (0, true, 4096, 0));
    for count in [16, 1, 7, 2, 15, 16] {
        let queries: Vec<RangeQuery> = (0..count).map(range_query).collect();
        assert_eq!(allocated(|| table.range_batch_into(&queries, &mut batch).expect("room")), 0);
        assert_eq!(table.range_batch(&queries).as_ref(), Ok(&batch));
        assert_eq!((batch.len(), batch.iter().len()), (count as usize, count as usize));
        let mut n = 0;
        for hits in &batch {
            assert_eq!((hits, hits), (&both_searches(&table, n as u64)[0][..], &batch[n]));
            n += 1;
        }
        assert_eq!(n, batch.len());
    }
    for count in [0, 17, 40] {
        let queries: Vec<RangeQuery> = (0..count).map(range_query).collect();
        assert_eq!(table.range_batch_into(&queries, &mut batch), Err(Refusal::BadBatch));
        assert!(batch.is_empty() && batch.iter().next().is_none());
    }
}

// Of two queries the second finds 20 items, so each part has to hold as many.
#[test]
fn a_batch_that_is_short() {
    let table = table(30);
    let all = RangeQuery { profile: profile(0), radius: u32::MAX, first_day: None };
    let queries = [RangeQuery { radius: 0, profile: profile(1), ..all }, all];
    let returned = table.range_batch(&queries).expect("two queries");
    assert_eq!((returned[0].len(), returned[1].len(), returned.capacity()), (1, 20, 21));
    for room in [0, 1, 20, 39, 40, 41, 60] {
        let mut batch = Batch::with_capacity(room);
        let done = table.range_batch_into(&queries, &mut batch);
        let expected = if room < 40 { (Err(Refusal::NoRoom), Batch::default()) } else { (Ok(()), returned.clone()) };
        assert_eq!((done, batch), expected);
    }
}

// One buffer for draftings of every number of radii, with nothing left in it of the one before.
#[test]
fn lots_into_a_buffer() {
    let table = table(200);
    let mut lots = Lots::new(table.order());
    assert_eq!((lots.len(), lots.by_radius()), (0, &[][..]));
    for count in [32, 1, 7, 32] {
        let radii: Vec<u32> = (0..count).map(|n| 20 * (n * 7 % 33)).collect();
        assert_eq!(allocated(|| table.lots_into(&radii, count, &mut lots).expect("room")), 0);
        assert_eq!(table.lots(&radii, count).as_ref(), Ok(&lots));
        assert_eq!((lots.by_radius().len(), lots.iter().map(<[Tag]>::len).sum::<usize>()), (radii.len(), table.len()));
        assert_eq!(lots.by_radius()[radii.len() - 1].lots as usize, lots.len());
    }
    for (radii, chosen) in [(0, 1), (33, 1), (3, 0), (3, 4)] {
        assert_eq!(table.lots_into(&vec![5; radii], chosen, &mut lots), Err(Refusal::BadRadii));
        assert!(lots.is_empty() && lots.by_radius().is_empty());
    }
    let mut short = Lots::new(Order::new(7).expect("valid"));
    assert_eq!(table.lots_into(&[5], 1, &mut short), Err(Refusal::ShortArea));
}

#[test]
fn hits_one_after_the_other() {
    let mut hits = Hits::with_capacity(9);
    table(6).range_into(&profile(1), 90, None, &mut hits).expect("room");
    let mut sum = 0;
    for hit in &hits {
        sum += hit.distance();
    }
    let by_value: HashSet<Hit> = hits.clone().into_iter().collect();
    assert_eq!(by_value.len(), hits.len());
    assert_eq!(by_value.iter().map(Hit::distance).sum::<u32>(), sum);
    assert!(hits.clone().into_iter().eq(hits.iter().copied()));
    // in the order of a result, whatever order they were put in
    let sorted: BTreeSet<Hit> = by_value.into_iter().collect();
    assert!(sorted.iter().eq(&hits) && hits[0] < hits[1]);
}

#[test]
fn what_debug_shows() {
    let table = table(5);
    let weights = "weights: [1, 1, 1, 1]";
    assert_eq!(format!("{table:?}"), format!("Table {{ order: 8, metric: SumOfDifferences, {weights}, len: 3 }}"));
    let hits = table.nearest(&profile(4), 1, None).expect("a count");
    assert_eq!(format!("{:?}", hits[0]), "Hit(036000000000004, 0)");
    let distances = hits.distances();
    assert_eq!(format!("{hits:?}"), format!("Hits {{ hits: [Hit(036000000000004, 0)], distances: {distances} }}"));
}

#[test]
fn items_of_a_table() {
    for items in [0, 1, 2, 3, 7, 31, 200, 256] {
        let table = table(items);
        let mut all: Vec<Item> = table.iter().collect();
        all.sort_by_key(|item| item.tag);
        let live = (0..items).filter(|n| n % 3 != 0);
        assert!(all.iter().copied().eq(live.clone().map(|n| Item { tag: tag(n), profile: profile(n), day: day(n) })));
        assert_eq!((table.len(), table.is_empty(), table.capacity()), (all.len(), all.is_empty(), 256));
        for item in &table {
            assert_eq!(table.get(item.tag), Some(item));
        }
        for n in 0..items + 2 {
            assert_eq!(table.contains(tag(n)), live.clone().any(|other| other == n));
            assert_eq!(table.get(tag(n)).is_some(), table.contains(tag(n)));
        }
        let mut rest = table.iter();
        for left in (0..table.len()).rev() {
            assert_eq!((rest.next().is_some(), rest.len()), (true, left));
        }
        assert_eq!((rest.next(), rest.next()), (None, None));
    }
}
