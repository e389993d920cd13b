//! A table, searches and changes in areas that the caller lends, with nothing of `alloc`: these tests are built without
//! the crate's features too. Where there is a table that owns its areas, both are held to each other.

use vpindex::{
    Batch, Day, Entry, Error, Hits, Item, Metric, Order, Profile, ROW_WORDS, RangeQuery, Refusal, Row, Table, Tag,
    Weights,
};

const ORDER: Order = match Order::new(4) {
    Ok(order) => order,
    Err(_) => panic!("a valid order"),
};
const EMPTY: Row = [0; ROW_WORDS];

type Rows = [Row; ORDER.table_rows()];
type Work = [Row; ORDER.work_rows()];

// Of any content.
fn areas() -> (Rows, Work) {
    ([[u32::MAX; ROW_WORDS]; ORDER.table_rows()], [[7; ROW_WORDS]; ORDER.work_rows()])
}

fn item(n: u16) -> Item {
    let (tag, m) = (Tag::new(36, n.into()).expect("valid"), i32::from(n));
    let profile = Profile::new([m * 37 % 101, -m, m % 7, 5], [n.into(), !u64::from(n)]).expect("in range");
    Item { tag, profile, day: Day::new(1 + n).expect("not 0") }
}

#[test]
fn changes_and_searches() -> Result<(), Error> {
    let (mut rows, mut work) = areas();
    let mut table = Table::lent(&mut rows, &mut work, ORDER, Metric::SumOfDifferences, Weights::ONE)?;
    assert_eq!(table.try_extend((0..16).map(item))?, 16);
    assert_eq!(table.add(item(16).tag, &Profile::default(), Day::MIN), Err(Refusal::Full));
    for n in (0..16).step_by(3) {
        table.remove(item(n).tag)?;
    }
    table.read_list(b"tag;kg;hip;girth;gain\n036000000000100;0,10;0,00;0,00;0,00\n", Day::MAX)?;
    table.replace(item(1).tag, &item(50).profile, item(50).day)?;
    assert_eq!((table.len(), table.capacity(), table.contains(item(0).tag)), (11, 16, false));
    assert_eq!(table.get(item(1).tag).map(|item| item.day), Some(item(50).day));
    assert_eq!(table.iter().count(), table.buckets().map(|bucket| bucket.live()).sum());

    let mut room = [[9; 2]; 16];
    let mut hits = Hits::lent(&mut room);
    assert_eq!((hits.len(), hits.capacity()), (0, 16));
    let query = item(2).profile;
    table.nearest_into(&query, 3, None, &mut hits)?;
    assert_eq!((hits.len(), hits[0].tag(), hits[0].distance()), (3, item(2).tag, 0));
    table.range_into(&query, u32::MAX, Some(Day::MAX), &mut hits)?;
    assert_eq!((hits.len(), hits[0].tag().national()), (1, 100));
    assert!((&hits).into_iter().eq(hits.iter()));

    let mut short: [Entry; 2] = [[9; 2]; 2];
    let mut few = Hits::lent(&mut short);
    assert_eq!(table.range_into(&query, u32::MAX, None, &mut few), Err(Refusal::NoRoom));
    assert!(few.is_empty());

    let mut parts = [[9; 2]; 33];
    let mut batch = Batch::lent(&mut parts);
    let near = RangeQuery { profile: query, radius: 40, first_day: None };
    table.range_batch_into(&[near, RangeQuery { radius: u32::MAX, ..near }], &mut batch)?;
    assert_eq!((batch.len(), batch[1].len()), (2, table.len()));
    for (list, radius) in (&batch).into_iter().zip([40, u32::MAX]) {
        table.range_into(&query, radius, None, &mut hits)?;
        assert_eq!(list, &hits[..]);
    }
    Ok(())
}

#[test]
fn images() -> Result<(), Error> {
    let (mut rows, mut work) = areas();
    let mut table = Table::lent(&mut rows, &mut work, ORDER, Metric::DifferingBits, Weights::new([3, 1, 4, 1])?)?;
    table.try_extend((0..9).map(item))?;
    let mut image = [9; ORDER.image_bytes()];
    let length = table.image_into(&mut image)?;
    assert_eq!((length, image[length]), (table.image_bytes(), 9));
    let mut short = [9; 100];
    assert_eq!(table.image_into(&mut short), Err(Refusal::NoRoom));
    assert_eq!(short, [9; 100]);

    let (mut rows, mut work) = areas();
    let loaded = Table::load_lent(&mut rows, &mut work, &image[..length])?;
    assert_eq!((loaded.order(), loaded.metric(), loaded.weights()), (ORDER, table.metric(), table.weights()));
    assert!(loaded.iter().eq(&table));
    Ok(())
}

// An area that is short by one row, whichever it is, and an image that is refused: both areas are left as they are.
#[test]
fn what_is_refused() -> Result<(), Error> {
    let (mut rows, mut work) = areas();
    let mut image = [0; ORDER.image_bytes()];
    let length =
        Table::lent(&mut rows, &mut work, ORDER, Metric::SumOfDifferences, Weights::ONE)?.image_into(&mut image)?;
    let image = &mut image[..length];
    for (table_rows, work_rows) in [(rows.len() - 1, work.len()), (rows.len(), work.len() - 1), (0, 0)] {
        let (mut rows, mut work) = areas();
        let (rows_lent, work_lent) = (&mut rows[..table_rows], &mut work[..work_rows]);
        let made = Table::lent(rows_lent, work_lent, ORDER, Metric::SumOfDifferences, Weights::ONE);
        assert_eq!(made.err(), Some(Refusal::ShortArea));
        let loaded = Table::load_lent(&mut rows[..table_rows], &mut work[..work_rows], image);
        assert_eq!(loaded.err().map(|refused| refused.refusal), Some(Refusal::ShortArea));
        assert_eq!((rows, work), areas());
    }
    image[0] = 13;
    let (mut rows, mut work) = areas();
    let refused = Table::load_lent(&mut rows, &mut work, image).err();
    assert_eq!(refused.map(|refused| refused.refusal), Some(Refusal::BadOrder));
    assert_eq!((rows, work), areas());
    assert_ne!(rows[0], EMPTY);
    Ok(())
}

// Written without memory of its own, padded as one text.
#[test]
fn text() {
    let line = Item { tag: item(101).tag, profile: Profile::default(), day: Day::MIN };
    assert_eq!(format!("{line:>42}|"), "   036000000000101 0.00 0.00 0.00 0.00 - 1|");
    let longest = Item {
        tag: Tag::new(999, 274_877_906_943).expect("valid"),
        profile: Profile::new([-Profile::MAX_MEASURE; 4], [u64::MAX; 2]).expect("in range"),
        day: Day::MAX,
    };
    assert_eq!(longest.to_string().len(), 94);
    assert_eq!(longest.to_string().parse(), Ok(longest));
}

#[cfg(feature = "alloc")]
#[test]
fn as_a_table_of_its_own() -> Result<(), Error> {
    let (mut rows, mut work) = areas();
    let mut lent = Table::lent(&mut rows, &mut work, ORDER, Metric::SumOfDifferences, Weights::ONE)?;
    let mut owned = Table::new(ORDER, Metric::SumOfDifferences);
    for n in 0..40 {
        let Item { tag, profile, day } = item(n % 23);
        assert_eq!(lent.add(tag, &profile, day), owned.add(tag, &profile, day));
        assert_eq!(lent.remove(item(n * 5 % 23).tag), owned.remove(item(n * 5 % 23).tag));
        assert_eq!(lent.image(), owned.image());
        assert!(lent.same_items(&owned) && owned.same_items(&lent));
        assert_eq!(lent.range(&profile, 60, None), owned.range(&profile, 60, None));
    }
    assert!(owned.len() > 3);
    Ok(())
}
