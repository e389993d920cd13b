//! What a load tells of an image whose trees are spoiled: 36, 37 or 38, and the lowest slot that it is of. What is
//! expected is worked out from how the image was made, and compared with the reference too.

use outside::calls::{Areas, Call, compare};
use outside::foreign::any_row;
use outside::random::{MAX_MEASURE, Random};
use outside::sound;
use reference::image::of_form;
use reference::item::{Slot, Space};
use reference::refusal::{BAD_DAY, BAD_IMAGE, BAD_THRESHOLD, DUPLICATE_TAG, MISPLACED_ITEM};
use reference::table::{Table, table_rows};
use reference::tree::layout;
use vpindex::{SlotAt, Table as ProvedTable};

const FORMS: [u16; 3] = [0, 1, 2];

// The number and the slot that a load replies.
fn load(random: &mut Random, image: Vec<u8>, order: u32) -> (u32, u32) {
    let mut areas = Areas { table: random.fill(table_rows(order), any_row), bytes: image, ..Areas::default() };
    let reply = compare(&Call::Load, &mut areas, random);
    (reply.refusal, reply.slot)
}

// The same of a table's image of every form.
fn told(random: &mut Random, table: &Table) -> (u32, u32) {
    let [oldest, older, newest] = FORMS.map(|form| load(random, of_form(form, table), table.order));
    assert_eq!([oldest, older], [newest; 2], "the trees are the same in every form");
    newest
}

// Sound tables of weights 1, which every form can say, with several buckets in use and dead slots.
fn tables(seed: u64, rounds: u32, mut test: impl FnMut(&mut Random, &Table)) {
    let mut random = Random::new(seed);
    for round in 0..rounds {
        let order = 2 + round % 4;
        let mut table = sound::table(&mut random, order, Space::plain(round % 3));
        // days that forms 0 and 1 load with
        table.buckets.iter_mut().flat_map(|bucket| &mut bucket.slots).for_each(|slot| slot.day = 1);
        assert_eq!(told(&mut random, &table), (0, 0));
        test(&mut random, &table);
    }
}

fn in_use(table: &Table) -> Vec<usize> {
    (0..table.buckets.len()).filter(|&k| table.buckets[k].in_use()).collect()
}

// The first, a middle and the last slot of a bucket.
fn three(table: &Table, k: usize) -> [usize; 3] {
    let n = table.buckets[k].slots.len();
    [0, n / 2, n - 1]
}

// The number over all slots of a bucket's slot.
fn over_all(table: &Table, k: usize, at: usize) -> u32 {
    (table.buckets[..k].iter().map(|bucket| bucket.slots.len()).sum::<usize>() + at) as u32
}

fn with(table: &Table, change: impl FnOnce(&mut Table)) -> Table {
    let mut table = table.clone();
    change(&mut table);
    table
}

fn moved(table: &mut Table, k: usize, at: usize, by: u32) {
    let slot = &mut table.buckets[k].slots[at];
    slot.threshold = slot.threshold.wrapping_add(by);
}

// Gives a slot another tag and lays its bucket out again, each item with its mark, so that nothing else is wrong.
fn retagged(table: &mut Table, k: usize, at: usize, tag: u64) {
    let slots = &mut table.buckets[k].slots;
    slots[at].tag = tag;
    let marks: Vec<(Slot, u32)> =
        slots.iter().map(|slot| (Slot { threshold: 0, mark: 0, ..*slot }, slot.mark)).collect();
    *slots = layout(&table.space, slots);
    for slot in slots {
        let item = Slot { threshold: 0, mark: 0, ..*slot };
        slot.mark = marks.iter().find(|mark| mark.0 == item).expect("every item was there before").1;
    }
}

// One off, either way, in any slot.
#[test]
fn a_threshold_off_by_one() {
    tables(81, 60, |random, table| {
        for k in in_use(table) {
            for (at, by) in three(table, k).into_iter().flat_map(|at| [(at, 1), (at, u32::MAX)]) {
                let spoiled = with(table, |table| moved(table, k, at, by));
                assert_eq!(told(random, &spoiled), (BAD_THRESHOLD, over_all(table, k, at)));
            }
        }
    });
}

// Two slots of a bucket changed over, whole: the first of them is told. So the last slot never is: its item is
// misplaced only where another is.
#[test]
fn a_swap_of_two_slots() {
    let mut swaps = 0;
    tables(82, 60, |random, table| {
        for k in in_use(table) {
            let [first, middle, last] = three(table, k);
            for (at, other) in [(first, middle), (first, last), (middle, last)].into_iter().filter(|(a, b)| a < b) {
                let spoiled = with(table, |table| table.buckets[k].slots.swap(at, other));
                assert_eq!(told(random, &spoiled), (MISPLACED_ITEM, over_all(table, k, at)));
                swaps += 1;
            }
        }
    });
    assert!(swaps > 100);
}

// Days and marks alone changed over are no fault: a layout asks for neither.
#[test]
fn days_and_marks_changed_over() {
    let mut random = Random::new(83);
    for round in 0..60 {
        let space = random.space(round % 3);
        let table = sound::table_of(&mut random, 3, space, vec![(0, 0), (0, 0), (0, 0), (8, 5)]);
        let [a, b] = [2, 5].map(|at| table.buckets[3].slots[at]);
        let changes: [fn(&mut Slot, &Slot); 2] =
            [|slot, other| slot.day = other.day, |slot, other| slot.mark = other.mark];
        for change in changes {
            let other = with(&table, |table| {
                change(&mut table.buckets[3].slots[2], &b);
                change(&mut table.buckets[3].slots[5], &a);
            });
            assert_eq!(load(&mut random, of_form(2, &other), 3), (0, 0));
        }
    }
}

// In one bucket, whichever of the two is dead: 36 at the later.
#[test]
fn a_tag_twice_in_a_bucket() {
    let mut places = [0; 3];
    tables(84, 200, |random, table| {
        for k in in_use(table).into_iter().filter(|&k| table.buckets[k].slots.len() > 2) {
            for at in three(table, k) {
                let other = random.below(table.buckets[k].slots.len());
                let tag = table.buckets[k].slots[other].tag;
                let here = table.buckets.iter().flat_map(|bucket| &bucket.slots).filter(|slot| slot.tag == tag).count();
                if other == at || here > 1 {
                    continue;
                }
                let spoiled = with(table, |table| retagged(table, k, at, tag));
                let slots = &spoiled.buckets[k].slots;
                let later = slots.iter().rposition(|slot| slot.tag == tag).expect("it is there twice");
                assert_eq!(told(random, &spoiled), (DUPLICATE_TAG, over_all(table, k, later)));
                places[(later > 1) as usize + (later == slots.len() - 1) as usize] += 1;
            }
        }
    });
    assert!(places.iter().all(|&n| n > 20), "{places:?}: of slot 1, a middle and the last");
}

// A tag of one bucket in an earlier bucket too: 36 at the later if both are live, at its first, a middle or its last
// slot, and else nothing.
#[test]
fn a_tag_in_two_buckets() {
    let mut met = [0; 2];
    tables(85, 200, |random, table| {
        let used = in_use(table);
        for (j, k) in used.iter().flat_map(|&j| used.iter().filter(move |&&k| k > j).map(move |&k| (j, k))) {
            for at in three(table, k) {
                let found = table.buckets[k].slots[at];
                let other = random.below(table.buckets[j].slots.len());
                let earlier = table.buckets[j].slots[other];
                let lives = |slot: &Slot| slot.tag == found.tag && slot.is_live();
                // found is dead and live elsewhere, or its tag is in the other bucket already
                let taken = table.buckets.iter().flat_map(|bucket| &bucket.slots).any(lives) && !found.is_live();
                if taken || table.buckets[j].slots.iter().any(|slot| slot.tag == found.tag) {
                    continue;
                }
                let spoiled = with(table, |table| retagged(table, j, other, found.tag));
                let both = earlier.is_live() && found.is_live();
                let expected = if both { (DUPLICATE_TAG, over_all(table, k, at)) } else { (0, 0) };
                assert_eq!(told(random, &spoiled), expected);
                met[both as usize] += 1;
            }
        }
    });
    assert!(met.iter().all(|&n| n > 50), "{met:?}");
}

// Two faults in one image, in either order and in one slot: the lower slot, and in one slot the lower number.
#[test]
fn two_faults() {
    let mut orders = [0; 3];
    tables(86, 200, |random, table| {
        let used: Vec<usize> = in_use(table).into_iter().filter(|&k| table.buckets[k].slots.len() > 2).collect();
        let Some(&k) = used.first() else { return };
        let n = table.buckets[k].slots.len();
        let (at, middle) = (random.below(n), n / 2);
        let swapped = with(table, |table| table.buckets[k].slots.swap(middle, n - 1));
        let both = with(&swapped, |table| moved(table, k, at, 1));
        let expected = if at < middle { (BAD_THRESHOLD, at) } else { (MISPLACED_ITEM, middle) };
        if middle < n - 1 {
            assert_eq!(told(random, &both), (expected.0, over_all(table, k, expected.1)));
            orders[(at >= middle) as usize + (at > middle) as usize] += 1;
        }
        let tag = table.buckets[k].slots[0].tag;
        let twice = with(table, |table| retagged(table, k, middle, tag));
        let later = twice.buckets[k].slots.iter().rposition(|slot| slot.tag == tag).expect("it is there twice");
        let both = with(&twice, |table| moved(table, k, at, 1));
        let expected = if at < later { (BAD_THRESHOLD, at) } else { (DUPLICATE_TAG, later) };
        assert_eq!(told(random, &both), (expected.0, over_all(table, k, expected.1)));
    });
    assert!(orders.iter().all(|&n| n > 5), "{orders:?}: before it, in it, behind it");
}

// A fault in a tree and a field that is wrong in any slot, before or behind it: 8, and no slot. A day, 33.
#[test]
fn a_bad_field_anywhere() {
    type Change = fn(&mut Slot);
    let fields: [(u32, Change); 6] = [
        (BAD_IMAGE, |slot| slot.tag = 274_877_906_944),
        (BAD_IMAGE, |slot| slot.profile.measures[1] = MAX_MEASURE + 1),
        (BAD_IMAGE, |slot| slot.mark = 2),
        (BAD_IMAGE, |slot| slot.mark ^= 1),
        (BAD_IMAGE, |slot| slot.tag = 0),
        (BAD_DAY, |slot| slot.day = 0),
    ];
    tables(87, 40, |random, table| {
        let Some(&k) = in_use(table).last() else { return };
        let faults = [
            with(table, |table| moved(table, k, 0, 1)),
            with(table, |table| table.buckets[k].slots.reverse()),
            with(table, |table| table.buckets[k].slots.iter_mut().for_each(|slot| slot.tag = 10_u64.pow(12))),
        ];
        for (spoiled, j) in faults.iter().flat_map(|spoiled| in_use(table).into_iter().map(move |j| (spoiled, j))) {
            for (at, (number, change)) in three(table, j).into_iter().flat_map(|at| fields.map(|field| (at, field))) {
                let broken = with(spoiled, |table| change(&mut table.buckets[j].slots[at]));
                assert_eq!(load(random, of_form(2, &broken), table.order), (number, 0));
            }
        }
    });
}

// The Rust interface names the slot and the bytes, in every form: its tag or its threshold stands there.
#[test]
fn the_bytes_that_are_told() {
    tables(88, 60, |random, table| {
        let used: Vec<usize> = in_use(table).into_iter().filter(|&k| table.buckets[k].slots.len() > 1).collect();
        let Some(&k) = used.last() else { return };
        let at = random.below(table.buckets[k].slots.len() - 1);
        let spoiled = with(table, |table| moved(table, k, at, 1));
        let swapped = with(table, |table| table.buckets[k].slots.swap(at, at + 1));
        for (form, spoiled, is_tag) in FORMS.iter().flat_map(|&form| [(form, &spoiled, false), (form, &swapped, true)])
        {
            let image = of_form(form, spoiled);
            let refused = ProvedTable::load(&image).expect_err("spoiled");
            let fault = refused.fault.expect("a fault of a tree");
            let expected = SlotAt { slot: over_all(table, k, at), bucket: k as u32, place: at as u32 };
            assert_eq!((fault.slot, fault.bucket), (Some(expected), Some(k as u32)));
            let found = &spoiled.buckets[k].slots[at];
            let (field, bytes) = if is_tag {
                ("item", found.tag.to_le_bytes().to_vec())
            } else {
                ("threshold", found.threshold.to_le_bytes().to_vec())
            };
            assert_eq!((fault.field, &image[fault.bytes]), (field, &bytes[..]));
        }
    });
}
