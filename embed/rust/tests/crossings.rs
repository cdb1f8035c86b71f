//! Crossings of a mark: which commits are one, between which stamps they are listed, and what is
//! written of the lent stamps.

use deskrook::{Mask, Refusal, Row, ScanEntry, Shape, Stamp, Store, Tail, SCANS};

const SHAPE: Shape = Shape { columns: 2, ranges: 1, capacity: 32, spares: 8 };
/// A mark, and a value on each side of it.
const MARK: i32 = 1240;
const LOW: i32 = 1200;
const HIGH: i32 = 1250;
/// What stands in the lent stamps before a call.
const UNWRITTEN: Stamp = Stamp(0xA5A5_A5A5);

/// Runs a test on a new store.
fn with_store(test: impl FnOnce(Store)) {
    let mut memory = vec![0xA5; SHAPE.bytes_needed().expect("a good shape")];
    let mut scans = [ScanEntry::FREE; SCANS];
    test(Store::make(&mut memory, &mut scans, SHAPE).expect("enough is lent"));
}

/// Runs a test on a store where a gate's column 0 got these values, each by a commit of its own at
/// the stamp behind it, the first by the insert.
fn with_gate(values: &[(i32, u32)], test: impl FnOnce(Store, Row)) {
    with_store(|mut store| {
        let ((first, stamp), others) = values.split_first().expect("an insert");
        let gate = insert(&mut store, *first, *stamp);
        for (value, stamp) in others {
            set(&mut store, gate, *value, *stamp);
        }
        test(store, gate);
    });
}

/// Inserts a row by a commit of its own.
fn insert(store: &mut Store, value: i32, stamp: u32) -> Row {
    let transaction = store.begin().unwrap();
    let row = store.insert(transaction, &[value]).unwrap();
    store.commit(transaction, Stamp(stamp)).unwrap();
    row
}

/// Sets a row's column 0 by a commit of its own, and answers the setting's record.
fn set(store: &mut Store, row: Row, value: i32, stamp: u32) -> Tail {
    let transaction = store.begin().unwrap();
    let record = store.update(transaction, row, Mask(1), &[value]).unwrap();
    store.commit(transaction, Stamp(stamp)).unwrap();
    record
}

/// Sets a row's column 0 by a transaction that is aborted.
fn set_in_vain(store: &mut Store, row: Row, value: i32) {
    let transaction = store.begin().unwrap();
    store.update(transaction, row, Mask(1), &[value]).unwrap();
    store.abort(transaction).unwrap();
}

fn delete(store: &mut Store, row: Row, stamp: u32) {
    let transaction = store.begin().unwrap();
    store.delete(transaction, row).unwrap();
    store.commit(transaction, Stamp(stamp)).unwrap();
}

/// What is listed with so many stamps lent. Those behind the list must stay as they were, and where
/// it is refused all must.
fn listed(
    store: &Store,
    (row, column): (Row, u32),
    mark: i32,
    (from, to): (u32, u32),
    places: usize,
) -> Result<Vec<u32>, Refusal> {
    let mut stamps = vec![UNWRITTEN; places];
    let answer = store
        .crossings(row, column, mark, Stamp(from), Stamp(to), &mut stamps)
        .map(|listed| listed.iter().map(|stamp| stamp.0).collect::<Vec<u32>>());
    let written = answer.as_ref().map_or(0, |listed| listed.len());
    assert!(stamps[written..].iter().all(|stamp| *stamp == UNWRITTEN), "{stamps:?}");
    answer
}

/// The crossings of the mark by column 0 of a row, with enough stamps lent.
fn crossings(store: &Store, row: Row, from: u32, to: u32) -> Result<Vec<u32>, Refusal> {
    listed(store, (row, 0), MARK, (from, to), 16)
}

#[test]
fn a_first_value_is_no_crossing() {
    for first in [LOW, HIGH] {
        with_gate(&[(first, 10)], |mut store, gate| {
            assert_eq!(crossings(&store, gate, 0, 10), Ok(vec![]));
            assert_eq!(crossings(&store, gate, 10, 10), Ok(vec![]));
            set(&mut store, gate, first, 20);
            assert_eq!(crossings(&store, gate, 0, 20), Ok(vec![]));
        });
    }
}

/// A value of its own side does not count, and the next is compared with it and not with an older one.
#[test]
fn the_other_side_from_the_value_before() {
    let levels = [(LOW, 10), (HIGH, 20), (HIGH + 1, 30), (LOW, 40), (LOW - 1, 50), (HIGH, 60)];
    with_gate(&levels, |store, gate| {
        assert_eq!(crossings(&store, gate, 0, 60), Ok(vec![20, 40, 60]));
    });
}

#[test]
fn from_and_to_are_counted() {
    with_gate(&[(LOW, 10), (HIGH, 20), (LOW, 30), (HIGH, 40)], |store, gate| {
        let listed = |from, to| crossings(&store, gate, from, to).unwrap();
        assert_eq!(listed(20, 30), [20, 30]);
        assert_eq!(listed(20, 29), [20]);
        assert_eq!(listed(21, 30), [30]);
        assert_eq!(listed(21, 29), []);
        assert_eq!(listed(30, 30), [30]);
        assert_eq!(listed(25, 25), []);
        assert_eq!(listed(0, 9), []);
        assert_eq!(listed(0, 40), [20, 30, 40]);
    });
}

/// The value before is the one before by commit, also where it was committed before `from`; the first
/// within the two stamps is no first value.
#[test]
fn the_value_before_may_be_from_before_from() {
    with_gate(&[(LOW, 10), (HIGH, 20), (HIGH, 30)], |store, gate| {
        assert_eq!(crossings(&store, gate, 11, 30), Ok(vec![20]));
        assert_eq!(crossings(&store, gate, 20, 30), Ok(vec![20]));
        assert_eq!(crossings(&store, gate, 21, 30), Ok(vec![]));
    });
}

#[test]
fn as_many_stamps_as_crossings_are_enough() {
    with_gate(&[(LOW, 10), (HIGH, 20), (LOW, 30), (HIGH, 40)], |store, gate| {
        let listed = |from, to, places| listed(&store, (gate, 0), MARK, (from, to), places);
        for places in 0..3 {
            assert_eq!(listed(0, 40, places), Err(Refusal::List));
        }
        for places in 3..6 {
            assert_eq!(listed(0, 40, places), Ok(vec![20, 30, 40]));
        }
        // Those outside the two stamps want no place.
        assert_eq!(listed(30, 30, 1), Ok(vec![30]));
        assert_eq!(listed(21, 29, 0), Ok(vec![]));
        assert_eq!(listed(20, 30, 1), Err(Refusal::List));
    });
}

#[test]
fn a_minute_with_two_crossings_stands_twice() {
    with_gate(&[(LOW, 10), (HIGH, 20), (LOW, 20)], |mut store, gate| {
        assert_eq!(crossings(&store, gate, 0, 20), Ok(vec![20, 20]));
        assert_eq!(crossings(&store, gate, 20, 20), Ok(vec![20, 20]));
        assert_eq!(listed(&store, (gate, 0), MARK, (20, 20), 1), Err(Refusal::List));
        set(&mut store, gate, HIGH, 20);
        set(&mut store, gate, HIGH, 20);
        assert_eq!(crossings(&store, gate, 0, 20), Ok(vec![20, 20, 20]));
    });
}

#[test]
fn a_crossing_in_the_minute_of_the_insert() {
    for minute in [0, 10, u32::MAX] {
        with_gate(&[(LOW, minute), (HIGH, minute)], |store, gate| {
            assert_eq!(crossings(&store, gate, minute, minute), Ok(vec![minute]));
            assert_eq!(crossings(&store, gate, 0, minute), Ok(vec![minute]));
        });
    }
}

/// Of two settings by one transaction the last counts, once.
#[test]
fn a_setting_that_its_transaction_replaced_does_not_count() {
    for (replaced, last, crossed) in [(HIGH, LOW, vec![]), (LOW, HIGH, vec![20])] {
        with_gate(&[(LOW, 10)], |mut store, gate| {
            let transaction = store.begin().unwrap();
            for value in [replaced, last] {
                store.update(transaction, gate, Mask(1), &[value]).unwrap();
            }
            // A setting of the other column replaces nothing.
            store.update(transaction, gate, Mask(2), &[0, HIGH]).unwrap();
            store.commit(transaction, Stamp(20)).unwrap();
            assert_eq!(crossings(&store, gate, 0, 20), Ok(crossed.clone()));
            assert_eq!(listed(&store, (gate, 1), MARK, (0, 20), 16), Ok(vec![20]));
        });
    }
}

#[test]
fn what_is_pending_or_aborted_does_not_count() {
    with_gate(&[(LOW, 10)], |mut store, gate| {
        set_in_vain(&mut store, gate, HIGH);
        set(&mut store, gate, LOW, 20);
        set_in_vain(&mut store, gate, HIGH);
        assert_eq!(crossings(&store, gate, 0, 20), Ok(vec![]));
        set(&mut store, gate, HIGH, 30);
        set_in_vain(&mut store, gate, LOW);
        set(&mut store, gate, HIGH, 40);
        assert_eq!(crossings(&store, gate, 0, 40), Ok(vec![30]));
        let pending = store.begin().unwrap();
        store.update(pending, gate, Mask(1), &[LOW]).unwrap();
        assert_eq!(crossings(&store, gate, 0, 40), Ok(vec![30]));
        store.commit(pending, Stamp(40)).unwrap();
        assert_eq!(crossings(&store, gate, 0, 40), Ok(vec![30, 40]));
    });
}

/// The order of the commits counts: an older transaction that commits later gives the later value.
#[test]
fn values_are_in_the_order_of_their_commits() {
    with_gate(&[(LOW, 10)], |mut store, gate| {
        let older = store.begin().unwrap();
        set(&mut store, gate, HIGH, 20);
        store.update(older, gate, Mask(1), &[LOW]).unwrap();
        store.commit(older, Stamp(20)).unwrap();
        set(&mut store, gate, LOW, 30);
        assert_eq!(crossings(&store, gate, 0, 30), Ok(vec![20, 20]));
    });
}

#[test]
fn a_value_at_the_mark_is_at_or_above() {
    let levels = [(MARK - 1, 10), (MARK, 20), (MARK + 1, 30), (MARK, 40), (MARK - 1, 50)];
    with_gate(&levels, |store, gate| {
        assert_eq!(crossings(&store, gate, 0, 50), Ok(vec![20, 50]));
    });
}

#[test]
fn marks_and_values_are_signed() {
    let levels = [(-1, 10), (0, 20), (i32::MIN, 30), (i32::MAX, 40), (-30, 50)];
    with_gate(&levels, |store, gate| {
        let listed = |mark| listed(&store, (gate, 0), mark, (0, 50), 16).unwrap();
        assert_eq!(listed(0), [20, 30, 40, 50]);
        assert_eq!(listed(-1), [30, 40, 50]);
        assert_eq!(listed(i32::MIN), []);
        assert_eq!(listed(i32::MIN + 1), [30, 40]);
        assert_eq!(listed(i32::MAX), [40, 50]);
    });
}

#[test]
fn crossings_before_the_rows_end_are_listed_after_it() {
    with_gate(&[(LOW, 10), (HIGH, 20)], |mut store, gate| {
        delete(&mut store, gate, 30);
        // The end is no crossing, though no level is left.
        assert_eq!(crossings(&store, gate, 0, 30), Ok(vec![20]));
        insert(&mut store, LOW, 40);
        assert_eq!(crossings(&store, gate, 0, 40), Ok(vec![20]));
        assert_eq!(crossings(&store, gate, 30, 40), Ok(vec![]));
    });
}

/// What a transaction set before it deleted the row is a value at its commit, which no read can give.
#[test]
fn a_value_set_by_the_transaction_that_ends_the_row_counts() {
    with_gate(&[(LOW, 10)], |mut store, gate| {
        let transaction = store.begin().unwrap();
        store.update(transaction, gate, Mask(1), &[HIGH]).unwrap();
        store.delete(transaction, gate).unwrap();
        store.commit(transaction, Stamp(20)).unwrap();
        assert_eq!(store.latest(gate, 0), Ok(None));
        assert_eq!(crossings(&store, gate, 0, 20), Ok(vec![20]));
    });
}

/// The inserter's own setting takes the inserted value's place, so that it is the first value.
#[test]
fn a_setting_by_the_inserter_replaces_the_inserted_value() {
    with_store(|mut store| {
        let transaction = store.begin().unwrap();
        let gate = store.insert(transaction, &[LOW, LOW]).unwrap();
        store.update(transaction, gate, Mask(1), &[HIGH]).unwrap();
        store.commit(transaction, Stamp(10)).unwrap();
        assert_eq!(crossings(&store, gate, 0, 10), Ok(vec![]));
        let transaction = store.begin().unwrap();
        store.update(transaction, gate, Mask(3), &[LOW, HIGH]).unwrap();
        store.commit(transaction, Stamp(20)).unwrap();
        assert_eq!(crossings(&store, gate, 0, 20), Ok(vec![20]));
        // The column that the inserter did not set has the inserted value for its first.
        assert_eq!(listed(&store, (gate, 1), MARK, (0, 20), 16), Ok(vec![20]));
    });
}

/// A row that no committed transaction has inserted has no value, whatever its inserter set.
#[test]
fn a_row_that_is_pending_or_aborted_has_none() {
    with_gate(&[(LOW, 10)], |mut store, _| {
        for aborted in [false, true] {
            let transaction = store.begin().unwrap();
            let row = store.insert(transaction, &[LOW]).unwrap();
            store.update(transaction, row, Mask(1), &[HIGH]).unwrap();
            if aborted {
                store.abort(transaction).unwrap();
            }
            assert_eq!(crossings(&store, row, 0, 10), Ok(vec![]));
        }
        // Inserted and ended by one transaction: no value either.
        let transaction = store.begin().unwrap();
        let row = store.insert(transaction, &[LOW]).unwrap();
        store.update(transaction, row, Mask(1), &[HIGH]).unwrap();
        store.delete(transaction, row).unwrap();
        store.commit(transaction, Stamp(20)).unwrap();
        assert_eq!(crossings(&store, row, 0, 20), Ok(vec![]));
    });
}

#[test]
fn each_row_and_column_has_its_own() {
    with_gate(&[(LOW, 10), (HIGH, 20)], |mut store, gate| {
        let other = insert(&mut store, HIGH, 30);
        for (row, mask, stamp) in [(other, Mask(1), 40), (gate, Mask(2), 50), (gate, Mask(3), 60)] {
            let transaction = store.begin().unwrap();
            store.update(transaction, row, mask, &[LOW, HIGH]).unwrap();
            store.commit(transaction, Stamp(stamp)).unwrap();
        }
        assert_eq!(crossings(&store, gate, 0, 60), Ok(vec![20, 60]));
        assert_eq!(crossings(&store, other, 0, 60), Ok(vec![40]));
        assert_eq!(listed(&store, (gate, 1), MARK, (0, 60), 16), Ok(vec![50]));
        assert_eq!(listed(&store, (other, 1), MARK, (0, 60), 16), Ok(vec![]));
    });
}

#[test]
fn merges_releases_and_scans_alter_nothing() {
    with_gate(&[(LOW, 10), (HIGH, 20)], |mut store, gate| {
        let first = set(&mut store, gate, LOW, 30);
        let old = store.open_scan(Stamp(20)).unwrap();
        set_in_vain(&mut store, gate, HIGH);
        let second = set(&mut store, gate, HIGH, 40);
        let last = set(&mut store, gate, LOW, 40);
        let unchanged = |store: &Store| {
            assert_eq!(crossings(store, gate, 0, 40), Ok(vec![20, 30, 40, 40]));
            assert_eq!(crossings(store, gate, 21, 39), Ok(vec![30]));
        };
        unchanged(&store);
        for through in [first, second, last] {
            store.merge(0, 0, through).unwrap();
            unchanged(&store);
            store.release().unwrap();
            unchanged(&store);
        }
        store.close_scan(old).unwrap();
        assert_eq!(store.release(), Ok(3));
        unchanged(&store);
        // The value before is one that is merged.
        set(&mut store, gate, HIGH, 50);
        assert_eq!(crossings(&store, gate, 41, 50), Ok(vec![50]));
    });
}

/// A column that no update has set has its inserted value in the page alone, a merged one too.
#[test]
fn an_inserted_value_in_a_merged_page() {
    with_gate(&[(LOW, 10)], |mut store, gate| {
        let other = insert(&mut store, LOW, 10);
        let record = set(&mut store, other, HIGH, 20);
        store.merge(0, 0, record).unwrap();
        assert_eq!(crossings(&store, gate, 0, 20), Ok(vec![]));
        assert_eq!(crossings(&store, other, 0, 20), Ok(vec![20]));
        set(&mut store, gate, HIGH, 30);
        assert_eq!(crossings(&store, gate, 0, 30), Ok(vec![30]));
    });
}

/// The first setting of a column writes the inserted value down, though it be aborted; once a later one
/// is merged, it stands nowhere else.
#[test]
fn an_inserted_value_that_an_aborted_setting_wrote_down() {
    with_gate(&[(LOW, 10)], |mut store, gate| {
        set_in_vain(&mut store, gate, HIGH);
        let record = set(&mut store, gate, HIGH, 20);
        store.merge(0, 0, record).unwrap();
        assert_eq!(crossings(&store, gate, 0, 20), Ok(vec![20]));
    });
}

#[test]
fn stamps_that_do_not_fit_are_refused() {
    with_gate(&[(LOW, 10), (HIGH, 20)], |mut store, gate| {
        assert_eq!(crossings(&store, gate, 20, 19), Err(Refusal::Time));
        assert_eq!(crossings(&store, gate, 1, 0), Err(Refusal::Time));
        assert_eq!(crossings(&store, gate, 0, 21), Err(Refusal::Time));
        assert_eq!(crossings(&store, gate, 21, 21), Err(Refusal::Time));
        assert_eq!(crossings(&store, gate, u32::MAX, u32::MAX), Err(Refusal::Time));
        assert_eq!(crossings(&store, gate, 0, 0), Ok(vec![]));
        // A commit that changes nothing is a commit.
        let transaction = store.begin().unwrap();
        store.commit(transaction, Stamp(21)).unwrap();
        assert_eq!(crossings(&store, gate, 20, 21), Ok(vec![20]));
    });
    with_store(|mut store| {
        let transaction = store.begin().unwrap();
        let row = store.insert(transaction, &[LOW]).unwrap();
        assert_eq!(crossings(&store, row, 0, 0), Ok(vec![]));
        assert_eq!(crossings(&store, row, 0, 1), Err(Refusal::Time));
    });
}

/// Row, column, time, list: each goes before those behind it.
#[test]
fn the_first_refusal_that_applies_is_answered() {
    with_gate(&[(LOW, 10), (HIGH, 20)], |store, gate| {
        let other = Row(gate.0 + 1);
        let listed = |cell, stamps| listed(&store, cell, MARK, stamps, 0);
        for ahead in [(20, 10), (0, 21)] {
            assert_eq!(listed((other, 2), ahead), Err(Refusal::Row));
            assert_eq!(listed((gate, 2), ahead), Err(Refusal::Column));
            assert_eq!(listed((gate, 0), ahead), Err(Refusal::Time));
        }
        assert_eq!(listed((other, 0), (0, 20)), Err(Refusal::Row));
        assert_eq!(listed((gate, u32::MAX), (0, 20)), Err(Refusal::Column));
        assert_eq!(listed((gate, 0), (0, 20)), Err(Refusal::List));
    });
}

/// Memory and list are tested before all, and what is lent for the crossings stays as it was.
#[test]
fn where_memory_or_list_is_unusable_nothing_is_written() {
    let mut memory = vec![0; SHAPE.bytes_needed().expect("a good shape")];
    let mut scans = [ScanEntry::FREE; SCANS];
    let mut store = Store::make(&mut memory, &mut scans, SHAPE).expect("enough is lent");
    let gate = insert(&mut store, LOW, 10);
    set(&mut store, gate, HIGH, 20);
    assert_eq!(crossings(&store, gate, 0, 20), Ok(vec![20]));
    let store = Store::lent(&mut memory, &mut scans[1..]);
    for (row, from) in [(gate, 0), (gate, 21), (Row(7), 0)] {
        assert_eq!(crossings(&store, row, from, 20), Err(Refusal::Memory));
    }
    scans[0].number = 7;
    let store = Store::lent(&mut memory, &mut scans);
    assert_eq!(crossings(&store, gate, 0, 20), Err(Refusal::Memory));
}

/// As many crossings as a range has records for: the first setting takes two records, and each after
/// it one.
#[test]
fn a_row_with_every_record_of_its_range() {
    let levels: Vec<(i32, u32)> =
        (0..SHAPE.capacity).map(|k| (if k % 2 == 0 { LOW } else { HIGH }, k)).collect();
    with_gate(&levels, |store, gate| {
        let last = SHAPE.capacity - 1;
        let all: Vec<u32> = (1..=last).collect();
        let listed = |places| listed(&store, (gate, 0), MARK, (0, last), places);
        assert_eq!(listed(all.len()), Ok(all.clone()));
        assert_eq!(listed(all.len() + 1), Ok(all.clone()));
        assert_eq!(listed(all.len() - 1), Err(Refusal::List));
        assert_eq!(crossings(&store, gate, 5, 20), Ok((5..=20).collect()));
        assert_eq!(crossings(&store, gate, 5, 21), Err(Refusal::List));
    });
}
