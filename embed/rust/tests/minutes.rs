//! Several commits in one minute: a read at the minute gives the newest, and a scan sees those made
//! before its opening and no more.

use deskrook::{
    Mask, Refusal, Row, ScanEntry, Shape, Stamp, Store, Sum, Tail, Transaction, Version, SCANS,
};

const SHAPE: Shape = Shape { columns: 1, ranges: 1, capacity: 16, spares: 8 };
const MINUTE: Stamp = Stamp(10);

/// Runs a test on a new store.
fn with_store(test: impl FnOnce(Store)) {
    let mut memory = vec![0xA5; SHAPE.bytes_needed().expect("a good shape")];
    let mut scans = [ScanEntry::FREE; SCANS];
    test(Store::make(&mut memory, &mut scans, SHAPE).expect("enough is lent"));
}

/// Inserts a row by a commit of its own.
fn insert(store: &mut Store, value: i32, stamp: Stamp) -> Row {
    let transaction = store.begin().unwrap();
    let row = store.insert(transaction, &[value]).unwrap();
    store.commit(transaction, stamp).unwrap();
    row
}

/// Sets a row's column by a commit of its own, and answers the setting's record.
fn set(store: &mut Store, row: Row, value: i32, stamp: Stamp) -> Tail {
    let transaction = store.begin().unwrap();
    let record = store.update(transaction, row, Mask(1), &[value]).unwrap();
    store.commit(transaction, stamp).unwrap();
    record
}

fn delete(store: &mut Store, row: Row, stamp: Stamp) {
    let transaction = store.begin().unwrap();
    store.delete(transaction, row).unwrap();
    store.commit(transaction, stamp).unwrap();
}

/// The answer of a read that gives a value.
fn gives(value: i32, stamp: Stamp) -> Result<Option<Version>, Refusal> {
    Ok(Some(Version { value, stamp }))
}

#[test]
fn a_read_at_the_minute_gives_the_newest_of_it() {
    with_store(|mut store| {
        let gate = insert(&mut store, 1200, MINUTE);
        for value in [1250, 1300, 1200] {
            set(&mut store, gate, value, MINUTE);
            assert_eq!(store.read_at(MINUTE, gate, 0), gives(value, MINUTE));
            assert_eq!(store.latest(gate, 0), gives(value, MINUTE));
            assert_eq!(store.read_at(Stamp(9), gate, 0), Ok(None));
        }
        set(&mut store, gate, 7, Stamp(11));
        assert_eq!(store.read_at(MINUTE, gate, 0), gives(1200, MINUTE));
    });
}

/// Between two commits of a minute a scan is opened. By the second a row is set, one is inserted and
/// one deleted; then comes a merge, and the scan has its own page.
#[test]
fn a_scan_between_two_commits_sees_the_first_alone() {
    with_store(|mut store| {
        let (gate, other) = (insert(&mut store, 1200, MINUTE), insert(&mut store, 5, MINUTE));
        let first = set(&mut store, gate, 1250, MINUTE);
        let scan = store.open_scan(MINUTE).unwrap();
        let unchanged = |store: &Store, new: Option<Row>| {
            assert_eq!(store.scan_read(scan, gate, 0), gives(1250, MINUTE));
            assert_eq!(store.scan_read(scan, other, 0), gives(5, MINUTE));
            if let Some(new) = new {
                assert_eq!(store.scan_read(scan, new, 0), Ok(None));
            }
            assert_eq!(store.sum(scan, 0), Ok(Sum { rows: 2, sum: 1255 }));
        };
        unchanged(&store, None);
        let second = set(&mut store, gate, 1300, MINUTE);
        unchanged(&store, None);
        let new = insert(&mut store, 9, MINUTE);
        unchanged(&store, Some(new));
        delete(&mut store, other, MINUTE);
        unchanged(&store, Some(new));
        for through in [first, second] {
            store.merge(0, 0, through).unwrap();
            unchanged(&store, Some(new));
        }
        // Both merges were made after the scan was opened, so that both old pages are kept.
        assert_eq!(store.release(), Ok(0));
        assert_eq!(store.read_at(MINUTE, gate, 0), gives(1300, MINUTE));
        assert_eq!(store.read_at(MINUTE, new, 0), gives(9, MINUTE));
        assert_eq!(store.read_at(MINUTE, other, 0), Ok(None));
        // One that is opened now sees them all, by the new page.
        let late = store.open_scan(MINUTE).unwrap();
        assert_eq!(store.scan_read(late, gate, 0), gives(1300, MINUTE));
        assert_eq!(store.sum(late, 0), Ok(Sum { rows: 2, sum: 1309 }));
        set(&mut store, gate, 1, Stamp(11));
        unchanged(&store, Some(new));
        assert_eq!(store.scan_read(late, gate, 0), gives(1300, MINUTE));
    });
}

/// What was pending when the scan was opened, and is committed in its minute, it does not see.
#[test]
fn a_scan_does_not_see_what_was_pending_at_its_opening() {
    with_store(|mut store| {
        let gate = insert(&mut store, 1200, MINUTE);
        let pending = store.begin().unwrap();
        let new = store.insert(pending, &[9]).unwrap();
        store.update(pending, gate, Mask(1), &[1250]).unwrap();
        let scan = store.open_scan(MINUTE).unwrap();
        store.commit(pending, MINUTE).unwrap();
        assert_eq!(store.scan_read(scan, gate, 0), gives(1200, MINUTE));
        assert_eq!(store.scan_read(scan, new, 0), Ok(None));
        assert_eq!(store.latest(gate, 0), gives(1250, MINUTE));
        assert_eq!(store.latest(new, 0), gives(9, MINUTE));
    });
}

/// A scan of an earlier minute has all of its commits, and none of the last's.
#[test]
fn a_scan_of_a_minute_that_is_over_sees_its_newest() {
    with_store(|mut store| {
        let gate = insert(&mut store, 1200, MINUTE);
        set(&mut store, gate, 1250, MINUTE);
        set(&mut store, gate, 1300, Stamp(20));
        let scan = store.open_scan(MINUTE).unwrap();
        set(&mut store, gate, 1350, Stamp(20));
        assert_eq!(store.scan_read(scan, gate, 0), gives(1250, MINUTE));
        assert_eq!(store.read_at(Stamp(19), gate, 0), gives(1250, MINUTE));
        assert_eq!(store.read_at(Stamp(20), gate, 0), gives(1350, Stamp(20)));
    });
}

/// In a new store the last stamp is 0, so that commits at 0 are accepted, and the stamp that goes with
/// their values is 0.
#[test]
fn commits_at_0_in_a_new_store() {
    with_store(|mut store| {
        let before = store.open_scan(Stamp(0)).unwrap();
        let gate = insert(&mut store, 1200, Stamp(0));
        let between = store.open_scan(Stamp(0)).unwrap();
        set(&mut store, gate, 1250, Stamp(0));
        assert_eq!(store.latest(gate, 0), gives(1250, Stamp(0)));
        assert_eq!(store.read_at(Stamp(0), gate, 0), gives(1250, Stamp(0)));
        assert_eq!(store.scan_read(between, gate, 0), gives(1200, Stamp(0)));
        assert_eq!(store.scan_read(before, gate, 0), Ok(None));
        set(&mut store, gate, 1300, Stamp(1));
        let late = store.begin().unwrap();
        assert_eq!(store.commit(late, Stamp(0)), Err(Refusal::Time));
    });
}

/// At the greatest stamp there is no later one, and commits go on.
#[test]
fn commits_at_the_greatest_stamp() {
    with_store(|mut store| {
        let last = Stamp(u32::MAX);
        let gate = insert(&mut store, 1200, last);
        let scan = store.open_scan(last).unwrap();
        set(&mut store, gate, 1250, last);
        assert_eq!(store.latest(gate, 0), gives(1250, last));
        assert_eq!(store.scan_read(scan, gate, 0), gives(1200, last));
        let late = store.begin().unwrap();
        assert_eq!(store.commit(late, Stamp(u32::MAX - 1)), Err(Refusal::Time));
    });
}

/// The entry of a scan has the count of all commits made before it: those of transactions that changed
/// nothing too, and of later stamps, but no aborts.
#[test]
fn an_entry_has_the_count_of_all_commits() {
    let mut memory = vec![0; SHAPE.bytes_needed().expect("a good shape")];
    let mut scans = [ScanEntry::FREE; SCANS];
    let mut store = Store::make(&mut memory, &mut scans, SHAPE).expect("enough is lent");
    store.open_scan(Stamp(0)).unwrap();
    insert(&mut store, 1200, MINUTE);
    store.open_scan(MINUTE).unwrap();
    store.begin().unwrap();
    store.commit(Transaction(2), MINUTE).unwrap();
    let aborted = store.begin().unwrap();
    store.abort(aborted).unwrap();
    store.open_scan(Stamp(9)).unwrap();
    insert(&mut store, 5, Stamp(11));
    let closed = store.open_scan(MINUTE).unwrap();
    store.close_scan(closed).unwrap();
    store.open_scan(Stamp(3)).unwrap();
    let entry = |number, stamp, commits| ScanEntry { number, stamp, merges: 0, commits };
    let expected =
        [entry(1, 0, 0), entry(2, 10, 1), entry(3, 9, 2), entry(5, 3, 3), ScanEntry::FREE];
    assert_eq!(scans, expected);
}
