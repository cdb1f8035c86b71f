//! The stamp that a read gives with its value: that of the commit that set the column in the row.

use deskrook::{Mask, Refusal, Row, ScanEntry, Shape, Stamp, Store, Tail, Version, SCANS};

const SHAPE: Shape = Shape { columns: 2, ranges: 1, capacity: 16, spares: 8 };
const GATE: Row = Row(0);

/// Runs a test on a store where the gate has 1200 and -30 by a commit at 10.
fn with_gate(test: impl FnOnce(Store)) {
    let mut memory = vec![0xA5; SHAPE.bytes_needed().expect("a good shape")];
    let mut scans = [ScanEntry::FREE; SCANS];
    let mut store = Store::make(&mut memory, &mut scans, SHAPE).expect("enough is lent");
    let inserter = store.begin().unwrap();
    assert_eq!(store.insert(inserter, &[1200, -30]), Ok(GATE));
    store.commit(inserter, Stamp(10)).unwrap();
    test(store);
}

/// Sets one column of the gate by a commit at a stamp, and answers the setting's record.
fn set(store: &mut Store, column: u32, value: i32, stamp: u32) -> Tail {
    let transaction = store.begin().unwrap();
    let record = store.update(transaction, GATE, Mask::of(&[column]), &[value, value]).unwrap();
    store.commit(transaction, Stamp(stamp)).unwrap();
    record
}

/// The answer of a read that gives a value.
fn gives(value: i32, stamp: u32) -> Result<Option<Version>, Refusal> {
    Ok(Some(Version { value, stamp: Stamp(stamp) }))
}

#[test]
fn an_inserted_value_has_the_inserts_stamp() {
    with_gate(|mut store| {
        let transaction = store.begin().unwrap();
        let other = store.insert(transaction, &[7]).unwrap();
        store.commit(transaction, Stamp(20)).unwrap();
        assert_eq!(store.latest(GATE, 0), gives(1200, 10));
        assert_eq!(store.read_at(Stamp(20), GATE, 1), gives(-30, 10));
        assert_eq!(store.latest(other, 0), gives(7, 20));
        // No value was lent for this column, and its 0 is the insert's as well.
        assert_eq!(store.latest(other, 1), gives(0, 20));
    });
}

#[test]
fn another_column_set_later_leaves_the_stamp() {
    with_gate(|mut store| {
        set(&mut store, 0, 1250, 20);
        assert_eq!(store.latest(GATE, 1), gives(-30, 10));
        set(&mut store, 1, -40, 30);
        assert_eq!(store.latest(GATE, 0), gives(1250, 20));
        assert_eq!(store.latest(GATE, 1), gives(-40, 30));
        assert_eq!(store.read_at(Stamp(30), GATE, 0), gives(1250, 20));
        assert_eq!(store.read_at(Stamp(29), GATE, 1), gives(-30, 10));
    });
}

#[test]
fn the_value_set_again_has_the_later_stamp() {
    with_gate(|mut store| {
        set(&mut store, 0, 1200, 20);
        assert_eq!(store.latest(GATE, 0), gives(1200, 20));
        assert_eq!(store.read_at(Stamp(19), GATE, 0), gives(1200, 10));
    });
}

#[test]
fn an_original_has_the_inserts_stamp_whoever_wrote_it_down() {
    with_gate(|mut store| {
        // The column's first update writes the original as record 1, and is itself record 2.
        let aborted = store.begin().unwrap();
        assert_eq!(store.update(aborted, GATE, Mask(1), &[1]), Ok(Tail(2)));
        store.abort(aborted).unwrap();
        assert_eq!(store.latest(GATE, 0), gives(1200, 10));
        set(&mut store, 0, 1250, 20);
        assert_eq!(store.read_at(Stamp(10), GATE, 0), gives(1200, 10));
        assert_eq!(store.read_at(Stamp(19), GATE, 0), gives(1200, 10));
        assert_eq!(store.latest(GATE, 0), gives(1250, 20));
    });
}

#[test]
fn a_merge_leaves_every_stamp() {
    with_gate(|mut store| {
        let first = set(&mut store, 0, 1250, 20);
        let old = store.open_scan(Stamp(20)).unwrap();
        let second = set(&mut store, 0, 1300, 30);
        // Another row's later setting, so that the last page's newest stamp is not the gate's.
        let transaction = store.begin().unwrap();
        let other = store.insert(transaction, &[7]).unwrap();
        let last = store.update(transaction, other, Mask(1), &[8]).unwrap();
        store.commit(transaction, Stamp(40)).unwrap();
        for through in [Tail(0), first, second, last] {
            if through != Tail(0) {
                store.merge(0, 0, through).unwrap();
                store.merge(0, 1, through).unwrap();
            }
            assert_eq!(store.latest(GATE, 0), gives(1300, 30));
            assert_eq!(store.latest(GATE, 1), gives(-30, 10));
            assert_eq!(store.latest(other, 0), gives(8, 40));
            assert_eq!(store.read_at(Stamp(29), GATE, 0), gives(1250, 20));
            assert_eq!(store.read_at(Stamp(19), GATE, 0), gives(1200, 10));
            assert_eq!(store.scan_read(old, GATE, 0), gives(1250, 20));
            assert_eq!(store.scan_read(old, GATE, 1), gives(-30, 10));
            let transaction = store.begin().unwrap();
            assert_eq!(store.own_read(transaction, GATE, 0), gives(1300, 30));
            store.abort(transaction).unwrap();
        }
        assert_eq!(store.page_cell(0, GATE), Ok(1300));
    });
}

#[test]
fn a_scan_opened_after_a_merge_gives_the_stamps_up_to_its_own() {
    with_gate(|mut store| {
        set(&mut store, 0, 1250, 20);
        let last = set(&mut store, 0, 1300, 30);
        store.merge(0, 0, last).unwrap();
        for (stamp, value, setter) in [(10, 1200, 10), (25, 1250, 20), (30, 1300, 30)] {
            let scan = store.open_scan(Stamp(stamp)).unwrap();
            assert_eq!(store.scan_read(scan, GATE, 0), gives(value, setter));
        }
        let before = store.open_scan(Stamp(9)).unwrap();
        assert_eq!(store.scan_read(before, GATE, 0), Ok(None));
    });
}

#[test]
fn a_pending_value_has_stamp_0_for_its_transaction_alone() {
    with_gate(|mut store| {
        let (own, other) = (store.begin().unwrap(), store.begin().unwrap());
        for value in [1250, 1260] {
            store.update(own, GATE, Mask(1), &[value]).unwrap();
            assert_eq!(store.own_read(own, GATE, 0), gives(value, 0));
            // The column that is not pending has its commit's stamp.
            assert_eq!(store.own_read(own, GATE, 1), gives(-30, 10));
            assert_eq!(store.own_read(other, GATE, 0), gives(1200, 10));
            assert_eq!(store.latest(GATE, 0), gives(1200, 10));
        }
        store.commit(own, Stamp(20)).unwrap();
        assert_eq!(store.latest(GATE, 0), gives(1260, 20));
        assert_eq!(store.own_read(other, GATE, 0), gives(1260, 20));
        assert_eq!(store.own_read(other, GATE, 1), gives(-30, 10));
    });
}

#[test]
fn a_column_not_pending_has_its_last_settings_stamp_in_an_own_read() {
    with_gate(|mut store| {
        let record = set(&mut store, 1, -40, 20);
        store.merge(0, 1, record).unwrap();
        let own = store.begin().unwrap();
        store.update(own, GATE, Mask(1), &[1250]).unwrap();
        assert_eq!(store.own_read(own, GATE, 0), gives(1250, 0));
        assert_eq!(store.own_read(own, GATE, 1), gives(-40, 20));
    });
}

#[test]
fn a_row_of_ones_own_has_stamp_0_until_its_commit() {
    with_gate(|mut store| {
        let (own, other) = (store.begin().unwrap(), store.begin().unwrap());
        let row = store.insert(own, &[7, 8]).unwrap();
        assert_eq!(store.own_read(own, row, 0), gives(7, 0));
        store.update(own, row, Mask(1), &[9]).unwrap();
        assert_eq!(store.own_read(own, row, 0), gives(9, 0));
        assert_eq!(store.own_read(own, row, 1), gives(8, 0));
        assert_eq!(store.own_read(other, row, 0), Ok(None));
        assert_eq!(store.latest(row, 0), Ok(None));
        store.commit(own, Stamp(20)).unwrap();
        assert_eq!(store.latest(row, 0), gives(9, 20));
        assert_eq!(store.latest(row, 1), gives(8, 20));
    });
}

#[test]
fn an_aborted_setting_leaves_the_stamp() {
    with_gate(|mut store| {
        set(&mut store, 0, 1250, 20);
        let aborted = store.begin().unwrap();
        let last = store.update(aborted, GATE, Mask(3), &[1, 2]).unwrap();
        assert_eq!(store.own_read(aborted, GATE, 0), gives(1, 0));
        store.abort(aborted).unwrap();
        for merged in [false, true] {
            if merged {
                store.merge(0, 0, last).unwrap();
                store.merge(0, 1, last).unwrap();
            }
            assert_eq!(store.latest(GATE, 0), gives(1250, 20));
            assert_eq!(store.latest(GATE, 1), gives(-30, 10));
        }
        set(&mut store, 1, -40, 30);
        assert_eq!(store.latest(GATE, 0), gives(1250, 20));
        assert_eq!(store.read_at(Stamp(29), GATE, 1), gives(-30, 10));
    });
}

#[test]
fn none_before_the_insert_and_from_the_delete_on() {
    with_gate(|mut store| {
        let scan = store.open_scan(Stamp(10)).unwrap();
        let own = store.begin().unwrap();
        store.delete(own, GATE).unwrap();
        assert_eq!(store.own_read(own, GATE, 0), Ok(None));
        assert_eq!(store.latest(GATE, 0), gives(1200, 10));
        store.commit(own, Stamp(20)).unwrap();
        assert_eq!(store.latest(GATE, 0), Ok(None));
        assert_eq!(store.read_at(Stamp(9), GATE, 0), Ok(None));
        assert_eq!(store.read_at(Stamp(20), GATE, 0), Ok(None));
        assert_eq!(store.read_at(Stamp(19), GATE, 0), gives(1200, 10));
        assert_eq!(store.scan_read(scan, GATE, 0), gives(1200, 10));
    });
}
