//! The keeper of a value: that of the transaction that set the column in the row. The stored form that
//! has no keepers, and the moves from it and back, are in moves.rs.

use deskrook::{
    c, Form, Keeper, Mask, Refusal, Row, ScanEntry, Shape, Stamp, Store, Tail, Transaction, SCANS,
};

const SHAPE: Shape = Shape { columns: 2, ranges: 1, capacity: 16, spares: 8 };
const GATE: Row = Row(0);
/// The keepers of the gate's insert and of its settings.
const INSERTER: Keeper = Keeper(3);
const SETTER: Keeper = Keeper(7);
const OTHER: Keeper = Keeper(65_535);
/// What `begin` takes.
const UNKNOWN: Keeper = Keeper::UNKNOWN;

/// Runs a test on a new store.
fn with_store(test: impl FnOnce(Store)) {
    let mut memory = vec![0xA5; SHAPE.bytes_needed().expect("a good shape")];
    let mut scans = [ScanEntry::FREE; SCANS];
    test(Store::make(&mut memory, &mut scans, SHAPE).expect("enough is lent"));
}

/// Runs a test on a store where the inserter has inserted the gate by a commit at 10.
fn with_gate(test: impl FnOnce(Store)) {
    with_store(|mut store| {
        assert_eq!(insert(&mut store, INSERTER, 10), GATE);
        test(store);
    });
}

/// Inserts a row by a keeper's commit at a stamp.
fn insert(store: &mut Store, keeper: Keeper, stamp: u32) -> Row {
    let transaction = store.begin_as(keeper).unwrap();
    let row = store.insert(transaction, &[1200]).unwrap();
    store.commit(transaction, Stamp(stamp)).unwrap();
    row
}

/// Sets one column of the gate by a keeper's commit at a stamp, and answers the setting's record.
fn set(store: &mut Store, keeper: Keeper, column: u32, stamp: u32) -> Tail {
    let transaction = store.begin_as(keeper).unwrap();
    let record = store.update(transaction, GATE, Mask::of(&[column]), &[1250, -30]).unwrap();
    store.commit(transaction, Stamp(stamp)).unwrap();
    record
}

/// Sets both columns of the gate by a keeper's transaction that is aborted.
fn set_in_vain(store: &mut Store, keeper: Keeper) -> Tail {
    let transaction = store.begin_as(keeper).unwrap();
    let record = store.update(transaction, GATE, Mask(3), &[1, 2]).unwrap();
    store.abort(transaction).unwrap();
    record
}

/// The keeper of a gate's column at a stamp.
fn keeper(store: &Store, column: u32, stamp: u32) -> Result<Option<Keeper>, Refusal> {
    store.keeper_at(Stamp(stamp), GATE, column)
}

#[test]
fn an_inserted_value_has_the_inserters() {
    with_gate(|mut store| {
        let other = insert(&mut store, OTHER, 20);
        // Column 1 too, though the insert was lent no value for it.
        for column in [0, 1] {
            assert_eq!(keeper(&store, column, 10), Ok(Some(INSERTER)));
            assert_eq!(keeper(&store, column, 20), Ok(Some(INSERTER)));
            assert_eq!(store.keeper_at(Stamp(20), other, column), Ok(Some(OTHER)));
        }
    });
}

#[test]
fn a_setting_has_its_own_from_its_commit_on() {
    with_gate(|mut store| {
        set(&mut store, SETTER, 0, 20);
        set(&mut store, OTHER, 0, 30);
        for (stamp, expected) in
            [(10, INSERTER), (19, INSERTER), (20, SETTER), (29, SETTER), (30, OTHER)]
        {
            assert_eq!(keeper(&store, 0, stamp), Ok(Some(expected)));
        }
    });
}

#[test]
fn another_column_set_later_leaves_it() {
    with_gate(|mut store| {
        set(&mut store, SETTER, 0, 20);
        assert_eq!(keeper(&store, 1, 20), Ok(Some(INSERTER)));
        set(&mut store, OTHER, 1, 30);
        assert_eq!(keeper(&store, 0, 30), Ok(Some(SETTER)));
        assert_eq!(keeper(&store, 1, 30), Ok(Some(OTHER)));
        assert_eq!(keeper(&store, 1, 29), Ok(Some(INSERTER)));
    });
}

#[test]
fn the_value_set_again_has_the_later_setters() {
    with_gate(|mut store| {
        let transaction = store.begin_as(SETTER).unwrap();
        store.update(transaction, GATE, Mask(1), &[1200]).unwrap();
        store.commit(transaction, Stamp(20)).unwrap();
        assert_eq!(keeper(&store, 0, 20), Ok(Some(SETTER)));
        assert_eq!(keeper(&store, 0, 19), Ok(Some(INSERTER)));
    });
}

/// The original is written down by the setter's transaction, and carries the inserter's keeper.
#[test]
fn an_original_has_the_inserters_whoever_wrote_it_down() {
    for aborted in [false, true] {
        with_gate(|mut store| {
            if aborted {
                assert_eq!(set_in_vain(&mut store, OTHER), Tail(2));
            }
            let record = set(&mut store, SETTER, 0, 20);
            for merged in [false, true] {
                if merged {
                    // The page has the setting now, and the inserted value is in the original alone.
                    store.merge(0, 0, record).unwrap();
                }
                assert_eq!(keeper(&store, 0, 10), Ok(Some(INSERTER)));
                assert_eq!(keeper(&store, 0, 19), Ok(Some(INSERTER)));
                assert_eq!(keeper(&store, 0, 20), Ok(Some(SETTER)));
            }
        });
    }
}

#[test]
fn an_aborted_setting_leaves_it() {
    with_gate(|mut store| {
        set(&mut store, SETTER, 0, 20);
        let last = set_in_vain(&mut store, OTHER);
        for merged in [false, true] {
            if merged {
                store.merge(0, 0, last).unwrap();
                store.merge(0, 1, last).unwrap();
            }
            assert_eq!(keeper(&store, 0, 20), Ok(Some(SETTER)));
            assert_eq!(keeper(&store, 1, 20), Ok(Some(INSERTER)));
        }
        set(&mut store, SETTER, 1, 30);
        assert_eq!(keeper(&store, 1, 29), Ok(Some(INSERTER)));
        assert_eq!(keeper(&store, 1, 30), Ok(Some(SETTER)));
    });
}

#[test]
fn merges_releases_and_scans_alter_nothing() {
    with_gate(|mut store| {
        let first = set(&mut store, SETTER, 0, 20);
        let old = store.open_scan(Stamp(20)).unwrap();
        let second = set(&mut store, OTHER, 0, 30);
        let late = store.open_scan(Stamp(30)).unwrap();
        // Another row's later setting, so that the last page's newest stamp is not the gate's.
        let transaction = store.begin_as(Keeper(9)).unwrap();
        let other = store.insert(transaction, &[7]).unwrap();
        let last = store.update(transaction, other, Mask(1), &[8]).unwrap();
        store.commit(transaction, Stamp(40)).unwrap();
        let unchanged = |store: &Store| {
            for (stamp, expected) in [(10, INSERTER), (29, SETTER), (30, OTHER), (40, OTHER)] {
                assert_eq!(keeper(store, 0, stamp), Ok(Some(expected)));
                assert_eq!(keeper(store, 1, stamp), Ok(Some(INSERTER)));
            }
            assert_eq!(store.keeper_at(Stamp(40), other, 0), Ok(Some(Keeper(9))));
            assert_eq!(store.keeper_at(Stamp(40), other, 1), Ok(Some(Keeper(9))));
            assert_eq!(store.keeper_at(Stamp(39), other, 0), Ok(None));
        };
        unchanged(&store);
        for through in [first, second, last] {
            for column in [0, 1] {
                store.merge(0, column, through).unwrap();
                unchanged(&store);
            }
            store.release().unwrap();
            unchanged(&store);
        }
        for scan in [old, late] {
            store.close_scan(scan).unwrap();
            unchanged(&store);
        }
        assert_eq!(store.release(), Ok(6));
        unchanged(&store);
    });
}

/// A scan between two commits of a minute sees the first; the keeper is that of the read at, which sees
/// the newest.
#[test]
fn the_newest_of_a_minute() {
    with_gate(|mut store| {
        for setter in [SETTER, OTHER, UNKNOWN, SETTER] {
            set(&mut store, setter, 0, 10);
            store.open_scan(Stamp(10)).unwrap();
            assert_eq!(keeper(&store, 0, 10), Ok(Some(setter)));
            assert_eq!(keeper(&store, 1, 10), Ok(Some(INSERTER)));
        }
        set(&mut store, OTHER, 0, 11);
        assert_eq!(keeper(&store, 0, 10), Ok(Some(SETTER)));
    });
}

#[test]
fn what_is_pending_is_not_seen() {
    with_gate(|mut store| {
        let pending = store.begin_as(SETTER).unwrap();
        store.update(pending, GATE, Mask(1), &[1250]).unwrap();
        let new = store.insert(pending, &[7]).unwrap();
        assert_eq!(keeper(&store, 0, 10), Ok(Some(INSERTER)));
        assert_eq!(store.keeper_at(Stamp(10), new, 0), Ok(None));
        store.commit(pending, Stamp(20)).unwrap();
        assert_eq!(keeper(&store, 0, 20), Ok(Some(SETTER)));
        assert_eq!(keeper(&store, 0, 10), Ok(Some(INSERTER)));
        assert_eq!(store.keeper_at(Stamp(20), new, 1), Ok(Some(SETTER)));
        assert_eq!(store.keeper_at(Stamp(19), new, 1), Ok(None));
    });
}

/// The deleter's keeper is nowhere read, for there is no value.
#[test]
fn none_before_the_insert_and_from_the_delete_on() {
    with_gate(|mut store| {
        let scan = store.open_scan(Stamp(10)).unwrap();
        set(&mut store, SETTER, 0, 20);
        let own = store.begin_as(OTHER).unwrap();
        store.delete(own, GATE).unwrap();
        assert_eq!(keeper(&store, 0, 20), Ok(Some(SETTER)));
        store.commit(own, Stamp(30)).unwrap();
        assert_eq!(keeper(&store, 0, 9), Ok(None));
        assert_eq!(keeper(&store, 0, 10), Ok(Some(INSERTER)));
        assert_eq!(keeper(&store, 0, 29), Ok(Some(SETTER)));
        assert_eq!(keeper(&store, 0, 30), Ok(None));
        store.close_scan(scan).unwrap();
        let aborted = store.begin_as(OTHER).unwrap();
        let new = store.insert(aborted, &[7]).unwrap();
        store.abort(aborted).unwrap();
        assert_eq!(store.keeper_at(Stamp(30), new, 0), Ok(None));
    });
}

/// An entry of the open transactions is used again, and the keeper of the last one that had it is gone.
#[test]
fn begin_has_keeper_0_also_after_begin_as() {
    for aborted in [false, true] {
        with_gate(|mut store| {
            let known = store.begin_as(OTHER).unwrap();
            match aborted {
                true => store.abort(known).unwrap(),
                false => store.commit(known, Stamp(15)).unwrap(),
            }
            let unknown = store.begin().unwrap();
            store.update(unknown, GATE, Mask(1), &[1250]).unwrap();
            let new = store.insert(unknown, &[7]).unwrap();
            store.commit(unknown, Stamp(20)).unwrap();
            assert_eq!(keeper(&store, 0, 20), Ok(Some(UNKNOWN)));
            assert_eq!(keeper(&store, 0, 19), Ok(Some(INSERTER)));
            assert_eq!(store.keeper_at(Stamp(20), new, 0), Ok(Some(UNKNOWN)));
        });
    }
}

#[test]
fn begin_as_0_is_begin() {
    let bytes = |begin: fn(&mut Store) -> Result<Transaction, Refusal>| {
        let mut memory = vec![0; SHAPE.bytes_needed().expect("a good shape")];
        let mut scans = [ScanEntry::FREE; SCANS];
        let mut store = Store::make(&mut memory, &mut scans, SHAPE).expect("enough is lent");
        assert_eq!(begin(&mut store), Ok(Transaction(1)));
        store.insert(Transaction(1), &[1200]).unwrap();
        assert_eq!(begin(&mut store), Ok(Transaction(2)));
        memory
    };
    assert_eq!(bytes(|store| store.begin_as(Keeper(0))), bytes(|store| store.begin()));
    assert_ne!(bytes(|store| store.begin_as(Keeper(1))), bytes(|store| store.begin()));
}

/// With all eight open, each has its own keeper, in whatever order they write and end.
#[test]
fn each_open_transaction_has_its_own() {
    with_store(|mut store| {
        let keepers = [5, 0, 65_535, 1, 256, 5, 32_768, 2].map(Keeper);
        let begun = keepers.map(|keeper| store.begin_as(keeper).unwrap());
        let mut rows = Vec::new();
        for place in [3, 7, 0, 5, 1, 6, 2, 4] {
            rows.push((store.insert(begun[place], &[7]).unwrap(), keepers[place]));
        }
        for (stamp, place) in [6, 1, 4, 0, 7, 3, 2, 5].into_iter().enumerate() {
            store.commit(begun[place], Stamp(stamp as u32)).unwrap();
        }
        for (row, keeper) in rows {
            assert_eq!(store.keeper_at(Stamp(7), row, 1), Ok(Some(keeper)));
        }
    });
}

/// The inserter's own setting, and of two settings by one transaction either: there is one keeper.
#[test]
fn several_settings_by_one_transaction() {
    with_store(|mut store| {
        let transaction = store.begin_as(INSERTER).unwrap();
        assert_eq!(store.insert(transaction, &[1200]), Ok(GATE));
        store.update(transaction, GATE, Mask(1), &[1210]).unwrap();
        store.commit(transaction, Stamp(10)).unwrap();
        assert_eq!(keeper(&store, 0, 10), Ok(Some(INSERTER)));
        let transaction = store.begin_as(SETTER).unwrap();
        for mask in [1, 3] {
            store.update(transaction, GATE, Mask(mask), &[1250, -30]).unwrap();
        }
        store.commit(transaction, Stamp(20)).unwrap();
        for column in [0, 1] {
            assert_eq!(keeper(&store, column, 20), Ok(Some(SETTER)));
            assert_eq!(keeper(&store, column, 19), Ok(Some(INSERTER)));
        }
    });
}

#[test]
fn every_number_of_two_bytes_is_a_keeper() {
    with_gate(|mut store| {
        for (stamp, number) in
            (20..).zip([0, 1, 255, 256, 32_767, 32_768, 65_534, 65_535].map(Keeper))
        {
            set(&mut store, number, 0, stamp);
            assert_eq!(keeper(&store, 0, stamp), Ok(Some(number)));
        }
        let row = insert(&mut store, OTHER, 40);
        assert_eq!(store.keeper_at(Stamp(40), row, 0), Ok(Some(OTHER)));
    });
}

/// Time, row, column: refused as the read at is, also ahead of the last commit, and none where it is.
#[test]
fn refused_and_none_as_the_read_at_is() {
    with_gate(|mut store| {
        set(&mut store, SETTER, 0, 20);
        let pending = store.begin_as(OTHER).unwrap();
        store.insert(pending, &[7]).unwrap();
        let [mut refused, mut none, mut some] = [0; 3];
        for stamp in [0, 9, 10, 19, 20, 21, u32::MAX].map(Stamp) {
            for row in [0, 1, 2, 63, 64, u32::MAX].map(Row) {
                for column in [0, 1, 2, 16, u32::MAX] {
                    let read = store.read_at(stamp, row, column);
                    let found = store.keeper_at(stamp, row, column);
                    assert_eq!(found.map(|found| found.is_some()), read.map(|read| read.is_some()));
                    match read {
                        Err(_) => refused += 1,
                        Ok(None) => none += 1,
                        Ok(Some(_)) => some += 1,
                    }
                }
            }
        }
        // Of five stamps in time: two rows are given, with two columns each. The gate is there at three.
        assert_eq!([refused, none, some], [7 * 6 * 5 - 5 * 2 * 2, 2 * 2 * 2 + 3 * 2, 3 * 2]);
        assert_eq!(store.keeper_at(Stamp(21), Row(2), 2), Err(Refusal::Time));
        assert_eq!(store.keeper_at(Stamp(20), Row(2), 2), Err(Refusal::Row));
        assert_eq!(store.keeper_at(Stamp(20), GATE, 2), Err(Refusal::Column));
    });
    with_store(|mut store| {
        assert_eq!(keeper(&store, 0, 1), Err(Refusal::Time));
        assert_eq!(keeper(&store, 0, 0), Err(Refusal::Row));
        insert(&mut store, INSERTER, 0);
        assert_eq!(keeper(&store, 0, 0), Ok(Some(INSERTER)));
    });
}

/// The words of a memory that a test writes to.
fn put(memory: &mut [u8], word: usize, number: u32) {
    memory[4 * word..][..4].copy_from_slice(&number.to_le_bytes());
}

/// The keeper of a gate's column at 20 as the library answers it, of which the crate takes 2 bytes.
fn answered(memory: &[u8], scans: &[ScanEntry], column: u32) -> u32 {
    let (mem, bytes) = (memory.as_ptr(), memory.len());
    let (list, entries) = (scans.as_ptr(), scans.len());
    // SAFETY: pointers and lengths are those of two slices borrowed for the call.
    let reply = unsafe { c::deskrook_keeper_at(mem, bytes, list, entries, 20, GATE.0, column) };
    assert_eq!(reply.result, c::OK);
    reply.first
}

/// No stored fact speaks of the words that hold keepers, the last ones of a memory: those of the rows,
/// of the tail records and of the open transactions. Whatever is there, a keeper has 2 bytes.
#[test]
fn any_word_is_a_keepers() {
    let mut memory = vec![0; SHAPE.bytes_needed().expect("a good shape")];
    let mut scans = [ScanEntry::FREE; SCANS];
    let mut store = Store::make(&mut memory, &mut scans, SHAPE).expect("enough is lent");
    insert(&mut store, INSERTER, 10);
    let record = set(&mut store, SETTER, 0, 20);
    let (rows, records, opens) = (64, SHAPE.capacity as usize, 8);
    let first = memory.len() / 4 - rows - records - opens;
    for (word, expected) in [(0x0007_0009, 9), (65_536, 0), (u32::MAX, 65_535)] {
        for (place, at) in [(first, 1), (first + rows + record.0 as usize - 1, 0)] {
            put(&mut memory, place, word);
            let store = Store::lent(&mut memory, &mut scans);
            assert_eq!(store.check(), Ok(Form::Newest));
            assert_eq!(keeper(&store, at, 20), Ok(Some(Keeper(expected))));
            assert_eq!(answered(&memory, &scans, at), u32::from(expected));
        }
    }
    for word in memory.len() / 4 - opens..memory.len() / 4 {
        put(&mut memory, word, u32::MAX);
    }
    // Beginning writes the keeper over what was there, an unknown one too.
    let mut store = Store::lent(&mut memory, &mut scans);
    assert_eq!(store.check(), Ok(Form::Newest));
    let (unknown, known) = (store.begin().unwrap(), store.begin_as(SETTER).unwrap());
    for (stamp, transaction, expected) in [(30, unknown, UNKNOWN), (40, known, SETTER)] {
        store.update(transaction, GATE, Mask(1), &[1250]).unwrap();
        store.commit(transaction, Stamp(stamp)).unwrap();
        assert_eq!(keeper(&store, 0, stamp), Ok(Some(expected)));
    }
}
