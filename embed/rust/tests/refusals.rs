//! Each refusal, met through the crate, and that it changes no byte.

use deskrook::{
    Keeper, Mask, Refusal, Row, ScanEntry, ScanNumber, Shape, Stamp, Store, Tail, Transaction,
    SCANS,
};

const SHAPE: Shape = Shape { columns: 2, ranges: 1, capacity: 4, spares: 1 };

/// A store's bytes and list, to lend.
#[derive(Clone, PartialEq, Debug)]
struct Lent {
    memory: Vec<u8>,
    scans: Vec<ScanEntry>,
}

impl Lent {
    fn made(shape: Shape) -> Lent {
        let bytes = shape.bytes_needed().expect("a good shape");
        let mut lent = Lent { memory: vec![0xA5; bytes], scans: vec![ScanEntry::FREE; SCANS] };
        Store::make(&mut lent.memory, &mut lent.scans, shape).expect("enough is lent");
        lent
    }

    fn store(&mut self) -> Store<'_> {
        Store::lent(&mut self.memory, &mut self.scans)
    }

    /// A call that must be refused so, and change nothing.
    fn refuses<T: std::fmt::Debug>(
        &mut self,
        refusal: Refusal,
        call: impl Fn(&mut Store) -> Result<T, Refusal>,
    ) {
        let before = self.clone();
        assert_eq!(call(&mut self.store()).expect_err("it is to be refused"), refusal);
        assert_eq!(*self, before, "{refusal:?} changed a byte");
    }
}

/// A store with row 0 committed at 10 and, by a transaction that is answered, a pending update.
fn updated() -> (Lent, Transaction) {
    let mut lent = Lent::made(SHAPE);
    let mut store = lent.store();
    let first = store.begin().unwrap();
    assert_eq!(store.insert(first, &[1200, -30]), Ok(Row(0)));
    store.commit(first, Stamp(10)).unwrap();
    let second = store.begin().unwrap();
    assert_eq!(store.update(second, Row(0), Mask(1), &[1250]), Ok(Tail(2)));
    (lent, second)
}

#[test]
fn making() {
    let mut lent = Lent::made(SHAPE);
    let before = lent.clone();
    let shape = Shape { capacity: 513, ..SHAPE };
    let made = Store::make(&mut lent.memory, &mut lent.scans, shape);
    assert_eq!(made.err(), Some(Refusal::Shape));
    let short = lent.memory.len() - 1;
    let made = Store::make(&mut lent.memory[..short], &mut lent.scans, SHAPE);
    assert_eq!(made.err(), Some(Refusal::Memory));
    let made = Store::make(&mut lent.memory, &mut lent.scans[..SCANS - 1], SHAPE);
    assert_eq!(made.err(), Some(Refusal::Memory));
    assert_eq!(lent, before);
}

#[test]
fn damage() {
    let (mut lent, transaction) = updated();
    lent.scans[3].number = 7;
    lent.refuses(Refusal::Memory, |store| store.check());
    lent.refuses(Refusal::Memory, |store| store.abort(transaction));
    lent.scans[3].number = 0;
    lent.store().abort(transaction).unwrap();
}

/// One commit is made, before the scan that is opened. A scan cannot have more before it.
#[test]
fn more_commits_before_a_scan_than_were_made() {
    let (mut lent, transaction) = updated();
    let scan = lent.store().open_scan(Stamp(10)).unwrap();
    assert_eq!(lent.scans[0], ScanEntry { number: 1, stamp: 10, merges: 0, commits: 1 });
    for commits in [2, u32::MAX] {
        lent.scans[0].commits = commits;
        lent.refuses(Refusal::Memory, |store| store.check());
        lent.refuses(Refusal::Memory, |store| store.commit(transaction, Stamp(10)));
        lent.refuses(Refusal::Memory, |store| store.close_scan(scan));
    }
    for commits in [0, 1] {
        lent.scans[0].commits = commits;
        lent.store().check().unwrap();
    }
    lent.store().commit(transaction, Stamp(10)).unwrap();
    lent.scans[0].commits = 2;
    lent.store().check().unwrap();
    // What a free entry has does not count.
    lent.store().close_scan(scan).unwrap();
    assert_eq!(lent.scans[0], ScanEntry::FREE);
    lent.scans[0].commits = u32::MAX;
    lent.store().check().unwrap();
}

#[test]
fn numbers_that_are_not_there() {
    let (mut lent, transaction) = updated();
    lent.refuses(Refusal::Transaction, |store| store.insert(Transaction(1), &[]));
    lent.refuses(Refusal::Scan, |store| store.sum(ScanNumber(1), 0));
    lent.refuses(Refusal::Row, |store| store.latest(Row(1), 0));
    lent.refuses(Refusal::Column, |store| store.latest(Row(0), 2));
    lent.refuses(Refusal::Row, |store| store.keeper_at(Stamp(10), Row(1), 0));
    lent.refuses(Refusal::Column, |store| store.keeper_at(Stamp(10), Row(0), 2));
    lent.refuses(Refusal::Range, |store| store.lineage(1, 0));
    lent.refuses(Refusal::Mask, |store| store.update(transaction, Row(0), Mask(4), &[]));
}

#[test]
fn rows() {
    let (mut lent, transaction) = updated();
    let other = lent.store().begin().unwrap();
    lent.refuses(Refusal::Held, |store| store.delete(other, Row(0)));
    lent.store().delete(transaction, Row(0)).unwrap();
    lent.refuses(Refusal::Gone, |store| store.delete(transaction, Row(0)));
    for row in 1..64 {
        assert_eq!(lent.store().insert(other, &[1]), Ok(Row(row)));
    }
    lent.refuses(Refusal::Full, |store| store.insert(other, &[1]));
    lent.store().delete(other, Row(1)).unwrap();
    lent.refuses(Refusal::Tail, |store| store.delete(other, Row(2)));
}

#[test]
fn stamps() {
    let (mut lent, transaction) = updated();
    lent.refuses(Refusal::Time, |store| store.commit(transaction, Stamp(9)));
    lent.refuses(Refusal::Time, |store| store.commit(transaction, Stamp(0)));
    lent.refuses(Refusal::Time, |store| store.read_at(Stamp(11), Row(0), 0));
    lent.refuses(Refusal::Time, |store| store.keeper_at(Stamp(11), Row(0), 0));
    lent.refuses(Refusal::Time, |store| store.open_scan(Stamp(11)));
    lent.store().commit(transaction, Stamp(10)).unwrap();
    lent.refuses(Refusal::Time, |store| store.read_at(Stamp(11), Row(0), 0));
    lent.refuses(Refusal::Time, |store| store.keeper_at(Stamp(11), Row(0), 0));
    lent.refuses(Refusal::Time, |store| store.open_scan(Stamp(11)));
}

#[test]
fn crossings() {
    let (mut lent, transaction) = updated();
    lent.store().commit(transaction, Stamp(20)).unwrap();
    let listed = |store: &mut Store, row, from| {
        store.crossings(row, 0, 1240, from, Stamp(20), &mut []).map(<[Stamp]>::len)
    };
    lent.refuses(Refusal::Row, |store| listed(store, Row(1), Stamp(0)));
    lent.refuses(Refusal::Time, |store| listed(store, Row(0), Stamp(21)));
    lent.refuses(Refusal::List, |store| listed(store, Row(0), Stamp(20)));
}

/// A move uses the store up, so that it is not among those of `refuses`.
#[test]
fn keepers() {
    let mut lent = Lent::made(SHAPE);
    let transaction = lent.store().begin_as(Keeper(7)).unwrap();
    let before = lent.clone();
    let mut second = vec![0xA5; lent.memory.len()];
    let mut refused = |bytes: usize| {
        let moved = lent.store().downgrade(&mut second[..bytes]);
        moved.expect_err("it is to be refused").refusal
    };
    assert_eq!(refused(before.memory.len()), Refusal::Keeper);
    assert_eq!(refused(64), Refusal::Memory);
    assert_eq!(lent, before);
    let moved = lent.store().upgrade(&mut second);
    assert_eq!(moved.map(drop).map_err(Refusal::from), Err(Refusal::Memory));
    assert_eq!(lent, before);
    assert!(second.iter().all(|byte| *byte == 0xA5), "a refused move changed a byte");
    lent.store().abort(transaction).unwrap();
    lent.store().downgrade(&mut second).expect("no keeper but 0");
}

#[test]
fn open_ones_and_numbers() {
    let mut lent = Lent::made(SHAPE);
    for number in 1..=8 {
        assert_eq!(lent.store().begin(), Ok(Transaction(number)));
    }
    lent.refuses(Refusal::Busy, |store| store.begin());
    lent.refuses(Refusal::Busy, |store| store.begin_as(Keeper(7)));
    for number in 1..=5 {
        assert_eq!(lent.store().open_scan(Stamp(0)), Ok(ScanNumber(number)));
    }
    lent.refuses(Refusal::Busy, |store| store.open_scan(Stamp(0)));
    let mut store = lent.store();
    store.abort(Transaction(8)).unwrap();
    for number in 9..=65_535 {
        assert_eq!(store.begin(), Ok(Transaction(number)));
        store.abort(Transaction(number)).unwrap();
    }
    lent.refuses(Refusal::Number, |store| store.begin());
    lent.refuses(Refusal::Number, |store| store.begin_as(Keeper(7)));
}

/// Five entries serve and four do not. Open scans count, in whatever entries they stand: a list with
/// more entries takes five, and with six open every call on the store is refused. Making looks at the
/// length alone.
#[test]
fn lists() {
    let mut lent = Lent::made(SHAPE);
    assert_eq!(lent.scans.len(), 5);
    lent.store().check().unwrap();
    lent.scans.pop();
    lent.refuses(Refusal::Memory, |store| store.check());
    lent.refuses(Refusal::Memory, |store| store.open_scan(Stamp(0)));
    lent.scans.resize(16, ScanEntry::FREE);
    for number in 1..=5 {
        assert_eq!(lent.store().open_scan(Stamp(0)), Ok(ScanNumber(number)));
    }
    lent.scans.swap(0, 15);
    lent.refuses(Refusal::Busy, |store| store.open_scan(Stamp(0)));
    lent.store().close_scan(ScanNumber(1)).unwrap();
    assert_eq!(lent.store().open_scan(Stamp(0)), Ok(ScanNumber(6)));
    lent.scans[15] = ScanEntry { number: 1, ..ScanEntry::FREE };
    lent.refuses(Refusal::Memory, |store| store.check());
    lent.refuses(Refusal::Memory, |store| store.open_scan(Stamp(0)));
    lent.refuses(Refusal::Memory, |store| store.close_scan(ScanNumber(1)));
    lent.refuses(Refusal::Memory, |store| store.release());
    Store::make(&mut lent.memory, &mut lent.scans, SHAPE).expect("enough is lent");
    assert_eq!(lent.scans, [ScanEntry::FREE; 16]);
}

#[test]
fn pages() {
    let (mut lent, transaction) = updated();
    lent.refuses(Refusal::Reach, |store| store.merge(0, 0, Tail(3)));
    lent.refuses(Refusal::Open, |store| store.merge(0, 0, Tail(2)));
    lent.store().commit(transaction, Stamp(20)).unwrap();
    lent.store().merge(0, 0, Tail(2)).unwrap();
    lent.refuses(Refusal::Reach, |store| store.merge(0, 0, Tail(2)));
    lent.refuses(Refusal::NoPage, |store| store.merge(0, 1, Tail(2)));
    assert_eq!(lent.store().release(), Ok(1));
    lent.store().merge(0, 1, Tail(2)).unwrap();
}
