//! The stored forms, and the moves from form 1 to the newest and back. The memories of form 1 are those of
//! checks/form1, which the library made before there was another; the texts there tell the calls that made
//! them.

use deskrook::{
    Form, Keeper, Lineage, Mask, Refusal, Row, ScanEntry, ScanNumber, Shape, Stamp, Store, Sum,
    Tail, Transaction, Unmoved, Version, SCANS,
};

const SHAPE: Shape = Shape { columns: 2, ranges: 1, capacity: 16, spares: 8 };
const GATE: Row = Row(0);
const KEEPER: Keeper = Keeper(7);
/// What a second memory holds before a move.
const FOUND: u8 = 0xA5;

/// A memory and a list, to lend.
#[derive(Clone, PartialEq)]
struct Lent {
    memory: Vec<u8>,
    scans: Vec<ScanEntry>,
}

macro_rules! kept {
    ($($name:literal),*) => {
        [$((
            $name,
            include_bytes!(concat!("../../../checks/form1/", $name, ".memory")).as_slice(),
            include_bytes!(concat!("../../../checks/form1/", $name, ".scans")).as_slice(),
        )),*]
    };
}

/// Their names, memories and lists.
const KEPT: [(&str, &[u8], &[u8]); 7] =
    kept!["freed", "full", "made", "minutes", "open", "ranges", "waiting"];

/// A word of some bytes.
fn word(bytes: &[u8], at: usize) -> u32 {
    u32::from_le_bytes(bytes[4 * at..][..4].try_into().expect("four bytes"))
}

fn put(bytes: &mut [u8], at: usize, word: u32) {
    bytes[4 * at..][..4].copy_from_slice(&word.to_le_bytes());
}

/// The shape in a memory's first words, in whatever form.
fn shape(memory: &[u8]) -> Shape {
    let [columns, ranges, capacity, spares] = [0, 1, 2, 3].map(|at| word(memory, at) % 65_536);
    Shape { columns, ranges, capacity, spares }
}

/// The bytes of the words of keepers, which the newest form has behind those of form 1: one for each row,
/// each tail record and each of the 8 entries of open transactions.
fn keepers(shape: Shape) -> usize {
    4 * (64 * shape.ranges + shape.ranges * shape.capacity + 8) as usize
}

/// The bytes that each form needs.
fn needs(shape: Shape) -> (usize, usize) {
    let newest = shape.bytes_needed().expect("a good shape");
    (newest - keepers(shape), newest)
}

/// A fitted panel by its name.
fn panel(name: &str) -> Lent {
    let (_, memory, list) = KEPT.into_iter().find(|kept| kept.0 == name).expect("a kept memory");
    let entry = |bytes: &[u8]| {
        let [number, stamp, merges, commits] = [0, 1, 2, 3].map(|at| word(bytes, at));
        ScanEntry { number, stamp, merges, commits }
    };
    Lent { memory: memory.to_vec(), scans: list.chunks(16).map(entry).collect() }
}

fn panels() -> impl Iterator<Item = (&'static str, Lent)> {
    KEPT.into_iter().map(|(name, ..)| (name, panel(name)))
}

/// Either move.
type Move = for<'a, 'b> fn(Store<'a>, &'b mut [u8]) -> Result<(), Refusal>;

const UPGRADE: Move = |store, second| store.upgrade(second).map(drop).map_err(Refusal::from);
const DOWNGRADE: Move = |store, second| store.downgrade(second).map(drop).map_err(Refusal::from);

impl Lent {
    fn made() -> Lent {
        let (_, bytes) = needs(SHAPE);
        let mut lent = Lent { memory: vec![FOUND; bytes], scans: vec![ScanEntry::FREE; SCANS] };
        Store::make(&mut lent.memory, &mut lent.scans, SHAPE).expect("enough is lent");
        lent
    }

    fn store(&mut self) -> Store<'_> {
        Store::lent(&mut self.memory, &mut self.scans)
    }

    /// What a move to a second memory of so many bytes makes of it. Refused or not, memory and list are
    /// as they were; refused, so is the second memory.
    fn moved(&self, by: Move, bytes: usize) -> Result<Lent, Refusal> {
        let mut from = self.clone();
        let mut second = vec![FOUND; bytes];
        let moved = by(from.store(), &mut second);
        assert!(from == *self, "the move changed the memory moved from, or the list");
        match moved {
            Ok(()) => Ok(Lent { memory: second, scans: from.scans }),
            Err(refusal) => {
                assert!(second.iter().all(|byte| *byte == FOUND), "{refusal:?} changed a byte");
                Err(refusal)
            }
        }
    }

    fn upgraded(&self) -> Lent {
        self.moved(UPGRADE, needs(shape(&self.memory)).1).expect("a panel")
    }

    fn downgraded(&self) -> Result<Lent, Refusal> {
        self.moved(DOWNGRADE, needs(shape(&self.memory)).0)
    }

    /// Inserts the gate by a keeper's commit at 10.
    fn with_gate(keeper: Keeper) -> Lent {
        let mut lent = Lent::made();
        let mut store = lent.store();
        let transaction = store.begin_as(keeper).unwrap();
        assert_eq!(store.insert(transaction, &[1200, -30]), Ok(GATE));
        store.commit(transaction, Stamp(10)).unwrap();
        lent
    }
}

#[test]
fn there_and_back_the_bytes_are_the_same() {
    for (name, panel) in panels() {
        let shape = shape(&panel.memory);
        let (first, newest) = needs(shape);
        assert_eq!(panel.memory.len(), first, "{name}");
        assert_eq!(panel.clone().store().check(), Ok(Form::First), "{name}");
        for beyond in [0, 1, 100] {
            let mut there = panel.moved(UPGRADE, newest + beyond).expect("a panel");
            assert_eq!(there.store().check(), Ok(Form::Newest), "{name}");
            assert_eq!(word(&there.memory, 0), 65_536 + shape.columns, "{name}");
            assert!(there.memory[4..first] == panel.memory[4..], "{name}");
            assert!(there.memory[first..newest].iter().all(|byte| *byte == 0), "{name}");
            assert!(there.memory[newest..].iter().all(|byte| *byte == FOUND), "{name}");

            let mut back = there.moved(DOWNGRADE, first + beyond).expect("no keeper but 0");
            assert_eq!(back.store().check(), Ok(Form::First), "{name}");
            assert!(back.memory[..first] == panel.memory, "{name}");
            assert!(back.memory[first..].iter().all(|byte| *byte == FOUND), "{name}");
            assert_eq!(back.scans, panel.scans, "{name}");
        }
    }
}

/// A panel's memory may be longer than form 1 needs, also as long as the newest does. What is behind the
/// need is not moved.
#[test]
fn bytes_behind_the_need_stay_behind() {
    for (name, mut panel) in panels() {
        let (first, newest) = needs(shape(&panel.memory));
        let short = panel.upgraded();
        panel.memory.resize(newest + 7, 0x3C);
        assert_eq!(panel.store().check(), Ok(Form::First), "{name}");
        let mut there = panel.upgraded();
        assert!(there == short, "{name}");
        there.memory.resize(newest + 7, 0x3C);
        let back = there.downgraded().expect("no keeper but 0");
        assert!(back.memory == panel.memory[..first], "{name}");
    }
}

#[test]
fn a_new_store_goes_back_and_there() {
    let made = Lent::made();
    let back = made.downgraded().expect("no keeper but 0");
    assert_eq!(word(&back.memory, 0), SHAPE.columns);
    assert!(back.memory[4..] == made.memory[4..needs(SHAPE).0]);
    assert!(back.upgraded() == made);
}

/// The second memory counts by its length alone: one byte less than the form moved to needs is too few.
/// That comes after the facts, and before the keepers.
#[test]
fn one_byte_too_short() {
    for (name, panel) in panels() {
        let (first, newest) = needs(shape(&panel.memory));
        for bytes in [0, 1, 15, first, newest - 1] {
            assert_eq!(panel.moved(UPGRADE, bytes).err(), Some(Refusal::Memory), "{name}");
        }
        let mut there = panel.upgraded();
        for bytes in [0, 1, 15, first - 1] {
            assert_eq!(there.moved(DOWNGRADE, bytes).err(), Some(Refusal::Memory), "{name}");
        }
        assert!(there.moved(DOWNGRADE, first).is_ok(), "{name}");
        if name != "full" {
            there.store().begin_as(KEEPER).unwrap();
            assert_eq!(there.moved(DOWNGRADE, first - 1).err(), Some(Refusal::Memory), "{name}");
            assert_eq!(there.moved(DOWNGRADE, first).err(), Some(Refusal::Keeper), "{name}");
        }
    }
}

/// A refused move hands the store back, and the second memory can be lent again.
#[test]
fn refused_the_store_goes_on() {
    let mut lent = Lent::with_gate(Keeper::UNKNOWN);
    let (first, newest) = needs(SHAPE);
    let (mut second, mut third) = (vec![FOUND; newest], vec![FOUND; newest]);
    let mut store = lent.store();
    let transaction = store.begin_as(KEEPER).unwrap();
    let Err(Unmoved { store, refusal }) = store.downgrade(&mut second[..first - 1]) else {
        panic!("a byte is missing");
    };
    assert_eq!(refusal, Refusal::Memory);
    let Err(Unmoved { mut store, refusal }) = store.downgrade(&mut second) else {
        panic!("a transaction with a keeper is open");
    };
    assert_eq!(refusal, Refusal::Keeper);
    store.abort(transaction).unwrap();
    let store = store.downgrade(&mut second).expect("no keeper but 0");
    let Err(Unmoved { store, refusal }) = store.downgrade(&mut third) else {
        panic!("it is in form 1 already");
    };
    assert_eq!(refusal, Refusal::Memory);
    let mut store = store.upgrade(&mut third).expect("form 1");
    let transaction = store.begin().unwrap();
    assert_eq!(transaction, Transaction(3));
    let set = Version { value: 1200, stamp: Stamp(10) };
    assert_eq!(store.own_read(transaction, GATE, 0), Ok(Some(set)));
}

/// In the panel `open` 3 has changed nothing, 4 has an insert, 7 an update of gate 0, 9 two updates of gate
/// 1, 6 two inserts and an update of its own row, 10 a row inserted and deleted. All go on.
#[test]
fn open_transactions_go_on() {
    let mut there = panel("open").upgraded();
    let mut store = there.store();
    let at = |value, stamp| Ok(Some(Version { value, stamp: Stamp(stamp) }));
    assert_eq!(store.own_read(Transaction(7), GATE, 0), at(1250, 0));
    assert_eq!(store.latest(GATE, 0), at(1200, 10));
    assert_eq!(store.own_read(Transaction(9), Row(1), 1), at(-46, 0));
    assert_eq!(store.own_read(Transaction(6), Row(4), 1), at(72, 0));
    assert_eq!(store.own_read(Transaction(10), Row(6), 0), Ok(None));
    assert_eq!(store.update(Transaction(3), GATE, Mask(1), &[7]), Err(Refusal::Held));
    // As many are open as before, so that two more can be.
    for (number, keeper) in [(11, KEEPER), (12, Keeper::UNKNOWN)] {
        assert_eq!(store.begin_as(keeper), Ok(Transaction(number)));
    }
    assert_eq!(store.begin(), Err(Refusal::Busy));
    for (stamp, number) in (30..).zip([7, 9, 3, 6]) {
        store.commit(Transaction(number), Stamp(stamp)).unwrap();
    }
    store.abort(Transaction(4)).unwrap();
    assert_eq!(store.latest(GATE, 0), at(1250, 30));
    assert_eq!(store.latest(Row(1), 1), at(-46, 31));
    assert_eq!(store.latest(Row(4), 1), at(72, 33));
    assert_eq!(store.latest(Row(3), 0), Ok(None));
    // Who began them is not known, and the transaction with a keeper has changed nothing.
    for (row, column) in [(0, 0), (0, 1), (1, 1), (4, 1), (5, 0)] {
        let keeper = store.keeper_at(Stamp(33), Row(row), column);
        assert_eq!(keeper, Ok(Some(Keeper::UNKNOWN)));
    }
}

/// In the panel `waiting` scans 1, 3, 4 and 5 are open, and pages wait for some of them.
#[test]
fn open_scans_and_waiting_pages_go_on() {
    let mut before = panel("waiting");
    let mut there = before.upgraded();
    let (mut old, mut new) = (before.store(), there.store());
    for (scan, sum) in [(1, 600), (3, 620), (4, 390), (5, 620)] {
        assert_eq!(new.sum(ScanNumber(scan), 0), Ok(Sum { rows: 3, sum }));
        assert_eq!(old.sum(ScanNumber(scan), 0), Ok(Sum { rows: 3, sum }));
    }
    assert_eq!(new.sum(ScanNumber(2), 0), Err(Refusal::Scan));
    assert_eq!(new.lineage(0, 0), Ok(Lineage { through: Tail(5), used: 7 }));
    // What each close lets go is the same on both sides.
    let mut freed = Vec::new();
    for scan in [1, 3, 4, 5] {
        old.close_scan(ScanNumber(scan)).unwrap();
        new.close_scan(ScanNumber(scan)).unwrap();
        let count = new.release().unwrap();
        assert_eq!(old.release(), Ok(count));
        freed.push(count);
    }
    assert!(freed.iter().sum::<u32>() > 0, "a page waits for a scan");
    assert_eq!(new.open_scan(Stamp(12)), Ok(ScanNumber(6)));
}

/// What a panel does in either form, and what it is answered.
type Work = fn(&mut Store) -> Vec<String>;

/// Calls of every kind that form 1 has, with numbers that some of the panels take and others refuse.
const WORK: [Work; 4] = [
    |store| {
        let begun = store.begin();
        let mut answers = vec![format!("{begun:?}")];
        if let Ok(transaction) = begun {
            answers.push(format!("{:?}", store.insert(transaction, &[1, 2, 3])));
            for row in [0, 1, 2, 64].map(Row) {
                answers.push(format!("{:?}", store.update(transaction, row, Mask(1), &[9])));
                answers.push(format!("{:?}", store.own_read(transaction, row, 0)));
            }
            answers.push(format!("{:?}", store.delete(transaction, Row(1))));
            answers.push(format!("{:?}", store.commit(transaction, Stamp(u32::MAX))));
        }
        answers
    },
    |store| {
        (1..=10)
            .map(Transaction)
            .map(|number| match number.0 % 3 {
                0 => format!("{:?}", store.abort(number)),
                _ => format!("{:?}", store.commit(number, Stamp(u32::MAX))),
            })
            .collect()
    },
    |store| {
        let mut answers = vec![format!("{:?}", store.open_scan(Stamp(5)))];
        for scan in (1..=6).map(ScanNumber) {
            answers.push(format!("{:?}", store.scan_read(scan, GATE, 0)));
            answers.push(format!("{:?}", store.sum(scan, 0)));
            answers.push(format!("{:?}", store.close_scan(scan)));
        }
        answers
    },
    |store| {
        let mut answers = vec![format!("{:?}", store.release())];
        for (range, column) in [(0, 0), (0, 1), (1, 0)] {
            let lineage = store.lineage(range, column);
            let through = lineage.map_or(Tail(2), |lineage| Tail(lineage.used));
            answers.push(format!("{lineage:?} {:?}", store.merge(range, column, through)));
            answers.push(format!("{:?}", store.page_cell(column, Row(64 * range))));
        }
        let mut stamps = [Stamp(0); 16];
        for row in [0, 1, 4, 64].map(Row) {
            answers.push(format!("{:?}", store.latest(row, 0)));
            answers.push(format!("{:?}", store.read_at(Stamp(5), row, 0)));
            let (from, to) = (Stamp(0), Stamp(5));
            answers.push(format!("{:?}", store.crossings(row, 0, 0, from, to, &mut stamps)));
        }
        answers
    },
];

/// A panel that is moved, does something and is moved back has the bytes, the list and the answers of one
/// that is not moved and does the same.
#[test]
fn what_is_done_between_is_done_in_form_1_as_well() {
    let mut accepted = 0;
    let orders = [[0, 1, 2, 3], [1, 3, 0, 2], [2, 0, 3, 1], [3, 2, 1, 0]];
    for ((name, panel), order) in panels().flat_map(|one| orders.map(|order| (one.clone(), order)))
    {
        let (mut stays, mut moves) = (panel.clone(), panel.upgraded());
        for work in order {
            let answers = WORK[work](&mut stays.store());
            assert_eq!(WORK[work](&mut moves.store()), answers, "{name}, {work} of {order:?}");
            accepted += answers.iter().filter(|answer| answer.contains("Ok")).count();
            let back = moves.downgraded().expect("no keeper but 0");
            assert!(back == stays, "{name}, after {work} of {order:?}");
        }
    }
    assert!(accepted > 500, "{accepted} calls were accepted");
}

/// One keeper other than 0 is enough, wherever it is: in a row, in a tail record, in an open transaction.
#[test]
fn a_row_with_a_keeper_does_not_go_back() {
    for aborted in [false, true] {
        let mut lent = Lent::with_gate(Keeper::UNKNOWN);
        let mut store = lent.store();
        let transaction = store.begin_as(KEEPER).unwrap();
        let row = store.insert(transaction, &[7]).unwrap();
        match aborted {
            true => store.abort(transaction).unwrap(),
            false => store.commit(transaction, Stamp(20)).unwrap(),
        }
        assert_eq!(lent.downgraded().err(), Some(Refusal::Keeper));
        // Nor when it has ended.
        if !aborted {
            let mut store = lent.store();
            let deleter = store.begin().unwrap();
            store.delete(deleter, row).unwrap();
            store.commit(deleter, Stamp(30)).unwrap();
            assert_eq!(lent.downgraded().err(), Some(Refusal::Keeper));
        }
    }
}

/// A change of the gate, by a transaction.
type Change = fn(&mut Store, Transaction) -> Result<Tail, Refusal>;

#[test]
fn a_record_with_a_keeper_does_not_go_back() {
    let changes: [Change; 2] = [
        |store, transaction| store.update(transaction, GATE, Mask(1), &[7]),
        |store, transaction| store.delete(transaction, GATE),
    ];
    for (change, aborted) in changes.into_iter().flat_map(|one| [(one, false), (one, true)]) {
        let mut lent = Lent::with_gate(Keeper::UNKNOWN);
        assert!(lent.downgraded().is_ok());
        let mut store = lent.store();
        let transaction = store.begin_as(KEEPER).unwrap();
        let record = change(&mut store, transaction).unwrap();
        match aborted {
            true => store.abort(transaction).unwrap(),
            false => store.commit(transaction, Stamp(20)).unwrap(),
        }
        assert_eq!(lent.downgraded().err(), Some(Refusal::Keeper));
        // Merged into the page it is a record all the same.
        let mut store = lent.store();
        store.merge(0, 0, record).unwrap();
        store.release().unwrap();
        assert_eq!(lent.downgraded().err(), Some(Refusal::Keeper));
    }
}

#[test]
fn an_open_transaction_with_a_keeper_does_not_go_back() {
    for aborted in [false, true] {
        let mut lent = Lent::with_gate(Keeper::UNKNOWN);
        for keeper in [Keeper(1), Keeper(256), Keeper(65_535)] {
            let transaction = lent.store().begin_as(keeper).unwrap();
            assert_eq!(lent.downgraded().err(), Some(Refusal::Keeper));
            match aborted {
                true => lent.store().abort(transaction).unwrap(),
                false => lent.store().commit(transaction, Stamp(20)).unwrap(),
            }
            // It has ended and left nothing.
            assert!(lent.downgraded().is_ok());
        }
        lent.store().begin_as(Keeper::UNKNOWN).unwrap();
        assert!(lent.downgraded().is_ok());
    }
}

/// The keeper of a row's insert stands in each row that there is, in whichever range.
#[test]
fn the_last_row_counts_as_the_first_does() {
    let mut there = panel("ranges").upgraded();
    let transaction = there.store().begin_as(KEEPER).unwrap();
    let mut store = there.store();
    while store.insert(transaction, &[7]).is_ok() {}
    store.commit(transaction, Stamp(200)).unwrap();
    assert_eq!(there.downgraded().err(), Some(Refusal::Keeper));
    // The words of the rows are the first of the keepers'; all but the last row's become 0.
    let shape = shape(&there.memory);
    let (first, _) = needs(shape);
    let last = first + 4 * (64 * shape.ranges as usize - 1);
    there.memory[first..last].fill(0);
    assert_eq!(there.downgraded().err(), Some(Refusal::Keeper));
    there.memory[last..last + 4].fill(0);
    assert!(there.downgraded().is_ok());
}

/// Where there is neither row nor record nor open transaction, what stands in the place of its keeper does
/// not count, and it is not moved.
#[test]
fn what_is_not_used_has_no_keeper() {
    let mut lent = Lent::with_gate(Keeper::UNKNOWN);
    let expected = lent.downgraded().expect("no keeper but 0");
    let (first, newest) = needs(SHAPE);
    lent.memory[first + 4..newest].fill(0xFF);
    assert!(lent.downgraded().expect("none is used") == expected);
    put(&mut lent.memory, first / 4, 9);
    assert_eq!(lent.downgraded().err(), Some(Refusal::Keeper));
}

#[test]
fn damage_is_not_moved() {
    let damages: [fn(&mut Lent); 3] = [
        // More rows given than there are, an entry of the list and a byte of the memory too few.
        |lent| put(&mut lent.memory, 4, 64 * 16 + 1),
        |lent| lent.scans.truncate(SCANS - 1),
        |lent| lent.memory.truncate(lent.memory.len() - 1),
    ];
    for (name, panel) in panels() {
        let bytes = needs(shape(&panel.memory)).1;
        for (by, lent) in [(UPGRADE, panel.clone()), (DOWNGRADE, panel.upgraded())] {
            assert!(lent.moved(by, bytes).is_ok(), "{name}");
            for damage in damages {
                let mut damaged = lent.clone();
                damage(&mut damaged);
                assert_eq!(damaged.moved(by, bytes).err(), Some(Refusal::Memory), "{name}");
            }
        }
    }
}

/// A call with its numbers; what it answers does not matter, but whether it is refused.
type Call = fn(&mut Store) -> Result<(), Refusal>;

/// Each call that works on both forms, with numbers that are accepted in the store below.
const ON_BOTH: [Call; 19] = [
    |store| store.check().map(drop),
    |store| store.begin().map(drop),
    |store| store.insert(Transaction(2), &[7]).map(drop),
    |store| store.update(Transaction(2), GATE, Mask(1), &[7]).map(drop),
    |store| store.delete(Transaction(2), GATE).map(drop),
    |store| store.commit(Transaction(2), Stamp(10)),
    |store| store.abort(Transaction(2)),
    |store| store.latest(GATE, 0).map(drop),
    |store| store.read_at(Stamp(10), GATE, 0).map(drop),
    |store| store.own_read(Transaction(2), GATE, 0).map(drop),
    |store| store.crossings(GATE, 0, 0, Stamp(0), Stamp(10), &mut []).map(drop),
    |store| store.open_scan(Stamp(10)).map(drop),
    |store| store.scan_read(ScanNumber(1), GATE, 0).map(drop),
    |store| store.sum(ScanNumber(1), 0).map(drop),
    |store| store.close_scan(ScanNumber(1)),
    |store| store.merge(0, 0, Tail(2)),
    |store| store.release().map(drop),
    |store| store.page_cell(0, GATE).map(drop),
    |store| store.lineage(0, 0).map(drop),
];

/// And each that works on the newest alone; the move back is another.
const ON_THE_NEWEST: [Call; 2] = [
    |store| store.begin_as(KEEPER).map(drop),
    |store| store.keeper_at(Stamp(10), GATE, 0).map(drop),
];

/// A store with no keeper but 0, on which all of them are accepted.
fn busy() -> Lent {
    let mut lent = Lent::with_gate(Keeper::UNKNOWN);
    let mut store = lent.store();
    assert_eq!(store.begin(), Ok(Transaction(2)));
    let aborted = store.begin().unwrap();
    store.update(aborted, GATE, Mask(1), &[7]).unwrap();
    store.abort(aborted).unwrap();
    store.open_scan(Stamp(10)).unwrap();
    lent
}

/// Word 0 has the columns in its low half and the form less 1 in the high one. A call on a memory in a form
/// that it does not work on is refused, of whatever length it is, and changes nothing.
#[test]
fn each_call_works_on_its_forms() {
    let newest = busy();
    let first = newest.downgraded().expect("no keeper but 0");
    assert_eq!(word(&newest.memory, 0), 65_536 + SHAPE.columns);
    assert_eq!(word(&first.memory, 0), SHAPE.columns);
    let accepted = |lent: &Lent, call: Call| {
        let mut after = lent.clone();
        assert_eq!(call(&mut after.store()), Ok(()));
        assert_eq!(word(&after.memory, 0), word(&lent.memory, 0), "a call changed the form");
    };
    let refused = |lent: &Lent, call: Call| {
        let mut after = lent.clone();
        assert_eq!(call(&mut after.store()), Err(Refusal::Memory));
        assert!(after == *lent, "a refused call changed something");
    };
    for call in ON_BOTH {
        accepted(&newest, call);
        accepted(&first, call);
    }
    for call in ON_THE_NEWEST {
        accepted(&newest, call);
        refused(&first, call);
    }
    let bytes = newest.memory.len();
    assert_eq!(newest.moved(UPGRADE, bytes).err(), Some(Refusal::Memory));
    assert_eq!(first.moved(DOWNGRADE, bytes).err(), Some(Refusal::Memory));
    // As long as the newest form needs, it is form 1 all the same.
    let mut longer = first.clone();
    longer.memory.resize(bytes, 0);
    for call in ON_THE_NEWEST {
        refused(&longer, call);
    }
    assert_eq!(longer.moved(DOWNGRADE, bytes).err(), Some(Refusal::Memory));

    // No other form, and not the newest where the words of keepers are missing.
    for (form, bytes) in [3, 4, 65_536].into_iter().flat_map(|form| [(form, bytes), (form, 64)]) {
        let mut other = newest.clone();
        put(&mut other.memory, 0, 65_536 * (form - 1) + SHAPE.columns);
        other.memory.truncate(bytes);
        for call in ON_BOTH.into_iter().chain(ON_THE_NEWEST) {
            refused(&other, call);
        }
        for by in [UPGRADE, DOWNGRADE] {
            assert_eq!(other.moved(by, newest.memory.len()).err(), Some(Refusal::Memory));
        }
    }
    let mut cut = newest.clone();
    cut.memory.pop();
    for call in ON_BOTH.into_iter().chain(ON_THE_NEWEST) {
        refused(&cut, call);
    }
}

#[test]
fn making_gives_the_newest_form() {
    for (name, mut panel) in panels() {
        let shape = shape(&panel.memory);
        let made = Store::make(&mut panel.memory, &mut panel.scans, shape);
        assert_eq!(made.err(), Some(Refusal::Memory), "{name} is too short for the newest form");
        panel.memory.resize(needs(shape).1, FOUND);
        let made = Store::make(&mut panel.memory, &mut panel.scans, shape).expect("enough is lent");
        assert_eq!(made.check(), Ok(Form::Newest), "{name}");
    }
}
