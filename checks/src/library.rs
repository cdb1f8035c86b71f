//! The compiled library as a `Store`: through its C interface, and through the Rust crate over it.

use deskrook::c::{self, Reply};
use deskrook::{
    Keeper, Mask, Refusal, Row, ScanNumber, Stamp, Tail, Transaction, Unmoved, Version,
};
use reference::{Answer, Call, Form, Shape};

use crate::memory::{form_number, ScanEntry};
use crate::store::Store;

/// The library through its C interface.
#[derive(Clone, Copy, Debug, Default)]
pub struct Library;

/// The library through the crate `deskrook`.
#[derive(Clone, Copy, Debug, Default)]
pub struct Wrapper;

impl Store for Library {
    fn need(&self, shape: &Shape) -> Result<usize, u8> {
        let Shape { columns, ranges, capacity, spares } = *shape;
        // SAFETY: it takes numbers alone.
        let reply = unsafe { c::deskrook_bytes_needed(columns, ranges, capacity, spares) };
        let (answer, fields) = match reply.result {
            c::OK => (Ok(reply.first as usize), (reply.first, 0, 0, 0)),
            number => (Err(refusal(number)), (0, 0, 0, 0)),
        };
        filled(&reply, fields);
        answer
    }

    fn make(&self, memory: &mut [u8], scans: &mut [ScanEntry], shape: &Shape) -> Answer {
        let Shape { columns, ranges, capacity, spares } = *shape;
        let (mem, bytes) = (memory.as_mut_ptr(), memory.len());
        let (list, entries) = (scans.as_mut_ptr().cast(), scans.len());
        // SAFETY: pointers and lengths are those of two slices borrowed for the call alone.
        let reply = unsafe {
            c::deskrook_make(mem, bytes, list, entries, columns, ranges, capacity, spares)
        };
        filled(&reply, (0, 0, 0, 0));
        match reply.result {
            c::OK => Answer::Done,
            number => Answer::Refused(refusal(number)),
        }
    }

    fn call_with(
        &self,
        memory: &mut [u8],
        scans: &mut [ScanEntry],
        stamps: &mut [u32],
        call: &Call,
    ) -> Answer {
        answer(call, &reply(memory, scans, stamps, &mut [], call))
    }

    fn move_with(
        &self,
        memory: &mut [u8],
        scans: &mut [ScanEntry],
        second: &mut [u8],
        call: &Call,
    ) -> Answer {
        answer(call, &reply(memory, scans, &mut [], second, call))
    }

    fn check(&self, memory: &[u8], scans: &[ScanEntry]) -> Answer {
        let (mem, bytes) = (memory.as_ptr(), memory.len());
        let (list, entries) = (scans.as_ptr().cast(), scans.len());
        // SAFETY: pointers and lengths are those of two slices borrowed for the call.
        let reply = unsafe { c::deskrook_check(mem, bytes, list, entries) };
        let (answer, first) = match reply.result {
            c::OK => (Answer::Number(reply.first), reply.first),
            number => (Answer::Refused(refusal(number)), 0),
        };
        filled(&reply, (first, 0, 0, 0));
        answer
    }
}

/// The call by its name.
fn reply(
    memory: &mut [u8],
    scans: &mut [ScanEntry],
    stamps: &mut [u32],
    second: &mut [u8],
    call: &Call,
) -> Reply {
    let (mem, bytes) = (memory.as_mut_ptr(), memory.len());
    let (list, entries) = (scans.as_mut_ptr().cast(), scans.len());
    let (moved, moved_bytes) = (second.as_mut_ptr(), second.len());
    // SAFETY: pointers and lengths are those of slices borrowed for the call, memory, list, stamps and second
    // memory alone; `ScanEntry` is declared as the library's.
    unsafe {
        match *call {
            Call::Begin => c::deskrook_begin(mem, bytes, list, entries),
            Call::BeginAs { keeper } => c::deskrook_begin_as(mem, bytes, list, entries, keeper),
            Call::Insert { transaction, ref values } => {
                let (first, count) = (values.as_ptr(), values.len());
                c::deskrook_insert(mem, bytes, list, entries, transaction, first, count)
            }
            Call::Update { transaction, row, mask, ref values } => {
                let (first, count) = (values.as_ptr(), values.len());
                c::deskrook_update(mem, bytes, list, entries, transaction, row, mask, first, count)
            }
            Call::Delete { transaction, row } => {
                c::deskrook_delete(mem, bytes, list, entries, transaction, row)
            }
            Call::Commit { transaction, stamp } => {
                c::deskrook_commit(mem, bytes, list, entries, transaction, stamp)
            }
            Call::Abort { transaction } => {
                c::deskrook_abort(mem, bytes, list, entries, transaction)
            }
            Call::Latest { row, column } => {
                c::deskrook_latest(mem, bytes, list, entries, row, column)
            }
            Call::ReadAt { stamp, row, column } => {
                c::deskrook_read_at(mem, bytes, list, entries, stamp, row, column)
            }
            Call::OwnRead { transaction, row, column } => {
                c::deskrook_own_read(mem, bytes, list, entries, transaction, row, column)
            }
            Call::OpenScan { stamp } => c::deskrook_open_scan(mem, bytes, list, entries, stamp),
            Call::ScanRead { scan, row, column } => {
                c::deskrook_scan_read(mem, bytes, list, entries, scan, row, column)
            }
            Call::Sum { scan, column } => c::deskrook_sum(mem, bytes, list, entries, scan, column),
            Call::Close { scan } => c::deskrook_close_scan(mem, bytes, list, entries, scan),
            Call::Merge { range, column, through } => {
                c::deskrook_merge(mem, bytes, list, entries, range, column, through)
            }
            Call::Release => c::deskrook_release(mem, bytes, list, entries),
            Call::PageCell { column, row } => {
                c::deskrook_page_cell(mem, bytes, list, entries, column, row)
            }
            Call::Lineage { range, column } => {
                c::deskrook_lineage(mem, bytes, list, entries, range, column)
            }
            Call::Crossings { row, column, mark, from, to, .. } => {
                let (first, count) = (stamps.as_mut_ptr(), stamps.len());
                c::deskrook_crossings(
                    mem, bytes, list, entries, first, count, row, column, mark, from, to,
                )
            }
            Call::KeeperAt { stamp, row, column } => {
                c::deskrook_keeper_at(mem, bytes, list, entries, stamp, row, column)
            }
            Call::Upgrade => c::deskrook_upgrade(mem, bytes, list, entries, moved, moved_bytes),
            Call::Downgrade => c::deskrook_downgrade(mem, bytes, list, entries, moved, moved_bytes),
        }
    }
}

fn refusal(number: u32) -> u8 {
    assert!(matches!(number, 1..=18 | 21 | 22), "{number} is no refusal");
    number as u8
}

/// First, second, stamp and sum.
type Fields = (u32, u32, u32, i64);

/// A field that an answer does not have must be 0.
fn filled(reply: &Reply, fields: Fields) {
    let Reply { first, second, stamp, sum, .. } = *reply;
    assert_eq!((first, second, stamp, sum), fields, "{reply:?} fills another field");
}

/// The answer that a call's reply stands for.
fn answer(call: &Call, reply: &Reply) -> Answer {
    let (answer, fields) = match reply.result {
        c::OK => accepted(call, reply),
        c::NONE => {
            let may = reads(call) || matches!(call, Call::KeeperAt { .. });
            assert!(may, "{call:?} does not answer none");
            (Answer::None, (0, 0, 0, 0))
        }
        number => (Answer::Refused(refusal(number)), (0, 0, 0, 0)),
    };
    filled(reply, fields);
    answer
}

/// An accepted call's answer, and the fields that it has.
fn accepted(call: &Call, reply: &Reply) -> (Answer, Fields) {
    let &Reply { first, second, stamp, sum, .. } = reply;
    match call {
        Call::Sum { .. } => (Answer::Sum { count: first, sum }, (first, 0, 0, sum)),
        Call::Lineage { .. } => {
            (Answer::Lineage { through: first, used: second }, (first, second, 0, 0))
        }
        Call::Commit { .. } | Call::Abort { .. } | Call::Close { .. } | Call::Merge { .. } => {
            (Answer::Done, (0, 0, 0, 0))
        }
        Call::Upgrade | Call::Downgrade => (Answer::Done, (0, 0, 0, 0)),
        Call::PageCell { .. } => (Answer::Value(first as i32), (first, 0, 0, 0)),
        _ if reads(call) => (Answer::Version { value: first as i32, stamp }, (first, 0, stamp, 0)),
        _ => (Answer::Number(first), (first, 0, 0, 0)),
    }
}

/// The calls that give a value or none.
fn reads(call: &Call) -> bool {
    matches!(
        call,
        Call::Latest { .. } | Call::ReadAt { .. } | Call::OwnRead { .. } | Call::ScanRead { .. }
    )
}

impl Store for Wrapper {
    fn need(&self, shape: &Shape) -> Result<usize, u8> {
        shaped(shape).bytes_needed().map_err(|refusal| refusal.number() as u8)
    }

    fn make(&self, memory: &mut [u8], scans: &mut [ScanEntry], shape: &Shape) -> Answer {
        match deskrook::Store::make(memory, list(scans), shaped(shape)) {
            Ok(_) => Answer::Done,
            Err(refusal) => Answer::Refused(refusal.number() as u8),
        }
    }

    fn call_with(
        &self,
        memory: &mut [u8],
        scans: &mut [ScanEntry],
        stamps: &mut [u32],
        call: &Call,
    ) -> Answer {
        if call.moves_to().is_some() {
            return self.move_with(memory, scans, &mut [], call);
        }
        wrapped(&mut deskrook::Store::lent(memory, list(scans)), stamps, call)
            .unwrap_or_else(|refusal| Answer::Refused(refusal.number() as u8))
    }

    /// What is handed back lies in the memory moved to, or moved from where the move is refused.
    fn move_with(
        &self,
        memory: &mut [u8],
        scans: &mut [ScanEntry],
        second: &mut [u8],
        call: &Call,
    ) -> Answer {
        let store = deskrook::Store::lent(memory, list(scans));
        let moved = match call.moves_to() {
            Some(Form::Newest) => store.upgrade(second),
            Some(Form::First) => store.downgrade(second),
            None => unreachable!("{call:?} is no move"),
        };
        match moved {
            Ok(store) => {
                let form = store.check().map(deskrook::Form::number);
                assert_eq!(form, Ok(call.moves_to().map_or(0, form_number)), "the store moved to");
                Answer::Done
            }
            Err(Unmoved { refusal, .. }) => Answer::Refused(refusal.number() as u8),
        }
    }

    fn check(&self, memory: &[u8], scans: &[ScanEntry]) -> Answer {
        // A store is lent bytes that it may write.
        let (mut memory, mut scans) = (memory.to_vec(), scans.to_vec());
        match deskrook::Store::lent(&mut memory, list(&mut scans)).check() {
            Ok(form) => Answer::Number(form.number()),
            Err(refusal) => Answer::Refused(refusal.number() as u8),
        }
    }
}

fn shaped(shape: &Shape) -> deskrook::Shape {
    let Shape { columns, ranges, capacity, spares } = *shape;
    deskrook::Shape { columns, ranges, capacity, spares }
}

/// The list in the crate's type.
fn list(scans: &mut [ScanEntry]) -> &mut [deskrook::ScanEntry] {
    // SAFETY: both types are four 32-bit words by `repr(C)`, and the borrow is handed on.
    unsafe { std::slice::from_raw_parts_mut(scans.as_mut_ptr().cast(), scans.len()) }
}

/// The stamps in the crate's type.
fn minutes(stamps: &mut [u32]) -> &mut [Stamp] {
    // SAFETY: `Stamp` is a 32-bit word by `repr(transparent)`, and the borrow is handed on.
    unsafe { std::slice::from_raw_parts_mut(stamps.as_mut_ptr().cast(), stamps.len()) }
}

fn wrapped(
    store: &mut deskrook::Store,
    stamps: &mut [u32],
    call: &Call,
) -> Result<Answer, Refusal> {
    let done = |()| Answer::Done;
    let version = |found: Option<Version>| {
        found.map_or(Answer::None, |it| Answer::Version { value: it.value, stamp: it.stamp.0 })
    };
    let record = |tail: Tail| Answer::Number(tail.0);
    match *call {
        Call::Begin => store.begin().map(|transaction| Answer::Number(transaction.0)),
        Call::BeginAs { keeper } => {
            store.begin_as(Keeper(keeper)).map(|transaction| Answer::Number(transaction.0))
        }
        Call::Insert { transaction, ref values } => {
            store.insert(Transaction(transaction), values).map(|row| Answer::Number(row.0))
        }
        Call::Update { transaction, row, mask, ref values } => {
            store.update(Transaction(transaction), Row(row), Mask(mask), values).map(record)
        }
        Call::Delete { transaction, row } => {
            store.delete(Transaction(transaction), Row(row)).map(record)
        }
        Call::Commit { transaction, stamp } => {
            store.commit(Transaction(transaction), Stamp(stamp)).map(done)
        }
        Call::Abort { transaction } => store.abort(Transaction(transaction)).map(done),
        Call::Latest { row, column } => store.latest(Row(row), column).map(version),
        Call::ReadAt { stamp, row, column } => {
            store.read_at(Stamp(stamp), Row(row), column).map(version)
        }
        Call::OwnRead { transaction, row, column } => {
            store.own_read(Transaction(transaction), Row(row), column).map(version)
        }
        Call::OpenScan { stamp } => {
            store.open_scan(Stamp(stamp)).map(|scan| Answer::Number(scan.0))
        }
        Call::ScanRead { scan, row, column } => {
            store.scan_read(ScanNumber(scan), Row(row), column).map(version)
        }
        Call::Sum { scan, column } => store
            .sum(ScanNumber(scan), column)
            .map(|sum| Answer::Sum { count: sum.rows, sum: sum.sum }),
        Call::Close { scan } => store.close_scan(ScanNumber(scan)).map(done),
        Call::Merge { range, column, through } => {
            store.merge(range, column, Tail(through)).map(done)
        }
        Call::Release => store.release().map(Answer::Number),
        Call::PageCell { column, row } => store.page_cell(column, Row(row)).map(Answer::Value),
        Call::Lineage { range, column } => store
            .lineage(range, column)
            .map(|lineage| Answer::Lineage { through: lineage.through.0, used: lineage.used }),
        Call::Crossings { row, column, mark, from, to, .. } => {
            let (first, lent) = (stamps.as_ptr(), minutes(stamps));
            let listed = store.crossings(Row(row), column, mark, Stamp(from), Stamp(to), lent)?;
            assert!(
                std::ptr::eq(listed.as_ptr().cast(), first),
                "the list is not the lent stamps'"
            );
            Ok(Answer::Number(listed.len() as u32))
        }
        Call::KeeperAt { stamp, row, column } => store
            .keeper_at(Stamp(stamp), Row(row), column)
            .map(|found| found.map_or(Answer::None, |keeper| Answer::Number(keeper.0.into()))),
        Call::Upgrade | Call::Downgrade => unreachable!("a move uses the store up"),
    }
}
