//! The store over lent memory.

use crate::c::{self, Reply};
use crate::{
    Form, Keeper, Lineage, Mask, Refusal, Row, ScanNumber, Stamp, Sum, Tail, Transaction, Version,
};

/// The fewest entries of a scan list, and how many scans can be open at a time, however many entries
/// the list has.
pub const SCANS: usize = 5;

/// An entry of the lent list of open scans.
#[repr(C)]
#[derive(Clone, Copy, Debug, Default, PartialEq, Eq)]
pub struct ScanEntry {
    /// The scan's number; 0 marks a free entry.
    pub number: u32,
    /// The stamp that it was opened with.
    pub stamp: u32,
    /// The merges made before it.
    pub merges: u32,
    /// The commits made before it, all of them.
    pub commits: u32,
}

impl ScanEntry {
    /// A free entry.
    pub const FREE: ScanEntry = ScanEntry { number: 0, stamp: 0, merges: 0, commits: 0 };
}

/// The measures of a store.
#[derive(Clone, Copy, Debug, PartialEq, Eq)]
pub struct Shape {
    /// 1 to 16.
    pub columns: u32,
    /// 1 to 16, of 64 rows each.
    pub ranges: u32,
    /// 1 to 512 capacity records for each range.
    pub capacity: u32,
    /// 0 to 256 spare pages.
    pub spares: u32,
}

impl Shape {
    /// The bytes that a store of this shape needs in the newest form. Form 1 needs fewer, so that as
    /// many are enough for either move.
    ///
    /// ```
    /// use deskrook::{Refusal, Shape};
    /// let shape = Shape { columns: 2, ranges: 1, capacity: 4, spares: 1 };
    /// assert!(shape.bytes_needed().is_ok());
    /// assert_eq!(Shape { columns: 17, ..shape }.bytes_needed(), Err(Refusal::Shape));
    /// ```
    ///
    /// # Errors
    ///
    /// [`Refusal::Shape`].
    pub fn bytes_needed(&self) -> Result<usize, Refusal> {
        // SAFETY: it takes numbers alone.
        let reply = unsafe {
            c::deskrook_bytes_needed(self.columns, self.ranges, self.capacity, self.spares)
        };
        Ok(accepted(reply)?.first as usize)
    }
}

/// A store in lent memory.
///
/// Each call first tests memory and list, and answers [`Refusal::Memory`] where they are not
/// usable, or where the memory is in a stored form that the call does not work on. The errors of a
/// call are listed in the order in which they are tested, after that one.
#[derive(Debug)]
pub struct Store<'a> {
    memory: &'a mut [u8],
    scans: &'a mut [ScanEntry],
}

/// A move that was refused: the store is still where it was.
#[derive(Debug)]
pub struct Unmoved<'a> {
    /// The store, in the memory that it was to be moved from.
    pub store: Store<'a>,
    /// Why it was not moved.
    pub refusal: Refusal,
}

impl From<Unmoved<'_>> for Refusal {
    fn from(unmoved: Unmoved<'_>) -> Refusal {
        unmoved.refusal
    }
}

/// An accepted reply, or the refusal.
fn accepted(reply: Reply) -> Result<Reply, Refusal> {
    match reply.result {
        c::OK | c::NONE => Ok(reply),
        number => match Refusal::from_number(number) {
            Some(refusal) => Err(refusal),
            None => unreachable!("the library answers {number}, which its contract rules out"),
        },
    }
}

/// What a read answers: a value with its stamp, or none.
fn read(reply: Reply) -> Result<Option<Version>, Refusal> {
    let reply = accepted(reply)?;
    let version = Version { value: reply.first as i32, stamp: Stamp(reply.stamp) };
    Ok((reply.result == c::OK).then_some(version))
}

/// Calls a function of the C interface with a store's memory and list, and its numbers.
///
/// SAFETY of all uses: pointers and lengths are those of the store's two slices, which are
/// borrowed alone where the method takes `&mut self` and shared where it takes `&self` and the
/// function takes `*const`; slices of values and of stamps, and the second memory of a move, are
/// another borrow of the call.
macro_rules! call {
    (mut $store:ident, $name:ident $(, $number:expr)*) => {
        unsafe {
            c::$name(
                $store.memory.as_mut_ptr(),
                $store.memory.len(),
                $store.scans.as_mut_ptr(),
                $store.scans.len(),
                $($number),*
            )
        }
    };
    (ref $store:ident, $name:ident $(, $number:expr)*) => {
        unsafe {
            c::$name(
                $store.memory.as_ptr(),
                $store.memory.len(),
                $store.scans.as_ptr(),
                $store.scans.len(),
                $($number),*
            )
        }
    };
}

impl<'a> Store<'a> {
    /// Makes an empty store in the newest form, whatever memory and list held before. Every entry of
    /// the list becomes free; bytes past those that the shape needs stay as they are.
    ///
    /// ```
    /// use deskrook::{Refusal, ScanEntry, Shape, Store, SCANS};
    /// let shape = Shape { columns: 2, ranges: 1, capacity: 4, spares: 1 };
    /// let (mut memory, mut scans) = ([0; 100], [ScanEntry::FREE; SCANS]);
    /// let refused = Store::make(&mut memory, &mut scans, shape);
    /// assert_eq!(refused.err(), Some(Refusal::Memory));
    /// ```
    ///
    /// # Errors
    ///
    /// [`Refusal::Shape`], [`Refusal::Memory`].
    pub fn make(
        memory: &'a mut [u8],
        scans: &'a mut [ScanEntry],
        shape: Shape,
    ) -> Result<Store<'a>, Refusal> {
        let Shape { columns, ranges, capacity, spares } = shape;
        let store = Store { memory, scans };
        accepted(call!(mut store, deskrook_make, columns, ranges, capacity, spares))?;
        Ok(store)
    }

    /// The store that is in this memory and list already. Nothing is tested here; if there is none,
    /// every call answers [`Refusal::Memory`].
    ///
    /// ```
    /// use deskrook::{Refusal, ScanEntry, Shape, Store, SCANS};
    ///
    /// # fn main() -> Result<(), Refusal> {
    /// let shape = Shape { columns: 1, ranges: 1, capacity: 1, spares: 0 };
    /// let (mut memory, mut scans) = (vec![0; shape.bytes_needed()?], [ScanEntry::FREE; SCANS]);
    /// assert_eq!(Store::lent(&mut memory, &mut scans).begin(), Err(Refusal::Memory));
    /// Store::make(&mut memory, &mut scans, shape)?;
    /// assert!(Store::lent(&mut memory, &mut scans).begin().is_ok());
    /// # Ok(())
    /// # }
    /// ```
    pub fn lent(memory: &'a mut [u8], scans: &'a mut [ScanEntry]) -> Store<'a> {
        Store { memory, scans }
    }

    /// Whether memory and list are usable, which every other call asks first of the forms that it works
    /// on itself; and the stored form, by which a panel tells whether it has to be
    /// [moved](Store::upgrade).
    ///
    /// # Errors
    ///
    /// [`Refusal::Memory`].
    pub fn check(&self) -> Result<Form, Refusal> {
        match accepted(call!(ref self, deskrook_check))?.first {
            1 => Ok(Form::First),
            2 => Ok(Form::Newest),
            form => unreachable!("the library answers form {form}, which its contract rules out"),
        }
    }

    /// Moves a store in form 1 into a second memory, in the newest form, with keeper 0 throughout. The
    /// second memory is then the store, with the same list: open transactions and scans go on there
    /// under their numbers, and waiting pages wait. The memory moved from keeps its bytes and is no
    /// store any more, so that this one is used up; refused, it is handed back and still the store.
    ///
    /// Of the second memory, whatever it held, as many bytes are written as the newest form needs. Those
    /// past them stay as they are, and where the move is refused all do.
    ///
    /// ```
    /// use deskrook::{Form, Keeper, Refusal, ScanEntry, Shape, Store, SCANS};
    ///
    /// # fn main() -> Result<(), Refusal> {
    /// # let shape = Shape { columns: 1, ranges: 1, capacity: 4, spares: 0 };
    /// # let bytes = shape.bytes_needed()?;
    /// # let (mut made, mut scans) = (vec![0; bytes], [ScanEntry::FREE; SCANS]);
    /// # let mut panel = vec![0; bytes];
    /// # Store::make(&mut made, &mut scans, shape)?.downgrade(&mut panel)?;
    /// // The memory and the list that a panel holds.
    /// let mut store = Store::lent(&mut panel, &mut scans);
    /// let mut second = vec![0; shape.bytes_needed()?];
    /// if store.check()? == Form::First {
    ///     assert_eq!(store.begin_as(Keeper(3)), Err(Refusal::Memory));
    ///     store = store.upgrade(&mut second)?;
    /// }
    /// assert_eq!(store.check()?, Form::Newest);
    /// assert!(store.begin_as(Keeper(3)).is_ok());
    /// # Ok(())
    /// # }
    /// ```
    ///
    /// # Errors
    ///
    /// [`Refusal::Memory`], also where the second memory is too short.
    pub fn upgrade<'b>(self, second: &'b mut [u8]) -> Result<Store<'b>, Unmoved<'a>>
    where
        'a: 'b,
    {
        let (first, length) = (second.as_mut_ptr(), second.len());
        let reply = call!(ref self, deskrook_upgrade, first, length);
        self.moved(second, reply)
    }

    /// Moves a store in the newest form back to form 1, into a second memory, as
    /// [`upgrade`](Store::upgrade) moves it there. A store that was moved there and back, with no call
    /// between, has the bytes that it had.
    ///
    /// Form 1 has no place for keepers, so they all have to be 0. The keeper of a transaction that has
    /// ended and left neither row nor tail record does not count.
    ///
    /// ```
    /// use deskrook::{Form, Keeper, Refusal, ScanEntry, Shape, Store, Unmoved, SCANS};
    ///
    /// # fn main() -> Result<(), Refusal> {
    /// # let shape = Shape { columns: 1, ranges: 1, capacity: 4, spares: 0 };
    /// # let (mut memory, mut scans) = (vec![0; shape.bytes_needed()?], [ScanEntry::FREE; SCANS]);
    /// # let mut store = Store::make(&mut memory, &mut scans, shape)?;
    /// let transaction = store.begin_as(Keeper(3))?;
    /// let mut second = vec![0; shape.bytes_needed()?];
    /// let Err(Unmoved { mut store, refusal }) = store.downgrade(&mut second) else {
    ///     panic!("a transaction with a keeper is open");
    /// };
    /// assert_eq!(refusal, Refusal::Keeper);
    /// store.abort(transaction)?;
    /// assert_eq!(store.downgrade(&mut second)?.check()?, Form::First);
    /// # Ok(())
    /// # }
    /// ```
    ///
    /// # Errors
    ///
    /// [`Refusal::Memory`], also where the second memory is shorter than form 1 needs, and
    /// [`Refusal::Keeper`].
    pub fn downgrade<'b>(self, second: &'b mut [u8]) -> Result<Store<'b>, Unmoved<'a>>
    where
        'a: 'b,
    {
        let (first, length) = (second.as_mut_ptr(), second.len());
        let reply = call!(ref self, deskrook_downgrade, first, length);
        self.moved(second, reply)
    }

    /// The store where a move's reply says that it is now.
    fn moved<'b>(self, second: &'b mut [u8], reply: Reply) -> Result<Store<'b>, Unmoved<'a>>
    where
        'a: 'b,
    {
        match accepted(reply) {
            Ok(_) => Ok(Store { memory: second, scans: self.scans }),
            Err(refusal) => Err(Unmoved { store: self, refusal }),
        }
    }

    /// Begins a transaction with keeper 0, unknown.
    ///
    /// # Errors
    ///
    /// [`Refusal::Number`], [`Refusal::Busy`].
    pub fn begin(&mut self) -> Result<Transaction, Refusal> {
        Ok(Transaction(accepted(call!(mut self, deskrook_begin))?.first))
    }

    /// Begins a transaction with a keeper, a number that tells who made it. The rows and tail records
    /// of the transaction carry it, and [`keeper_at`](Store::keeper_at) answers it. It works on the
    /// newest form alone.
    ///
    /// # Errors
    ///
    /// [`Refusal::Number`], [`Refusal::Busy`].
    pub fn begin_as(&mut self, keeper: Keeper) -> Result<Transaction, Refusal> {
        Ok(Transaction(accepted(call!(mut self, deskrook_begin_as, keeper.0))?.first))
    }

    /// Inserts a row with a value for each column. Where there are fewer values the rest are 0,
    /// and those past the columns are not looked at.
    ///
    /// # Errors
    ///
    /// [`Refusal::Transaction`], [`Refusal::Full`].
    pub fn insert(&mut self, transaction: Transaction, values: &[i32]) -> Result<Row, Refusal> {
        let (first, length) = (values.as_ptr(), values.len());
        Ok(Row(accepted(call!(mut self, deskrook_insert, transaction.0, first, length))?.first))
    }

    /// Sets the columns of a row that the mask has; value k is column k's, as in
    /// [`insert`](Store::insert).
    ///
    /// # Errors
    ///
    /// [`Refusal::Transaction`], [`Refusal::Row`], [`Refusal::Mask`], [`Refusal::Held`],
    /// [`Refusal::Gone`], [`Refusal::Tail`].
    pub fn update(
        &mut self,
        transaction: Transaction,
        row: Row,
        mask: Mask,
        values: &[i32],
    ) -> Result<Tail, Refusal> {
        let (first, length) = (values.as_ptr(), values.len());
        let reply = call!(mut self, deskrook_update, transaction.0, row.0, mask.0, first, length);
        Ok(Tail(accepted(reply)?.first))
    }

    /// Deletes a row.
    ///
    /// # Errors
    ///
    /// [`Refusal::Transaction`], [`Refusal::Row`], [`Refusal::Held`], [`Refusal::Gone`],
    /// [`Refusal::Tail`].
    pub fn delete(&mut self, transaction: Transaction, row: Row) -> Result<Tail, Refusal> {
        Ok(Tail(accepted(call!(mut self, deskrook_delete, transaction.0, row.0))?.first))
    }

    /// Commits a transaction at a stamp not earlier than the last commit's; several commits may have
    /// one stamp, and the later made is the newer. Refused, the transaction remains open.
    ///
    /// ```
    /// use deskrook::{Refusal, ScanEntry, Shape, Stamp, Store, SCANS};
    ///
    /// # fn main() -> Result<(), Refusal> {
    /// # let shape = Shape { columns: 1, ranges: 1, capacity: 1, spares: 0 };
    /// # let (mut memory, mut scans) = (vec![0; shape.bytes_needed()?], [ScanEntry::FREE; SCANS]);
    /// # let mut store = Store::make(&mut memory, &mut scans, shape)?;
    /// let (first, second) = (store.begin()?, store.begin()?);
    /// store.commit(first, Stamp(10))?;
    /// assert_eq!(store.commit(second, Stamp(9)), Err(Refusal::Time));
    /// store.commit(second, Stamp(10))?;
    /// assert_eq!(store.commit(second, Stamp(11)), Err(Refusal::Transaction));
    /// # Ok(())
    /// # }
    /// ```
    ///
    /// # Errors
    ///
    /// [`Refusal::Transaction`], [`Refusal::Time`].
    pub fn commit(&mut self, transaction: Transaction, stamp: Stamp) -> Result<(), Refusal> {
        accepted(call!(mut self, deskrook_commit, transaction.0, stamp.0)).map(|_| ())
    }

    /// Gives up a transaction; nothing that it did is ever read.
    ///
    /// # Errors
    ///
    /// [`Refusal::Transaction`].
    pub fn abort(&mut self, transaction: Transaction) -> Result<(), Refusal> {
        accepted(call!(mut self, deskrook_abort, transaction.0)).map(|_| ())
    }

    /// The value at the last commit with the stamp of the commit that set it, or none where the row
    /// is not there then.
    ///
    /// # Errors
    ///
    /// [`Refusal::Row`], [`Refusal::Column`].
    pub fn latest(&self, row: Row, column: u32) -> Result<Option<Version>, Refusal> {
        read(call!(ref self, deskrook_latest, row.0, column))
    }

    /// The value at a stamp not later than the last commit's, with the stamp of the commit that set
    /// it, or none. Of several commits at that stamp the newest counts, so that at the last commit's
    /// stamp a further commit may change the answer; for earlier ones it never changes.
    ///
    /// # Errors
    ///
    /// [`Refusal::Time`], [`Refusal::Row`], [`Refusal::Column`].
    pub fn read_at(&self, stamp: Stamp, row: Row, column: u32) -> Result<Option<Version>, Refusal> {
        read(call!(ref self, deskrook_read_at, stamp.0, row.0, column))
    }

    /// The keeper of the value that [`read_at`](Store::read_at) shows for the same numbers, or none
    /// where that read is none: the keeper of the transaction that set the column in the row by an
    /// update, or of the one that inserted the row where none has. It works on the newest form alone.
    ///
    /// ```
    /// use deskrook::{Keeper, Mask, ScanEntry, Shape, Stamp, Store, SCANS};
    ///
    /// # fn main() -> Result<(), deskrook::Refusal> {
    /// # let shape = Shape { columns: 2, ranges: 1, capacity: 4, spares: 0 };
    /// # let (mut memory, mut scans) = (vec![0; shape.bytes_needed()?], [ScanEntry::FREE; SCANS]);
    /// # let mut store = Store::make(&mut memory, &mut scans, shape)?;
    /// let (inserter, setter) = (Keeper(3), Keeper(7));
    /// let transaction = store.begin_as(inserter)?;
    /// let gate = store.insert(transaction, &[1200, -30])?;
    /// store.commit(transaction, Stamp(10))?;
    /// let transaction = store.begin_as(setter)?;
    /// store.update(transaction, gate, Mask::of(&[0]), &[1250])?;
    /// store.commit(transaction, Stamp(20))?;
    ///
    /// assert_eq!(store.keeper_at(Stamp(20), gate, 0)?, Some(setter));
    /// assert_eq!(store.keeper_at(Stamp(19), gate, 0)?, Some(inserter));
    /// assert_eq!(store.keeper_at(Stamp(20), gate, 1)?, Some(inserter));
    /// assert_eq!(store.keeper_at(Stamp(9), gate, 0)?, None);
    /// # Ok(())
    /// # }
    /// ```
    ///
    /// # Errors
    ///
    /// As of that read: [`Refusal::Time`], [`Refusal::Row`], [`Refusal::Column`].
    pub fn keeper_at(
        &self,
        stamp: Stamp,
        row: Row,
        column: u32,
    ) -> Result<Option<Keeper>, Refusal> {
        let reply = accepted(call!(ref self, deskrook_keeper_at, stamp.0, row.0, column))?;
        // No bit is lost: the library answers a remainder by 65,536, whatever the memory holds.
        Ok((reply.result == c::OK).then_some(Keeper(reply.first as u16)))
    }

    /// The value that a transaction sees, its own pending changes above the latest, or none. The
    /// stamp is that of the commit that set the value; `Stamp(0)` for a pending one, as is every
    /// value of a row that the transaction inserted, and for one committed at 0.
    ///
    /// # Errors
    ///
    /// [`Refusal::Transaction`], [`Refusal::Row`], [`Refusal::Column`].
    pub fn own_read(
        &self,
        transaction: Transaction,
        row: Row,
        column: u32,
    ) -> Result<Option<Version>, Refusal> {
        read(call!(ref self, deskrook_own_read, transaction.0, row.0, column))
    }

    /// Lists the crossings of a mark, oldest first: the stamps from `from` to `to`, both counted, of
    /// the commits that gave a row and column a value on the other side of the mark from the value
    /// before it there. At or above the mark is one side, below it the other.
    ///
    /// The value before may be from before `from`; a first value is no crossing. Of a transaction's
    /// own values the last counts; what is pending or aborted does not. A minute with two crossings
    /// stands twice. A row's end is no crossing, and hides none.
    ///
    /// The answer is the part of `stamps` that was written, at its beginning; the places behind it
    /// stay as they are, and where the call is refused all do.
    ///
    /// ```
    /// use deskrook::{Mask, Refusal, ScanEntry, Shape, Stamp, Store, SCANS};
    ///
    /// # fn main() -> Result<(), Refusal> {
    /// # let shape = Shape { columns: 1, ranges: 1, capacity: 4, spares: 0 };
    /// # let (mut memory, mut scans) = (vec![0; shape.bytes_needed()?], [ScanEntry::FREE; SCANS]);
    /// # let mut store = Store::make(&mut memory, &mut scans, shape)?;
    /// let transaction = store.begin()?;
    /// let gate = store.insert(transaction, &[1200])?;
    /// store.commit(transaction, Stamp(10))?;
    /// for (level, minute) in [(1250, 20), (1300, 30), (1230, 40)] {
    ///     let transaction = store.begin()?;
    ///     store.update(transaction, gate, Mask(1), &[level])?;
    ///     store.commit(transaction, Stamp(minute))?;
    /// }
    ///
    /// // Upward at 20, downward at 40.
    /// let mut stamps = [Stamp(0); 16];
    /// let crossings = store.crossings(gate, 0, 1240, Stamp(0), Stamp(40), &mut stamps)?;
    /// assert_eq!(crossings, [Stamp(20), Stamp(40)]);
    /// let refused = store.crossings(gate, 0, 1240, Stamp(0), Stamp(40), &mut stamps[..1]);
    /// assert_eq!(refused, Err(Refusal::List));
    /// # Ok(())
    /// # }
    /// ```
    ///
    /// # Errors
    ///
    /// [`Refusal::Row`], [`Refusal::Column`], [`Refusal::Time`] (`from` after `to`, or `to` later
    /// than the last commit's), [`Refusal::List`] (more crossings than places).
    pub fn crossings<'s>(
        &self,
        row: Row,
        column: u32,
        mark: i32,
        from: Stamp,
        to: Stamp,
        stamps: &'s mut [Stamp],
    ) -> Result<&'s [Stamp], Refusal> {
        let (first, length) = (stamps.as_mut_ptr().cast(), stamps.len());
        let (row, from, to) = (row.0, from.0, to.0);
        let reply = call!(ref self, deskrook_crossings, first, length, row, column, mark, from, to);
        let count = accepted(reply)?.first as usize;
        Ok(&stamps[..count])
    }

    /// Opens a scan at a stamp not later than the last commit's. It sees the commits made so far with
    /// that stamp or an earlier one, and none that comes after, be it at the same stamp: while it is
    /// open its answers never change.
    ///
    /// ```
    /// use deskrook::{Mask, ScanEntry, Shape, Stamp, Store, Sum, Version, SCANS};
    ///
    /// # fn main() -> Result<(), deskrook::Refusal> {
    /// # let shape = Shape { columns: 1, ranges: 1, capacity: 4, spares: 1 };
    /// # let (mut memory, mut scans) = (vec![0; shape.bytes_needed()?], [ScanEntry::FREE; SCANS]);
    /// # let mut store = Store::make(&mut memory, &mut scans, shape)?;
    /// let transaction = store.begin()?;
    /// let gate = store.insert(transaction, &[1200])?;
    /// store.insert(transaction, &[-30])?;
    /// store.commit(transaction, Stamp(10))?;
    /// let scan = store.open_scan(Stamp(10))?;
    ///
    /// // In the same minute, and after the scan.
    /// let transaction = store.begin()?;
    /// let last = store.update(transaction, gate, Mask(1), &[1250])?;
    /// store.commit(transaction, Stamp(10))?;
    /// store.merge(0, 0, last)?;
    ///
    /// let [old, new] = [1200, 1250].map(|value| Version { value, stamp: Stamp(10) });
    /// assert_eq!(store.read_at(Stamp(10), gate, 0)?, Some(new));
    /// assert_eq!(store.scan_read(scan, gate, 0)?, Some(old));
    /// assert_eq!(store.sum(scan, 0)?, Sum { rows: 2, sum: 1170 });
    /// assert_eq!(store.release()?, 0); // the scan still reads the old page
    /// store.close_scan(scan)?;
    /// assert_eq!(store.release()?, 1);
    /// # Ok(())
    /// # }
    /// ```
    ///
    /// # Errors
    ///
    /// [`Refusal::Time`], [`Refusal::Number`], [`Refusal::Busy`].
    pub fn open_scan(&mut self, stamp: Stamp) -> Result<ScanNumber, Refusal> {
        Ok(ScanNumber(accepted(call!(mut self, deskrook_open_scan, stamp.0))?.first))
    }

    /// The value that a scan sees, read in the pages that were current at its opening, with the stamp
    /// of the commit that set it, or none.
    ///
    /// # Errors
    ///
    /// [`Refusal::Scan`], [`Refusal::Row`], [`Refusal::Column`].
    pub fn scan_read(
        &self,
        scan: ScanNumber,
        row: Row,
        column: u32,
    ) -> Result<Option<Version>, Refusal> {
        read(call!(ref self, deskrook_scan_read, scan.0, row.0, column))
    }

    /// The sum of one column over the rows that a scan sees.
    ///
    /// # Errors
    ///
    /// [`Refusal::Scan`], [`Refusal::Column`].
    pub fn sum(&self, scan: ScanNumber, column: u32) -> Result<Sum, Refusal> {
        let reply = accepted(call!(ref self, deskrook_sum, scan.0, column))?;
        Ok(Sum { rows: reply.first, sum: reply.sum })
    }

    /// Closes a scan and frees its entry of the list.
    ///
    /// # Errors
    ///
    /// [`Refusal::Scan`].
    pub fn close_scan(&mut self, scan: ScanNumber) -> Result<(), Refusal> {
        accepted(call!(mut self, deskrook_close_scan, scan.0)).map(|_| ())
    }

    /// Merges the committed settings among a range's tail records up to `through` into a new page
    /// of one column. The old page waits for a [`release`](Store::release). Of the memory it changes that
    /// page, the words that say which page is current or waits, and the count of merges; it keeps no
    /// table of rows.
    ///
    /// # Errors
    ///
    /// [`Refusal::Range`], [`Refusal::Column`], [`Refusal::Reach`], [`Refusal::Open`],
    /// [`Refusal::NoPage`].
    pub fn merge(&mut self, range: u32, column: u32, through: Tail) -> Result<(), Refusal> {
        accepted(call!(mut self, deskrook_merge, range, column, through.0)).map(|_| ())
    }

    /// Frees every waiting page but those that a scan still open may read, and answers how many.
    ///
    /// # Errors
    ///
    /// None but [`Refusal::Memory`].
    pub fn release(&mut self) -> Result<u32, Refusal> {
        Ok(accepted(call!(mut self, deskrook_release))?.first)
    }

    /// What the current page of a column holds for a row.
    ///
    /// # Errors
    ///
    /// [`Refusal::Column`], [`Refusal::Row`].
    pub fn page_cell(&self, column: u32, row: Row) -> Result<i32, Refusal> {
        Ok(accepted(call!(ref self, deskrook_page_cell, column, row.0))?.first as i32)
    }

    /// How far a range's column is merged, and how many tail records the range has used.
    ///
    /// # Errors
    ///
    /// [`Refusal::Range`], [`Refusal::Column`].
    pub fn lineage(&self, range: u32, column: u32) -> Result<Lineage, Refusal> {
        let reply = accepted(call!(ref self, deskrook_lineage, range, column))?;
        Ok(Lineage { through: Tail(reply.first), used: reply.second })
    }
}
