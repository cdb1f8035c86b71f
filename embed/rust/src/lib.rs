//! Deskrook: a settings store for tide-mill gates. Rows are gates, columns are whole numbers such
//! as a sill level in millimetres; writers work in transactions, and readers see the latest values
//! or those of an earlier minute, and who set them. The store is proved: this crate is a thin layer
//! over the static library that is built from its proved source.
//!
//! A store lives in memory that the program lends, and so does its list of open scans. It allocates
//! nothing, and keeps nothing elsewhere.
//!
//! ```
//! use deskrook::{Mask, ScanEntry, Shape, Stamp, Store, Version, SCANS};
//!
//! # fn main() -> Result<(), deskrook::Refusal> {
//! let shape = Shape { columns: 2, ranges: 1, capacity: 4, spares: 1 };
//! let mut memory = vec![0; shape.bytes_needed()?];
//! let mut scans = [ScanEntry::FREE; SCANS];
//! let mut store = Store::make(&mut memory, &mut scans, shape)?;
//!
//! let transaction = store.begin()?;
//! let gate = store.insert(transaction, &[1200, -30])?;
//! store.commit(transaction, Stamp(10))?;
//!
//! let transaction = store.begin()?;
//! store.update(transaction, gate, Mask::of(&[0]), &[1250])?;
//! let inserted = Version { value: 1200, stamp: Stamp(10) };
//! let pending = Version { value: 1250, stamp: Stamp(0) };
//! assert_eq!(store.latest(gate, 0)?, Some(inserted));
//! assert_eq!(store.own_read(transaction, gate, 0)?, Some(pending));
//! store.commit(transaction, Stamp(20))?;
//!
//! assert_eq!(store.latest(gate, 0)?, Some(Version { value: 1250, stamp: Stamp(20) }));
//! assert_eq!(store.read_at(Stamp(19), gate, 0)?, Some(inserted));
//! assert_eq!(store.read_at(Stamp(9), gate, 0)?, None);
//! # Ok(())
//! # }
//! ```
//!
//! # Keepers
//!
//! A transaction has a keeper, a number of 2 bytes that tells who made it: [`Store::begin_as`] takes
//! any [`Keeper`], and [`Store::begin`] takes [`Keeper::UNKNOWN`], 0. Each row and tail record carries its transaction's
//! keeper, and original values that of the row's insert; [`Store::keeper_at`] answers the keeper of the
//! value that [`Store::read_at`] shows.
//!
//! # Forms
//!
//! A memory is in a stored form. [`Form::First`] is what fitted panels hold: it was made before there
//! were keepers, has none, and needs fewer bytes. [`Form::Newest`], form 2, has them, and making gives
//! it. [`Store::upgrade`] moves a store from form 1 to the newest, into a second memory, and works on
//! form 1 alone. [`Store::downgrade`] moves it back, and works on the newest alone, as
//! [`Store::begin_as`] and [`Store::keeper_at`] do. Every other call works on both, and leaves the form
//! as it is; [`Store::check`] says which one it is.
//!
//! # Refusals
//!
//! A call that cannot be done answers a [`Refusal`] and changes no byte. Any number may be passed.
//!
//! ```
//! use deskrook::{Refusal, Row, ScanEntry, Shape, Store, SCANS};
//!
//! # fn main() -> Result<(), Refusal> {
//! let shape = Shape { columns: 2, ranges: 1, capacity: 4, spares: 0 };
//! let mut memory = vec![0; shape.bytes_needed()?];
//! let mut scans = [ScanEntry::FREE; SCANS];
//! let store = Store::make(&mut memory, &mut scans, shape)?;
//! match store.latest(Row(7), 0) {
//!     Err(Refusal::Row) => {}
//!     other => panic!("no row is given yet, and the answer is {other:?}"),
//! }
//! # Ok(())
//! # }
//! ```

pub mod c;
mod numbers;
mod refusal;
mod store;

pub use numbers::{
    Form, Keeper, Lineage, Mask, Row, ScanNumber, Stamp, Sum, Tail, Transaction, Version,
};
pub use refusal::Refusal;
pub use store::{ScanEntry, Shape, Store, Unmoved, SCANS};
