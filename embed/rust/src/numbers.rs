//! The numbers that calls take and answer, a type for each, so that none is taken for another. Any
//! number may be passed to a call; one that is not there is refused.

/// The number of a transaction, from 1.
#[derive(Clone, Copy, Debug, PartialEq, Eq, PartialOrd, Ord, Hash)]
pub struct Transaction(pub u32);

/// The number of a row, from 0. Row r lies in range r / 64.
#[derive(Clone, Copy, Debug, PartialEq, Eq, PartialOrd, Ord, Hash)]
pub struct Row(pub u32);

/// The number of a tail record in its range, from 1.
#[derive(Clone, Copy, Debug, PartialEq, Eq, PartialOrd, Ord, Hash)]
pub struct Tail(pub u32);

/// The number of a scan, from 1.
#[derive(Clone, Copy, Debug, PartialEq, Eq, PartialOrd, Ord, Hash)]
pub struct ScanNumber(pub u32);

/// Minutes since 1 January 2000 UTC. It is laid as its number is, so that stamps are lent as numbers.
#[repr(transparent)]
#[derive(Clone, Copy, Debug, PartialEq, Eq, PartialOrd, Ord, Hash)]
pub struct Stamp(pub u32);

/// The stored form of a memory.
#[derive(Clone, Copy, Debug, PartialEq, Eq, PartialOrd, Ord, Hash)]
#[repr(u8)]
pub enum Form {
    /// Form 1, which fitted panels hold. It was made before there were keepers and has none.
    First = 1,
    /// Form 2, which has the keepers and which making gives.
    Newest = 2,
}

impl Form {
    /// The form's number.
    ///
    /// ```
    /// assert_eq!(deskrook::Form::First.number(), 1);
    /// ```
    pub fn number(self) -> u32 {
        self as u32
    }
}

/// Who makes a transaction.
#[derive(Clone, Copy, Debug, PartialEq, Eq, PartialOrd, Ord, Hash)]
pub struct Keeper(pub u16);

impl Keeper {
    /// The keeper of a transaction that is begun without one.
    pub const UNKNOWN: Keeper = Keeper(0);
}

/// The columns that an update sets: bit k for column k.
#[derive(Clone, Copy, Debug, PartialEq, Eq, Hash)]
pub struct Mask(pub u16);

impl Mask {
    /// The mask of some columns.
    ///
    /// ```
    /// use deskrook::Mask;
    /// assert_eq!(Mask::of(&[0, 3]), Mask(0b1001));
    /// ```
    ///
    /// # Panics
    ///
    /// If a column is 16 or more.
    pub fn of(columns: &[u32]) -> Mask {
        Mask(columns.iter().fold(0, |mask, column| {
            assert!(*column < 16, "a mask has 16 columns, {column} is none of them");
            mask | 1 << column
        }))
    }
}

/// A value, and the stamp of the commit that set it, `Stamp(0)` while that commit is still to come. A
/// commit can have the stamp 0 too.
#[derive(Clone, Copy, Debug, PartialEq, Eq)]
pub struct Version {
    pub value: i32,
    pub stamp: Stamp,
}

/// The rows that a scan sees, and the sum of one of their columns.
#[derive(Clone, Copy, Debug, PartialEq, Eq)]
pub struct Sum {
    pub rows: u32,
    pub sum: i64,
}

/// How far a range's column is merged.
#[derive(Clone, Copy, Debug, PartialEq, Eq)]
pub struct Lineage {
    /// The last tail record merged, `Tail(0)` before any merge.
    pub through: Tail,
    /// The tail records that the range has used.
    pub used: u32,
}
