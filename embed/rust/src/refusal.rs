//! The refusals with their numbers.

use std::error::Error;
use std::fmt;

/// Why a call was refused. A refused call changes no byte of what it was lent.
#[derive(Clone, Copy, Debug, PartialEq, Eq, Hash)]
#[repr(u8)]
pub enum Refusal {
    /// A measure outside its limits.
    Shape = 1,
    /// Memory shorter than the shape needs, a move's second one too, a scan list under 5 entries, or a
    /// stored fact fails, of which one is that the memory is in a stored form that the call works on.
    Memory = 2,
    /// The transaction's number is not open.
    Transaction = 3,
    /// The scan's number is not open.
    Scan = 4,
    /// The row number is not yet given.
    Row = 5,
    /// The column is not below the column count.
    Column = 6,
    /// The range is not below the range count.
    Range = 7,
    /// The mask has no bit, or a bit at or above the column count.
    Mask = 8,
    /// Another open transaction inserted, updated or deleted the row.
    Held = 9,
    /// Not held, and the row is deleted or its insert aborted, in the caller's own view.
    Gone = 10,
    /// All rows are given.
    Full = 11,
    /// The range lacks the one or two tail records wanted.
    Tail = 12,
    /// A commit earlier than the last, a read, scan or crossings later than the last (0 in a new
    /// store), or crossings from a stamp to an earlier one.
    Time = 13,
    /// 8 transactions, or 5 scans, are open.
    Busy = 14,
    /// 65,535 numbers are given.
    Number = 15,
    /// A merge not above what the page holds, or above the records used.
    Reach = 16,
    /// A record up to the one merged through belongs to an open transaction.
    Open = 17,
    /// There is no free page.
    NoPage = 18,
    /// Fewer places are lent than there are crossings.
    List = 21,
    /// On moving back to form 1, a row, a tail record or an open transaction has a keeper other than 0.
    Keeper = 22,
}

impl Refusal {
    /// All refusals, in the order of their numbers.
    pub const ALL: [Refusal; 20] = [
        Refusal::Shape,
        Refusal::Memory,
        Refusal::Transaction,
        Refusal::Scan,
        Refusal::Row,
        Refusal::Column,
        Refusal::Range,
        Refusal::Mask,
        Refusal::Held,
        Refusal::Gone,
        Refusal::Full,
        Refusal::Tail,
        Refusal::Time,
        Refusal::Busy,
        Refusal::Number,
        Refusal::Reach,
        Refusal::Open,
        Refusal::NoPage,
        Refusal::List,
        Refusal::Keeper,
    ];

    /// The refusal's number.
    ///
    /// ```
    /// assert_eq!(deskrook::Refusal::Held.number(), 9);
    /// ```
    pub fn number(self) -> u32 {
        self as u32
    }

    /// The refusal of a number, if there is one.
    ///
    /// ```
    /// use deskrook::Refusal;
    /// assert_eq!(Refusal::from_number(18), Some(Refusal::NoPage));
    /// assert_eq!(Refusal::from_number(19), None);
    /// assert_eq!(Refusal::from_number(21), Some(Refusal::List));
    /// assert_eq!(Refusal::from_number(22), Some(Refusal::Keeper));
    /// ```
    pub fn from_number(number: u32) -> Option<Refusal> {
        Refusal::ALL.into_iter().find(|refusal| refusal.number() == number)
    }
}

impl fmt::Display for Refusal {
    fn fmt(&self, out: &mut fmt::Formatter<'_>) -> fmt::Result {
        out.write_str(match self {
            Refusal::Shape => "a measure is outside its limits",
            Refusal::Memory => "the memory or the scan list is not usable",
            Refusal::Transaction => "the transaction is not open",
            Refusal::Scan => "the scan is not open",
            Refusal::Row => "the row is not yet given",
            Refusal::Column => "the column is not below the column count",
            Refusal::Range => "the range is not below the range count",
            Refusal::Mask => "the mask has no bit, or one at or above the column count",
            Refusal::Held => "another open transaction holds the row",
            Refusal::Gone => "the row is deleted or its insert aborted",
            Refusal::Full => "all rows are given",
            Refusal::Tail => "the range lacks the tail records wanted",
            Refusal::Time => "the stamps do not fit the last commit's or each other",
            Refusal::Busy => "as many transactions or scans as can be are open",
            Refusal::Number => "all numbers are given",
            Refusal::Reach => "the merge does not reach above the page, or past the records used",
            Refusal::Open => "a record to be merged belongs to an open transaction",
            Refusal::NoPage => "there is no free page",
            Refusal::List => "there are more crossings than places lent for them",
            Refusal::Keeper => "form 1 has no place for a keeper other than 0",
        })
    }
}

impl Error for Refusal {}
