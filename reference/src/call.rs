//! A store's shape, the twenty-two calls on a store, the forms of a memory that they work on, and their
//! answers.

/// Rows in one range: "Ranges 1 to 16, each of 64 rows."
pub const RANGE_ROWS: u32 = 64;

/// The four measures of a store.
#[derive(Clone, Copy, Debug, PartialEq, Eq)]
pub struct Shape {
    pub columns: u32,
    pub ranges: u32,
    pub capacity: u32,
    pub spares: u32,
}

impl Shape {
    /// "Columns 1 to 16. Ranges 1 to 16, each of 64 rows. Tail capacity 1 to 512 records for each
    /// range. Spare pages 0 to 256."
    pub fn within_limits(&self) -> bool {
        (1..=16).contains(&self.columns)
            && (1..=16).contains(&self.ranges)
            && (1..=512).contains(&self.capacity)
            && self.spares <= 256
    }

    /// The rows that can be given.
    pub fn rows(&self) -> u32 {
        self.ranges * RANGE_ROWS
    }
}

/// A call with its numbers. Any number may be passed; a list of values that is shorter than the
/// columns reads as 0 beyond its end, and what is beyond the columns is ignored.
#[derive(Clone, Debug, PartialEq, Eq)]
pub enum Call {
    Begin,
    Insert {
        transaction: u32,
        values: Vec<i32>,
    },
    Update {
        transaction: u32,
        row: u32,
        mask: u16,
        values: Vec<i32>,
    },
    Delete {
        transaction: u32,
        row: u32,
    },
    Commit {
        transaction: u32,
        stamp: u32,
    },
    Abort {
        transaction: u32,
    },
    Latest {
        row: u32,
        column: u32,
    },
    ReadAt {
        stamp: u32,
        row: u32,
        column: u32,
    },
    OwnRead {
        transaction: u32,
        row: u32,
        column: u32,
    },
    OpenScan {
        stamp: u32,
    },
    ScanRead {
        scan: u32,
        row: u32,
        column: u32,
    },
    Sum {
        scan: u32,
        column: u32,
    },
    Close {
        scan: u32,
    },
    Merge {
        range: u32,
        column: u32,
        through: u32,
    },
    Release,
    PageCell {
        column: u32,
        row: u32,
    },
    Lineage {
        range: u32,
        column: u32,
    },
    /// Document 02, Item 4. `places` is the length of the lent slice of stamps: a call is fed "with the
    /// length of anything lent besides memory and scan list".
    Crossings {
        row: u32,
        column: u32,
        mark: i32,
        from: u32,
        to: u32,
        places: u32,
    },
    /// Document 02, Item 6: "Command 13 begins a transaction with a keeper (2 bytes)".
    BeginAs {
        keeper: u16,
    },
    /// Document 02, Item 6: "Command 14: stamp, row, column; it answers the keeper of the value that 08
    /// would show, or none".
    KeeperAt {
        stamp: u32,
        row: u32,
        column: u32,
    },
    /// Document 02, Item 7: "A call moves a form 1 memory into a second lent memory as form 2, with keeper
    /// 0 throughout". The history is not told the second memory's length, since lists lend "no move too
    /// short a second memory".
    Upgrade,
    /// Item 7: ".. and another moves it back."
    Downgrade,
}

/// The form of a lent memory. The plain history keeps none: "In the plain history a move alters nothing."
/// But a list of calls has a form at each call, since the lists of Item 7 "lend no call a form that it does
/// not work on".
#[derive(Clone, Copy, Debug, PartialEq, Eq, PartialOrd, Ord)]
pub enum Form {
    /// Form 1, "what stood before" the keepers of Item 6, which "fitted panels hold".
    First,
    /// "the newest, which making gives"
    Newest,
}

impl Form {
    pub const ALL: [Form; 2] = [Form::First, Form::Newest];
}

impl Call {
    /// Document 02, Item 7: "The first move works on form 1, calls 01 to 12 on form 1 and the newest, which
    /// making gives, all others on the newest alone."
    pub fn works_on(&self, form: Form) -> bool {
        match self {
            Call::Upgrade => form == Form::First,
            Call::BeginAs { .. } | Call::KeeperAt { .. } | Call::Downgrade => form == Form::Newest,
            _ => true,
        }
    }

    /// The form of the second memory after a move, which "is then the store"; nothing for other calls.
    pub fn moves_to(&self) -> Option<Form> {
        match self {
            Call::Upgrade => Some(Form::Newest),
            Call::Downgrade => Some(Form::First),
            _ => None,
        }
    }
}

/// What a call answers.
#[derive(Clone, Debug, PartialEq, Eq)]
pub enum Answer {
    /// Refused, with the number of document 01.
    Refused(u8),
    /// Accepted, no field: commit, abort, close, merge, the two moves.
    Done,
    /// A transaction, row, tail record or scan number, the count of pages that a release freed, or a
    /// keeper.
    Number(u32),
    /// The value read, and the stamp of the commit that set that column in that row, 0 where the
    /// value is the reader's own and pending: latest, read at, own read, scan read. A commit can
    /// have the stamp 0 too, so 0 does not tell the two apart.
    Version {
        value: i32,
        stamp: u32,
    },
    /// The row is not there for this reader. There is no value, and so no stamp.
    None,
    /// What a page cell holds.
    Value(i32),
    Sum {
        count: u32,
        sum: i64,
    },
    Lineage {
        through: u32,
        used: u32,
    },
    /// The stamps of the crossings, oldest first, as they stand at the beginning of the lent slice. There
    /// are no more of them than places, and the slice's rest is unchanged; all of it where the call is
    /// refused.
    Crossings(Vec<u32>),
}

impl Answer {
    pub fn is_refused(&self) -> bool {
        matches!(self, Answer::Refused(_))
    }
}
