//! The situations of command 14 in which a wrong reading of document 02's Item 6 gives another answer:
//! another keeper, or one in place of none. The survey counts them in generated streams.

use super::{History, Holds, Record, State, Version, UNKNOWN_KEEPER};
use crate::call::{Call, RANGE_ROWS};

/// A situation of a call for a keeper. Several can hold of one call. The keeper shown is that of the
/// answer; the first two situations have none.
#[derive(Clone, Copy, Debug, PartialEq, Eq, PartialOrd, Ord)]
pub enum InKeepers {
    /// The answer is none.
    Nothing,
    /// The answer is none, and a delete of the row is seen.
    Ended,
    /// The row's inserter has another keeper than the one shown.
    Inserter,
    /// The last setting of the row that is seen, one of another column, has another keeper.
    OtherColumn,
    /// The value is the inserted one, and its original is in the record of a transaction with another
    /// keeper.
    Original,
    /// The same, and that transaction is aborted.
    OriginalOfAborted,
    /// An aborted transaction with another keeper has set the column after the setting read.
    Aborted,
    /// An open transaction with another keeper has.
    Pending,
    /// A transaction with another keeper has deleted the row; the delete is later, aborted or open.
    Deleter,
    /// The latest value has another keeper.
    Latest,
    /// With no more than the first commit of its minute the value has another keeper.
    FirstOfMinute,
    /// An open scan at the stamp, which leaves commits of the minute out, sees a value with another
    /// keeper.
    ScanOfMinute,
    /// The current page holds the setting read, and the row's inserter has another keeper.
    Merged,
    /// The current page holds a later setting of the cell, which has another keeper.
    MergedPast,
    /// The value before was the same, and has another keeper.
    SameValue,
    /// The keeper is unknown, and that of the value before is not.
    Unknown,
    /// The transaction begun last has another keeper.
    LastBegun,
    /// The keeper does not fit in one byte.
    TwoBytes,
    /// With its bytes in the other order it is another number.
    ByteOrder,
}

use InKeepers::*;

impl InKeepers {
    pub const ALL: [InKeepers; 19] = [
        Nothing,
        Ended,
        Inserter,
        OtherColumn,
        Original,
        OriginalOfAborted,
        Aborted,
        Pending,
        Deleter,
        Latest,
        FirstOfMinute,
        ScanOfMinute,
        Merged,
        MergedPast,
        SameValue,
        Unknown,
        LastBegun,
        TwoBytes,
        ByteOrder,
    ];

    pub fn name(self) -> &'static str {
        match self {
            Nothing => "none",
            Ended => "none, the row has ended",
            Inserter => "not the inserter's",
            OtherColumn => "not another column's",
            Original => "not the original's updater's",
            OriginalOfAborted => "the same, updater aborted",
            Aborted => "not an aborted setting's",
            Pending => "not a pending setting's",
            Deleter => "not a delete's",
            Latest => "not the latest value's",
            FirstOfMinute => "not its minute's first",
            ScanOfMinute => "not an open scan's",
            Merged => "merged, not the inserter's",
            MergedPast => "page merged past it",
            SameValue => "same value set again",
            Unknown => "unknown after a known one",
            LastBegun => "not the last begun's",
            TwoBytes => "above one byte",
            ByteOrder => "other in the other byte order",
        }
    }
}

impl History {
    /// The situations of a call, if it is one for a keeper and accepted.
    pub fn in_keepers(&self, call: &Call) -> Vec<InKeepers> {
        let Call::KeeperAt { stamp, row, column } = *call else { return Vec::new() };
        if self.refusal(call).is_some() {
            return Vec::new();
        }
        let view = self.view_at(stamp);
        let tail = &self.tails[(row / RANGE_ROWS) as usize];
        let deletes = |record: &Record| record.row == row && record.holds == Holds::Delete;
        let Some(Version { value, setter }) = self.version_in(view, row, column) else {
            let ended = tail.iter().any(|r| deletes(r) && self.seen(view, r.transaction));
            return if ended { vec![Nothing, Ended] } else { vec![Nothing] };
        };
        let keeper = self.keeper_of(setter);
        let differs = |transaction: u32| self.keeper_of(transaction) != keeper;
        let inserter = self.rows[row as usize].inserter;

        // What a tail record is to the version read.
        let cell = |record: &Record| record.row == row && record.setting(column).is_some();
        let any_column = |record: &Record| {
            let set = |other: u32| record.setting(other).is_some();
            record.row == row && (0..self.shape.columns).any(set)
        };
        let original = |record: &Record| match &record.holds {
            Holds::Original(values) => record.row == row && values[column as usize].is_some(),
            Holds::Setting(_) | Holds::Delete => false,
        };
        let aborted = |record: &Record| self.state(record.transaction) == State::Aborted;
        let open = |record: &Record| self.state(record.transaction) == State::Open;
        // The number of the setting read, 0 where the value is the inserted one. What comes after it is
        // not seen.
        let read = |record: &Record| cell(record) && record.transaction == setter;
        let number = tail.iter().rposition(read).map_or(0, |place| place + 1);
        let merged = self.merged_through(row / RANGE_ROWS, column) as usize;
        let other_original = |of: &dyn Fn(&Record) -> bool| {
            number == 0 && tail.iter().any(|r| original(r) && of(r) && differs(r.transaction))
        };
        let before = self.version(row, column, |other| other != setter && self.seen(view, other));

        let holds = |situation: &InKeepers| match situation {
            Nothing | Ended => false,
            Inserter => differs(inserter),
            OtherColumn => {
                let seen = |r: &&Record| any_column(r) && self.seen(view, r.transaction);
                tail.iter().rev().find(seen).is_some_and(|r| differs(r.transaction))
            }
            Original => other_original(&|_| true),
            OriginalOfAborted => other_original(&aborted),
            Aborted => {
                tail[number..].iter().any(|r| cell(r) && aborted(r) && differs(r.transaction))
            }
            Pending => tail[number..].iter().any(|r| cell(r) && open(r) && differs(r.transaction)),
            Deleter => tail.iter().any(|r| deletes(r) && differs(r.transaction)),
            Latest => self.latest(row, column).is_some_and(|latest| differs(latest.setter)),
            FirstOfMinute => {
                let first = self.version_in(self.first_of_minute(view), row, column);
                first.is_some_and(|first| differs(first.setter))
            }
            ScanOfMinute => self.open_scans.iter().any(|scan| {
                let by_scan = self.version_in(self.view_of_scan(*scan), row, column);
                self.scan_stamp(*scan) == stamp && by_scan.is_some_and(|one| differs(one.setter))
            }),
            Merged => (1..=merged).contains(&number) && differs(inserter),
            MergedPast => {
                let later = |r: &Record| cell(r) && self.committed(r.transaction);
                let mut past = tail.iter().take(merged).skip(number);
                past.any(|r| later(r) && differs(r.transaction))
            }
            SameValue => before.is_some_and(|one| one.value == value && differs(one.setter)),
            Unknown => keeper == UNKNOWN_KEEPER && before.is_some_and(|one| differs(one.setter)),
            LastBegun => differs(self.transactions.len() as u32),
            TwoBytes => keeper > 0xFF,
            ByteOrder => keeper.swap_bytes() != keeper,
        };
        InKeepers::ALL.into_iter().filter(holds).collect()
    }
}
