//! The situations of a single-cell read in which a wrong reading of document 02's Item 1 gives
//! another stamp, or gives one with none. The survey counts them in generated streams.

use super::{merged_through, History, Holds, Record, State, Version, View};
use crate::call::{Call, RANGE_ROWS};

/// A situation of a single-cell read. Several can hold of one read.
#[derive(Clone, Copy, Debug, PartialEq, Eq, PartialOrd, Ord)]
pub enum Situation {
    /// The answer is none.
    Absent,
    /// The reader sees a later commit's setting of another column in the row.
    OtherColumnLater,
    /// The page read holds the setting read, and a later commit's setting of another row.
    MergedBesideLater,
    /// The page read holds a later commit's setting of the cell than the one read.
    MergedPast,
    /// The same of the current page, but not of the page of the scan's opening.
    MergedSinceOpening,
    /// The value is one's own setting, not committed.
    PendingSetting,
    /// The value is that of one's own insert, not committed.
    PendingInsert,
    /// The value is committed, and one's own setting of another column in the row is not.
    BesidePending,
    /// An aborted transaction has set the column after the setting read.
    BelowAborted,
    /// The value is the inserted one, and its original belongs to a commit later than the read.
    BeforeFirstUpdate,
}

use Situation::*;

impl Situation {
    pub const ALL: [Situation; 10] = [
        Absent,
        OtherColumnLater,
        MergedBesideLater,
        MergedPast,
        MergedSinceOpening,
        PendingSetting,
        PendingInsert,
        BesidePending,
        BelowAborted,
        BeforeFirstUpdate,
    ];

    pub fn name(self) -> &'static str {
        match self {
            Absent => "none",
            OtherColumnLater => "another column set later",
            MergedBesideLater => "merged, another row later",
            MergedPast => "page merged past it",
            MergedSinceOpening => "page merged past it since",
            PendingSetting => "own pending setting",
            PendingInsert => "own pending insert",
            BesidePending => "beside own pending setting",
            BelowAborted => "below aborted setting",
            BeforeFirstUpdate => "before first update",
        }
    }
}

/// A cell, and who reads it.
struct Reader {
    row: u32,
    column: u32,
    view: View,
    /// The transaction of an own read.
    own: Option<u32>,
    /// How many merges were made before the pages read were current.
    merges: usize,
}

impl History {
    /// The situations of a call, if it is a single-cell read and accepted.
    pub fn situations(&self, call: &Call) -> Vec<Situation> {
        if self.refusal(call).is_some() {
            return Vec::new();
        }
        let (view, own, merges) = (self.view_of_latest(), None, self.merges.len());
        self.situations_of(&match *call {
            Call::Latest { row, column } => Reader { row, column, view, own, merges },
            Call::ReadAt { stamp, row, column } => {
                Reader { row, column, view: self.view_at(stamp), own, merges }
            }
            Call::OwnRead { transaction, row, column } => {
                Reader { row, column, view, own: Some(transaction), merges }
            }
            // "An open scan reads the pages that were current at its opening."
            Call::ScanRead { scan, row, column } => {
                let merges = self.scans[scan as usize - 1].merges_before;
                Reader { row, column, view: self.view_of_scan(scan), own, merges }
            }
            _ => return Vec::new(),
        })
    }

    fn situations_of(&self, reader: &Reader) -> Vec<Situation> {
        let Reader { row, column, view, own, merges } = *reader;
        let counts = |transaction: u32| own == Some(transaction) || self.seen(view, transaction);
        let Some(Version { setter, .. }) = self.version(row, column, counts) else {
            return vec![Absent];
        };

        // What a tail record is to the version read.
        let cell = |record: &Record| record.row == row && record.setting(column).is_some();
        let beside = |record: &Record| record.row != row && record.setting(column).is_some();
        let other_column = |record: &Record| {
            let set = |other: u32| other != column && record.setting(other).is_some();
            record.row == row && (0..self.shape.columns).any(set)
        };
        let original = |record: &Record| match &record.holds {
            Holds::Original(values) => record.row == row && values[column as usize].is_some(),
            Holds::Setting(_) | Holds::Delete => false,
        };
        // Later by the order of commits, which within one minute the stamps do not tell.
        let later = |record: &Record| match self.commit_of(setter) {
            Some(read) => self
                .commit_of(record.transaction)
                .is_some_and(|commit| commit.ordinal > read.ordinal),
            None => false,
        };
        let pending = |record: &Record| own == Some(record.transaction);
        let aborted = |record: &Record| self.state(record.transaction) == State::Aborted;

        let range = row / RANGE_ROWS;
        let tail = &self.tails[range as usize];
        // The number of the setting read, 0 where the value is the inserted one.
        let read = |record: &Record| cell(record) && record.transaction == setter;
        let number = tail.iter().rposition(read).map_or(0, |place| place + 1);
        let page = merged_through(&self.merges[..merges], range, column) as usize;
        let current = self.merged_through(range, column) as usize;
        let past = |through: usize| tail[..through].iter().any(|r| cell(r) && later(r));
        let own_version = own == Some(setter);

        let holds = |situation: &Situation| match situation {
            Absent => false,
            OtherColumnLater => {
                tail.iter().any(|r| other_column(r) && later(r) && counts(r.transaction))
            }
            MergedBesideLater => {
                (1..=page).contains(&number) && tail[..page].iter().any(|r| beside(r) && later(r))
            }
            MergedPast => past(page),
            MergedSinceOpening => past(current) && !past(page),
            PendingSetting => own_version && number > 0,
            PendingInsert => own_version && number == 0,
            BesidePending => !own_version && tail.iter().any(|r| other_column(r) && pending(r)),
            BelowAborted => tail[number..].iter().any(|r| cell(r) && aborted(r)),
            BeforeFirstUpdate => number == 0 && tail.iter().any(|r| original(r) && later(r)),
        };
        Situation::ALL.into_iter().filter(holds).collect()
    }
}
