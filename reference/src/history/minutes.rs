//! The situations of a read in which a wrong reading of document 02's Item 3 gives another answer: a
//! reader who takes another commit of the minute than the newest, or a scan that sees a commit of its
//! minute made after its opening. The survey counts them in generated streams.

use super::{Answer, History, View};
use crate::call::{Call, RANGE_ROWS};

/// A situation of a single-cell read or a sum. Several can hold of one call. Of a sum each but
/// `LaterCommit` holds where it does for one of the rows.
#[derive(Clone, Copy, Debug, PartialEq, Eq, PartialOrd, Ord)]
pub enum InMinute {
    /// The last minute that the reader sees has several commits seen, and with its first alone the
    /// answer is another.
    Newest,
    /// The reader is a scan, and a commit was made at its stamp after its opening.
    LaterCommit,
    /// With all commits made at its stamp the scan gives another value, or another stamp.
    LaterSetting,
    /// The same, and the current page holds such a commit's setting of the cell.
    LaterSettingMerged,
    /// With them it gives a value in place of none.
    LaterInsert,
    /// With them it gives none in place of a value.
    LaterEnd,
    /// Another open scan at the same stamp gives another answer.
    TwoScans,
}

use InMinute::*;

impl InMinute {
    pub const ALL: [InMinute; 7] =
        [Newest, LaterCommit, LaterSetting, LaterSettingMerged, LaterInsert, LaterEnd, TwoScans];

    pub fn name(self) -> &'static str {
        match self {
            Newest => "newest of the minute",
            LaterCommit => "scan, later commit",
            LaterSetting => "scan, later setting",
            LaterSettingMerged => "scan, later setting merged",
            LaterInsert => "scan, later insert",
            LaterEnd => "scan, later end",
            TwoScans => "scan, another at its stamp",
        }
    }
}

/// Who reads, and what.
struct Reader {
    view: View,
    /// The transaction of an own read.
    own: Option<u32>,
    scan: Option<u32>,
    rows: std::ops::Range<u32>,
    column: u32,
    /// Whether the answer has a stamp.
    stamps: bool,
}

impl History {
    /// The situations of a call, if it is a single-cell read or a sum and accepted.
    pub fn in_minute(&self, call: &Call) -> Vec<InMinute> {
        if self.refusal(call).is_some() {
            return Vec::new();
        }
        let reader = |view, row, column| {
            let rows = row..row + 1;
            Reader { view, own: None, scan: None, rows, column, stamps: true }
        };
        let by_scan = |scan, rows, column, stamps| {
            let view = self.view_of_scan(scan);
            Reader { view, own: None, scan: Some(scan), rows, column, stamps }
        };
        let latest = self.view_of_latest();
        self.in_minute_of(&match *call {
            Call::Latest { row, column } => reader(latest, row, column),
            Call::ReadAt { stamp, row, column } => reader(self.view_at(stamp), row, column),
            Call::OwnRead { transaction, row, column } => {
                Reader { own: Some(transaction), ..reader(latest, row, column) }
            }
            Call::ScanRead { scan, row, column } => by_scan(scan, row..row + 1, column, true),
            Call::Sum { scan, column } => by_scan(scan, 0..self.rows_given(), column, false),
            _ => return Vec::new(),
        })
    }

    fn in_minute_of(&self, reader: &Reader) -> Vec<InMinute> {
        let Reader { view, own, scan, ref rows, column, stamps } = *reader;
        let with = |view: View, row: u32| {
            let counts =
                |transaction: u32| own == Some(transaction) || self.seen(view, transaction);
            match self.read(self.version(row, column, counts)) {
                Answer::Version { value, .. } if !stamps => Answer::Value(value),
                answer => answer,
            }
        };
        let differ = |row: u32, other: View| with(view, row) != with(other, row);

        let mut found = Vec::new();
        let first = self.first_of_minute(view);
        if rows.clone().any(|row| differ(row, first)) {
            found.push(Newest);
        }
        let Some(scan) = scan else { return found };
        let all = self.view_at(view.stamp);
        if self.commits_up_to(all) > self.commits_up_to(view) {
            found.push(LaterCommit);
        }
        for row in rows.clone().filter(|row| differ(*row, all)) {
            match (with(view, row), with(all, row)) {
                (Answer::None, _) => found.push(LaterInsert),
                (_, Answer::None) => found.push(LaterEnd),
                _ => {
                    found.push(LaterSetting);
                    let range = row / RANGE_ROWS;
                    let through = self.merged_through(range, column) as usize;
                    let merged = self.tails[range as usize][..through].iter().any(|record| {
                        let sets = record.row == row && record.setting(column).is_some();
                        let by = record.transaction;
                        sets && self.seen(all, by) && !self.seen(view, by)
                    });
                    if merged {
                        found.push(LaterSettingMerged);
                    }
                }
            }
        }
        let others = self.open_scans.iter().filter(|other| **other != scan);
        let mut views = others.map(|other| self.view_of_scan(*other));
        let other_answer =
            |other: View| other.stamp == view.stamp && rows.clone().any(|row| differ(row, other));
        if views.any(other_answer) {
            found.push(TwoScans);
        }
        found.sort();
        found.dedup();
        found
    }

    /// How many commits a view sees. Stamps do not fall, so these are the first so many.
    fn commits_up_to(&self, view: View) -> u32 {
        let up_to = self.commits.partition_point(|stamp| *stamp <= view.stamp) as u32;
        up_to.min(view.commits)
    }

    /// The same view with no more than the first commit of the last minute that it sees.
    pub(super) fn first_of_minute(&self, view: View) -> View {
        let seen = self.commits_up_to(view) as usize;
        let Some(last) = self.commits[..seen].last() else { return view };
        let before = self.commits.partition_point(|stamp| stamp < last) as u32;
        View { stamp: view.stamp, commits: before + 1 }
    }
}
