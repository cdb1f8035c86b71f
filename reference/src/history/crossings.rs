//! The situations of command 12 in which a wrong reading of document 02's Item 4 gives another answer:
//! another list, or another refusal. The survey counts them in generated streams.

use super::{listed, Given, History, Holds, Record, Row, State};
use crate::call::{Call, RANGE_ROWS};

/// A situation of a call for crossings. Several can hold of one call. The last two are those of a call
/// that is refused with 13, the others of one that is accepted or refused with 21.
#[derive(Clone, Copy, Debug, PartialEq, Eq, PartialOrd, Ord)]
pub enum InCrossings {
    /// Nothing is listed.
    Nothing,
    /// The first value lies between from and to; it is no crossing.
    FirstValue,
    /// There is a crossing at `from`.
    AtFrom,
    /// There is one at `to`.
    AtTo,
    /// There is one, and from and to are one minute.
    OneMinute,
    /// There is one before `from`, or after `to`.
    Outside,
    /// Without the values before `from` the list is another.
    BeforeFrom,
    /// A stamp is listed twice.
    Twice,
    /// With one value for each minute, its last, the list is another.
    WithinMinute,
    /// There are as many crossings as places, and at least one.
    ExactFit,
    /// There is one crossing more than places.
    OneTooMany,
    /// The crossings outnumber the places by more.
    ManyTooMany,
    /// If every setting of one transaction counted, the list would be another.
    Replaced,
    /// If aborted settings counted, it would.
    Aborted,
    /// If those of open transactions counted, it would.
    Pending,
    /// If values equal to the mark lay below it, it would.
    MarkReached,
    /// If numbers had no sign, it would.
    Signed,
    /// If the settings of every column counted, it would.
    OtherColumn,
    /// If the values ran in the order of begins, it would.
    BeginOrder,
    /// If the inserted value counted besides the inserter's own setting, it would.
    InserterSets,
    /// If the inserted value did not count, it would.
    Inserted,
    /// The same, and the original that holds it is an aborted transaction's.
    OriginalOfAborted,
    /// If the settings that the current page holds did not count, it would.
    Merged,
    /// There is a crossing, and the row has ended.
    Ended,
    /// There is one at the commit that ended the row.
    SetAndEnded,
    /// The row's inserter is open or aborted, and has set the column to another side.
    Uncommitted,
    /// From exceeds to.
    FromAfterTo,
    /// To is later than the last commit, and from is not later than to.
    ToLater,
}

use InCrossings::*;

impl InCrossings {
    pub const ALL: [InCrossings; 28] = [
        Nothing,
        FirstValue,
        AtFrom,
        AtTo,
        OneMinute,
        Outside,
        BeforeFrom,
        Twice,
        WithinMinute,
        ExactFit,
        OneTooMany,
        ManyTooMany,
        Replaced,
        Aborted,
        Pending,
        MarkReached,
        Signed,
        OtherColumn,
        BeginOrder,
        InserterSets,
        Inserted,
        OriginalOfAborted,
        Merged,
        Ended,
        SetAndEnded,
        Uncommitted,
        FromAfterTo,
        ToLater,
    ];

    pub fn name(self) -> &'static str {
        match self {
            Nothing => "none listed",
            FirstValue => "first value in the minutes",
            AtFrom => "crossing at from",
            AtTo => "crossing at to",
            OneMinute => "crossing, from equals to",
            Outside => "crossing outside the minutes",
            BeforeFrom => "value before from",
            Twice => "stamp listed twice",
            WithinMinute => "crossing within a minute",
            ExactFit => "as many as places",
            OneTooMany => "one more than places",
            ManyTooMany => "many more than places",
            Replaced => "replaced setting",
            Aborted => "aborted setting",
            Pending => "pending setting",
            MarkReached => "value equal to the mark",
            Signed => "numbers with a sign",
            OtherColumn => "another column's setting",
            BeginOrder => "commits not as begun",
            InserterSets => "set by the inserter",
            Inserted => "inserted value before",
            OriginalOfAborted => "original of an aborted update",
            Merged => "merged setting",
            Ended => "crossing of an ended row",
            SetAndEnded => "set and ended by one commit",
            Uncommitted => "insert not committed",
            FromAfterTo => "no 13, from after to",
            ToLater => "no 13, to after the last",
        }
    }
}

/// A value that a row and column was inserted with or set to, in the order of calls.
#[derive(Clone, Copy)]
struct Change {
    by: u32,
    value: i32,
    /// The number of the tail record, 0 for the insert.
    record: usize,
}

/// The last change of each transaction.
fn last_of_each(changes: &[Change]) -> Vec<Change> {
    let replaced = |place: usize| changes[place + 1..].iter().any(|c| c.by == changes[place].by);
    (0..changes.len()).filter(|place| !replaced(*place)).map(|place| changes[place]).collect()
}

impl History {
    /// The situations of a call, if it is one for crossings and its row and column are there.
    pub fn in_crossings(&self, call: &Call) -> Vec<InCrossings> {
        let Call::Crossings { row, column, mark, from, to, places } = *call else {
            return Vec::new();
        };
        match self.refusal(call) {
            Some(13) => return vec![if from > to { FromAfterTo } else { ToLater }],
            None | Some(21) => {}
            Some(_) => return Vec::new(),
        }
        let upper = |value: i32| value >= mark;
        let values = self.given(row, column);
        let right = listed(&values, upper, from, to);
        let (count, places) = (right.len(), places as usize);
        let differs = |wrong: Vec<Given>| listed(&wrong, upper, from, to) != right;

        // Changes as values in the order of their tail records: all, committed ones, and these without
        // some.
        let changes = self.changes(row, column, |record| record.setting(column));
        let (insert, settings) = (changes[0], &changes[1..]);
        let inserter_sets = settings.iter().any(|change| change.by == insert.by);
        let values_of = |changes: &[Change], counts: &dyn Fn(State) -> bool| -> Vec<Given> {
            let counted = changes.iter().filter(|change| counts(self.state(change.by)));
            counted.map(|change| self.as_given(change)).collect()
        };
        let committed =
            |changes: &[Change]| values_of(changes, &|state| matches!(state, State::Committed(_)));
        let without = |left_out: &dyn Fn(&Change) -> bool| {
            let kept: Vec<Change> = changes.iter().filter(|c| !left_out(c)).copied().collect();
            committed(&last_of_each(&kept))
        };
        let last = last_of_each(&changes);

        let insert_counts = || differs(committed(&last_of_each(settings)));
        let merged = self.merged_through(row / RANGE_ROWS, column) as usize;
        let ended_by = self.ended_by(row);
        let holds = |situation: &InCrossings| match situation {
            Nothing => count == 0,
            FirstValue => values.first().is_some_and(|first| (from..=to).contains(&first.stamp)),
            AtFrom => right.first() == Some(&from),
            AtTo => right.last() == Some(&to),
            OneMinute => from == to && count > 0,
            Outside => listed(&values, upper, 0, u32::MAX).len() > count,
            BeforeFrom => differs(values.iter().filter(|g| g.stamp >= from).copied().collect()),
            Twice => right.windows(2).any(|pair| pair[0] == pair[1]),
            WithinMinute => {
                let minute = |place: usize| values.get(place).map(|given| given.stamp);
                let closes = |place: &usize| minute(*place) != minute(place + 1);
                differs((0..values.len()).filter(closes).map(|place| values[place]).collect())
            }
            ExactFit => count == places && count > 0,
            OneTooMany => count == places + 1,
            ManyTooMany => count > places + 1,
            Replaced => differs(committed(if inserter_sets { settings } else { &changes })),
            Aborted => differs(values_of(&last, &|state| state != State::Open)),
            Pending => differs(values_of(&last, &|state| state != State::Aborted)),
            MarkReached => listed(&values, |value| value > mark, from, to) != right,
            Signed => listed(&values, |value| value as u32 >= mark as u32, from, to) != right,
            OtherColumn => {
                let columns = || 0..self.shape.columns;
                let any = |record: &Record| columns().find_map(|other| record.setting(other));
                let all = |record: &Record| record.setting(column).or_else(|| any(record));
                differs(committed(&last_of_each(&self.changes(row, column, all))))
            }
            BeginOrder => {
                let mut begun = last.clone();
                begun.sort_by_key(|change| change.by);
                differs(committed(&begun))
            }
            InserterSets => {
                let mut both = last_of_each(settings);
                both.insert(0, insert);
                differs(committed(&both))
            }
            Inserted => insert_counts(),
            OriginalOfAborted => insert_counts() && self.original_aborted(row, column),
            Merged => differs(without(&|change| (1..=merged).contains(&change.record))),
            Ended => ended_by.is_some() && count > 0,
            SetAndEnded => ended_by.is_some_and(|by| differs(without(&|change| change.by == by))),
            Uncommitted => {
                let crosses = |change: &Change| upper(change.value) != upper(insert.value);
                !self.committed(insert.by) && settings.iter().any(crosses)
            }
            FromAfterTo | ToLater => false,
        };
        InCrossings::ALL.into_iter().filter(holds).collect()
    }

    /// What a row and column was inserted with, and what its tail records set it to.
    fn changes(
        &self,
        row: u32,
        column: u32,
        setting: impl Fn(&Record) -> Option<i32>,
    ) -> Vec<Change> {
        let Row { inserter, ref values } = self.rows[row as usize];
        let mut changes = vec![Change { by: inserter, value: values[column as usize], record: 0 }];
        let tail = &self.tails[(row / RANGE_ROWS) as usize];
        for (number, record) in (1..).zip(tail).filter(|(_, record)| record.row == row) {
            if let Some(value) = setting(record) {
                changes.push(Change { by: record.transaction, value, record: number });
            }
        }
        changes
    }

    /// A change as a value. What is not committed has no stamp; a store's word for it is 0.
    fn as_given(&self, change: &Change) -> Given {
        let stamp = self.commit_of(change.by).map_or(0, |commit| commit.stamp);
        Given { stamp, value: change.value }
    }

    /// The transaction whose commit ended a row.
    fn ended_by(&self, row: u32) -> Option<u32> {
        let ends = |r: &&Record| r.holds == Holds::Delete && self.committed(r.transaction);
        self.records_of(row).find(ends).map(|record| record.transaction)
    }

    /// Whether the original of a row and column is in an aborted transaction's record.
    fn original_aborted(&self, row: u32, column: u32) -> bool {
        self.records_of(row).any(|record| match &record.holds {
            Holds::Original(values) => {
                let aborted = self.state(record.transaction) == State::Aborted;
                aborted && values[column as usize].is_some()
            }
            Holds::Setting(_) | Holds::Delete => false,
        })
    }
}
