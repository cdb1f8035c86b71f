//! The plain version history of document 01 ("The plain history, call by call"): its lists, what an
//! accepted call does to them, and the reads, which give the stamps of document 02's Item 1 too. At
//! most five scans are open, as Item 2 has it. Several commits may have one stamp, as Item 3 has it:
//! an ordinal tells them apart, and a scan knows how many were made before it. The crossings of a level
//! are Item 4's, the keepers of transactions Item 6's. By Item 7 a move of the memory alters nothing here.
//! The tests of each call are in `refusals`; `situations`, `minutes`, `crossings` and `keepers` look at
//! calls for the survey.

mod crossings;
mod keepers;
mod minutes;
mod refusals;
mod situations;

use std::collections::BTreeMap;
use std::iter;

use crate::call::{Answer, Call, Shape, RANGE_ROWS};

pub use self::crossings::InCrossings;
pub use self::keepers::InKeepers;
pub use self::minutes::InMinute;
pub use self::situations::Situation;

/// "At most 8 transactions [..] are open."
pub const OPEN_TRANSACTIONS: usize = 8;
/// The same sentence has "16 scans"; document 02, Item 2: "Make five the limit in place of sixteen;
/// a sixth is answered 14." The transactions stay.
pub const OPEN_SCANS: usize = 5;
/// "Transaction numbers run 1 to 65,535, scan numbers likewise in a series of their own."
pub const NUMBERS: usize = 65_535;
/// Document 02, Item 6: "01 begins with keeper 0, unknown."
pub const UNKNOWN_KEEPER: u16 = 0;

/// "rows with inserter and values"
#[derive(Clone, Debug, PartialEq)]
struct Row {
    inserter: u32,
    values: Vec<i32>,
}

/// "each range's tail records in order, with transaction, row and what they hold"
#[derive(Clone, Debug, PartialEq)]
struct Record {
    transaction: u32,
    row: u32,
    holds: Holds,
}

/// What a tail record holds; of each column a value, or none where the record leaves it out.
#[derive(Clone, Debug, PartialEq)]
enum Holds {
    /// "holding the original values [..] and is no setting"
    Original(Vec<Option<i32>>),
    Setting(Vec<Option<i32>>),
    Delete,
}

/// "transactions, open, aborted or committed with a stamp"; document 02, Item 6: begun "with a
/// keeper". An inserted value or a setting has its transaction's, so no other list keeps any; an original
/// is an inserted value.
#[derive(Clone, Copy, Debug, PartialEq)]
struct Transaction {
    keeper: u16,
    state: State,
}

#[derive(Clone, Copy, Debug, PartialEq)]
enum State {
    Open,
    Aborted,
    Committed(Commit),
}

/// A commit. Its ordinal is the count of commits made up to and with it. Document 02, Item 3:
/// "Within one minute the history runs in order of commit", so of commits with one stamp the ordinal
/// says which is the newer.
#[derive(Clone, Copy, Debug, PartialEq)]
struct Commit {
    stamp: u32,
    ordinal: u32,
}

/// "scans, open or closed, with stamp and merges made before"; Item 3: "its place in the list gains
/// the count of all commits made before it". A scan is open while its number is among the open ones.
#[derive(Clone, Copy, Debug, PartialEq)]
struct Scan {
    stamp: u32,
    merges_before: usize,
    commits_before: u32,
}

/// "merges with range, column and n, waiting or freed"
#[derive(Clone, Copy, Debug, PartialEq)]
struct Merge {
    range: u32,
    column: u32,
    through: u32,
    waiting: bool,
}

/// The lists. Numbers count from 1, so number n is element n - 1; rows count from 0.
#[derive(Clone, Debug, PartialEq)]
pub struct History {
    shape: Shape,
    rows: Vec<Row>,
    tails: Vec<Vec<Record>>,
    transactions: Vec<Transaction>,
    scans: Vec<Scan>,
    merges: Vec<Merge>,
    /// The stamps of the commits made, in order: that of ordinal n is element n - 1.
    commits: Vec<u32>,
    /// The numbers of the open transactions and scans, so that they are found without going
    /// through the whole lists.
    open_transactions: Vec<u32>,
    open_scans: Vec<u32>,
}

/// Which commits a reader sees: those up to a stamp, of the first so many that were made.
#[derive(Clone, Copy, Debug, PartialEq)]
struct View {
    stamp: u32,
    commits: u32,
}

impl View {
    fn sees(&self, commit: &Commit) -> bool {
        commit.stamp <= self.stamp && commit.ordinal <= self.commits
    }
}

/// A value that a commit gave a row and column, with the commit's stamp.
#[derive(Clone, Copy, Debug, PartialEq, Eq)]
pub struct Given {
    pub stamp: u32,
    pub value: i32,
}

/// A value of a row and column, and the transaction that set it: that of the setting, or the row's
/// inserter where the value is the inserted one. An original's transaction set nothing.
#[derive(Clone, Copy, Debug, PartialEq)]
struct Version {
    value: i32,
    setter: u32,
}

impl Record {
    /// The value to which this record sets a column, if it does.
    fn setting(&self, column: u32) -> Option<i32> {
        match &self.holds {
            Holds::Setting(values) => values[column as usize],
            Holds::Original(_) | Holds::Delete => None,
        }
    }
}

impl History {
    /// "All start empty, the last commit's stamp at 0." The shape must be within the limits.
    pub fn new(shape: Shape) -> History {
        assert!(shape.within_limits(), "shape outside the limits: {shape:?}");
        History {
            shape,
            rows: Vec::new(),
            tails: vec![Vec::new(); shape.ranges as usize],
            transactions: Vec::new(),
            scans: Vec::new(),
            merges: Vec::new(),
            commits: Vec::new(),
            open_transactions: Vec::new(),
            open_scans: Vec::new(),
        }
    }

    /// "A call runs its tests below, all but 2, on the shape and these lists; refused, it answers
    /// the number and alters none."
    pub fn call(&mut self, call: &Call) -> Answer {
        match self.tests(call) {
            Err(number) => Answer::Refused(number),
            Ok(()) => self.perform(call),
        }
    }

    /// The number with which the call would be refused now.
    pub fn refusal(&self, call: &Call) -> Option<u8> {
        self.tests(call).err()
    }

    // What the generator and the tests may look at.

    pub fn shape(&self) -> Shape {
        self.shape
    }

    pub fn rows_given(&self) -> u32 {
        self.rows.len() as u32
    }

    /// "0 in a new store"
    pub fn last_stamp(&self) -> u32 {
        self.commits.last().copied().unwrap_or(0)
    }

    pub fn commits_made(&self) -> u32 {
        self.commits.len() as u32
    }

    pub fn open_transactions(&self) -> &[u32] {
        &self.open_transactions
    }

    pub fn open_scans(&self) -> &[u32] {
        &self.open_scans
    }

    /// The stamp of a scan that was opened.
    pub fn scan_stamp(&self, scan: u32) -> u32 {
        self.scans[scan as usize - 1].stamp
    }

    /// Whether a latest read of the row gives a value.
    pub fn is_there(&self, row: u32) -> bool {
        self.latest(row, 0).is_some()
    }

    /// Whether a scan that was opened sees the row.
    pub fn sees(&self, scan: u32, row: u32) -> bool {
        self.version_in(self.view_of_scan(scan), row, 0).is_some()
    }

    /// The tail records used in a range.
    pub fn used(&self, range: u32) -> u32 {
        self.tails[range as usize].len() as u32
    }

    /// "Lineage is the n of the last merge there, else 0"
    pub fn merged_through(&self, range: u32, column: u32) -> u32 {
        merged_through(&self.merges, range, column)
    }

    // The accepted calls.

    /// What an accepted call does to the lists, and its answer.
    fn perform(&mut self, call: &Call) -> Answer {
        match *call {
            // "begin, insert and open scan add one and answer its number"
            Call::Begin => self.begin(UNKNOWN_KEEPER),
            Call::BeginAs { keeper } => self.begin(keeper),
            Call::Insert { transaction, ref values } => {
                // "An insert gives the next row number."
                let number = self.rows_given();
                let all = 0..self.shape.columns;
                self.rows.push(Row {
                    inserter: transaction,
                    values: all.map(|column| value_of(values, column)).collect(),
                });
                Answer::Number(number)
            }
            Call::OpenScan { stamp } => {
                self.scans.push(Scan {
                    stamp,
                    merges_before: self.merges.len(),
                    commits_before: self.commits_made(),
                });
                let number = self.scans.len() as u32;
                self.open_scans.push(number);
                Answer::Number(number)
            }
            // "Update and delete add their records and answer the last one's number."
            Call::Update { transaction, row, mask, ref values } => {
                // "It takes one more before it, holding the original values [..]. That record
                // holds the inserted values of those columns, belongs to the update's transaction
                // and is no setting."
                let unset = self.unset_columns(row, mask);
                if !unset.is_empty() {
                    let inserted = &self.rows[row as usize].values;
                    let original = self.columns(|column| {
                        let first = unset.contains(&column);
                        first.then(|| inserted[column as usize])
                    });
                    self.append(transaction, row, Holds::Original(original));
                }
                // "An update names its columns by a 16-bit mask, bit k for column k. It takes one
                // tail record."
                let setting =
                    self.columns(|column| names(mask, column).then(|| value_of(values, column)));
                self.append(transaction, row, Holds::Setting(setting))
            }
            // "A delete takes one."
            Call::Delete { transaction, row } => self.append(transaction, row, Holds::Delete),
            // "Commit, abort and close mark theirs and answer no field."
            Call::Commit { transaction, stamp } => {
                self.commits.push(stamp);
                let commit = Commit { stamp, ordinal: self.commits_made() };
                self.end_transaction(transaction, State::Committed(commit))
            }
            Call::Abort { transaction } => self.end_transaction(transaction, State::Aborted),
            Call::Close { scan } => {
                self.open_scans.retain(|open| *open != scan);
                Answer::Done
            }
            // "A merge is added, waiting, and answers no field."
            Call::Merge { range, column, through } => {
                self.merges.push(Merge { range, column, through, waiting: true });
                Answer::Done
            }
            Call::Release => Answer::Number(self.release()),
            // "Reads follow the rules above and alter nothing"
            Call::Latest { row, column } => self.read(self.latest(row, column)),
            Call::ReadAt { stamp, row, column } => {
                self.read(self.version_in(self.view_at(stamp), row, column))
            }
            Call::OwnRead { transaction, row, column } => {
                self.read(self.own_version(transaction, row, column))
            }
            Call::ScanRead { scan, row, column } => {
                self.read(self.version_in(self.view_of_scan(scan), row, column))
            }
            Call::KeeperAt { stamp, row, column } => {
                self.keeper(self.version_in(self.view_at(stamp), row, column))
            }
            Call::Sum { scan, column } => self.sum(scan, column),
            Call::PageCell { column, row } => Answer::Value(self.page_cell(column, row)),
            // "Lineage is the n of the last merge there, else 0, and the records used."
            Call::Lineage { range, column } => Answer::Lineage {
                through: self.merged_through(range, column),
                used: self.used(range),
            },
            Call::Crossings { row, column, mark, from, to, .. } => {
                Answer::Crossings(self.crossings(row, column, mark, from, to))
            }
            // Document 02, Item 7: "a call with no answer named answers no field. In the plain history a
            // move alters nothing."
            Call::Upgrade | Call::Downgrade => Answer::Done,
        }
    }

    fn begin(&mut self, keeper: u16) -> Answer {
        self.transactions.push(Transaction { keeper, state: State::Open });
        let number = self.transactions.len() as u32;
        self.open_transactions.push(number);
        Answer::Number(number)
    }

    fn end_transaction(&mut self, transaction: u32, state: State) -> Answer {
        self.transactions[transaction as usize - 1].state = state;
        self.open_transactions.retain(|open| *open != transaction);
        Answer::Done
    }

    /// Adds a tail record. "Tail records count from 1 in each range."
    fn append(&mut self, transaction: u32, row: u32, holds: Holds) -> Answer {
        let tail = &mut self.tails[(row / RANGE_ROWS) as usize];
        tail.push(Record { transaction, row, holds });
        Answer::Number(tail.len() as u32)
    }

    /// "Release frees each waiting merge, unless an open scan was opened before it, and answers
    /// how many it freed."
    fn release(&mut self) -> u32 {
        let mut freed = 0;
        for (earlier, merge) in self.merges.iter_mut().enumerate() {
            // This merge was made after `earlier` others; a scan with no more than these before
            // it was opened before this merge.
            let opened_before =
                |scan: &u32| self.scans[*scan as usize - 1].merges_before <= earlier;
            if merge.waiting && !self.open_scans.iter().any(opened_before) {
                merge.waiting = false;
                freed += 1;
            }
        }
        freed
    }

    // Reading the lists.

    fn state(&self, transaction: u32) -> State {
        self.transactions[transaction as usize - 1].state
    }

    fn keeper_of(&self, transaction: u32) -> u16 {
        self.transactions[transaction as usize - 1].keeper
    }

    /// Document 02, Item 7: "a row, a tail record or an open transaction bears a keeper other than 0". By
    /// Item 6 "Base rows and tail records carry their transaction's keeper", whatever became of the
    /// transaction, "original values carry the inserter"; an update leaves a setting beside the original.
    fn bears_keeper(&self) -> bool {
        let borne = |transaction: u32| self.keeper_of(transaction) != UNKNOWN_KEEPER;
        let of_record = |record: &Record| match record.holds {
            Holds::Original(_) => borne(self.rows[record.row as usize].inserter),
            Holds::Setting(_) | Holds::Delete => borne(record.transaction),
        };
        self.rows.iter().any(|row| borne(row.inserter))
            || self.tails.iter().flatten().any(of_record)
            || self.open_transactions.iter().any(|open| borne(*open))
    }

    /// The tail records of a row, in order.
    fn records_of(&self, row: u32) -> impl Iterator<Item = &Record> {
        self.tails[(row / RANGE_ROWS) as usize].iter().filter(move |record| record.row == row)
    }

    /// One entry for each column of the shape.
    fn columns(&self, entry: impl Fn(u32) -> Option<i32>) -> Vec<Option<i32>> {
        (0..self.shape.columns).map(entry).collect()
    }

    /// The columns of a mask "that no earlier accepted update of that row has set, aborted ones
    /// included".
    fn unset_columns(&self, row: u32, mask: u16) -> Vec<u32> {
        let set = |column: u32| self.records_of(row).any(|record| record.setting(column).is_some());
        (0..self.shape.columns).filter(|column| names(mask, *column) && !set(*column)).collect()
    }

    /// The version of a row and column for a reader to whom the changes of some transactions count.
    /// An open transaction holds the rows it changed, so the records of one row stand in the order
    /// of their commits, within one minute too, with those of an open transaction after them: the
    /// last record that counts holds the last value, and an end comes after every value.
    fn version(&self, row: u32, column: u32, counts: impl Fn(u32) -> bool) -> Option<Version> {
        let Row { inserter, ref values } = self.rows[row as usize];
        if !counts(inserter) {
            return None;
        }
        let mut version = Version { value: values[column as usize], setter: inserter };
        for record in self.records_of(row).filter(|record| counts(record.transaction)) {
            if record.holds == Holds::Delete {
                return None;
            }
            if let Some(value) = record.setting(column) {
                version = Version { value, setter: record.transaction };
            }
        }
        Some(version)
    }

    /// The version of a row and column among the commits of a view.
    fn version_in(&self, view: View, row: u32, column: u32) -> Option<Version> {
        self.version(row, column, |transaction| self.seen(view, transaction))
    }

    /// Whether a transaction is committed, and its commit is in a view.
    fn seen(&self, view: View, transaction: u32) -> bool {
        self.commit_of(transaction).is_some_and(|commit| view.sees(&commit))
    }

    /// "A read at stamp t gives the last such value at or before t, or "none" if the row was not
    /// inserted by t or ended by t." Item 3: "a read at that minute gives the newest", so all
    /// commits made so far are seen.
    fn view_at(&self, stamp: u32) -> View {
        View { stamp, commits: self.commits_made() }
    }

    /// "The latest is the read at the last commit's stamp, 0 in a new store."
    fn view_of_latest(&self) -> View {
        self.view_at(self.last_stamp())
    }

    /// "A scan keeps the stamp it was opened with." Item 3: "A scan [..] sees of the commits up to
    /// its stamp those made before its opening and no more".
    fn view_of_scan(&self, scan: u32) -> View {
        let Scan { stamp, commits_before, .. } = self.scans[scan as usize - 1];
        View { stamp, commits: commits_before }
    }

    fn latest(&self, row: u32, column: u32) -> Option<Version> {
        self.version_in(self.view_of_latest(), row, column)
    }

    /// "A transaction's own read sees its pending changes above the latest."
    fn own_version(&self, own: u32, row: u32, column: u32) -> Option<Version> {
        self.version(row, column, |transaction| transaction == own || self.committed(transaction))
    }

    /// What a single-cell read answers. Document 02, Item 1: "Every single-cell read that gives a
    /// value (07, 08, 09, 0B) must also give the stamp of the commit that set that column in that
    /// row, the insert included; a pending value of one's own gives 0."
    fn read(&self, version: Option<Version>) -> Answer {
        let Some(Version { value, setter }) = version else { return Answer::None };
        let stamp = match self.state(setter) {
            State::Committed(commit) => commit.stamp,
            // Nobody but the transaction itself reads what it has not committed.
            State::Open => 0,
            State::Aborted => unreachable!("no reader counts an aborted change"),
        };
        Answer::Version { value, stamp }
    }

    /// Document 02, Item 6: "it answers the keeper of the value that 08 would show, or none"; "original
    /// values carry the inserter", whose keeper the inserted value has.
    fn keeper(&self, version: Option<Version>) -> Answer {
        let Some(Version { setter, .. }) = version else { return Answer::None };
        Answer::Number(self.keeper_of(setter).into())
    }

    /// "Its sum gives the count of rows seen and the 64-bit signed sum of one column": "a sum
    /// takes the rows whose scan read gives a value".
    fn sum(&self, scan: u32, column: u32) -> Answer {
        let mut count = 0;
        let mut sum = 0;
        for row in 0..self.rows_given() {
            if let Some(version) = self.version_in(self.view_of_scan(scan), row, column) {
                count += 1;
                sum += i64::from(version.value);
            }
        }
        Answer::Sum { count, sum }
    }

    /// "A page cell is the last committed setting of its row and column among the records up to
    /// that n, else the inserted value."
    fn page_cell(&self, column: u32, row: u32) -> i32 {
        let range = row / RANGE_ROWS;
        let through = self.merged_through(range, column) as usize;
        self.tails[range as usize][..through]
            .iter()
            .rev()
            .filter(|record| record.row == row && self.committed(record.transaction))
            .find_map(|record| record.setting(column))
            .unwrap_or(self.rows[row as usize].values[column as usize])
    }

    /// The values that commits gave a row and column, in the order of commits; both must be there. "each
    /// row it inserted gets a value in all columns at s, and each column it set gets its last value at s.
    /// [..] A column that its row's inserter also set gets one value, the last." So a commit gives one at
    /// most. A row inserted and deleted in one transaction has none by these words, and here one, which
    /// nothing shows: no other commit changes that row, and a first value is no crossing.
    pub fn given(&self, row: u32, column: u32) -> Vec<Given> {
        let Row { inserter, ref values } = self.rows[row as usize];
        let set = self.records_of(row);
        let set = set.filter_map(|record| Some((record.transaction, record.setting(column)?)));
        let mut by_commit = BTreeMap::new();
        for (setter, value) in iter::once((inserter, values[column as usize])).chain(set) {
            if let Some(Commit { stamp, ordinal }) = self.commit_of(setter) {
                by_commit.insert(ordinal, Given { stamp, value });
            }
        }
        by_commit.into_values().collect()
    }

    /// Document 02, Item 4: "It lists, oldest first, the stamps between from and to, both counted, at
    /// which a committed value lies on the other side of the mark from the one before it in that row and
    /// column; a minute with two crossings stands twice. [..] A first value is no crossing." The one
    /// before it may lie before `from`. Row and column must be there.
    pub fn crossings(&self, row: u32, column: u32, mark: i32, from: u32, to: u32) -> Vec<u32> {
        listed(&self.given(row, column), |value| value >= mark, from, to)
    }

    fn committed(&self, transaction: u32) -> bool {
        self.commit_of(transaction).is_some()
    }

    /// A transaction's commit, if it has been made.
    fn commit_of(&self, transaction: u32) -> Option<Commit> {
        match self.state(transaction) {
            State::Committed(commit) => Some(commit),
            State::Open | State::Aborted => None,
        }
    }
}

/// The stamps between `from` and `to` of the values that lie on another side than the one before them:
/// "At or above is one side, below the other", which `upper` says.
fn listed(values: &[Given], upper: impl Fn(i32) -> bool, from: u32, to: u32) -> Vec<u32> {
    let crosses = |pair: &&[Given]| upper(pair[0].value) != upper(pair[1].value);
    let stamps = values.windows(2).filter(crosses).map(|pair| pair[1].stamp);
    stamps.filter(|stamp| (from..=to).contains(stamp)).collect()
}

/// The n of the last of these merges there, else 0.
fn merged_through(merges: &[Merge], range: u32, column: u32) -> u32 {
    let there = |merge: &&Merge| merge.range == range && merge.column == column;
    merges.iter().rev().find(there).map_or(0, |merge| merge.through)
}

/// "bit k for column k"
fn names(mask: u16, column: u32) -> bool {
    mask & (1 << column) != 0
}

/// A caller's value for a column, 0 where the list is too short.
fn value_of(values: &[i32], column: u32) -> i32 {
    values.get(column as usize).copied().unwrap_or(0)
}
