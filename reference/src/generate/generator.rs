//! Chooses random calls one after another. Each is also made on a plain history of the
//! generator's own, so that most numbers can be chosen to be accepted.

use super::workload::Workload;
use crate::call::{Answer, Call, Form, Shape, RANGE_ROWS};
use crate::history::{Given, History, InKeepers, OPEN_SCANS, UNKNOWN_KEEPER};
use crate::program::LENT_STAMPS;
use crate::random::Random;

/// Which numbers a list's calls may have.
#[derive(Clone, Copy, Debug, PartialEq, Eq)]
pub enum Numbers {
    /// Those of gatebook's commands, and as many places for stamps as it lends. No moves, which are no
    /// commands.
    Commands,
    /// Those that fit the command bytes, and any number of places.
    Narrow,
    /// Some that are wider too.
    Wide,
}

/// A generator of calls; each is also made on its history.
pub struct Generator {
    pub random: Random,
    workload: &'static Workload,
    history: History,
    /// The rows still to be inserted early.
    early_rows: u32,
    /// Rows changed by open transactions, and the stamps of commits, each once.
    changed: Vec<(u32, u32)>,
    stamps: Vec<u32>,
    /// Rows that were deleted; where the delete was aborted, they are there still.
    deleted: Vec<u32>,
    /// Rows that updates changed, with their masks, whatever became of the transactions.
    updated: Vec<(u32, u16)>,
    /// Open scans with the rows that a commit of their minute changed after their opening.
    left_out: Vec<(u32, u32)>,
    /// Whether the places for scans are kept filled.
    fills_scans: bool,
    numbers: Numbers,
    /// The form of the memory that the next call is lent.
    form: Form,
    /// Transactions begun with a keeper that is 0, in percent, so that a way back is open.
    unknown: u32,
    /// Whether a way back is refused, and whether this has changed by the last call or that was a move.
    refused_back: bool,
    turned: bool,
}

/// Calls chosen without regard to a refusal, in percent of all; the others are tried again.
const UNTRIED: u32 = 50;
/// Calls tried before one that is refused is taken after all.
const TRIES: u32 = 12;
/// Operands chosen to be refused, in percent, where an open one could be had.
const STRAY: u32 = 5;
/// Lists in which the places for scans are kept filled, in percent, and calls on a scan that become
/// an opening there while a place is free. In the other lists all places are seldom taken.
const FILLS_SCANS: u32 = 50;
const OPENS_ANOTHER: u32 = 50;
/// Openings that become a close where all places are taken, in percent. If none did, the same
/// scans would stay open and most openings would be answered 14.
const MAKES_PLACE: u32 = 60;

/// Commits with an earlier stamp than the last commit's, in percent, those with its stamp again, and
/// the latter while a scan is open at that stamp, which leaves such a commit out.
const EARLIER: u32 = 8;
const AGAIN: u32 = 35;
const AGAIN_AFTER_OPENING: u32 = 60;
/// Scan reads and sums, in percent, of what a scan leaves out, where there is anything, and those of
/// them of an end, where there is one.
const OF_LEFT_OUT: u32 = 30;
const OF_LEFT_OUT_END: u32 = 20;
/// Openings at the last commit's stamp, in percent, while a scan leaves a commit of it out.
const SECOND_SCAN: u32 = 25;

/// The level about which values swing, and the settings that change its side, in percent. Other values
/// lie below it about as often as above.
const LEVEL: i32 = 1000;
const SWING: u32 = 85;
/// The other settings of the value that the row has already, in percent.
const SAME: u32 = 8;
/// The records used before a row is deleted whose values swing.
const LATE: u32 = 40;
/// Calls for crossings or a keeper of a row that was deleted, in percent, where there is one.
const OF_DELETED: u32 = 15;
/// The other calls for a keeper, in percent, of a row that an update changed, where there is one, and
/// those of them of a column that the update set.
const OF_UPDATED: u32 = 75;
const OF_SET_COLUMN: u32 = 70;
/// A bound of the cells tried for one with several keepers.
const KEEPER_TRIES: u32 = 6;
/// Moves, in percent of the calls, and where the last call was a move or has changed whether the way back
/// is refused: there and back with no call between, and the way back just before a keeper is borne and just
/// after, and after the end of a transaction that alone bore one.
const MOVES: u32 = 3;
const MOVES_AT_A_TURN: u32 = 30;
/// Of the transactions begun with a keeper those whose keeper is 0, in percent, of which each list has one.
/// One keeper that a row or record bears closes the way back for good.
const UNKNOWN: [u32; 5] = [0, 0, 0, 92, 100];
/// Calls for crossings whose minutes are chosen to hold as many crossings as there are places, or one
/// more, in percent, where there are so many.
const FITTED: u32 = 40;

impl Generator {
    pub fn new(
        mut random: Random,
        workload: &'static Workload,
        shape: Shape,
        form: Form,
        count: usize,
        numbers: Numbers,
    ) -> Generator {
        let early_rows = (shape.rows() * workload.early_rows / 100).min(count as u32 / 2);
        let fills_scans = random.percent(FILLS_SCANS);
        let unknown = if numbers == Numbers::Commands { 0 } else { random.pick(&UNKNOWN) };
        Generator {
            random,
            workload,
            history: History::new(shape),
            early_rows,
            changed: Vec::new(),
            stamps: vec![0],
            deleted: Vec::new(),
            updated: Vec::new(),
            left_out: Vec::new(),
            fills_scans,
            numbers,
            form,
            unknown,
            refused_back: false,
            turned: false,
        }
    }

    pub fn take(&mut self, count: usize) -> Vec<Call> {
        (0..count).map(|_| self.next()).collect()
    }

    /// Chooses the next call and makes it on the history.
    fn next(&mut self) -> Call {
        let call = if self.moves() { self.move_on() } else { self.command_call() };
        let answer = self.history.call(&call);
        self.note(&call, &answer);
        call
    }

    /// Whether the next call is a move.
    fn moves(&mut self) -> bool {
        let share = if self.turned { MOVES_AT_A_TURN } else { MOVES };
        self.numbers != Numbers::Commands && self.random.percent(share)
    }

    /// The move that works on the form; the way back may be refused.
    fn move_on(&self) -> Call {
        match self.form {
            Form::First => Call::Upgrade,
            Form::Newest => Call::Downgrade,
        }
    }

    /// A call of some command, mostly one that is accepted.
    fn command_call(&mut self) -> Call {
        let tries = if self.random.percent(UNTRIED) { 1 } else { TRIES };
        let mut byte = self.command();
        let mut call = self.candidate(byte);
        for tried in 1..tries {
            if self.history.refusal(&call).is_none() {
                break;
            }
            // Other numbers first, then another call.
            if tried >= TRIES / 2 {
                byte = self.command();
            }
            call = self.candidate(byte);
        }
        call
    }

    /// Keeps what later choices look at.
    fn note(&mut self, call: &Call, answer: &Answer) {
        if self.numbers != Numbers::Commands {
            self.note_form(call, answer);
        }
        match (call, answer) {
            (_, Answer::Refused(_)) => {}
            (Call::Insert { transaction, .. }, Answer::Number(row)) => {
                self.changed.push((*transaction, *row));
                self.early_rows = self.early_rows.saturating_sub(1);
            }
            (Call::Update { transaction, row, mask, .. }, _) => {
                self.changed.push((*transaction, *row));
                self.updated.push((*row, *mask));
            }
            (Call::Delete { transaction, row }, _) => {
                self.changed.push((*transaction, *row));
                self.deleted.push(*row);
            }
            (Call::Commit { transaction, stamp }, _) => {
                if self.stamps.last() != Some(stamp) {
                    self.stamps.push(*stamp);
                }
                for scan in self.scans_at(*stamp) {
                    let rows = self.changed.iter().filter(|(by, _)| by == transaction);
                    self.left_out.extend(rows.map(|(_, row)| (scan, *row)));
                }
                self.changed.retain(|(by, _)| by != transaction);
            }
            (Call::Close { scan }, _) => self.left_out.retain(|(by, _)| by != scan),
            (Call::Abort { transaction }, _) => self.changed.retain(|(by, _)| by != transaction),
            _ => {}
        }
    }

    /// Keeps the form, and whether a move is of interest next.
    fn note_form(&mut self, call: &Call, answer: &Answer) {
        let moved = call.moves_to().filter(|_| !answer.is_refused());
        self.form = moved.unwrap_or(self.form);
        let refused_back = self.history.refusal(&Call::Downgrade).is_some();
        self.turned = moved.is_some() || refused_back != self.refused_back;
        self.refused_back = refused_back;
    }

    /// A call of a command byte; it may well be refused.
    pub fn candidate(&mut self, byte: u8) -> Call {
        match byte {
            0x01 => Call::Begin,
            0x13 => Call::BeginAs { keeper: self.keeper() },
            0x02 => Call::Insert { transaction: self.transaction(), values: self.values() },
            0x03 => {
                let (transaction, row) = self.transaction_and_row();
                let row = if self.workload.swings { self.often_set(row, 0) } else { row };
                Call::Update { transaction, row, mask: self.mask(), values: self.settings(row) }
            }
            0x04 => {
                let (transaction, row) = self.transaction_and_row();
                Call::Delete { transaction, row }
            }
            0x05 => Call::Commit { transaction: self.transaction(), stamp: self.commit_stamp() },
            0x06 => Call::Abort { transaction: self.transaction() },
            0x07 => Call::Latest { row: self.row(), column: self.column() },
            0x08 => {
                Call::ReadAt { stamp: self.read_stamp(), row: self.row(), column: self.column() }
            }
            0x09 => {
                let (transaction, row) = self.transaction_and_row();
                Call::OwnRead { transaction, row, column: self.column() }
            }
            0x0A => Call::OpenScan { stamp: self.scan_stamp() },
            0x0B => {
                let (scan, row) = self.scan_and_row();
                Call::ScanRead { scan, row, column: self.column() }
            }
            0x0C => Call::Sum { scan: self.scan_and_row().0, column: self.column() },
            0x0D => Call::Close { scan: self.scan_to_close() },
            0x0E => self.merge(),
            0x0F => Call::Release,
            0x10 => Call::PageCell { column: self.column(), row: self.row() },
            0x11 => Call::Lineage { range: self.range(), column: self.column() },
            0x12 => self.crossings(),
            _ => self.keeper_at(),
        }
    }

    /// A command byte whose call works on the form: a begin without a keeper in place of one with a keeper
    /// where it does not, and a read in place of a call for a keeper.
    pub fn command(&mut self) -> u8 {
        match (self.any_command(), self.form) {
            (0x13, Form::First) => 0x01,
            (0x14, Form::First) => 0x08,
            (byte, _) => byte,
        }
    }

    /// A command byte by the workload's weights, or mostly an insert while early rows are missing.
    /// Where what it needs is missing, mostly the command that makes it comes first; where no place
    /// for a scan is free, a close often comes in place of an opening, and where one is, in a list
    /// that keeps them filled, an opening in place of a call on a scan.
    fn any_command(&mut self) -> u8 {
        let early = self.early_rows > 0 && self.random.percent(90);
        let byte = if early { 0x02 } else { self.weighted() };
        if self.random.percent(15) {
            return byte;
        }
        let needs_row =
            matches!(byte, 0x03 | 0x04 | 0x07..=0x09 | 0x0B | 0x0E | 0x10 | 0x12 | 0x14);
        let byte = if needs_row && self.history.rows_given() == 0 { 0x02 } else { byte };
        let scans = self.history.open_scans().len();
        match byte {
            0x02..=0x06 | 0x09 if self.history.open_transactions().is_empty() => self.begin(),
            // Commits of nothing, and early deletes, would leave few crossings.
            0x05 if self.workload.swings && self.changed.is_empty() => 0x03,
            0x04 if self.workload.swings && self.history.used(0) < LATE => 0x03,
            0x0A if scans == OPEN_SCANS && self.random.percent(MAKES_PLACE) => 0x0D,
            0x0B..=0x0D if scans == 0 || self.opens_another() => 0x0A,
            _ => byte,
        }
    }

    /// A command byte that begins a transaction, by the workload's weights of the two.
    fn begin(&mut self) -> u8 {
        let weight = |byte: u8| self.workload.weights[usize::from(byte) - 1];
        let (without, with) = (weight(0x01), weight(0x13));
        if self.random.below(without + with) < without {
            0x01
        } else {
            0x13
        }
    }

    /// Whether an opening comes in place of a call on a scan.
    fn opens_another(&mut self) -> bool {
        let free = self.history.open_scans().len() < OPEN_SCANS;
        self.fills_scans && free && self.random.percent(OPENS_ANOTHER)
    }

    fn weighted(&mut self) -> u8 {
        let mut place = self.random.below(self.workload.weights.iter().sum());
        for (byte, weight) in (1..).zip(self.workload.weights) {
            if place < weight {
                return byte;
            }
            place -= weight;
        }
        unreachable!("a place below the sum of the weights")
    }

    /// True now and then, for an operand that is to be refused.
    fn stray(&mut self) -> bool {
        self.random.percent(STRAY)
    }

    /// A number that is not open: 0, an old one, the next one, the greatest one.
    fn not_open(&mut self, open: &[u32]) -> u32 {
        let high = open.iter().max().map_or(1, |number| number + 1);
        let number = match self.random.below(4) {
            0 => 0,
            1 => self.random.below(high),
            2 => high,
            _ => 65_535,
        };
        self.widen(number)
    }

    /// Sometimes the same number with higher bits, where wide numbers may be chosen.
    fn widen(&mut self, number: u32) -> u32 {
        if self.numbers == Numbers::Wide && self.random.percent(50) {
            let low = number & 0xFF;
            self.random.pick(&[low | 0x1_0000, low | 0x8000_0000, u32::MAX])
        } else {
            number
        }
    }

    fn transaction(&mut self) -> u32 {
        let open = self.history.open_transactions().to_vec();
        if open.is_empty() || self.stray() {
            self.not_open(&open)
        } else {
            self.random.pick(&open)
        }
    }

    /// The open scans with a stamp.
    fn scans_at(&self, stamp: u32) -> Vec<u32> {
        let open = self.history.open_scans().iter().copied();
        open.filter(|scan| self.history.scan_stamp(*scan) == stamp).collect()
    }

    /// A scan and a row, often one that the scan leaves a change of out; mostly a setting or an end
    /// of a row that it sees, as there are more inserts.
    fn scan_and_row(&mut self) -> (u32, u32) {
        if self.left_out.is_empty() || !self.random.percent(OF_LEFT_OUT) {
            return (self.scan(), self.row());
        }
        let ended = self.left_out.iter().filter(|(_, row)| self.deleted.contains(row));
        let ended: Vec<(u32, u32)> = ended.copied().collect();
        if !ended.is_empty() && self.random.percent(OF_LEFT_OUT_END) {
            return self.random.pick(&ended);
        }
        let mut found = self.random.pick(&self.left_out);
        for _ in 0..self.random.below(4) {
            if self.history.sees(found.0, found.1) {
                break;
            }
            found = self.random.pick(&self.left_out);
        }
        found
    }

    fn scan(&mut self) -> u32 {
        let open = self.history.open_scans().to_vec();
        if open.is_empty() || self.stray() {
            self.not_open(&open)
        } else {
            self.random.pick(&open)
        }
    }

    /// Mostly an open scan, often the oldest, so that a release frees pages while later scans keep others.
    fn scan_to_close(&mut self) -> u32 {
        match self.history.open_scans().first() {
            Some(&oldest) if self.random.percent(50) => oldest,
            _ => self.scan(),
        }
    }

    /// A transaction and a row, often one that the transaction has changed already.
    fn transaction_and_row(&mut self) -> (u32, u32) {
        if !self.changed.is_empty() && self.random.percent(45) {
            self.random.pick(&self.changed)
        } else {
            (self.transaction(), self.row())
        }
    }

    /// A row, mostly one whose latest value is there.
    fn row(&mut self) -> u32 {
        let given = self.history.rows_given();
        if given == 0 || self.stray() {
            let row = self.random.pick(&[given, given + 1, given + RANGE_ROWS, 65_535]);
            return self.widen(row);
        }
        let mut row = self.any_row(given);
        for _ in 0..self.random.below(5) {
            if self.history.is_there(row) {
                break;
            }
            row = self.any_row(given);
        }
        row
    }

    /// A row below those given, often one of the first or of the newest, so that the same ones
    /// meet again.
    fn any_row(&mut self, given: u32) -> u32 {
        match self.random.below(4) {
            0 => self.random.below(given.min(3)),
            1 => given - 1 - self.random.below(given.min(3)),
            _ => self.random.below(given),
        }
    }

    fn column(&mut self) -> u32 {
        let columns = self.history.shape().columns;
        if self.stray() {
            let column = self.random.pick(&[columns, columns + 1, 16, 255]);
            self.widen(column)
        } else {
            self.random.below(columns)
        }
    }

    fn range(&mut self) -> u32 {
        let ranges = self.history.shape().ranges;
        if self.stray() {
            let range = self.random.pick(&[ranges, ranges + 1, 255]);
            self.widen(range)
        } else {
            // A range in which rows have been given, if there is one.
            let begun = self.history.rows_given().div_ceil(RANGE_ROWS).max(1);
            let among = if self.stray() { ranges } else { begun };
            self.random.below(among)
        }
    }

    fn mask(&mut self) -> u16 {
        let columns = self.history.shape().columns;
        let all = (1u32 << columns) - 1;
        let mask = match self.random.below(4) {
            0 => self.random.between(1, all),
            1 => all,
            _ => 1 << self.random.below(columns),
        };
        if self.stray() {
            // No bit, or a bit too high; with 16 columns no bit is too high.
            let high = (mask | 1 << columns) & 0xFFFF;
            return self.random.pick(&[0, high as u16, 0x8000]);
        }
        mask as u16
    }

    fn values(&mut self) -> Vec<i32> {
        (0..self.history.shape().columns).map(|_| self.value()).collect()
    }

    fn value(&mut self) -> i32 {
        match self.random.below(10) {
            0 => self.random.pick(&[i32::MIN, i32::MAX, -1, 0]),
            1 => self.random.word() as i32,
            2..=5 => self.random.below(101) as i32 - 50,
            _ => self.random.between(1000, 1300) as i32,
        }
    }

    /// The values of an update: any, now and then the one that the row has, so that only its stamp and
    /// keeper change; where they swing, mostly on the other side of the level than those that the row has.
    fn settings(&mut self, row: u32) -> Vec<i32> {
        let mut values = self.values();
        if row >= self.history.rows_given() {
            return values;
        }
        for (column, value) in (0..).zip(&mut values) {
            let given = self.history.given(row, column);
            let Some(last) = given.last() else { continue };
            if self.workload.swings && self.random.percent(SWING) {
                let distance = self.random.below(3) as i32;
                let above = last.value >= LEVEL;
                *value = if above { LEVEL - 1 - distance } else { LEVEL + distance };
            } else if self.random.percent(SAME) {
                *value = last.value;
            }
        }
        values
    }

    /// A stamp for a commit: often the last one's again, 0 in a new store, and now and then an
    /// earlier one.
    fn commit_stamp(&mut self) -> u32 {
        let last = self.history.last_stamp();
        if self.random.percent(EARLIER) {
            let stamp = self.random.pick(&self.stamps);
            return self.random.pick(&[stamp.saturating_sub(1), last.saturating_sub(1), 0]);
        }
        let again = if self.scans_at(last).is_empty() { AGAIN } else { AGAIN_AFTER_OPENING };
        if self.random.percent(again) {
            return last;
        }
        last.saturating_add(self.random.between(1, self.workload.step))
    }

    /// A stamp for a scan: while one leaves a commit of the last minute out, often that minute's,
    /// so that a second scan sees it.
    fn scan_stamp(&mut self) -> u32 {
        let last = self.history.last_stamp();
        let left_out = self.left_out.iter().any(|(scan, _)| self.history.scan_stamp(*scan) == last);
        if left_out && self.random.percent(SECOND_SCAN) {
            last
        } else {
            self.read_stamp()
        }
    }

    /// A stamp at or beside that of a commit.
    fn read_stamp(&mut self) -> u32 {
        let last = self.history.last_stamp();
        if self.stray() {
            return self.random.pick(&[last.saturating_add(1), u32::MAX]);
        }
        let newest = &self.stamps[self.stamps.len().saturating_sub(4)..];
        let stamp = match self.random.below(4) {
            0 => last,
            1 => self.random.pick(&self.stamps),
            _ => self.random.pick(newest),
        };
        match self.random.below(4) {
            0 => stamp.saturating_sub(1),
            1 => stamp.saturating_add(1).min(last),
            _ => stamp,
        }
    }

    /// Crossings of a cell that several commits have set, where there is one, with a mark at or beside one
    /// of its values, in minutes of every kind.
    fn crossings(&mut self) -> Call {
        let column = self.column();
        let row = if !self.deleted.is_empty() && self.random.percent(OF_DELETED) {
            self.random.pick(&self.deleted)
        } else {
            let row = self.row();
            self.often_set(row, column)
        };
        let is_there = row < self.history.rows_given() && column < self.history.shape().columns;
        let values = if is_there { self.history.given(row, column) } else { Vec::new() };
        let mark = self.mark(&values);
        let mut stamps = Vec::new();
        if is_there {
            stamps = self.history.crossings(row, column, mark, 0, u32::MAX);
        }
        let (from, to) = self.minutes(&stamps);
        stamps.retain(|stamp| (from..=to).contains(stamp));
        let places = match self.numbers {
            Numbers::Commands => LENT_STAMPS,
            Numbers::Narrow | Numbers::Wide => self.places(stamps.len() as u32),
        };
        Call::Crossings { row, column, mark, from, to, places }
    }

    /// A keeper: mostly one of three people who share a mill, so that the same ones meet again; often one
    /// that is another number with its bytes in the other order, or with the lower byte alone. In some lists
    /// nearly all or all are 0.
    fn keeper(&mut self) -> u16 {
        if self.unknown > 0 && self.random.percent(self.unknown) {
            return UNKNOWN_KEEPER;
        }
        match self.random.below(12) {
            0 => UNKNOWN_KEEPER,
            1 => u16::MAX,
            2 | 3 => 256 * self.random.between(1, 3) as u16,
            4 => self.random.pick(&[0x00FF, 0x0100, 0x0102, 0x0201, 0x7FFF, 0x8000, 0xFF00]),
            5 => self.random.word() as u16,
            _ => self.random.between(1, 3) as u16,
        }
    }

    /// The keeper of a cell: often one beside which another keeper could be taken for it, which is rare
    /// where few transactions set what others have inserted.
    fn keeper_at(&mut self) -> Call {
        use InKeepers::{Inserter, Latest, Original, OtherColumn};
        let mut call = self.keeper_of_any();
        for _ in 0..self.random.below(KEEPER_TRIES) {
            let found = self.history.in_keepers(&call);
            if found.iter().any(|one| matches!(one, Inserter | Latest | Original | OtherColumn)) {
                break;
            }
            call = self.keeper_of_any();
        }
        call
    }

    /// The keeper of a cell that an update has set, where there is one, committed or not, of another column
    /// beside it, or of a row that was deleted.
    fn keeper_of_any(&mut self) -> Call {
        let (mut row, mut column) = (self.row(), self.column());
        if !self.deleted.is_empty() && self.random.percent(OF_DELETED) {
            row = self.random.pick(&self.deleted);
        } else if !self.updated.is_empty() && self.random.percent(OF_UPDATED) {
            let (updated, mask) = self.random.pick(&self.updated);
            row = updated;
            if self.random.percent(OF_SET_COLUMN) {
                let set: Vec<u32> = (0..16).filter(|bit| mask >> bit & 1 == 1).collect();
                column = self.random.pick(&set);
            }
        }
        Call::KeeperAt { stamp: self.read_stamp(), row, column }
    }

    /// A row, or another one whose column more commits have given a value.
    fn often_set(&mut self, row: u32, column: u32) -> u32 {
        let given = self.history.rows_given();
        let mut row = row;
        if row < given && column < self.history.shape().columns {
            for _ in 0..self.random.below(8) {
                let other = self.any_row(given);
                let values = |row| self.history.given(row, column).len();
                if values(other) > values(row) {
                    row = other;
                }
            }
        }
        row
    }

    /// A mark: mostly one of these values, or a number beside it.
    fn mark(&mut self, values: &[Given]) -> i32 {
        match self.random.below(10) {
            0 => self.random.pick(&[i32::MIN, i32::MIN + 1, -1, 0, i32::MAX]),
            1 => self.value(),
            _ if values.is_empty() => self.value(),
            2..=5 if self.workload.swings => LEVEL,
            2..=6 => self.random.pick(values).value,
            7 => self.random.pick(values).value.saturating_sub(1),
            _ => self.random.pick(values).value.saturating_add(1),
        }
    }

    /// From and to, for crossings at these stamps: all minutes, one, those from one crossing to another,
    /// or any; now and then none or later ones than the last commit's.
    fn minutes(&mut self, crossings: &[u32]) -> (u32, u32) {
        let last = self.history.last_stamp();
        if self.stray() {
            let to = self.read_stamp();
            return self.random.pick(&[
                (to.saturating_add(1), to),
                (u32::MAX, 0),
                (0, last.saturating_add(1)),
                (last.saturating_add(1), last.saturating_add(1)),
                (to.min(last), u32::MAX),
            ]);
        }
        if self.random.percent(FITTED) {
            // Those that are refused are often tried again, so they are chosen more often.
            let one_more = self.random.percent(65);
            let fitted = fitted(crossings, LENT_STAMPS as usize + usize::from(one_more));
            if !fitted.is_empty() {
                return self.random.pick(&fitted);
            }
        }
        let ends = match self.random.below(8) {
            0 | 1 => (0, last),
            2..=5 if !crossings.is_empty() => {
                (self.random.pick(crossings), self.random.pick(crossings))
            }
            6 => {
                let minute = self.read_stamp();
                (minute, minute)
            }
            _ => (self.read_stamp(), self.read_stamp()),
        };
        let (from, to) = (ends.0.min(ends.1), ends.0.max(ends.1));
        match self.random.below(8) {
            0 => (from.saturating_add(1).min(to), to),
            1 => (from, to.saturating_sub(1).max(from)),
            2 => (from, last.max(to)),
            3 => (0, to),
            _ => (from, to),
        }
    }

    /// Places for so many stamps: often as many, one less or one more.
    fn places(&mut self, count: u32) -> u32 {
        match self.random.below(8) {
            0..=2 => count,
            3 => count.saturating_sub(1),
            4 => count + 1,
            5 => LENT_STAMPS,
            6 => self.random.below(count + 1),
            _ => self.random.below(40),
        }
    }

    fn merge(&mut self) -> Call {
        let range = self.range();
        let column = self.column();
        let shape = self.history.shape();
        let (merged, used) = if range < shape.ranges {
            let merged = self.history.merged_through(range, column);
            (merged, self.history.used(range))
        } else {
            (0, 0)
        };
        let through = if merged >= used || self.stray() {
            let through = self.random.pick(&[0, merged, used + 1, 65_535]);
            self.widen(through)
        } else if self.random.percent(30) {
            used
        } else {
            self.random.between(merged + 1, used)
        };
        Call::Merge { range, column, through }
    }
}

/// The minutes, each from one of these stamps to another, that hold just so many of them.
fn fitted(stamps: &[u32], wanted: usize) -> Vec<(u32, u32)> {
    let ends = stamps.windows(wanted).map(|window| (window[0], window[wanted - 1]));
    let holds = |(from, to): &(u32, u32)| {
        stamps.iter().filter(|stamp| (*from..=*to).contains(*stamp)).count() == wanted
    };
    ends.filter(holds).collect()
}
