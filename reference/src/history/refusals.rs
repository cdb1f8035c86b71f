//! When a call is refused: the tests of document 01's table, "What a refused call returns", for
//! each call in the stated order, with the changes of document 02.

use super::{names, History, Record, State, NUMBERS, OPEN_SCANS, OPEN_TRANSACTIONS};
use crate::call::{Call, RANGE_ROWS};

fn require(holds: bool, number: u8) -> Result<(), u8> {
    if holds {
        Ok(())
    } else {
        Err(number)
    }
}

impl History {
    /// "Tests run in this order."
    pub(super) fn tests(&self, call: &Call) -> Result<(), u8> {
        match *call {
            // Begin: 15, 14. Command 13 of document 02's Item 6 begins too.
            Call::Begin | Call::BeginAs { .. } => {
                require(self.transactions.len() < NUMBERS, 15)?;
                require(self.open_transactions.len() < OPEN_TRANSACTIONS, 14)
            }
            // Insert: 3, 11.
            Call::Insert { transaction, .. } => {
                self.test_transaction(transaction)?;
                require(self.rows_given() < self.shape.rows(), 11)
            }
            // Update: 3, 5, 8, 9, 10, 12.
            Call::Update { transaction, row, mask, .. } => {
                self.test_transaction(transaction)?;
                self.test_row(row)?;
                self.test_mask(mask)?;
                self.test_held(transaction, row)?;
                self.test_gone(transaction, row)?;
                let original = !self.unset_columns(row, mask).is_empty();
                self.test_tail(row, if original { 2 } else { 1 })
            }
            // Delete: 3, 5, 9, 10, 12.
            Call::Delete { transaction, row } => {
                self.test_transaction(transaction)?;
                self.test_row(row)?;
                self.test_held(transaction, row)?;
                self.test_gone(transaction, row)?;
                self.test_tail(row, 1)
            }
            // Commit: 3, 13. Document 02, Item 3: "A commit may now carry the last commit's stamp
            // again, 0 in a new store; only an earlier one is answered 13".
            Call::Commit { transaction, stamp } => {
                self.test_transaction(transaction)?;
                require(stamp >= self.last_stamp(), 13)
            }
            // Abort: 3.
            Call::Abort { transaction } => self.test_transaction(transaction),
            // Latest read: 5, 6.
            Call::Latest { row, column } => {
                self.test_row(row)?;
                self.test_column(column)
            }
            // Read at: 13, 5, 6. Command 14 of document 02's Item 6 is "refused as 08 is".
            Call::ReadAt { stamp, row, column } | Call::KeeperAt { stamp, row, column } => {
                require(stamp <= self.last_stamp(), 13)?;
                self.test_row(row)?;
                self.test_column(column)
            }
            // Own read: 3, 5, 6.
            Call::OwnRead { transaction, row, column } => {
                self.test_transaction(transaction)?;
                self.test_row(row)?;
                self.test_column(column)
            }
            // Open scan: 13, 15, 14.
            Call::OpenScan { stamp } => {
                require(stamp <= self.last_stamp(), 13)?;
                require(self.scans.len() < NUMBERS, 15)?;
                require(self.open_scans.len() < OPEN_SCANS, 14)
            }
            // Scan read: 4, 5, 6.
            Call::ScanRead { scan, row, column } => {
                self.test_scan(scan)?;
                self.test_row(row)?;
                self.test_column(column)
            }
            // Sum: 4, 6.
            Call::Sum { scan, column } => {
                self.test_scan(scan)?;
                self.test_column(column)
            }
            // Close: 4.
            Call::Close { scan } => self.test_scan(scan),
            // Merge: 7, 6, 16, 17, 18.
            Call::Merge { range, column, through } => {
                self.test_range(range)?;
                self.test_column(column)?;
                // "merge not above what the page holds, or above the records used"
                let above = through > self.merged_through(range, column);
                require(above && through <= self.used(range), 16)?;
                // "a record up to n belongs to an open transaction"
                let records = &self.tails[range as usize][..through as usize];
                let open = |record: &Record| self.state(record.transaction) == State::Open;
                require(!records.iter().any(open), 17)?;
                // "Free pages are the spares less those waiting."
                let waiting = self.merges.iter().filter(|merge| merge.waiting).count();
                require(waiting < self.shape.spares as usize, 18)
            }
            Call::Release => Ok(()),
            // Page cell: 6, 5.
            Call::PageCell { column, row } => {
                self.test_column(column)?;
                self.test_row(row)
            }
            // Lineage: 7, 6.
            Call::Lineage { range, column } => {
                self.test_range(range)?;
                self.test_column(column)
            }
            // Document 02, Item 4: "Checks: after 5 and 6, 13 if from exceeds to or to is later than the
            // last commit; then 21 List, exactly if the crossings outnumber the slice."
            Call::Crossings { row, column, mark, from, to, places } => {
                self.test_row(row)?;
                self.test_column(column)?;
                require(from <= to && to <= self.last_stamp(), 13)?;
                let crossings = self.crossings(row, column, mark, from, to);
                require(crossings.len() <= places as usize, 21)
            }
            // Document 02, Item 7: "Checks: 2 for either memory [..]; then, on moving back, 22 Keeper
            // exactly if a row, a tail record or an open transaction bears a keeper other than 0."
            Call::Upgrade => Ok(()),
            Call::Downgrade => require(!self.bears_keeper(), 22),
        }
    }

    /// 3 "the number is not open"
    fn test_transaction(&self, transaction: u32) -> Result<(), u8> {
        require(self.open_transactions.contains(&transaction), 3)
    }

    /// 4 "the number is not open"
    fn test_scan(&self, scan: u32) -> Result<(), u8> {
        require(self.open_scans.contains(&scan), 4)
    }

    /// 5 "row number not yet given"
    fn test_row(&self, row: u32) -> Result<(), u8> {
        require(row < self.rows_given(), 5)
    }

    /// 6 "not below the column count"
    fn test_column(&self, column: u32) -> Result<(), u8> {
        require(column < self.shape.columns, 6)
    }

    /// 7 "not below the range count"
    fn test_range(&self, range: u32) -> Result<(), u8> {
        require(range < self.shape.ranges, 7)
    }

    /// 8 "no bit, or a bit at or above the column count"
    fn test_mask(&self, mask: u16) -> Result<(), u8> {
        let too_high = (self.shape.columns..16).any(|column| names(mask, column));
        require(mask != 0 && !too_high, 8)
    }

    /// 9 "another open transaction inserted, updated or deleted the row"
    fn test_held(&self, transaction: u32, row: u32) -> Result<(), u8> {
        let other = |by: u32| by != transaction && self.state(by) == State::Open;
        let inserted = other(self.rows[row as usize].inserter);
        let changed = self.records_of(row).any(|record| other(record.transaction));
        require(!inserted && !changed, 9)
    }

    /// 10 "not held, and the row is deleted or its insert aborted, in the caller's own view"
    fn test_gone(&self, transaction: u32, row: u32) -> Result<(), u8> {
        require(self.own_version(transaction, row, 0).is_some(), 10)
    }

    /// 12 "the range lacks the one or two records wanted"
    fn test_tail(&self, row: u32, wanted: u32) -> Result<(), u8> {
        let used = self.used(row / RANGE_ROWS);
        require(used + wanted <= self.shape.capacity, 12)
    }
}
