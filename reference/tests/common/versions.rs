//! The plain history a second way, from its first paragraph in document 01: every transaction
//! keeps its pending changes, and a commit gives rows their values with its stamp and its keeper. A scan
//! keeps a copy of what was committed at its opening. Reads, keepers and crossings alone; calls are fed
//! to it after the history has accepted them.

use std::collections::BTreeMap;

use reference::{Answer, Call};

/// "a pending value of one's own gives 0"
const PENDING: u32 = 0;

/// What an open transaction has done.
#[derive(Default)]
struct Pending {
    keeper: u16,
    inserted: BTreeMap<u32, Vec<i32>>,
    set: BTreeMap<(u32, u32), i32>,
    deleted: Vec<u32>,
}

/// What commits gave.
#[derive(Clone, Default)]
struct Committed {
    /// The values of a row and column in order of commit, and the stamps at which rows ended.
    values: BTreeMap<(u32, u32), Vec<Given>>,
    ends: BTreeMap<u32, u32>,
}

/// A value that a commit gave, with what is known of the commit.
#[derive(Clone, Copy)]
struct Given {
    value: i32,
    stamp: u32,
    keeper: u16,
}

#[derive(Default)]
pub struct Versions {
    open: BTreeMap<u32, Pending>,
    committed: Committed,
    /// The stamps of scans, and what was committed at their opening: "sees of the commits up to its
    /// stamp those made before its opening and no more".
    scans: BTreeMap<u32, (u32, Committed)>,
    rows: u32,
    last: u32,
}

impl Versions {
    /// Takes in an accepted call and gives its answer if it is a read or one for a keeper or crossings.
    pub fn call(&mut self, call: &Call, answer: &Answer) -> Option<Answer> {
        match call {
            Call::Begin => {
                self.open.insert(number(answer), Pending::default());
            }
            Call::BeginAs { keeper } => {
                let pending = Pending { keeper: *keeper, ..Pending::default() };
                self.open.insert(number(answer), pending);
            }
            Call::Insert { transaction, values } => {
                self.rows += 1;
                self.pending(*transaction).inserted.insert(number(answer), values.clone());
            }
            Call::Update { transaction, row, mask, values } => {
                for (column, value) in
                    (0..).zip(values).filter(|(column, _)| mask >> column & 1 == 1)
                {
                    self.pending(*transaction).set.insert((*row, column), *value);
                }
            }
            Call::Delete { transaction, row } => self.pending(*transaction).deleted.push(*row),
            Call::Commit { transaction, stamp } => self.commit(*transaction, *stamp),
            Call::Abort { transaction } => {
                self.open.remove(transaction);
            }
            Call::OpenScan { stamp } => {
                self.scans.insert(number(answer), (*stamp, self.committed.clone()));
            }
            Call::Latest { row, column } => return Some(self.read(self.last, *row, *column)),
            Call::ReadAt { stamp, row, column } => return Some(self.read(*stamp, *row, *column)),
            Call::KeeperAt { stamp, row, column } => {
                return Some(self.keeper(*stamp, *row, *column))
            }
            Call::OwnRead { transaction, row, column } => {
                return Some(self.own_read(*transaction, *row, *column))
            }
            Call::ScanRead { scan, row, column } => {
                return Some(self.scan_read(*scan, *row, *column))
            }
            Call::Sum { scan, column } => {
                let reads = (0..self.rows).map(|row| self.scan_read(*scan, row, *column));
                let seen: Vec<i64> = reads
                    .filter_map(|answer| match answer {
                        Answer::Version { value, .. } => Some(value.into()),
                        _ => None,
                    })
                    .collect();
                return Some(Answer::Sum { count: seen.len() as u32, sum: seen.iter().sum() });
            }
            Call::Crossings { row, column, mark, from, to, .. } => {
                return Some(Answer::Crossings(self.crossings(*row, *column, *mark, *from, *to)));
            }
            _ => {}
        }
        None
    }

    fn pending(&mut self, transaction: u32) -> &mut Pending {
        self.open.get_mut(&transaction).unwrap()
    }

    fn commit(&mut self, transaction: u32, stamp: u32) {
        let mut pending = self.open.remove(&transaction).unwrap();
        let keeper = pending.keeper;
        self.last = stamp;
        // "A row inserted and deleted in one transaction is never seen and gets no value."
        for row in &pending.deleted {
            if pending.inserted.remove(row).is_some() {
                pending.set.retain(|(of, _), _| of != row);
            } else {
                self.committed.ends.insert(*row, stamp);
            }
        }
        // "each row it inserted gets a value in all columns at s, and each column it set gets its
        // last value at s. [..] A column that its row's inserter also set gets one value, the last."
        let mut given = BTreeMap::new();
        for (row, values) in pending.inserted {
            given.extend((0..).zip(values).map(|(column, value)| ((row, column), value)));
        }
        given.extend(pending.set);
        for (place, value) in given {
            self.committed.values.entry(place).or_default().push(Given { value, stamp, keeper });
        }
    }

    pub fn read(&self, stamp: u32, row: u32, column: u32) -> Answer {
        self.committed.read(stamp, row, column)
    }

    /// Document 02, Item 6: "the keeper of the value that 08 would show, or none".
    pub fn keeper(&self, stamp: u32, row: u32, column: u32) -> Answer {
        match self.committed.shown(stamp, row, column) {
            Some(given) => Answer::Number(given.keeper.into()),
            None => Answer::None,
        }
    }

    /// Document 02, Item 4, one value after the other.
    pub fn crossings(&self, row: u32, column: u32, mark: i32, from: u32, to: u32) -> Vec<u32> {
        let mut stamps = Vec::new();
        let mut before = None;
        for given in self.committed.values.get(&(row, column)).into_iter().flatten() {
            let above = given.value >= mark;
            if before == Some(!above) && from <= given.stamp && given.stamp <= to {
                stamps.push(given.stamp);
            }
            before = Some(above);
        }
        stamps
    }

    fn scan_read(&self, scan: u32, row: u32, column: u32) -> Answer {
        let (stamp, committed) = &self.scans[&scan];
        committed.read(*stamp, row, column)
    }

    fn own_read(&self, transaction: u32, row: u32, column: u32) -> Answer {
        let pending = &self.open[&transaction];
        if pending.deleted.contains(&row) {
            Answer::None
        } else if let Some(value) = pending.set.get(&(row, column)) {
            Answer::Version { value: *value, stamp: PENDING }
        } else if let Some(values) = pending.inserted.get(&row) {
            Answer::Version { value: values[column as usize], stamp: PENDING }
        } else {
            self.read(self.last, row, column)
        }
    }
}

impl Committed {
    /// "Within one minute the history runs in order of commit and a read at that minute gives the
    /// newest."
    fn shown(&self, stamp: u32, row: u32, column: u32) -> Option<Given> {
        if self.ends.get(&row).is_some_and(|end| *end <= stamp) {
            return None;
        }
        let values = self.values.get(&(row, column)).into_iter().flatten();
        values.rev().find(|given| given.stamp <= stamp).copied()
    }

    fn read(&self, stamp: u32, row: u32, column: u32) -> Answer {
        match self.shown(stamp, row, column) {
            Some(Given { value, stamp, .. }) => Answer::Version { value, stamp },
            None => Answer::None,
        }
    }
}

fn number(answer: &Answer) -> u32 {
    match answer {
        Answer::Number(number) => *number,
        _ => panic!("a number: {answer:?}"),
    }
}
