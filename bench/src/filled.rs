//! Stores of a shape, filled to a share of their rows and tail records.

use checks::memory::{Layout, Region, ScanEntry, ROWS, SCANS, WORD};
use checks::plain::Plain;
use checks::{moves, Store};
use reference::{Answer, Call, Form, Shape};

/// A value that a row and column got at a stamp, by the commit of an ordinal.
#[derive(Clone)]
#[cfg_attr(not(feature = "sqlite"), allow(dead_code))]
pub struct Version {
    pub row: u32,
    pub column: u32,
    pub stamp: u32,
    pub ordinal: u32,
    pub value: i32,
}

#[cfg_attr(not(feature = "sqlite"), allow(dead_code))]
impl Version {
    /// Who set it.
    pub fn keeper(&self) -> u16 {
        keeper(self.ordinal)
    }
}

/// A store's memory and scan list. All stores have one layout, so one filling serves them all.
#[derive(Clone)]
pub struct Filled {
    pub memory: Vec<u8>,
    pub scans: Vec<ScanEntry>,
    pub shape: Shape,
    /// Rows given, and the records used in range 0 before the open transaction's one.
    pub rows: u32,
    pub settled: u32,
    /// The transaction and the scan that are open, the last commit's stamp, and the commits made.
    pub open: u32,
    pub scan: u32,
    pub last: u32,
    pub commits: u32,
    /// What the committed transactions of the filling have set.
    pub versions: Vec<Version>,
}

/// The stamps that a call is lent.
pub fn places(call: &Call) -> usize {
    match call {
        Call::Crossings { places, .. } => *places as usize,
        _ => 0,
    }
}

/// The bytes of the second memory that a call is lent: as many as a move needs, and none for other calls.
pub fn second_bytes(memory: &[u8], call: &Call) -> usize {
    moves::need(memory, call).unwrap_or(0)
}

/// The keeper of the transaction that makes the commit of an ordinal: three take turns, and none is
/// unknown.
pub fn keeper(ordinal: u32) -> u16 {
    (1 + ordinal % 3) as u16
}

/// What the open transaction sets in row 0.
pub const SET: i32 = 7;
/// What takes turns in a row that has all records.
pub const TURNS: [i32; 2] = [1200, 1250];
/// Updates in one transaction of the filling.
const UPDATES: usize = 16;
/// One of so many of these transactions is aborted.
const ABORTED: usize = 8;

impl Filled {
    /// So many percent of the rows and of all records, the records in the ranges that have rows;
    /// but always a row with a setting, and always room for one row and one record more. One
    /// transaction is open, with one setting of row 0, and one scan.
    pub fn new(shape: Shape, percent: u32) -> Filled {
        Filled::crowded(shape, percent, 1, 1)
    }

    /// The same with so many transactions and scans open, of which the caller has the first
    /// transaction and the last scan.
    pub fn crowded(shape: Shape, percent: u32, transactions: usize, open_scans: usize) -> Filled {
        let others = transactions as u32 - 1;
        let layout = Layout::of(&shape);
        let rows = (shape.rows() * percent / 100).clamp(1, shape.rows() - 1);
        let mut filled = Filled::made(shape, rows);
        filled.insert_rows();
        // Two places less: one for the open transaction, one for the call that is timed. And where
        // there is room, one for each of the others and one that the last of them looks for.
        let kept = 2 + if others == 0 { 0 } else { others + 1 };
        let most = shape.capacity.saturating_sub(kept).max(2);
        let ranges = rows.div_ceil(ROWS as u32);
        let records = (layout.slots as u32 * percent / 100 / ranges).clamp(2, most);
        for range in 0..ranges {
            filled.update_rows(range, records);
        }
        filled.settled = filled.used(0);
        filled.open = filled.begin();
        let values = vec![SET; shape.columns as usize];
        filled.number(&Call::Update { transaction: filled.open, row: 0, mask: 1, values });
        for row in 1..=others {
            filled.open_beside(row);
        }
        for _ in 0..open_scans {
            filled.scan = filled.number(&Call::OpenScan { stamp: filled.last });
        }
        filled
    }

    /// One row with so many records, all that there are. Each setting is committed in a minute of its
    /// own; two values take turns, so that each setting is a crossing of the greater one. Nothing is
    /// open.
    pub fn one_row(capacity: u32) -> Filled {
        let mut filled = Filled::made(Shape { columns: 1, ranges: 1, capacity, spares: 0 }, 1);
        // After the insert one setting less than records: the first takes two.
        for (value, setting) in TURNS.into_iter().cycle().zip(0..capacity) {
            let (transaction, values) = (filled.begin(), vec![value]);
            filled.number(&match setting {
                0 => Call::Insert { transaction, values },
                _ => Call::Update { transaction, row: 0, mask: 1, values },
            });
            filled.commit(transaction);
            let (stamp, ordinal) = (filled.last, filled.commits);
            filled.versions.push(Version { row: 0, column: 0, stamp, ordinal, value });
        }
        filled.settled = filled.used(0);
        assert_eq!(filled.settled, capacity);
        filled
    }

    /// A new store, and how many rows it is to have.
    fn made(shape: Shape, rows: u32) -> Filled {
        let mut filled = Filled {
            memory: vec![0; Layout::of(&shape).need()],
            scans: vec![ScanEntry::FREE; SCANS],
            shape,
            rows,
            settled: 0,
            open: 0,
            scan: 0,
            last: 0,
            commits: 0,
            versions: Vec::new(),
        };
        let made = Plain::<0>.make(&mut filled.memory, &mut filled.scans, &shape);
        assert_eq!(made, Answer::Done);
        filled
    }

    /// The crossings of a row and column in all minutes, by the greatest of its values: where it had
    /// another, there is one.
    pub fn crossings(&self, row: u32, column: u32, places: u32) -> Call {
        let values = (self.versions.iter())
            .filter(|version| (version.row, version.column) == (row, column))
            .map(|version| version.value);
        let mark = values.max().expect("an inserted value");
        Call::Crossings { row, column, mark, from: 0, to: self.last, places }
    }

    /// One open transaction more, with a row of its own in range 0: this one, or a new one where it
    /// is not given yet. It sets the row while there are three places: the first setting of a row
    /// takes two records, and one is for the call that is timed.
    fn open_beside(&mut self, row: u32) {
        let transaction = self.begin();
        let values = vec![9; self.shape.columns as usize];
        if row == self.rows {
            self.number(&Call::Insert { transaction, values: values.clone() });
            self.rows += 1;
        }
        if self.used(0) + 3 <= self.shape.capacity {
            self.number(&Call::Update { transaction, row, mask: 1, values });
        }
    }

    /// The store with no keeper but 0, in the form from which a move leads to this one, and that move.
    pub fn before_move(mut self, form: Form) -> (Filled, Call) {
        // The words of keepers are the last.
        let keepers = Layout::of(&self.shape).base(Region::RowKeeper) * WORD;
        self.memory[keepers..].fill(0);
        match form {
            Form::First => (self, Call::Downgrade),
            Form::Newest => (self.moved(&Call::Downgrade), Call::Upgrade),
        }
    }

    /// The store after a move: it is in the second memory.
    pub fn moved(mut self, call: &Call) -> Filled {
        let mut second = vec![0; second_bytes(&self.memory, call)];
        let answer = Plain::<0>.move_with(&mut self.memory, &mut self.scans, &mut second, call);
        assert_eq!(answer, Answer::Done, "{call:?}");
        Filled { memory: second, ..self }
    }

    pub fn call(&mut self, call: &Call) -> Answer {
        self.call_with(&mut vec![0; places(call)], call)
    }

    fn call_with(&mut self, stamps: &mut [u32], call: &Call) -> Answer {
        let answer = Plain::<0>.call_with(&mut self.memory, &mut self.scans, stamps, call);
        assert!(!answer.is_refused(), "{call:?} is refused in the filling: {answer:?}");
        answer
    }

    /// The stamps that a call lists.
    pub fn listed(&mut self, call: &Call) -> Vec<u32> {
        let mut stamps = vec![0; places(call)];
        match self.call_with(&mut stamps, call) {
            Answer::Number(count) => stamps.truncate(count as usize),
            answer => panic!("{call:?} answers {answer:?}"),
        }
        stamps
    }

    fn number(&mut self, call: &Call) -> u32 {
        match self.call(call) {
            Answer::Number(number) => number,
            answer => panic!("{call:?} answers {answer:?}"),
        }
    }

    pub fn used(&mut self, range: u32) -> u32 {
        match self.call(&Call::Lineage { range, column: 0 }) {
            Answer::Lineage { used, .. } => used,
            answer => panic!("lineage answers {answer:?}"),
        }
    }

    /// Begins a transaction with the keeper of the commit that comes next.
    fn begin(&mut self) -> u32 {
        self.number(&Call::BeginAs { keeper: keeper(self.commits + 1) })
    }

    fn commit(&mut self, transaction: u32) {
        self.last += 10;
        self.commits += 1;
        self.call(&Call::Commit { transaction, stamp: self.last });
    }

    fn insert_rows(&mut self) {
        let transaction = self.begin();
        for row in 0..self.rows {
            let value = |column: u32| (row * 31 + column * 7) as i32 - 500;
            let values: Vec<i32> = (0..self.shape.columns).map(value).collect();
            // Stamp and ordinal of the first commit.
            let (stamp, ordinal) = (10, 1);
            let version = |(column, value): (u32, &i32)| Version {
                row,
                column,
                stamp,
                ordinal,
                value: *value,
            };
            self.versions.extend((0..).zip(&values).map(version));
            self.number(&Call::Insert { transaction, values });
        }
        self.commit(transaction);
    }

    /// Settings of column 0 over the range's rows in turn, until so many records are used.
    fn update_rows(&mut self, range: u32, records: u32) {
        let first = range * ROWS as u32;
        let given = (self.rows - first).min(ROWS as u32);
        let mut rows = (0..given).cycle();
        let mut made = 0;
        while self.used(range) < records {
            let transaction = self.begin();
            let mut set = Vec::new();
            for row in rows.by_ref().take(UPDATES) {
                // The first setting of a row takes two records: with one place left row 0, which
                // has been set.
                let row = match records - self.used(range) {
                    0 => break,
                    1 => 0,
                    _ => row,
                };
                let values = vec![row as i32; self.shape.columns as usize];
                self.number(&Call::Update { transaction, row: first + row, mask: 1, values });
                set.push((first + row, row as i32));
            }
            made += 1;
            if made % ABORTED == 0 {
                self.call(&Call::Abort { transaction });
            } else {
                self.commit(transaction);
                let (stamp, ordinal) = (self.last, self.commits);
                let version = |(row, value)| Version { row, column: 0, stamp, ordinal, value };
                self.versions.extend(set.into_iter().map(version));
            }
        }
    }
}
