//! Pages as document 01 describes them under "Tail, merge, release": cells are written by inserts,
//! copied by merges and given back by releases. Calls are fed to it after the history has
//! accepted them; it answers merge, release, page cell and lineage.

use std::collections::{BTreeMap, BTreeSet};

use reference::{Answer, Call, Shape};

/// A tail record: its transaction, and the row, mask and values of a setting.
type Record = (u32, Option<(u32, u16, Vec<i32>)>);

pub struct Pages {
    free: u32,
    /// By range and column: the current page's cells and lineage.
    current: BTreeMap<(u32, u32), ([i32; 64], u32)>,
    /// The scans open when each waiting page was replaced.
    waiting: Vec<BTreeSet<u32>>,
    open_scans: BTreeSet<u32>,
    tails: Vec<Vec<Record>>,
    committed: BTreeSet<u32>,
    rows: u32,
}

impl Pages {
    pub fn new(shape: Shape) -> Pages {
        let places = (0..shape.ranges).flat_map(|r| (0..shape.columns).map(move |c| (r, c)));
        Pages {
            free: shape.spares,
            current: places.map(|place| (place, ([0; 64], 0))).collect(),
            waiting: Vec::new(),
            open_scans: BTreeSet::new(),
            tails: vec![Vec::new(); shape.ranges as usize],
            committed: BTreeSet::new(),
            rows: 0,
        }
    }

    pub fn call(&mut self, call: &Call, answer: &Answer) -> Option<Answer> {
        match (call, answer) {
            (Call::Insert { values, .. }, _) => {
                let (range, place) = (self.rows / 64, self.rows as usize % 64);
                for (column, value) in (0..).zip(values) {
                    self.current.get_mut(&(range, column)).unwrap().0[place] = *value;
                }
                self.rows += 1;
            }
            (Call::Update { transaction, row, mask, values }, Answer::Number(last)) => {
                let tail = &mut self.tails[*row as usize / 64];
                if tail.len() + 2 == *last as usize {
                    tail.push((*transaction, None));
                }
                tail.push((*transaction, Some((*row, *mask, values.clone()))));
                assert_eq!(tail.len(), *last as usize);
            }
            (Call::Delete { transaction, row }, _) => {
                self.tails[*row as usize / 64].push((*transaction, None));
            }
            (Call::Commit { transaction, .. }, _) => {
                self.committed.insert(*transaction);
            }
            (Call::OpenScan { .. }, Answer::Number(scan)) => {
                self.open_scans.insert(*scan);
            }
            (Call::Close { scan }, _) => {
                self.open_scans.remove(scan);
            }
            (Call::Merge { range, column, through }, _) => {
                self.free -= 1;
                self.waiting.push(self.open_scans.clone());
                let (cells, lineage) = self.current.get_mut(&(*range, *column)).unwrap();
                // Only the records that the page has not taken in yet are applied.
                let new = *lineage as usize..*through as usize;
                for (transaction, setting) in &self.tails[*range as usize][new] {
                    if let Some((row, mask, values)) = setting {
                        if self.committed.contains(transaction) && mask >> column & 1 == 1 {
                            cells[*row as usize % 64] = values[*column as usize];
                        }
                    }
                }
                *lineage = *through;
                return Some(Answer::Done);
            }
            (Call::Release, _) => {
                let before = self.waiting.len();
                let open = &self.open_scans;
                self.waiting.retain(|scans| !scans.is_disjoint(open));
                let freed = (before - self.waiting.len()) as u32;
                self.free += freed;
                return Some(Answer::Number(freed));
            }
            (Call::PageCell { column, row }, _) => {
                let (cells, _) = self.current[&(row / 64, *column)];
                return Some(Answer::Value(cells[*row as usize % 64]));
            }
            (Call::Lineage { range, column }, _) => {
                let (_, through) = self.current[&(*range, *column)];
                let used = self.tails[*range as usize].len() as u32;
                return Some(Answer::Lineage { through, used });
            }
            _ => {}
        }
        None
    }

    pub fn free(&self) -> u32 {
        self.free
    }
}
