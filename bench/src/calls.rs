//! Each call at a shape, empty, half and full, the two moves too; update, delete and merge with eight
//! transactions open;
//! a scan opened, read by and closed where all others are open; and a commit in the minute of the last,
//! and a read by a scan in whose minute such a commit came after it.

use checks::memory::{OPENS, SCANS};
use reference::{text, Call, Form, Shape};

use crate::filled::{keeper, Filled};
use crate::report::{ns, Report};
use crate::{named, time, Named, PLACES};

const FILLINGS: [(&str, u32); 3] = [("empty", 0), ("half", 50), ("full", 100)];

/// A call by its command byte, or a move, which has none, by the form that it leads to.
#[derive(Clone, Copy)]
enum Which {
    Command(u8),
    MoveTo(Form),
}

/// A call that is timed, how many transactions and scans are open, and whether there are several commits
/// in the last minute.
struct Timed {
    which: Which,
    transactions: usize,
    scans: usize,
    one_minute: bool,
}

/// Each call; where every place of an open transaction is taken, those whose tests look through all
/// of them; where as many scans are open as can be, those that look for a scan, or for a place; and
/// with several commits in one minute the one that makes them, and a read that tells them apart.
fn timed() -> impl Iterator<Item = Timed> {
    let timed = |which| Timed { which, transactions: 1, scans: 1, one_minute: false };
    let alone = move |byte| timed(Which::Command(byte));
    let names = 1..=text::NAMES.len() as u8;
    let moves = [Form::Newest, Form::First];
    let transactions = [0x03, 0x04, 0x0E];
    let scans = [(0x0A, SCANS - 1), (0x0B, SCANS), (0x0D, SCANS)];
    let one_minute = [0x05, 0x0B];
    names
        .map(alone)
        .chain(moves.map(move |form| timed(Which::MoveTo(form))))
        .chain(transactions.map(move |byte| Timed { transactions: OPENS, ..alone(byte) }))
        .chain(scans.map(move |(byte, scans)| Timed { scans, ..alone(byte) }))
        .chain(one_minute.map(move |byte| Timed { one_minute: true, ..alone(byte) }))
}

impl Timed {
    fn name(&self) -> String {
        let name = match self.which {
            Which::Command(byte) => text::NAMES[usize::from(byte) - 1],
            Which::MoveTo(Form::Newest) => "upgrade",
            Which::MoveTo(Form::First) => "downgrade",
        };
        match (self.transactions, self.scans) {
            _ if self.one_minute => format!("{name}, 1 minute"),
            (1, 1) => name.to_string(),
            (1, scans) => format!("{name}, {scans} scans"),
            (transactions, _) => format!("{name}, {transactions} open"),
        }
    }
}

/// The ratios of a shape: for each call that is timed its name, and one for each filling.
pub struct Ratios {
    pub shape: Shape,
    pub calls: Vec<(String, [f64; FILLINGS.len()])>,
}

pub fn measure(stores: &[Named], shape: Shape, report: &mut Report) -> Ratios {
    report.heading(&format!("Each call at shape {}", named(&shape)), "Nanoseconds of a call, and how many times the plain store's they are. Empty is one row with one setting; full leaves room for one row and one record. With eight open the seven other transactions have set rows of their own where there is room. With scans open the one that is read by or closed is the last in the list. In one minute: a commit at the last commit's stamp; and a read of a row that such a commit has set since its scan was opened. Crossings are those of the row that latest reads, in all minutes, by the greatest of its values. Begin-as is begin with a keeper, and keeper-at is asked for the row and the minute that read-at reads. Upgrade and downgrade move the store with no keeper but 0 into a second memory, to the newest form and back to form 1.");
    let mut heads = vec!["call".to_string()];
    for (filling, _) in FILLINGS {
        heads.push(format!("{filling}: {}", stores[0].0));
        for (name, _) in &stores[1..] {
            heads.push(name.to_string());
            heads.push("ratio".to_string());
        }
    }
    let prepared: Vec<_> =
        timed().map(|call| FILLINGS.map(|(_, percent)| prepared(shape, percent, &call))).collect();
    let mut least = vec![vec![vec![f64::INFINITY; stores.len()]; FILLINGS.len()]; prepared.len()];
    for _ in 0..time::PASSES {
        for (of_call, prepared) in least.iter_mut().zip(&prepared) {
            for (times, (filled, call)) in of_call.iter_mut().zip(prepared) {
                time::lesser(
                    times,
                    &time::rounds(stores, |store| time::calls(store, filled, &[call])),
                );
            }
        }
    }
    let mut ratios = Ratios { shape, calls: Vec::new() };
    let mut rows = Vec::new();
    for (call, of_call) in timed().zip(&least) {
        let mut row = vec![call.name()];
        let mut of_fillings = [1.0; FILLINGS.len()];
        for (times, ratio) in of_call.iter().zip(&mut of_fillings) {
            row.push(ns(times[0]));
            for other in &times[1..] {
                *ratio = other / times[0];
                row.push(ns(*other));
                row.push(format!("{ratio:.2}"));
            }
        }
        rows.push(row);
        ratios.calls.push((call.name(), of_fillings));
    }
    report.table(&heads, &rows);
    ratios
}

/// A call that is accepted, with the store in which it is timed.
fn prepared(shape: Shape, percent: u32, timed: &Timed) -> (Filled, Call) {
    let mut filled = Filled::crowded(shape, percent, timed.transactions, timed.scans);
    let (transaction, scan, last) = (filled.open, filled.scan, filled.last);
    let (row, column) = (filled.rows / 2, 0);
    let values = vec![1; filled.shape.columns as usize];
    let merge = Call::Merge { range: 0, column, through: filled.settled };
    let byte = match timed.which {
        Which::Command(byte) => byte,
        Which::MoveTo(form) => {
            let (filled, call) = filled.before_move(form);
            filled.clone().moved(&call);
            return (filled, call);
        }
    };
    let call = match byte {
        0x01 => Call::Begin,
        0x02 => Call::Insert { transaction, values },
        0x03 => Call::Update { transaction, row: 0, mask: 1, values },
        0x04 => Call::Delete { transaction, row: 0 },
        0x05 => Call::Commit { transaction, stamp: last + u32::from(!timed.one_minute) },
        0x06 => Call::Abort { transaction },
        0x07 => Call::Latest { row, column },
        0x08 => Call::ReadAt { stamp: last / 2, row, column },
        0x09 => Call::OwnRead { transaction, row: 0, column },
        0x0A => Call::OpenScan { stamp: last },
        0x0B if timed.one_minute => {
            // The scan was opened at the last stamp, before this commit, which sets row 0.
            filled.call(&Call::Commit { transaction, stamp: last });
            Call::ScanRead { scan, row: 0, column }
        }
        0x0B => Call::ScanRead { scan, row, column },
        0x0C => Call::Sum { scan, column },
        0x0D => Call::Close { scan },
        0x0E => merge,
        0x0F => {
            filled.call(&Call::Close { scan });
            filled.call(&merge);
            Call::Release
        }
        0x10 => Call::PageCell { column, row },
        0x11 => Call::Lineage { range: 0, column },
        0x12 => filled.crossings(row, column, PLACES),
        0x13 => Call::BeginAs { keeper: keeper(filled.commits + 1) },
        0x14 => Call::KeeperAt { stamp: last / 2, row, column },
        byte => unreachable!("no call is timed for the command {byte:02X}"),
    };
    filled.clone().call(&call);
    (filled, call)
}
