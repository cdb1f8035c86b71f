//! Crossings in a row that has all 512 records of a memory, beside a latest read of it.

use reference::Call;

use crate::filled::{Filled, TURNS};
use crate::report::{ns, Report};
#[cfg(feature = "sqlite")]
use crate::sqlite;
use crate::{time, Named, PLACES};

/// The most records that a range has.
const RECORDS: u32 = 512;

pub fn measure(stores: &[Named], report: &mut Report) {
    report.heading("Crossings of a row with 512 records", "One row has all 512 records of a memory: nanoseconds of a call, and how many latest reads of the row they are. The row has 511 settings, each in a minute of its own and on the other side of the mark from the one before. Read-at and keeper-at pass over all of them. None: the mark is below all values. The last 16: from is the minute of the sixteenth from the last. SQLite, where it is compared, has the same versions; for crossings it gives them in their order, and they are compared here, or it gives the crossings themselves, by lag().");
    let mut heads = vec!["call".to_string()];
    for (name, _) in stores {
        heads.extend([name.to_string(), "latest reads".to_string()]);
    }
    heads.extend(stores[1..].iter().map(|_| "ratio".to_string()));
    #[cfg(feature = "sqlite")]
    heads.extend(["SQLite", "SQLite, lag()"].map(String::from));
    let filled = Filled::one_row(RECORDS);
    let mut of_latest = None;
    let mut rows = Vec::new();
    for (name, call) in calls(&filled) {
        let mut times = vec![f64::INFINITY; stores.len()];
        for _ in 0..time::PASSES {
            let pass = time::rounds(stores, |store| time::calls(store, &filled, &[&call]));
            time::lesser(&mut times, &pass);
        }
        let of_latest = of_latest.get_or_insert_with(|| times.clone());
        let mut row = vec![name];
        for (time, latest) in times.iter().zip(of_latest.iter()) {
            row.extend([ns(*time), format!("{:.2}", time / latest)]);
        }
        row.extend(times[1..].iter().map(|other| format!("{:.2}", other / times[0])));
        #[cfg(feature = "sqlite")]
        row.extend(sqlite::times(&filled, &call).into_iter().map(ns));
        row.resize(heads.len(), String::new());
        rows.push(row);
    }
    report.table(&heads, &rows);
}

/// The calls with their names, the latest read first.
fn calls(filled: &Filled) -> Vec<(String, Call)> {
    let (row, column, to, all) = (0, 0, filled.last, RECORDS - 1);
    let mark = TURNS[0].max(TURNS[1]);
    let stamps: Vec<u32> = filled.versions.iter().map(|version| version.stamp).collect();
    let (first, late) = (stamps[0], stamps[stamps.len() - PLACES as usize]);
    let crossings = |mark, from, places| Call::Crossings { row, column, mark, from, to, places };
    let listed = [
        ("none".to_string(), 0, crossings(i32::MIN, first, PLACES)),
        (format!("the last {PLACES}"), PLACES, crossings(mark, late, PLACES)),
        (format!("all {all}"), all, crossings(mark, first, all)),
    ];
    let mut calls = vec![
        ("latest".to_string(), Call::Latest { row, column }),
        ("read-at, the first minute".to_string(), Call::ReadAt { stamp: first, row, column }),
        ("keeper-at, the first minute".to_string(), Call::KeeperAt { stamp: first, row, column }),
    ];
    for (which, count, call) in listed {
        assert_eq!(filled.clone().listed(&call).len() as u32, count);
        calls.push((format!("crossings, {which}"), call));
    }
    calls
}
