//! How the cost grows with what is used: calls on the largest shape, filled in steps, and a sum with
//! none, half and all of the records merged.

use checks::memory::{ROWS, WORD};
use reference::Call;

use crate::bounds::{read, used_words};
use crate::filled::Filled;
use crate::report::{ns, Report};
use crate::{time, Named, LARGEST};

/// A curve of the plot: nanoseconds by used words.
pub struct Curve {
    pub name: String,
    pub points: Vec<(f64, f64)>,
}

pub fn measure(stores: &[Named], report: &mut Report) -> Vec<Curve> {
    report.heading("How the cost grows", "Largest shape, nanoseconds of a call by the words that are used, beside a plain read of these words.");
    let names = ["latest", "commit", "sum"];
    let mut heads = vec!["filled".to_string(), "words".to_string(), "read".to_string()];
    let mut curves = vec![Curve { name: "plain read".to_string(), points: Vec::new() }];
    for name in names {
        for (store, _) in stores {
            heads.push(format!("{name}: {store}"));
            curves.push(Curve { name: format!("{name}, {store}"), points: Vec::new() });
        }
    }
    let steps: Vec<u32> = (0..=100).step_by(10).collect();
    let filled: Vec<Filled> = steps.iter().map(|step| Filled::new(LARGEST, *step)).collect();
    let mut least = vec![vec![f64::INFINITY; curves.len()]; filled.len()];
    for _ in 0..time::PASSES {
        for (least, filled) in least.iter_mut().zip(&filled) {
            time::lesser(least, &times(stores, filled));
        }
    }
    let mut rows = Vec::new();
    for ((percent, filled), times) in steps.iter().zip(&filled).zip(least) {
        let runs = used_words(&filled.memory);
        let words = runs.iter().map(|run| run.len() / WORD).sum::<usize>() as f64;
        for (curve, time) in curves.iter_mut().zip(&times) {
            curve.points.push((words, *time));
        }
        let mut row = vec![format!("{percent} %"), format!("{words}")];
        row.extend(times.into_iter().map(ns));
        rows.push(row);
    }
    report.table(&heads, &rows);
    merged(stores, report);
    curves
}

/// A plain read of the used words, then each call with each store.
fn times(stores: &[Named], filled: &Filled) -> Vec<f64> {
    let (row, column) = (filled.rows / 2, 0);
    let calls = [
        Call::Latest { row, column },
        Call::Commit { transaction: filled.open, stamp: filled.last + 1 },
        Call::Sum { scan: filled.scan, column },
    ];
    let mut times = vec![read(&used_words(&filled.memory))];
    for call in &calls {
        times.extend(time::rounds(stores, |store| time::calls(store, filled, &[call])));
    }
    times
}

fn merged(stores: &[Named], report: &mut Report) {
    report.heading("A sum over merged pages", "Largest shape, full: a sum over all rows by a scan opened after so many of the records were merged.");
    let mut heads = vec!["merged".to_string()];
    heads.extend(stores.iter().map(|(name, _)| name.to_string()));
    let mut rows = Vec::new();
    for percent in [0, 50, 100] {
        let mut filled = Filled::new(LARGEST, 100);
        for range in 0..filled.rows.div_ceil(ROWS as u32) {
            // The open transaction's record is the last of range 0.
            let most = if range == 0 { filled.settled } else { filled.used(range) };
            let through = most * percent / 100;
            if through > 0 {
                filled.call(&Call::Merge { range, column: 0, through });
            }
        }
        let (old, stamp) = (filled.scan, filled.last);
        filled.call(&Call::Close { scan: old });
        filled.call(&Call::OpenScan { stamp });
        let sum = Call::Sum { scan: old + 1, column: 0 };
        let mut row = vec![format!("{percent} %")];
        let times = time::rounds(stores, |store| time::calls(store, &filled, &[&sum]));
        row.extend(times.into_iter().map(ns));
        rows.push(row);
    }
    report.table(&heads, &rows);
}
