//! The bound tests of the stored facts beside a plain read of the same words, and the whole test of
//! the facts, with which every call begins.

use std::hint::black_box;
use std::time::Instant;

use checks::memory::{header, word, words, Layout, Region, OPENS, ROWS, WORD};
use reference::Call;

use crate::filled::Filled;
use crate::report::{ns, Report};
use crate::{time, Named, LARGEST};

/// Refused right after the facts, so its time is that of their test.
pub const AFTER_FACTS: Call = Call::Lineage { range: u32::MAX, column: 0 };

/// A stretch of words that lie between two bounds.
struct Bounded<'m> {
    bytes: &'m [u8],
    low: u32,
    high: u32,
}

pub fn measure(stores: &[Named], report: &mut Report) {
    report.heading("The stored facts", "Largest shape, nanoseconds a word. Bound tests: every stretch of words of which a fact is a lower and an upper bound, beside a read (a sum) of the same words. All facts: every word that they speak of, links and pages included.");
    let mut heads = vec!["filled".to_string(), "bounded words".to_string(), "read".to_string()];
    if bound_test().is_some() {
        heads.extend(["bound tests", "ratio"].map(String::from));
    }
    heads.extend(["all words", "read"].map(String::from));
    for (name, _) in stores {
        heads.push(format!("all facts: {name}"));
    }
    let mut rows = Vec::new();
    for percent in [1, 50, 100] {
        let filled = Filled::new(LARGEST, percent);
        let bounded = bounded_words(&filled.memory);
        let count = |runs: &[&[u8]]| runs.iter().map(|run| run.len() / WORD).sum::<usize>() as f64;
        let runs: Vec<&[u8]> = bounded.iter().map(|bounded| bounded.bytes).collect();
        let (n, plain) = (count(&runs), read(&runs) / count(&runs));
        let mut row = vec![format!("{percent} %"), format!("{n}"), ns(plain)];
        if let Some(test) = bound_test() {
            let time = time::least(|| {
                let start = Instant::now();
                for Bounded { bytes, low, high } in &bounded {
                    assert!(test(black_box(bytes), *low, *high), "a bound fails");
                }
                start.elapsed().as_nanos() as f64
            });
            row.push(ns(time / n));
            row.push(format!("{:.2}", time / n / plain));
        }
        let runs = used_words(&filled.memory);
        let n = count(&runs);
        row.push(format!("{n}"));
        row.push(ns(read(&runs) / n));
        let facts = |store: &dyn checks::Store| time::calls(store, &filled, &[&AFTER_FACTS]) / n;
        row.extend(time::rounds(stores, facts).into_iter().map(ns));
        rows.push(row);
    }
    report.table(&heads, &rows);
}

/// A bound test: whether all words lie between two bounds.
type Test = fn(&[u8], u32, u32) -> bool;

/// The library's bound test alone.
fn bound_test() -> Option<Test> {
    #[cfg(feature = "library")]
    {
        extern "C" {
            fn deskrook_all_between(bytes: *const u8, length: usize, low: u32, high: u32) -> u32;
        }
        // SAFETY: the pointer goes with the length of a slice borrowed for the call.
        Some(|bytes, low, high| unsafe {
            deskrook_all_between(bytes.as_ptr(), bytes.len(), low, high) == 1
        })
    }
    #[cfg(not(feature = "library"))]
    None
}

/// Nanoseconds of a plain read of stretches of words.
pub fn read(runs: &[&[u8]]) -> f64 {
    time::least(|| {
        let start = Instant::now();
        for run in runs {
            black_box(words(black_box(run)).fold(0u32, |sum, word| sum.wrapping_add(word)));
        }
        start.elapsed().as_nanos() as f64
    })
}

/// The words of which a fact is a lower and an upper bound, range by range as the facts are tested.
fn bounded_words(memory: &[u8]) -> Vec<Bounded<'_>> {
    let layout = Layout::stored(memory).expect("a good store");
    let given = word(memory, header::TRANSACTIONS_GIVEN);
    let last = word(memory, header::LAST_STAMP);
    let rows = word(memory, header::ROWS_GIVEN);
    let mut all = vec![
        Bounded {
            bytes: run(memory, Region::RowTransaction, 0, rows as usize),
            low: 1,
            high: given,
        },
        Bounded { bytes: run(memory, Region::RowStamp, 0, rows as usize), low: 0, high: last },
    ];
    for range in 0..layout.ranges {
        let used = word(memory, layout.base(Region::Used) + range) as usize;
        let (slot, first) = (range * layout.capacity, (range * ROWS) as u32);
        let of = |region| run(memory, region, slot, used);
        if used > 0 {
            let end = rows.min(first + ROWS as u32);
            all.push(Bounded { bytes: of(Region::TailRow), low: first, high: end - 1 });
        }
        all.push(Bounded { bytes: of(Region::TailTransaction), low: 1, high: given });
        all.push(Bounded { bytes: of(Region::TailStamp), low: 0, high: last });
    }
    all.retain(|bounded| !bounded.bytes.is_empty());
    all
}

/// The words that the facts speak of, as stretches of the memory.
pub fn used_words(memory: &[u8]) -> Vec<&[u8]> {
    let layout = Layout::stored(memory).expect("a good store");
    let mut runs = vec![
        run(memory, Region::Header, 0, header::COMMITS_MADE + 1),
        run(memory, Region::Opens, 0, OPENS),
        run(memory, Region::Used, 0, layout.ranges),
        run(memory, Region::Current, 0, layout.chunks),
    ];
    let rows = word(memory, header::ROWS_GIVEN) as usize;
    for region in [Region::RowTransaction, Region::RowStamp, Region::RowLink] {
        runs.push(run(memory, region, 0, rows));
    }
    for range in 0..layout.ranges {
        let used = word(memory, layout.base(Region::Used) + range) as usize;
        for region in
            [Region::TailTransaction, Region::TailRow, Region::TailLink, Region::TailStamp]
        {
            runs.push(run(memory, region, range * layout.capacity, used));
        }
    }
    for region in [
        Region::PageState,
        Region::PageChunk,
        Region::PageReplaced,
        Region::PageLineage,
        Region::PageNewest,
    ] {
        runs.push(run(memory, region, 0, layout.pages));
    }
    runs
}

fn run(memory: &[u8], region: Region, from: usize, n: usize) -> &[u8] {
    let layout = Layout::stored(memory).expect("a good store");
    let first = (layout.base(region) + from) * WORD;
    &memory[first..first + n * WORD]
}
