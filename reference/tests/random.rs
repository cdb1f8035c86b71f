//! The generator, and properties of the history on random lists of calls.

mod common;
#[path = "common/pages.rs"]
mod pages;
#[path = "common/versions.rs"]
mod versions;

use std::collections::{BTreeMap, BTreeSet, HashMap};

use common::{IN_MINUTE, SITUATIONS};
use pages::Pages;
use reference::history::{InCrossings, InKeepers, InMinute, Situation, OPEN_SCANS};
use reference::survey::{CommitStamp, Survey};
use reference::{command, generate, trace, Answer, Call, Form, History, Shape};
use versions::Versions;

/// Random lists with their shapes: small ones, and some with rows in several ranges.
fn lists() -> impl Iterator<Item = (Shape, Vec<Call>)> {
    (0..840).map(|seed| {
        let shape = match seed % 3 {
            0 => Shape { columns: 2, ranges: 3, capacity: 20, spares: 2 },
            _ => generate::shape(seed),
        };
        (shape, generate::calls(seed, shape, 240))
    })
}

fn answers(shape: Shape, calls: &[Call]) -> Vec<Answer> {
    let mut history = History::new(shape);
    calls.iter().map(|call| history.call(call)).collect()
}

#[test]
fn reads_agree_with_versions_kept_by_stamp() {
    let mut compared = 0;
    for (shape, calls) in lists() {
        let mut history = History::new(shape);
        let mut versions = Versions::default();
        for call in &calls {
            let answer = history.call(call);
            if !answer.is_refused() {
                if let Some(expected) = versions.call(call, &answer) {
                    assert_eq!(answer, expected, "{call:?}");
                    compared += 1;
                }
            }
        }
        // At the end, reads of every row at a few stamps.
        let last = history.last_stamp();
        for stamp in [0, last / 3, last / 2, last - last / 4, last] {
            for row in 0..history.rows_given() {
                let answer = history.call(&Call::ReadAt { stamp, row, column: 0 });
                assert_eq!(answer, versions.read(stamp, row, 0));
            }
        }
    }
    assert!(compared > 10_000, "{compared}");
}

#[test]
fn keepers_agree_with_versions_kept_by_stamp() {
    // How many calls of the lists showed a keeper; how many lists left more than three different ones.
    let (mut shown, mut several) = (0, 0);
    for (shape, calls) in lists() {
        let mut history = History::new(shape);
        let mut versions = Versions::default();
        for call in &calls {
            let answer = history.call(call);
            if answer.is_refused() {
                continue;
            }
            let expected = versions.call(call, &answer);
            if matches!(call, Call::KeeperAt { .. }) {
                assert_eq!(Some(&answer), expected.as_ref(), "{call:?}");
                shown += u32::from(answer != Answer::None);
            }
        }
        // At the end, the keepers of every cell at a few stamps.
        let last = history.last_stamp();
        let mut found = BTreeSet::new();
        for stamp in [0, last / 3, last / 2, last - last / 4, last.saturating_sub(1), last] {
            for row in 0..history.rows_given() {
                for column in 0..shape.columns {
                    let answer = history.call(&Call::KeeperAt { stamp, row, column });
                    assert_eq!(answer, versions.keeper(stamp, row, column));
                    if let Answer::Number(keeper) = answer {
                        found.insert(keeper);
                    }
                }
            }
        }
        several += u32::from(found.len() > 3);
    }
    assert!(shown > 2_000 && several > 200, "{shown}, {several}");
}

/// Document 02, Item 6: "the keeper of the value that 08 would show, or none, refused as 08 is".
#[test]
fn a_keeper_is_shown_refused_or_none_as_a_read_at_the_same_stamp_is() {
    let (mut shown, mut none) = (0, 0);
    let mut refused = BTreeMap::new();
    for (shape, calls) in lists() {
        let mut history = History::new(shape);
        for call in &calls {
            let twin = match *call {
                Call::ReadAt { stamp, row, column } => Call::KeeperAt { stamp, row, column },
                Call::KeeperAt { stamp, row, column } => Call::ReadAt { stamp, row, column },
                _ => {
                    history.call(call);
                    continue;
                }
            };
            match (history.call(call), history.call(&twin)) {
                (Answer::Version { .. }, Answer::Number(_))
                | (Answer::Number(_), Answer::Version { .. }) => shown += 1,
                (Answer::None, Answer::None) => none += 1,
                (Answer::Refused(number), Answer::Refused(other)) if number == other => {
                    *refused.entry(number).or_insert(0) += 1;
                }
                answers => panic!("{call:?}: {answers:?}"),
            }
        }
    }
    assert!(shown > 4_000 && none > 4_000, "{shown}, {none}");
    assert!(refused.keys().eq(&[5, 6, 13]), "{refused:?}");
    assert!(refused.values().all(|count| *count > 100), "{refused:?}");
}

/// Item 6: 13 begins as 01 does. Only calls for a keeper tell the two apart, and ways back.
#[test]
fn without_keepers_no_answer_changes_but_the_keepers() {
    let (mut changed, mut refused) = (0, 0);
    for (shape, calls) in lists() {
        let plain = |call: &Call| match call {
            Call::BeginAs { .. } => Call::Begin,
            call => call.clone(),
        };
        let unknown: Vec<Call> = calls.iter().map(plain).collect();
        let both = answers(shape, &calls).into_iter().zip(answers(shape, &unknown));
        for (call, (with, without)) in calls.iter().zip(both) {
            match (call, &without) {
                (Call::KeeperAt { .. }, Answer::Number(keeper)) => {
                    assert!(*keeper == 0 && matches!(with, Answer::Number(_)), "{call:?}");
                    changed += u32::from(with != without);
                }
                (Call::Downgrade, without) => {
                    assert_eq!(*without, Answer::Done, "with keeper 0 throughout");
                    refused += u32::from(with == Answer::Refused(22));
                }
                _ => assert_eq!(with, without, "{call:?}"),
            }
        }
    }
    assert!(changed > 1_500 && refused > 500, "{changed}, {refused}");
}

/// A list of a seed with the form of the memory at each call.
fn with_forms(seed: u64, shape: Shape, calls: Vec<Call>) -> Vec<(Form, Call, Answer)> {
    let mut form = generate::form(seed);
    let answers = answers(shape, &calls);
    let lent = |(call, answer): (Call, Answer)| {
        let lent = form;
        if !answer.is_refused() {
            form = call.moves_to().unwrap_or(form);
        }
        (lent, call, answer)
    };
    calls.into_iter().zip(answers).map(lent).collect()
}

/// Item 7: lists start from either form, "they lend no call a form that it does not work on", and have
/// moves of every kind: up, back, back where that is refused, and there and back with no call between.
#[test]
fn lists_lend_each_call_a_form_that_it_works_on() {
    let (mut starts, mut on_form_1, mut up, mut back, mut refused) = ([0; 2], 0, 0, 0, 0);
    let (mut with_keeper_back, mut there_and_back) = (0, 0);
    for seed in 0..504 {
        let shape = generate::shape(seed);
        for calls in [generate::calls(seed, shape, 240), generate::wide_calls(seed, shape, 240)] {
            let list = with_forms(seed, shape, calls);
            starts[usize::from(list[0].0 == Form::Newest)] += 1;
            for (form, call, answer) in &list {
                assert!(call.works_on(*form), "{call:?} on {form:?}");
                on_form_1 += u32::from(*form == Form::First);
                match (call, answer) {
                    (Call::Upgrade, answer) => {
                        assert_eq!(*answer, Answer::Done);
                        up += 1;
                    }
                    (Call::Downgrade, Answer::Done) => back += 1,
                    (Call::Downgrade, answer) => {
                        assert_eq!(*answer, Answer::Refused(22));
                        refused += 1;
                    }
                    _ => {}
                }
            }
            let moved = |(_, call, answer): &&(Form, Call, Answer)| {
                call.moves_to().is_some() && !answer.is_refused()
            };
            there_and_back +=
                list.windows(2).filter(|two| two.iter().all(|one| moved(&one))).count();
            // Where a transaction was begun with a keeper, and the way back is open all the same.
            let begun = |(_, call, _): &(Form, Call, Answer)| matches!(call, Call::BeginAs { keeper } if *keeper != 0);
            let first = list.iter().position(begun).unwrap_or(list.len());
            let back = |(_, call, answer): &(Form, Call, Answer)| {
                *call == Call::Downgrade && *answer == Answer::Done
            };
            with_keeper_back += list[first..].iter().filter(|one| back(one)).count();
        }
    }
    assert!(starts.iter().all(|lists| *lists > 300), "{starts:?}");
    assert!(on_form_1 > 50_000, "{on_form_1}");
    assert!(up > 1_500 && back > 1_500 && refused > 1_500, "{up}, {back}, {refused}");
    assert!(there_and_back > 700, "{there_and_back}");
    assert!(with_keeper_back > 20, "{with_keeper_back}");
}

/// Item 7: "In the plain history a move alters nothing." So the other calls answer the same without it.
#[test]
fn striking_the_moves_changes_no_answer() {
    let mut struck = 0;
    for (shape, calls) in lists() {
        let moves = |call: &Call| call.moves_to().is_some();
        let rest: Vec<Call> = calls.iter().filter(|call| !moves(call)).cloned().collect();
        struck += calls.len() - rest.len();
        let whole = calls.iter().zip(answers(shape, &calls));
        let kept = whole.filter(|(call, _)| !moves(call)).map(|(_, answer)| answer);
        assert!(kept.eq(answers(shape, &rest)), "{shape:?}");
    }
    assert!(struck > 2_000, "{struck}");
}

/// The way back is refused exactly where some row, some record or some open transaction bears a keeper,
/// which is kept here beside the history, by the calls alone.
#[test]
fn the_way_back_agrees_with_keepers_kept_by_calls() {
    // How often the way back was open and refused, and refused by one of the three alone.
    let (mut open, mut alone) = (0, [0; 3]);
    for (shape, calls) in lists() {
        let mut history = History::new(shape);
        let mut begun: BTreeMap<u32, u16> = BTreeMap::new();
        let (mut rows, mut records) = (BTreeSet::new(), BTreeSet::new());
        for call in &calls {
            let answer = history.call(call);
            match (call, &answer) {
                (_, Answer::Refused(_)) => {}
                (Call::Begin, Answer::Number(number)) => {
                    begun.insert(*number, 0);
                }
                (Call::BeginAs { keeper }, Answer::Number(number)) => {
                    begun.insert(*number, *keeper);
                }
                (Call::Insert { transaction, .. }, _) => {
                    rows.insert(begun[transaction]);
                }
                (Call::Update { transaction, .. } | Call::Delete { transaction, .. }, _) => {
                    records.insert(begun[transaction]);
                }
                (Call::Commit { transaction, .. } | Call::Abort { transaction }, _) => {
                    begun.remove(transaction);
                }
                _ => {}
            }
            let borne = [
                rows.iter().any(|keeper| *keeper != 0),
                records.iter().any(|keeper| *keeper != 0),
                begun.values().any(|keeper| *keeper != 0),
            ];
            let due = if borne.contains(&true) { Some(22) } else { None };
            assert_eq!(history.refusal(&Call::Downgrade), due, "{call:?}");
            assert_eq!(history.refusal(&Call::Upgrade), None);
            if *call == Call::Downgrade {
                open += u32::from(due.is_none());
                for (place, count) in alone.iter_mut().enumerate() {
                    let only = (0..3).all(|other| borne[other] == (other == place));
                    *count += u32::from(only);
                }
            }
        }
    }
    assert!(open > 500 && alone.iter().all(|count| *count > 10), "{open}, {alone:?}");
}

#[test]
fn crossings_agree_with_versions_kept_by_stamp() {
    // Lists of one and of several stamps, and those that outnumber their places.
    let (mut single, mut several, mut refused) = (0, 0, 0);
    for (shape, calls) in lists() {
        let mut history = History::new(shape);
        let mut versions = Versions::default();
        for call in &calls {
            let answer = history.call(call);
            if let Call::Crossings { row, column, mark, from, to, places } = *call {
                let all = versions.crossings(row, column, mark, from, to);
                match &answer {
                    Answer::Crossings(stamps) => {
                        assert_eq!(*stamps, all, "{call:?}");
                        assert!(all.len() <= places as usize, "{call:?}");
                        single += u32::from(all.len() == 1);
                        several += u32::from(all.len() > 1);
                    }
                    Answer::Refused(21) => {
                        assert!(all.len() > places as usize, "{call:?}");
                        refused += 1;
                    }
                    answer => assert!(answer.is_refused(), "{call:?}"),
                }
            }
            if !answer.is_refused() {
                versions.call(call, &answer);
            }
        }
        // At the end, every cell by a few marks, in all minutes and in some.
        let last = history.last_stamp();
        for (from, to) in [(0, last), (last / 2, last), (0, last / 2), (last, last)] {
            for row in 0..history.rows_given() {
                for mark in [i32::MIN, 0, 1000, i32::MAX] {
                    let call = Call::Crossings { row, column: 0, mark, from, to, places: 512 };
                    let all = versions.crossings(row, 0, mark, from, to);
                    assert_eq!(history.call(&call), Answer::Crossings(all));
                }
            }
        }
    }
    for (count, least) in [(single, 300), (several, 300), (refused, 100)] {
        assert!(count >= least, "{single}, {several}, {refused}");
    }
}

#[test]
fn page_calls_agree_with_pages_that_are_really_copied() {
    let mut merges = 0;
    for (shape, calls) in lists() {
        let mut history = History::new(shape);
        let mut pages = Pages::new(shape);
        for call in &calls {
            let answer = history.call(call);
            if answer == Answer::Refused(18) {
                assert_eq!(pages.free(), 0);
            }
            if !answer.is_refused() {
                if let Some(expected) = pages.call(call, &answer) {
                    assert_eq!(answer, expected, "{call:?}");
                    merges += u32::from(matches!(call, Call::Merge { .. }));
                }
            }
        }
        for row in 0..history.rows_given() {
            for column in 0..shape.columns {
                let call = Call::PageCell { column, row };
                let answer = history.call(&call);
                assert_eq!(pages.call(&call, &answer), Some(answer));
            }
        }
    }
    assert!(merges > 1_000, "{merges}");
}

#[test]
fn striking_merges_and_releases_changes_no_other_answer() {
    for (shape, calls) in lists() {
        let struck = |call: &Call| matches!(call, Call::Merge { .. } | Call::Release);
        let page = |call: &Call| matches!(call, Call::PageCell { .. } | Call::Lineage { .. });
        let rest: Vec<Call> = calls.iter().filter(|call| !struck(call)).cloned().collect();
        let whole = answers(shape, &calls);
        let kept = calls.iter().zip(whole).filter(|(call, _)| !struck(call));
        for ((call, with), without) in kept.zip(answers(shape, &rest)) {
            assert!(page(call) || with == without, "{call:?}: {with:?}, {without:?}");
        }
    }
}

/// The answers to a read of every column of the first so many rows, row by row.
fn picture(history: &mut History, rows: u32, read: impl Fn(u32, u32) -> Call) -> Vec<Answer> {
    let columns = history.shape().columns;
    let cells = (0..rows).flat_map(|row| (0..columns).map(move |column| (row, column)));
    cells.map(|(row, column)| history.call(&read(row, column))).collect()
}

/// The same for a stamp.
fn picture_at(history: &mut History, rows: u32, stamp: u32) -> Vec<Answer> {
    picture(history, rows, |row, column| Call::ReadAt { stamp, row, column })
}

/// Document 02, Item 3: "a reader may rely on an unchanging answer, refusals aside, for minutes
/// before the last commit's", that is, before it at the first reading. A scan opened in the last
/// commit's minute is a reader of its own; the next test is of such scans too.
#[test]
fn what_was_read_for_a_minute_before_the_last_commits_is_read_ever_after() {
    // How often a later commit of a minute changed a cell, which its readers could not rely on yet;
    // how many cells of minutes that were over a commit of a later minute changed; how many reads
    // in the lists were of such cells.
    let (mut within, mut after, mut reads) = (0, 0, 0);
    for (shape, calls) in lists() {
        let mut history = History::new(shape);
        let mut scans = HashMap::new();
        let mut seen = HashMap::new();
        for call in &calls {
            let (last, rows) = (history.last_stamp(), history.rows_given());
            let commit = matches!(call, Call::Commit { .. });
            let before = if commit { picture_at(&mut history, rows, last) } else { Vec::new() };
            let answer = history.call(call);
            if answer.is_refused() {
                continue;
            }
            let (stamp, row, column) = match *call {
                Call::Commit { stamp, .. } if stamp == last => {
                    let now = picture_at(&mut history, rows, last);
                    within += before.iter().zip(now).filter(|(before, now)| *before != now).count();
                    continue;
                }
                Call::Commit { .. } => {
                    // The minute is over, and this commit changes none of its answers.
                    assert_eq!(picture_at(&mut history, rows, last), before, "{call:?}");
                    for (place, answer) in (0..).zip(before) {
                        let cell = (last, place / shape.columns, place % shape.columns);
                        seen.insert(cell, answer);
                    }
                    continue;
                }
                Call::OpenScan { stamp } if stamp < last => {
                    scans.insert(history.open_scans().last().copied().unwrap(), stamp);
                    continue;
                }
                Call::ReadAt { stamp, row, column } if stamp < last => (stamp, row, column),
                Call::ScanRead { scan, row, column } if scans.contains_key(&scan) => {
                    (scans[&scan], row, column)
                }
                _ => continue,
            };
            let first = seen.entry((stamp, row, column)).or_insert(answer.clone());
            assert_eq!(*first, answer, "{call:?}");
            reads += u32::from(history.call(&Call::Latest { row, column }) != answer);
        }
        for ((stamp, row, column), answer) in seen {
            assert_eq!(history.call(&Call::ReadAt { stamp, row, column }), answer);
            after += u32::from(history.call(&Call::Latest { row, column }) != answer);
        }
    }
    assert!(within > 8_000, "{within}");
    assert!(after > 18_000, "{after}");
    assert!(reads > 1_500, "{reads}");
}

/// A scan as it was at its opening: how many rows were given, and what its cells and sums gave.
struct Opened {
    stamp: u32,
    rows: u32,
    cells: Vec<Answer>,
    sums: Vec<Answer>,
}

impl Opened {
    fn of(history: &mut History, scan: u32, stamp: u32, rows: u32) -> Opened {
        let cells = picture(history, rows, |row, column| Call::ScanRead { scan, row, column });
        let columns = 0..history.shape().columns;
        let sums = columns.map(|column| history.call(&Call::Sum { scan, column })).collect();
        Opened { stamp, rows, cells, sums }
    }

    /// Reads the scan again, which gives the same.
    fn check(&self, history: &mut History, scan: u32) {
        let again = Opened::of(history, scan, self.stamp, self.rows);
        assert_eq!(self.cells, again.cells, "scan {scan}");
        assert_eq!(self.sums, again.sums, "scan {scan}");
    }
}

/// Item 3: "and for every open scan". Whatever is called between, commits of the scan's minute
/// included.
#[test]
fn an_open_scan_is_read_and_summed_the_same_until_it_is_closed() {
    // Cells that a later commit of the scan's minute set, inserted or ended, so that a read at the
    // scan's stamp has come to give another answer than the scan; reads of such cells, and sums of
    // such columns, in the lists.
    let (mut set, mut inserted, mut ended) = (0, 0, 0);
    let (mut reads, mut sums) = (0, 0);
    for (shape, calls) in lists() {
        let mut history = History::new(shape);
        let mut scans: BTreeMap<u32, Opened> = BTreeMap::new();
        // At the end every scan is closed, so that each is looked at before it is.
        let closes = (1..=calls.len() as u32).map(|scan| Call::Close { scan });
        for call in calls.iter().cloned().chain(closes) {
            if let Call::Close { scan } = call {
                if let Some(opened) = scans.remove(&scan) {
                    opened.check(&mut history, scan);
                    let rows = history.rows_given();
                    let at = picture_at(&mut history, rows, opened.stamp);
                    let by = picture(&mut history, rows, |row, column| Call::ScanRead {
                        scan,
                        row,
                        column,
                    });
                    for pair in by.iter().zip(&at).filter(|(by, at)| by != at) {
                        match pair {
                            (Answer::None, _) => inserted += 1,
                            (_, Answer::None) => ended += 1,
                            _ => set += 1,
                        }
                    }
                }
            }
            let answer = history.call(&call);
            if answer.is_refused() {
                continue;
            }
            match call {
                Call::OpenScan { stamp } => {
                    let (scan, rows) =
                        (*history.open_scans().last().unwrap(), history.rows_given());
                    scans.insert(scan, Opened::of(&mut history, scan, stamp, rows));
                }
                Call::Commit { .. } | Call::Merge { .. } | Call::Release => {
                    for (scan, opened) in &scans {
                        opened.check(&mut history, *scan);
                    }
                }
                Call::ScanRead { scan, row, column } => {
                    // A row given after the opening was committed after it, if ever.
                    let Opened { stamp, cells, .. } = &scans[&scan];
                    let place = (row * shape.columns + column) as usize;
                    assert_eq!(answer, *cells.get(place).unwrap_or(&Answer::None), "{call:?}");
                    let at = history.call(&Call::ReadAt { stamp: *stamp, row, column });
                    reads += u32::from(at != answer);
                }
                Call::Sum { scan, column } => {
                    let opened = &scans[&scan];
                    assert_eq!(answer, opened.sums[column as usize], "{call:?}");
                    let (stamp, rows) = (opened.stamp, history.rows_given());
                    let changed = |row: u32| {
                        let at = history.call(&Call::ReadAt { stamp, row, column });
                        history.call(&Call::ScanRead { scan, row, column }) != at
                    };
                    sums += u32::from((0..rows).any(changed));
                }
                _ => {}
            }
        }
    }
    for (count, least) in [(set, 400), (inserted, 8_000), (ended, 80), (reads, 400), (sums, 400)] {
        assert!(count >= least, "{set}, {inserted}, {ended}; {reads}, {sums}");
    }
}

/// Item 3: "a reader may rely on an unchanging answer, refusals aside, for minutes before the last
/// commit's". So every list of crossings of minutes that are over is the same ever after, whatever is
/// called between.
#[test]
fn crossings_of_minutes_before_the_last_commits_are_listed_the_same_ever_after() {
    // How many lists there were; how many of them held crossings; how many of these cells have crossed
    // the mark since, which another range of minutes shows.
    let (mut lists_seen, mut held, mut since) = (0, 0, 0);
    for (shape, calls) in lists() {
        let mut history = History::new(shape);
        let mut seen: Vec<(Call, Answer)> = Vec::new();
        for call in &calls {
            let answer = history.call(call);
            let Call::Crossings { to, .. } = *call else { continue };
            if to < history.last_stamp() && !answer.is_refused() {
                seen.push((call.clone(), answer));
            }
        }
        for (call, answer) in seen {
            assert_eq!(history.call(&call), answer, "{call:?}");
            let Call::Crossings { row, column, mark, from, .. } = call else { unreachable!() };
            let (to, places) = (history.last_stamp(), 512);
            let now = Call::Crossings { row, column, mark, from, to, places };
            lists_seen += 1;
            held += u32::from(answer != Answer::Crossings(Vec::new()));
            since += u32::from(history.call(&now) != answer);
        }
    }
    for (count, least) in [(lists_seen, 800), (held, 200), (since, 200)] {
        assert!(count >= least, "{lists_seen}, {held}, {since}");
    }
}

/// The same of keepers: what a call for one answers for a minute that is over, it answers ever after.
#[test]
fn keepers_of_minutes_before_the_last_commits_are_the_same_ever_after() {
    // How often a later commit of a minute changed a cell's keeper; how many keepers were shown in the
    // lists for a minute that was over; how many cells of such minutes have got another keeper since.
    let (mut within, mut shown, mut since) = (0, 0, 0);
    let at = |stamp: u32| move |row, column| Call::KeeperAt { stamp, row, column };
    for (shape, calls) in lists() {
        let mut history = History::new(shape);
        let mut seen = BTreeMap::new();
        for call in &calls {
            let (last, rows) = (history.last_stamp(), history.rows_given());
            let commit = matches!(call, Call::Commit { .. });
            let before = if commit { picture(&mut history, rows, at(last)) } else { Vec::new() };
            let answer = history.call(call);
            if answer.is_refused() {
                continue;
            }
            match *call {
                Call::Commit { stamp, .. } => {
                    let now = picture(&mut history, rows, at(last));
                    if stamp == last {
                        within += before.iter().zip(now).filter(|(old, new)| *old != new).count();
                    } else {
                        assert_eq!(before, now, "{call:?}");
                        let cells = (0..).zip(before).map(|(place, answer)| {
                            ((last, place / shape.columns, place % shape.columns), answer)
                        });
                        seen.extend(cells);
                    }
                }
                Call::KeeperAt { stamp, row, column } if stamp < last => {
                    let first = seen.entry((stamp, row, column)).or_insert(answer.clone());
                    assert_eq!(*first, answer, "{call:?}");
                    shown += u32::from(answer != Answer::None);
                }
                _ => {}
            }
        }
        let last = history.last_stamp();
        for ((stamp, row, column), answer) in seen {
            assert_eq!(history.call(&at(stamp)(row, column)), answer);
            since += u32::from(history.call(&at(last)(row, column)) != answer);
        }
    }
    assert!(within > 8_000 && shown > 800 && since > 15_000, "{within}, {shown}, {since}");
}

#[test]
fn refused_calls_and_reads_alter_no_list() {
    for (shape, calls) in lists().step_by(6) {
        let mut history = History::new(shape);
        for call in &calls {
            let before = history.clone();
            let answer = history.call(call);
            assert_eq!(before.refusal(call).is_some(), answer.is_refused());
            // Moves have no command byte.
            let read = command::parts(call).is_none_or(
                |(byte, _)| matches!(byte, 0x07..=0x09 | 0x0B | 0x0C | 0x10..=0x12 | 0x14),
            );
            if read || answer.is_refused() {
                assert_eq!(history, before, "{call:?}");
            }
        }
    }
}

#[test]
fn streams_meet_every_refusal_but_2_and_accept_most_calls() {
    // So many seeds that a shape outside the limits, the rarest, is among them.
    let survey = Survey::of(0, 240);
    for number in (1..=21).filter(|number| *number != 2) {
        assert!(survey.refused(number) > 0, "no refusal {number}");
    }
    assert_eq!(survey.refused(2), 0);
    assert_eq!(survey.long_streams, 2);
    let (calls, accepted) = survey.calls();
    assert!((75..=92).contains(&(accepted * 100 / calls)), "{accepted} of {calls}");
}

#[test]
fn situations_are_those_of_accepted_reads_and_fit_the_answers() {
    // Reads of a value committed at 0, whose stamp is that of a pending one.
    let mut committed_at_0 = 0;
    for (shape, calls) in lists() {
        let mut history = History::new(shape);
        let mut commit_at_0 = false;
        for call in &calls {
            let found = history.situations(call);
            let is = |situation| found.contains(&situation);
            let pending = is(Situation::PendingSetting) || is(Situation::PendingInsert);
            let answer = history.call(call);
            match answer {
                _ if matches!(call, Call::KeeperAt { .. }) => assert_eq!(found, [], "{call:?}"),
                Answer::None => assert_eq!(found, [Situation::Absent], "{call:?}"),
                Answer::Version { stamp, .. } => {
                    assert!(!is(Situation::Absent), "{call:?}");
                    assert!(
                        if pending { stamp == 0 } else { stamp > 0 || commit_at_0 },
                        "{call:?}"
                    );
                    committed_at_0 += u32::from(!pending && stamp == 0);
                }
                _ => assert_eq!(found, [], "{call:?}"),
            }
            if let Call::OwnRead { row, column, .. } = *call {
                // What is not pending is the latest.
                let latest = history.call(&Call::Latest { row, column });
                assert!(
                    pending || is(Situation::Absent) || latest == answer || answer.is_refused()
                );
            }
            let at_0 = matches!(call, Call::Commit { stamp: 0, .. });
            commit_at_0 |= at_0 && !answer.is_refused();
        }
    }
    assert!(committed_at_0 > 1_500, "{committed_at_0}");
}

#[test]
fn streams_meet_every_situation_of_a_read_by_every_command_that_can() {
    let survey = Survey::of(0, 480);
    for (situation, commands) in SITUATIONS {
        for byte in command::COMMANDS {
            let met = survey.met(situation, byte);
            let expected = if commands.contains(&byte) { met >= 20 } else { met == 0 };
            assert!(expected, "{situation:?} by {byte:02X}: {met}");
        }
    }
}

#[test]
fn situations_in_a_minute_are_those_of_accepted_reads_and_fit_the_answers() {
    for (shape, calls) in lists() {
        let mut history = History::new(shape);
        for call in &calls {
            let found = history.in_minute(call);
            let answer = history.call(call);
            let (scan, rows, column) = match *call {
                _ if answer.is_refused() => (None, 0..0, 0),
                Call::ScanRead { scan, row, column } => (Some(scan), row..row + 1, column),
                Call::Sum { scan, column } => (Some(scan), 0..history.rows_given(), column),
                Call::Latest { .. } | Call::ReadAt { .. } | Call::OwnRead { .. } => {
                    assert!(found.iter().all(|one| *one == InMinute::Newest), "{call:?}");
                    continue;
                }
                _ => (None, 0..0, 0),
            };
            let Some(scan) = scan else {
                assert_eq!(found, [], "{call:?}");
                continue;
            };
            // What a read at the scan's stamp gives, which sees all commits of the minute.
            let stamp = history.scan_stamp(scan);
            let mut expected = Vec::new();
            for row in rows {
                let by = history.call(&Call::ScanRead { scan, row, column });
                let at = history.call(&Call::ReadAt { stamp, row, column });
                match (by, at) {
                    (by, at) if by == at => {}
                    (Answer::None, _) => expected.push(InMinute::LaterInsert),
                    (_, Answer::None) => expected.push(InMinute::LaterEnd),
                    // A sum has no stamps.
                    (Answer::Version { value: by, .. }, Answer::Version { value: at, .. })
                        if by == at && matches!(call, Call::Sum { .. }) => {}
                    _ => expected.push(InMinute::LaterSetting),
                }
            }
            for one in [InMinute::LaterInsert, InMinute::LaterEnd, InMinute::LaterSetting] {
                assert_eq!(found.contains(&one), expected.contains(&one), "{call:?}");
            }
            let later = found.contains(&InMinute::LaterCommit);
            assert!(later || expected.is_empty(), "{call:?}");
        }
    }
}

#[test]
fn streams_meet_every_situation_in_a_minute_by_every_command_that_can() {
    let survey = Survey::of(0, 480);
    for (situation, commands) in IN_MINUTE {
        for byte in command::COMMANDS {
            let met = survey.met_in_minute(situation, byte);
            let expected = if commands.contains(&byte) { met >= 20 } else { met == 0 };
            assert!(expected, "{situation:?} by {byte:02X}: {met}");
        }
    }
}

#[test]
fn situations_of_crossings_are_those_of_the_call_and_fit_the_answers() {
    let mut slices = 0;
    for (shape, calls) in lists() {
        let mut history = History::new(shape);
        for call in &calls {
            let found = history.in_crossings(call);
            let is = |situation| found.contains(&situation);
            let answer = history.call(call);
            let Call::Crossings { from, to, places, .. } = *call else {
                assert_eq!(found, [], "{call:?}");
                continue;
            };
            let too_many = is(InCrossings::OneTooMany) || is(InCrossings::ManyTooMany);
            match answer {
                Answer::Crossings(stamps) => {
                    slices += 1;
                    let twice = stamps.windows(2).any(|pair| pair[0] == pair[1]);
                    let fits = !stamps.is_empty() && stamps.len() == places as usize;
                    assert!(!too_many, "{call:?}");
                    assert_eq!(is(InCrossings::Nothing), stamps.is_empty(), "{call:?}");
                    assert_eq!(is(InCrossings::AtFrom), stamps.contains(&from), "{call:?}");
                    assert_eq!(is(InCrossings::AtTo), stamps.contains(&to), "{call:?}");
                    assert_eq!(is(InCrossings::Twice), twice, "{call:?}");
                    assert_eq!(is(InCrossings::ExactFit), fits, "{call:?}");
                    assert!(stamps.windows(2).all(|pair| pair[0] <= pair[1]), "{call:?}");
                    assert!(stamps.iter().all(|stamp| (from..=to).contains(stamp)), "{call:?}");
                }
                Answer::Refused(21) => assert!(too_many, "{call:?}"),
                Answer::Refused(13) => {
                    let late = [InCrossings::ToLater];
                    let none = [InCrossings::FromAfterTo];
                    assert_eq!(found, if from > to { none } else { late }, "{call:?}");
                }
                Answer::Refused(5 | 6) => assert_eq!(found, [], "{call:?}"),
                answer => panic!("{call:?}: {answer:?}"),
            }
        }
    }
    assert!(slices > 2_000, "{slices}");
}

#[test]
fn streams_meet_every_situation_of_crossings() {
    // Only a stream in which a cell is set again and again has as many crossings as gatebook lends
    // places for, so more are looked through.
    let survey = Survey::of(0, 960);
    for situation in InCrossings::ALL {
        let (calls, streams) = survey.met_in_crossings(situation);
        assert!(calls >= 20 && streams >= 12, "{situation:?}: {calls} in {streams} streams");
    }
}

#[test]
fn situations_of_keepers_are_those_of_the_call_and_fit_the_answers() {
    let mut shown = 0;
    for (shape, calls) in lists() {
        let mut history = History::new(shape);
        // Kept beside the history: the keeper of each transaction, and the inserter of each row.
        let mut keepers = BTreeMap::new();
        let mut inserters = Vec::new();
        for call in &calls {
            let found = history.in_keepers(call);
            let is = |situation| found.contains(&situation);
            let answer = history.call(call);
            match (call, &answer) {
                (Call::Begin, Answer::Number(transaction)) => {
                    keepers.insert(*transaction, 0);
                }
                (Call::BeginAs { keeper }, Answer::Number(transaction)) => {
                    keepers.insert(*transaction, u32::from(*keeper));
                }
                (Call::Insert { transaction, .. }, Answer::Number(_)) => {
                    inserters.push(*transaction);
                }
                _ => {}
            }
            let Call::KeeperAt { row, column, .. } = *call else {
                assert_eq!(found, [], "{call:?}");
                continue;
            };
            let nothing = is(InKeepers::Nothing);
            match answer {
                Answer::None => assert!(nothing && found.len() <= 2, "{call:?}: {found:?}"),
                Answer::Number(keeper) => {
                    shown += 1;
                    assert!(!nothing && !is(InKeepers::Ended), "{call:?}");
                    let inserters = keepers[&inserters[row as usize]];
                    assert_eq!(is(InKeepers::Inserter), inserters != keeper, "{call:?}");
                    let last_begun = keepers[&(keepers.len() as u32)];
                    assert_eq!(is(InKeepers::LastBegun), last_begun != keeper, "{call:?}");
                    let stamp = history.last_stamp();
                    let latest = history.call(&Call::KeeperAt { stamp, row, column });
                    let other = latest != answer && latest != Answer::None;
                    assert_eq!(is(InKeepers::Latest), other, "{call:?}");
                    assert_eq!(is(InKeepers::TwoBytes), keeper >= 256, "{call:?}");
                    let swapped = keeper % 256 * 256 + keeper / 256;
                    assert_eq!(is(InKeepers::ByteOrder), swapped != keeper, "{call:?}");
                    assert!(!is(InKeepers::Unknown) || keeper == 0, "{call:?}");
                    // What is set by a merged setting is not what the inserter gave.
                    assert!(!is(InKeepers::Merged) || is(InKeepers::Inserter), "{call:?}");
                    assert!(!is(InKeepers::OriginalOfAborted) || is(InKeepers::Original));
                    assert!(!is(InKeepers::Original) || !is(InKeepers::Inserter), "{call:?}");
                }
                answer => assert!(answer.is_refused() && found.is_empty(), "{call:?}"),
            }
        }
    }
    assert!(shown > 2_000, "{shown}");
}

#[test]
fn streams_meet_every_situation_of_keepers() {
    let survey = Survey::of(0, 480);
    for situation in InKeepers::ALL {
        let (calls, streams) = survey.met_in_keepers(situation);
        assert!(calls >= 20 && streams >= 12, "{situation:?}: {calls} in {streams} streams");
    }
}

#[test]
fn streams_of_every_workload_show_keepers_that_differ() {
    for workload in 0..generate::WORKLOADS {
        let seeds = (workload..).step_by(generate::WORKLOADS as usize);
        let mut survey = Survey::default();
        for seed in seeds.filter(|seed| !generate::is_long(*seed)).take(60) {
            survey.run(&generate::stream(seed), false);
        }
        let met = |situation| survey.met_in_keepers(situation).0;
        let counts = [InKeepers::Inserter, InKeepers::Latest, InKeepers::LastBegun].map(met);
        let [inserter, latest, last_begun] = counts;
        let enough = inserter >= 10 && latest > 0 && last_begun >= 60;
        assert!(enough, "{counts:?} in workload {workload}");
    }
}

#[test]
fn streams_of_every_workload_list_crossings() {
    for workload in 0..generate::WORKLOADS {
        let seeds = (workload..).step_by(generate::WORKLOADS as usize);
        let mut survey = Survey::default();
        for seed in seeds.filter(|seed| !generate::is_long(*seed)).take(60) {
            survey.run(&generate::stream(seed), false);
        }
        let (first, _) = survey.met_in_crossings(InCrossings::FirstValue);
        let (crossed, _) = survey.met_in_crossings(InCrossings::AtTo);
        assert!(first >= 60 && crossed >= 5, "{first}, {crossed} in workload {workload}");
    }
}

#[test]
fn streams_of_every_workload_have_minutes_with_several_commits() {
    for workload in 0..generate::WORKLOADS {
        let seeds = (workload..).step_by(generate::WORKLOADS as usize);
        let mut survey = Survey::default();
        for seed in seeds.filter(|seed| !generate::is_long(*seed)).take(60) {
            survey.run(&generate::stream(seed), false);
        }
        let (later, _) = survey.commits(CommitStamp::Later);
        let (again, _) = survey.commits(CommitStamp::Again);
        let (new_store, at_0) = survey.commits(CommitStamp::NewStore);
        let (earlier, _) = survey.commits(CommitStamp::Earlier);
        let share = again * 100 / (later + again + new_store);
        assert!((30..=50).contains(&share), "{share} % in workload {workload}");
        // In a third to two thirds of the streams the first commit is at 0.
        assert!((20..=40).contains(&at_0), "{at_0} streams of workload {workload}");
        assert!(earlier > 0 && earlier * 10 <= later, "{earlier} in workload {workload}");
        for byte in [0x0B, 0x0C] {
            let met = survey.met_in_minute(InMinute::LaterCommit, byte);
            assert!(met >= 10, "{met} of {byte:02X} in workload {workload}");
        }
    }
}

#[test]
fn streams_of_every_workload_have_all_scans_open_and_few_openings_without_a_place() {
    for workload in 0..generate::WORKLOADS {
        let seeds = (workload..).step_by(generate::WORKLOADS as usize);
        let mut survey = Survey::default();
        for seed in seeds.filter(|seed| !generate::is_long(*seed)).take(60) {
            survey.run(&generate::stream(seed), false);
        }
        let streams = survey.streams_with_scans(OPEN_SCANS);
        assert!(streams >= 15, "{streams} streams of workload {workload}");
        for byte in [0x0B, 0x0C, 0x0E, 0x0F] {
            let calls = survey.with_scans(OPEN_SCANS, byte, None);
            assert!(calls > 0, "{byte:02X} in workload {workload}");
        }
        let opened: u64 = (0..OPEN_SCANS).map(|open| survey.with_scans(open, 0x0A, None)).sum();
        let busy = survey.with_scans(OPEN_SCANS, 0x0A, Some(14));
        assert!(busy > 0 && busy * 4 <= opened, "{busy} and {opened} in workload {workload}");
        assert_eq!(survey.with_scans(OPEN_SCANS, 0x0A, None), 0);
        assert_eq!(survey.streams_with_scans(OPEN_SCANS + 1), 0);
    }
}

#[test]
fn lists_can_be_had_for_the_greatest_and_the_smallest_shape() {
    for (columns, ranges, capacity, spares) in [(16, 16, 512, 256), (1, 1, 1, 0)] {
        let shape = Shape { columns, ranges, capacity, spares };
        for seed in 0..12 {
            let calls = generate::calls(seed, shape, 300);
            assert_eq!(calls, generate::calls(seed, shape, 300), "the same for the same seed");
            let mut bytes = Vec::new();
            let mut commands = calls.iter().filter(|call| call.moves_to().is_none());
            assert!(commands.all(|call| command::write(&mut bytes, call, columns as usize)));
            let accepted = answers(shape, &calls).iter().filter(|a| !a.is_refused()).count();
            assert!(accepted > 180, "{accepted}");
        }
    }
}

#[test]
fn wide_numbers_are_refused_like_others() {
    let shape = Shape { columns: 3, ranges: 1, capacity: 30, spares: 3 };
    let mut wide = 0;
    for seed in 0..24 {
        let calls = generate::wide_calls(seed, shape, 300);
        for (call, answer) in calls.iter().zip(answers(shape, &calls)) {
            let fits = command::write(&mut Vec::new(), call, 3);
            if !fits && call.moves_to().is_none() {
                assert!(answer.is_refused(), "{call:?}");
                wide += 1;
            }
        }
    }
    assert!(wide > 50, "{wide}");
}

#[test]
fn missing_values_are_0_and_further_ones_ignored() {
    let mut history = History::new(Shape { columns: 2, ranges: 1, capacity: 4, spares: 0 });
    history.call(&Call::Begin);
    history.call(&Call::Insert { transaction: 1, values: vec![] });
    history.call(&Call::Insert { transaction: 1, values: vec![1, 2, 3] });
    history.call(&Call::Update { transaction: 1, row: 1, mask: 2, values: vec![7] });
    let mut own = |row| history.call(&Call::OwnRead { transaction: 1, row, column: 1 });
    assert_eq!(own(0), Answer::Version { value: 0, stamp: 0 });
    assert_eq!(own(1), Answer::Version { value: 0, stamp: 0 });
}

#[test]
fn a_trace_has_the_documented_form() {
    for seed in 0..20 {
        let mut lines = Vec::new();
        trace::write(seed, 50, &mut lines).unwrap();
        let text = String::from_utf8(lines).unwrap();
        assert_eq!(text.lines().count(), 51);
        // The calls of a trace can be encoded, but for the moves, and give the answers that the trace has.
        let calls: Vec<&str> =
            text.lines().map(|line| line.split(" => ").next().unwrap()).collect();
        let (shape, form) = calls[0].split_once(" form ").unwrap();
        assert_eq!(form, if generate::form(seed) == Form::First { "first" } else { "newest" });
        let commands = calls[1..].iter().filter(|call| !call.ends_with("grade"));
        let calls: Vec<&str> = [shape].into_iter().chain(commands.copied()).collect();
        // But for the places that are lent, which are no operand.
        let operands = |call: &&str| match call.strip_prefix("crossings ") {
            Some(words) => format!("crossings {}", words.rsplit_once(' ').unwrap().0),
            None => call.to_string(),
        };
        let calls: Vec<String> = calls.iter().map(operands).collect();
        let bytes = reference::text::encode(&calls.join("\n")).unwrap();
        assert_eq!(reference::text::decode(&bytes).replace(" mask", ""), calls.join("\n") + "\n");
    }
    let update = Call::Update { transaction: 2, row: 0, mask: 1, values: vec![1250, 0] };
    assert_eq!(trace::call_words(&update), "update 2 0 1 1250 0");
    assert_eq!(trace::answer_words(&Answer::Sum { count: 1, sum: -5 }), "sum 1 -5");
    let version = Answer::Version { value: -30, stamp: 10 };
    assert_eq!(trace::answer_words(&version), "version -30 10");
    assert_eq!(trace::answer_words(&Answer::Value(-30)), "value -30");
    let crossings = Call::Crossings { row: 1, column: 0, mark: -7, from: 2, to: 9, places: 3 };
    assert_eq!(trace::call_words(&crossings), "crossings 1 0 -7 2 9 3");
    assert_eq!(trace::call_words(&Call::BeginAs { keeper: 65_535 }), "begin-as 65535");
    let keeper_at = Call::KeeperAt { stamp: 10, row: 1, column: 0 };
    assert_eq!(trace::call_words(&keeper_at), "keeper-at 10 1 0");
    assert_eq!(trace::call_words(&Call::Upgrade), "upgrade");
    assert_eq!(trace::call_words(&Call::Downgrade), "downgrade");
    assert_eq!(trace::answer_words(&Answer::Crossings(vec![])), "crossings 0");
    assert_eq!(trace::answer_words(&Answer::Crossings(vec![4, 4])), "crossings 2 4 4");
}
