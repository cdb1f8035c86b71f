//! The plain page store and the definitions against the plain history, and against each other.

use checks::defined::Defined;
use checks::memory::{OPENS, SCANS};
use checks::plain::Plain;
use checks::{agree, same};
use reference::{Call, Form, Shape};

#[test]
fn answers_are_those_of_the_plain_history() {
    let tally = agree::run(&Plain::<0>, 0, 1100).expect("no difference");
    assert!(tally.largest > 0, "{tally:?}");
    assert!(tally.accepted * 10 > tally.calls * 8, "{tally:?}");
}

/// A third of the commits and more come in the minute of the last, and of these there are thousands
/// under a scan that was opened at that minute before them.
#[test]
fn lists_have_several_commits_in_one_minute() {
    let tally = agree::run(&Plain::<0>, 0, 1100).expect("no difference");
    assert!(tally.repeated * 3 > tally.commits, "{tally:?}");
    assert!(tally.under_scans > 2000, "{tally:?}");
}

/// There are lists of crossings, of which a third and more fill the slice, and some that outnumber it.
#[test]
fn lists_have_crossings_as_many_as_places_and_more() {
    let tally = agree::run(&Plain::<0>, 0, 1100).expect("no difference");
    assert!(tally.crossings > 900, "{tally:?}");
    assert!(tally.filled * 3 > tally.crossings, "{tally:?}");
    assert!(tally.outnumbered > 100, "{tally:?}");
}

/// There are thousands of calls for a keeper, and at most of those that give one a wrong reading of Item 6
/// gives another, each at many.
#[test]
fn lists_have_keepers_that_tell_wrong_readings() {
    let tally = agree::run(&Plain::<0>, 0, 2200).expect("no difference");
    let keepers = &tally.keepers;
    assert!(keepers.given > 3000 && keepers.none > 1000, "{tally:?}");
    assert!(keepers.telling * 2 > keepers.given, "{tally:?}");
    assert!(keepers.readings().iter().all(|count| *count > 200), "{tally:?}");
}

/// A third of the lists start from what form 1's making left, and a fourth of all calls is on form 1; there are
/// moves of every kind in hundreds of places.
#[test]
fn lists_have_moves_of_every_kind() {
    let tally = agree::run(&Plain::<0>, 0, 1100).expect("no difference");
    let moves = &tally.moves;
    assert!(moves.lists_from_form_1 * 4 > tally.lists, "{tally:?}");
    assert!(moves.calls_on_form_1 * 4 > tally.calls, "{tally:?}");
    assert!(moves.up > 1200 && moves.back > 1200 && moves.refused > 1200, "{tally:?}");
    assert!(moves.there_and_back > 600, "{tally:?}");
}

#[test]
fn bytes_are_those_of_the_definitions() {
    let tally = same::run(&Plain::<0>, &Defined, 0, 200).expect("no difference");
    assert!(tally.accepted * 10 > tally.calls * 4, "{tally:?}");
    assert!(tally.moved > 800 && tally.refused_moves > 300, "{tally:?}");
}

/// One of the calls that begin a transaction, in turn.
fn begin(number: u32) -> Call {
    if number % 2 == 0 {
        Call::Begin
    } else {
        Call::BeginAs { keeper: number as u16 }
    }
}

const SMALLEST: Shape = Shape { columns: 1, ranges: 1, capacity: 1, spares: 0 };

/// 65,535 numbers, the last ones left open, and then 15 before 14, however the transaction is begun.
#[test]
fn numbers_run_out() {
    let mut transactions = Vec::new();
    let mut scans = Vec::new();
    for number in 1..=65_535 {
        transactions.push(begin(number));
        scans.push(Call::OpenScan { stamp: 0 });
        if number <= 65_535 - OPENS as u32 {
            transactions.push(Call::Abort { transaction: number });
        }
        if number <= 65_535 - SCANS as u32 {
            scans.push(Call::Close { scan: number });
        }
    }
    transactions.extend([begin(0), begin(1), Call::Abort { transaction: 65_535 }]);
    transactions.extend([begin(0), begin(1)]);
    let open = Call::OpenScan { stamp: 0 };
    scans.extend([open.clone(), Call::Close { scan: 65_535 }, open]);
    for calls in [transactions, scans] {
        let list = agree::List { shape: SMALLEST, form: Form::Newest, calls };
        let tally = agree::compare(&Plain::<0>, 0, &list).expect("no difference");
        let refused = if list.calls[0] == begin(1) { 4 } else { 2 };
        assert_eq!(tally.accepted, list.calls.len() as u64 - refused);
    }
}
