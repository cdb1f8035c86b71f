//! Refusals on memories that no call made: each follows the papers' words, whatever links, lineages
//! and state words say. Known memories for 9, 10, 13, 17 and 18, and stores that take a shortcut to one
//! of 9, 10, 17 and 18, which are told apart; what reads give where ordinals were changed; what is listed
//! as crossings where records were; and which keepers are given and written where their words were.

use checks::memory::{header, put_word, word, Layout, Region, ScanEntry, SCANS};
use checks::plain::{Altered, Plain};
use checks::{agree, damage, facts, right_stores, same, shortcuts, stated, Store};
use reference::{Answer, Call, Shape};

const SHAPE: Shape = Shape { columns: 1, ranges: 1, capacity: 4, spares: 1 };

/// Shows each store with a memory and list, after `calls` and the words put.
fn each_store(
    calls: &[Call],
    put: &[(Region, usize, u32)],
    look: impl Fn(&dyn Store, &mut [u8], &mut [ScanEntry]),
) {
    for store in right_stores() {
        let layout = Layout::of(&SHAPE);
        let (mut memory, mut list) = (vec![0; layout.need()], vec![ScanEntry::FREE; SCANS]);
        assert_eq!(store.make(&mut memory, &mut list, &SHAPE), Answer::Done);
        for call in calls {
            let answer = store.call(&mut memory, &mut list, call);
            assert!(!matches!(answer, Answer::Refused(_)), "{call:?}: {answer:?}");
        }
        for (region, at, word) in put {
            put_word(&mut memory, layout.base(*region) + at, *word);
        }
        look(store.as_ref(), &mut memory, &mut list);
    }
}

/// Each store gives this answer to `call`, after `calls` and the words put.
fn answers(calls: &[Call], put: &[(Region, usize, u32)], call: Call, wanted: Answer) {
    each_store(calls, put, |store, memory, list| {
        let stored = facts::usable(memory, list).expect("no fact fails");
        assert_eq!(stated::judge(stated::refusal(&stored, &call), &wanted), Ok(()));
        assert_eq!(store.call(memory, list, &call), wanted);
    });
}

fn update(transaction: u32) -> Call {
    Call::Update { transaction, row: 0, mask: 1, values: vec![7] }
}

/// Row 0 of transaction 1 and two records of transaction 2, both committed.
fn settled() -> Vec<Call> {
    vec![
        Call::Begin,
        Call::Insert { transaction: 1, values: vec![5] },
        Call::Commit { transaction: 1, stamp: 10 },
        Call::Begin,
        update(2),
        Call::Commit { transaction: 2, stamp: 20 },
        Call::Begin,
        Call::Begin,
    ]
}

#[test]
fn an_older_record_of_an_open_transaction_holds_the_row() {
    answers(&settled(), &[(Region::TailTransaction, 0, 4)], update(3), Answer::Refused(9));
    answers(&settled(), &[(Region::TailTransaction, 0, 3)], update(3), Answer::Number(3));
}

/// Transaction 1 is not open, so that it holds nothing. It is not committed either: its insert is
/// aborted.
#[test]
fn a_state_word_alone_holds_nothing() {
    answers(&settled(), &[(Region::RowState, 0, 0)], update(3), Answer::Refused(10));
    answers(&settled(), &[(Region::TailState, 1, 0)], update(3), Answer::Number(3));
}

#[test]
fn a_committed_delete_below_another_record_ends_the_row() {
    let put = [(Region::TailKind, 0, 2), (Region::TailState, 1, 2)];
    answers(&settled(), &put, update(3), Answer::Refused(10));
    let aborted = [(Region::TailKind, 0, 2), (Region::TailState, 0, 2)];
    answers(&settled(), &aborted, update(3), Answer::Number(3));
}

#[test]
fn an_open_record_below_the_lineage_bars_a_merge() {
    let mut calls = settled();
    calls.push(Call::Merge { range: 0, column: 0, through: 1 });
    let merge = Call::Merge { range: 0, column: 0, through: 2 };
    answers(&calls, &[(Region::TailTransaction, 0, 4)], merge, Answer::Refused(17));
}

#[test]
fn a_page_that_no_place_names_is_free() {
    let merge = Call::Merge { range: 0, column: 0, through: 2 };
    answers(&settled(), &[(Region::PageState, 1, 1)], merge.clone(), Answer::Done);
    answers(
        &settled(),
        &[(Region::PageState, 1, 1), (Region::PageChunk, 1, 9)],
        merge.clone(),
        Answer::Done,
    );
    answers(&settled(), &[(Region::PageState, 1, 2)], merge, Answer::Refused(18));
}

#[test]
fn only_a_commit_before_the_last_is_refused() {
    let commit = |transaction, stamp| Call::Commit { transaction, stamp };
    answers(&[Call::Begin], &[], commit(1, 0), Answer::Done);
    answers(&settled(), &[], commit(3, 20), Answer::Done);
    answers(&settled(), &[], commit(3, 19), Answer::Refused(13));
    answers(&settled(), &[], commit(3, 0), Answer::Refused(13));
    let last = [(Region::Header, header::LAST_STAMP, u32::MAX)];
    answers(&settled(), &last, commit(3, u32::MAX), Answer::Done);
    answers(&settled(), &last, commit(3, u32::MAX - 1), Answer::Refused(13));
}

/// Only scans go by ordinals: for the other readers a commit counts by its stamp, whatever its ordinal
/// is and however many commits were made.
#[test]
fn other_readers_go_by_stamps_alone() {
    let latest = Call::Latest { row: 0, column: 0 };
    let read_at = Call::ReadAt { stamp: 20, row: 0, column: 0 };
    let own_read = Call::OwnRead { transaction: 3, row: 0, column: 0 };
    let (inserted, set) =
        (Answer::Version { value: 5, stamp: 10 }, Answer::Version { value: 7, stamp: 20 });
    for ordinal in [0, 2, 3, u32::MAX] {
        for made in [0, 2, u32::MAX] {
            let put = [
                (Region::TailOrdinal, 1, ordinal),
                (Region::RowOrdinal, 0, ordinal),
                (Region::Header, header::COMMITS_MADE, made),
            ];
            for read in [&latest, &read_at, &own_read] {
                answers(&settled(), &put, read.clone(), set.clone());
            }
            let earlier = Call::ReadAt { stamp: 19, row: 0, column: 0 };
            answers(&settled(), &put, earlier, inserted.clone());
        }
    }
}

/// A scan goes by its own count: by the ordinal it sees a commit at its stamp or not.
#[test]
fn a_scan_sees_up_to_its_own_count() {
    let mut calls = settled();
    calls.push(Call::OpenScan { stamp: 20 });
    let read = Call::ScanRead { scan: 1, row: 0, column: 0 };
    let sum = Call::Sum { scan: 1, column: 0 };
    let made = (Region::Header, header::COMMITS_MADE, u32::MAX);
    let (inserted, set) =
        (Answer::Version { value: 5, stamp: 10 }, Answer::Version { value: 7, stamp: 20 });
    for (ordinal, version, total) in [(2, set, 7), (3, inserted, 5)] {
        let put = [made, (Region::TailOrdinal, 1, ordinal)];
        answers(&calls, &put, read.clone(), version);
        answers(&calls, &put, sum.clone(), Answer::Sum { count: 1, sum: total });
    }
    // The setting made a delete.
    for (ordinal, version, count) in
        [(2, Answer::None, 0), (3, Answer::Version { value: 5, stamp: 10 }, 1)]
    {
        let put = [made, (Region::TailKind, 1, 2), (Region::TailOrdinal, 1, ordinal)];
        answers(&calls, &put, read.clone(), version);
        answers(&calls, &put, sum.clone(), Answer::Sum { count, sum: 5 * i64::from(count) });
    }
    let put = [made, (Region::RowOrdinal, 0, 3)];
    answers(&calls, &put, read, Answer::None);
    answers(&calls, &put, sum, Answer::Sum { count: 0, sum: 0 });
}

/// Row 0 is inserted with 5 at 10, and set to 9 at 20 and to 4 at 30: record 0 is the original, record 1
/// the setting of 9 by transaction 2, record 2 that of 4 by transaction 3. The keepers of the three are 101,
/// 102 and 103.
fn swung() -> Vec<Call> {
    let begin = |transaction| Call::BeginAs { keeper: 100 + transaction };
    let set = |transaction: u16, value, stamp| {
        let (begin, transaction) = (begin(transaction), transaction.into());
        let update = Call::Update { transaction, row: 0, mask: 1, values: vec![value] };
        [begin, update, Call::Commit { transaction, stamp }]
    };
    let insert = Call::Insert { transaction: 1, values: vec![5] };
    let inserted = [begin(1), insert, Call::Commit { transaction: 1, stamp: 10 }];
    [inserted, set(2, 9, 20), set(3, 4, 30)].concat()
}

/// Each store lists these crossings of 7 from one minute to another, after `swung` and the words put, in
/// as many places and in more, and refuses to in less.
fn crosses(put: &[(Region, usize, u32)], (from, to): (u32, u32), wanted: &[u32]) {
    let lent = [u32::MAX, 1, 2, 3];
    each_store(&swung(), put, |store, memory, list| {
        for places in 0..=lent.len() {
            let call =
                Call::Crossings { row: 0, column: 0, mark: 7, from, to, places: places as u32 };
            let (due, left) = if wanted.len() <= places {
                let left = [wanted, &lent[wanted.len()..places]].concat();
                (Answer::Number(wanted.len() as u32), left)
            } else {
                (Answer::Refused(21), lent[..places].to_vec())
            };
            let stored = facts::usable(memory, list).expect("no fact fails");
            assert_eq!(stated::judge(stated::refusal(&stored, &call), &due), Ok(()));
            let listed = if due.is_refused() { &[] } else { wanted };
            assert_eq!(stated::listed(&stored, &call), listed);
            let mut stamps = lent[..places].to_vec();
            assert_eq!(store.call_with(memory, list, &mut stamps, &call), due, "{put:?}");
            assert_eq!(stamps, left, "{put:?}");
        }
    });
}

const ALL: (u32, u32) = (0, 30);

#[test]
fn crossings_are_those_of_committed_records_of_the_column() {
    crosses(&[], ALL, &[20, 30]);
    // Aborted by whatever word, or open: 4 comes after 5.
    for state in [0, 2, 3, u32::MAX] {
        crosses(&[(Region::TailState, 1, state)], ALL, &[]);
        crosses(&[(Region::TailState, 2, state)], ALL, &[20]);
        // Then there is no inserted value.
        crosses(&[(Region::RowState, 0, state)], ALL, &[30]);
    }
    // Of another column, and of every one.
    for mask in [0, 2, u32::MAX - 1] {
        crosses(&[(Region::TailMask, 0, mask)], ALL, &[30]);
        crosses(&[(Region::TailMask, 1, mask)], ALL, &[]);
    }
    crosses(&[(Region::TailMask, 1, u32::MAX)], ALL, &[20, 30]);
    // A delete, by whatever word.
    for kind in [2, 3, u32::MAX] {
        crosses(&[(Region::TailKind, 1, kind)], ALL, &[]);
    }
}

#[test]
fn crossings_have_one_value_for_each_transaction() {
    // Both settings by one, and the first or both by the row's inserter.
    crosses(&[(Region::TailTransaction, 2, 2)], ALL, &[]);
    crosses(&[(Region::TailTransaction, 1, 1)], ALL, &[30]);
    crosses(&[(Region::RowTransaction, 0, 2)], ALL, &[30]);
    crosses(&[(Region::TailTransaction, 1, 1), (Region::TailTransaction, 2, 1)], ALL, &[]);
    // The last by the inserter, with another between.
    crosses(&[(Region::TailTransaction, 2, 1)], ALL, &[20, 30]);
    // An original's own transaction and state are no matter.
    crosses(&[(Region::TailTransaction, 0, 3)], ALL, &[20, 30]);
    crosses(&[(Region::TailState, 0, 2)], ALL, &[20, 30]);
}

#[test]
fn crossings_are_listed_in_the_order_of_records_by_their_own_stamps() {
    crosses(&[(Region::TailStamp, 2, 15)], ALL, &[20, 15]);
    crosses(&[(Region::TailStamp, 2, 15)], (16, 30), &[20]);
    crosses(&[(Region::TailStamp, 1, 0)], ALL, &[0, 30]);
    crosses(&[(Region::TailStamp, 0, 30), (Region::RowStamp, 0, 30)], ALL, &[20, 30]);
    crosses(&[], (20, 29), &[20]);
    crosses(&[], (21, 30), &[30]);
}

#[test]
fn crossings_have_no_value_that_is_later() {
    // The 9 is, so that 4 comes after 5.
    crosses(&[(Region::TailStamp, 2, 15)], (0, 19), &[]);
    crosses(&[(Region::TailStamp, 2, 15)], (0, 20), &[20, 15]);
    // The 5 is, so that 9 is a first value.
    crosses(&[(Region::RowStamp, 0, 21)], (0, 20), &[]);
    crosses(&[(Region::RowStamp, 0, 21)], (0, 21), &[20]);
    // The 9 is, and no longer replaces the 5 of its transaction.
    let put =
        [(Region::TailTransaction, 1, 1), (Region::TailStamp, 1, 30), (Region::TailStamp, 2, 15)];
    crosses(&put, (0, 30), &[15]);
    crosses(&put, (0, 29), &[]);
}

#[test]
fn crossings_have_an_original_for_a_value_of_the_inserter() {
    // The 9 is another one, and replaces the 5.
    crosses(&[(Region::TailKind, 1, 0)], ALL, &[30]);
    // The 4 is, with the insert's stamp.
    crosses(&[(Region::TailKind, 2, 0)], ALL, &[20, 10]);
    crosses(&[(Region::TailKind, 2, 0)], (11, 30), &[20]);
    crosses(&[(Region::TailKind, 2, 0)], (0, 19), &[]);
    crosses(&[(Region::TailKind, 2, 0), (Region::RowStamp, 0, 30)], ALL, &[20, 30]);
    // It replaces a setting of the inserter.
    crosses(&[(Region::TailKind, 2, 0), (Region::RowTransaction, 0, 2)], ALL, &[]);
    // Without a committed insert an original stands for no value.
    crosses(&[(Region::TailKind, 1, 0), (Region::RowState, 0, 2)], ALL, &[]);
    // No original at all.
    crosses(&[(Region::TailKind, 0, 1), (Region::TailState, 0, 1)], ALL, &[30]);
}

#[test]
fn crossings_go_by_no_link_mask_ordinal_or_open_number() {
    let put = [
        (Region::RowLink, 0, 0),
        (Region::RowMask, 0, 0),
        (Region::RowOrdinal, 0, u32::MAX),
        (Region::TailLink, 2, 0),
        (Region::TailOrdinal, 1, u32::MAX),
        (Region::TailOrdinal, 2, 0),
        (Region::Opens, 0, 2),
        (Region::Header, header::COMMITS_MADE, 0),
    ];
    for one in put {
        crosses(&[one], ALL, &[20, 30]);
    }
    crosses(&put, ALL, &[20, 30]);
}

/// Each store gives the keepers of 9, 10, 19, 20, 29 and 30, after `swung` and the words put; where it is 0,
/// none.
fn keeps(put: &[(Region, usize, u32)], wanted: [u32; 6]) {
    each_store(&swung(), put, |store, memory, list| {
        for (stamp, wanted) in [9, 10, 19, 20, 29, 30].into_iter().zip(wanted) {
            let call = Call::KeeperAt { stamp, row: 0, column: 0 };
            let due = if wanted == 0 { Answer::None } else { Answer::Number(wanted) };
            let stored = facts::usable(memory, list).expect("no fact fails");
            assert_eq!(stated::answer(&stored, &call), Some(due.clone()), "{put:?}, {stamp}");
            assert_eq!(store.call(memory, list, &call), due, "{put:?}, {stamp}");
        }
    });
}

#[test]
fn a_keeper_is_that_of_the_value_read() {
    keeps(&[], [0, 101, 101, 102, 102, 103]);
    // Aborted by whatever word, or open.
    for state in [0, 2, 3, u32::MAX] {
        keeps(&[(Region::TailState, 1, state)], [0, 101, 101, 101, 101, 103]);
        keeps(&[(Region::TailState, 2, state)], [0, 101, 101, 102, 102, 102]);
        keeps(&[(Region::RowState, 0, state)], [0; 6]);
    }
    // Of another column.
    keeps(&[(Region::TailMask, 2, 2)], [0, 101, 101, 102, 102, 102]);
    // A delete, by whatever word; and one below the newest record, which ends nothing.
    for kind in [2, 3, u32::MAX] {
        keeps(&[(Region::TailKind, 2, kind)], [0, 101, 101, 102, 102, 0]);
        keeps(&[(Region::TailKind, 1, kind)], [0, 101, 101, 101, 101, 103]);
    }
}

/// Each record has its own word, an original too, and of a word the lower two bytes count.
#[test]
fn a_keeper_is_the_lower_half_of_its_word() {
    for (word, low) in [(7, 7), (65_535, 65_535), (65_536 + 8, 8), (u32::MAX, 65_535)] {
        keeps(&[(Region::TailKeeper, 0, word)], [0, low, low, 102, 102, 103]);
        keeps(&[(Region::TailKeeper, 1, word)], [0, 101, 101, low, low, 103]);
        keeps(&[(Region::TailKeeper, 2, word)], [0, 101, 101, 102, 102, low]);
        // The row's own counts where no record answers.
        let row = (Region::RowKeeper, 0, word);
        keeps(&[row], [0, 101, 101, 102, 102, 103]);
        keeps(&[row, (Region::RowMask, 0, 0)], [0, low, low, low, low, low]);
        keeps(&[row, (Region::RowLink, 0, 0)], [0, low, low, low, low, low]);
        keeps(&[row, (Region::TailLink, 2, 0)], [0, low, low, low, low, 103]);
    }
}

#[test]
fn a_keeper_goes_by_no_transaction_ordinal_page_or_open_number() {
    let put = [
        (Region::RowTransaction, 0, 2),
        (Region::TailTransaction, 0, 3),
        (Region::TailTransaction, 2, 1),
        (Region::RowOrdinal, 0, u32::MAX),
        (Region::TailOrdinal, 1, u32::MAX),
        (Region::PageLineage, 0, 3),
        (Region::PageNewest, 0, 30),
        (Region::Opens, 0, 2),
        (Region::OpenKeeper, 0, 9),
        (Region::Header, header::COMMITS_MADE, 0),
    ];
    for one in put {
        keeps(&[one], [0, 101, 101, 102, 102, 103]);
    }
    keeps(&put, [0, 101, 101, 102, 102, 103]);
}

#[test]
fn a_keeper_is_refused_as_the_read_is() {
    let at = |stamp, row, column| Call::KeeperAt { stamp, row, column };
    answers(&swung(), &[], at(30, 0, 0), Answer::Number(103));
    answers(&swung(), &[], at(31, 0, 0), Answer::Refused(13));
    answers(&swung(), &[], at(31, 1, 1), Answer::Refused(13));
    answers(&swung(), &[], at(30, 1, 1), Answer::Refused(5));
    answers(&swung(), &[], at(30, 0, 1), Answer::Refused(6));
}

/// The word of the open transaction, whatever it is, goes to the row, to the setting and to the delete, and
/// the row's to the original. The end of the transaction and a begin leave a number of 16 bits.
#[test]
fn a_keeper_is_written_as_its_word_stands() {
    let put = [(Region::OpenKeeper, 0, u32::MAX), (Region::OpenKeeper, 1, 65_537)];
    let begun = [Call::BeginAs { keeper: 1 }, Call::BeginAs { keeper: 2 }];
    let layout = Layout::of(&SHAPE);
    each_store(&begun, &put, |store, memory, list| {
        let mut after = |call: Call, words: &[(Region, usize, u32)]| {
            let answer = store.call(memory, list, &call);
            assert!(!answer.is_refused(), "{call:?}: {answer:?}");
            for (region, at, wanted) in words {
                let found = word(memory, layout.base(*region) + at);
                assert_eq!(found, *wanted, "{call:?}, {region:?} {at}");
            }
        };
        let row = (Region::RowKeeper, 0, u32::MAX);
        after(Call::Insert { transaction: 1, values: vec![5] }, &[row]);
        let freed = (Region::OpenKeeper, 0, 0);
        after(Call::Commit { transaction: 1, stamp: 10 }, &[row, freed]);
        let records = [(Region::TailKeeper, 0, u32::MAX), (Region::TailKeeper, 1, 65_537)];
        after(update(2), &[records[0], records[1], row]);
        let deleted = (Region::TailKeeper, 2, 65_537);
        after(Call::Delete { transaction: 2, row: 0 }, &[records[0], records[1], deleted]);
        after(Call::BeginAs { keeper: 65_535 }, &[(Region::OpenKeeper, 0, 65_535)]);
        after(Call::Abort { transaction: 2 }, &[deleted, (Region::OpenKeeper, 1, 0)]);
    });
    let free = [(Region::OpenKeeper, 0, u32::MAX)];
    for (call, keeper) in [(Call::Begin, 0), (Call::BeginAs { keeper: 3 }, 3)] {
        each_store(&[], &free, |store, memory, list| {
            assert_eq!(store.call(memory, list, &call), Answer::Number(1));
            assert_eq!(word(memory, layout.base(Region::OpenKeeper)), keeper);
        });
    }
}

/// The plain page store with one of the conditions by its shortcut.
fn shortcut(number: u8) -> impl Store {
    Altered(move |memory: &mut [u8], scans: &mut [ScanEntry], stamps: &mut [u32], call: &Call| {
        let refused = match facts::usable(memory, scans) {
            Err(_) => Some(2),
            Ok(stored) => shortcuts::refusal(&stored, call, number),
        };
        match refused.map(Answer::Refused) {
            Some(answer) => answer,
            None => match Plain::<0>.call_with(memory, scans, stamps, call) {
                Answer::Refused(_) => Answer::Done,
                answer => answer,
            },
        }
    })
}

fn by_the_words(difference: Result<impl Sized, String>) -> bool {
    difference.is_err_and(|difference| difference.contains("by the papers' words"))
}

#[test]
fn a_shortcut_is_told_apart() {
    for number in shortcuts::NUMBERS {
        let store = shortcut(number);
        assert!(by_the_words(damage::random_memories(&store, 0, 4000)), "{number}: random");
        assert!(by_the_words(damage::disturbed_stores(&store, 0, 4000)), "{number}: disturbed");
        assert!(by_the_words(same::run(&store, &store, 0, 400)), "{number}: same");
    }
}

/// In stores that calls alone have written a shortcut gives the same answers.
#[test]
fn a_shortcut_is_right_after_calls_alone() {
    for number in shortcuts::NUMBERS {
        agree::run(&shortcut(number), 0, 200).expect("no difference");
    }
}
