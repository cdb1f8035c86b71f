//! What calls may change: the worked example's merge word for word, by hand; the page that a merge takes and
//! those that a release frees, in known memories; and that no kind of word is in a footprint idly, since a
//! wider one would mean less.

use std::collections::BTreeSet;

use checks::footprint::Footprint;
use checks::memory::{differing, header, page, put_word, word};
use checks::memory::{Layout, Region, ScanEntry, ROWS, SCANS};
use checks::operands::{call_for, COMMANDS};
use checks::plain::Plain;
use checks::unmade::any_lent;
use checks::{agree, facts, right_stores, Store};
use reference::random::Random;
use reference::{Answer, Call, Shape};

/// A store's memory and list after these calls, each of them accepted.
fn after(store: &dyn Store, shape: &Shape, calls: &[Call]) -> (Vec<u8>, Vec<ScanEntry>) {
    let (mut memory, mut list) = (vec![0; Layout::of(shape).need()], vec![ScanEntry::FREE; SCANS]);
    assert_eq!(store.make(&mut memory, &mut list, shape), Answer::Done);
    for call in calls {
        let answer = store.call(&mut memory, &mut list, call);
        assert!(!answer.is_refused(), "{call:?}: {answer:?}");
    }
    (memory, list)
}

/// The words of a footprint by their regions.
fn words(memory: &[u8], list: &[ScanEntry], call: &Call) -> Vec<(Region, usize)> {
    let layout = Layout::stored(memory).expect("measures");
    let footprint = Footprint::of(memory, list, call).expect("words to look at");
    footprint.words().iter().map(|at| layout.place_of(*at).expect("within the need")).collect()
}

const SHAPE: Shape = Shape { columns: 2, ranges: 1, capacity: 4, spares: 1 };
const MERGE: Call = Call::Merge { range: 0, column: 0, through: 2 };

/// The calls of the worked example (docs/SPECIFICATION.md, rule 12.9) up to its merge.
fn before_the_merge() -> Vec<Call> {
    vec![
        Call::Begin,
        Call::Insert { transaction: 1, values: vec![1200, -30] },
        Call::Commit { transaction: 1, stamp: 10 },
        Call::Begin,
        Call::Update { transaction: 2, row: 0, mask: 1, values: vec![1250, 0] },
        Call::Latest { row: 0, column: 0 },
        Call::Commit { transaction: 2, stamp: 20 },
    ]
}

/// With 64 rows, 4 tail records and 3 pages the regions that a merge writes begin at these words: the
/// current pages at 381, the pages' states at 383, chunks at 386, makings at 389, replacings at 392,
/// lineages at 395, newest stamps at 398, and cells at 401, those of page 2 at 529. Page 0 is the old page
/// and page 2, the spare one, the new.
#[test]
fn the_merge_of_the_worked_example_changes_these_bytes() {
    for store in right_stores() {
        let (mut memory, mut list) = after(store.as_ref(), &SHAPE, &before_the_merge());
        let (before, entries) = (memory.clone(), list.clone());
        assert_eq!(before.len(), 745 * 4);

        let footprint = Footprint::of(&before, &entries, &MERGE).expect("words to look at");
        let by_hand = [8, 381, 383, 385, 388, 391, 392, 397, 400].into_iter().chain(529..593);
        assert_eq!(footprint.words(), by_hand.collect::<Vec<usize>>());
        assert_eq!(footprint.entry(), None);

        assert_eq!(store.call(&mut memory, &mut list, &MERGE), Answer::Done);
        // The chunk of page 2 was 0 and is 0, and so are the cells of 63 rows that were never given.
        let changed: Vec<usize> = differing(&before, &memory).collect();
        assert_eq!(changed, [8, 381, 383, 385, 391, 392, 397, 400, 529]);
        let both = before.iter().zip(&memory).enumerate();
        let changed: Vec<(usize, u8, u8)> = both
            .filter(|(_, (before, after))| before != after)
            .map(|(at, (before, after))| (at, *before, *after))
            .collect();
        let by_hand = [
            (32, 0, 1),      // merges made
            (1524, 0, 2),    // the current page of chunk 0
            (1532, 1, 2),    // page 0 waits
            (1540, 0, 1),    // page 2 is current
            (1564, 0, 1),    // page 2 was made by merge 1
            (1568, 0, 1),    // page 0 was replaced by it
            (1588, 0, 2),    // the lineage of page 2
            (1600, 0, 20),   // its newest stamp
            (2116, 0, 0xE2), // its cell of row 0: 1250
            (2117, 0, 0x04),
        ];
        assert_eq!(changed, by_hand);
        assert_eq!(list, entries);
    }
}

/// The example's calls that write, and some after them: the words of each, by hand.
#[test]
fn each_call_has_these_words() {
    use Region::*;
    let commit = |transaction, stamp| Call::Commit { transaction, stamp };
    let update =
        |transaction, value| Call::Update { transaction, row: 0, mask: 1, values: vec![value, 0] };
    let record = |slot| {
        [
            TailTransaction,
            TailRow,
            TailKind,
            TailMask,
            TailLink,
            TailState,
            TailStamp,
            TailOrdinal,
            TailKeeper,
        ]
        .map(|region| (region, slot))
    };
    let settled = |slot| [TailState, TailStamp, TailOrdinal].map(|region| (region, slot));
    let begun =
        vec![(Header, header::TRANSACTIONS_GIVEN), (Opens, 0), (Changes, 0), (OpenKeeper, 0)];
    let last = [(Header, header::LAST_STAMP), (Header, header::COMMITS_MADE)];
    let ended = [(Opens, 0), (Changes, 0), (OpenKeeper, 0)];
    let taken = [(RowLink, 0), (Used, 0), (Changes, 0)];
    let row = [RowTransaction, RowState, RowStamp, RowLink, RowMask, RowOrdinal, RowKeeper]
        .map(|region| (region, 0));
    let inserted = [(Header, header::ROWS_GIVEN), (Cells, 0), (Cells, ROWS), (Changes, 0)];
    let values = |first: usize| [(TailValues, first), (TailValues, first + 1)];

    let calls = [
        (Call::Begin, begun.clone()),
        (Call::Insert { transaction: 1, values: vec![1200, -30] }, [&row[..], &inserted].concat()),
        (
            commit(1, 10),
            [&[(RowState, 0), (RowStamp, 0), (RowOrdinal, 0)][..], &last, &ended].concat(),
        ),
        (Call::Begin, begun.clone()),
        // An original and a setting, and the row's mask gains column 0.
        (
            update(2, 1250),
            [&record(0)[..], &record(1), &values(0), &values(2), &[(RowMask, 0)], &taken].concat(),
        ),
        // Row 0 is not of transaction 2.
        (commit(2, 20), [&settled(0)[..], &settled(1), &last, &ended].concat()),
        (Call::BeginAs { keeper: 7 }, begun),
        // A setting alone: the row's mask has the column.
        (update(3, 1260), [&record(2)[..], &values(4), &taken].concat()),
        (Call::Delete { transaction: 3, row: 0 }, [&record(3)[..], &taken].concat()),
        (Call::Abort { transaction: 3 }, [&settled(2)[..], &settled(3), &ended].concat()),
        (Call::OpenScan { stamp: 20 }, vec![(Header, header::SCANS_GIVEN)]),
    ];
    let (mut memory, mut list) = after(&Plain::<0>, &SHAPE, &[]);
    for (call, mut by_hand) in calls {
        by_hand.sort();
        assert_eq!(words(&memory, &list, &call), by_hand, "{call:?}");
        assert!(!Plain::<0>.call(&mut memory, &mut list, &call).is_refused(), "{call:?}");
    }
}

/// Of the bytes before that merge, and a few past the need, each may change where its word is in the
/// footprint and nowhere else.
#[test]
fn each_byte_is_judged_by_its_word() {
    let (mut before, list) = after(&Plain::<0>, &SHAPE, &before_the_merge());
    before.extend([7; 6]);
    let footprint = Footprint::of(&before, &list, &MERGE).expect("words to look at");
    for at in 0..before.len() {
        let mut after = before.clone();
        after[at] ^= 0x80;
        let judged = footprint.judge_memory(&before, &after);
        assert_eq!(judged.is_ok(), footprint.words().contains(&(at / 4)), "byte {at}: {judged:?}");
    }
    // A word outside is seen behind others that may change, and named.
    let mut after = before.clone();
    for (at, byte) in [(32, 1), (4 * 15 + 1, 2), (4 * 745 + 5, 8)] {
        after[at] = byte;
    }
    let outside = "the memory changed outside the call's footprint, at word ";
    let header = format!("{outside}15 of Header: [0, 0, 0, 0] and [0, 2, 0, 0]");
    assert_eq!(footprint.judge_memory(&before, &after), Err(header));
    after[4 * 15 + 1] = 0;
    let past = format!("{outside}746, past the need: [7, 7] and [7, 8]");
    assert_eq!(footprint.judge_memory(&before, &after), Err(past));
}

/// Of the list an open scan may change the first free entry, a close that of the scan, and any other call
/// none.
#[test]
fn each_entry_of_the_list_is_judged() {
    let calls = vec![Call::OpenScan { stamp: 0 }; 3];
    let (memory, mut before) = after(&Plain::<0>, &SHAPE, &calls);
    before[1] = ScanEntry::FREE;
    for (call, entry) in [
        (Call::OpenScan { stamp: 0 }, Some(1)),
        (Call::Close { scan: 3 }, Some(2)),
        (Call::Close { scan: 1 }, Some(0)),
        (Call::Release, None),
        (Call::Sum { scan: 1, column: 0 }, None),
    ] {
        let footprint = Footprint::of(&memory, &before, &call).expect("words to look at");
        assert_eq!(footprint.judge_list(&before, &before), Ok(()));
        for at in 0..before.len() {
            let mut after = before.clone();
            after[at].commits += 1;
            let judged = footprint.judge_list(&before, &after);
            assert_eq!(judged.is_ok(), Some(at) == entry, "{call:?}, entry {at}: {judged:?}");
        }
    }
}

/// A call that reads may change nothing, and a close nothing of the memory.
#[test]
fn reads_have_no_footprint() {
    let mut calls = before_the_merge();
    calls.extend([MERGE, Call::OpenScan { stamp: 20 }]);
    let (memory, list) = after(&Plain::<0>, &SHAPE, &calls);
    for call in [
        Call::Latest { row: 0, column: 0 },
        Call::ReadAt { stamp: 10, row: 0, column: 0 },
        Call::ScanRead { scan: 1, row: 0, column: 0 },
        Call::Sum { scan: 1, column: 0 },
        Call::PageCell { column: 0, row: 0 },
        Call::Lineage { range: 0, column: 0 },
        Call::Crossings { row: 0, column: 0, mark: 1220, from: 0, to: 20, places: 1 },
        Call::KeeperAt { stamp: 10, row: 0, column: 0 },
    ] {
        let footprint = Footprint::of(&memory, &list, &call).expect("words to look at");
        assert_eq!((footprint.words(), footprint.entry()), (&[][..], None), "{call:?}");
    }
    let close = Footprint::of(&memory, &list, &Call::Close { scan: 1 }).expect("words to look at");
    assert_eq!((close.words(), close.entry()), (&[][..], Some(0)));
}

/// A page that says it is current and that no chunk names is free, but a merge takes one that says it is
/// free before it, wherever that stands.
#[test]
fn a_merge_takes_the_first_page_that_says_it_is_free() {
    let shape = Shape { spares: 3, ..SHAPE };
    let (memory, list) = after(&Plain::<0>, &shape, &before_the_merge());
    let layout = Layout::of(&shape);
    for (states, taken) in [
        ([page::FREE, page::FREE, page::FREE], 2),
        ([page::CURRENT, page::FREE, page::FREE], 3),
        ([page::WAITING, page::CURRENT, page::FREE], 4),
        ([page::WAITING, page::CURRENT, page::CURRENT], 3),
    ] {
        let (mut memory, mut list) = (memory.clone(), list.clone());
        for (place, state) in states.into_iter().enumerate() {
            put_word(&mut memory, layout.base(Region::PageState) + 2 + place, state);
        }
        assert_eq!(facts::failing(&memory, &list), None);
        let footprint = words(&memory, &list, &MERGE);
        let cells = footprint.iter().filter(|word| word.0 == Region::Cells).map(|word| word.1);
        assert_eq!(
            cells.collect::<Vec<usize>>(),
            (taken * ROWS..(taken + 1) * ROWS).collect::<Vec<usize>>()
        );
        assert_eq!(Plain::<0>.call(&mut memory, &mut list, &MERGE), Answer::Done);
        assert_eq!(word(&memory, layout.base(Region::Current)) as usize, taken);
    }
}

/// Of two waiting pages the one that a scan needs stays as it is.
#[test]
fn a_release_leaves_the_page_that_a_scan_needs() {
    let shape = Shape { spares: 2, ..SHAPE };
    let mut calls = before_the_merge();
    calls.extend([MERGE, Call::OpenScan { stamp: 20 }]);
    calls.push(Call::Merge { range: 0, column: 1, through: 2 });
    let (memory, list) = after(&Plain::<0>, &shape, &calls);
    assert_eq!(words(&memory, &list, &Call::Release), [(Region::PageState, 0)]);
    let free = [ScanEntry::FREE; SCANS];
    let both = [(Region::PageState, 0), (Region::PageState, 1)];
    assert_eq!(words(&memory, &free, &Call::Release), both);
}

/// Every word has its region and place, and none past the need.
#[test]
fn a_word_is_told_by_its_region() {
    for shape in [SHAPE, agree::LARGEST] {
        let layout = Layout::of(&shape);
        let mut at = 0;
        for region in Region::ALL {
            for place in 0..layout.length(region) {
                assert_eq!(layout.place_of(at), Some((region, place)));
                at += 1;
            }
        }
        assert_eq!((at * 4, layout.place_of(at)), (layout.need(), None));
    }
}

/// A word of a merge's footprint, by its region and by whether it is of the old page.
type Kind = (Region, bool);

fn kind_of(memory: &[u8], layout: &Layout, at: usize, chunk: usize) -> Kind {
    let old = word(memory, layout.base(Region::Current) + chunk) as usize;
    let (region, place) = layout.place_of(at).expect("within the need");
    let of_old = match region {
        Region::Header | Region::Current => false,
        Region::Cells => place / ROWS == old,
        _ => place == old,
    };
    (region, of_old)
}

/// Over lists of calls each kind of word that a merge may change does change, and no other.
#[test]
fn every_kind_of_word_of_a_merge_changes() {
    let by_hand = BTreeSet::from([
        (Region::Header, false),
        (Region::Current, false),
        (Region::PageState, true),
        (Region::PageReplaced, true),
        (Region::PageState, false),
        (Region::PageChunk, false),
        (Region::PageMade, false),
        (Region::PageLineage, false),
        (Region::PageNewest, false),
        (Region::Cells, false),
    ]);
    let (mut allowed, mut changed) = (BTreeSet::new(), BTreeSet::new());
    for seed in 0..100 {
        let agree::List { shape, calls, .. } = agree::list(seed);
        let layout = Layout::of(&shape);
        let (mut memory, mut list) = after(&Plain::<0>, &shape, &[]);
        // Without the moves, on the newest form alone: what a merge may change is the same in either.
        for call in calls.iter().filter(|call| call.moves_to().is_none()) {
            let (before, entries) = (memory.clone(), list.clone());
            let answer = Plain::<0>.call(&mut memory, &mut list, call);
            let Call::Merge { range, column, .. } = *call else { continue };
            if answer.is_refused() {
                continue;
            }
            let chunk = layout.chunk(range as usize, column as usize);
            let kind = |at: usize| kind_of(&before, &layout, at, chunk);
            let footprint = Footprint::of(&before, &entries, call).expect("words to look at");
            allowed.extend(footprint.words().iter().copied().map(kind));
            changed.extend(differing(&before, &memory).map(kind));
        }
    }
    assert_eq!(allowed, by_hand);
    assert_eq!(changed, by_hand);
}

/// The same of every call, on memories that no call made: what is not in use holds anything there, so that
/// a word does change where calls alone write again what stands there. A word of the header counts by
/// itself, any other by its region.
#[test]
fn every_kind_of_word_of_a_call_changes() {
    let kind = |(region, place): (Region, usize)| match region {
        Region::Header => (region, place),
        _ => (region, 0),
    };
    let mut random = Random::new(3);
    let (mut allowed, mut changed) = (BTreeSet::new(), BTreeSet::new());
    for _ in 0..2000 {
        let (memory, scans) = any_lent(&mut random);
        let (before, entries) = (memory.get(), scans.get());
        if facts::failing(before, entries).is_some() {
            continue;
        }
        let layout = Layout::stored(before).expect("measures");
        for command in COMMANDS {
            let call = call_for(command, before, entries, &mut random);
            let (mut memory, mut list) = (before.to_vec(), entries.to_vec());
            if Plain::<0>.call(&mut memory, &mut list, &call).is_refused() {
                continue;
            }
            let words = words(before, entries, &call);
            allowed.extend(words.into_iter().map(|word| (command, kind(word))));
            let words = differing(before, &memory).map(|at| layout.place_of(at).expect("a place"));
            changed.extend(words.map(|word| (command, kind(word))));
        }
    }
    assert_eq!(changed, allowed);
    let commands: BTreeSet<u8> = allowed.iter().map(|(command, _)| *command).collect();
    let writing = [0x01, 0x02, 0x03, 0x04, 0x05, 0x06, 0x0A, 0x0E, 0x0F, 0x13];
    assert_eq!(commands, BTreeSet::from(writing));
    assert!(allowed.contains(&(0x0E, (Region::Header, header::MERGES_MADE))));
}
