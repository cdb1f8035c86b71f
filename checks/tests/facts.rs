//! The stored facts, and the refusals on memories that no call made.

use std::collections::BTreeSet;

use checks::damage::{flip, good, SMALL};
use checks::memory::{columns_word, header, page, put_word, word};
use checks::memory::{Layout, Region, ScanEntry, SCAN_WORDS, WORD};
use checks::plain::{sound, Plain};
use checks::unmade::{any_lent, passing};
use checks::{damage, facts, Store};
use reference::random::Random;
use reference::{Answer, Call, Form};

#[test]
fn refusals_are_those_of_the_facts_and_of_the_words() {
    let tally = damage::run(&Plain::<0>, 0, 4).expect("no difference");
    assert!(tally.failing > 1100 && tally.accepted > 110_000, "{tally:?}");
    assert!(tally.crossings > 2200, "{tally:?}");
    assert!(tally.keepers > 4000, "{tally:?}");
    let moves = &tally.moves;
    assert!(moves.on_form_1 > 5000 && moves.up > 2000 && moves.back > 1000, "{tally:?}");
    assert!(moves.too_short > 2000 && moves.refused > 2000, "{tally:?}");
    let differing = &tally.differing;
    let each = [differing.by_9, differing.by_10, differing.by_17, differing.by_18];
    assert!(each.iter().all(|count| *count > 220), "{tally:?}");
}

/// For each fact there are bytes of which no other fact fails: a store that forgets any one of them
/// is told apart by answer 2.
#[test]
fn every_fact_is_met_alone() {
    let mut alone = BTreeSet::new();
    let mut random = Random::new(1);
    for seed in 0..8 {
        let mut watched = good(&Plain::<0>, seed, &mut random).expect("a good store");
        let bytes = watched.memory.get().len();
        for at in 0..bytes + watched.scans.get().len() * SCAN_WORDS * WORD {
            match at.checked_sub(bytes) {
                None => watched.memory.get_mut()[at] ^= 1,
                Some(at) => flip(watched.scans.get_mut(), at, 1),
            };
            note(&mut alone, watched.memory.get(), watched.scans.get());
            watched.restore();
        }
    }
    for _ in 0..40_000 {
        let (memory, scans) = any_lent(&mut random);
        note(&mut alone, memory.get(), scans.get());
    }
    let missing: Vec<&str> = facts::names().filter(|name| !alone.contains(name)).collect();
    assert!(missing.is_empty(), "not met alone: {missing:?}");
}

fn note(alone: &mut BTreeSet<&'static str>, memory: &[u8], list: &[ScanEntry]) {
    let failing = facts::all_failing(memory, list);
    assert_eq!(sound(memory, list).is_none(), !failing.is_empty(), "{failing:?}");
    if let [fact] = failing[..] {
        alone.insert(fact);
    }
}

#[test]
fn random_words_that_pass_do_pass() {
    let mut random = Random::new(2);
    for _ in 0..2000 {
        let (memory, list) = passing(&mut random);
        assert_eq!(facts::failing(&memory, &list), None);
    }
}

const ODD: ScanEntry =
    ScanEntry { number: u32::MAX, stamp: u32::MAX, merges: u32::MAX, commits: u32::MAX };

/// A store of the small shape in exactly the bytes it needs.
fn small() -> (Vec<u8>, Vec<ScanEntry>, Layout) {
    let layout = Layout::of(&SMALL);
    let (mut memory, mut list) = (vec![0xFF; layout.need()], vec![ODD; 40]);
    assert_eq!(Plain::<0>.make(&mut memory, &mut list, &SMALL), Answer::Done);
    (memory, list, layout)
}

/// A sixth open scan is one too many, however long the list is and wherever it stands.
#[test]
fn open_scans_are_counted_over_the_whole_list() {
    let (mut memory, mut list, _) = small();
    put_word(&mut memory, header::SCANS_GIVEN, 6);
    for number in 1..=5 {
        list[2 * number as usize] = ScanEntry { number, ..ScanEntry::FREE };
    }
    assert_eq!(facts::failing(&memory, &list), None);
    let opened = Plain::<0>.call(&mut memory, &mut list, &Call::OpenScan { stamp: 0 });
    assert_eq!(opened, Answer::Refused(14));
    list[39] = ScanEntry { number: 6, ..ScanEntry::FREE };
    assert_eq!(facts::failing(&memory, &list), Some("at most 5 scans are open"));
    assert_eq!(Plain::<0>.call(&mut memory, &mut list, &Call::Begin), Answer::Refused(2));
}

/// A scan has at most as many commits before it as were made, in whatever entry it stands; what a free
/// entry has is no matter.
#[test]
fn a_scans_commits_are_at_most_those_made() {
    for made in [0, 1, 7, u32::MAX - 1] {
        let (mut memory, mut list, _) = small();
        put_word(&mut memory, header::SCANS_GIVEN, 2);
        put_word(&mut memory, header::COMMITS_MADE, made);
        list[3] = ScanEntry { number: 1, commits: made, ..ScanEntry::FREE };
        list[17] = ScanEntry { number: 2, ..ScanEntry::FREE };
        list[9] = ScanEntry { number: 0, ..ODD };
        let (before, entries) = (memory.clone(), list.clone());
        let reads = Call::Sum { scan: 1, column: 0 };
        assert_eq!(facts::failing(&memory, &list), None);
        let sum = Answer::Sum { count: 0, sum: 0 };
        assert_eq!(Plain::<0>.call(&mut memory, &mut list, &reads), sum);
        for (place, commits) in [(3, made + 1), (3, u32::MAX), (17, made + 1)] {
            list[place].commits = commits;
            let failing = facts::all_failing(&memory, &list);
            assert_eq!(failing, ["an open scan's commits are among those made"]);
            assert!(sound(&memory, &list).is_none());
            assert_eq!(Plain::<0>.call(&mut memory, &mut list, &reads), Answer::Refused(2));
            list.copy_from_slice(&entries);
        }
        assert_eq!(memory, before);
        put_word(&mut memory, header::COMMITS_MADE, made + 1);
        assert_eq!(facts::failing(&memory, &list), None);
    }
}

/// Ordinals of rows and records are no stored fact: whatever they are, the memory is usable.
#[test]
fn ordinals_are_no_fact() {
    let (mut memory, mut list, layout) = small();
    set_and_commit(&mut memory, &mut list);
    for ordinal in [0, 2, u32::MAX] {
        put_word(&mut memory, layout.base(Region::RowOrdinal), ordinal);
        put_word(&mut memory, layout.base(Region::TailOrdinal) + 1, ordinal);
        assert_eq!(facts::failing(&memory, &list), None);
        assert!(sound(&memory, &list).is_some());
    }
}

/// The header's first word has the columns and the form: with any other form than 1 and 2, and with any other
/// columns in these, no call is accepted.
#[test]
fn the_form_is_1_or_2() {
    let (mut memory, mut list, layout) = small();
    assert_eq!(word(&memory, header::COLUMNS), SMALL.columns + 65_536);
    assert_eq!(facts::failing(&memory, &list), None);
    for form in [3, 4, 257, 65_536] {
        let other = columns_word(SMALL.columns, form);
        assert_eq!(other, SMALL.columns + 65_536 * (form - 1));
        put_word(&mut memory, header::COLUMNS, other);
        let before = memory.clone();
        assert_eq!(facts::all_failing(&memory, &list), ["the memory is in form 1 or 2"]);
        assert!(sound(&memory, &list).is_none());
        assert_eq!(Plain::<0>.call(&mut memory, &mut list, &Call::Begin), Answer::Refused(2));
        assert_eq!(memory, before);
    }
    for (columns, form) in [0, 17, 65_535].into_iter().flat_map(|n| [(n, 0), (n, 65_536)]) {
        put_word(&mut memory, header::COLUMNS, columns + form);
        assert_eq!(facts::all_failing(&memory, &list), ["the measures lie within their limits"]);
        assert!(sound(&memory, &list).is_none());
    }
    // Form 1 needs less, and what stands behind is no matter.
    put_word(&mut memory, header::COLUMNS, SMALL.columns);
    let need = layout.moved_to(Form::First).need();
    for length in [need, need + 1, memory.len()] {
        assert_eq!(facts::failing(&memory[..length], &list), None);
        assert!(sound(&memory[..length], &list).is_some());
    }
    let short = ["the memory is as long as the shape needs"];
    assert_eq!(facts::all_failing(&memory[..need - 1], &list), short);
    put_word(&mut memory, header::COLUMNS, SMALL.columns + 65_536);
    assert_eq!(facts::all_failing(&memory[..need], &list), short);
    assert_eq!(facts::all_failing(&memory[..layout.need() - 1], &list), short);
}

/// Keepers of rows, records and open transactions are no stored fact: whatever they are, the memory is
/// usable.
#[test]
fn keepers_are_no_fact() {
    let (mut memory, mut list, layout) = small();
    set_and_commit(&mut memory, &mut list);
    assert_eq!(Plain::<0>.call(&mut memory, &mut list, &Call::Begin), Answer::Number(2));
    for keeper in [1, 65_535, 65_536, u32::MAX] {
        for region in [Region::RowKeeper, Region::TailKeeper, Region::OpenKeeper] {
            for at in 0..layout.length(region) {
                put_word(&mut memory, layout.base(region) + at, keeper);
            }
        }
        assert_eq!(facts::failing(&memory, &list), None);
        assert!(sound(&memory, &list).is_some());
    }
}

/// Row 0 with a setting of its column 0, by the first commit.
fn set_and_commit(memory: &mut [u8], list: &mut [ScanEntry]) {
    for call in [
        Call::Begin,
        Call::Insert { transaction: 1, values: vec![1, 2] },
        Call::Update { transaction: 1, row: 0, mask: 1, values: vec![3, 4] },
        Call::Commit { transaction: 1, stamp: 5 },
    ] {
        assert!(!Plain::<0>.call(memory, list, &call).is_refused());
    }
}

/// With 2^32 - 1 commits made a commit is accepted, the count goes round, and the ordinal with it.
#[test]
fn the_count_of_commits_goes_round() {
    let (mut memory, mut list, layout) = small();
    let store = Plain::<0>;
    set_and_commit(&mut memory, &mut list);
    assert_eq!(word(&memory, header::COMMITS_MADE), 1);
    put_word(&mut memory, header::COMMITS_MADE, u32::MAX);
    let ordinal = |memory: &[u8], row: usize| word(memory, layout.base(Region::RowOrdinal) + row);
    for (transaction, made) in [(2, 0), (3, 1)] {
        for call in [
            Call::Begin,
            Call::Insert { transaction, values: vec![] },
            Call::Commit { transaction, stamp: 5 },
        ] {
            assert!(!store.call(&mut memory, &mut list, &call).is_refused());
        }
        assert_eq!(word(&memory, header::COMMITS_MADE), made);
        assert_eq!(ordinal(&memory, transaction as usize - 1), made);
    }
}

/// With 2^32 - 1 merges made a merge is accepted, and the count goes round.
#[test]
fn the_count_of_merges_goes_round() {
    let (mut memory, mut list, _) = small();
    let store = Plain::<0>;
    set_and_commit(&mut memory, &mut list);
    put_word(&mut memory, header::MERGES_MADE, u32::MAX);
    let merge = Call::Merge { range: 0, column: 0, through: 2 };
    assert_eq!(store.call(&mut memory, &mut list, &merge), Answer::Done);
    assert_eq!(word(&memory, header::MERGES_MADE), 0);
}

/// Words of unused rows, records and free pages may hold anything.
#[test]
fn unused_words_may_hold_anything() {
    let (mut memory, list, layout) = small();
    let unused = [
        (Region::RowTransaction, 0),
        (Region::RowLink, 0),
        (Region::RowStamp, 3),
        (Region::TailRow, 0),
        (Region::TailLink, 2),
        (Region::PageNewest, layout.chunks),
        (Region::PageLineage, layout.chunks + 1),
        (Region::PageMade, 0),
        (Region::Changes, 1),
        (Region::RowOrdinal, 0),
        (Region::TailOrdinal, 2),
        (Region::RowKeeper, 0),
        (Region::TailKeeper, 2),
        (Region::OpenKeeper, 1),
        (Region::Header, 10),
        (Region::Header, 15),
    ];
    for (region, at) in unused {
        put_word(&mut memory, layout.base(region) + at, u32::MAX);
    }
    assert_eq!(facts::failing(&memory, &list), None);
    assert!(sound(&memory, &list).is_some());
    // A page that says it is current and that no place names is free all the same.
    put_word(&mut memory, layout.base(Region::PageState) + layout.chunks, page::CURRENT);
    assert_eq!(facts::failing(&memory, &list), None);
    assert!(sound(&memory, &list).is_some());
}
