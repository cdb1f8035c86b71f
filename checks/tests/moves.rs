//! The moves from one form to the other in known memories: their bytes by hand, which keepers close the way back
//! and which do not, what of the second memory is looked at, and what comes over of words that no fact speaks
//! of.

use checks::memory::{columns_word, form_number, put_word, word};
use checks::memory::{Layout, Region, ScanEntry, OPENS, SCANS, WORD};
use checks::unmade::passing;
use checks::{facts, first, moves, right_stores, stated, Store};
use reference::random::Random;
use reference::{Answer, Call, Form, Shape};

const SHAPE: Shape = Shape { columns: 2, ranges: 1, capacity: 4, spares: 1 };

/// What a second memory holds before a move.
const HELD: u8 = 0x5A;

/// A memory of a form, and its list, after these calls, each of them accepted.
fn after(store: &dyn Store, form: Form, calls: &[Call]) -> (Vec<u8>, Vec<ScanEntry>) {
    let mut memory = vec![0xFF; Layout::in_form(&SHAPE, form).need()];
    let mut list = vec![ScanEntry::FREE; SCANS];
    match form {
        Form::First => first::make(&mut memory, &mut list, &SHAPE),
        Form::Newest => assert_eq!(store.make(&mut memory, &mut list, &SHAPE), Answer::Done),
    }
    for call in calls {
        let answer = store.call(&mut memory, &mut list, call);
        assert!(!answer.is_refused(), "{call:?}: {answer:?}");
    }
    (memory, list)
}

/// The answer to a move, and the second memory after it; nothing else has changed.
fn moved(
    store: &dyn Store,
    (memory, list): (&[u8], &[ScanEntry]),
    call: &Call,
    second: &[u8],
) -> (Answer, Vec<u8>) {
    let (mut from, mut entries, mut second) = (memory.to_vec(), list.to_vec(), second.to_vec());
    let answer = store.move_with(&mut from, &mut entries, &mut second, call);
    assert!(from == memory && entries == list, "{call:?} changed what it moves");
    (answer, second)
}

/// The store moved into a memory of just the bytes that it needs there.
fn moved_on(store: &dyn Store, memory: &[u8], list: &[ScanEntry], call: &Call) -> Vec<u8> {
    let second = vec![HELD; moves::need(memory, call).expect("measures")];
    let (answer, second) = moved(store, (memory, list), call, &second);
    assert_eq!(answer, Answer::Done, "{call:?}");
    second
}

/// Row 0 inserted and its column 0 set, both committed; a third transaction is open and holds the row.
fn calls() -> Vec<Call> {
    vec![
        Call::Begin,
        Call::Insert { transaction: 1, values: vec![1200, -30] },
        Call::Commit { transaction: 1, stamp: 10 },
        Call::Begin,
        Call::Update { transaction: 2, row: 0, mask: 1, values: vec![1250, 0] },
        Call::Commit { transaction: 2, stamp: 20 },
        Call::OpenScan { stamp: 20 },
        Call::Merge { range: 0, column: 0, through: 2 },
        Call::Begin,
        Call::Delete { transaction: 3, row: 0 },
    ]
}

/// With 64 rows, 4 tail records and 3 pages form 1 has 669 words, and form 2 behind them 64, 4 and 8 for keepers.
/// The first word says the form in its third byte.
#[test]
fn the_bytes_of_the_moves_by_hand() {
    for store in right_stores() {
        let (mut memory, list) = after(store.as_ref(), Form::First, &calls());
        for (place, number) in (10..16).zip([1, u32::MAX, 65_536, 131_072, 7, 0x1234_5678]) {
            put_word(&mut memory, place, number);
        }
        assert_eq!((memory.len(), memory[..4].to_vec()), (669 * 4, vec![2, 0, 0, 0]));
        let (answer, second) =
            moved(store.as_ref(), (&memory, &list), &Call::Upgrade, &[HELD; 745 * 4 + 9]);
        assert_eq!(answer, Answer::Done);
        assert_eq!(second[..4], [2, 0, 1, 0]);
        assert!(second[4..669 * 4] == memory[4..]);
        assert!(second[669 * 4..745 * 4].iter().all(|byte| *byte == 0));
        assert_eq!(second[745 * 4..], [HELD; 9]);

        let (answer, third) =
            moved(store.as_ref(), (&second, &list), &Call::Downgrade, &[HELD; 669 * 4 + 9]);
        assert_eq!(answer, Answer::Done);
        assert!(third[..669 * 4] == memory);
        assert_eq!(third[669 * 4..], [HELD; 9]);
    }
}

/// A move that works on a form: where it starts.
const FROM: [(Call, Form); 2] = [(Call::Upgrade, Form::First), (Call::Downgrade, Form::Newest)];

/// Of the second memory the length alone is looked at, and it is looked at before the keepers.
#[test]
fn the_second_memory_counts_by_its_length_alone() {
    for store in right_stores() {
        let store = store.as_ref();
        for (call, form) in &FROM {
            let (memory, list) = after(store, *form, &calls());
            let need = moves::need(&memory, call).expect("measures");
            let left = moved_on(store, &memory, &list, call);
            let store_there = after(store, call.moves_to().expect("a move"), &[]).0;
            for held in [vec![0; need], vec![0xFF; need], store_there, left.clone()] {
                let (answer, second) = moved(store, (&memory, &list), call, &held);
                assert_eq!((answer, second == left), (Answer::Done, true));
                for length in [0, 1, 16, 64, need - 1] {
                    let (answer, second) = moved(store, (&memory, &list), call, &held[..length]);
                    assert_eq!((answer, second == held[..length]), (Answer::Refused(2), true));
                }
            }
        }
        let (memory, list) = after(store, Form::Newest, &[Call::BeginAs { keeper: 5 }]);
        let need = moves::need(&memory, &Call::Downgrade).expect("measures");
        for (length, number) in [(need - 1, 2), (need, 22), (need + 1, 22)] {
            let held = vec![HELD; length];
            let (answer, second) = moved(store, (&memory, &list), &Call::Downgrade, &held);
            assert_eq!((answer, second == held), (Answer::Refused(number), true));
        }
    }
}

/// A call without a second memory is refused, as one of no byte is.
#[test]
fn a_move_without_a_second_memory_is_refused() {
    for store in right_stores() {
        for (call, form) in &FROM {
            let (mut memory, mut list) = after(store.as_ref(), *form, &calls());
            assert_eq!(store.call(&mut memory, &mut list, call), Answer::Refused(2));
        }
    }
}

/// After `calls`, with keeper words put: each store moves back, or refuses to with 22, as the words have it.
fn back(put: &[(Region, usize, u32)], wanted: Answer) {
    for store in right_stores() {
        let (mut memory, list) = after(store.as_ref(), Form::Newest, &calls());
        let layout = Layout::of(&SHAPE);
        for (region, at, word) in put {
            put_word(&mut memory, layout.base(*region) + at, *word);
        }
        let stored = facts::usable(&memory, &list).expect("no fact fails");
        let due = stated::refusal(&stored, &Call::Downgrade).map_or(Answer::Done, Answer::Refused);
        assert_eq!(due, wanted, "{put:?}");
        let held = vec![HELD; moves::need(&memory, &Call::Downgrade).expect("measures")];
        let (answer, second) = moved(store.as_ref(), (&memory, &list), &Call::Downgrade, &held);
        assert_eq!(answer, wanted, "{put:?}");
        if wanted.is_refused() {
            assert!(second == held, "{put:?}");
        } else {
            assert!(second == moves::left(&memory, &held, Form::First), "{put:?}");
        }
    }
}

/// One row is given and three records are used, of which the last is pending; the third transaction is the only
/// open one, in the first entry.
#[test]
fn each_used_place_closes_the_way_back_and_no_other() {
    let (given, used, open) = (1, 3, 1);
    back(&[], Answer::Done);
    for (region, count, length) in [
        (Region::RowKeeper, given, 64),
        (Region::TailKeeper, used, 4),
        (Region::OpenKeeper, open, OPENS),
    ] {
        for at in [0, 1, 2, 3, length - 1] {
            let wanted = if at < count { Answer::Refused(22) } else { Answer::Done };
            for keeper in [1, 255, 256, 65_535, 65_537, u32::MAX] {
                back(&[(region, at, keeper)], wanted.clone());
            }
        }
    }
}

/// Of a keeper's word the lower two bytes count, as they do for a call for a keeper: what it answers is 0, so that
/// the way back is open.
#[test]
fn a_word_whose_lower_half_is_0_closes_nothing() {
    for word in [65_536, 131_072, 0xFFFF_0000] {
        back(&[(Region::RowKeeper, 0, word), (Region::TailKeeper, 1, word)], Answer::Done);
        back(&[(Region::OpenKeeper, 0, word)], Answer::Done);
        back(&[(Region::TailKeeper, 2, word + 1)], Answer::Refused(22));
    }
}

/// An aborted record and an aborted row bear their keepers still, whatever their states say.
#[test]
fn a_keeper_is_borne_in_whatever_state() {
    for state in [0, 1, 2, u32::MAX] {
        let record = [(Region::TailState, 1, state), (Region::TailKeeper, 1, 5)];
        back(&record, Answer::Refused(22));
        back(&[(Region::RowState, 0, state), (Region::RowKeeper, 0, 5)], Answer::Refused(22));
        back(&[(Region::TailKind, 1, state), (Region::TailKeeper, 1, 5)], Answer::Refused(22));
    }
}

/// Of form 1 every needed byte comes over and comes back, in memories of which every fact holds and of which all
/// that no fact speaks of holds anything.
#[test]
fn any_usable_memory_of_form_1_comes_back_with_its_bytes() {
    let mut random = Random::new(1);
    let mut compared = 0;
    while compared < 300 {
        let (memory, list) = passing(&mut random);
        let layout = Layout::stored(&memory).expect("measures");
        if layout.form != Form::First {
            continue;
        }
        for store in right_stores() {
            let up = moved_on(store.as_ref(), &memory, &list, &Call::Upgrade);
            assert_eq!(facts::failing(&up, &list), None);
            let back = moved_on(store.as_ref(), &up, &list, &Call::Downgrade);
            assert!(back == memory[..layout.need()]);
        }
        compared += 1;
    }
}

/// Form 1 has no word for a keeper: of a memory in the newest form that no call made, the keepers of places that
/// are not used are lost on the way back, and all else comes up again.
#[test]
fn back_and_up_again_the_keepers_are_0() {
    for store in right_stores() {
        let (mut memory, list) = after(store.as_ref(), Form::Newest, &calls());
        let layout = Layout::of(&SHAPE);
        let made = memory.clone();
        let first = moved_on(store.as_ref(), &memory, &list, &Call::Downgrade);
        assert!(
            moved_on(store.as_ref(), &first, &list, &Call::Upgrade) == made,
            "as calls left it"
        );
        for (region, at) in
            [(Region::RowKeeper, 63), (Region::TailKeeper, 3), (Region::OpenKeeper, 7)]
        {
            put_word(&mut memory, layout.base(region) + at, 9);
        }
        let first = moved_on(store.as_ref(), &memory, &list, &Call::Downgrade);
        assert!(moved_on(store.as_ref(), &first, &list, &Call::Upgrade) == made);
    }
}

/// Each call works on the forms that Item 7 says, and the check answers the form.
#[test]
fn each_call_works_on_its_forms() {
    for store in right_stores() {
        for form in Form::ALL {
            let (memory, list) = after(store.as_ref(), form, &calls());
            assert_eq!(word(&memory, 0), columns_word(2, form_number(form)));
            assert_eq!(store.check(&memory, &list), Answer::Number(form_number(form)));
            let newest = form == Form::Newest;
            for (call, works) in [
                (Call::Begin, true),
                (Call::Insert { transaction: 3, values: vec![1, 2] }, true),
                (Call::Update { transaction: 9, row: 0, mask: 1, values: vec![1, 2] }, true),
                (Call::Delete { transaction: 9, row: 0 }, true),
                (Call::Commit { transaction: 3, stamp: 30 }, true),
                (Call::Abort { transaction: 3 }, true),
                (Call::Latest { row: 0, column: 0 }, true),
                (Call::ReadAt { stamp: 10, row: 0, column: 0 }, true),
                (Call::OwnRead { transaction: 3, row: 0, column: 0 }, true),
                (Call::OpenScan { stamp: 20 }, true),
                (Call::ScanRead { scan: 1, row: 0, column: 0 }, true),
                (Call::Sum { scan: 1, column: 0 }, true),
                (Call::Close { scan: 1 }, true),
                (Call::Merge { range: 0, column: 1, through: 2 }, true),
                (Call::Release, true),
                (Call::PageCell { column: 0, row: 0 }, true),
                (Call::Lineage { range: 0, column: 0 }, true),
                (Call::Crossings { row: 0, column: 0, mark: 0, from: 0, to: 9, places: 0 }, true),
                (Call::BeginAs { keeper: 1 }, newest),
                (Call::KeeperAt { stamp: 10, row: 0, column: 0 }, newest),
                (Call::Upgrade, !newest),
                (Call::Downgrade, newest),
            ] {
                let (mut memory, mut list) = (memory.clone(), list.clone());
                let mut second = vec![HELD; 745 * WORD];
                let answer = match call.moves_to() {
                    Some(_) => store.move_with(&mut memory, &mut list, &mut second, &call),
                    None => store.call(&mut memory, &mut list, &call),
                };
                assert_eq!(answer != Answer::Refused(2), works, "{call:?} on {form:?}");
                assert_eq!(call.works_on(form), works, "{call:?} on {form:?}");
            }
        }
    }
}

/// With a list of too few entries, or a memory one byte too short, a move is refused as any call is.
#[test]
fn the_memory_moved_from_is_tested_as_for_any_call() {
    for store in right_stores() {
        for (call, form) in &FROM {
            let (memory, list) = after(store.as_ref(), *form, &calls());
            let held = vec![HELD; 745 * WORD];
            let short = &memory[..memory.len() - 1];
            for (memory, list) in [(short, &list[..]), (&memory, &list[..4]), (&[], &list)] {
                let (answer, second) = moved(store.as_ref(), (memory, list), call, &held);
                assert_eq!((answer, second == held), (Answer::Refused(2), true));
                assert_eq!(store.check(memory, list), Answer::Refused(2));
            }
        }
    }
}
