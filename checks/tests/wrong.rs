//! Wrong stores: each fault of the plain page store, and each store that sees a part of the list
//! alone, must be told apart by the comparisons, and the right store by none.

use checks::memory::{Layout, Region, ScanEntry, SCANS};
use checks::plain::{faults, Altered, Plain};
use checks::store::told;
use checks::{agree, damage, facts, first, moves, same, Store};
use reference::{Answer, Call, Form, History};

/// A seed of which the small store that is damaged is in the newest form.
const IN_THE_NEWEST: u64 = 1;

/// Lists that are tried before a fault counts as not found.
const LISTS: u64 = 4000;

fn told_apart(store: &dyn Store) {
    let found = agree::run(store, 0, LISTS);
    assert!(found.is_err(), "the fault was not found in {LISTS} lists");
}

macro_rules! wrong_stores {
    ($($name:ident: $fault:ident,)*) => {$(
        #[test]
        fn $name() {
            told_apart(&Plain::<{ faults::$fault }>);
        }
    )*};
}

wrong_stores! {
    no_newest_test: NO_NEWEST_TEST,
    merge_stops_at_aborted: MERGE_STOPS_AT_ABORTED,
    other_columns_lineage: OTHER_COLUMNS_LINEAGE,
    release_heeds_no_scan: RELEASE_HEEDS_NO_SCAN,
    original_forgotten: ORIGINAL_FORGOTTEN,
    abort_takes_mask_bits: ABORT_TAKES_MASK_BITS,
    merge_drops_uncommitted_rows: MERGE_DROPS_UNCOMMITTED_ROWS,
    held_by_inserter_only: HELD_BY_INSERTER_ONLY,
    aborted_delete_ends: ABORTED_DELETE_ENDS,
    release_off_by_one: RELEASE_OFF_BY_ONE,
    delete_zeroes_cell: DELETE_ZEROES_CELL,
    merge_applies_aborted: MERGE_APPLIES_ABORTED,
    scan_on_old_page: SCAN_ON_OLD_PAGE,
    aborted_delete_makes_gone: ABORTED_DELETE_MAKES_GONE,
    merge_forgets_newest: MERGE_FORGETS_NEWEST,
    merge_applies_nothing: MERGE_APPLIES_NOTHING,
    commit_forgets_records: COMMIT_FORGETS_RECORDS,
    stamp_of_the_row: STAMP_OF_THE_ROW,
    stamp_of_the_page: STAMP_OF_THE_PAGE,
    stamp_of_the_updater: STAMP_OF_THE_UPDATER,
    pending_at_the_last: PENDING_AT_THE_LAST,
    stamp_of_an_aborted: STAMP_OF_AN_ABORTED,
    scans_by_entries: SCANS_BY_ENTRIES,
    transactions_as_scans: TRANSACTIONS_AS_SCANS,
    scan_sees_later_setting: SCAN_SEES_LATER_SETTING,
    scan_sees_later_insert: SCAN_SEES_LATER_INSERT,
    scan_sees_later_end: SCAN_SEES_LATER_END,
    oldest_of_the_minute: OLDEST_OF_THE_MINUTE,
    earlier_commit_accepted: EARLIER_COMMIT_ACCEPTED,
    commit_must_be_later: COMMIT_MUST_BE_LATER,
    commit_at_0_refused: COMMIT_AT_0_REFUSED,
    scan_has_no_commits: SCAN_HAS_NO_COMMITS,
    scan_misses_last_commit: SCAN_MISSES_LAST_COMMIT,
    scan_forgets_stamp: SCAN_FORGETS_STAMP,
    scan_on_current_page: SCAN_ON_CURRENT_PAGE,
    first_value_crosses: FIRST_VALUE_CROSSES,
    crossing_at_from_lost: CROSSING_AT_FROM_LOST,
    crossing_at_to_lost: CROSSING_AT_TO_LOST,
    value_before_from_forgotten: VALUE_BEFORE_FROM_FORGOTTEN,
    full_slice_refused: FULL_SLICE_REFUSED,
    replaced_setting_counts: REPLACED_SETTING_COUNTS,
    aborted_setting_counts: ABORTED_SETTING_COUNTS,
    pending_setting_counts: PENDING_SETTING_COUNTS,
    stamp_past_the_count: STAMP_PAST_THE_COUNT,
    stamps_though_refused: STAMPS_THOUGH_REFUSED,
    above_alone: ABOVE_ALONE,
    mark_without_sign: MARK_WITHOUT_SIGN,
    minute_stands_once: MINUTE_STANDS_ONCE,
    last_of_the_minute_counts: LAST_OF_THE_MINUTE_COUNTS,
    newest_first: NEWEST_FIRST,
    inserted_value_forgotten: INSERTED_VALUE_FORGOTTEN,
    original_is_the_updaters: ORIGINAL_IS_THE_UPDATERS,
    inserter_gives_two: INSERTER_GIVES_TWO,
    other_column_counts: OTHER_COLUMN_COUNTS,
    merged_setting_passed_over: MERGED_SETTING_PASSED_OVER,
    ended_row_has_none: ENDED_ROW_HAS_NONE,
    minutes_tested_first: MINUTES_TESTED_FIRST,
    from_after_to_accepted: FROM_AFTER_TO_ACCEPTED,
    later_to_accepted: LATER_TO_ACCEPTED,
    keeper_of_the_updater: KEEPER_OF_THE_UPDATER,
    keeper_of_the_row: KEEPER_OF_THE_ROW,
    keeper_of_an_aborted: KEEPER_OF_AN_ABORTED,
    keeper_of_the_newest: KEEPER_OF_THE_NEWEST,
    keeper_of_another_column: KEEPER_OF_ANOTHER_COLUMN,
    keeper_lost_by_merge: KEEPER_LOST_BY_MERGE,
    keeper_of_an_unseen_row: KEEPER_OF_AN_UNSEEN_ROW,
    keeper_ahead_accepted: KEEPER_AHEAD_ACCEPTED,
    keeper_tests_stamp_last: KEEPER_TESTS_STAMP_LAST,
    keeper_of_one_byte: KEEPER_OF_ONE_BYTE,
    former_keeper_stays: FORMER_KEEPER_STAYS,
}

/// An original holds what the page has before any setting of its row and column, and a merge goes
/// forward, so applying originals gives no other answer. The bytes tell it apart: a page's newest
/// stamp is that of a setting.
#[test]
fn merge_applies_originals() {
    let wrong = Plain::<{ faults::MERGE_APPLIES_ORIGINALS }>;
    assert!(same::run(&Plain::<0>, &wrong, 0, LISTS).is_err());
}

/// By a lesser count of commits no reader sees more or less, as long as it counts those that changed
/// something, in their order. The bytes tell it apart: a scan's entry has the count of all commits.
#[test]
fn empty_commit_not_counted() {
    let wrong = Plain::<{ faults::EMPTY_COMMIT_NOT_COUNTED }>;
    agree::run(&wrong, 0, 200).expect("no difference");
    assert!(same::run(&Plain::<0>, &wrong, 0, LISTS).is_err());
}

/// By the bytes alone, which `same` compares.
fn told_apart_by_bytes(wrong: &impl Store, region: Region) {
    agree::run(wrong, 0, 200).expect("no difference");
    let difference = same::run(&Plain::<0>, wrong, 0, LISTS).expect_err("the fault was not found");
    assert!(difference.contains(&format!("of {region:?}: ")), "{difference}");
}

/// After calls alone the keeper of a free place is 0 whether or not a begin writes it.
#[test]
fn begin_writes_no_keeper() {
    told_apart_by_bytes(&Plain::<{ faults::BEGIN_WRITES_NO_KEEPER }>, Region::OpenKeeper);
}

/// The keeper of a free place goes into no answer, since a begin writes it, and does not close the way back.
/// But form 1 has no word for it, so that back and up again it is lost.
#[test]
fn end_leaves_the_keeper() {
    let wrong = Plain::<{ faults::END_LEAVES_THE_KEEPER }>;
    answers_rightly(&wrong, 200);
    let difference = agree::run(&wrong, 0, LISTS).expect_err("the fault was not found");
    assert!(difference.contains("moved there and back the memory is another"), "{difference}");
    let difference = same::run(&Plain::<0>, &wrong, 0, LISTS).expect_err("the fault was not found");
    assert!(difference.contains(" of OpenKeeper: "), "{difference}");
}

/// A delete sets no value, so that its keeper is not asked for; the way back alone heeds it.
#[test]
fn delete_without_keeper() {
    let wrong = Plain::<{ faults::DELETE_WITHOUT_KEEPER }>;
    let difference = wrong_answer(&wrong, LISTS).expect("a wrong answer");
    assert!(difference.contains("Downgrade: Done, where Refused(22) is due"), "{difference}");
    told_apart(&wrong);
    let difference = same::run(&Plain::<0>, &wrong, 0, LISTS).expect_err("the fault was not found");
    assert!(difference.contains(" of TailKeeper: "), "{difference}");
}

/// On memories that no call made, and on no others.
fn told_apart_where_unmade(wrong: &impl Store) {
    agree::run(wrong, 0, 200).expect("no difference");
    assert!(damage::random_memories(wrong, 0, LISTS).is_err());
    assert!(damage::disturbed_stores(wrong, 0, LISTS).is_err());
    assert!(same::run(&Plain::<0>, wrong, 0, LISTS).is_err());
}

/// Calls put the original of a column before its first setting, and no second one.
#[test]
fn later_original() {
    told_apart_where_unmade(&Plain::<{ faults::LATER_ORIGINAL }>);
}

/// Calls put the settings of a row in the order of their stamps, so that those later than `to` stand
/// behind all others.
#[test]
fn later_value_counts() {
    told_apart_where_unmade(&Plain::<{ faults::LATER_VALUE_COUNTS }>);
}

/// Calls write keepers of 16 bits.
#[test]
fn whole_word_of_a_keeper() {
    told_apart_where_unmade(&Plain::<{ faults::WHOLE_WORD_OF_A_KEEPER }>);
}

/// Calls note each column of an update in the row's mask.
#[test]
fn keeper_without_the_mask() {
    told_apart_where_unmade(&Plain::<{ faults::KEEPER_WITHOUT_THE_MASK }>);
}

/// Making gives form 2, and no call one above it.
#[test]
fn later_form_accepted() {
    let wrong = Plain::<{ faults::LATER_FORM_ACCEPTED }>;
    let by_form = |difference: Result<damage::Tally, String>| {
        let difference = difference.expect_err("the fault was not found");
        assert!(difference.contains("'the memory is in form 1 or 2' fails"), "{difference}");
    };
    agree::run(&wrong, 0, 200).expect("no difference");
    // The bytes of a store in the newest form.
    by_form(damage::every_byte(&wrong, IN_THE_NEWEST));
    by_form(damage::random_memories(&wrong, 0, LISTS));
    assert!(same::run(&Plain::<0>, &wrong, 0, LISTS).is_err());
}

/// The first answer on the lists of so many seeds that is not the plain history's, and failing facts after a
/// list; no byte is looked at else. A move is followed into the second memory, which held something else.
fn wrong_answer(store: &dyn Store, seeds: u64) -> Option<String> {
    for seed in 0..seeds {
        let agree::List { shape, form, calls } = agree::list(seed);
        let mut history = History::new(shape);
        let need = Layout::in_form(&shape, form).need();
        let (mut memory, mut list) = (vec![0; need], [ScanEntry::FREE; SCANS]);
        match form {
            Form::First => first::make(&mut memory, &mut list, &shape),
            Form::Newest => assert_eq!(store.make(&mut memory, &mut list, &shape), Answer::Done),
        }
        for call in &calls {
            let due = told(history.call(call)).0;
            let answer = if let Some(need) = moves::need(&memory, call) {
                let mut second = vec![0x11; need];
                let answer = store.move_with(&mut memory, &mut list, &mut second, call);
                if !answer.is_refused() {
                    memory = second;
                }
                answer
            } else {
                let mut stamps = match call {
                    Call::Crossings { places, .. } => vec![0; *places as usize],
                    _ => Vec::new(),
                };
                store.call_with(&mut memory, &mut list, &mut stamps, call)
            };
            if answer != due {
                return Some(format!("seed {seed}, {call:?}: {answer:?}, where {due:?} is due"));
            }
        }
        if let Some(fact) = facts::failing(&memory, &list) {
            return Some(format!("seed {seed}: '{fact}' fails"));
        }
    }
    None
}

/// On the lists of so many seeds every answer is the plain history's, and after each list no fact fails.
fn answers_rightly(store: &dyn Store, seeds: u64) {
    assert_eq!(wrong_answer(store, seeds), None);
}

/// Told apart by an answer, and by `agree` and `same`, which look at bytes too.
fn told_apart_by_answers(wrong: &dyn Store) {
    let found = wrong_answer(wrong, LISTS);
    assert!(found.is_some(), "no answer was wrong in {LISTS} lists");
    told_apart(wrong);
    assert!(same::run(&Plain::<0>, wrong, 0, LISTS).is_err());
}

macro_rules! wrong_moves {
    ($($name:ident: $fault:ident,)*) => {$(
        #[test]
        fn $name() {
            told_apart_by_answers(&Plain::<{ faults::$fault }>);
        }
    )*};
}

wrong_moves! {
    form_1_refused_by_latest: FORM_1_REFUSED_BY_LATEST,
    move_forgets_open_transactions: MOVE_FORGETS_OPEN_TRANSACTIONS,
    move_forgets_changes: MOVE_FORGETS_CHANGES,
    move_forgets_waiting_pages: MOVE_FORGETS_WAITING_PAGES,
    move_loses_made: MOVE_LOSES_MADE,
    move_loses_replaced: MOVE_LOSES_REPLACED,
    move_forgets_ordinals: MOVE_FORGETS_ORDINALS,
    move_closes_scans: MOVE_CLOSES_SCANS,
    move_leaves_keepers: MOVE_LEAVES_KEEPERS,
    move_forgets_the_form: MOVE_FORGETS_THE_FORM,
    back_without_keeper_test: BACK_WITHOUT_KEEPER_TEST,
    back_heeds_no_rows: BACK_HEEDS_NO_ROWS,
    back_heeds_no_records: BACK_HEEDS_NO_RECORDS,
    back_heeds_no_aborted: BACK_HEEDS_NO_ABORTED,
    back_heeds_no_deletes: BACK_HEEDS_NO_DELETES,
    back_heeds_no_open: BACK_HEEDS_NO_OPEN,
    back_wants_the_newest_need: BACK_WANTS_THE_NEWEST_NEED,
}

/// No answer is another, so that the bytes alone tell it apart: `agree` finds it, by these words.
fn told_apart_by_moved_bytes(wrong: &dyn Store, words: &str) {
    answers_rightly(wrong, 200);
    let difference = agree::run(wrong, 0, LISTS).expect_err("the fault was not found");
    assert!(difference.contains(words), "{difference}");
    assert!(damage::random_memories(wrong, 0, LISTS).is_err());
    assert!(same::run(&Plain::<0>, wrong, 0, LISTS).is_err());
}

/// The cells of a free page are not looked at before a merge has written all of them, but they are needed bytes.
#[test]
fn move_leaves_free_cells() {
    let wrong = Plain::<{ faults::MOVE_LEAVES_FREE_CELLS }>;
    told_apart_by_moved_bytes(&wrong, "the second memory is not as the move leaves it, at word ");
}

#[test]
fn move_past_the_need() {
    let wrong = Plain::<{ faults::MOVE_PAST_THE_NEED }>;
    told_apart_by_moved_bytes(&wrong, "past the need");
}

/// No call is lent the memory moved from any more.
#[test]
fn move_writes_the_first() {
    let wrong = Plain::<{ faults::MOVE_WRITES_THE_FIRST }>;
    told_apart_by_moved_bytes(&wrong, "the memory changed outside the call's footprint");
}

#[test]
fn writes_though_refused() {
    let wrong = Plain::<{ faults::WRITES_THOUGH_REFUSED }>;
    told_apart_by_moved_bytes(&wrong, "it changed a byte of the second memory");
}

/// On memories that no call made, on second memories that are too short or hold a store, or in a form that the
/// call does not work on: lists of calls lend no such thing.
fn told_apart_where_not_listed(wrong: &dyn Store) {
    agree::run(wrong, 0, 400).expect("no difference");
    assert!(damage::random_memories(wrong, 0, LISTS).is_err());
    assert!(same::run(&Plain::<0>, wrong, 0, LISTS).is_err());
}

macro_rules! unlisted_moves {
    ($($name:ident: $fault:ident,)*) => {$(
        #[test]
        fn $name() {
            told_apart_where_not_listed(&Plain::<{ faults::$fault }>);
        }
    )*};
}

unlisted_moves! {
    keeper_at_on_form_1: KEEPER_AT_ON_FORM_1,
    begin_as_on_form_1: BEGIN_AS_ON_FORM_1,
    upgrade_of_the_newest: UPGRADE_OF_THE_NEWEST,
    downgrade_of_form_1: DOWNGRADE_OF_FORM_1,
    move_clears_unused_header: MOVE_CLEARS_UNUSED_HEADER,
    back_heeds_unused: BACK_HEEDS_UNUSED,
    back_heeds_whole_words: BACK_HEEDS_WHOLE_WORDS,
    back_tests_keepers_first: BACK_TESTS_KEEPERS_FIRST,
    second_store_refused: SECOND_STORE_REFUSED,
}

/// The difference is a word of this region that a merge changed.
fn is_of_a_merge(difference: Result<impl std::fmt::Debug, String>, region: Region) {
    let difference = difference.expect_err("the fault was not found");
    let footprint = "the memory changed outside the call's footprint";
    assert!(difference.contains("merge"), "{difference}");
    assert!(difference.contains(footprint), "{difference}");
    assert!(difference.contains(&format!("of {region:?}: ")), "{difference}");
}

/// A merge notes the rows that it meets. No answer is another and no fact fails, so that of all that `agree`
/// and `damage` look at the footprint alone tells it apart.
fn told_apart_by_footprint(wrong: &dyn Store, region: Region) {
    answers_rightly(wrong, 200);
    is_of_a_merge(agree::run(wrong, 0, LISTS), region);
    is_of_a_merge(damage::random_memories(wrong, 0, LISTS), region);
}

/// No call looks at the spare words.
#[test]
fn merge_notes_in_header() {
    told_apart_by_footprint(&Plain::<{ faults::MERGE_NOTES_IN_HEADER }>, Region::Header);
}

/// The cells of a free page are not looked at before a merge has written all of them.
#[test]
fn merge_notes_in_free_page() {
    told_apart_by_footprint(&Plain::<{ faults::MERGE_NOTES_IN_FREE_PAGE }>, Region::Cells);
}

/// Of a mask no bit is looked at that stands for no column.
#[test]
fn merge_notes_in_mask() {
    told_apart_by_footprint(&Plain::<{ faults::MERGE_NOTES_IN_MASK }>, Region::RowMask);
}

/// Making puts 0 in the spare words and no call writes them, so that a merge which leaves 0 there has
/// changed nothing: `agree` sees no difference. In memories that no call made they hold anything.
#[test]
fn merge_clears_its_notes() {
    let wrong = Plain::<{ faults::MERGE_CLEARS_ITS_NOTES }>;
    agree::run(&wrong, 0, 200).expect("no difference");
    is_of_a_merge(damage::random_memories(&wrong, 0, LISTS), Region::Header);
}

/// The plain store with another count of crossings, though it lists the right ones.
#[test]
fn another_count_of_crossings() {
    let wrong = Altered(
        |memory: &mut [u8], scans: &mut [ScanEntry], stamps: &mut [u32], call: &Call| match (
            call,
            Plain::<0>.call_with(memory, scans, stamps, call),
        ) {
            (Call::Crossings { .. }, Answer::Number(count)) => Answer::Number(count + 1),
            (_, answer) => answer,
        },
    );
    told_apart(&wrong);
    assert!(damage::random_memories(&wrong, 0, LISTS).is_err());
    assert!(same::run(&wrong, &wrong, 0, LISTS).is_err());
}

/// The plain store with sums that leave their count in a free entry of the list. What such an entry holds
/// besides number 0 is no matter to any answer or fact.
#[test]
fn a_sum_writes_in_a_free_entry() {
    let wrong =
        Altered(|memory: &mut [u8], scans: &mut [ScanEntry], stamps: &mut [u32], call: &Call| {
            let answer = Plain::<0>.call_with(memory, scans, stamps, call);
            let free = scans.iter_mut().find(|scan| !scan.is_open());
            if let (Answer::Sum { count, .. }, Some(free)) = (&answer, free) {
                free.commits = *count;
            }
            answer
        });
    answers_rightly(&wrong, 200);
    let footprint = "the list changed outside the call's footprint";
    let difference = agree::run(&wrong, 0, LISTS).expect_err("the fault was not found");
    assert!(difference.contains("sum") && difference.contains(footprint), "{difference}");
}

/// The plain store with a part of the list that is lent to its calls.
fn seeing(part: fn(&mut [ScanEntry]) -> &mut [ScanEntry]) -> impl Store {
    Altered(move |memory: &mut [u8], scans: &mut [ScanEntry], stamps: &mut [u32], call: &Call| {
        Plain::<0>.call_with(memory, part(scans), stamps, call)
    })
}

#[test]
fn a_list_of_the_fewest_entries_is_refused() {
    told_apart(&seeing(|list| if list.len() == SCANS { &mut [] } else { list }));
}

/// A scan is opened in the first free entry, so after calls alone none stands past the fifth, and
/// `agree` sees no difference. Lists that no call made have scans there.
#[test]
fn only_the_first_entries_are_looked_at() {
    let wrong = seeing(|list| {
        let first = list.len().min(SCANS);
        &mut list[..first]
    });
    agree::run(&wrong, 0, 200).expect("no difference");
    assert!(damage::random_memories(&wrong, 0, LISTS).is_err());
}
