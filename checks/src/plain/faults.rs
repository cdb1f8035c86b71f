//! Wrong behaviours of a page store that a comparison with the plain history must tell apart.

pub const NONE: u8 = 0;
/// A merged value is given for a stamp before its commit.
pub const NO_NEWEST_TEST: u8 = 1;
pub const MERGE_STOPS_AT_ABORTED: u8 = 2;
pub const OTHER_COLUMNS_LINEAGE: u8 = 3;
pub const RELEASE_HEEDS_NO_SCAN: u8 = 4;
/// Below the lineage the original value is passed over.
pub const ORIGINAL_FORGOTTEN: u8 = 5;
pub const ABORT_TAKES_MASK_BITS: u8 = 6;
pub const MERGE_DROPS_UNCOMMITTED_ROWS: u8 = 7;
pub const HELD_BY_INSERTER_ONLY: u8 = 8;
pub const ABORTED_DELETE_ENDS: u8 = 9;
pub const RELEASE_OFF_BY_ONE: u8 = 10;
pub const DELETE_ZEROES_CELL: u8 = 11;
pub const MERGE_APPLIES_ABORTED: u8 = 12;
pub const MERGE_APPLIES_ORIGINALS: u8 = 13;
/// A scan takes the first waiting page of the place, however old.
pub const SCAN_ON_OLD_PAGE: u8 = 14;
pub const ABORTED_DELETE_MAKES_GONE: u8 = 15;
pub const MERGE_FORGETS_NEWEST: u8 = 16;
/// A merge copies the page and only raises the lineage.
pub const MERGE_APPLIES_NOTHING: u8 = 17;
/// Commit marks the rows and forgets the records.
pub const COMMIT_FORGETS_RECORDS: u8 = 18;
/// A read shows the stamp of the row's last change, and not the column's.
pub const STAMP_OF_THE_ROW: u8 = 19;
/// Where the page has the value, its newest stamp is shown.
pub const STAMP_OF_THE_PAGE: u8 = 20;
/// An original is shown with the stamp of the update that wrote it down.
pub const STAMP_OF_THE_UPDATER: u8 = 21;
/// A pending value is shown with the last commit's stamp.
pub const PENDING_AT_THE_LAST: u8 = 22;
/// An aborted setting above the one that is read gives the stamp.
pub const STAMP_OF_AN_ABORTED: u8 = 23;
/// As many scans can be open as the list has entries.
pub const SCANS_BY_ENTRIES: u8 = 24;
/// As many transactions can be open as scans.
pub const TRANSACTIONS_AS_SCANS: u8 = 25;
/// A scan sees what a later commit of its minute has set.
pub const SCAN_SEES_LATER_SETTING: u8 = 26;
/// A scan sees the rows that a later commit of its minute has inserted.
pub const SCAN_SEES_LATER_INSERT: u8 = 27;
/// For a scan a row is ended by a later commit of its minute.
pub const SCAN_SEES_LATER_END: u8 = 28;
/// Of the commits of its minute a read at sees the oldest alone.
pub const OLDEST_OF_THE_MINUTE: u8 = 29;
pub const EARLIER_COMMIT_ACCEPTED: u8 = 30;
/// A commit at the last commit's stamp is refused.
pub const COMMIT_MUST_BE_LATER: u8 = 31;
/// A commit at 0 is refused; any other stamp may come again.
pub const COMMIT_AT_0_REFUSED: u8 = 32;
/// An opened scan has 0 as the count of commits made before it.
pub const SCAN_HAS_NO_COMMITS: u8 = 33;
/// A scan misses the last of the commits made before it.
pub const SCAN_MISSES_LAST_COMMIT: u8 = 34;
/// A scan sees every commit made before it, also those later than its stamp.
pub const SCAN_FORGETS_STAMP: u8 = 35;
/// A scan reads the current page, which may hold a later commit of its minute.
pub const SCAN_ON_CURRENT_PAGE: u8 = 36;
/// A commit of a transaction that has changed nothing is not counted.
pub const EMPTY_COMMIT_NOT_COUNTED: u8 = 37;
/// A first value is taken for a crossing.
pub const FIRST_VALUE_CROSSES: u8 = 38;
/// Of the stamps from one to another the first does not count.
pub const CROSSING_AT_FROM_LOST: u8 = 39;
/// The last does not.
pub const CROSSING_AT_TO_LOST: u8 = 40;
/// The first value since `from` is compared with none.
pub const VALUE_BEFORE_FROM_FORGOTTEN: u8 = 41;
/// As many crossings as places are refused.
pub const FULL_SLICE_REFUSED: u8 = 42;
/// Each setting of a transaction is a value.
pub const REPLACED_SETTING_COUNTS: u8 = 43;
pub const ABORTED_SETTING_COUNTS: u8 = 44;
pub const PENDING_SETTING_COUNTS: u8 = 45;
/// One place behind the list is written.
pub const STAMP_PAST_THE_COUNT: u8 = 46;
/// Stamps are written before the crossings are found to outnumber the places.
pub const STAMPS_THOUGH_REFUSED: u8 = 47;
/// A value equal to the mark lies below it.
pub const ABOVE_ALONE: u8 = 48;
pub const MARK_WITHOUT_SIGN: u8 = 49;
/// A minute with two crossings is listed once.
pub const MINUTE_STANDS_ONCE: u8 = 50;
/// Of the values of a minute the last alone is one.
pub const LAST_OF_THE_MINUTE_COUNTS: u8 = 51;
pub const NEWEST_FIRST: u8 = 52;
/// The inserted value is no value.
pub const INSERTED_VALUE_FORGOTTEN: u8 = 53;
/// The inserted value is taken for one of the update that wrote it down.
pub const ORIGINAL_IS_THE_UPDATERS: u8 = 54;
/// The inserted value is a value besides the inserter's own setting.
pub const INSERTER_GIVES_TWO: u8 = 55;
/// The settings of every column count.
pub const OTHER_COLUMN_COUNTS: u8 = 56;
/// Settings that the current page holds do not count.
pub const MERGED_SETTING_PASSED_OVER: u8 = 57;
/// Of a row that has ended no crossing is listed.
pub const ENDED_ROW_HAS_NONE: u8 = 58;
/// The minutes are tested before row and column.
pub const MINUTES_TESTED_FIRST: u8 = 59;
/// Minutes of which the first is later than the last are none, and not refused.
pub const FROM_AFTER_TO_ACCEPTED: u8 = 60;
/// Minutes later than the last commit's are not refused.
pub const LATER_TO_ACCEPTED: u8 = 61;
/// An original behind a value of its column is passed over, where calls put none.
pub const LATER_ORIGINAL: u8 = 62;
/// A value later than `to` is one, though no crossing is listed that is later.
pub const LATER_VALUE_COUNTS: u8 = 63;
/// A merge notes the rows that it meets in spare words of the header, a bit for each.
pub const MERGE_NOTES_IN_HEADER: u8 = 64;
/// It notes them in the cells of another free page, where there is one.
pub const MERGE_NOTES_IN_FREE_PAGE: u8 = 65;
/// It notes them in a spare bit of the row's mask.
pub const MERGE_NOTES_IN_MASK: u8 = 66;
/// It notes them in the same words of the header, and leaves 0 there.
pub const MERGE_CLEARS_ITS_NOTES: u8 = 67;

/// An original bears the keeper of the update that wrote it down.
pub const KEEPER_OF_THE_UPDATER: u8 = 68;
/// The keeper of the row's inserter is given for every setting.
pub const KEEPER_OF_THE_ROW: u8 = 69;
/// That of an aborted setting above the one that is read.
pub const KEEPER_OF_AN_ABORTED: u8 = 70;
/// That of the column's newest setting, whether a reader sees it or not.
pub const KEEPER_OF_THE_NEWEST: u8 = 71;
/// That of the newest setting that is seen, of whatever column.
pub const KEEPER_OF_ANOTHER_COLUMN: u8 = 72;
/// That of the inserter where the page holds the setting.
pub const KEEPER_LOST_BY_MERGE: u8 = 73;
/// Where a row is not seen, a keeper is given all the same.
pub const KEEPER_OF_AN_UNSEEN_ROW: u8 = 74;
/// A keeper is asked for at a stamp ahead of the last commit's and not refused.
pub const KEEPER_AHEAD_ACCEPTED: u8 = 75;
/// For a keeper the stamp is tested behind row and column.
pub const KEEPER_TESTS_STAMP_LAST: u8 = 76;
/// Of a keeper one byte is written down.
pub const KEEPER_OF_ONE_BYTE: u8 = 77;
/// A transaction has the keeper of the one before it in its place, if it is begun without one: neither
/// the end of that one nor the begin writes 0.
pub const FORMER_KEEPER_STAYS: u8 = 78;
/// A begin without a keeper writes none, which the end of the transaction before it did.
pub const BEGIN_WRITES_NO_KEEPER: u8 = 79;
/// The end of a transaction leaves its keeper, which the next begin in the place writes over.
pub const END_LEAVES_THE_KEEPER: u8 = 80;
/// A delete bears no keeper.
pub const DELETE_WITHOUT_KEEPER: u8 = 81;
/// Of a keeper's word the upper two bytes count too.
pub const WHOLE_WORD_OF_A_KEEPER: u8 = 82;
/// For a keeper the records are looked through though the row's mask lacks the column.
pub const KEEPER_WITHOUT_THE_MASK: u8 = 83;
/// A memory of a form above the newest is taken for one of the newest.
pub const LATER_FORM_ACCEPTED: u8 = 84;

/// A latest read does not work on form 1.
pub const FORM_1_REFUSED_BY_LATEST: u8 = 85;
/// A call for a keeper works on form 1, and the keeper is 0.
pub const KEEPER_AT_ON_FORM_1: u8 = 86;
/// A begin with a keeper works on form 1, and the keeper is lost.
pub const BEGIN_AS_ON_FORM_1: u8 = 87;
/// The move to the newest form works on the newest too.
pub const UPGRADE_OF_THE_NEWEST: u8 = 88;
/// The way back works on form 1 too.
pub const DOWNGRADE_OF_FORM_1: u8 = 89;
/// After a move no transaction is open.
pub const MOVE_FORGETS_OPEN_TRANSACTIONS: u8 = 90;
/// After a move the open transactions have changed nothing.
pub const MOVE_FORGETS_CHANGES: u8 = 91;
/// After a move the pages that waited are free.
pub const MOVE_FORGETS_WAITING_PAGES: u8 = 92;
/// After a move no page has the merge that made it, by which a scan finds its page.
pub const MOVE_LOSES_MADE: u8 = 93;
/// Nor the merge that replaced it.
pub const MOVE_LOSES_REPLACED: u8 = 94;
/// After a move no row or record has its commit's ordinal, by which a scan sees it or not.
pub const MOVE_FORGETS_ORDINALS: u8 = 95;
/// A move closes the scans.
pub const MOVE_CLOSES_SCANS: u8 = 96;
/// The cells of free pages do not come over.
pub const MOVE_LEAVES_FREE_CELLS: u8 = 97;
/// The unused words of the header do not.
pub const MOVE_CLEARS_UNUSED_HEADER: u8 = 98;
/// The keepers' words are left as the second memory has them.
pub const MOVE_LEAVES_KEEPERS: u8 = 99;
/// The memory moved to says the form of the one moved from.
pub const MOVE_FORGETS_THE_FORM: u8 = 100;
/// Bytes of the second memory past the need become 0.
pub const MOVE_PAST_THE_NEED: u8 = 101;
/// The memory moved from is made to say that it is none.
pub const MOVE_WRITES_THE_FIRST: u8 = 102;
/// The way back drops keepers.
pub const BACK_WITHOUT_KEEPER_TEST: u8 = 103;
/// It drops those of rows.
pub const BACK_HEEDS_NO_ROWS: u8 = 104;
/// It drops those of records.
pub const BACK_HEEDS_NO_RECORDS: u8 = 105;
/// It drops those of aborted records.
pub const BACK_HEEDS_NO_ABORTED: u8 = 106;
/// It drops those of deletes.
pub const BACK_HEEDS_NO_DELETES: u8 = 107;
/// It drops those of open transactions.
pub const BACK_HEEDS_NO_OPEN: u8 = 108;
/// It is refused for keepers of rows not given, of records not used and of free entries too.
pub const BACK_HEEDS_UNUSED: u8 = 109;
/// It is refused for a keeper's word whose lower two bytes are 0 and the upper are not.
pub const BACK_HEEDS_WHOLE_WORDS: u8 = 110;
/// The way back wants a second memory as long as the newest form needs.
pub const BACK_WANTS_THE_NEWEST_NEED: u8 = 111;
/// The keepers are tested before the second memory's length.
pub const BACK_TESTS_KEEPERS_FIRST: u8 = 112;
/// A second memory that holds a store is refused.
pub const SECOND_STORE_REFUSED: u8 = 113;
/// A way back that is refused for a keeper has written in the second memory.
pub const WRITES_THOUGH_REFUSED: u8 = 114;

/// Whether a fault is that of a begin without a keeper that writes none.
pub const fn begins_without_keeper(fault: u8) -> bool {
    matches!(fault, FORMER_KEEPER_STAYS | BEGIN_WRITES_NO_KEEPER)
}

/// Whether a fault is that of a transaction's end which leaves the keeper.
pub const fn leaves_keeper(fault: u8) -> bool {
    matches!(fault, FORMER_KEEPER_STAYS | END_LEAVES_THE_KEEPER)
}

/// Whether a fault is that of a merge which notes the rows that it meets.
pub const fn notes_rows(fault: u8) -> bool {
    matches!(
        fault,
        MERGE_NOTES_IN_HEADER
            | MERGE_NOTES_IN_FREE_PAGE
            | MERGE_NOTES_IN_MASK
            | MERGE_CLEARS_ITS_NOTES
    )
}
