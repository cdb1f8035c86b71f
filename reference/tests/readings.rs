//! One test for each reading of document 01 that an input can tell apart, with the reading's
//! letter, and of document 02's Items 1 to 7. Those of section A are in `input`, and B1 and B2 also
//! there for exhausted series.

mod common;
use common::{calls, script};
use reference::{program, text, Answer, Call, History};

/// Two columns; row 0 inserted with 5 and 50 and committed at 10.
fn one_row(capacity: u32, spares: u32, rest: &str) {
    script(&format!("shape 2 1 {capacity} {spares}\nbegin\ninsert 1 5 50\ncommit 1 10\n{rest}"));
}

#[test]
fn page_cell_takes_and_tests_the_column_first() {
    // A8
    one_row(
        4,
        1,
        "page-cell 1 0 => ok 50
         page-cell 2 9 => no 6
         page-cell 1 9 => no 5
         latest 9 2 => no 5
         latest 0 2 => no 6",
    );
}

#[test]
fn open_scan_tests_the_stamp_before_the_places() {
    // B1; a refused open or begin uses no number.
    script(&format!(
        "shape 1 1 1 0\n{}open-scan 1 => no 13\nopen-scan 0 => no 14\nclose 3\nopen-scan 0 => ok 6\n\
         {}begin => no 14\nabort 8\nbegin => ok 9",
        "open-scan 0\n".repeat(5),
        "begin\n".repeat(8)
    ));
}

#[test]
fn numbers_are_not_used_again_and_the_two_series_are_apart() {
    // B2
    script(
        "shape 1 1 1 0
         open-scan 0 => ok 1
         close 1
         begin => ok 1
         open-scan 0 => ok 2
         abort 1
         begin => ok 2
         close 1 => no 4
         abort 1 => no 3",
    );
}

#[test]
fn update_tests_row_then_mask_then_held() {
    // B3
    one_row(
        8,
        1,
        "begin
         begin
         update 2 0 mask 1 6 60
         update 3 9 mask 0 7 70 => no 5
         update 3 0 mask 0 7 70 => no 8
         update 3 0 mask 4 7 70 => no 8
         update 3 0 mask 1 7 70 => no 9
         update 9 9 mask 0 7 70 => no 3",
    );
}

#[test]
fn held_comes_before_gone_before_tail() {
    // B4
    one_row(
        1,
        1,
        "begin
         begin
         delete 2 0 => ok 1
         update 3 0 mask 1 7 70 => no 9
         delete 3 0 => no 9
         update 2 0 mask 1 7 70 => no 10
         delete 2 0 => no 10
         insert 2 8 80 => ok 1
         delete 2 1 => no 12",
    );
}

#[test]
fn the_tail_is_full_by_the_one_or_two_records_wanted() {
    // B5; a refused update takes not even one record.
    one_row(
        3,
        1,
        "begin
         update 2 0 mask 1 6 0 => ok 2
         update 2 0 mask 2 0 60 => no 12
         update 2 0 mask 3 7 60 => no 12
         lineage 0 0 => ok 0 2
         update 2 0 mask 1 7 0 => ok 3
         update 2 0 mask 1 8 0 => no 12",
    );
}

#[test]
fn merge_tests_reach_then_open_then_pages() {
    // B6
    one_row(
        4,
        0,
        "begin
         update 2 0 mask 1 6 0
         merge 0 0 0 => no 16
         merge 0 0 3 => no 16
         merge 0 0 2 => no 17
         commit 2 20
         merge 0 0 2 => no 18
         merge 0 2 9 => no 6
         merge 1 2 9 => no 7",
    );
}

#[test]
fn a_commit_refused_for_its_time_remains_open() {
    // B7
    one_row(
        4,
        0,
        "begin
         begin
         update 2 0 mask 1 6 0
         commit 2 9 => no 13
         own-read 2 0 0 => ok 6 0
         update 3 0 mask 1 7 0 => no 9
         commit 2 11
         latest 0 0 => ok 6 11
         update 3 0 mask 1 7 0
         commit 3 0 => no 13
         abort 3
         latest 0 0 => ok 6 11",
    );
}

#[test]
fn number_0_is_never_open() {
    // B8
    one_row(
        4,
        0,
        "close 0 => no 4
         scan-read 0 0 0 => no 4
         sum 0 0 => no 4
         abort 0 => no 3
         commit 0 11 => no 3
         own-read 0 0 0 => no 3",
    );
}

#[test]
fn read_at_tests_the_stamp_then_row_then_column() {
    // B9
    one_row(
        4,
        0,
        "read-at 11 9 9 => no 13
         read-at 10 9 9 => no 5
         read-at 10 0 9 => no 6
         read-at 10 0 1 => ok 50 10",
    );
}

#[test]
fn a_new_store_has_last_stamp_0_and_an_empty_commit_moves_it() {
    // B10
    script(
        "shape 1 1 1 0
         open-scan 0
         open-scan 1 => no 13
         begin
         insert 1 5
         read-at 0 0 0 => ok none
         read-at 1 0 0 => no 13
         begin
         commit 2 7
         read-at 7 0 0 => ok none
         open-scan 7
         commit 1 6 => no 13
         commit 1 0 => no 13",
    );
}

#[test]
fn full_counts_aborted_and_deleted_rows() {
    // B11
    let fill = "begin\ninsert 1 5\nabort 1\nbegin\ninsert 2 5\ndelete 2 1\ncommit 2 1\nbegin\n";
    let inserts = "insert 3 5\n".repeat(62);
    script(&format!("shape 1 1 1 0\n{fill}{inserts}insert 3 5 => no 11\ninsert 2 5 => no 3"));
}

#[test]
fn a_given_row_that_is_not_there_reads_none() {
    // B12
    script(
        "shape 1 1 4 0
         latest 0 0 => no 5
         begin
         insert 1 5
         latest 0 0 => ok none
         begin
         insert 2 6
         abort 2
         latest 1 0 => ok none
         latest 2 0 => no 5",
    );
}

#[test]
fn after_the_greatest_stamp_commits_can_only_carry_it_again() {
    // B13
    script(
        "shape 1 1 4 1
         begin
         insert 1 5
         commit 1 4294967295
         begin
         update 2 0 mask 1 6
         commit 2 4294967294 => no 13
         read-at 4294967295 0 0 => ok 5 4294967295
         read-at 4294967294 0 0 => ok none
         open-scan 4294967295
         sum 1 0 => ok 1 5
         commit 2 4294967295
         read-at 4294967295 0 0 => ok 6 4294967295
         read-at 4294967294 0 0 => ok none
         sum 1 0 => ok 1 5",
    );
}

#[test]
fn a_refused_update_holds_nothing() {
    // C1
    one_row(
        2,
        0,
        "begin
         begin
         insert 2 1 1
         delete 2 1
         update 2 0 mask 1 6 0 => no 12
         delete 3 0 => ok 2",
    );
}

#[test]
fn a_row_inserted_by_another_open_transaction() {
    // C2
    one_row(
        4,
        0,
        "begin
         begin
         insert 2 7 70
         own-read 3 1 0 => ok none
         own-read 2 1 0 => ok 7 0
         update 3 1 mask 1 8 0 => no 9
         delete 3 1 => no 9
         latest 1 0 => ok none
         page-cell 0 1 => ok 7",
    );
}

#[test]
fn an_own_delete_is_gone_for_its_transaction_alone() {
    // C3
    one_row(
        4,
        0,
        "begin
         delete 2 0
         update 2 0 mask 1 6 0 => no 10
         delete 2 0 => no 10
         own-read 2 0 0 => ok none
         latest 0 0 => ok 5 10
         abort 2
         begin
         update 3 0 mask 1 6 0 => ok 3
         own-read 3 0 0 => ok 6 0",
    );
}

#[test]
fn an_aborted_insert_is_gone_and_its_cell_keeps_the_inserted_value() {
    // C4
    one_row(
        4,
        1,
        "begin
         insert 2 7 70
         update 2 1 mask 1 8 0
         abort 2
         begin
         update 3 1 mask 1 9 0 => no 10
         delete 3 1 => no 10
         own-read 3 1 0 => ok none
         latest 1 0 => ok none
         merge 0 0 2
         page-cell 0 1 => ok 7
         insert 3 1 1 => ok 2",
    );
}

#[test]
fn the_callers_view_moves_with_the_latest() {
    // C5: it is no snapshot at begin.
    one_row(
        9,
        1,
        "begin
         begin
         update 3 0 mask 1 6 0
         commit 3 20
         own-read 2 0 0 => ok 6 20
         update 2 0 mask 1 7 0 => ok 3
         abort 2
         begin
         begin
         delete 5 0
         commit 5 30
         own-read 4 0 0 => ok none
         update 4 0 mask 1 8 0 => no 10",
    );
}

#[test]
fn ones_own_hold_is_not_held() {
    // C6
    one_row(
        9,
        1,
        "begin
         update 2 0 mask 1 6 0 => ok 2
         update 2 0 mask 1 7 0 => ok 3
         delete 2 0 => ok 4",
    );
}

#[test]
fn a_row_inserted_and_deleted_in_one_transaction_is_never_seen() {
    // C7, D3: no value, not counted; but a merge applies its committed setting to the page.
    script(
        "shape 1 1 9 1
         begin
         insert 1 5
         update 1 0 mask 1 6 => ok 2
         delete 1 0 => ok 3
         commit 1 10
         begin
         update 2 0 mask 1 7 => no 10
         delete 2 0 => no 10
         latest 0 0 => ok none
         read-at 9 0 0 => ok none
         open-scan 10
         sum 1 0 => ok 0 0
         page-cell 0 0 => ok 5
         merge 0 0 3
         page-cell 0 0 => ok 6",
    );
}

#[test]
fn the_order_of_commits_is_not_that_of_begins() {
    // C8
    script(
        "shape 1 1 9 1
         begin
         begin
         insert 1 5
         insert 2 6
         update 1 0 mask 1 7
         update 2 1 mask 1 8
         commit 2 10
         read-at 10 0 0 => ok none
         read-at 10 1 0 => ok 8 10
         commit 1 20
         read-at 10 0 0 => ok none
         read-at 20 0 0 => ok 7 20
         begin
         begin
         update 4 0 mask 1 9
         commit 4 30
         update 3 0 mask 1 10
         commit 3 40
         read-at 30 0 0 => ok 9 30
         latest 0 0 => ok 10 40",
    );
}

#[test]
fn an_update_before_a_delete_in_one_transaction_is_applied_by_a_merge() {
    // D1
    one_row(
        9,
        1,
        "begin
         update 2 0 mask 1 6 0
         delete 2 0
         commit 2 20
         read-at 19 0 0 => ok 5 10
         latest 0 0 => ok none
         merge 0 0 3
         page-cell 0 0 => ok 6",
    );
}

#[test]
fn insert_then_update_in_one_transaction_gives_the_last_value() {
    // D2: columns that it did not set keep the inserted value.
    script(
        "shape 2 1 9 1
         begin
         insert 1 5 50
         update 1 0 mask 1 6 60
         commit 1 10
         read-at 10 0 0 => ok 6 10
         read-at 10 0 1 => ok 50 10
         read-at 9 0 0 => ok none
         page-cell 0 0 => ok 5",
    );
}

#[test]
fn a_merge_between_two_settings_of_one_transaction_takes_the_first() {
    // D4
    one_row(
        9,
        1,
        "begin
         update 2 0 mask 1 7 0 => ok 2
         update 2 0 mask 1 8 0 => ok 3
         commit 2 20
         merge 0 0 2
         page-cell 0 0 => ok 7
         latest 0 0 => ok 8 20",
    );
}

#[test]
fn a_merged_and_released_page_leaves_earlier_stamps_as_they_were() {
    // D5
    one_row(
        9,
        1,
        "begin
         update 2 0 mask 1 7 0
         commit 2 20
         merge 0 0 2
         release => ok 1
         read-at 19 0 0 => ok 5 10
         read-at 9 0 0 => ok none
         open-scan 10
         scan-read 1 0 0 => ok 5 10
         sum 1 0 => ok 1 5",
    );
}

#[test]
fn setting_the_same_value_again_is_a_setting() {
    // D6: it takes its records and holds the row.
    one_row(
        9,
        1,
        "begin
         begin
         update 2 0 mask 1 5 0 => ok 2
         update 3 0 mask 1 5 0 => no 9
         update 2 0 mask 1 5 0 => ok 3",
    );
}

#[test]
fn the_latest_skips_aborted_open_original_and_other_column_records() {
    // D7
    one_row(
        16,
        1,
        "begin
         update 2 0 mask 1 6 0 => ok 2
         commit 2 20
         begin
         update 3 0 mask 1 7 0 => ok 3
         abort 3
         begin
         update 4 0 mask 2 0 60 => ok 5
         commit 4 30
         begin
         update 5 0 mask 3 8 80
         latest 0 0 => ok 6 20
         latest 0 1 => ok 60 30
         own-read 5 0 0 => ok 8 0",
    );
}

#[test]
fn a_sum_is_of_64_bits_over_all_ranges_and_counts_seen_rows() {
    // D8
    let inserts = "insert 1 2147483647\n".repeat(65);
    script(&format!(
        "shape 1 2 4 0\nbegin\n{inserts}commit 1 10\nbegin\ndelete 2 3\ninsert 2 1\ncommit 2 20\n\
         open-scan 10\nopen-scan 20\nopen-scan 9\nsum 1 0 => ok 65 139586437055\n\
         sum 2 0 => ok 65 137438953409\nsum 3 0 => ok 0 0\nsum 1 1 => no 6"
    ));
}

#[test]
fn aborted_updates_count_as_having_set_a_column() {
    // E1; the original holds only the columns not set before.
    one_row(
        9,
        1,
        "begin
         update 2 0 mask 1 6 0 => ok 2
         abort 2
         begin
         update 3 0 mask 1 7 0 => ok 3
         update 3 0 mask 3 8 80 => ok 5
         commit 3 20
         read-at 10 0 0 => ok 5 10
         read-at 10 0 1 => ok 50 10
         merge 0 0 5
         read-at 10 0 0 => ok 5 10
         begin
         update 4 0 mask 3 9 90 => ok 6",
    );
}

#[test]
fn the_inserters_own_first_update_takes_two_records() {
    // E2
    script("shape 1 1 4 0\nbegin\ninsert 1 5\nupdate 1 0 mask 1 6 => ok 2");
}

#[test]
fn a_delete_sets_no_column() {
    // E3
    one_row(
        4,
        0,
        "begin
         delete 2 0 => ok 1
         abort 2
         begin
         update 3 0 mask 3 6 60 => ok 3",
    );
}

#[test]
fn an_update_answers_its_last_record() {
    // E4: the original stands before the setting.
    one_row(
        9,
        3,
        "begin
         update 2 0 mask 1 6 0 => ok 2
         commit 2 20
         merge 0 0 1
         page-cell 0 0 => ok 5
         merge 0 0 2
         page-cell 0 0 => ok 6",
    );
}

#[test]
fn an_original_belongs_to_the_updates_transaction_and_is_no_setting() {
    // E5: with a second column set later, the original of column 1 stands after a setting of 0.
    one_row(
        9,
        3,
        "begin
         update 2 0 mask 1 6 0 => ok 2
         commit 2 20
         begin
         update 3 0 mask 2 0 60 => ok 4
         merge 0 1 3 => no 17
         abort 3
         merge 0 1 3
         lineage 0 1 => ok 3 4
         page-cell 1 0 => ok 50
         merge 0 0 4
         page-cell 0 0 => ok 6",
    );
}

#[test]
fn tail_numbers_and_capacity_are_per_range_and_aborted_records_stay_used() {
    // E6
    let inserts = "insert 1 5\n".repeat(65);
    script(&format!(
        "shape 1 2 2 1\nbegin\n{inserts}commit 1 10\nbegin\nupdate 2 0 mask 1 6 => ok 2\nabort 2\n\
         begin\nupdate 3 0 mask 1 7 => no 12\ndelete 3 63 => no 12\nupdate 3 64 mask 1 8 => ok 2\n\
         lineage 0 0 => ok 0 2\nlineage 1 0 => ok 0 2\nlineage 2 0 => no 7"
    ));
}

#[test]
fn a_mask_bit_at_or_above_the_column_count_is_refused_with_good_bits_too() {
    // E7; with 16 columns every bit is good.
    one_row(9, 1, "begin\nupdate 2 0 mask 7 6 60 => no 8\nupdate 2 0 mask 0x8001 6 60 => no 8");
    let values = "7 ".repeat(16);
    script(&format!(
        "shape 16 1 9 1\nbegin\ninsert 1 {values}\nupdate 1 0 mask 0xFFFF {values} => ok 2\n\
         update 1 0 mask 0x8000 {values} => ok 3\nupdate 1 0 mask 0 {values} => no 8"
    ));
}

#[test]
fn any_record_of_an_open_transaction_stops_a_merge() {
    // F1: another row, another column, a delete.
    one_row(
        9,
        1,
        "begin
         update 2 0 mask 1 6 0
         insert 2 7 70
         commit 2 20
         begin
         update 3 1 mask 2 0 71 => ok 4
         merge 0 0 4 => no 17
         merge 0 0 3 => no 17
         merge 0 0 2 => ok
         abort 3
         begin
         delete 4 1 => ok 5
         merge 0 1 5 => no 17
         merge 0 1 4 => no 18",
    );
}

#[test]
fn an_open_insert_does_not_stop_a_merge() {
    // F2, F7: rows inserted before and after the merge have their inserted value in the page.
    one_row(
        9,
        1,
        "begin
         update 2 0 mask 1 6 0
         commit 2 20
         begin
         insert 3 7 70
         merge 0 0 2 => ok
         page-cell 0 1 => ok 7
         insert 3 8 80
         page-cell 0 2 => ok 8
         abort 3
         page-cell 0 1 => ok 7
         page-cell 0 2 => ok 8",
    );
}

#[test]
fn the_reach_is_that_of_this_range_and_column() {
    // F3
    let inserts = "insert 1 5 50\n".repeat(65);
    script(&format!(
        "shape 2 2 9 4\nbegin\n{inserts}update 1 0 mask 1 6 0\nupdate 1 64 mask 1 7 0\n\
         commit 1 10\nmerge 0 0 2\nmerge 0 0 2 => no 16\nmerge 0 1 2 => ok\nmerge 1 0 2 => ok\n\
         lineage 1 1 => ok 0 2\nmerge 1 1 1 => ok\nmerge 1 1 1 => no 16\nmerge 1 1 2 => no 18"
    ));
}

#[test]
fn a_merge_that_changes_no_cell_takes_a_page_and_raises_the_lineage() {
    // F4
    one_row(
        9,
        1,
        "begin
         update 2 0 mask 1 6 0
         commit 2 20
         merge 0 1 2 => ok
         page-cell 1 0 => ok 50
         lineage 0 1 => ok 2 2
         merge 0 0 2 => no 18",
    );
}

#[test]
fn release_looks_at_each_waiting_page_and_at_the_order_of_calls() {
    // F5: a scan opened between two merges keeps the second page, whatever its stamp.
    one_row(
        9,
        4,
        "begin
         update 2 0 mask 1 6 0
         commit 2 20
         merge 0 0 1
         open-scan 0
         merge 0 1 1
         merge 0 0 2
         open-scan 20
         release => ok 1
         release => ok 0
         close 2
         release => ok 0
         close 1
         release => ok 2
         release => ok 0",
    );
}

#[test]
fn waiting_pages_of_all_columns_count_and_a_freed_one_serves_at_once() {
    // F6
    one_row(
        9,
        2,
        "begin
         update 2 0 mask 1 6 0
         commit 2 20
         merge 0 0 1
         merge 0 1 1
         merge 0 0 2 => no 18
         release => ok 2
         merge 0 0 2 => ok
         merge 0 1 2 => ok",
    );
}

#[test]
fn an_aborted_record_is_skipped_wherever_it_stands() {
    // F8: in the middle, and at the end.
    one_row(
        9,
        2,
        "begin
         update 2 0 mask 1 6 0 => ok 2
         commit 2 20
         begin
         update 3 0 mask 1 7 0 => ok 3
         abort 3
         merge 0 0 3
         page-cell 0 0 => ok 6
         begin
         update 4 0 mask 1 8 0 => ok 4
         commit 4 30
         merge 0 0 4
         page-cell 0 0 => ok 8",
    );
}

#[test]
fn a_delete_alters_no_cell() {
    // F9
    one_row(
        9,
        1,
        "begin
         delete 2 0
         commit 2 20
         merge 0 0 1
         page-cell 0 0 => ok 5
         latest 0 0 => ok none",
    );
}

#[test]
fn a_page_cell_of_a_row_not_given_is_refused() {
    // F10
    script("shape 1 1 1 0\npage-cell 0 0 => no 5\nlineage 0 0 => ok 0 0");
}

#[test]
fn page_cell_and_lineage_show_the_current_page_whatever_scans_are_open() {
    // F11, F13: release changes neither, and the scan reads as before.
    one_row(
        9,
        1,
        "open-scan 10
         begin
         update 2 0 mask 1 6 0
         commit 2 20
         begin
         delete 3 0
         abort 3
         scan-read 1 0 0 => ok 5 10
         merge 0 0 3
         page-cell 0 0 => ok 6
         lineage 0 0 => ok 3 3
         scan-read 1 0 0 => ok 5 10
         sum 1 0 => ok 1 5
         release => ok 0
         close 1
         release => ok 1
         page-cell 0 0 => ok 6
         lineage 0 0 => ok 3 3",
    );
}

// Document 02, Item 1: "the stamp of the commit that set that column in that row, the insert
// included; a pending value of one's own gives 0".

#[test]
fn the_stamp_is_that_of_the_columns_setting_not_of_the_rows_last_change() {
    one_row(
        9,
        0,
        "begin
         update 2 0 mask 1 6 0
         commit 2 20
         latest 0 0 => ok 6 20
         latest 0 1 => ok 50 10
         begin
         update 3 0 mask 2 0 60
         commit 3 30
         latest 0 0 => ok 6 20
         latest 0 1 => ok 60 30
         read-at 30 0 0 => ok 6 20
         read-at 30 0 1 => ok 60 30
         read-at 29 0 1 => ok 50 10
         begin
         own-read 4 0 0 => ok 6 20
         own-read 4 0 1 => ok 60 30
         open-scan 30
         scan-read 1 0 0 => ok 6 20
         scan-read 1 0 1 => ok 60 30",
    );
}

#[test]
fn an_end_is_no_setting() {
    // Before its end the row's values have the stamps of their settings.
    one_row(
        9,
        0,
        "begin
         update 2 0 mask 1 6 0
         commit 2 20
         open-scan 20
         begin
         delete 3 0
         latest 0 0 => ok 6 20
         commit 3 30
         read-at 29 0 0 => ok 6 20
         read-at 29 0 1 => ok 50 10
         scan-read 1 0 0 => ok 6 20",
    );
    one_row(4, 0, "begin\ndelete 2 0\nabort 2\nbegin\ncommit 3 20\nlatest 0 0 => ok 5 10");
}

/// Rows 0, 1 and 2; column 0 of row 0 set at 20 and of row 1 at 30, a commit at 40 that sets
/// nothing, then column 0 merged through all records. Scan 1 was opened before the merge.
const MERGED: &str = "shape 2 1 16 2
    begin
    insert 1 5 50
    insert 1 7 70
    insert 1 9 90
    commit 1 10
    begin
    update 2 0 mask 1 6 0 => ok 2
    commit 2 20
    open-scan 20
    begin
    update 3 1 mask 1 8 0 => ok 4
    commit 3 30
    begin
    commit 4 40
    merge 0 0 4
    ";

#[test]
fn a_merged_value_keeps_the_stamp_of_its_setting() {
    // The stamp is not the newest in the page, nor the last commit's before the merge.
    let reads = "latest 0 0 => ok 6 20
        latest 1 0 => ok 8 30
        latest 2 0 => ok 9 10
        latest 0 1 => ok 50 10
        read-at 40 0 0 => ok 6 20
        read-at 40 2 0 => ok 9 10
        own-read 5 0 0 => ok 6 20
        own-read 5 1 0 => ok 8 30
        scan-read 2 0 0 => ok 6 20
        scan-read 2 1 0 => ok 8 30
        scan-read 2 2 0 => ok 9 10
        ";
    let release = "close 1\nrelease => ok 1\n";
    script(&format!("{MERGED}begin\nopen-scan 40\n{reads}{release}{reads}"));
}

#[test]
fn an_old_stamp_and_an_old_scan_have_the_stamps_of_their_time_after_a_merge() {
    // Scan 1 reads the page before the merge, scan 2 the one after it, for the same stamp.
    let reads = "read-at 29 1 0 => ok 7 10
        read-at 20 0 0 => ok 6 20
        read-at 19 0 0 => ok 5 10
        read-at 10 0 0 => ok 5 10
        scan-read 2 0 0 => ok 6 20
        scan-read 2 1 0 => ok 7 10
        scan-read 3 0 0 => ok 5 10
        ";
    let old_scan = "scan-read 1 0 0 => ok 6 20\nscan-read 1 1 0 => ok 7 10\n";
    let scans = "open-scan 20\nopen-scan 19\n";
    let release = "close 1\nrelease => ok 1\n";
    script(&format!("{MERGED}{scans}{old_scan}{reads}{release}{reads}"));
}

#[test]
fn every_version_of_a_cell_keeps_its_stamp_through_two_merges() {
    one_row(
        9,
        2,
        "open-scan 10
         begin
         update 2 0 mask 1 6 0 => ok 2
         commit 2 20
         merge 0 0 2
         open-scan 20
         begin
         update 3 0 mask 1 7 0 => ok 3
         commit 3 30
         merge 0 0 3
         latest 0 0 => ok 7 30
         read-at 30 0 0 => ok 7 30
         read-at 29 0 0 => ok 6 20
         read-at 20 0 0 => ok 6 20
         read-at 19 0 0 => ok 5 10
         scan-read 1 0 0 => ok 5 10
         scan-read 2 0 0 => ok 6 20",
    );
}

#[test]
fn an_inserted_value_has_the_inserts_stamp_though_its_original_is_an_updates() {
    // "belongs to the update's transaction": open, aborted or committed, and merged.
    one_row(
        9,
        1,
        "begin
         update 2 0 mask 1 6 0 => ok 2
         latest 0 0 => ok 5 10
         abort 2
         latest 0 0 => ok 5 10
         open-scan 10
         begin
         update 3 0 mask 3 7 70 => ok 4
         begin
         own-read 4 0 0 => ok 5 10
         own-read 4 0 1 => ok 50 10
         commit 3 20
         read-at 10 0 0 => ok 5 10
         read-at 19 0 1 => ok 50 10
         scan-read 1 0 1 => ok 50 10
         merge 0 1 4
         read-at 19 0 1 => ok 50 10
         scan-read 1 0 1 => ok 50 10
         latest 0 1 => ok 70 20",
    );
}

#[test]
fn a_pending_value_of_ones_own_gives_0_and_a_column_beside_it_its_commits_stamp() {
    // Also when another commit has moved the last stamp, and for nobody else.
    one_row(
        9,
        0,
        "begin
         begin
         update 2 0 mask 1 6 0
         own-read 2 0 0 => ok 6 0
         own-read 2 0 1 => ok 50 10
         own-read 3 0 0 => ok 5 10
         latest 0 0 => ok 5 10
         commit 3 20
         own-read 2 0 0 => ok 6 0
         own-read 2 0 1 => ok 50 10
         read-at 20 0 0 => ok 5 10
         commit 2 30
         latest 0 0 => ok 6 30
         latest 0 1 => ok 50 10",
    );
}

#[test]
fn a_row_inserted_by_oneself_gives_0_until_its_commit() {
    // Set or not.
    one_row(
        9,
        0,
        "begin
         begin
         insert 2 7 70
         own-read 2 1 0 => ok 7 0
         update 2 1 mask 2 0 71
         commit 3 20
         own-read 2 1 0 => ok 7 0
         own-read 2 1 1 => ok 71 0
         own-read 2 0 0 => ok 5 10
         commit 2 30
         latest 1 0 => ok 7 30
         latest 1 1 => ok 71 30",
    );
}

#[test]
fn an_aborted_setting_gives_no_stamp() {
    // Above the insert in column 1, above a setting in column 0; then merged.
    one_row(
        9,
        1,
        "begin
         update 2 0 mask 1 6 0 => ok 2
         commit 2 20
         begin
         update 3 0 mask 3 7 70 => ok 4
         own-read 3 0 0 => ok 7 0
         abort 3
         begin
         commit 4 30
         latest 0 0 => ok 6 20
         latest 0 1 => ok 50 10
         read-at 30 0 0 => ok 6 20
         begin
         own-read 5 0 0 => ok 6 20
         own-read 5 0 1 => ok 50 10
         open-scan 30
         scan-read 1 0 0 => ok 6 20
         merge 0 0 4
         latest 0 0 => ok 6 20
         scan-read 1 0 1 => ok 50 10",
    );
}

#[test]
fn none_carries_no_stamp() {
    // Before the insert, another's insert, an aborted one, an own delete, after the end.
    one_row(
        9,
        0,
        "open-scan 9
         read-at 9 0 0 => ok none
         scan-read 1 0 0 => ok none
         begin
         begin
         insert 2 7 70
         latest 1 0 => ok none
         own-read 3 1 0 => ok none
         abort 2
         latest 1 0 => ok none
         own-read 3 1 0 => ok none
         delete 3 0
         own-read 3 0 0 => ok none
         latest 0 0 => ok 5 10
         commit 3 20
         latest 0 0 => ok none
         read-at 20 0 0 => ok none
         open-scan 20
         scan-read 2 0 0 => ok none",
    );
}

#[test]
fn setting_the_same_value_again_gives_the_later_stamp() {
    // It is a setting, of the insert's value as of another.
    one_row(
        9,
        0,
        "begin
         update 2 0 mask 1 5 0
         own-read 2 0 0 => ok 5 0
         commit 2 20
         latest 0 0 => ok 5 20
         read-at 19 0 0 => ok 5 10
         begin
         update 3 0 mask 1 5 0
         commit 3 30
         latest 0 0 => ok 5 30
         read-at 29 0 0 => ok 5 20",
    );
}

#[test]
fn the_stamp_is_that_of_the_commit_not_of_the_update_or_begin() {
    one_row(
        9,
        0,
        "begin
         begin
         update 2 0 mask 1 6 0
         commit 3 20
         update 2 0 mask 1 7 0
         commit 2 30
         latest 0 0 => ok 7 30
         read-at 30 0 0 => ok 7 30
         read-at 29 0 0 => ok 5 10",
    );
}

#[test]
fn sum_page_cell_and_lineage_gain_no_stamp() {
    one_row(
        9,
        1,
        "begin
         update 2 0 mask 1 6 0
         commit 2 20
         merge 0 0 2
         open-scan 20
         sum 1 0 => ok 1 6
         page-cell 0 0 => ok 6
         page-cell 1 0 => ok 50
         lineage 0 0 => ok 2 2",
    );
}

// Document 02, Item 2: "Make five the limit in place of sixteen; a sixth is answered 14."

#[test]
fn five_scans_are_open_and_a_sixth_takes_no_number() {
    // The first, one between and the last make place for one each.
    script(
        "shape 1 1 1 0
         open-scan 0 => ok 1
         open-scan 0 => ok 2
         open-scan 0 => ok 3
         open-scan 0 => ok 4
         open-scan 0 => ok 5
         open-scan 0 => no 14
         open-scan 0 => no 14
         close 1
         open-scan 0 => ok 6
         open-scan 0 => no 14
         close 4
         open-scan 0 => ok 7
         open-scan 0 => no 14
         close 7
         open-scan 0 => ok 8
         open-scan 0 => no 14
         close 2
         close 3
         close 5
         close 6
         close 8
         close 8 => no 4
         open-scan 0 => ok 9
         open-scan 0 => ok 10
         open-scan 0 => ok 11
         open-scan 0 => ok 12
         open-scan 0 => ok 13
         open-scan 0 => no 14",
    );
}

#[test]
fn the_limits_of_scans_and_of_transactions_are_apart() {
    // With five scans open a sixth transaction is accepted; the end of one makes no place for the
    // other.
    script(
        "shape 1 1 1 0
         open-scan 0 => ok 1
         open-scan 0 => ok 2
         open-scan 0 => ok 3
         open-scan 0 => ok 4
         open-scan 0 => ok 5
         begin => ok 1
         begin => ok 2
         begin => ok 3
         begin => ok 4
         begin => ok 5
         begin => ok 6
         open-scan 0 => no 14
         begin => ok 7
         begin => ok 8
         begin => no 14
         close 2
         begin => no 14
         open-scan 0 => ok 6
         commit 3 1
         open-scan 0 => no 14
         open-scan 2 => no 13
         begin => ok 9
         begin => no 14
         close 1
         close 3
         close 4
         close 5
         close 6
         begin => no 14
         open-scan 1 => ok 7",
    );
}

#[test]
fn five_scans_are_read_and_summed_while_a_sixth_is_refused() {
    script(
        "shape 1 1 8 4
         begin
         insert 1 1
         commit 1 10
         open-scan 10 => ok 1
         begin
         update 2 0 mask 1 2
         commit 2 20
         merge 0 0 2
         open-scan 20 => ok 2
         begin
         update 3 0 mask 1 3
         commit 3 30
         merge 0 0 3
         open-scan 30 => ok 3
         begin
         update 4 0 mask 1 4
         commit 4 40
         merge 0 0 4
         open-scan 40 => ok 4
         begin
         update 5 0 mask 1 5
         commit 5 50
         merge 0 0 5
         open-scan 50 => ok 5
         open-scan 50 => no 14
         release => ok 0
         scan-read 1 0 0 => ok 1 10
         sum 1 0 => ok 1 1
         scan-read 2 0 0 => ok 2 20
         sum 2 0 => ok 1 2
         scan-read 3 0 0 => ok 3 30
         sum 3 0 => ok 1 3
         scan-read 4 0 0 => ok 4 40
         sum 4 0 => ok 1 4
         scan-read 5 0 0 => ok 5 50
         sum 5 0 => ok 1 5
         scan-read 6 0 0 => no 4
         sum 6 0 => no 4
         close 6 => no 4
         close 3
         open-scan 25 => ok 6
         open-scan 50 => no 14
         scan-read 1 0 0 => ok 1 10
         scan-read 2 0 0 => ok 2 20
         scan-read 3 0 0 => no 4
         scan-read 4 0 0 => ok 4 40
         scan-read 5 0 0 => ok 5 50
         scan-read 6 0 0 => ok 2 20
         sum 3 0 => no 4
         sum 6 0 => ok 1 2",
    );
}

/// Seven tail records of one commit, merged through the first before any scan and through one more
/// after each of five. The refused scan keeps no page.
const UNDER_FIVE_SCANS: &str = "shape 1 1 8 6
    begin
    insert 1 0
    update 1 0 mask 1 1 => ok 2
    update 1 0 mask 1 2
    update 1 0 mask 1 3
    update 1 0 mask 1 4
    update 1 0 mask 1 5
    update 1 0 mask 1 6 => ok 7
    commit 1 10
    merge 0 0 1
    open-scan 10
    merge 0 0 2
    open-scan 10
    merge 0 0 3
    open-scan 10
    merge 0 0 4
    open-scan 10
    merge 0 0 5
    open-scan 10
    merge 0 0 6
    open-scan 10 => no 14
    merge 0 0 7 => no 18
    release => ok 1
";

#[test]
fn pages_under_five_scans_are_freed_one_by_one_as_the_oldest_closes() {
    // Scan 6 has the place of scan 1, and was opened after all merges but the last.
    script(&format!(
        "{UNDER_FIVE_SCANS}
         close 1
         release => ok 1
         open-scan 10 => ok 6
         close 2
         release => ok 1
         close 3
         release => ok 1
         close 4
         release => ok 1
         close 5
         release => ok 1
         merge 0 0 7
         release => ok 0
         close 6
         release => ok 1"
    ));
}

#[test]
fn pages_under_five_scans_wait_for_the_oldest() {
    script(&format!(
        "{UNDER_FIVE_SCANS}
         close 5
         release => ok 0
         close 4
         release => ok 0
         close 3
         release => ok 0
         close 2
         release => ok 0
         scan-read 1 0 0 => ok 6 10
         close 1
         release => ok 5"
    ));
}

#[test]
fn pages_under_five_scans_wait_for_the_oldest_of_those_left() {
    script(&format!(
        "{UNDER_FIVE_SCANS}
         close 3
         release => ok 0
         close 1
         release => ok 1
         close 2
         release => ok 2
         close 5
         release => ok 0
         close 4
         release => ok 2"
    ));
}

// Document 02, Item 3: "A commit may now carry the last commit's stamp again, 0 in a new store; only
// an earlier one is answered 13".

#[test]
fn a_commit_may_carry_the_last_stamp_again() {
    // As often as one likes; a later one is accepted as before.
    one_row(
        9,
        0,
        "begin
         update 2 0 mask 1 6 0
         commit 2 10 => ok
         begin
         commit 3 10 => ok
         begin
         update 4 0 mask 2 0 60
         commit 4 10 => ok
         latest 0 0 => ok 6 10
         latest 0 1 => ok 60 10
         read-at 11 0 0 => no 13
         begin
         commit 5 11 => ok
         read-at 11 0 0 => ok 6 10",
    );
}

#[test]
fn a_new_store_takes_commits_at_0() {
    // The value is there for every reader at 0.
    script(
        "shape 1 1 9 0
         begin
         insert 1 5
         commit 1 0 => ok
         latest 0 0 => ok 5 0
         read-at 0 0 0 => ok 5 0
         begin
         update 2 0 mask 1 6
         commit 2 0 => ok
         latest 0 0 => ok 6 0
         open-scan 0
         scan-read 1 0 0 => ok 6 0
         sum 1 0 => ok 1 6
         open-scan 1 => no 13
         begin
         commit 3 1 => ok
         read-at 0 0 0 => ok 6 0",
    );
}

#[test]
fn only_an_earlier_commit_is_answered_13_and_its_transaction_remains_open() {
    // Earlier than the last commit of all, not than the transaction's begin or its last update.
    one_row(
        9,
        0,
        "begin
         update 2 0 mask 1 6 0
         begin
         commit 3 20
         commit 2 19 => no 13
         commit 2 10 => no 13
         commit 2 0 => no 13
         own-read 2 0 0 => ok 6 0
         latest 0 0 => ok 5 10
         begin
         update 4 0 mask 1 7 0 => no 9
         update 2 0 mask 2 0 60
         commit 2 20 => ok
         commit 2 20 => no 3
         read-at 20 0 0 => ok 6 20
         read-at 20 0 1 => ok 60 20
         read-at 19 0 0 => ok 5 10",
    );
}

// "Within one minute the history runs in order of commit and a read at that minute gives the newest."

#[test]
fn a_read_at_the_minute_gives_the_newest() {
    // Read at, latest and own read; not the first of the minute, nor the greatest value.
    one_row(
        9,
        0,
        "begin
         update 2 0 mask 1 9 0
         commit 2 20
         read-at 20 0 0 => ok 9 20
         begin
         update 3 0 mask 1 7 0
         commit 3 20
         begin
         read-at 20 0 0 => ok 7 20
         latest 0 0 => ok 7 20
         own-read 4 0 0 => ok 7 20
         update 4 0 mask 1 8 0
         commit 4 20
         read-at 20 0 0 => ok 8 20
         latest 0 0 => ok 8 20
         read-at 19 0 0 => ok 5 10",
    );
}

#[test]
fn the_newest_of_a_minute_is_that_of_the_last_commit_not_begin() {
    // Transaction 3 sets the cell and commits first, then transaction 2, begun before it.
    one_row(
        9,
        1,
        "begin
         begin
         update 3 0 mask 1 7 0
         commit 3 20
         update 2 0 mask 1 6 0
         commit 2 20
         latest 0 0 => ok 6 20
         read-at 20 0 0 => ok 6 20
         merge 0 0 3
         page-cell 0 0 => ok 6
         latest 0 0 => ok 6 20
         read-at 19 0 0 => ok 5 10",
    );
}

#[test]
fn a_row_inserted_and_ended_in_one_minute_is_none_at_that_minute() {
    // By two transactions, so it was seen between them, and a scan of that time sees it still.
    one_row(
        9,
        0,
        "begin
         insert 2 7 70
         commit 2 20
         read-at 20 1 0 => ok 7 20
         open-scan 20
         begin
         delete 3 1
         commit 3 20
         read-at 20 1 0 => ok none
         latest 1 0 => ok none
         read-at 19 1 0 => ok none
         begin
         own-read 4 1 0 => ok none
         update 4 1 mask 1 8 0 => no 10
         delete 4 1 => no 10
         scan-read 1 1 0 => ok 7 20
         sum 1 0 => ok 2 12
         open-scan 20
         sum 2 0 => ok 1 5",
    );
}

#[test]
fn a_rows_end_at_the_minute_of_its_setting_is_an_end() {
    // Set by one transaction and ended by the next; the setting is then no minute's value.
    one_row(
        9,
        1,
        "begin
         update 2 0 mask 1 6 0
         commit 2 20
         begin
         delete 3 0
         latest 0 0 => ok 6 20
         commit 3 20
         latest 0 0 => ok none
         read-at 20 0 0 => ok none
         read-at 19 0 0 => ok 5 10
         merge 0 0 3
         page-cell 0 0 => ok 6
         read-at 20 0 0 => ok none",
    );
}

// "A scan [..] sees of the commits up to its stamp those made before its opening and no more".

/// Rows 0 and 1 with one commit at 20 after that at 10, then scan 1 at 20, then three more commits
/// at 20: a setting of row 0, an insert of row 2, an end of row 1.
const BETWEEN: &str = "shape 2 1 16 4
    begin
    insert 1 5 50
    insert 1 7 70
    commit 1 10
    begin
    update 2 0 mask 1 6 0 => ok 2
    commit 2 20
    open-scan 20 => ok 1
    begin
    update 3 0 mask 3 8 80 => ok 4
    commit 3 20
    begin
    insert 4 9 90 => ok 2
    commit 4 20
    begin
    delete 5 1 => ok 5
    commit 5 20
    ";

/// What scan 1 of `BETWEEN` sees, whatever is called after.
const BETWEEN_SEEN: &str = "scan-read 1 0 0 => ok 6 20
    scan-read 1 0 1 => ok 50 10
    scan-read 1 1 0 => ok 7 10
    scan-read 1 1 1 => ok 70 10
    scan-read 1 2 0 => ok none
    sum 1 0 => ok 2 13
    sum 1 1 => ok 2 120
    ";

/// What a read at 20, and a scan opened after all commits of `BETWEEN`, gives.
const AFTER_ALL: &str = "read-at 20 0 0 => ok 8 20
    read-at 20 0 1 => ok 80 20
    read-at 20 1 0 => ok none
    read-at 20 2 0 => ok 9 20
    scan-read 2 0 0 => ok 8 20
    scan-read 2 0 1 => ok 80 20
    scan-read 2 1 0 => ok none
    scan-read 2 2 0 => ok 9 20
    sum 2 0 => ok 2 17
    sum 2 1 => ok 2 170
    ";

#[test]
fn a_scan_leaves_out_later_settings_inserts_and_ends_of_its_minute() {
    // A second scan at the same stamp, opened later, sees them.
    script(&format!("{BETWEEN}{BETWEEN_SEEN}open-scan 20 => ok 2\n{AFTER_ALL}{BETWEEN_SEEN}"));
}

#[test]
fn a_scan_leaves_them_out_when_its_minute_is_over_too() {
    // The minute's answer then no longer changes, and it is not this scan's.
    let over = "begin
        update 6 0 mask 3 1 1
        insert 6 3 3
        delete 6 2
        commit 6 30
        ";
    script(&format!("{BETWEEN}open-scan 20 => ok 2\n{over}{BETWEEN_SEEN}{AFTER_ALL}"));
}

#[test]
fn a_merge_of_a_later_commit_of_its_minute_changes_nothing_for_a_scan() {
    // Through the later setting, then through all. Scan 2 reads the new pages, and their old ones
    // wait for scan 1.
    let merges = [
        "merge 0 0 4\n",
        "merge 0 0 5\nmerge 0 1 5\nrelease => ok 0\n",
        "open-scan 20 => ok 2\nrelease => ok 0\n",
    ];
    let mut lines = BETWEEN.to_string();
    for merge in merges {
        lines += &format!("{merge}{BETWEEN_SEEN}");
    }
    lines += AFTER_ALL;
    lines += "page-cell 0 0 => ok 8\npage-cell 1 0 => ok 80\npage-cell 0 1 => ok 7\n";
    lines += "close 1\nrelease => ok 3\n";
    lines += AFTER_ALL;
    script(&lines);
}

#[test]
fn a_scan_opened_after_a_merge_within_the_minute_leaves_out_the_settings_after_it() {
    // The page of its opening holds the setting that it sees; the next page holds a later one.
    one_row(
        9,
        2,
        "begin
         update 2 0 mask 1 6 0 => ok 2
         commit 2 20
         merge 0 0 2
         open-scan 20
         begin
         update 3 0 mask 1 7 0 => ok 3
         commit 3 20
         scan-read 1 0 0 => ok 6 20
         merge 0 0 3
         scan-read 1 0 0 => ok 6 20
         sum 1 0 => ok 1 6
         release => ok 1
         scan-read 1 0 0 => ok 6 20
         latest 0 0 => ok 7 20",
    );
}

#[test]
fn a_scan_goes_by_the_commit_not_by_the_update_or_begin() {
    // Transaction 2 begins and updates before the opening and commits after it; transaction 3
    // begins later and commits before it. All in one minute.
    script(
        "shape 1 1 9 0
         begin
         insert 1 5
         insert 1 6
         commit 1 10
         begin
         begin
         update 2 0 mask 1 7
         insert 2 9
         update 3 1 mask 1 8
         commit 3 10
         open-scan 10
         commit 2 10
         scan-read 1 0 0 => ok 5 10
         scan-read 1 1 0 => ok 8 10
         scan-read 1 2 0 => ok none
         sum 1 0 => ok 2 13
         read-at 10 0 0 => ok 7 10
         read-at 10 2 0 => ok 9 10",
    );
}

#[test]
fn a_scan_counts_commits_alone() {
    // Neither an abort nor a refused commit between two scans is one; a commit that sets nothing
    // is, and shows nothing.
    script(
        "shape 1 1 9 0
         begin
         insert 1 5
         commit 1 10
         begin
         abort 2
         begin
         begin
         open-scan 10
         commit 3 9 => no 13
         commit 3 10
         update 4 0 mask 1 6
         commit 4 10
         open-scan 10
         begin
         update 5 0 mask 1 7
         abort 5
         begin
         update 6 0 mask 1 8
         commit 6 10
         open-scan 10
         scan-read 1 0 0 => ok 5 10
         scan-read 2 0 0 => ok 6 10
         scan-read 3 0 0 => ok 8 10
         sum 1 0 => ok 1 5
         sum 2 0 => ok 1 6
         sum 3 0 => ok 1 8",
    );
}

#[test]
fn a_scan_in_a_place_given_back_has_a_count_of_its_own() {
    // Scan 6 takes the place of scan 1.
    one_row(
        9,
        0,
        "open-scan 10
         open-scan 10
         open-scan 10
         open-scan 10
         open-scan 10
         begin
         update 2 0 mask 1 6 0
         commit 2 10
         scan-read 1 0 0 => ok 5 10
         close 1
         open-scan 10 => ok 6
         scan-read 6 0 0 => ok 6 10
         scan-read 2 0 0 => ok 5 10
         scan-read 5 0 0 => ok 5 10
         sum 6 0 => ok 1 6
         sum 5 0 => ok 1 5",
    );
}

#[test]
fn a_scan_of_a_new_store_sees_no_commit_at_0() {
    // It was opened before the first commit; a scan opened after it sees it.
    script(
        "shape 1 1 9 0
         open-scan 0
         begin
         insert 1 5
         commit 1 0
         scan-read 1 0 0 => ok none
         sum 1 0 => ok 0 0
         latest 0 0 => ok 5 0
         open-scan 0
         scan-read 2 0 0 => ok 5 0
         sum 2 0 => ok 1 5
         begin
         delete 2 0
         commit 2 0
         scan-read 1 0 0 => ok none
         scan-read 2 0 0 => ok 5 0
         latest 0 0 => ok none",
    );
}

#[test]
fn a_scan_at_an_earlier_stamp_than_the_last_commits_is_as_before() {
    // It sees every commit of its minute, as all were made before it, and none of a later stamp,
    // though some were made before it too; a stamp between two minutes likewise.
    one_row(
        16,
        0,
        "begin
         update 2 0 mask 1 6 0
         commit 2 10
         begin
         update 3 0 mask 1 7 0
         insert 3 9 90
         commit 3 20
         open-scan 10
         open-scan 15
         open-scan 9
         begin
         update 4 0 mask 1 8 0
         insert 4 11 110
         commit 4 20
         scan-read 1 0 0 => ok 6 10
         scan-read 1 1 0 => ok none
         scan-read 2 0 0 => ok 6 10
         scan-read 2 2 0 => ok none
         scan-read 3 0 0 => ok none
         sum 1 0 => ok 1 6
         sum 2 0 => ok 1 6
         sum 3 0 => ok 0 0
         read-at 10 0 0 => ok 6 10
         read-at 15 0 0 => ok 6 10",
    );
}

// "So, in place of the last sentence of demand 3, a reader may rely on an unchanging answer,
// refusals aside, for minutes before the last commit's, and for every open scan."

#[test]
fn the_answer_for_the_last_minute_may_change_and_for_an_earlier_one_not() {
    // A value and an absence, each read before and after a second commit of minute 20.
    one_row(
        9,
        1,
        "begin
         insert 2 7 70
         commit 2 20
         latest 0 0 => ok 5 10
         read-at 20 0 0 => ok 5 10
         read-at 19 0 0 => ok 5 10
         read-at 10 0 0 => ok 5 10
         latest 1 0 => ok 7 20
         read-at 19 1 0 => ok none
         begin
         update 3 0 mask 1 6 0
         delete 3 1
         insert 3 9 90
         latest 2 0 => ok none
         commit 3 20
         latest 0 0 => ok 6 20
         read-at 20 0 0 => ok 6 20
         read-at 19 0 0 => ok 5 10
         read-at 10 0 0 => ok 5 10
         latest 1 0 => ok none
         read-at 20 1 0 => ok none
         read-at 19 1 0 => ok none
         latest 2 0 => ok 9 20
         merge 0 0 3
         read-at 19 0 0 => ok 5 10
         latest 0 0 => ok 6 20",
    );
}

#[test]
fn a_minute_is_settled_by_a_commit_of_a_later_one_alone() {
    // Read at 20 changes until the last commit is at 21, and then no more. In a new store the
    // minute 0 is the last commit's: a read at 0 may change.
    script(
        "shape 1 1 9 0
         begin
         insert 1 5
         read-at 0 0 0 => ok none
         commit 1 0
         read-at 0 0 0 => ok 5 0
         begin
         update 2 0 mask 1 6
         commit 2 20
         read-at 20 0 0 => ok 6 20
         begin
         begin
         update 3 0 mask 1 7
         commit 3 20
         read-at 20 0 0 => ok 7 20
         commit 4 21
         begin
         update 5 0 mask 1 8
         commit 5 20 => no 13
         commit 5 21
         read-at 20 0 0 => ok 7 20
         read-at 21 0 0 => ok 8 21",
    );
}

#[test]
fn a_value_committed_at_0_has_the_stamp_0_as_a_pending_one_has() {
    // So 0 no longer tells the two apart: an own read gives 0 for its own pending value, and for one
    // that another transaction has committed at 0.
    script(
        "shape 2 1 9 0
         begin
         insert 1 5 50
         commit 1 0
         begin
         own-read 2 0 0 => ok 5 0
         update 2 0 mask 1 6 0
         own-read 2 0 0 => ok 6 0
         own-read 2 0 1 => ok 50 0
         begin
         own-read 3 0 0 => ok 5 0
         latest 0 0 => ok 5 0
         commit 2 0
         own-read 3 0 0 => ok 6 0
         latest 0 0 => ok 6 0
         commit 3 7
         latest 0 0 => ok 6 0
         read-at 0 0 1 => ok 50 0",
    );
}

// Document 02, Item 4: "the stamps between from and to, both counted, at which a committed value lies on
// the other side of the mark from the one before it in that row and column".

#[test]
fn a_first_value_is_no_crossing() {
    // On whatever side it lies, also at `from`, and of a column that no update has set.
    one_row(
        9,
        0,
        "crossings 0 0 5 0 10 => ok 0
         crossings 0 0 6 0 10 => ok 0
         crossings 0 0 5 10 10 => ok 0
         begin
         update 2 0 mask 1 5 0
         commit 2 20
         crossings 0 0 5 0 20 => ok 0
         crossings 0 0 6 0 20 => ok 0
         crossings 0 1 50 0 20 => ok 0
         crossings 0 1 51 0 20 => ok 0",
    );
}

#[test]
fn both_ends_of_the_minutes_are_counted() {
    one_row(
        9,
        0,
        "begin
         update 2 0 mask 1 9 0
         commit 2 20
         begin
         update 3 0 mask 1 4 0
         commit 3 30
         crossings 0 0 7 0 30 => ok 2 20 30
         crossings 0 0 7 20 30 => ok 2 20 30
         crossings 0 0 7 21 30 => ok 1 30
         crossings 0 0 7 20 29 => ok 1 20
         crossings 0 0 7 21 29 => ok 0
         crossings 0 0 7 20 20 => ok 1 20
         crossings 0 0 7 30 30 => ok 1 30
         crossings 0 0 7 0 19 => ok 0",
    );
}

#[test]
fn the_value_before_may_lie_before_from() {
    // The inserted one, and one that was set.
    one_row(
        9,
        0,
        "begin
         update 2 0 mask 1 9 0
         commit 2 20
         crossings 0 0 7 11 20 => ok 1 20
         begin
         update 3 0 mask 1 8 0
         commit 3 30
         crossings 0 0 7 21 30 => ok 0
         begin
         update 4 0 mask 1 4 0
         commit 4 40
         crossings 0 0 7 31 40 => ok 1 40
         crossings 0 0 7 40 40 => ok 1 40",
    );
}

#[test]
fn a_value_equal_to_the_mark_is_at_or_above_it() {
    // The least mark has nothing below it.
    script(
        "shape 1 1 9 0
         begin
         insert 1 5
         commit 1 10
         begin
         update 2 0 mask 1 6
         commit 2 20
         begin
         update 3 0 mask 1 -2147483648
         commit 3 30
         begin
         update 4 0 mask 1 2147483647
         commit 4 40
         crossings 0 0 5 0 40 => ok 2 30 40
         crossings 0 0 6 0 40 => ok 3 20 30 40
         crossings 0 0 7 0 40 => ok 1 40
         crossings 0 0 2147483647 0 40 => ok 1 40
         crossings 0 0 -2147483647 0 40 => ok 2 30 40
         crossings 0 0 -2147483648 0 40 => ok 0",
    );
}

#[test]
fn a_minute_with_two_crossings_stands_twice() {
    // Also where its last value lies on the side of the one before it.
    one_row(
        9,
        0,
        "begin
         update 2 0 mask 1 9 0
         commit 2 20
         begin
         update 3 0 mask 1 4 0
         commit 3 20
         read-at 20 0 0 => ok 4 20
         crossings 0 0 7 0 20 => ok 2 20 20
         crossings 0 0 7 20 20 => ok 2 20 20
         begin
         update 4 0 mask 1 8 0
         commit 4 20
         begin
         update 5 0 mask 1 3 0
         commit 5 30
         crossings 0 0 7 0 30 => ok 4 20 20 20 30
         crossings 0 0 7 21 30 => ok 1 30",
    );
}

#[test]
fn values_are_compared_in_the_order_of_commits() {
    // One value for each transaction. Transaction 4 commits before 2, which commits before 1; their
    // values in the order of begins would cross at 30.
    script(
        "shape 1 1 9 0
         begin
         begin
         begin
         insert 3 5
         commit 3 10
         begin
         update 4 0 mask 1 9
         commit 4 20
         update 2 0 mask 1 8
         commit 2 30
         update 1 0 mask 1 4
         commit 1 40
         crossings 0 0 7 0 40 => ok 2 20 40",
    );
}

#[test]
fn a_setting_that_its_transaction_replaced_is_no_value() {
    // There and back in one transaction crosses nothing, and the last of several crosses once.
    one_row(
        16,
        0,
        "begin
         update 2 0 mask 1 9 0
         update 2 0 mask 1 4 0
         commit 2 20
         crossings 0 0 7 0 20 => ok 0
         begin
         update 3 0 mask 1 9 0
         update 3 0 mask 1 3 0
         update 3 0 mask 3 8 80
         commit 3 30
         crossings 0 0 7 0 30 => ok 1 30
         crossings 0 1 60 0 30 => ok 1 30",
    );
}

#[test]
fn the_inserters_own_setting_takes_the_inserted_values_place() {
    // Column 0 is first 9, column 1 first 5, both at 10.
    script(
        "shape 2 1 9 0
         begin
         insert 1 5 5
         update 1 0 mask 1 9 0
         commit 1 10
         crossings 0 0 7 0 10 => ok 0
         begin
         update 2 0 mask 3 8 8
         commit 2 20
         crossings 0 0 7 0 20 => ok 0
         crossings 0 1 7 0 20 => ok 1 20
         crossings 0 0 9 0 20 => ok 1 20",
    );
}

#[test]
fn aborted_and_pending_settings_are_no_values() {
    // Neither the first update of the column, whose original stays, nor a later one.
    one_row(
        16,
        0,
        "begin
         update 2 0 mask 1 9 0
         crossings 0 0 7 0 10 => ok 0
         abort 2
         crossings 0 0 7 0 10 => ok 0
         begin
         update 3 0 mask 1 4 0
         commit 3 20
         crossings 0 0 7 0 20 => ok 0
         begin
         update 4 0 mask 1 9 0
         abort 4
         begin
         update 5 0 mask 1 8 0
         crossings 0 0 7 0 20 => ok 0
         commit 5 30
         crossings 0 0 7 0 30 => ok 1 30
         crossings 0 0 5 0 30 => ok 2 20 30",
    );
}

#[test]
fn a_row_that_is_not_committed_has_no_crossings() {
    // Its insert open, aborted, or deleted by its own transaction; the call is accepted.
    script(
        "shape 1 1 9 0
         begin
         insert 1 5
         update 1 0 mask 1 9
         crossings 0 0 7 0 0 => ok 0
         begin
         insert 2 5
         update 2 1 mask 1 9
         abort 2
         crossings 1 0 7 0 0 => ok 0
         begin
         insert 3 5
         update 3 2 mask 1 9
         delete 3 2
         commit 3 10
         crossings 2 0 7 0 10 => ok 0
         crossings 0 0 7 0 10 => ok 0
         commit 1 20
         crossings 0 0 7 0 20 => ok 0",
    );
}

#[test]
fn an_end_is_no_crossing_and_those_before_it_stay() {
    one_row(
        9,
        0,
        "begin
         update 2 0 mask 1 9 0
         commit 2 20
         begin
         delete 3 0
         crossings 0 0 7 0 20 => ok 1 20
         commit 3 30
         latest 0 0 => ok none
         crossings 0 0 7 0 30 => ok 1 20
         crossings 0 0 7 30 30 => ok 0",
    );
}

#[test]
fn a_value_set_and_ended_by_one_commit_is_a_committed_value() {
    // Though no read ever gives it.
    one_row(
        9,
        0,
        "begin
         update 2 0 mask 1 9 0
         delete 2 0
         commit 2 20
         read-at 20 0 0 => ok none
         crossings 0 0 7 0 20 => ok 1 20",
    );
}

#[test]
fn crossings_test_row_then_column_then_minutes() {
    one_row(
        9,
        0,
        "crossings 9 9 0 11 10 => no 5
         crossings 0 9 0 11 10 => no 6
         crossings 0 0 0 11 10 => no 13
         crossings 0 0 0 10 9 => no 13
         crossings 0 0 0 0 11 => no 13
         crossings 0 0 0 11 11 => no 13
         crossings 0 0 0 10 10 => ok 0
         crossings 0 0 0 0 10 => ok 0",
    );
}

#[test]
fn in_a_new_store_the_minutes_from_0_to_0_are_accepted() {
    script(
        "shape 1 1 9 0
         crossings 0 0 0 0 0 => no 5
         begin
         insert 1 5
         crossings 0 0 0 0 0 => ok 0
         crossings 0 0 0 0 1 => no 13
         crossings 0 0 0 1 0 => no 13
         commit 1 0
         begin
         update 2 0 mask 1 -5
         commit 2 0
         crossings 0 0 0 0 0 => ok 1 0",
    );
}

/// Row 0 is inserted with 5 at 100 and set by so many commits after it, one a minute, to 9 and 5 in turn.
fn swings(count: u32) -> String {
    let mut lines = "shape 1 1 64 1\nbegin\ninsert 1 5\ncommit 1 100\n".to_string();
    for swing in 1..=count {
        let (transaction, value) = (swing + 1, if swing % 2 == 1 { 9 } else { 5 });
        lines += &format!("begin\nupdate {transaction} 0 mask 1 {value}\n");
        lines += &format!("commit {transaction} {}\n", 100 + swing);
    }
    lines
}

#[test]
fn sixteen_crossings_are_listed_and_seventeen_refused() {
    // Those between from and to count; the program goes on after 21.
    let first: Vec<String> = (101..=116).map(|stamp: u32| stamp.to_string()).collect();
    let last: Vec<String> = (102..=117).map(|stamp: u32| stamp.to_string()).collect();
    script(&format!(
        "{}crossings 0 0 7 0 117 => no 21
         crossings 0 0 7 101 117 => no 21
         crossings 0 0 7 0 116 => ok 16 {}
         crossings 0 0 7 102 117 => ok 16 {}
         crossings 0 0 10 0 117 => ok 0
         crossings 0 1 7 0 117 => no 6
         crossings 0 0 7 0 118 => no 13
         latest 0 0 => ok 9 117",
        swings(17),
        first.join(" "),
        last.join(" ")
    ));
}

#[test]
fn the_crossings_may_be_as_many_as_the_places_lent() {
    let bytes = text::encode(&swings(3)).unwrap();
    let mut history = History::new(program::shape(bytes[..6].try_into().unwrap()));
    for call in calls(&bytes) {
        history.call(&call);
    }
    let mut lent = |from, to, places| {
        history.call(&Call::Crossings { row: 0, column: 0, mark: 7, from, to, places })
    };
    for places in [3, 4, 16, u32::MAX] {
        assert_eq!(lent(0, 103, places), Answer::Crossings(vec![101, 102, 103]));
    }
    for places in [0, 1, 2] {
        assert_eq!(lent(0, 103, places), Answer::Refused(21));
    }
    assert_eq!(lent(102, 102, 1), Answer::Crossings(vec![102]));
    assert_eq!(lent(102, 102, 0), Answer::Refused(21));
    assert_eq!(lent(0, 100, 0), Answer::Crossings(vec![]));
    assert_eq!(lent(0, 104, 0), Answer::Refused(13));
}

#[test]
fn merges_and_releases_change_no_crossings() {
    script(&format!(
        "{}crossings 0 0 7 0 104 => ok 4 101 102 103 104
         merge 0 0 3
         crossings 0 0 7 0 104 => ok 4 101 102 103 104
         release
         merge 0 0 5
         crossings 0 0 7 0 104 => ok 4 101 102 103 104
         crossings 0 0 7 102 103 => ok 2 102 103
         release
         crossings 0 0 7 104 104 => ok 1 104",
        swings(4)
    ));
}

#[test]
fn crossings_are_those_of_one_row_and_column() {
    one_row(
        16,
        0,
        "begin
         insert 2 50 5
         commit 2 20
         begin
         update 3 0 mask 1 50 0
         update 3 1 mask 2 0 50
         commit 3 30
         begin
         update 4 0 mask 2 0 5
         update 4 1 mask 1 5 0
         commit 4 40
         crossings 0 0 7 0 40 => ok 1 30
         crossings 0 1 7 0 40 => ok 1 40
         crossings 1 0 7 0 40 => ok 1 40
         crossings 1 1 7 0 40 => ok 1 30",
    );
}

// Document 02, Item 6: "Command 14: stamp, row, column; it answers the keeper of the value that 08 would
// show, or none, refused as 08 is."

/// Two columns; row 0 inserted by keeper 7 with 5 and 50 and committed at 10.
fn kept_row(capacity: u32, spares: u32, rest: &str) {
    script(&format!(
        "shape 2 1 {capacity} {spares}\nbegin-as 7\ninsert 1 5 50\ncommit 1 10\n{rest}"
    ));
}

#[test]
fn an_inserted_value_has_the_inserters_keeper() {
    kept_row(
        4,
        0,
        "keeper-at 9 0 0 => ok none
         keeper-at 10 0 0 => ok 7
         keeper-at 10 0 1 => ok 7",
    );
}

#[test]
fn the_keeper_is_that_of_the_columns_setting_not_of_the_rows_last_change() {
    // I6-a: the row's last change is 9's at 20, and 8's at 30.
    kept_row(
        9,
        0,
        "begin-as 9
         update 2 0 mask 1 6 0
         commit 2 20
         keeper-at 20 0 0 => ok 9
         keeper-at 20 0 1 => ok 7
         begin-as 8
         update 3 0 mask 2 0 60
         commit 3 30
         keeper-at 30 0 0 => ok 9
         keeper-at 30 0 1 => ok 8
         keeper-at 29 0 1 => ok 7
         keeper-at 20 0 0 => ok 9
         keeper-at 19 0 0 => ok 7",
    );
}

#[test]
fn an_original_has_the_inserters_keeper_though_its_record_is_an_updates() {
    // I6-c: "original values carry the inserter", the update committed, open or aborted.
    kept_row(
        9,
        2,
        "begin-as 9
         update 2 0 mask 1 6 0
         keeper-at 10 0 0 => ok 7
         commit 2 20
         keeper-at 10 0 0 => ok 7
         keeper-at 19 0 0 => ok 7
         merge 0 0 1
         keeper-at 10 0 0 => ok 7
         keeper-at 20 0 0 => ok 9
         merge 0 0 2
         release => ok 2
         keeper-at 10 0 0 => ok 7
         keeper-at 20 0 0 => ok 9
         begin-as 8
         update 3 0 mask 2 0 60
         abort 3
         keeper-at 20 0 1 => ok 7",
    );
}

#[test]
fn an_aborted_settings_keeper_is_not_shown() {
    // I6-a: of the column's first update, which leaves its original, and of a later one.
    kept_row(
        9,
        1,
        "begin-as 8
         update 2 0 mask 1 6 0
         abort 2
         keeper-at 10 0 0 => ok 7
         begin-as 9
         update 3 0 mask 1 6 0
         commit 3 20
         begin-as 8
         update 4 0 mask 1 6 0
         abort 4
         keeper-at 20 0 0 => ok 9
         keeper-at 19 0 0 => ok 7
         merge 0 0 4
         keeper-at 20 0 0 => ok 9
         keeper-at 19 0 0 => ok 7",
    );
}

#[test]
fn a_pending_settings_keeper_is_not_shown() {
    // Not for the transaction itself either: 14 is as 08, and no own read.
    kept_row(
        9,
        0,
        "begin-as 9
         update 2 0 mask 1 6 0
         insert 2 1 1
         own-read 2 0 0 => ok 6 0
         keeper-at 10 0 0 => ok 7
         keeper-at 10 1 0 => ok none
         commit 2 20
         keeper-at 20 0 0 => ok 9
         keeper-at 20 1 0 => ok 9
         keeper-at 19 1 0 => ok none",
    );
}

#[test]
fn the_keeper_is_refused_as_a_read_at_is() {
    // I6-b: 13, 5, 6.
    kept_row(
        4,
        0,
        "keeper-at 11 9 9 => no 13
         keeper-at 10 9 9 => no 5
         keeper-at 10 0 9 => no 6
         keeper-at 10 0 2 => no 6
         keeper-at 10 1 0 => no 5
         keeper-at 11 0 0 => no 13
         keeper-at 4294967295 0 0 => no 13
         keeper-at 10 0 1 => ok 7",
    );
    // In a new store the last stamp is 0.
    script(
        "shape 1 1 4 0
         keeper-at 1 0 0 => no 13
         keeper-at 0 0 0 => no 5
         begin-as 7
         insert 1 5
         keeper-at 0 0 0 => ok none
         keeper-at 0 0 1 => no 6
         commit 1 0
         keeper-at 0 0 0 => ok 7",
    );
}

#[test]
fn a_begin_with_a_keeper_answers_as_a_begin() {
    // I6-b: one series of numbers and one limit for both. 15, and its order, are in `input`.
    script(
        "shape 1 1 1 0
         begin => ok 1
         begin-as 9 => ok 2
         begin-as 9 => ok 3
         begin => ok 4
         begin-as 0 => ok 5
         begin-as 65535 => ok 6
         begin => ok 7
         begin-as 9 => ok 8
         begin-as 9 => no 14
         begin => no 14
         abort 3
         begin-as 1 => ok 9
         begin-as 1 => no 14
         commit 9 0
         begin => ok 10
         begin-as 1 => no 14",
    );
}

#[test]
fn a_begin_without_a_keeper_has_keeper_0() {
    // Also after one with a keeper; an unknown keeper takes a known one's place.
    kept_row(
        9,
        0,
        "begin
         update 2 0 mask 1 6 0
         insert 2 1 1
         commit 2 20
         keeper-at 20 0 0 => ok 0
         keeper-at 20 0 1 => ok 7
         keeper-at 20 1 0 => ok 0
         begin-as 0
         update 3 0 mask 2 0 60
         commit 3 30
         keeper-at 30 0 1 => ok 0",
    );
}

#[test]
fn a_keeper_is_any_number_of_two_bytes() {
    let mut lines = "shape 1 1 64 0\nbegin\ninsert 1 0\ncommit 1 0\n".to_string();
    let keepers = [1, 255, 256, 257, 258, 513, 32_767, 32_768, 65_280, 65_535];
    for (transaction, keeper) in (2..).zip(keepers) {
        lines += &format!("begin-as {keeper}\nupdate {transaction} 0 mask 1 0\n");
        lines += &format!("commit {transaction} {transaction}\n");
        lines += &format!("keeper-at {transaction} 0 0 => ok {keeper}\n");
    }
    for (transaction, keeper) in (2..).zip(keepers) {
        lines += &format!("keeper-at {transaction} 0 0 => ok {keeper}\n");
    }
    script(&lines);
}

#[test]
fn each_transaction_has_a_keeper_of_its_own() {
    // Not that of the last begin, nor of the last commit; two transactions may have one keeper.
    kept_row(
        16,
        0,
        "begin-as 1
         begin-as 2
         begin-as 1
         insert 2 1 1
         insert 3 2 2
         insert 4 3 3
         commit 3 20
         commit 4 30
         commit 2 40
         keeper-at 40 0 0 => ok 7
         keeper-at 40 1 0 => ok 1
         keeper-at 40 2 0 => ok 2
         keeper-at 40 3 0 => ok 1
         keeper-at 30 1 0 => ok none
         keeper-at 30 3 0 => ok 1
         keeper-at 20 2 1 => ok 2",
    );
}

#[test]
fn settings_of_one_transaction_have_its_keeper() {
    // The inserter's own setting too. A column set twice has one value, and the same keeper.
    script(
        "shape 2 1 16 0
         begin-as 7
         insert 1 5 50
         update 1 0 mask 1 6 0
         commit 1 10
         keeper-at 10 0 0 => ok 7
         keeper-at 10 0 1 => ok 7
         begin-as 9
         update 2 0 mask 1 1 0
         update 2 0 mask 1 2 0
         update 2 0 mask 3 3 30
         commit 2 20
         keeper-at 20 0 0 => ok 9
         keeper-at 20 0 1 => ok 9
         keeper-at 19 0 1 => ok 7",
    );
}

#[test]
fn setting_the_same_value_again_gives_the_later_keeper() {
    // D6
    kept_row(
        4,
        1,
        "begin-as 9
         update 2 0 mask 1 5 0
         commit 2 20
         read-at 20 0 0 => ok 5 20
         keeper-at 20 0 0 => ok 9
         keeper-at 19 0 0 => ok 7
         merge 0 0 2
         keeper-at 20 0 0 => ok 9
         keeper-at 19 0 0 => ok 7",
    );
}

#[test]
fn a_deletes_keeper_is_never_shown() {
    kept_row(
        9,
        0,
        "begin-as 9
         delete 2 0
         keeper-at 10 0 0 => ok 7
         abort 2
         keeper-at 10 0 0 => ok 7
         begin-as 8
         update 3 0 mask 1 6 0
         delete 3 0
         commit 3 20
         keeper-at 19 0 0 => ok 7
         keeper-at 20 0 0 => ok none
         begin-as 6
         insert 4 1 1
         delete 4 1
         commit 4 30
         begin-as 6
         insert 5 2 2
         abort 5
         keeper-at 30 0 1 => ok none
         keeper-at 30 1 0 => ok none
         keeper-at 30 2 0 => ok none
         keeper-at 30 3 0 => no 5",
    );
}

#[test]
fn a_keeper_at_a_minute_is_that_of_its_newest_commit() {
    // The order is that of commits, not of begins. A scan of the minute sees 3's value still.
    kept_row(
        9,
        0,
        "begin-as 2
         begin-as 3
         update 3 0 mask 1 6 0
         commit 3 20
         keeper-at 20 0 0 => ok 3
         open-scan 20
         update 2 0 mask 1 8 0
         commit 2 20
         keeper-at 20 0 0 => ok 2
         scan-read 1 0 0 => ok 6 20
         keeper-at 19 0 0 => ok 7
         begin-as 4
         update 4 0 mask 1 9 0
         commit 4 30
         keeper-at 20 0 0 => ok 2
         keeper-at 29 0 0 => ok 2
         keeper-at 30 0 0 => ok 4",
    );
}

#[test]
fn merges_and_releases_change_no_keeper() {
    // With a scan open that keeps the old pages, and after it.
    let keepers = "keeper-at 9 0 0 => ok none
         keeper-at 10 0 0 => ok 7
         keeper-at 20 0 0 => ok 9
         keeper-at 30 0 0 => ok 8
         keeper-at 30 0 1 => ok 9
         keeper-at 10 0 1 => ok 7\n";
    kept_row(
        9,
        3,
        &format!(
            "begin-as 9
             update 2 0 mask 3 6 60
             commit 2 20
             begin-as 8
             update 3 0 mask 1 4 0
             commit 3 30
             {keepers}open-scan 20
             merge 0 0 2
             {keepers}merge 0 0 3
             {keepers}merge 0 1 3
             {keepers}release => ok 0
             {keepers}close 1
             release => ok 3
             {keepers}"
        ),
    );
}

#[test]
fn keepers_are_those_of_one_row_and_column() {
    kept_row(
        16,
        0,
        "begin-as 9
         insert 2 1 1
         commit 2 20
         begin-as 3
         update 3 0 mask 1 50 0
         commit 3 30
         begin-as 4
         update 4 1 mask 2 0 5
         commit 4 40
         keeper-at 40 0 0 => ok 3
         keeper-at 40 0 1 => ok 7
         keeper-at 40 1 0 => ok 9
         keeper-at 40 1 1 => ok 4",
    );
}

#[test]
fn the_other_reads_sums_and_pages_show_no_keeper() {
    kept_row(
        9,
        1,
        "begin-as 9
         update 2 0 mask 1 6 0 => ok 2
         own-read 2 0 1 => ok 50 10
         commit 2 20 => ok
         latest 0 0 => ok 6 20
         read-at 10 0 0 => ok 5 10
         open-scan 20 => ok 1
         scan-read 1 0 0 => ok 6 20
         sum 1 0 => ok 1 6
         close 1 => ok
         merge 0 0 2 => ok
         release => ok 1
         page-cell 0 0 => ok 6
         lineage 0 0 => ok 2 2
         crossings 0 0 6 0 20 => ok 1 20",
    );
}

// Item 7.

#[test]
fn a_move_there_and_back_is_accepted_and_answers_no_field() {
    script(
        "shape 2 1 4 1
         upgrade => ok
         downgrade => ok
         upgrade => ok",
    );
}

#[test]
fn the_way_back_is_refused_for_a_row_with_a_keeper() {
    // While its insert is pending, committed, aborted, and when it has ended.
    for end in ["", "commit 1 10\n", "abort 1\n"] {
        script(&format!(
            "shape 2 1 4 1\ndowngrade => ok\nupgrade\nbegin-as 1\ninsert 1 5 50\n{end}downgrade => no 22"
        ));
    }
    kept_row(
        4,
        1,
        "downgrade => no 22
         begin
         delete 2 0
         commit 2 20
         downgrade => no 22",
    );
}

#[test]
fn the_way_back_is_refused_for_a_record_with_a_keeper() {
    // The row has keeper 0. A setting and a delete, committed and aborted; what another transaction with
    // keeper 0 does after it is no matter.
    for change in ["update 2 0 mask 1 6 0", "delete 2 0"] {
        for end in ["commit 2 20", "abort 2"] {
            one_row(
                9,
                1,
                &format!(
                    "downgrade => ok
                     upgrade
                     begin-as 256
                     {change}
                     downgrade => no 22
                     {end}
                     downgrade => no 22
                     begin
                     insert 3 1 2
                     commit 3 30
                     downgrade => no 22"
                ),
            );
        }
    }
}

#[test]
fn the_way_back_is_refused_for_a_merged_or_replaced_setting_with_a_keeper() {
    // The record stays, whatever is read.
    one_row(
        9,
        2,
        "begin-as 65535
         update 2 0 mask 1 6 0
         commit 2 20
         begin
         update 3 0 mask 1 7 0
         commit 3 30
         merge 0 0 3
         release => ok 1
         keeper-at 30 0 0 => ok 0
         downgrade => no 22",
    );
}

#[test]
fn the_way_back_is_refused_for_an_open_transaction_with_a_keeper_and_not_after_its_end() {
    // It has made nothing, or a change was refused.
    for end in ["abort 2", "commit 2 20"] {
        one_row(
            1,
            0,
            &format!(
                "begin-as 7
                 downgrade => no 22
                 update 2 0 mask 1 6 0 => no 12
                 downgrade => no 22
                 begin
                 begin-as 8
                 {end}
                 downgrade => no 22
                 abort 4
                 downgrade => ok
                 upgrade
                 begin-as 7 => ok 5
                 downgrade => no 22"
            ),
        );
    }
}

#[test]
fn the_way_back_is_open_with_keeper_0_however_it_was_begun() {
    script(
        "shape 2 1 9 1
         begin-as 0
         insert 1 5 50
         update 1 0 mask 1 6 0
         downgrade => ok
         upgrade => ok
         commit 1 10
         begin
         delete 2 0
         downgrade => ok
         upgrade => ok
         abort 2
         keeper-at 10 0 0 => ok 0
         downgrade => ok",
    );
}

#[test]
fn a_row_inserted_before_the_keepers_has_keeper_0() {
    // Form 1, then moved: the update's original carries the inserter, the setting its own.
    script(
        "shape 2 1 9 1
         begin
         insert 1 5 50
         commit 1 10
         upgrade
         begin-as 7
         update 2 0 mask 1 6 0
         commit 2 20
         keeper-at 10 0 0 => ok 0
         keeper-at 20 0 0 => ok 7
         keeper-at 20 0 1 => ok 0
         downgrade => no 22",
    );
}

#[test]
fn open_transactions_numbers_and_holds_go_on_after_moves() {
    // From form 1: up, back, up; an own read sees its pending values, a held row is held, the next number
    // is the next.
    script(
        "shape 2 1 9 1
         begin
         insert 1 5 50
         commit 1 10
         begin => ok 2
         update 2 0 mask 1 6 0 => ok 2
         begin => ok 3
         upgrade
         own-read 2 0 0 => ok 6 0
         latest 0 0 => ok 5 10
         delete 3 0 => no 9
         begin-as 0 => ok 4
         downgrade
         own-read 2 0 0 => ok 6 0
         insert 4 7 70 => ok 1
         upgrade
         update 2 0 mask 1 8 0 => ok 3
         commit 2 9 => no 13
         commit 2 20
         update 3 0 mask 2 0 60 => ok 5
         downgrade
         own-read 3 0 0 => ok 8 20
         own-read 4 1 0 => ok 7 0
         commit 3 20
         abort 4
         latest 0 1 => ok 60 20
         latest 1 0 => ok none
         begin => ok 5",
    );
}

#[test]
fn eight_open_transactions_and_five_scans_stay_the_limit_after_a_move() {
    script(&format!(
        "shape 1 1 1 0\n{}{}upgrade\nbegin => no 14\nbegin-as 0 => no 14\nopen-scan 0 => no 14\n\
         downgrade\nbegin => no 14\nopen-scan 0 => no 14\nabort 3\nclose 2\nupgrade\n\
         begin-as 0 => ok 9\nopen-scan 0 => ok 6",
        "begin\n".repeat(8),
        "open-scan 0\n".repeat(5),
    ));
}

#[test]
fn scans_and_waiting_pages_go_on_after_moves() {
    // Scan 1 keeps the first page and what it saw, scan 2 the second; merges made before and after moves
    // count together.
    one_row(
        9,
        2,
        "begin
         open-scan 10 => ok 1
         update 2 0 mask 1 6 0
         commit 2 10
         merge 0 0 2
         downgrade
         scan-read 1 0 0 => ok 5 10
         open-scan 10 => ok 2
         begin
         update 3 0 mask 1 7 0
         commit 3 20
         upgrade
         merge 0 0 3
         merge 0 1 3 => no 18
         downgrade
         scan-read 1 0 0 => ok 5 10
         scan-read 2 0 0 => ok 6 10
         sum 2 0 => ok 1 6
         page-cell 0 0 => ok 7
         lineage 0 0 => ok 3 3
         release => ok 0
         close 1
         upgrade
         release => ok 1
         scan-read 2 0 0 => ok 6 10
         close 2
         downgrade
         release => ok 1
         merge 0 1 3
         crossings 0 0 6 0 20 => ok 1 10",
    );
}
