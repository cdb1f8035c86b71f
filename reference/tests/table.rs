//! The worked example of document 01 and the twelve cases of its "Proved table", P2 and P3 as
//! document 02's Item 3 has them.

mod common;
use common::{output, script};
use reference::text;

#[test]
fn the_worked_example_gives_its_twelve_lines() {
    let bytes = text::encode(include_str!("../examples/worked.txt")).unwrap();
    let expected: Vec<&str> = include_str!("../examples/worked.out").lines().collect();
    assert_eq!(expected.len(), 12);
    assert_eq!(output(&bytes), expected);
}

#[test]
fn p1_the_eleven_answers() {
    script(
        "shape 2 1 4 1
         begin => ok 1
         insert 1 1200 -30 => ok 0
         commit 1 10 => ok
         begin => ok 2
         update 2 0 mask 1 1250 0 => ok 2
         latest 0 0 => ok 1200 10
         commit 2 20 => ok
         merge 0 0 2 => ok
         read-at 10 0 0 => ok 1200 10
         page-cell 0 0 => ok 1250
         merge 0 0 2 => no 16",
    );
}

#[test]
fn p2_stamp_0_reads_none() {
    // "P2 has no commit at 0"
    script(
        "shape 2 1 4 1
         begin
         insert 1 1200 -30
         commit 1 10
         read-at 0 0 0 => ok none",
    );
}

#[test]
fn p3_commit_at_10_after_10_is_accepted_at_9_refused() {
    // "case P3 becomes: at 10 ok, at 9 refused"; refused, it can still be committed at 10.
    script(
        "shape 1 1 4 1
         begin
         commit 1 10
         begin
         commit 2 10 => ok
         begin
         commit 3 9 => no 13
         commit 3 10 => ok",
    );
}

#[test]
fn p4_a_ninth_begin_is_busy() {
    script(&format!("shape 1 1 4 1\n{}begin => no 14", "begin\n".repeat(8)));
}

#[test]
fn p5_mask_0_and_bit_2_of_2_columns() {
    script(
        "shape 2 1 4 1
         begin
         insert 1 1 2
         update 1 0 mask 0 5 6 => no 8
         update 1 0 mask 0b100 5 6 => no 8",
    );
}

#[test]
fn p6_tail_1_first_update() {
    script(
        "shape 1 1 1 0
         begin
         insert 1 5
         update 1 0 mask 1 6 => no 12",
    );
}

#[test]
fn p7_two_updates_of_one_column_give_the_second_value() {
    script(
        "shape 1 1 4 0
         begin
         insert 1 5
         commit 1 1
         begin
         update 2 0 mask 1 6 => ok 2
         update 2 0 mask 1 7 => ok 3
         commit 2 2
         latest 0 0 => ok 7 2",
    );
}

#[test]
fn p8_an_aborted_update_merged_leaves_the_cell_and_raises_the_lineage() {
    script(
        "shape 1 1 4 1
         begin
         insert 1 5
         commit 1 1
         begin
         update 2 0 mask 1 6
         abort 2
         merge 0 0 2
         page-cell 0 0 => ok 5
         lineage 0 0 => ok 2 2",
    );
}

#[test]
fn p9_a_delete_at_30() {
    script(
        "shape 1 1 4 1
         begin
         insert 1 5
         commit 1 10
         begin
         delete 2 0 => ok 1
         commit 2 30
         read-at 29 0 0 => ok 5 10
         read-at 30 0 0 => ok none",
    );
}

/// One spare page and one committed update of one row.
const ONE_SPARE: &str = "shape 1 1 4 1
    begin
    insert 1 5
    update 1 0 mask 1 6
    commit 1 10
    ";

#[test]
fn p10_a_scan_opened_after_the_merge_keeps_no_page() {
    script(&format!("{ONE_SPARE}merge 0 0 2\nopen-scan 10\nrelease => ok 1"));
}

#[test]
fn p11_a_scan_opened_before_the_merge_keeps_the_page() {
    script(&format!("{ONE_SPARE}open-scan 10\nmerge 0 0 2\nrelease => ok 0"));
}

#[test]
fn p12_no_spares() {
    script(
        "shape 1 1 4 0
         begin
         insert 1 5
         update 1 0 mask 1 6
         commit 1 10
         merge 0 0 2 => no 18",
    );
}
