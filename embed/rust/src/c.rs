//! The C interface as embed/c/deskrook.h declares it, where each function is described. The safe
//! [`Store`](crate::Store) is over these.
//!
//! # Safety
//!
//! Of each function: a pointer is not null and goes with a length in bytes (memory, a move's second
//! one too), entries (list), values or stamps, all of which may be read, and written where the pointer
//! is `*mut`; no two of them overlap. Nothing is asked of their content or of the numbers.

use crate::ScanEntry;

/// What a call answers.
#[repr(C)]
#[derive(Clone, Copy, Debug, PartialEq, Eq)]
pub struct Reply {
    /// [`OK`], [`NONE`] or the number of a refusal.
    pub result: u32,
    pub first: u32,
    pub second: u32,
    pub stamp: u32,
    pub sum: i64,
}

/// The result of an accepted call.
pub const OK: u32 = 0;
/// The result of an accepted read that finds no row.
pub const NONE: u32 = 32;

/// Declares functions whose first parameters are memory and list: lent to be written, or to be
/// read alone.
macro_rules! lent {
    ($($memory:ident $list:ident $name:ident($($number:ident: $type:ty),*);)*) => {
        extern "C" {
            $(pub fn $name(
                mem: *$memory u8,
                mem_length: usize,
                scans: *$list ScanEntry,
                scans_length: usize,
                $($number: $type),*
            ) -> Reply;)*
        }
    };
}

extern "C" {
    pub fn deskrook_bytes_needed(columns: u32, ranges: u32, capacity: u32, spares: u32) -> Reply;
}

lent! {
    mut mut deskrook_make(columns: u32, ranges: u32, capacity: u32, spares: u32);
    const const deskrook_check();
    const const deskrook_upgrade(second: *mut u8, second_length: usize);
    const const deskrook_downgrade(second: *mut u8, second_length: usize);
    mut const deskrook_begin();
    mut const deskrook_begin_as(keeper: u16);
    mut const deskrook_insert(transaction: u32, values: *const i32, values_length: usize);
    mut const deskrook_update(
        transaction: u32,
        row: u32,
        mask: u16,
        values: *const i32,
        values_length: usize
    );
    mut const deskrook_delete(transaction: u32, row: u32);
    mut const deskrook_commit(transaction: u32, stamp: u32);
    mut const deskrook_abort(transaction: u32);
    const const deskrook_latest(row: u32, column: u32);
    const const deskrook_read_at(stamp: u32, row: u32, column: u32);
    const const deskrook_keeper_at(stamp: u32, row: u32, column: u32);
    const const deskrook_own_read(transaction: u32, row: u32, column: u32);
    const const deskrook_crossings(
        stamps: *mut u32,
        stamps_length: usize,
        row: u32,
        column: u32,
        mark: i32,
        from: u32,
        to: u32
    );
    mut mut deskrook_open_scan(stamp: u32);
    const const deskrook_scan_read(scan: u32, row: u32, column: u32);
    const const deskrook_sum(scan: u32, column: u32);
    const mut deskrook_close_scan(scan: u32);
    mut const deskrook_merge(range: u32, column: u32, through: u32);
    mut const deskrook_release();
    const const deskrook_page_cell(column: u32, row: u32);
    const const deskrook_lineage(range: u32, column: u32);
}
