/* Deskrook for programs in C: a settings store for tide-mill gates, in memory that the caller lends.
 *
 * `embed/library` at the repository's root makes target/staticlib/libdeskrook.a. The library keeps nothing between calls, allocates nothing and calls nothing but
 * memcpy and memset: a store is the memory and the scan list that its calls are lent. Two stores never meet, and calls on different stores may run at the same time.
 *
 * LENDING. Every call on a store takes
 *   mem, mem_length      the memory: bytes at any address, at least as many as deskrook_bytes_needed answers;
 *   scans, scans_length  the list of open scans: an array of at least DESKROOK_SCANS entries.
 * The pointers are not null, also where the length is 0. Memory, list, values, stamps and the second memory of a move do not overlap. Lend the same memory and list to
 * every call on a store, and write to neither in between. A call that meets other bytes than the last one left, even random ones, still answers, touches nothing outside
 * what it was lent, and answers DESKROOK_MEMORY wherever a stored fact fails: also where more than DESKROOK_SCANS are open in the list, and where the memory is in a
 * stored form that the call does not work on.
 *
 * ANSWERS. `result` is DESKROOK_OK, DESKROOK_NONE or the number of a refusal. A refused call changes no byte of what it was lent. The other fields are said with
 * each call; a field of which nothing is said is 0, and all of them are 0 where the result is not DESKROOK_OK. Where a read of one cell gives a value,
 * `stamp` is the stamp of the commit that set this column in this row, by an update or by the insert; 0 while that is pending, and where it was committed at 0.
 *
 * NUMBERS. Rows and columns count from 0, ranges too; row r lies in range r / 64. Transactions, scans and tail records count from 1. A stamp is a count of minutes
 * since 1 January 2000 UTC. Any number may be passed: one that is not there is refused. Each call says its refusals in the order in which they are tested.
 *
 * ONE MINUTE. Several commits may have one stamp; among them the later made is the newer. A read at a minute gives the newest of it so far. The answer for a minute
 * before the last commit's never changes, and no answer of an open scan does: it sees the commits up to its stamp that were made before it was opened, and no more.
 *
 * KEEPERS. A transaction has a keeper, a number of 2 bytes that tells who made it: deskrook_begin_as takes any, and deskrook_begin takes 0, unknown. Each row and tail
 * record carries its transaction's keeper, and original values that of the row's insert; deskrook_keeper_at answers the keeper of the value that deskrook_read_at shows.
 *
 * FORMS. A memory is in a stored form. Form 1 is what fitted panels hold: it was made before there were keepers, has none, and needs fewer bytes. Form 2 is the newest and
 * has them; deskrook_make makes it, whatever the memory held, and it is what deskrook_bytes_needed tells the bytes of. deskrook_upgrade moves a store from form 1 to the
 * newest, into a second memory, and works on form 1 alone. deskrook_downgrade moves it back, and works on the newest alone, as deskrook_begin_as and deskrook_keeper_at
 * do. Every other call on a store works on both, and leaves the form as it is; deskrook_check says which one it is. */
#ifndef DESKROOK_H
#define DESKROOK_H

#include <stddef.h>
#include <stdint.h>

#ifdef __cplusplus
extern "C" {
#endif

/* The fewest entries of a scan list, and how many scans can be open at a time, however many entries the list has. */
#define DESKROOK_SCANS 5

/* An entry of the list of open scans. Number 0 marks a free entry. */
typedef struct deskrook_scan_entry {
    uint32_t number;
    uint32_t stamp;
    uint32_t merges;  /* the merges made before the scan was opened */
    uint32_t commits; /* the commits made before it, all of them */
} deskrook_scan_entry;

/* What a call answers. */
typedef struct deskrook_reply {
    uint32_t result; /* one of enum deskrook_result */
    uint32_t first;
    uint32_t second;
    uint32_t stamp;
    int64_t sum;
} deskrook_reply;

enum deskrook_result {
    DESKROOK_OK = 0,           /* accepted */
    DESKROOK_SHAPE = 1,        /* a measure outside its limits */
    DESKROOK_MEMORY = 2,       /* a memory shorter than the shape needs, a scan list under 5 entries, or a stored fact fails, also where the call does not work on the memory's form */
    DESKROOK_TRANSACTION = 3,  /* the transaction's number is not open */
    DESKROOK_SCAN = 4,         /* the scan's number is not open */
    DESKROOK_ROW = 5,          /* row number not yet given */
    DESKROOK_COLUMN = 6,       /* not below the column count */
    DESKROOK_RANGE = 7,        /* not below the range count */
    DESKROOK_MASK = 8,         /* no bit, or a bit at or above the column count */
    DESKROOK_HELD = 9,         /* another open transaction inserted, updated or deleted the row */
    DESKROOK_GONE = 10,        /* not held, and the row is deleted or its insert aborted, in the caller's own view */
    DESKROOK_FULL = 11,        /* all rows given */
    DESKROOK_TAIL = 12,        /* the range lacks the one or two tail records wanted */
    DESKROOK_TIME = 13,        /* a commit earlier than the last, a read, scan or crossings later than the last (0 in a new store), or crossings from a stamp to an earlier one */
    DESKROOK_BUSY = 14,        /* 8 transactions, or 5 scans, open */
    DESKROOK_NUMBER = 15,      /* 65,535 numbers given */
    DESKROOK_REACH = 16,       /* merge not above what the page holds, or above the records used */
    DESKROOK_OPEN = 17,        /* a record up to the one merged through belongs to an open transaction */
    DESKROOK_NO_PAGE = 18,     /* no free page */
    DESKROOK_LIST = 21,        /* fewer places lent than there are crossings */
    DESKROOK_KEEPER = 22,      /* on moving back to form 1, a row, a tail record or an open transaction has a keeper other than 0 */
    DESKROOK_NONE = 32         /* accepted, and the answer is none: the row is not there for this reader */
};

/* The value in a reply's `first`, where a call says that it is one. */
static inline int32_t deskrook_value(deskrook_reply reply) {
    return reply.first <= INT32_MAX ? (int32_t)reply.first : -1 - (int32_t)(UINT32_MAX - reply.first);
}

/* ---- a store's shape ---- */

/* The bytes that a shape needs in the newest form: columns 1 to 16, ranges 1 to 16 of 64 rows each, capacity 1 to 512 tail records for each range, spares 0 to 256
 * pages. Form 1 needs fewer. first: the bytes. Refusals: SHAPE. */
deskrook_reply deskrook_bytes_needed(uint32_t columns, uint32_t ranges, uint32_t capacity, uint32_t spares);

/* Makes an empty store of a shape in the newest form, whatever memory and list held before, and frees every entry of the list. Bytes past those needed stay as they are.
 * Refusals: SHAPE, MEMORY (too few bytes or entries). */
deskrook_reply deskrook_make(uint8_t *mem, size_t mem_length, deskrook_scan_entry *scans, size_t scans_length, uint32_t columns, uint32_t ranges, uint32_t capacity,
                             uint32_t spares);

/* Whether memory and list are usable, in whatever form some call works on; every call on a store asks it first, of the forms that it works on itself.
 * first: the stored form, 1 or 2, of which 2 is the newest. Refusals: MEMORY. */
deskrook_reply deskrook_check(const uint8_t *mem, size_t mem_length, const deskrook_scan_entry *scans, size_t scans_length);

/* ---- moves: from one stored form to the other ---- */

/* Moves a store in form 1 into a second memory, in the newest form, with keeper 0 throughout. The second memory is then the store, with the same list: open transactions
 * and scans go on there under their numbers, and waiting pages wait. The first memory and the list are read alone. The first keeps its bytes and is no store any more:
 * lend it to no further call as one. Of the second memory, whatever it held, as many bytes are written as the newest form needs; those past them stay as they are, and
 * where the call is refused all do. deskrook_bytes_needed tells how many are enough, for either move.
 * Refusals: MEMORY (also where the second memory is too short). */
deskrook_reply deskrook_upgrade(const uint8_t *mem, size_t mem_length, const deskrook_scan_entry *scans, size_t scans_length, uint8_t *second, size_t second_length);

/* Moves a store in the newest form back to form 1, into a second memory, as deskrook_upgrade moves it there. A store that was moved there and back, with no call between,
 * has the bytes that it had. Form 1 has no place for keepers, so they all have to be 0; the keeper of a transaction that has ended and left neither row nor tail record
 * does not count. Refusals: MEMORY (also where the second memory is shorter than form 1 needs), KEEPER. */
deskrook_reply deskrook_downgrade(const uint8_t *mem, size_t mem_length, const deskrook_scan_entry *scans, size_t scans_length, uint8_t *second, size_t second_length);

/* ---- transactions ---- */

/* Begins a transaction with keeper 0, unknown. first: its number. Refusals: MEMORY, NUMBER, BUSY. */
deskrook_reply deskrook_begin(uint8_t *mem, size_t mem_length, const deskrook_scan_entry *scans, size_t scans_length);

/* Begins a transaction with a keeper, in the newest form alone. first: its number. Refusals: MEMORY, NUMBER, BUSY. */
deskrook_reply deskrook_begin_as(uint8_t *mem, size_t mem_length, const deskrook_scan_entry *scans, size_t scans_length, uint16_t keeper);

/* Inserts a row, with a value for each column; where fewer are lent the rest are 0, and those past the columns are not looked at.
 * first: the row's number. Refusals: MEMORY, TRANSACTION, FULL. */
deskrook_reply deskrook_insert(uint8_t *mem, size_t mem_length, const deskrook_scan_entry *scans, size_t scans_length, uint32_t transaction, const int32_t *values,
                               size_t values_length);

/* Sets the columns of a row whose bits the mask has, bit k for column k; value k is column k's, lent as for an insert.
 * first: the number of the update's tail record. Refusals: MEMORY, TRANSACTION, ROW, MASK, HELD, GONE, TAIL. */
deskrook_reply deskrook_update(uint8_t *mem, size_t mem_length, const deskrook_scan_entry *scans, size_t scans_length, uint32_t transaction, uint32_t row,
                               uint16_t mask, const int32_t *values, size_t values_length);

/* Deletes a row. first: the number of the delete's tail record. Refusals: MEMORY, TRANSACTION, ROW, HELD, GONE, TAIL. */
deskrook_reply deskrook_delete(uint8_t *mem, size_t mem_length, const deskrook_scan_entry *scans, size_t scans_length, uint32_t transaction, uint32_t row);

/* Commits a transaction at a stamp, which must not be earlier than the last commit's; it may be the same. Refused, the transaction remains open.
 * Refusals: MEMORY, TRANSACTION, TIME. */
deskrook_reply deskrook_commit(uint8_t *mem, size_t mem_length, const deskrook_scan_entry *scans, size_t scans_length, uint32_t transaction, uint32_t stamp);

/* Gives up a transaction; nothing that it did is ever read. Refusals: MEMORY, TRANSACTION. */
deskrook_reply deskrook_abort(uint8_t *mem, size_t mem_length, const deskrook_scan_entry *scans, size_t scans_length, uint32_t transaction);

/* ---- reads: they change neither memory nor list ---- */

/* The value at the last commit. first: the value (deskrook_value); stamp: of the commit that set it; or NONE. Refusals: MEMORY, ROW, COLUMN. */
deskrook_reply deskrook_latest(const uint8_t *mem, size_t mem_length, const deskrook_scan_entry *scans, size_t scans_length, uint32_t row, uint32_t column);

/* The value at a stamp, which must not be later than the last commit's; of several commits at that stamp the newest counts. first: the value; stamp: of the commit
 * that set it; or NONE. Refusals: MEMORY, TIME, ROW, COLUMN. */
deskrook_reply deskrook_read_at(const uint8_t *mem, size_t mem_length, const deskrook_scan_entry *scans, size_t scans_length, uint32_t stamp, uint32_t row,
                                uint32_t column);

/* The keeper of the value that deskrook_read_at shows for the same numbers: of the update that set it, or of the insert where none has; in the newest form alone. first:
 * the keeper, below 65,536; or NONE, exactly where that read is none. Refusals, as that read's: MEMORY, TIME, ROW, COLUMN. */
deskrook_reply deskrook_keeper_at(const uint8_t *mem, size_t mem_length, const deskrook_scan_entry *scans, size_t scans_length, uint32_t stamp, uint32_t row,
                                  uint32_t column);

/* The value that a transaction sees: its own pending changes above the latest. first: the value; stamp: of the commit that set it, 0 for a pending value, as is every
 * value of a row that it inserted and has not committed; or NONE. Refusals: MEMORY, TRANSACTION, ROW, COLUMN. */
deskrook_reply deskrook_own_read(const uint8_t *mem, size_t mem_length, const deskrook_scan_entry *scans, size_t scans_length, uint32_t transaction, uint32_t row,
                                 uint32_t column);

/* Lists the crossings of a mark, oldest first: the stamps from `from` to `to`, both counted, of the commits that gave a row and column a value on the other side of
 * the mark from the value before it there. At or above the mark is one side, below it the other. The value before may be from before `from`; a first value is no
 * crossing. Of a transaction's own values the last counts; what is pending or aborted does not. A minute with two crossings stands twice. A row's end is no crossing, and
 * hides none. first: the count. So many places of `stamps` are written, from the first on; the others stay as they are, and where the call is refused all do.
 * Refusals: MEMORY, ROW, COLUMN, TIME (`from` after `to`, or `to` later than the last commit's), LIST (more crossings than places). */
deskrook_reply deskrook_crossings(const uint8_t *mem, size_t mem_length, const deskrook_scan_entry *scans, size_t scans_length, uint32_t *stamps, size_t stamps_length,
                                  uint32_t row, uint32_t column, int32_t mark, uint32_t from, uint32_t to);

/* ---- scans ---- */

/* Opens a scan at a stamp, which must not be later than the last commit's. It sees the commits made so far with that stamp or an earlier one, and none that comes
 * after, be it at the same stamp. It takes a free entry of the list. first: the scan's number.
 * Refusals: MEMORY, TIME, NUMBER, BUSY. */
deskrook_reply deskrook_open_scan(uint8_t *mem, size_t mem_length, deskrook_scan_entry *scans, size_t scans_length, uint32_t stamp);

/* The value that a scan sees, read in the pages that were current at its opening. first: the value; stamp: of the commit that set it; or NONE.
 * Refusals: MEMORY, SCAN, ROW, COLUMN. */
deskrook_reply deskrook_scan_read(const uint8_t *mem, size_t mem_length, const deskrook_scan_entry *scans, size_t scans_length, uint32_t scan, uint32_t row,
                                  uint32_t column);

/* The sum of one column over the rows that a scan sees. first: the count of these rows; sum: the sum. Refusals: MEMORY, SCAN, COLUMN. */
deskrook_reply deskrook_sum(const uint8_t *mem, size_t mem_length, const deskrook_scan_entry *scans, size_t scans_length, uint32_t scan, uint32_t column);

/* Closes a scan and frees its entry of the list. The memory does not change. Refusals: MEMORY, SCAN. */
deskrook_reply deskrook_close_scan(const uint8_t *mem, size_t mem_length, deskrook_scan_entry *scans, size_t scans_length, uint32_t scan);

/* ---- pages ---- */

/* Merges the committed settings among the tail records 1 to `through` of a range into a new page of one column; the old page waits.
 * Of the memory it changes that page, the words that say which page is current or waits, and the count of merges; it keeps no table of rows.
 * Refusals: MEMORY, RANGE, COLUMN, REACH, OPEN, NO_PAGE. */
deskrook_reply deskrook_merge(uint8_t *mem, size_t mem_length, const deskrook_scan_entry *scans, size_t scans_length, uint32_t range, uint32_t column,
                              uint32_t through);

/* Frees every waiting page but those that a scan still open may read. first: how many were freed. Refusals: MEMORY. */
deskrook_reply deskrook_release(uint8_t *mem, size_t mem_length, const deskrook_scan_entry *scans, size_t scans_length);

/* What the current page of a column holds for a row. first: the value. Refusals: MEMORY, COLUMN, ROW. */
deskrook_reply deskrook_page_cell(const uint8_t *mem, size_t mem_length, const deskrook_scan_entry *scans, size_t scans_length, uint32_t column, uint32_t row);

/* How far a range's column is merged. first: the tail record merged through, 0 before any merge; second: the range's tail records used.
 * Refusals: MEMORY, RANGE, COLUMN. */
deskrook_reply deskrook_lineage(const uint8_t *mem, size_t mem_length, const deskrook_scan_entry *scans, size_t scans_length, uint32_t range, uint32_t column);

#ifdef __cplusplus
}
#endif

#endif
