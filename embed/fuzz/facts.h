/* The layout of a store's memory and the stored facts of documents 01 and 02, read independently of the library: plain rather than quick. */
#ifndef FACTS_H
#define FACTS_H

#include "../c/deskrook.h"

/* The regions in their order in memory, each of little-endian 32-bit words. Form 1 has none of those from ROW_KEEPER on. */
enum region {
    HEADER,
    OPENS,
    ROW_TRANSACTION,
    ROW_STATE,
    ROW_STAMP,
    ROW_LINK,
    ROW_MASK,
    TAIL_TRANSACTION,
    TAIL_ROW,
    TAIL_KIND,
    TAIL_MASK,
    TAIL_LINK,
    TAIL_STATE,
    TAIL_STAMP,
    TAIL_VALUES,
    USED,
    CURRENT,
    PAGE_STATE,
    PAGE_CHUNK,
    PAGE_MADE,
    PAGE_REPLACED,
    PAGE_LINEAGE,
    PAGE_NEWEST,
    CELLS,
    CHANGES,
    ROW_ORDINAL,
    TAIL_ORDINAL,
    ROW_KEEPER,
    TAIL_KEEPER,
    OPEN_KEEPER,
    REGIONS
};

/* The words of the header. The first has the columns in its low half and the stored form less 1 in the high one, so that form 1 has the columns alone. */
enum { COLUMNS_AND_FORM, RANGES, CAPACITY, SPARES, ROWS_GIVEN, TRANSACTIONS_GIVEN, SCANS_GIVEN, LAST_STAMP, MERGES_MADE, COMMITS_MADE, HEADER_WORDS = 16 };

/* The stored forms (Items 6 and 7 of document 02). What stands in the high half of a word counts HALF times. */
enum { FIRST_FORM = 1, NEWEST_FORM = 2, HALF = 65536 };

/* Sets of forms, bit k for form k + 1: "a memory not in a form that the call works on fails a stored fact". */
enum { ON_FIRST = 1, ON_NEWEST = 2, ON_BOTH = ON_FIRST | ON_NEWEST };

struct layout {
    uint32_t form, columns, ranges, capacity, rows, slots, chunks, pages;
    uint32_t base[REGIONS + 1]; /* where each region begins, in words; the last is the end */
};

/* The layout of a shape in one of the two forms; 0 where a measure is outside its limits. */
int layout_of(struct layout *layout, uint32_t form, uint32_t columns, uint32_t ranges, uint32_t capacity, uint32_t spares);

/* The layout of the same shape in the other form. */
struct layout other_form(const struct layout *layout);

/* The bytes that a layout needs. */
size_t layout_need(const struct layout *layout);

/* Word i of some bytes. */
uint32_t word_at(const uint8_t *mem, size_t i);

/* The first stored fact that fails for a call that works on these forms, or null where memory and list are usable; then the layout is filled. */
const char *failing_fact(struct layout *layout, int forms, const uint8_t *mem, size_t mem_length, const deskrook_scan_entry *scans, size_t scans_length);

#endif
