/* Written from document 01's paragraph "The stored facts are these", Items 2, 3, 6 and 7 of document 02 and the layout (docs/DECISIONS.md, part 4) alone. */
#include "facts.h"

enum { ROWS = 64, OPEN_PLACES = 8, NUMBERS = 65535, PAGE_FREE = 0, PAGE_CURRENT = 1 };

uint32_t word_at(const uint8_t *mem, size_t i) {
    const uint8_t *b = mem + 4 * i;
    return b[0] | (uint32_t)b[1] << 8 | (uint32_t)b[2] << 16 | (uint32_t)b[3] << 24;
}

int layout_of(struct layout *layout, uint32_t form, uint32_t columns, uint32_t ranges, uint32_t capacity, uint32_t spares) {
    if (columns < 1 || columns > 16 || ranges < 1 || ranges > 16 || capacity < 1 || capacity > 512 || spares > 256)
        return 0;
    uint32_t rows = ranges * ROWS, slots = ranges * capacity, chunks = columns * ranges, pages = chunks + spares, kept = form == FIRST_FORM ? 0 : 1;
    const uint32_t lengths[REGIONS] = {
        [HEADER] = HEADER_WORDS, [OPENS] = OPEN_PLACES, [CHANGES] = OPEN_PLACES,
        [ROW_TRANSACTION] = rows, [ROW_STATE] = rows, [ROW_STAMP] = rows, [ROW_LINK] = rows, [ROW_MASK] = rows,
        [TAIL_TRANSACTION] = slots, [TAIL_ROW] = slots, [TAIL_KIND] = slots, [TAIL_MASK] = slots, [TAIL_LINK] = slots, [TAIL_STATE] = slots,
        [TAIL_STAMP] = slots, [TAIL_VALUES] = slots * columns,
        [USED] = ranges, [CURRENT] = chunks,
        [PAGE_STATE] = pages, [PAGE_CHUNK] = pages, [PAGE_MADE] = pages, [PAGE_REPLACED] = pages, [PAGE_LINEAGE] = pages, [PAGE_NEWEST] = pages,
        [CELLS] = pages * ROWS,
        [ROW_ORDINAL] = rows, [TAIL_ORDINAL] = slots,
        [ROW_KEEPER] = kept * rows, [TAIL_KEEPER] = kept * slots, [OPEN_KEEPER] = kept * OPEN_PLACES,
    };
    *layout = (struct layout){form, columns, ranges, capacity, rows, slots, chunks, pages, {0}};
    for (int i = 0; i < REGIONS; i++)
        layout->base[i + 1] = layout->base[i] + lengths[i];
    return 1;
}

struct layout other_form(const struct layout *l) {
    struct layout other;
    layout_of(&other, l->form == FIRST_FORM ? NEWEST_FORM : FIRST_FORM, l->columns, l->ranges, l->capacity, l->pages - l->chunks);
    return other;
}

size_t layout_need(const struct layout *layout) {
    return (size_t)layout->base[REGIONS] * 4;
}

/* Word i of a region. */
static uint32_t get(const struct layout *l, const uint8_t *mem, enum region region, size_t i) {
    return word_at(mem, l->base[region] + i);
}

/* "a link of a row or tail record is 0 or a used record of the same row, and of a tail record a lower one": up to record `most`. */
static int link_fails(const struct layout *l, const uint8_t *mem, uint32_t range, uint32_t row, uint32_t link, uint32_t most) {
    return link != 0 && (link > most || get(l, mem, TAIL_ROW, range * l->capacity + link - 1) != row);
}

static const char *failing_record(const struct layout *l, const uint8_t *mem, uint32_t range, uint32_t number) {
    uint32_t slot = range * l->capacity + number - 1, row = get(l, mem, TAIL_ROW, slot), transaction = get(l, mem, TAIL_TRANSACTION, slot);
    if (row >= word_at(mem, ROWS_GIVEN) || row / ROWS != range)
        return "a used record names a given row of its range";
    if (transaction < 1 || transaction > word_at(mem, TRANSACTIONS_GIVEN))
        return "a record's transaction is among those given";
    if (link_fails(l, mem, range, row, get(l, mem, TAIL_LINK, slot), number - 1))
        return "a record's link is 0 or a lower record of its row";
    if (get(l, mem, TAIL_STAMP, slot) > word_at(mem, LAST_STAMP))
        return "a record's stamp is not after the last commit's";
    return NULL;
}

static const char *failing_row(const struct layout *l, const uint8_t *mem, uint32_t row) {
    uint32_t range = row / ROWS, transaction = get(l, mem, ROW_TRANSACTION, row);
    if (transaction < 1 || transaction > word_at(mem, TRANSACTIONS_GIVEN))
        return "a row's transaction is among those given";
    if (link_fails(l, mem, range, row, get(l, mem, ROW_LINK, row), get(l, mem, USED, range)))
        return "a row's link is 0 or a used record of the row";
    if (get(l, mem, ROW_STAMP, row) > word_at(mem, LAST_STAMP))
        return "a row's stamp is not after the last commit's";
    return NULL;
}

/* A current page, which a chunk names, or a waiting one. */
static const char *failing_page(const struct layout *l, const uint8_t *mem, uint32_t page) {
    uint32_t range = get(l, mem, PAGE_CHUNK, page) % l->chunks / l->columns;
    if (get(l, mem, PAGE_NEWEST, page) > word_at(mem, LAST_STAMP))
        return "a page's newest stamp is not after the last commit's";
    if (get(l, mem, PAGE_LINEAGE, page) > get(l, mem, USED, range))
        return "a page's lineage is not above the records used";
    return NULL;
}

static const char *failing_waiting(const struct layout *l, const uint8_t *mem, uint32_t page) {
    uint32_t state = get(l, mem, PAGE_STATE, page);
    if (state == PAGE_FREE || state == PAGE_CURRENT)
        return NULL;
    if (get(l, mem, PAGE_REPLACED, page) > word_at(mem, MERGES_MADE))
        return "a waiting page's merge is among those made";
    return failing_page(l, mem, page);
}

static const char *failing_scan(const uint8_t *mem, const deskrook_scan_entry *scans, size_t at) {
    deskrook_scan_entry scan = scans[at];
    if (scan.number > word_at(mem, SCANS_GIVEN))
        return "open scans are among those given";
    if (scan.stamp > word_at(mem, LAST_STAMP))
        return "an open scan's stamp is not after the last commit's";
    if (scan.merges > word_at(mem, MERGES_MADE))
        return "an open scan's merges are among those made";
    if (scan.commits > word_at(mem, COMMITS_MADE))
        return "an open scan's commits are among those made";
    for (size_t other = 0; other < at; other++)
        if (scans[other].number == scan.number)
            return "open scans differ";
    return NULL;
}

static const char *failing_scans(const uint8_t *mem, const deskrook_scan_entry *scans, size_t scans_length) {
    size_t open = 0;
    for (size_t at = 0; at < scans_length; at++) {
        if (scans[at].number == 0)
            continue;
        const char *fact = failing_scan(mem, scans, at);
        if (fact != NULL)
            return fact;
        open++;
    }
    return open > DESKROOK_SCANS ? "at most 5 scans are open" : NULL;
}

static const char *failing_opens(const struct layout *l, const uint8_t *mem) {
    for (size_t i = 0; i < OPEN_PLACES; i++) {
        uint32_t number = get(l, mem, OPENS, i);
        if (number > word_at(mem, TRANSACTIONS_GIVEN))
            return "open transactions are among those given";
        for (size_t other = 0; number != 0 && other < i; other++)
            if (get(l, mem, OPENS, other) == number)
                return "open transactions differ";
    }
    return NULL;
}

/* The counts, without which there is no telling which rows and records are used. */
static const char *failing_count(const struct layout *l, const uint8_t *mem) {
    if (word_at(mem, ROWS_GIVEN) > l->rows)
        return "rows given are no more than the rows";
    if (word_at(mem, TRANSACTIONS_GIVEN) > NUMBERS)
        return "transaction numbers given are at most 65,535";
    if (word_at(mem, SCANS_GIVEN) > NUMBERS)
        return "scan numbers given are at most 65,535";
    for (uint32_t range = 0; range < l->ranges; range++)
        if (get(l, mem, USED, range) > l->capacity)
            return "records used are no more than the capacity";
    return NULL;
}

static const char *failing_word(const struct layout *l, const uint8_t *mem) {
    const char *fact = failing_count(l, mem);
    if (fact == NULL)
        fact = failing_opens(l, mem);
    for (uint32_t range = 0; fact == NULL && range < l->ranges; range++)
        for (uint32_t number = 1; fact == NULL && number <= get(l, mem, USED, range); number++)
            fact = failing_record(l, mem, range, number);
    for (uint32_t row = 0; fact == NULL && row < word_at(mem, ROWS_GIVEN); row++)
        fact = failing_row(l, mem, row);
    for (uint32_t page = 0; fact == NULL && page < l->pages; page++)
        fact = failing_waiting(l, mem, page);
    /* Each chunk's page is in the pool, is marked current and names its chunk, so no other chunk has it. */
    for (uint32_t chunk = 0; fact == NULL && chunk < l->chunks; chunk++) {
        uint32_t page = get(l, mem, CURRENT, chunk);
        if (page >= l->pages || get(l, mem, PAGE_STATE, page) != PAGE_CURRENT || get(l, mem, PAGE_CHUNK, page) != chunk)
            fact = "a current page is in the pool, marked and of its chunk";
        else
            fact = failing_page(l, mem, page);
    }
    return fact;
}

const char *failing_fact(struct layout *l, int forms, const uint8_t *mem, size_t mem_length, const deskrook_scan_entry *scans, size_t scans_length) {
    if (scans_length < DESKROOK_SCANS)
        return "the scan list has at least 5 entries";
    if (mem_length < HEADER_WORDS * 4)
        return "the memory is as long as the header";
    uint32_t form = word_at(mem, COLUMNS_AND_FORM) / HALF + 1;
    if (form > NEWEST_FORM || (forms >> (form - 1) & 1) == 0)
        return "the memory is in a form that the call works on";
    if (!layout_of(l, form, word_at(mem, COLUMNS_AND_FORM) % HALF, word_at(mem, RANGES), word_at(mem, CAPACITY), word_at(mem, SPARES)))
        return "the measures lie within their limits";
    if (mem_length < layout_need(l))
        return "the memory is as long as the shape needs";
    const char *fact = failing_word(l, mem);
    return fact != NULL ? fact : failing_scans(mem, scans, scans_length);
}
