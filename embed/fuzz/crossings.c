/* Goes from commit to commit by their ordinals. No link is followed, and the order of a row's records counts within one commit alone. */
#include "crossings.h"

enum { ROWS = 64, COMMITTED = 1, ORIGINAL = 0, SETTING = 1 };

/* A row and column of a store. */
struct cell {
    const struct layout *layout;
    const uint8_t *mem;
    uint32_t row, column;
};

static uint32_t get(const struct cell *cell, enum region region, size_t i) {
    return word_at(cell->mem, cell->layout->base[region] + i);
}

static int32_t value_of(uint32_t word) {
    return deskrook_value((deskrook_reply){.first = word});
}

/* Where the row's range has its first record. */
static size_t first_slot(const struct cell *cell) {
    return (size_t)(cell->row / ROWS) * cell->layout->capacity;
}

/* Whether the record at a slot is of this row, of a kind and with this column. */
static int is(const struct cell *cell, size_t slot, uint32_t kind) {
    return get(cell, TAIL_ROW, slot) == cell->row && get(cell, TAIL_KIND, slot) == kind && (get(cell, TAIL_MASK, slot) >> cell->column & 1) != 0;
}

static int32_t value_at(const struct cell *cell, size_t slot) {
    return value_of(get(cell, TAIL_VALUES, slot * cell->layout->columns + cell->column));
}

/* What was inserted: the original that the first update of the column wrote down, whatever became of that update; with no update it is still in the page. */
static int32_t inserted(const struct cell *cell) {
    size_t first = first_slot(cell), used = get(cell, USED, cell->row / ROWS);
    for (size_t slot = first; slot < first + used; slot++)
        if (is(cell, slot, ORIGINAL))
            return value_at(cell, slot);
    size_t page = get(cell, CURRENT, (size_t)(cell->row / ROWS) * cell->layout->columns + cell->column);
    return value_of(get(cell, CELLS, page * ROWS + cell->row % ROWS));
}

/* Whether the commit of an ordinal gave the cell a value, which is then the last one that it set, and at what stamp. */
static int given_by(const struct cell *cell, uint32_t ordinal, int32_t *value, uint32_t *stamp) {
    int given = get(cell, ROW_STATE, cell->row) == COMMITTED && get(cell, ROW_ORDINAL, cell->row) == ordinal;
    if (given) {
        *value = inserted(cell);
        *stamp = get(cell, ROW_STAMP, cell->row);
    }
    size_t first = first_slot(cell), used = get(cell, USED, cell->row / ROWS);
    for (size_t slot = first; slot < first + used; slot++)
        if (is(cell, slot, SETTING) && get(cell, TAIL_STATE, slot) == COMMITTED && get(cell, TAIL_ORDINAL, slot) == ordinal) {
            given = 1;
            *value = value_at(cell, slot);
            *stamp = get(cell, TAIL_STAMP, slot);
        }
    return given;
}

size_t crossings_of(const struct layout *layout, const uint8_t *mem, uint32_t row, uint32_t column, int32_t mark, uint32_t from, uint32_t to, uint32_t *stamps) {
    const struct cell cell = {layout, mem, row, column};
    size_t count = 0;
    int any = 0, above = 0; /* whether there was a value, and whether the last one was at or above the mark */
    for (uint32_t ordinal = 1; ordinal <= word_at(mem, COMMITS_MADE); ordinal++) {
        int32_t value;
        uint32_t stamp;
        if (!given_by(&cell, ordinal, &value, &stamp))
            continue;
        if (any && (value >= mark) != above && from <= stamp && stamp <= to)
            stamps[count++] = stamp;
        any = 1;
        above = value >= mark;
    }
    return count;
}
