/* The newest commit by its ordinal, among the insert and the settings. No link is followed, and originals are passed over: the inserted value is the inserter's. */
#include "keepers.h"

enum { ROWS = 64, COMMITTED = 1, ORIGINAL = 0, SETTING = 1 };

static uint16_t keepers[65536]; /* by transaction */

void note_keeper(uint32_t transaction, uint16_t keeper) {
    keepers[transaction] = keeper;
}

uint16_t keeper_of_value(const struct layout *layout, const uint8_t *mem, uint32_t stamp, uint32_t row, uint32_t column) {
    const uint32_t *base = layout->base;
    /* The row is seen by the reader, so that its insert is committed by the stamp. */
    uint32_t setter = word_at(mem, base[ROW_TRANSACTION] + row), newest = word_at(mem, base[ROW_ORDINAL] + row);
    uint32_t range = row / ROWS;
    size_t first = (size_t)range * layout->capacity, used = word_at(mem, base[USED] + range);
    for (size_t slot = first; slot < first + used; slot++) {
        int sets = word_at(mem, base[TAIL_ROW] + slot) == row && word_at(mem, base[TAIL_KIND] + slot) == SETTING && (word_at(mem, base[TAIL_MASK] + slot) >> column & 1) != 0;
        int seen = word_at(mem, base[TAIL_STATE] + slot) == COMMITTED && word_at(mem, base[TAIL_STAMP] + slot) <= stamp;
        uint32_t ordinal = word_at(mem, base[TAIL_ORDINAL] + slot);
        if (sets && seen && ordinal >= newest) {
            newest = ordinal;
            setter = word_at(mem, base[TAIL_TRANSACTION] + slot);
        }
    }
    return keepers[setter];
}

int any_keeper(const struct layout *layout, const uint8_t *mem) {
    const uint32_t *base = layout->base;
    for (uint32_t row = 0; row < word_at(mem, ROWS_GIVEN); row++)
        if (keepers[word_at(mem, base[ROW_TRANSACTION] + row)] != 0)
            return 1;
    /* An original carries the inserter's, and its row has been looked at. */
    for (uint32_t range = 0; range < layout->ranges; range++)
        for (uint32_t slot = range * layout->capacity; slot < range * layout->capacity + word_at(mem, base[USED] + range); slot++)
            if (word_at(mem, base[TAIL_KIND] + slot) != ORIGINAL && keepers[word_at(mem, base[TAIL_TRANSACTION] + slot)] != 0)
                return 1;
    for (uint32_t at = base[OPENS]; at < base[OPENS + 1]; at++)
        if (word_at(mem, at) != 0 && keepers[word_at(mem, at)] != 0)
            return 1;
    return 0;
}
