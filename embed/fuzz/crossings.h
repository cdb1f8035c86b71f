/* The crossings of a mark, by Item 4 of document 02, read from a store's words independently of the library: plain rather than quick. */
#ifndef CROSSINGS_H
#define CROSSINGS_H

#include "facts.h"

/* Lists them, oldest first, in `stamps`, which has as many places as the range has tail records, and answers their count. The store is one that calls alone have made and
 * written, with this layout; row and column are in it. */
size_t crossings_of(const struct layout *layout, const uint8_t *mem, uint32_t row, uint32_t column, int32_t mark, uint32_t from, uint32_t to, uint32_t *stamps);

#endif
