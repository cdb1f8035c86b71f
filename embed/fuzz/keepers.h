/* Who set what, by Items 6 and 7 of document 02: a plain record of the transactions begun with their keepers, and the transaction that a value is by, read from a store's words
 * independently of the library and of the words in which it keeps keepers. */
#ifndef KEEPERS_H
#define KEEPERS_H

#include "facts.h"

/* Notes that a transaction was begun with a keeper; its number is at most 65,535. A number given again, in another store, is the new one's. */
void note_keeper(uint32_t transaction, uint16_t keeper);

/* The keeper of the value that a read at a stamp shows, where it shows one. The store is one that calls alone have made and written, with this layout, and each begin was noted;
 * row and column are in it. */
uint16_t keeper_of_value(const struct layout *layout, const uint8_t *mem, uint32_t stamp, uint32_t row, uint32_t column);

/* Whether "a row, a tail record or an open transaction bears a keeper other than 0", by the transaction that it is of. The store is one as above. */
int any_keeper(const struct layout *layout, const uint8_t *mem);

#endif
