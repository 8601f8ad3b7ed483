/* Lists of 32-bit numbers that are lent to the archive. */
#ifndef LISTS_H
#define LISTS_H

#include "guarded.h"

/* One of the lists: its memory, and the part of it that this call is lent, with a pattern from the seed before it. */
struct lent_list {
    const char *name;
    struct guarded memory;
    struct part part;
    uint8_t seed;
};

/* Maps its memory. */
void list_start(struct lent_list *list);
/* Lends that many numbers, at either end of the memory. */
void list_lend(struct lent_list *list, size_t length, bool at_end, uint8_t seed);
uint32_t *list_numbers(const struct lent_list *list);
/* Says it when the list does not begin with that many right numbers, or when something past them or beside the list has changed. */
void list_is(const struct lent_list *list, const uint32_t *wanted, size_t count);

#endif
