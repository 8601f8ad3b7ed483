#include "lists.h"

#include <stdio.h>

#include "call.h"

void list_start(struct lent_list *list)
{
    list->memory = guarded_buffer(TABLE_ROOM);
}

void list_lend(struct lent_list *list, size_t length, bool at_end, uint8_t seed)
{
    list->part = guarded_part(&list->memory, length * sizeof(uint32_t), at_end);
    list->seed = seed;
    guarded_set_pattern(&list->memory, list->part, seed);
}

uint32_t *list_numbers(const struct lent_list *list)
{
    return (uint32_t *)(void *)(list->memory.lent + list->part.start);
}

void list_is(const struct lent_list *list, const uint32_t *wanted, size_t count)
{
    size_t length = count * sizeof *wanted;
    same_bytes(list->name, &list->memory, list->part, (struct paper_bytes) { (const uint8_t *)wanted, length });
    if (!guarded_has_pattern_from(&list->memory, list->part, length, list->seed)) {
        printf("  the list of %s\n", list->name);
        same("its rest stays", 0, 1);
    }
}
