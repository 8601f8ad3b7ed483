/* Memory that is lent to the archive, between pages that cannot be touched. Tables are lent read only. A buffer stands with
 * its end at the page after it, or with its start at the page before it, so that one byte too far stops the program. The
 * bytes on its open side are looked at after the call. */
#ifndef GUARDED_H
#define GUARDED_H

#include <stdbool.h>
#include <stddef.h>
#include <stdint.h>

struct guarded {
    uint8_t *lent, *writable;
    size_t room;
};

/* A part of it: where it starts in the room, and its length. */
struct part {
    size_t start, length;
};

enum { CANARY = 64 };

/* For a table: lent read only; the program writes through the other view. */
struct guarded guarded_table(size_t room);
/* For a buffer that the archive writes: both views are one. */
struct guarded guarded_buffer(size_t room);

/* The part of that length at the end of the room or at its start. */
struct part guarded_part(const struct guarded *memory, size_t length, bool at_end);
void guarded_fill(const struct guarded *memory, struct part part, const uint8_t *bytes);

/* Fills the part and the canary bytes on its open side with a pattern from the seed. */
void guarded_set_pattern(const struct guarded *memory, struct part part, uint8_t seed);
/* Whether the canary bytes, and the part from an offset on, still have that pattern. */
bool guarded_has_pattern_from(const struct guarded *memory, struct part part, size_t offset, uint8_t seed);

#endif
