/* Numbers to make cases of: from a seed, or from the bytes that a fuzzer gives. */
#ifndef NUMBERS_H
#define NUMBERS_H

#include <stdbool.h>
#include <stddef.h>
#include <stdint.h>

struct numbers {
    uint64_t state;
    const uint8_t *bytes;
    size_t left;
};

struct numbers numbers_of_seed(uint64_t seed, uint64_t number);
struct numbers numbers_of_bytes(const uint8_t *bytes, size_t length);

/* One byte, of any value. */
uint8_t any_byte(struct numbers *numbers);
/* Any 64-bit value. */
uint64_t any_number(struct numbers *numbers);
/* 0 to limit - 1; the limit is above 0. */
uint64_t below(struct numbers *numbers, uint64_t limit);
/* From low to high, both included. */
uint64_t between(struct numbers *numbers, uint64_t low, uint64_t high);
/* True once in that many times. */
bool one_in(struct numbers *numbers, unsigned times);
/* One of the given numbers. */
uint64_t one_of(struct numbers *numbers, const uint64_t *given, size_t count);

#define ONE_OF(numbers, ...) \
    one_of((numbers), (const uint64_t[]) { __VA_ARGS__ }, sizeof (const uint64_t[]) { __VA_ARGS__ } / sizeof(uint64_t))

#endif
