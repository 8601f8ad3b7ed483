#include "numbers.h"

/* The generator splitmix64. */
static uint64_t next(uint64_t *state)
{
    uint64_t z = *state += 0x9e3779b97f4a7c15;
    z = (z ^ z >> 30) * 0xbf58476d1ce4e5b9;
    z = (z ^ z >> 27) * 0x94d049bb133111eb;
    return z ^ z >> 31;
}

/* Each case has its own numbers, so that it can be repeated alone. */
struct numbers numbers_of_seed(uint64_t seed, uint64_t number)
{
    uint64_t mixed = next(&seed) ^ number;
    return (struct numbers) { .state = next(&mixed) };
}

struct numbers numbers_of_bytes(const uint8_t *bytes, size_t length)
{
    return (struct numbers) { .bytes = bytes, .left = length };
}

/* After the last byte of a fuzzer's input come zeros. */
static uint64_t from_bytes(struct numbers *numbers, unsigned width)
{
    uint64_t number = 0;
    for (unsigned i = 0; i < width && numbers->left > 0; i++) {
        number |= (uint64_t)*numbers->bytes++ << (8 * i);
        numbers->left--;
    }
    return number;
}

/* A number of that many bytes. */
static uint64_t draw(struct numbers *numbers, unsigned width)
{
    if (numbers->bytes)
        return from_bytes(numbers, width);
    return next(&numbers->state) >> (64 - 8 * width);
}

uint8_t any_byte(struct numbers *numbers)
{
    return (uint8_t)draw(numbers, 1);
}

uint64_t any_number(struct numbers *numbers)
{
    return draw(numbers, 8);
}

uint64_t below(struct numbers *numbers, uint64_t limit)
{
    if (!numbers->bytes)
        return draw(numbers, 8) % limit;
    return draw(numbers, limit <= 256 ? 1 : limit <= 65536 ? 2 : limit <= UINT32_MAX ? 4 : 8) % limit;
}

uint64_t between(struct numbers *numbers, uint64_t low, uint64_t high)
{
    return low + below(numbers, high - low + 1);
}

bool one_in(struct numbers *numbers, unsigned times)
{
    return below(numbers, times) == 0;
}

uint64_t one_of(struct numbers *numbers, const uint64_t *given, size_t count)
{
    return given[below(numbers, count)];
}
