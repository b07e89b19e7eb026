/* What the yardsticks that check share: refusals, letters by what they mean, sizes, and results. */
#ifndef CHECKS_H
#define CHECKS_H

#include <stddef.h>
#include <stdint.h>
#include <string.h>

static inline uint64_t refused(uint64_t number, size_t place) { return number + 256 * (uint64_t)place; }

/* 1 for a base of a pattern, and for a letter of a text; 0 for every other byte. */
static const uint8_t base[256] = {['A'] = 1, ['C'] = 1, ['G'] = 1, ['T'] = 1};
static const uint8_t right[256] = {['A'] = 1, ['C'] = 1, ['G'] = 1, ['T'] = 1, ['N'] = 1,
                                   ['a'] = 1, ['c'] = 1, ['g'] = 1, ['t'] = 1, ['n'] = 1};

/* The first wrong letter of some that have one. */
static inline size_t first_wrong(const uint8_t *letters)
{
    size_t k = 0;
    while (right[letters[k]]) {
        k++;
    }
    return k;
}

/* A base or a letter in lower case; letters mean the same if they differ in this bit alone. */
static inline uint8_t lower(uint8_t letter) { return letter | 0x20; }
static const uint64_t MEANING = 0xDFDFDFDFDFDFDFDF;

static inline uint64_t eight(const uint8_t *letters)
{
    uint64_t word;
    memcpy(&word, letters, 8);
    return word;
}

/* Whether letters mean the same, from the first on: eight at a time, then one by one. */
static inline int alike(const uint8_t *a, const uint8_t *b, size_t n)
{
    for (; n >= 8; a += 8, b += 8, n -= 8) {
        if (((eight(a) ^ eight(b)) & MEANING) != 0) {
            return 0;
        }
    }
    for (; n > 0; a++, b++, n--) {
        if (lower(*a) != lower(*b)) {
            return 0;
        }
    }
    return 1;
}

/* The same from the last on; the first eight are one word, which may overlap the one before it. */
static inline int alike_from_last(const uint8_t *a, const uint8_t *b, size_t n)
{
    if (n < 8) {
        while (n > 0 && lower(a[n - 1]) == lower(b[n - 1])) {
            n--;
        }
        return n == 0;
    }
    for (; n > 8; n -= 8) {
        if (((eight(a + n - 8) ^ eight(b + n - 8)) & MEANING) != 0) {
            return 0;
        }
    }
    return ((eight(a) ^ eight(b)) & MEANING) == 0;
}

/* What a variant counts in the size. */
static inline size_t counted(size_t n) { return n == 0 ? 1 : n; }

static inline size_t word(const uint8_t *bytes) { return bytes[0] + 256u * bytes[1]; }

static inline void put_result(uint8_t *block, size_t i, uint64_t value)
{
    for (size_t k = 0; k < 8; k++) {
        block[8 * i + k] = (uint8_t)(value >> 8 * k);
    }
}

#endif
