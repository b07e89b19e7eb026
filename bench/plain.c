/* The plain yardstick of by_bits: shift-and with every check of document 01 in one walk, letter by letter, as a careful C programmer first
   writes it. Marks are kept aside until the whole stretch is accepted. The yardsticks of walk.h are what becomes of it by tuning. */
#include "checks.h"
#include "yardsticks.h"

/* Refusals 1 to 3; where there is none, the letter vectors: bit k of masks[c] is set where base k of the pattern is what c means. */
static uint64_t set_masks(const uint8_t *pattern, size_t m, uint64_t masks[256])
{
    if (m == 0 || m > 64) {
        return refused(m == 0 ? 1 : 2, 0);
    }
    memset(masks, 0, 256 * sizeof *masks);
    for (size_t k = 0; k < m; k++) {
        if (!base[pattern[k]]) {
            return refused(3, k);
        }
        masks[pattern[k]] |= (uint64_t)1 << k;
        masks[lower(pattern[k])] = masks[pattern[k]];
    }
    return 0;
}

/* Takes a state through some letters, gathers what ended, and tells whether all of them are right. */
static inline int take(const uint64_t masks[256], const uint8_t *letters, size_t n, uint64_t *state, uint64_t *ended)
{
    unsigned good = 1;
    for (size_t k = 0; k < n; k++) {
        uint64_t met = *state & masks[letters[k]];
        good &= right[letters[k]];
        *ended |= met;
        *state = met << 1 | 1;
    }
    return good;
}

/* Whether the variant of n letters at this place stands earlier in its segment, whose first one stands at first. */
static inline int repeated(const uint8_t *stretch, size_t first, size_t at, size_t n)
{
    for (size_t earlier = first; earlier < at; earlier += 2 + word(stretch + earlier)) {
        if (word(stretch + earlier) == n && alike(stretch + earlier + 2, stretch + at + 2, n)) {
            return 1;
        }
    }
    return 0;
}

uint64_t plain(const uint8_t *pattern, size_t m, const uint8_t *stretch, size_t len, uint8_t *marks, size_t marks_len,
               uint8_t *block, size_t block_len)
{
    uint64_t masks[256], refusal = set_masks(pattern, m, masks);
    uint8_t kept[10922];
    if (refusal != 0) {
        return refusal;
    }
    if (len > 32768 || len < 2) {
        return refused(len < 2 ? 5 : 4, 0);
    }

    const uint64_t last = (uint64_t)1 << (m - 1), low = last | (last - 1);
    size_t segments = word(stretch), at = 2, size = 0, ends = 0;
    uint64_t state = 1;
    for (size_t j = 0; j < segments; j++) {
        if (at >= len) {
            return refused(5, at);
        }
        size_t variants = stretch[at];
        if (variants == 0) {
            return refused(6, at);
        }
        size_t first = ++at;
        uint64_t next = 0, ended = 0;
        for (; variants > 0; variants--) {
            size_t n;
            if (len - at < 2 || len - at - 2 < (n = word(stretch + at))) {
                return refused(5, at);
            }
            uint64_t behind = state;
            if (!take(masks, stretch + at + 2, n, &behind, &ended)) {
                return refused(7, at + 2 + first_wrong(stretch + at + 2));
            }
            if (repeated(stretch, first, at, n)) {
                return refused(8, at);
            }
            next |= behind;
            size += counted(n);
            at += 2 + n;
        }
        kept[j] = (ended & last) != 0;
        ends += kept[j];
        state = next & low;
    }
    if (at < len) {
        return refused(9, at);
    }
    if (marks_len < segments || block_len < 24) {
        return refused(10, 0);
    }
    memcpy(marks, kept, segments);
    put_result(block, 0, segments);
    put_result(block, 1, size);
    put_result(block, 2, ends);
    return 0;
}
