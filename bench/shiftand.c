/* The yardsticks of by_bits: the search by bit-vectors with every check of document 01, each in another way (walk.h); and the same search
   without a check, which trusts the bytes. */
#include "walk.h"
#include "yardsticks.h"

YARDSTICK(search_early, EARLY, PRINTS, 1)
YARDSTICK(search_memcmp, GATHERED, MEMCMP, 1)
YARDSTICK(search_prints, GATHERED, PRINTS, 1)

uint64_t trusting(const uint8_t *pattern, size_t m, const uint8_t *stretch, size_t len, uint8_t *marks, size_t marks_len,
                  uint8_t *block, size_t block_len)
{
    (void)len, (void)marks_len, (void)block_len;
    uint64_t masks[256];
    set_masks(pattern, m, masks);
    const uint64_t last = (uint64_t)1 << (m - 1), low = last | (last - 1);
    uint64_t segments = word(stretch), size = 0, ends = 0, state = 1;
    const uint8_t *at = stretch + 2;
    for (size_t j = 0; j < segments; j++) {
        uint64_t next = ~(uint64_t)0, missed = ~(uint64_t)0;
        for (size_t variants = *at++; variants > 0; variants--) {
            size_t n = word(at);
            uint64_t out = ~state >> 1;
            at += 2;
#pragma GCC unroll 4
            for (const uint8_t *end = at + n; at < end; at++) {
                out = out << 1 | masks[*at];
                missed &= out;
            }
            next &= out;
            size += counted(n);
        }
        marks[j] = (missed & last) == 0;
        ends += marks[j];
        state = (~next << 1 | 1) & low;
    }
    put_result(block, 0, segments);
    put_result(block, 1, size);
    put_result(block, 2, ends);
    return 0;
}
