/* The walk of the yardsticks that check: every check that document 01 has for a search in one pass, or those of a stretch alone and no
   search, as a careful C programmer would write it, in each way that C has. The way is a constant where the walk is called, so that
   each yardstick is compiled by itself. */
#ifndef WALK_H
#define WALK_H

#include "checks.h"

#include <emmintrin.h>

#define EACH_BY_ITSELF static inline __attribute__((always_inline))

/* How wrong letters are found: gathered over a variant, or left at the first one. */
enum test { GATHERED, EARLY };

/* How a variant is looked for among those of its segment before it: by memcmp, which decides where no letter of the segment is in lower
   case; or only where one before has its fingerprint, and from the last letter on. */
enum look { MEMCMP, PRINTS };

struct way {
    enum test test;
    enum look look;
    int searches;
};

/* Refusals 1 to 3; where there is none, the letter vectors: bit k of masks[c] is clear where base k of the pattern is what c means. */
static inline uint64_t set_masks(const uint8_t *pattern, size_t m, uint64_t masks[256])
{
    if (m == 0 || m > 64) {
        return refused(m == 0 ? 1 : 2, 0);
    }
    memset(masks, 0xFF, 256 * sizeof *masks);
    for (size_t k = 0; k < m; k++) {
        if (!base[pattern[k]]) {
            return refused(3, k);
        }
        masks[pattern[k]] &= ~((uint64_t)1 << k);
        masks[lower(pattern[k])] = masks[pattern[k]];
    }
    return 0;
}

/* Takes a search through some letters, and tells whether all of them are right. Bit k of out is clear where the first k + 1 bases end
   at the letter before, of missed where they ended at some letter. */
EACH_BY_ITSELF int take(enum test test, const uint64_t masks[256], const uint8_t *letters, size_t n, uint64_t *out, uint64_t *missed)
{
    uint64_t o = *out, all = *missed;
    uint8_t good = 1;
#pragma GCC unroll 4
    for (size_t k = 0; k < n; k++) {
        if (test == EARLY && !right[letters[k]]) {
            return 0;
        }
        if (test == GATHERED) {
            good &= right[letters[k]];
        }
        o = o << 1 | masks[letters[k]];
        all &= o;
    }
    *out = o;
    *missed = all;
    return good;
}

/* All ones in each of 16 bytes that is this letter, and that is a letter. */
static inline __m128i is(__m128i bytes, char letter) { return _mm_cmpeq_epi8(bytes, _mm_set1_epi8(letter)); }

static inline __m128i right_of_16(const uint8_t *letters)
{
    __m128i c = _mm_or_si128(_mm_loadu_si128((const __m128i *)letters), _mm_set1_epi8(0x20));
    return _mm_or_si128(_mm_or_si128(is(c, 'a'), is(c, 'c')), _mm_or_si128(_mm_or_si128(is(c, 'g'), is(c, 't')), is(c, 'n')));
}

/* The same test alone; of 16 letters and more 16 at a time, the last of which may overlap those before. */
EACH_BY_ITSELF int spelt(enum test test, const uint8_t *letters, size_t n)
{
    uint8_t good = 1;
    if (test == GATHERED && n >= 16) {
        __m128i all = right_of_16(letters + n - 16);
        for (size_t k = 0; k + 16 < n; k += 16) {
            all = _mm_and_si128(all, right_of_16(letters + k));
        }
        return _mm_movemask_epi8(all) == 0xFFFF;
    }
#pragma GCC unroll 4
    for (size_t k = 0; k < n; k++) {
        if (test == EARLY && !right[letters[k]]) {
            return 0;
        }
        good &= right[letters[k]];
    }
    return good;
}

/* What is known of a segment's variants so far: where the first one's length stands, their fingerprints, and all bits of their letters. */
struct before {
    const uint8_t *first;
    uint64_t prints;
    uint8_t bits;
};

/* Whether the variant of n letters at this place stands earlier in its segment. */
static int stands(enum look look, const struct before *before, const uint8_t *at, size_t n)
{
    for (const uint8_t *earlier = before->first; earlier < at; earlier += 2 + word(earlier)) {
        if (word(earlier) != n) {
            continue;
        }
        if (look == PRINTS ? alike_from_last(earlier + 2, at + 2, n)
                           : memcmp(earlier + 2, at + 2, n) == 0 || ((before->bits & 0x20) != 0 && alike(earlier + 2, at + 2, n))) {
            return 1;
        }
    }
    return 0;
}

/* The same, where it can be told without looking back. The fingerprint is the same in both cases; of the empty variant the length's high
   byte serves as last letter. */
EACH_BY_ITSELF int repeated(enum look look, struct before *before, const uint8_t *at, size_t n)
{
    if (look == PRINTS) {
        uint64_t print = (uint64_t)1 << (n % 16 * 4 + at[1 + n] / 2 % 4);
        if ((before->prints & print) == 0) {
            before->prints |= print;
            return 0;
        }
    } else {
        uint8_t bits = 0;
        for (size_t k = 0; k < n; k++) {
            bits |= at[2 + k];
        }
        before->bits |= bits;
    }
    return stands(look, before, at, n);
}

EACH_BY_ITSELF uint64_t walk(struct way way, const uint8_t *pattern, size_t m, const uint8_t *stretch, size_t len, uint8_t *marks,
                             size_t marks_len, uint8_t *block, size_t block_len)
{
    uint64_t masks[256], refusal = way.searches ? set_masks(pattern, m, masks) : 0;
    uint8_t kept[10922];
    if (refusal != 0) {
        return refusal;
    }
    if (len > 32768 || len < 2) {
        return refused(len < 2 ? 5 : 4, 0);
    }

    const uint64_t last = (uint64_t)1 << (m - 1), low = last | (last - 1);
    const uint8_t *at = stretch + 2, *end = stretch + len;
    size_t segments = word(stretch), size = 0, ends = 0;
    uint64_t state = 1;
    for (size_t j = 0; j < segments; j++) {
        if (at >= end) {
            return refused(5, at - stretch);
        }
        size_t variants = *at;
        if (variants == 0) {
            return refused(6, at - stretch);
        }
        struct before before = {.first = ++at};
        uint64_t next = ~(uint64_t)0, missed = next;
        int alone = variants == 1;
        for (; variants > 0; variants--) {
            size_t n;
            if (end - at < 2 || (size_t)(end - at) - 2 < (n = word(at))) {
                return refused(5, at - stretch);
            }
            uint64_t out = ~state >> 1;
            if (!(way.searches ? take(way.test, masks, at + 2, n, &out, &missed) : spelt(way.test, at + 2, n))) {
                return refused(7, at + 2 - stretch + first_wrong(at + 2));
            }
            if (!alone && repeated(way.look, &before, at, n)) {
                return refused(8, at - stretch);
            }
            next &= out;
            size += counted(n);
            at += 2 + n;
        }
        if (way.searches) {
            kept[j] = (missed & last) == 0;
            ends += kept[j];
            state = (~next << 1 | 1) & low;
        }
    }
    if (at < end) {
        return refused(9, at - stretch);
    }
    if (segments > 10922) {
        return refused(16, 0);
    }
    if (way.searches && (marks_len < segments || block_len < 24)) {
        return refused(10, 0);
    }
    if (way.searches) {
        memcpy(marks, kept, segments);
        put_result(block, 2, ends);
    }
    put_result(block, 0, segments);
    put_result(block, 1, size);
    return 0;
}

/* A yardstick: the walk in one way, under a name. */
#define YARDSTICK(name, test, look, searches)                                                                                      \
    uint64_t name(const uint8_t *pattern, size_t m, const uint8_t *stretch, size_t len, uint8_t *marks, size_t marks_len,          \
                  uint8_t *block, size_t block_len)                                                                                \
    {                                                                                                                              \
        const struct way way = {test, look, searches};                                                                             \
        return walk(way, pattern, m, stretch, len, marks, marks_len, block, block_len);                                            \
    }

#endif
