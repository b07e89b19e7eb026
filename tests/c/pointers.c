/* Empty slices with pointers that no one may read: a form must not. */
#include "cerantuh.h"
#include "groups.h"
#include "tally.h"

#include <string.h>

static uint8_t *const tried[] = {NULL, (uint8_t *)1, (uint8_t *)UINTPTR_MAX};

typedef uint64_t search_form(const uint8_t *, size_t, const uint8_t *, size_t, uint8_t *, size_t, uint8_t *, size_t);

static void searches(search_form *search, uint8_t *any)
{
    static const uint8_t none[] = {0, 0}, one[] = {1, 0, 1, 1, 0, 'A'};
    const uint8_t *pattern = (const uint8_t *)"A";
    uint8_t marks[1] = {7}, block[24];
    memset(block, 7, sizeof block);
    tally_check(search(any, 0, one, sizeof one, marks, 1, block, 24) == 1, "an empty pattern");
    tally_check(search(pattern, 1, any, 0, marks, 1, block, 24) == 5, "an empty stretch");
    tally_check(search(pattern, 1, one, sizeof one, any, 0, block, 24) == 10, "an empty mark buffer for a segment");
    tally_check(search(pattern, 1, one, sizeof one, marks, 1, any, 0) == 10, "an empty block");
    tally_check(search(any, 0, any, 0, any, 0, any, 0) == 1, "nothing at all");
    tally_check(marks[0] == 7 && block[0] == 7 && block[23] == 7, "a refused call wrote");
    tally_check(search(pattern, 1, none, sizeof none, any, 0, block, 24) == 0, "an empty mark buffer for no segments");
    tally_check(cerantuh_result(block, 0) == 0 && cerantuh_result(block, 1) == 0 && cerantuh_result(block, 2) == 0,
                "no segments have results");
    calls_made += 6;
}

typedef uint64_t from_form(const uint8_t *, size_t, uint64_t, const uint8_t *, size_t, uint8_t *, size_t, uint8_t *, size_t);

static void froms(from_form *search, uint8_t *any)
{
    static const uint8_t none[] = {0, 0}, one[] = {1, 0, 1, 1, 0, 'A'};
    const uint8_t *pattern = (const uint8_t *)"AC";
    uint8_t marks[1] = {7}, block[32];
    memset(block, 7, sizeof block);
    tally_check(search(any, 0, 3, one, sizeof one, marks, 1, block, 32) == 1, "an empty pattern");
    tally_check(search(pattern, 2, 3, any, 0, marks, 1, block, 32) == 5, "an empty stretch");
    tally_check(search(pattern, 2, 3, one, sizeof one, any, 0, block, 32) == 10, "an empty mark buffer for a segment");
    tally_check(search(pattern, 2, 3, one, sizeof one, marks, 1, any, 0) == 10, "an empty block");
    tally_check(search(any, 0, 0, any, 0, any, 0, any, 0) == 1, "nothing at all");
    tally_check(search(pattern, 2, 2, any, 0, any, 0, any, 0) == 17, "nothing but a pattern, and no state of it");
    tally_check(marks[0] == 7 && block[0] == 7 && block[31] == 7, "a refused call wrote");
    tally_check(search(pattern, 2, 3, none, sizeof none, any, 0, block, 32) == 0, "an empty mark buffer for no segments");
    tally_check(cerantuh_result(block, 0) == 0 && cerantuh_result(block, 1) == 0 && cerantuh_result(block, 2) == 0,
                "no segments have results");
    tally_check(cerantuh_result(block, 3) == 3, "no segments change the state");
    calls_made += 7;
}

typedef uint64_t first_form(const uint8_t *, size_t, uint64_t, const uint8_t *, size_t, uint8_t *, size_t);

static void firsts(first_form *first, uint8_t *any)
{
    static const uint8_t none[] = {0, 0}, one[] = {1, 0, 1, 2, 0, 'A', 'T'};
    const uint8_t *pattern = (const uint8_t *)"AT";
    uint8_t block[16];
    memset(block, 7, sizeof block);
    tally_check(first(any, 0, 3, one, sizeof one, block, 16) == 1, "an empty pattern");
    tally_check(first(pattern, 2, 3, any, 0, block, 16) == 5, "an empty stretch");
    tally_check(first(pattern, 2, 3, one, sizeof one, any, 0) == 10, "an empty block");
    tally_check(first(any, 0, 0, any, 0, any, 0) == 1, "nothing at all");
    tally_check(first(pattern, 2, 2, any, 0, any, 0) == 17, "nothing but a pattern, and no state of it");
    tally_check(block[0] == 7 && block[15] == 7, "a refused call wrote");
    tally_check(first(pattern, 2, 3, none, sizeof none, block, 16) == 0, "no segments");
    tally_check(cerantuh_result(block, 0) == CERANTUH_NO_SEGMENT && cerantuh_result(block, 1) == 3, "no segments change the state");
    tally_check(first(pattern, 2, CERANTUH_FRESH_STATE, one, sizeof one, block, 16) == 0, "a sound call");
    tally_check(cerantuh_result(block, 0) == 0 && cerantuh_result(block, 1) == 0, "its results");
    calls_made += 7;
}

static void feeds(uint8_t *any)
{
    static const uint8_t one[] = {1, 1, 0, 'A'};
    const uint8_t *pattern = (const uint8_t *)"A";
    uint8_t block[16];
    memset(block, 7, sizeof block);
    tally_check(cerantuh_feed(any, 0, 1, one, sizeof one, block, 16) == 1, "an empty pattern");
    tally_check(cerantuh_feed(pattern, 1, 1, any, 0, block, 16) == 5, "an empty segment");
    tally_check(cerantuh_feed(pattern, 1, 1, one, sizeof one, any, 0) == 10, "an empty block");
    tally_check(cerantuh_feed(any, 0, 0, any, 0, any, 0) == 1, "nothing at all");
    tally_check(block[0] == 7 && block[15] == 7, "a refused call wrote");
    tally_check(cerantuh_feed(pattern, 1, CERANTUH_FRESH_STATE, one, sizeof one, block, 16) == 0, "a sound call");
    tally_check(cerantuh_result(block, 0) == 1 && cerantuh_result(block, 1) == 1, "its results");
    calls_made += 5;
}

void pointers(void)
{
    tally_group("empty slices with any pointer");
    for (size_t i = 0; i < sizeof tried / sizeof *tried; i++) {
        tally_test("pointer %zu in search_bits", i);
        searches(cerantuh_search_bits, tried[i]);
        tally_test("pointer %zu in search_borders", i);
        searches(cerantuh_search_borders, tried[i]);
        tally_test("pointer %zu in search_from", i);
        froms(cerantuh_search_from, tried[i]);
        tally_test("pointer %zu in search_from_opposite", i);
        froms(cerantuh_search_from_opposite, tried[i]);
        tally_test("pointer %zu in first", i);
        firsts(cerantuh_first, tried[i]);
        tally_test("pointer %zu in first_opposite", i);
        firsts(cerantuh_first_opposite, tried[i]);
        tally_test("pointer %zu in feed", i);
        feeds(tried[i]);
    }
}
