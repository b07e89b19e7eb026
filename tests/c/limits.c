/* The sizes where an answer changes: bases, bytes, segments, variants, the mark buffer and the result block. */
#include "groups.h"
#include "making.h"
#include "tally.h"

#include <string.h>

static struct made made;
static uint8_t letters[MOST_BYTES + 1]; /* all A */

static struct call call_of(size_t m)
{
    struct call call = {letters, m, 1, made.bytes, made.len, MOST_SEGMENTS, 24};
    return call;
}

/* The only segment of the stretch, fed alone with all lengths carried. */
static struct call feed_of(size_t m)
{
    struct call call = {letters, m, m < 64 ? ((uint64_t)1 << m) - 1 : UINT64_MAX, made.bytes + 2, made.len - 2, 0, 16};
    return call;
}

static void make_one_variant(size_t len)
{
    made_begin(&made);
    made_segment(&made);
    made_variant(&made, letters, len);
    made_end(&made);
}

static void bases(void)
{
    static const size_t tried[] = {0, 1, 2, 31, 32, 33, 62, 63, 64, 65, 66, 127, 128};
    for (size_t i = 0; i < sizeof tried / sizeof *tried; i++) {
        for (size_t len = 60; len < 68; len++) {
            tally_test("a pattern of %zu bases, a variant of %zu letters", tried[i], len);
            make_one_variant(len);
            struct call call = call_of(tried[i]), feed = feed_of(tried[i] == 0 ? 1 : tried[i]);
            feed.m = tried[i];
            call.state = feed.state;
            try_searches(&call);
            try_first(&call);
            try_feed(&feed);
        }
    }
}

/* Bit 0 and one bit more: a state of every pattern that has more bases than this bit. And all bits but the lowest: of none. */
static void states(void)
{
    make_one_variant(66);
    for (size_t m = 1; m <= 64; m++) {
        tally_test("states of %zu bases", m);
        struct call call = call_of(m);
        call.block_len = 32;
        for (size_t r = 0; r < 64; r++) {
            call.state = (uint64_t)1 << r | 1;
            try_refused_from(&call, r < m ? 0 : 17, 0);
            try_refused_first(&call, r < m ? 0 : 17, 0);
        }
        call.state = feed_of(m).state - 1;
        try_refused_from(&call, 17, 0);
        try_refused_first(&call, 17, 0);
    }
}

static void bytes(void)
{
    for (size_t len = MOST_BYTES - 1; len <= MOST_BYTES + 1; len++) {
        tally_test("a variant that makes a stretch of %zu bytes", len);
        make_one_variant(len - 5);
        struct call call = call_of(64), short_call = call_of(3);
        try_refused_searches(&call, len > MOST_BYTES ? 4 : 0, 0);
        try_refused_first(&call, len > MOST_BYTES ? 4 : 0, 0);
        try_searches(&short_call);
        tally_test("a variant that makes a lone segment of %zu bytes", len);
        make_one_variant(len - 3);
        struct call feed = feed_of(64);
        try_refused_feeds(&feed, len > MOST_BYTES ? 4 : 0, 0);
    }
    tally_test("a length of 65,535");
    make_one_variant(MOST_BYTES - 5);
    made.bytes[3] = made.bytes[4] = 255;
    struct call call = call_of(1), feed = feed_of(1);
    try_refused_searches(&call, 5, 3);
    try_refused_feeds(&feed, 5, 1);
}

/* As many segments as there can be, all of the empty variant; and one more, or the most that can be stated. */
static void segments(void)
{
    made_begin(&made);
    for (size_t j = 0; j < MOST_SEGMENTS; j++) {
        made_segment(&made);
        made_variant(&made, letters, 0);
    }
    made_end(&made);
    tally_test("10,922 segments");
    struct call call = call_of(2);
    tally_check(made.len == MOST_BYTES, "10,922 segments of the empty variant have not 32,768 bytes");
    try_refused_searches(&call, 0, 0);
    try_refused_first(&call, 0, 0);
    tally_test("10,922 segments, a mark buffer one shorter and one longer");
    call.marks_len = MOST_SEGMENTS - 1;
    try_refused_searches(&call, 10, 0);
    call.marks_len = MOST_SEGMENTS + 1;
    try_refused_searches(&call, 0, 0);
    tally_test("10,923 and 65,535 segments stated");
    made.bytes[0]++;
    try_refused_searches(&call, 5, MOST_BYTES);
    try_refused_first(&call, 5, MOST_BYTES);
    made.bytes[0] = made.bytes[1] = 255;
    try_refused_searches(&call, 5, MOST_BYTES);
    try_refused_first(&call, 5, MOST_BYTES);
}

/* {A,e} as often as it fits: every length is carried past every segment. */
static void carried(void)
{
    made_begin(&made);
    for (size_t j = 0; made.len + 6 <= MOST_BYTES; j++) {
        made_segment(&made);
        made_variant(&made, letters, 1);
        made_variant(&made, letters, 0);
    }
    made_end(&made);
    for (size_t m = 1; m <= 64; m += 21) {
        tally_test("%zu bases in segments of A and the empty variant", m);
        struct call call = call_of(m);
        try_searches(&call);
        try_first(&call);
    }
}

/* 255 variants that begin alike, as long as they fit: they differ in their last four letters, which count in base 4. */
static void make_alike(size_t last)
{
    uint8_t alike[126];
    memset(alike, 'A', sizeof alike);
    made_begin(&made);
    made_segment(&made);
    for (size_t v = 0; v < 255; v++) {
        for (size_t k = 0, left = v == 254 ? last : v; k < 4; k++, left /= 4) {
            alike[sizeof alike - 1 - k] = (uint8_t)"ACGT"[left % 4];
        }
        made_variant(&made, alike, sizeof alike);
    }
    made_end(&made);
}

static void variants(void)
{
    tally_test("255 variants that begin alike");
    make_alike(254);
    struct call call = call_of(64), feed = feed_of(64);
    size_t last = made.len - 128;
    try_refused_searches(&call, 0, 0);
    try_refused_feeds(&feed, 0, 0);
    for (size_t again = 0; again < 254; again += 253) {
        tally_test("255 variants, the last one equal to number %zu", again);
        make_alike(again);
        try_refused_searches(&call, 8, last);
        try_refused_feeds(&feed, 8, last - 2);
        tally_test("the same, every third letter of it in lower case");
        for (size_t k = last + 2; k < made.len; k += 3) {
            made.bytes[k] |= 'a' ^ 'A';
        }
        try_refused_searches(&call, 8, last);
        try_refused_feeds(&feed, 8, last - 2);
    }
}

static void lent(void)
{
    made_begin(&made);
    for (size_t j = 0; j < 5; j++) {
        made_segment(&made);
        made_variant(&made, letters, j);
    }
    made_end(&made);
    for (size_t marks_len = 0; marks_len <= 7; marks_len++) {
        tally_test("a mark buffer of %zu bytes for 5 segments", marks_len);
        struct call call = call_of(3);
        call.marks_len = marks_len;
        try_refused_searches(&call, marks_len < 5 ? 10 : 0, 0);
    }
    for (size_t block_len = 0; block_len <= 40; block_len++) {
        tally_test("a result block of %zu bytes", block_len);
        struct call call = call_of(3), feed = feed_of(3);
        call.block_len = feed.block_len = block_len;
        feed.len = 3;
        try_refused_searches(&call, block_len < 24 ? 10 : 0, 0);
        try_refused_from(&call, block_len < 32 ? 10 : 0, 0);
        try_refused_first(&call, block_len < 16 ? 10 : 0, 0);
        try_refused_feeds(&feed, block_len < 16 ? 10 : 0, 0);
    }
}

void limits(void)
{
    memset(letters, 'A', sizeof letters);
    tally_group("limits of bases");
    bases();
    tally_group("limits of states");
    states();
    tally_group("limits of bytes, segments and variants");
    bytes();
    segments();
    carried();
    variants();
    tally_group("limits of what is lent");
    lent();
}
