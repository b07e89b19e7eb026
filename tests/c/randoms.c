/* Random texts and damaged ones, from a fixed seed: both searches, the feed from segment to segment, and the reference's two ways
   to find the marks. */
#include "groups.h"
#include "making.h"
#include "tally.h"

#include <string.h>

enum { TEXTS = 4000, DAMAGED = 8000, FEEDS = 8000 };

static struct made made, other;
static uint8_t pattern[MOST_BASES];

/* The segments from the fresh state on. Their ends must be the search's marks. */
static void feed_all(const struct call *search, const uint8_t *marks)
{
    static struct fed fed[MOST_SEGMENTS];
    try_feeds(search, &made, fed);
    for (size_t j = 0; j < made.segment_count; j++) {
        tally_check(fed[j].ends == marks[j], "fed segments end other occurrences than the search marks");
    }
}

static void sound_text(struct random *random)
{
    static struct expected expected;
    static struct text text;
    uint8_t marks[MOST_SEGMENTS];
    struct shape shape = shape_any(random);
    make_text(random, &shape, &made);
    struct call call = {pattern, make_pattern(random, &made, pattern), 1, made.bytes, made.len, made.segment_count, 24};
    call.marks_len += random_below(random, 3);
    try_searches(&call);
    call_expect(SEARCH_BITS, &call, &expected);
    tally_check(expected.answer == 0 && reference_read(made.bytes, made.len, &text) == 0, "a sound text is refused");
    reference_marks_by_starts(pattern, call.m, &text, marks);
    tally_check(memcmp(marks, expected.marks, expected.mark_count) == 0, "the reference differs from itself");
    feed_all(&call, expected.marks);
}

static void damaged_text(struct random *random)
{
    struct shape shape = shape_any(random);
    make_text(random, &shape, &other);
    shape = shape_any(random);
    make_text(random, &shape, &made);
    struct call call = {pattern, make_pattern(random, &made, pattern), 1, made.bytes, 0, MOST_SEGMENTS, 24};
    damage_any(random, &made, &other);
    call.len = made.len;
    try_searches(&call);
    try_first(&call);
}

/* A lone segment, sound or damaged, fed with any state that the pattern allows, and now and then with one that it does not. */
static void any_feed(struct random *random)
{
    struct shape shape = shape_any(random);
    make_text(random, &shape, &other);
    shape.segments = 1;
    make_text(random, &shape, &made);
    size_t m = make_pattern(random, other.segment_count > 0 ? &other : &made, pattern);
    if (made.segment_count > 0 && random_below(random, 3) == 0) {
        damage_any(random, &made, &other);
    }
    uint64_t state = random_next(random) & random_next(random);
    if (random_below(random, 16) != 0) {
        state = (m < 64 ? state % ((uint64_t)1 << m) : state) | 1;
    }
    size_t len = made.len < 2 ? 0 : made.len - 2;
    struct call call = {pattern, m, state, made.bytes + 2, len, 0, 16};
    try_feed(&call);
}

void randoms(void)
{
    struct random random = {20170704};
    tally_group("random texts");
    tally_test("%d sound texts, searched both ways and fed", TEXTS);
    for (size_t i = 0; i < TEXTS; i++) {
        sound_text(&random);
    }
    tally_test("%d damaged texts", DAMAGED);
    for (size_t i = 0; i < DAMAGED; i++) {
        damaged_text(&random);
    }
    tally_test("%d segments fed with any state", FEEDS);
    for (size_t i = 0; i < FEEDS; i++) {
        any_feed(&random);
    }
}
