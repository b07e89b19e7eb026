/* Counts tests (tally.h). */
#include "tally.h"

#include <inttypes.h>
#include <stdarg.h>
#include <stdio.h>

static char test[200];
static bool in_test, holds_so_far;
static const char *group;
static uint64_t calls_before;
static size_t group_passed, group_failed, passed, failed;

static void end_test(void)
{
    if (in_test) {
        *(holds_so_far ? &group_passed : &group_failed) += 1;
    }
    in_test = false;
}

static void end_group(void)
{
    end_test();
    if (group != NULL) {
        printf("%s: %zu passed, %zu failed, in %" PRIu64 " calls\n", group, group_passed, group_failed, calls_made - calls_before);
    }
    passed += group_passed;
    failed += group_failed;
    group_passed = group_failed = 0;
    calls_before = calls_made;
}

void tally_group(const char *name)
{
    end_group();
    group = name;
}

void tally_test(const char *format, ...)
{
    va_list words;
    end_test();
    va_start(words, format);
    vsnprintf(test, sizeof test, format, words);
    va_end(words);
    in_test = holds_so_far = true;
}

void tally_check(bool holds, const char *what)
{
    if (!holds && holds_so_far) {
        printf("failed: %s: %s: %s\n", group, test, what);
    }
    holds_so_far = holds_so_far && holds;
}

int tally_end(void)
{
    end_group();
    printf("%zu passed, %zu failed\n", passed, failed);
    return failed > 0;
}

uint64_t try_call(enum form form, const struct call *call)
{
    static struct expected expected;
    call_expect(form, call, &expected);
    for (enum placement placement = 0; placement < PLACEMENTS; placement++) {
        tally_check(call_agrees(form, call, placement, &expected), "the form and the reference differ");
    }
    return expected.answer;
}

/* The call with room for a result more. */
static struct call with_room(const struct call *call)
{
    struct call from = *call;
    from.block_len += 8;
    return from;
}

void try_searches(const struct call *call)
{
    struct call from = with_room(call);
    for (enum form form = 0; form < SEARCH_FROM; form++) {
        try_call(form, call);
    }
    try_from(&from);
}

void try_from(const struct call *call)
{
    try_call(SEARCH_FROM, call);
    try_call(SEARCH_FROM_OPPOSITE, call);
}

void try_first(const struct call *call)
{
    try_call(FIRST, call);
    try_call(FIRST_OPPOSITE, call);
}

void try_feed(const struct call *call)
{
    try_call(FEED, call);
    try_call(FEED_OPPOSITE, call);
}

void try_feeds(const struct call *search, const struct made *made, struct fed fed[MOST_SEGMENTS])
{
    static struct expected expected;
    struct call call = *search;
    call.block_len = 16;
    for (size_t j = 0; j < made->segment_count; j++) {
        call.bytes = made->bytes + made->segment_at[j];
        call.len = made->segment_at[j + 1] - made->segment_at[j];
        try_feed(&call);
        call_expect(FEED, &call, &expected);
        fed[j] = (struct fed){expected.results[0], expected.results[1]};
        call.state = fed[j].state;
    }
}

void try_refusal(enum form form, const struct call *call, uint64_t number, uint64_t place)
{
    tally_check(try_call(form, call) == number + 256 * place, "the reference does not give the refusal that is written here");
}

void try_refused_searches(const struct call *call, uint64_t number, uint64_t place)
{
    struct call from = with_room(call);
    for (enum form form = 0; form < SEARCH_FROM; form++) {
        try_refusal(form, call, number, place);
    }
    try_refused_from(&from, number, place);
}

void try_refused_from(const struct call *call, uint64_t number, uint64_t place)
{
    try_refusal(SEARCH_FROM, call, number, place);
    try_refusal(SEARCH_FROM_OPPOSITE, call, number, place);
}

void try_refused_first(const struct call *call, uint64_t number, uint64_t place)
{
    try_refusal(FIRST, call, number, place);
    try_refusal(FIRST_OPPOSITE, call, number, place);
}

void try_refused_feeds(const struct call *call, uint64_t number, uint64_t place)
{
    try_refusal(FEED, call, number, place);
    try_refusal(FEED_OPPOSITE, call, number, place);
}
