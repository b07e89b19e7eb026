/* One call of a C form, compared with the reference (calls.h). */
#include "calls.h"

#include "cerantuh.h"

#include <inttypes.h>
#include <signal.h>
#include <stdio.h>
#include <stdlib.h>

uint64_t calls_made;

static const char *const form_names[FORMS] = {
    "cerantuh_search_bits", "cerantuh_search_borders", "cerantuh_search_bits_opposite", "cerantuh_search_borders_opposite",
    "cerantuh_search_either", "cerantuh_search_from", "cerantuh_search_from_opposite", "cerantuh_first", "cerantuh_first_opposite",
    "cerantuh_feed", "cerantuh_feed_opposite",
};
static const char *const placement_names[PLACEMENTS] = {"slices start after a page", "slices end at a page"};

/* The call under way, for the line that a fault prints. */
static struct {
    enum form form;
    const struct call *call;
    enum placement placement;
} present;

static void print_hex(const char *name, const uint8_t *bytes, size_t len)
{
    size_t shown = len < 200 ? len : 200;
    printf("  %s, %zu bytes:", name, len);
    for (size_t k = 0; k < shown; k++) {
        printf(" %02X", bytes[k]);
    }
    printf("%s\n", shown < len ? " ..." : "");
}

static void print_call(void)
{
    const struct call *call = present.call;
    printf("  in %s, %s, state %" PRIx64 ", marks_len %zu, block_len %zu\n", form_names[present.form],
           placement_names[present.placement], call->state, call->marks_len, call->block_len);
    print_hex("pattern", call->pattern, call->m);
    print_hex("stretch or segment", call->bytes, call->len);
}

/* A fault ends the program; what faulted is worth a line before. */
static void fault(int number)
{
    printf("differs: signal %d\n", number);
    print_call();
    fflush(stdout);
    _Exit(1);
}

static struct room pattern_room, bytes_room, marks_room, block_room;

static void open_rooms(void)
{
    if (pattern_room.start == NULL) {
        room_open(&pattern_room, MOST_BASES * 2);
        room_open(&bytes_room, MOST_BYTES * 2);
        room_open(&marks_room, MOST_SEGMENTS + 1);
        room_open(&block_room, 64);
        signal(SIGSEGV, fault);
        signal(SIGBUS, fault);
        signal(SIGILL, fault);
        signal(SIGFPE, fault);
    }
}

static void expect_results(const struct expected *expected)
{
    for (size_t k = 0; k < 8 * expected->result_count; k++) {
        room_expect(&block_room, k, (uint8_t)(expected->results[k / 8] >> 8 * (k % 8)));
    }
    for (size_t j = 0; j < expected->mark_count; j++) {
        room_expect(&marks_room, j, expected->marks[j]);
    }
}

static const struct {
    const char *name;
    const struct room *room;
} lent[] = {{"pattern", &pattern_room}, {"stretch or segment", &bytes_room}, {"marks", &marks_room}, {"block", &block_room}};

enum { LENT = sizeof lent / sizeof *lent, MOST_PRINTED = 20 };

/* Prints what differs and the call, of the first calls that differ. */
static void print_difference(uint64_t answer, const struct expected *expected)
{
    static size_t printed;
    if (printed++ >= MOST_PRINTED) {
        return;
    }
    if (answer != expected->answer) {
        printf("differs: refusal %" PRIu64 " at %" PRIu64 ", not %" PRIu64 " at %" PRIu64 "\n", answer & 255, answer >> 8,
               expected->answer & 255, expected->answer >> 8);
    }
    for (size_t i = 0; i < LENT; i++) {
        ptrdiff_t at = room_differs(lent[i].room);
        if (at != NOWHERE) {
            const uint8_t *is = lent[i].room->start + lent[i].room->at, *should = lent[i].room->expected + lent[i].room->at;
            printf("differs: byte %td of the %s is %02X, not %02X\n", at, lent[i].name, is[at], should[at]);
        }
    }
    print_call();
}

void call_expect(enum form form, const struct call *call, struct expected *expected)
{
    static const enum strand strands[FORMS] = {
        [SEARCH_BITS_OPPOSITE] = OPPOSITE,
        [SEARCH_BORDERS_OPPOSITE] = OPPOSITE,
        [SEARCH_FROM_OPPOSITE] = OPPOSITE,
        [FIRST_OPPOSITE] = OPPOSITE,
        [FEED_OPPOSITE] = OPPOSITE,
    };
    enum strand strand = strands[form];
    if (form >= FEED) {
        reference_feed(strand, call->pattern, call->m, call->state, call->bytes, call->len, call->block_len, expected);
    } else if (form >= FIRST) {
        reference_first(strand, call->pattern, call->m, call->state, call->bytes, call->len, call->block_len, expected);
    } else if (form >= SEARCH_FROM) {
        reference_from(strand, call->pattern, call->m, call->state, call->bytes, call->len, call->marks_len, call->block_len, expected);
    } else if (form == SEARCH_EITHER) {
        reference_either(call->pattern, call->m, call->bytes, call->len, call->marks_len, call->block_len, expected);
    } else {
        reference_search(strand, call->pattern, call->m, call->bytes, call->len, call->marks_len, call->block_len, expected);
    }
}

static uint64_t run(enum form form, const struct call *call, enum placement placement, const struct expected *expected)
{
    const uint8_t *pattern = room_lend(&pattern_room, placement, call->pattern, call->m);
    const uint8_t *bytes = room_lend(&bytes_room, placement, call->bytes, call->len);
    uint8_t *marks = room_lend(&marks_room, placement, NULL, call->marks_len);
    uint8_t *block = room_lend(&block_room, placement, NULL, call->block_len);
    expect_results(expected);
    if (form >= FIRST) {
        static uint64_t (*const unmarked[])(const uint8_t *, size_t, uint64_t, const uint8_t *, size_t, uint8_t *, size_t) = {
            cerantuh_first, cerantuh_first_opposite, cerantuh_feed, cerantuh_feed_opposite,
        };
        return unmarked[form - FIRST](pattern, call->m, call->state, bytes, call->len, block, call->block_len);
    }
    if (form >= SEARCH_FROM) {
        return (form == SEARCH_FROM ? cerantuh_search_from : cerantuh_search_from_opposite)(
            pattern, call->m, call->state, bytes, call->len, marks, call->marks_len, block, call->block_len);
    }
    static uint64_t (*const searches[])(const uint8_t *, size_t, const uint8_t *, size_t, uint8_t *, size_t, uint8_t *, size_t) = {
        cerantuh_search_bits, cerantuh_search_borders, cerantuh_search_bits_opposite, cerantuh_search_borders_opposite,
        cerantuh_search_either,
    };
    return searches[form](pattern, call->m, bytes, call->len, marks, call->marks_len, block, call->block_len);
}

bool call_agrees(enum form form, const struct call *call, enum placement placement, const struct expected *expected)
{
    open_rooms();
    present.form = form;
    present.call = call;
    present.placement = placement;
    calls_made++;
    uint64_t answer = run(form, call, placement, expected);
    bool agrees = answer == expected->answer;
    for (size_t i = 0; i < LENT; i++) {
        agrees = agrees && room_differs(lent[i].room) == NOWHERE;
    }
    if (!agrees) {
        print_difference(answer, expected);
    }
    return agrees;
}
