/* The calls that are measured (calls.h). A new one is a line of the table at the end; what is not called as the C form of a search
   is gets a function that calls it, and what answers something else one that says what the reference expects. */
#include "calls.h"

#include "cerantuh.h"
#include "bench_calls.h"
#include "reference.h"
#include "yardsticks.h"

#include <stdio.h>
#include <string.h>

static uint8_t marks[MOST_SEGMENTS], block[CERANTUH_FROM_BLOCK];

#define FORM(name)                                                                                                                 \
    static uint64_t name(const uint8_t *pattern, size_t m, const uint8_t *stretch, size_t len, uint8_t *marks, size_t marks_len,   \
                         uint8_t *block, size_t block_len)
#define UNUSED (void)pattern, (void)m, (void)marks, (void)marks_len, (void)block, (void)block_len

/* What has no form of a search. */
FORM(through)
{
    return cerantuh_search_from(pattern, m, CERANTUH_FRESH_STATE, stretch, len, marks, marks_len, block, block_len);
}
FORM(first) { return UNUSED, cerantuh_first(pattern, m, CERANTUH_FRESH_STATE, stretch, len, block, CERANTUH_FIRST_BLOCK); }
FORM(check) { return UNUSED, bench_check(stretch, len); }
FORM(card) { return UNUSED, bench_card(pattern, m, stretch, len); }
FORM(card_ask) { return UNUSED, bench_ask(pattern, m, stretch, len); }
FORM(card_join_ask) { return UNUSED, bench_join(pattern, m, stretch, len); }

/* A pattern of the same bases, turned round and each another one, so that long ones end in none of the data: every record of a watch list
   is then looked for in all of the stretch. */
static void absent(const uint8_t *pattern, size_t m, uint8_t other[MOST_BASES])
{
    for (size_t i = 0; i < m; i++) {
        uint8_t base = pattern[m - 1 - i];
        other[i] = base == 'A' ? 'C' : base == 'C' ? 'A' : base == 'G' ? 'T' : 'G';
    }
}

static uint64_t watch(size_t records, const uint8_t *pattern, size_t m, const uint8_t *stretch, size_t len)
{
    uint8_t other[MOST_BASES];
    absent(pattern, m, other);
    return bench_watch(other, m, records, stretch, len);
}
FORM(watch_1) { return UNUSED, watch(1, pattern, m, stretch, len); }
FORM(watch_8) { return UNUSED, watch(8, pattern, m, stretch, len); }
FORM(watch_32) { return UNUSED, watch(32, pattern, m, stretch, len); }

/* Whether an answer, and what is left in the lent bytes, is what the reference expects. */
typedef int agreement(uint64_t answer, const struct question *question, const struct expected *expected);

static int anything(uint64_t answer, const struct question *question, const struct expected *expected)
{
    return (void)answer, (void)question, (void)expected, 1;
}

/* The answer and the first two results: the segment count and the size, or the first hit and the state. */
static int summed(uint64_t answer, const struct question *question, const struct expected *expected)
{
    (void)question;
    return answer == expected->answer && (answer != 0 || (cerantuh_result(block, 0) == expected->results[0] &&
                                                          cerantuh_result(block, 1) == expected->results[1]));
}

/* The number of ones and the marks too. */
static int marked(uint64_t answer, const struct question *question, const struct expected *expected)
{
    return summed(answer, question, expected) && (answer != 0 || (cerantuh_result(block, 2) == expected->results[2] &&
                                                                  memcmp(marks, expected->marks, expected->mark_count) == 0));
}

/* The state after the stretch too. */
static int stated(uint64_t answer, const struct question *question, const struct expected *expected)
{
    return marked(answer, question, expected) && (answer != 0 || cerantuh_result(block, 3) == expected->results[3]);
}

/* The size, or the number of the refusal. */
static int sized(uint64_t answer, const struct question *question, const struct expected *expected)
{
    (void)question;
    return answer == (expected->answer == 0 ? expected->results[1] : cerantuh_number(expected->answer));
}

/* The first segment that is marked, or the number of the refusal. */
static int sighted(uint64_t answer, const struct question *question, const struct expected *expected)
{
    (void)question;
    const uint8_t *mark = memchr(expected->marks, 1, expected->mark_count);
    uint64_t segment = mark != NULL ? (uint64_t)(mark - expected->marks) : NO_HIT;
    return answer == (expected->answer == 0 ? segment << 8 : cerantuh_number(expected->answer));
}

/* The segment count, 0 of what is refused. */
static int segments(uint64_t answer, const struct question *question, const struct expected *expected)
{
    (void)question;
    return answer == (expected->answer == 0 ? expected->results[0] : 0);
}

/* The state after the stretch; and after the stretch twice. */
static int asked(uint64_t answer, const struct question *question, const struct expected *expected)
{
    (void)question;
    return answer == expected->results[3];
}

static int asked_twice(uint64_t answer, const struct question *question, const struct expected *expected)
{
    struct expected again = *expected;
    reference_from(GIVEN, question->pattern, question->m, expected->results[3], question->stretch, question->len, MOST_SEGMENTS,
                   sizeof block, &again);
    return answer == again.results[3];
}

/* What a call looks for: the pattern on a strand, on either, its first hit, another pattern, or nothing, which is the check of a stretch
   alone. */
enum looks { ON_GIVEN, ON_OPPOSITE, ON_EITHER, FOR_FIRST, FOR_ABSENT, FOR_NOTHING, LOOKS };

static const struct call {
    const char *name;
    search_form *form;
    enum looks looks;
    int refuses; /* it may be asked of any bytes */
    agreement *agrees;
} calls[] = {
    /* the library */
    {"by_bits", cerantuh_search_bits, ON_GIVEN, 1, marked},
    {"bits_opposite", cerantuh_search_bits_opposite, ON_OPPOSITE, 1, marked},
    {"by_borders", cerantuh_search_borders, ON_GIVEN, 1, marked},
    {"borders_opposite", cerantuh_search_borders_opposite, ON_OPPOSITE, 1, marked},
    {"either", cerantuh_search_either, ON_EITHER, 1, marked},
    {"through", through, ON_GIVEN, 1, stated},
    {"first", first, FOR_FIRST, 1, summed},
    {"check", check, FOR_NOTHING, 1, sized},
    {"card", card, ON_GIVEN, 1, segments},
    {"card_ask", card_ask, ON_GIVEN, 0, asked},
    {"card_join_ask", card_join_ask, ON_GIVEN, 0, asked_twice},
    {"watch_1", watch_1, FOR_ABSENT, 1, sighted},
    {"watch_8", watch_8, FOR_ABSENT, 1, sighted},
    {"watch_32", watch_32, FOR_ABSENT, 1, sighted},
    /* the yardsticks */
    {"plain", plain, ON_GIVEN, 1, marked},
    {"early", search_early, ON_GIVEN, 1, marked},
    {"memcmp", search_memcmp, ON_GIVEN, 1, marked},
    {"prints", search_prints, ON_GIVEN, 1, marked},
    {"trusting", trusting, ON_GIVEN, 0, marked},
    {"EDSM-BV", edsmbv, ON_GIVEN, 0, marked},
    {"check_early", check_early, FOR_NOTHING, 1, summed},
    {"check_memcmp", check_memcmp, FOR_NOTHING, 1, summed},
    {"check_prints", check_prints, FOR_NOTHING, 1, summed},
    {"memchr", floor_memchr, ON_GIVEN, 1, anything},
};

const struct call *call_named(const char *name)
{
    for (size_t i = 0; i < sizeof calls / sizeof *calls; i++) {
        if (strcmp(name, calls[i].name) == 0) {
            return calls + i;
        }
    }
    return NULL;
}

uint64_t call_run(const struct call *call, const struct question *question)
{
    return call->form(question->pattern, question->m, question->stretch, question->len, marks, sizeof marks, block, sizeof block);
}

static void expect(const struct question *question, struct expected expected[LOOKS])
{
    const uint8_t *pattern = question->pattern, *stretch = question->stretch;
    const uint64_t fresh = CERANTUH_FRESH_STATE;
    size_t m = question->m, len = question->len, most = sizeof marks, room = sizeof block;
    uint8_t other[MOST_BASES];
    absent(pattern, m, other);
    reference_from(GIVEN, pattern, m, fresh, stretch, len, most, room, expected + ON_GIVEN);
    reference_from(OPPOSITE, pattern, m, fresh, stretch, len, most, room, expected + ON_OPPOSITE);
    reference_either(pattern, m, stretch, len, most, room, expected + ON_EITHER);
    reference_first(GIVEN, pattern, m, fresh, stretch, len, CERANTUH_FIRST_BLOCK, expected + FOR_FIRST);
    reference_from(GIVEN, other, m, fresh, stretch, len, most, room, expected + FOR_ABSENT);
    reference_from(GIVEN, (const uint8_t *)"A", 1, fresh, stretch, len, most, room, expected + FOR_NOTHING);
}

size_t calls_differ(const struct question *question)
{
    static struct expected expected[LOOKS];
    size_t differ = 0;
    expect(question, expected);
    for (size_t i = 0; i < sizeof calls / sizeof *calls; i++) {
        const struct expected *due = expected + calls[i].looks;
        if ((calls[i].refuses || due->answer == 0) && !calls[i].agrees(call_run(calls + i, question), question, due)) {
            printf("%s differs from the reference\n", calls[i].name);
            differ++;
        }
    }
    return differ;
}
