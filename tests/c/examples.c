/* Document 01's judged examples on all forms, what lower case and unknown letters mean, and an example for each slip that looks right.
   Their marks, sizes, states and refusals are written here by hand: the reference is held to them as the forms are. */
#include "braces.h"
#include "groups.h"
#include "tally.h"

#include <string.h>

static struct made made;

static struct call call_of(const char *pattern)
{
    struct call call = {(const uint8_t *)pattern, strlen(pattern), 1, made.bytes, made.len, MOST_SEGMENTS, 24};
    return call;
}

/* The segments of the text, one by one. The marks must be those written; if states are written, the states too. */
static void feed_all(const struct call *search, const char *marks, const uint64_t *states)
{
    static struct fed fed[MOST_SEGMENTS];
    try_feeds(search, &made, fed);
    for (size_t j = 0; j < made.segment_count; j++) {
        tally_check(fed[j].ends == (uint64_t)(marks[j] - '0'), "a fed segment's end is not the one written here");
        tally_check(states == NULL || fed[j].state == states[j], "a state is not the one written here");
    }
}

/* The first segment that is marked 1 here. */
static void first_hit(const struct call *search, const char *marks)
{
    static struct expected expected;
    const char *hit = strchr(marks, '1');
    try_first(search);
    call_expect(FIRST, search, &expected);
    tally_check(expected.results[0] == (hit == NULL ? NO_HIT : (uint64_t)(hit - marks)), "the first hit is not the one written here");
}

static void example(const char *pattern, const char *text, const char *marks, uint64_t size, const uint64_t *states)
{
    static struct expected expected;
    uint64_t ones = 0;
    tally_test("%s in %.60s", pattern, text);
    braces(text, &made);
    struct call call = call_of(pattern);
    try_searches(&call);
    call_expect(SEARCH_BITS, &call, &expected);
    tally_check(expected.mark_count == strlen(marks), "the number of segments is not the one written here");
    for (size_t j = 0; j < strlen(marks); j++) {
        tally_check(expected.marks[j] == marks[j] - '0', "a mark is not the one written here");
        ones += marks[j] == '1';
    }
    tally_check(expected.results[1] == size, "the size is not the one written here");
    tally_check(expected.results[2] == ones, "the number of ends is not the one written here");
    first_hit(&call, marks);
    feed_all(&call, marks, states);
}

/* The marks of the opposite strand, and of either. */
static void strand(const char *pattern, const char *text, const char *opposite, const char *either)
{
    static struct expected expected;
    static const enum form forms[] = {SEARCH_BITS_OPPOSITE, SEARCH_BORDERS_OPPOSITE, SEARCH_EITHER};
    tally_test("%s, and from the other side, in %.60s", pattern, text);
    braces(text, &made);
    struct call call = call_of(pattern);
    try_searches(&call);
    for (size_t i = 0; i < sizeof forms / sizeof *forms; i++) {
        const char *marks = forms[i] == SEARCH_EITHER ? either : opposite;
        call_expect(forms[i], &call, &expected);
        for (size_t j = 0; j < strlen(marks); j++) {
            tally_check(expected.marks[j] == marks[j] - '0', "a mark is not the one written here");
        }
    }
}

/* The stretch, and, where it has one segment, that segment fed alone: the same refusal, two bytes earlier. */
static void hex(const char *bytes, size_t len, uint64_t number, uint64_t place, bool fed)
{
    tally_test("refusal %d at %d, or none, of %zu bytes", (int)number, (int)place, len);
    struct call call = {(const uint8_t *)"A", 1, 1, (const uint8_t *)bytes, len, MOST_SEGMENTS, 24};
    try_refused_searches(&call, number, place);
    if (fed) {
        struct call feed = {(const uint8_t *)"A", 1, 1, (const uint8_t *)bytes + 2, len - 2, 0, 16};
        try_refused_feeds(&feed, number, place >= 2 ? place - 2 : 0);
    }
}

#define A63 "AAAAAAAAAAAAAAAAAAAAAAAAAAAAAAAAAAAAAAAAAAAAAAAAAAAAAAAAAAAAAAA"

static void hexes(void)
{
    hex("\x00\x00", 2, 0, 0, false);
    hex("", 0, 5, 0, false);
    hex("\x00", 1, 5, 0, false);
    hex("\x01\x00", 2, 5, 2, true);
    hex("\x01\x00\x00", 3, 6, 2, true);
    hex("\x01\x00\x01\x02\x00\x41", 6, 5, 3, true);
    hex("\x01\x00\x01\x01\x00\x4E", 6, 0, 0, true);
    hex("\x01\x00\x02\x00\x00\x00\x00", 7, 8, 5, true);
    hex("\x00\x00\x41", 3, 9, 2, false);
    hex("\x01\x00\x01\x00\x00", 5, 0, 0, true);
}

/* A lone variant of one letter: every byte that is none is refused. */
static void letters(void)
{
    uint8_t bytes[] = {1, 0, 1, 1, 0, 0};
    struct call call = {(const uint8_t *)"A", 1, 1, bytes, sizeof bytes, MOST_SEGMENTS, 24};
    struct call feed = {(const uint8_t *)"A", 1, 1, bytes + 2, sizeof bytes - 2, 0, 16};
    tally_test("ten bytes are letters");
    for (unsigned byte = 0; byte < 256; byte++) {
        bool letter = byte != 0 && strchr("ACGTNacgtn", (int)byte) != NULL;
        bytes[5] = (uint8_t)byte;
        try_refused_searches(&call, letter ? 0 : 7, letter ? 0 : 5);
        try_refused_feeds(&feed, letter ? 0 : 7, letter ? 0 : 3);
    }
}

/* What lower case and unknown letters mean. */
static void meanings(void)
{
    static const uint64_t states_of_d[] = {0x07, 0x0F, 0x09, 0x09, 0x03};
    example("GATTA", "{cga,G}{e,t}{TtaC,at}{tA,e}{a,gATTag}", "00111", 22, states_of_d); /* D, some of it in lower case */
    example("GATTA", "{cga,G}{n,t}{TtaC,at}{tN,e}{a,gANTag}", "00000", 22, NULL);
    example("A", "{N}{n}{a}{A}", "0011", 4, NULL);
    example("C", "{N}{n}{c}{C}", "0011", 4, NULL);
    example("G", "{N}{n}{g}{G}", "0011", 4, NULL);
    example("T", "{N}{n}{t}{T}", "0011", 4, NULL);
    example("AC", "{a}{N,e}{C}", "001", 4, NULL);
    example("AC", "{a}{n}{c}", "000", 3, NULL);
    example("AC", "{N,A}{n,a}{aN,Ac}", "001", 8, NULL);
    example("AA", "{aNa}{a}{n}{a}", "0100", 6, NULL);
    example("A" A63, "{" A63 "}{a}", "01", 64, NULL);
    example("A" A63, "{" A63 "}{n}{a}", "000", 65, NULL);
    strand("AC", "{a}{e}{c}{n,g}{T}", "00001", "00101");
    strand("A", "{n}{t}{N}{a}", "0100", "0101");
    hex("\1\0\2\1\0A\1\0a", 9, 8, 6, true);
    hex("\1\0\2\1\0n\1\0N", 9, 8, 6, true);
    hex("\1\0\2\1\0N\1\0A", 9, 0, 0, true);
    hex("\1\0\3\2\0aC\2\0nC\2\0Ac", 15, 8, 11, true);
    letters();
}

void examples(void)
{
    static const uint64_t states_of_d[] = {0x07, 0x0F, 0x09, 0x09, 0x03};
    tally_group("document 01's examples");
    example("GATTA", "{CGA,G}{e,T}{TTAC,AT}{TA,e}{A,GATTAG}", "00111", 22, states_of_d);
    tally_check(made.len == 47, "example D has not 47 bytes");
    example("A", "{A}", "1", 1, NULL);
    example("A", "{e}", "0", 1, NULL);
    example("AC", "{A}{e}{C}", "001", 3, NULL);
    example("AC", "{A}{C}{e}", "010", 3, NULL);
    example("AA", "{A,e}", "0", 2, NULL);
    example("AA", "{A,e}{A,e}{A,e}", "011", 6, NULL);
    example("AAA", "{AA}{AA}", "01", 4, NULL);
    example("A" A63, "{" A63 "}", "0", 63, NULL);
    example("A" A63, "{" A63 "}{A}", "01", 64, NULL);
    hexes();

    tally_group("letters by meaning");
    meanings();

    tally_group("the opposite strand");
    strand("GATTA", "{CGA,G}{e,T}{TTAC,AT}{TA,e}{A,GATTAG}", "00000", "00111");        /* TAATC is nowhere in D */
    strand("TAATC", "{CGA,G}{e,T}{TTAC,AT}{TA,e}{A,GATTAG}", "00111", "00111");        /* D read from the other side */
    strand("AC", "{A}{e}{C}{G}{T}", "00001", "00101");                                 /* GT, across two segments */
    strand("ACGT", "{AC}{G}{T}", "001", "001");                                        /* its own opposite */
    strand("AAG", "{CT}{e,T}{A,AG}", "010", "010");                                    /* CTT */
    strand("A", "{A}{T}{e}{C}", "0100", "1100");

    tally_group("slips that look right");
    example("AC", "{A}{C}{e}{e}", "0100", 4, NULL);              /* only the empty variant follows a finished occurrence */
    example("AC", "{A}{G,e}{C}", "001", 4, NULL);                /* carried past the empty variant beside another */
    example("ACGT", "{AC}{G}{T}", "001", 4, NULL);               /* the last base counts */
    example("ACA", "{A}{CAGGAC}{A}", "011", 8, NULL);            /* a long variant ends one occurrence and starts another */
    example("GATTA", "{GA}{TTACCC}", "01", 8, NULL);             /* it ends before the variant's last letter */
    example("ACACA", "{C}{A,C}{AC,ACC,CACA}{C,e}{A,AC}{C}", "001010", 18, NULL); /* the papers' running example */
}
