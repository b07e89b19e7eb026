/* Texts of many stretches. A text is cut between segments, and its stretches are searched one after another with the state handed on:
   their marks, laid end to end, must be the marks of the whole text, and the last state the one after it. */
#include "braces.h"
#include "groups.h"
#include "tally.h"

#include <string.h>

enum { TEXTS = 3000, MOST_CUTS = 6 };

static struct made whole, part;
static struct expected of_whole, of_part, of_other;

/* The forms of a strand. */
struct forms {
    enum form from, bits, first, feed;
};
static const struct forms given = {SEARCH_FROM, SEARCH_BITS, FIRST, FEED};
static const struct forms opposite = {SEARCH_FROM_OPPOSITE, SEARCH_BITS_OPPOSITE, FIRST_OPPOSITE, FEED_OPPOSITE};

struct pattern {
    const uint8_t *bases;
    size_t m;
};

static struct pattern pattern_of(const char *bases) { return (struct pattern){(const uint8_t *)bases, strlen(bases)}; }

/* Searches a stretch from a state. What the reference says, and the form with it, is told; a sound stretch is not refused. */
static void search(enum form from, struct pattern pattern, uint64_t state, const struct made *made, struct expected *told)
{
    struct call call = {pattern.bases, pattern.m, state, made->bytes, made->len, made->segment_count, 32};
    tally_check(try_call(from, &call) == 0, "a sound stretch is refused");
    call_expect(from, &call, told);
}

/* The whole text and its stretches, each of which ends before the segment that cuts say, and the last with the text. */
static void try_cuts(const struct forms *forms, struct pattern pattern, uint64_t state, const size_t *cuts, size_t count)
{
    uint64_t next = state, size = 0, ends = 0;
    search(forms->from, pattern, state, &whole, &of_whole);
    for (size_t i = 0, first = 0; i <= count; i++) {
        size_t behind = i < count ? cuts[i] : whole.segment_count;
        made_part(&whole, first, behind, &part);
        search(forms->from, pattern, next, &part, &of_part);
        tally_check(of_part.results[0] == behind - first, "a stretch has other segments");
        tally_check(memcmp(of_part.marks, of_whole.marks + first, behind - first) == 0, "a stretch has not the marks of the whole text");
        size += of_part.results[1];
        ends += of_part.results[2];
        next = of_part.results[3];
        first = behind;
    }
    tally_check(next == of_whole.results[3], "the last state is not the one after the whole text");
    tally_check(size == of_whole.results[1] && ends == of_whole.results[2], "the sums are not those of the whole text");
}

/* The first hit of the whole text: the first of its marks, and that of the first stretch in which something ends, when each is asked
   from the state that the one before gave. */
static void try_hits(const struct forms *forms, struct pattern pattern, uint64_t state, const size_t *cuts, size_t count)
{
    uint64_t next = state, hit = NO_HIT;
    search(forms->from, pattern, state, &whole, &of_other);
    search(forms->first, pattern, state, &whole, &of_whole);
    const uint8_t *mark = memchr(of_other.marks, 1, whole.segment_count);
    tally_check(of_whole.results[0] == (mark == NULL ? NO_HIT : (uint64_t)(mark - of_other.marks)), "the first hit is not the first mark");
    tally_check(of_whole.results[1] == (mark == NULL ? of_other.results[3] : 0), "the state is not the one after a clear text, or 0");
    for (size_t i = 0, first = 0; i <= count && hit == NO_HIT; i++) {
        size_t behind = i < count ? cuts[i] : whole.segment_count;
        made_part(&whole, first, behind, &part);
        search(forms->first, pattern, next, &part, &of_part);
        hit = of_part.results[0] == NO_HIT ? NO_HIT : first + of_part.results[0];
        next = of_part.results[1];
        first = behind;
    }
    tally_check(hit == of_whole.results[0], "the first hit is not that of the whole text");
    tally_check(next == of_whole.results[1], "the last state is not that of the whole text");
}

/* Every segment a stretch of its own, beside the same segment fed. */
static void try_singles(const struct forms *forms, struct pattern pattern, uint64_t state)
{
    uint64_t next = state;
    search(forms->from, pattern, state, &whole, &of_whole);
    for (size_t j = 0; j < whole.segment_count; j++) {
        made_part(&whole, j, j + 1, &part);
        struct call feed = {pattern.bases, pattern.m, next, part.bytes + 2, part.len - 2, 0, 16};
        search(forms->from, pattern, next, &part, &of_part);
        try_call(forms->feed, &feed);
        call_expect(forms->feed, &feed, &of_other);
        next = of_part.results[3];
        tally_check(next == of_other.results[0], "the feed gives another state");
        tally_check(of_part.marks[0] == of_other.results[1], "the feed ends otherwise");
        tally_check(of_part.marks[0] == of_whole.marks[j], "a lone segment has not the mark of the whole text");
    }
    tally_check(next == of_whole.results[3], "the last state is not the one after the whole text");
}

/* From the fresh state: what the search of one stretch says. */
static void try_fresh(const struct forms *forms, struct pattern pattern)
{
    struct call bits = {pattern.bases, pattern.m, 0, whole.bytes, whole.len, whole.segment_count, 24};
    search(forms->from, pattern, 1, &whole, &of_whole);
    try_call(forms->bits, &bits);
    call_expect(forms->bits, &bits, &of_other);
    tally_check(of_other.answer == 0 && memcmp(of_other.marks, of_whole.marks, whole.segment_count) == 0,
                "from the fresh state the marks are others");
    tally_check(memcmp(of_other.results, of_whole.results, 24) == 0, "from the fresh state the sums are others");
}

/* Cut into two before every segment, and after the last. */
static void at_every_segment(const char *bases, const char *text)
{
    struct pattern pattern = pattern_of(bases);
    tally_test("%s in %.60s, cut before every segment", bases, text);
    braces(text, &whole);
    for (size_t cut = 0; cut <= whole.segment_count; cut++) {
        try_cuts(&given, pattern, 1, &cut, 1);
        try_cuts(&opposite, pattern, 1, &cut, 1);
        try_hits(&given, pattern, 1, &cut, 1);
        try_hits(&opposite, pattern, 1, &cut, 1);
    }
    try_singles(&given, pattern, 1);
    try_singles(&opposite, pattern, 1);
    try_fresh(&given, pattern);
    try_fresh(&opposite, pattern);
}

/* A stretch whose marks and next state are written here by hand. */
static void known(enum form from, const char *bases, uint64_t state, const char *text, const char *marks, uint64_t next)
{
    tally_test("%.60s from state %llx in %.60s", bases, (unsigned long long)state, text);
    braces(text, &whole);
    search(from, pattern_of(bases), state, &whole, &of_whole);
    for (size_t j = 0; j < strlen(marks); j++) {
        tally_check(of_whole.marks[j] == marks[j] - '0', "a mark is not the one written here");
    }
    tally_check(of_whole.mark_count == strlen(marks), "the number of segments is not the one written here");
    tally_check(of_whole.results[3] == next, "the next state is not the one written here");
}

/* A stretch whose first hit, or NO_HIT and the next state, is written here by hand. */
static void hit(enum form first, const char *bases, uint64_t state, const char *text, uint64_t segment, uint64_t next)
{
    tally_test("the first hit of %.60s from state %llx in %.60s", bases, (unsigned long long)state, text);
    braces(text, &whole);
    search(first, pattern_of(bases), state, &whole, &of_whole);
    tally_check(of_whole.results[0] == segment, "the segment is not the one written here");
    tally_check(of_whole.results[1] == next, "the next state is not the one written here");
}

/* A length that goes past stretch after stretch of empty variants, as many as a stretch can have. */
static void past_empties(void)
{
    uint64_t state = 7; /* A and AC end where the first of them begins */
    struct pattern pattern = pattern_of("ACGT");
    tally_test("ten stretches of empty variants are passed");
    made_begin(&whole);
    for (size_t j = 0; j < MOST_SEGMENTS; j++) {
        made_segment(&whole);
        made_variant(&whole, pattern.bases, 0);
    }
    made_end(&whole);
    for (size_t i = 0; i < 10; i++) {
        search(SEARCH_FROM, pattern, state, &whole, &of_whole);
        tally_check(of_whole.results[2] == 0, "something ends in an empty variant");
        state = of_whole.results[3];
    }
    braces("{GT}", &whole);
    search(SEARCH_FROM, pattern, state, &whole, &of_whole);
    tally_check(state == 7 && of_whole.marks[0] == 1, "what is carried is lost");
}

#define A63 "AAAAAAAAAAAAAAAAAAAAAAAAAAAAAAAAAAAAAAAAAAAAAAAAAAAAAAAAAAAAAAA"

static void knowns(void)
{
    known(SEARCH_FROM, "ACGTTGCA", 1, "{TTACG,TTAGG}{e,C}", "00", 0x09); /* the README's story, cut: alone, each half is clear */
    known(SEARCH_FROM, "ACGTTGCA", 1, "{TTGCAAC,GGA}", "0", 0x07);
    known(SEARCH_FROM, "ACGTTGCA", 9, "{TTGCAAC,GGA}", "1", 0x07);
    known(SEARCH_FROM_OPPOSITE, "TGCAACGT", 1, "{TTACG,TTAGG}{e,C}", "00", 0x09);
    known(SEARCH_FROM_OPPOSITE, "TGCAACGT", 9, "{TTGCAAC,GGA}", "1", 0x07);
    known(SEARCH_FROM_OPPOSITE, "ACGTTGCA", 1, "{TTACG,TTAGG}{e,C}", "00", 0x01);
    known(SEARCH_FROM_OPPOSITE, "ACGTTGCA", 1, "{TTGCAAC,GGA}", "0", 0x41);
    known(SEARCH_FROM, "ACGTTGCA", 9, "", "", 0x09);                     /* no segments, and one that is empty, change nothing */
    known(SEARCH_FROM, "ACGTTGCA", 9, "{e}", "0", 0x09);
    known(SEARCH_FROM, "GATTA", 0x0F, "{TTAC,AT}{TA,e}{A,GATTAG}", "111", 0x03); /* document 01's D, from its third segment on */
    known(SEARCH_FROM, "ACGTTGCA", 1, "{ttacg,TTAGG}{e,n}", "00", 0x09); /* and in lower case */
    known(SEARCH_FROM, "ACGTTGCA", 9, "{TTGcaac,GGN}", "1", 0x05);
    known(SEARCH_FROM, "ACGTTGCA", 9, "{n,t,e}", "0", 0x19);
    known(SEARCH_FROM, "AC", 3, "{C}{C}", "10", 0x01);                   /* what has ended is not carried on */
    known(SEARCH_FROM, "A" A63, 1, "{" A63 "}", "0", UINT64_MAX);
    known(SEARCH_FROM, "A" A63, UINT64_MAX, "{A}{C}", "10", 0x01);
    past_empties();
}

static void hits(void)
{
    hit(FIRST, "GATTA", 1, "{CGA,G}{e,T}{TTAC,AT}{TA,e}{A,GATTAG}", 2, 0); /* document 01's D, and its other strand */
    hit(FIRST_OPPOSITE, "TAATC", 1, "{CGA,G}{e,T}{TTAC,AT}{TA,e}{A,GATTAG}", 2, 0);
    hit(FIRST_OPPOSITE, "GATTA", 1, "{CGA,G}{e,T}{TTAC,AT}{TA,e}{A,GATTAG}", NO_HIT, 0x0D);
    hit(FIRST, "ACGTTGCA", 1, "{TTACG,TTAGG}{e,C}", NO_HIT, 0x09);         /* the README's story, cut */
    hit(FIRST, "ACGTTGCA", 9, "{TTGCAAC,GGA}", 0, 0);
    hit(FIRST, "ACGTTGCA", 1, "{TTGCAAC,GGA}", NO_HIT, 0x07);
    hit(FIRST_OPPOSITE, "TGCAACGT", 9, "{TTGCAAC,GGA}", 0, 0);
    hit(FIRST, "ACGTTGCA", 9, "", NO_HIT, 0x09);                           /* no segments, and one that is empty, change nothing */
    hit(FIRST, "ACGTTGCA", 9, "{e}", NO_HIT, 0x09);
    hit(FIRST, "AC", 1, "{A}{e,g}{c}{AC}", 2, 0);                          /* the first of two, in lower case */
    hit(FIRST, "AC", 1, "{A}{N}{C}{n,a}", NO_HIT, 0x03);                   /* not through an unknown base */
    hit(FIRST, "A" A63, UINT64_MAX, "{e}{C}{A}", NO_HIT, 0x03);
    hit(FIRST, "A" A63, UINT64_MAX, "{e}{A}{C}", 1, 0);
}

/* Places to cut at, in order; where two are the same, a stretch has no segments. */
static size_t draw_cuts(struct random *random, size_t cuts[MOST_CUTS])
{
    size_t count = random_below(random, MOST_CUTS + 1);
    for (size_t i = 0, least = 0; i < count; i++) {
        least += random_below(random, whole.segment_count - least + 1);
        cuts[i] = least;
    }
    return count;
}

/* The marks from the fresh state must be those that the definition gives, a start at a time. */
static void try_definition(struct pattern pattern)
{
    static struct text text;
    static uint8_t marks[MOST_SEGMENTS];
    search(SEARCH_FROM, pattern, 1, &whole, &of_whole);
    tally_check(reference_read(whole.bytes, whole.len, &text) == 0, "a sound text is refused");
    reference_marks_by_starts(pattern.bases, pattern.m, &text, marks);
    tally_check(memcmp(marks, of_whole.marks, whole.segment_count) == 0, "the reference differs from itself");
}

static void any_text(struct random *random)
{
    uint8_t bases[MOST_BASES];
    size_t cuts[MOST_CUTS];
    struct shape shape = shape_any(random);
    make_text(random, &shape, &whole);
    struct pattern pattern = {bases, make_pattern(random, &whole, bases)};
    uint64_t state = random_next(random) & random_next(random);
    state = random_below(random, 2) == 0 ? 1 : (pattern.m < 64 ? state % ((uint64_t)1 << pattern.m) : state) | 1;
    const struct forms *forms = random_below(random, 3) == 0 ? &opposite : &given;
    size_t count = draw_cuts(random, cuts);
    try_cuts(forms, pattern, state, cuts, count);
    try_hits(forms, pattern, state, cuts, count);
    try_singles(forms, pattern, state);
    try_fresh(forms, pattern);
    try_definition(pattern);
}

void stretches(void)
{
    struct random random = {20170704};
    tally_group("texts of many stretches");
    knowns();
    hits();
    at_every_segment("ACGTTGCA", "{TTACG,TTAGG}{e,C}{TTGCAAC,GGA}");
    at_every_segment("TGCAACGT", "{TTACG,TTAGG}{e,C}{TTGCAAC,GGA}");
    at_every_segment("GATTA", "{CGA,G}{e,T}{TTAC,AT}{TA,e}{A,GATTAG}");
    at_every_segment("TAATC", "{CGA,G}{e,T}{TTAC,AT}{TA,e}{A,GATTAG}");
    at_every_segment("ACACA", "{C}{A,C}{AC,ACC,CACA}{C,e}{A,AC}{C}");
    at_every_segment("AA", "{A,e}{A,e}{A,e}");
    at_every_segment("A" A63, "{" A63 "}{e}{A,e}{AA}");
    tally_test("%d texts, cut at any places and into single segments", TEXTS);
    for (size_t i = 0; i < TEXTS; i++) {
        any_text(&random);
    }
}
