/* A fuzzer of the C forms: draws calls by construction, so that each refusal and deep texts are as common as we like, and holds
   every answer and every lent byte to the reference. Arguments: the number of calls, the seed. A call that faults ends the
   program; differences are counted. The texts, patterns and damage are those of tests/c/making.h. */
#include "calls.h"
#include "making.h"

#include <inttypes.h>
#include <stdio.h>
#include <stdlib.h>
#include <string.h>

static struct made made, other;
static uint8_t pattern[2 * MOST_BASES];

/* What a call is drawn for: a refusal by its number, or one of these. ANY is damage at random, whatever comes of it. */
enum { ACCEPTED = 0, ANY = 18 };

/* The form, what it is drawn for, and a second fault beside the first, or ACCEPTED: so the order of refusals is tried. */
struct aim {
    enum form form;
    int first, second;
};

static bool aimed_at(const struct aim *aim, int number) { return aim->first == number || aim->second == number; }

static bool feeds(const struct aim *aim) { return aim->form >= FEED; }

static bool marks(const struct aim *aim) { return aim->form < FIRST; }

/* A text and a pattern from it. One in 256 texts is large. Where a segment is needed, one with none is drawn again. */
static size_t draw(struct random *random, size_t least_segments)
{
    struct shape shape = shape_any(random);
    if (random_below(random, 256) == 0) {
        shape.segments = 3000;
    }
    do {
        make_text(random, &shape, &made);
    } while (made.segment_count < least_segments);
    return make_pattern(random, &made, pattern);
}

/* Keeps one segment of the text alone. */
static void keep_one(struct random *random)
{
    size_t j = random_below(random, made.segment_count), at = made.segment_at[j], len = made.segment_at[j + 1] - at;
    memmove(made.bytes + 2, made.bytes + at, len);
    made.segment_count = 1;
    made.segment_at[0] = 2;
    made.len = 2 + len;
    made_end(&made);
}

/* The next splice takes from what was damaged before. */
static void keep_for_splices(void)
{
    if (made.len <= 200) {
        memcpy(other.bytes, made.bytes, made.len);
        other.len = made.len;
    }
}

/* Gives the bytes the fault that is aimed at; a text without letters may stay sound. */
static void damage(struct random *random, int aim)
{
    switch (aim) {
    case 4: made.len = MOST_BYTES + 1 + random_below(random, 100); break;
    case 5: (random_below(random, 2) == 0 ? damage_cut : damage_length)(random, &made); break;
    case 6: damage_count(random, &made); break;
    case 7: damage_letter(random, &made); break;
    case 8: damage_repeat(random, &made); break;
    case 9: damage_more(random, &made); break;
    case ANY:
        for (size_t times = 1 + random_below(random, 3); times > 0; times--) {
            damage_byte(random, &made);
        }
        if (random_below(random, 2) == 0) {
            damage_splice(random, &made, &other);
        }
        keep_for_splices();
        break;
    default: break;
    }
}

static void damage_pattern(struct random *random, int aim, size_t *m)
{
    static const uint8_t wrong[] = {0, 'N', 'n', 'a', 'c', 'g', 't', 'B', 'U', '@', 0xC1, 0xFF};
    if (aim == 1) {
        *m = 0;
    } else if (aim == 2) {
        *m = MOST_BASES + 1 + random_below(random, MOST_BASES);
    } else if (aim == 3 && *m > 0) {
        pattern[random_below(random, *m)] = wrong[random_below(random, sizeof wrong)];
    }
}

/* Any state that the pattern allows; or, for refusal 17, one without bit 0, with bit m, or with any bit more. */
static uint64_t draw_state(struct random *random, const struct aim *aim, size_t m)
{
    const uint64_t one = 1;
    uint64_t state = random_next(random) & random_next(random);
    state = (m < 64 ? state % (one << m) : state) | one;
    if (aimed_at(aim, 17)) {
        switch (random_below(random, 3)) {
        case 0: return state & ~one;
        case 1: return m < 64 ? state | one << m : 0;
        default: return state | one << random_below(random, 64);
        }
    }
    return state;
}

static void draw_lent(struct random *random, const struct aim *aim, struct call *call)
{
    size_t least = !marks(aim) ? 16 : aim->form >= SEARCH_FROM ? 32 : 24;
    call->marks_len = made.segment_count + random_below(random, 3);
    call->block_len = least + random_below(random, 3);
    if (aimed_at(aim, 10) && (!marks(aim) || random_below(random, 2) == 0)) {
        call->block_len = random_below(random, least);
    } else if (aimed_at(aim, 10)) {
        call->marks_len = random_below(random, made.segment_count);
    }
}

static struct call draw_call(struct random *random, const struct aim *aim)
{
    struct call call = {pattern, draw(random, feeds(aim) || aim->first != ACCEPTED), 1, made.bytes, 0, 0, 0};
    if (feeds(aim)) {
        keep_one(random);
        call.bytes = made.bytes + 2;
    }
    call.state = draw_state(random, aim, call.m);
    draw_lent(random, aim, &call);
    damage(random, aim->first);
    damage(random, aim->second);
    damage_pattern(random, aim->first, &call.m);
    damage_pattern(random, aim->second, &call.m);
    call.len = feeds(aim) ? (made.len < 2 ? 0 : made.len - 2) : made.len;
    return call;
}

/* The faults: one, and in half of the calls a second that needs no sound bytes. */
static void choose_faults(struct random *random, struct aim *aim)
{
    static const int firsts[] = {1, 2, 3, 4, 5, 6, 7, 8, 9, 10, 17, ANY}, seconds[] = {1, 2, 3, 4, 10, 17};
    aim->first = firsts[random_below(random, sizeof firsts / sizeof *firsts)];
    if (random_below(random, 2) == 0) {
        aim->second = seconds[random_below(random, sizeof seconds / sizeof *seconds)];
    }
}

/* 45 of 100 calls are searches or first hits to be accepted, 10 feeds to be accepted; the others are spread over the refusals. */
static struct aim choose(struct random *random)
{
    size_t choice = random_below(random, 100);
    enum form feed = FEED + random_below(random, FORMS - FEED);
    struct aim aim = {random_below(random, FEED), ACCEPTED, ACCEPTED};
    if (choice >= 55) {
        choose_faults(random, &aim);
    }
    if (aimed_at(&aim, 17)) {
        aim.form = SEARCH_FROM + random_below(random, FORMS - SEARCH_FROM);
    } else if (choice >= 45 && (choice < 55 || random_below(random, 3) == 0)) {
        aim.form = feed;
    }
    return aim;
}

static uint64_t counts[256][FORMS];

static void print_counts(void)
{
    static const char *const names[FORMS] = {"bits", "borders", "bits_opp.", "borders_opp.", "either",
                                              "from", "from_opp.", "first", "first_opp.", "feed", "feed_opp."};
    printf("%-12s", "answer");
    for (enum form form = 0; form < FORMS; form++) {
        printf(" %12s", names[form]);
    }
    printf("\n");
    for (size_t number = 0; number < 256; number++) {
        uint64_t all = 0;
        for (enum form form = 0; form < FORMS; form++) {
            all += counts[number][form];
        }
        if (all == 0) {
            continue;
        }
        char name[32];
        snprintf(name, sizeof name, number == 0 ? "accepted" : "refused %zu", number);
        printf("%-12s", name);
        for (enum form form = 0; form < FORMS; form++) {
            printf(" %12" PRIu64, counts[number][form]);
        }
        printf("\n");
    }
}

int main(int argc, char **argv)
{
    static struct expected expected;
    uint64_t calls = argc > 1 ? strtoull(argv[1], NULL, 10) : 1000, seed = argc > 2 ? strtoull(argv[2], NULL, 10) : 1;
    uint64_t differences = 0, marked = 0, hits = 0, ends = 0;
    struct random random = {seed};
    made_begin(&other);
    made_end(&other);
    while (calls_made < calls) {
        struct aim aim = choose(&random);
        struct call call = draw_call(&random, &aim);
        call_expect(aim.form, &call, &expected);
        differences += !call_agrees(aim.form, &call, (enum placement)random_below(&random, PLACEMENTS), &expected);
        counts[expected.answer & 255][aim.form]++;
        marked += marks(&aim) && expected.answer == 0 && expected.results[2] > 0;
        hits += !marks(&aim) && !feeds(&aim) && expected.answer == 0 && expected.results[0] != NO_HIT;
        ends += feeds(&aim) && expected.answer == 0 && expected.results[1] > 0;
    }
    print_counts();
    printf("an occurrence ends in %" PRIu64 " marked texts, %" PRIu64 " first hits and %" PRIu64 " fed segments\n", marked, hits, ends);
    printf("seed %" PRIu64 ": %" PRIu64 " calls, %" PRIu64 " differences\n", seed, calls_made, differences);
    return differences > 0;
}
