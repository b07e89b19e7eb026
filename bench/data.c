/* The bench's stretches (data.h): one like real ones, two of 001's setting, worst cases, document 01's D, and two for the first hit. */
#include "data.h"

#include "braces.h"

#include <string.h>

static struct random random;

static void letters_of(uint8_t *letters, size_t len)
{
    for (size_t k = 0; k < len; k++) {
        letters[k] = (uint8_t)"ACGT"[random_below(&random, 4)];
    }
}

static size_t word(const uint8_t *bytes) { return bytes[0] + 256u * bytes[1]; }

/* Puts a random variant of this length into the open segment, unless it is there already or there is no room. */
static void put_variant(struct made *made, size_t len, size_t most)
{
    static uint8_t letters[MOST_BYTES];
    letters_of(letters, len);
    for (size_t at = made->segment_at[made->segment_count - 1] + 1; at < made->len; at += 2 + word(made->bytes + at)) {
        if (word(made->bytes + at) == len && memcmp(made->bytes + at + 2, letters, len) == 0) {
            return;
        }
    }
    if (made->len + 2 + len <= most) {
        made_variant(made, letters, len);
    }
}

/* A segment with one variant. */
static void put_plain(struct made *made, size_t len, size_t most)
{
    made_segment(made);
    put_variant(made, len, most);
}

/* Like 1000 Genomes: plain runs of some 29 letters; between them sites of two, rarely three variants, nine of ten of them of one
   letter, the others of none to six. */
static void kg(struct made *made, size_t most)
{
    while (made->len + 80 <= most) {
        put_plain(made, 1 + random_below(&random, 57), most);
        made_segment(made);
        size_t variants = random_below(&random, 25) == 0 ? 3 : 2;
        while (made->bytes[made->segment_at[made->segment_count - 1]] < variants) {
            put_variant(made, random_below(&random, 10) > 0 ? 1 : random_below(&random, 7), most);
        }
    }
}

static void degenerate(struct made *made, size_t most)
{
    made_segment(made);
    for (size_t variants = 1 + random_below(&random, 10); variants > 0; variants--) {
        put_variant(made, random_below(&random, 11), most);
    }
}

/* 001's setting: one position of ten is degenerate, with up to 10 variants of up to 10 letters. Plain positions that follow each
   other are one segment. */
static void synth(struct made *made, size_t most)
{
    while (made->len + 200 <= most) {
        size_t run = 0;
        while (random_below(&random, 10) > 0 && run < 50) {
            run++;
        }
        if (run > 0) {
            put_plain(made, run, most);
        }
        degenerate(made, most);
    }
}

/* The same to the letter: every plain position is a segment of its own. */
static void single(struct made *made, size_t most)
{
    while (made->len + 200 <= most) {
        if (random_below(&random, 10) > 0) {
            put_plain(made, 1, most);
        } else {
            degenerate(made, most);
        }
    }
}

/* 255 variants, as long as they fit, that are alike but for four letters from this one on. */
static void alike_but(size_t differ, struct made *made, size_t len)
{
    uint8_t letters[MOST_BYTES];
    letters_of(letters, len);
    made_segment(made);
    for (size_t v = 0; v < 255; v++) {
        for (size_t k = 0, left = v; k < 4; k++, left /= 4) {
            letters[differ + k] = (uint8_t)"ACGT"[left % 4];
        }
        made_variant(made, letters, len);
    }
}

static size_t length_of_255(size_t most) { return (most - 3) / 255 - 2; }
static void starts(struct made *made, size_t most) { alike_but(length_of_255(most) - 4, made, length_of_255(most)); }
static void ends(struct made *made, size_t most) { alike_but(0, made, length_of_255(most)); }

static void one(struct made *made, size_t most) { put_plain(made, most - 5, most); }

/* Segments of one variant each: a lone letter, or nothing. */
static void lone(struct made *made, size_t most)
{
    while (made->len + 4 <= most) {
        put_plain(made, 1, most);
    }
}

static void empties(struct made *made, size_t most)
{
    while (made->len + 3 <= most) {
        put_plain(made, 0, most);
    }
}

/* A segment that spells the pattern, alone or with a text like kg after it. */
static void hit_at_once(struct made *made, size_t most, size_t m, uint8_t *pattern, int alone)
{
    made_begin(made);
    put_plain(made, MOST_BASES, most);
    memcpy(pattern, made->bytes + made->segment_at[0] + 3, m);
    if (!alone) {
        kg(made, most);
    }
    made_end(made);
}

/* Letters from the middle segment on, by the first variant of each; what is missing is random. */
static void pattern_of(const struct made *made, size_t m, uint8_t *pattern)
{
    size_t have = 0;
    letters_of(pattern, m);
    for (size_t j = made->segment_count / 2; j < made->segment_count && have < m; j++) {
        size_t at = made->segment_at[j] + 1, len = word(made->bytes + at);
        size_t taken = len < m - have ? len : m - have;
        memcpy(pattern + have, made->bytes + at + 2, taken);
        have += taken;
    }
}

static const struct {
    const char *name;
    void (*make)(struct made *, size_t);
} known[] = {{"kg", kg},         {"synth", synth}, {"single", single}, {"one", one},
             {"starts", starts}, {"ends", ends},   {"lone", lone},     {"empties", empties}};

const char *data_name(size_t i) { return i < sizeof known / sizeof *known ? known[i].name : NULL; }

int data_make(const char *name, size_t number, size_t most, size_t m, struct made *made, uint8_t pattern[MOST_BASES])
{
    random.state = 2017 + number;
    if (strcmp(name, "D") == 0) {
        braces("{CGA,G}{e,T}{TTAC,AT}{TA,e}{A,GATTAG}", made);
        memcpy(pattern, "GATTA", 5);
        return 1;
    }
    if (strcmp(name, "front") == 0 || strcmp(name, "alone") == 0) {
        hit_at_once(made, most, m, pattern, name[0] == 'a');
        return 1;
    }
    for (size_t i = 0; i < sizeof known / sizeof *known; i++) {
        if (strcmp(name, known[i].name) == 0) {
            made_begin(made);
            known[i].make(made, most);
            made_end(made);
            pattern_of(made, m, pattern);
            return 1;
        }
    }
    return 0;
}
