/* The reference, written from documents 01 and 02 alone: bytes become a list of variants, sets of carried lengths are arrays of bool,
   and every comparison is letter by letter. It knows neither bit-vectors nor border tables. */
#include "reference.h"

#include <string.h>

static uint64_t refused(uint64_t number, size_t place) { return number + 256 * (uint64_t)place; }

static bool is_base(uint8_t letter) { return letter == 'A' || letter == 'C' || letter == 'G' || letter == 'T'; }

uint8_t letter_meaning(uint8_t byte)
{
    static const uint8_t meanings[256] = {['A'] = 'A', ['C'] = 'C', ['G'] = 'G', ['T'] = 'T', ['N'] = 'N',
                                          ['a'] = 'A', ['c'] = 'C', ['g'] = 'G', ['t'] = 'T', ['n'] = 'N'};
    return meanings[byte];
}

/* By meaning. A sound pattern has no N, so no base of it is equal to an unknown letter. */
bool letters_alike(const uint8_t *a, const uint8_t *b, size_t len)
{
    for (size_t k = 0; k < len; k++) {
        if (letter_meaning(a[k]) != letter_meaning(b[k])) {
            return false;
        }
    }
    return true;
}

/* Reading: refusals 1 to 9 and 16. */

static uint64_t pattern_refusal(const uint8_t *pattern, size_t m)
{
    if (m == 0) {
        return refused(1, 0);
    }
    if (m > MOST_BASES) {
        return refused(2, 0);
    }
    for (size_t k = 0; k < m; k++) {
        if (!is_base(pattern[k])) {
            return refused(3, k);
        }
    }
    return 0;
}

/* Reads the variant at *at into the text's last segment. */
static uint64_t read_variant(const uint8_t *bytes, size_t len, size_t *at, struct text *text)
{
    struct segment *segment = &text->segments[text->segment_count - 1];
    if (len - *at < 2) {
        return refused(5, *at);
    }
    struct variant read = {bytes + *at + 2, bytes[*at] + 256u * bytes[*at + 1]};
    if (len - *at - 2 < read.len) {
        return refused(5, *at);
    }
    for (size_t k = 0; k < read.len; k++) {
        if (letter_meaning(read.letters[k]) == 0) {
            return refused(7, *at + 2 + k);
        }
    }
    for (size_t k = 0; k < segment->count; k++) {
        const struct variant *earlier = &text->variants[segment->first + k];
        if (earlier->len == read.len && letters_alike(earlier->letters, read.letters, read.len)) {
            return refused(8, *at);
        }
    }
    text->variants[text->variant_count++] = read;
    segment->count++;
    *at += 2 + read.len;
    return 0;
}

static uint64_t read_segment(const uint8_t *bytes, size_t len, size_t *at, struct text *text)
{
    if (len - *at < 1) {
        return refused(5, *at);
    }
    size_t count = bytes[*at];
    if (count == 0) {
        return refused(6, *at);
    }
    *at += 1;
    text->segments[text->segment_count++] = (struct segment){text->variant_count, 0};
    for (size_t k = 0; k < count; k++) {
        uint64_t refusal = read_variant(bytes, len, at, text);
        if (refusal != 0) {
            text->segment_count--; /* it does not read whole */
            return refusal;
        }
    }
    return 0;
}

/* Reads a number of segments from at on, which must be all the bytes. Refusal 16 is asked by no one here: MOST_BYTES has no room
   for a segment more than MOST_SEGMENTS. */
static uint64_t read_segments(const uint8_t *bytes, size_t len, size_t at, size_t count, struct text *text)
{
    for (size_t k = 0; k < count; k++) {
        uint64_t refusal = read_segment(bytes, len, &at, text);
        if (refusal != 0) {
            return refusal;
        }
    }
    return at < len ? refused(9, at) : 0;
}

static void forget(struct text *text) { text->segment_count = text->variant_count = 0; }

uint64_t reference_read(const uint8_t *stretch, size_t len, struct text *text)
{
    forget(text);
    if (len > MOST_BYTES) {
        return refused(4, 0);
    }
    if (len < 2) {
        return refused(5, 0);
    }
    return read_segments(stretch, len, 2, stretch[0] + 256u * stretch[1], text);
}

/* Searching. A set of lengths of the pattern has an entry for each of 1 to m - 1; entry 0 is not used. */

static bool inside(const uint8_t *pattern, size_t m, const struct variant *s)
{
    for (size_t k = 0; k + m <= s->len; k++) {
        if (letters_alike(pattern, s->letters + k, m)) {
            return true;
        }
    }
    return false;
}

/* Adds the lengths r whose first r bases are a suffix of s. */
static void add_starts(const uint8_t *pattern, size_t m, const struct variant *s, bool *lengths)
{
    for (size_t r = 1; r < m && r <= s->len; r++) {
        if (letters_alike(pattern, s->letters + s->len - r, r)) {
            lengths[r] = true;
        }
    }
}

/* Adds the lengths that s makes of a carried q as a whole. */
static void add_passed(const uint8_t *pattern, size_t m, size_t q, const struct variant *s, bool *lengths)
{
    if (q + s->len < m && letters_alike(pattern + q, s->letters, s->len)) {
        lengths[q + s->len] = true;
    }
}

static bool finishes(const uint8_t *pattern, size_t m, size_t q, const struct variant *s)
{
    return m - q <= s->len && letters_alike(pattern + q, s->letters, m - q);
}

/* One segment after what is carried: whether an occurrence ends in it, and, in next, what is carried out of it. */
static bool pass(const uint8_t *pattern, size_t m, const bool *carried, const struct text *text, size_t j, bool *next)
{
    const struct segment *segment = &text->segments[j];
    bool ends = false;
    memset(next, 0, MOST_BASES);
    for (size_t v = segment->first; v < segment->first + segment->count; v++) {
        const struct variant *s = &text->variants[v];
        ends = ends || inside(pattern, m, s);
        add_starts(pattern, m, s, next);
        for (size_t q = 1; q < m; q++) {
            if (carried[q]) {
                ends = ends || finishes(pattern, m, q, s);
                add_passed(pattern, m, q, s, next);
            }
        }
    }
    return ends;
}

/* The empty variant counts as one letter. */
static size_t size_of(const struct text *text)
{
    size_t size = 0;
    for (size_t v = 0; v < text->variant_count; v++) {
        size += text->variants[v].len == 0 ? 1 : text->variants[v].len;
    }
    return size;
}

/* From what is carried into the text on; afterwards carried is what goes out of it. */
static void search(const uint8_t *pattern, size_t m, bool *carried, const struct text *text, struct expected *out)
{
    bool next[MOST_BASES];
    out->mark_count = text->segment_count;
    out->result_count = 3;
    out->results[0] = text->segment_count;
    out->results[1] = size_of(text);
    out->results[2] = 0;
    for (size_t j = 0; j < text->segment_count; j++) {
        out->marks[j] = pass(pattern, m, carried, text, j, next);
        out->results[2] += out->marks[j];
        memcpy(carried, next, sizeof next);
    }
}

/* A state is bit 0 and a bit for each length that is carried. */

static uint64_t state_refusal(size_t m, uint64_t state)
{
    bool high = m < 64 && state >> m != 0;
    return state % 2 == 0 || high ? refused(17, 0) : 0;
}

static void lengths_in(uint64_t state, bool *lengths)
{
    for (size_t r = 0; r < MOST_BASES; r++) {
        lengths[r] = state >> r & 1;
    }
}

static uint64_t state_of(size_t m, const bool *lengths)
{
    uint64_t state = 1;
    for (size_t r = 1; r < m; r++) {
        state |= (uint64_t)lengths[r] << r;
    }
    return state;
}

/* The calls: the refusals in their order, then the results. */

/* A with T, C with G, the order reversed; of a sound pattern. */
static const uint8_t *read_on(enum strand strand, const uint8_t *pattern, size_t m, uint8_t turned[MOST_BASES])
{
    static const char bases[] = "ACGT", facing[] = "TGCA";
    if (strand == GIVEN) {
        return pattern;
    }
    for (size_t k = 0; k < m; k++) {
        turned[k] = (uint8_t)facing[strchr(bases, pattern[m - 1 - k]) - bases];
    }
    return turned;
}

void reference_search(enum strand strand, const uint8_t *pattern, size_t m, const uint8_t *stretch, size_t len, size_t marks_len,
                      size_t block_len, struct expected *out)
{
    static struct text text;
    bool carried[MOST_BASES] = {false};
    uint8_t turned[MOST_BASES] = {0};
    out->result_count = out->mark_count = 0;
    out->answer = pattern_refusal(pattern, m);
    if (out->answer == 0) {
        out->answer = reference_read(stretch, len, &text);
    }
    if (out->answer == 0 && (marks_len < text.segment_count || block_len < 24)) {
        out->answer = refused(10, 0);
    }
    if (out->answer == 0) {
        search(read_on(strand, pattern, m, turned), m, carried, &text, out);
    }
}

/* The refusals that are asked before the bytes are read, where a state is handed in. */
static uint64_t entry_refusal(const uint8_t *pattern, size_t m, uint64_t state, size_t len)
{
    uint64_t refusal = pattern_refusal(pattern, m);
    if (refusal == 0 && len > MOST_BYTES) {
        refusal = refused(4, 0);
    }
    return refusal != 0 ? refusal : state_refusal(m, state);
}

void reference_from(enum strand strand, const uint8_t *pattern, size_t m, uint64_t state, const uint8_t *stretch, size_t len,
                    size_t marks_len, size_t block_len, struct expected *out)
{
    static struct text text;
    bool carried[MOST_BASES];
    uint8_t turned[MOST_BASES] = {0};
    out->result_count = out->mark_count = 0;
    out->answer = entry_refusal(pattern, m, state, len);
    if (out->answer == 0) {
        out->answer = reference_read(stretch, len, &text);
    }
    if (out->answer == 0 && (marks_len < text.segment_count || block_len < 32)) {
        out->answer = refused(10, 0);
    }
    if (out->answer == 0) {
        lengths_in(state, carried);
        search(read_on(strand, pattern, m, turned), m, carried, &text, out);
        out->results[3] = state_of(m, carried);
        out->result_count = 4;
    }
}

/* The first segment in which an occurrence ends, or NO_HIT; carried goes up to it. */
static uint64_t first_end(const uint8_t *pattern, size_t m, bool *carried, const struct text *text)
{
    bool next[MOST_BASES];
    for (size_t j = 0; j < text->segment_count; j++) {
        if (pass(pattern, m, carried, text, j, next)) {
            return j;
        }
        memcpy(carried, next, sizeof next);
    }
    return NO_HIT;
}

void reference_first(enum strand strand, const uint8_t *pattern, size_t m, uint64_t state, const uint8_t *stretch, size_t len,
                     size_t block_len, struct expected *out)
{
    static struct text text;
    bool carried[MOST_BASES];
    uint8_t turned[MOST_BASES] = {0};
    out->result_count = out->mark_count = 0;
    out->answer = entry_refusal(pattern, m, state, len);
    if (out->answer != 0) {
        return;
    }
    uint64_t fault = reference_read(stretch, len, &text);
    lengths_in(state, carried);
    uint64_t first = first_end(read_on(strand, pattern, m, turned), m, carried, &text);
    out->answer = first == NO_HIT ? fault : 0;
    if (out->answer == 0 && block_len < 16) {
        out->answer = refused(10, 0);
    }
    if (out->answer == 0) {
        out->result_count = 2;
        out->results[0] = first;
        out->results[1] = first == NO_HIT ? state_of(m, carried) : 0;
    }
}

void reference_either(const uint8_t *pattern, size_t m, const uint8_t *stretch, size_t len, size_t marks_len, size_t block_len,
                      struct expected *out)
{
    static struct expected opposite;
    reference_search(GIVEN, pattern, m, stretch, len, marks_len, block_len, out);
    reference_search(OPPOSITE, pattern, m, stretch, len, marks_len, block_len, &opposite);
    for (size_t j = 0; j < out->mark_count; j++) {
        out->results[2] += opposite.marks[j] && !out->marks[j];
        out->marks[j] |= opposite.marks[j];
    }
}

void reference_feed(enum strand strand, const uint8_t *pattern, size_t m, uint64_t state, const uint8_t *segment, size_t len,
                    size_t block_len, struct expected *out)
{
    static struct text text;
    bool carried[MOST_BASES], next[MOST_BASES];
    uint8_t turned[MOST_BASES] = {0};
    out->result_count = out->mark_count = 0;
    out->answer = entry_refusal(pattern, m, state, len);
    if (out->answer == 0) {
        forget(&text);
        out->answer = read_segments(segment, len, 0, 1, &text);
    }
    if (out->answer == 0 && block_len < 16) {
        out->answer = refused(10, 0);
    }
    if (out->answer == 0) {
        lengths_in(state, carried);
        out->result_count = 2;
        out->results[1] = pass(read_on(strand, pattern, m, turned), m, carried, &text, 0, next);
        out->results[0] = state_of(m, next);
    }
}

/* The definition of an occurrence once more, a start at a time. */

static bool any(const bool *lengths, size_t m)
{
    for (size_t r = 1; r < m; r++) {
        if (lengths[r]) {
            return true;
        }
    }
    return false;
}

/* Marks the segments after i in which an occurrence ends that starts with a suffix of a variant of i. */
static void mark_from(const uint8_t *pattern, size_t m, const struct text *text, size_t i, uint8_t *marks)
{
    bool reached[MOST_BASES] = {false};
    const struct segment *start = &text->segments[i];
    for (size_t v = start->first; v < start->first + start->count; v++) {
        add_starts(pattern, m, &text->variants[v], reached);
    }
    for (size_t j = i + 1; j < text->segment_count && any(reached, m); j++) {
        const struct segment *segment = &text->segments[j];
        bool next[MOST_BASES] = {false};
        for (size_t v = segment->first; v < segment->first + segment->count; v++) {
            for (size_t q = 1; q < m; q++) {
                if (reached[q]) {
                    marks[j] |= finishes(pattern, m, q, &text->variants[v]);
                    add_passed(pattern, m, q, &text->variants[v], next);
                }
            }
        }
        memcpy(reached, next, sizeof reached);
    }
}

void reference_marks_by_starts(const uint8_t *pattern, size_t m, const struct text *text, uint8_t *marks)
{
    memset(marks, 0, text->segment_count);
    for (size_t j = 0; j < text->segment_count; j++) {
        const struct segment *segment = &text->segments[j];
        for (size_t v = segment->first; v < segment->first + segment->count; v++) {
            marks[j] |= inside(pattern, m, &text->variants[v]);
        }
        mark_from(pattern, m, text, j, marks);
    }
}
