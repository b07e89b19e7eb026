/* Random texts, patterns and damage (making.h). */
#include "making.h"

#include <string.h>

enum { LOWER = 'a' ^ 'A' };

/* splitmix64 */
uint64_t random_next(struct random *random)
{
    uint64_t z = random->state += 0x9E3779B97F4A7C15;
    z = (z ^ z >> 30) * 0xBF58476D1CE4E5B9;
    z = (z ^ z >> 27) * 0x94D049BB133111EB;
    return z ^ z >> 31;
}

size_t random_below(struct random *random, size_t n) { return random_next(random) % n; }

static size_t word(const uint8_t *bytes) { return bytes[0] + 256u * bytes[1]; }

static void set_word(uint8_t *bytes, size_t value)
{
    bytes[0] = (uint8_t)(value % 256);
    bytes[1] = (uint8_t)(value / 256);
}

/* Building a stretch. */

void made_begin(struct made *made)
{
    made->segment_count = 0;
    made->len = 2;
}

void made_segment(struct made *made)
{
    made->segment_at[made->segment_count++] = made->len;
    made->bytes[made->len++] = 0;
}

void made_variant(struct made *made, const uint8_t *letters, size_t len)
{
    made->bytes[made->segment_at[made->segment_count - 1]]++;
    set_word(made->bytes + made->len, len);
    memcpy(made->bytes + made->len + 2, letters, len);
    made->len += 2 + len;
}

void made_end(struct made *made)
{
    made->segment_at[made->segment_count] = made->len;
    set_word(made->bytes, made->segment_count);
}

void made_part(const struct made *whole, size_t first, size_t behind, struct made *part)
{
    made_begin(part);
    for (size_t j = first; j < behind; j++) {
        size_t at = whole->segment_at[j], len = whole->segment_at[j + 1] - at;
        part->segment_at[part->segment_count++] = part->len;
        memcpy(part->bytes + part->len, whole->bytes + at, len);
        part->len += len;
    }
    made_end(part);
}

/* Where variant v of segment j starts, that is, its length field. */
static size_t variant_at(const struct made *made, size_t j, size_t v)
{
    size_t at = made->segment_at[j] + 1;
    for (; v > 0; v--) {
        at += 2 + word(made->bytes + at);
    }
    return at;
}

static bool already_there(const struct made *made, const uint8_t *letters, size_t len)
{
    size_t j = made->segment_count - 1, at = made->segment_at[j] + 1;
    for (; at < made->len; at += 2 + word(made->bytes + at)) {
        if (word(made->bytes + at) == len && letters_alike(made->bytes + at + 2, letters, len)) {
            return true;
        }
    }
    return false;
}

/* Random texts. */

struct shape shape_any(struct random *random)
{
    static const size_t segments[] = {2, 4, 8, 8, 16, 40}, variants[] = {1, 2, 3, 3, 5, 12}, lengths[] = {1, 2, 3, 5, 12, 80};
    static const size_t masked[] = {0, 0, 1, 2, 4, 16};
    struct shape shape = {1 + random_below(random, 4), segments[random_below(random, 6)], variants[random_below(random, 6)],
                          lengths[random_below(random, 6)], random_below(random, 4), masked[random_below(random, 6)]};
    return shape;
}

static void draw_letters(struct random *random, size_t alphabet, uint8_t *letters, size_t len)
{
    for (size_t k = 0; k < len; k++) {
        letters[k] = (uint8_t)"GATC"[random_below(random, alphabet)];
    }
}

/* Some letters in lower case, and some unknown. */
static void mask_letters(struct random *random, size_t one_of, uint8_t *letters, size_t len)
{
    for (size_t k = 0; k < len && one_of > 0; k++) {
        if (random_below(random, 4 * one_of) == 0) {
            letters[k] = 'N';
        }
        if (random_below(random, one_of) == 0) {
            letters[k] |= LOWER;
        }
    }
}

/* A variant that the open segment has not got; none after some tries that failed, unless it would have none at all. */
static void draw_variant(struct random *random, const struct shape *shape, struct made *made)
{
    uint8_t letters[MOST_BYTES];
    for (size_t tries = 0; tries < 4; tries++) {
        bool empty = shape->empties > 0 && random_below(random, shape->empties) == 0;
        size_t len = empty ? 0 : random_below(random, shape->length + 1);
        draw_letters(random, shape->letters, letters, len);
        mask_letters(random, shape->masked, letters, len);
        if (!already_there(made, letters, len)) {
            made_variant(made, letters, len);
            return;
        }
    }
}

void make_text(struct random *random, const struct shape *shape, struct made *made)
{
    size_t segments = random_below(random, shape->segments + 1);
    made_begin(made);
    for (size_t j = 0; j < segments; j++) {
        size_t variants = 1 + random_below(random, shape->variants);
        if (made->len + 1 + variants * (2 + shape->length) > MOST_BYTES) {
            break;
        }
        made_segment(made);
        for (size_t v = 0; v < variants; v++) {
            draw_variant(random, shape, made);
        }
    }
    made_end(made);
}

/* The bases that letters mean, and any for one that is unknown. */
static void settle(struct random *random, uint8_t *letters, size_t len)
{
    for (size_t k = 0; k < len; k++) {
        letters[k] = letter_meaning(letters[k]);
        if (letters[k] == 'N') {
            draw_letters(random, 4, letters + k, 1);
        }
    }
}

/* Bases that some choice of variants spells, from a random segment on. */
static size_t spell(struct random *random, const struct made *made, uint8_t *letters, size_t most)
{
    size_t len = 0;
    for (size_t j = random_below(random, made->segment_count); j < made->segment_count && len < most; j++) {
        size_t at = variant_at(made, j, random_below(random, made->bytes[made->segment_at[j]]));
        size_t taken = word(made->bytes + at) < most - len ? word(made->bytes + at) : most - len;
        memcpy(letters + len, made->bytes + at + 2, taken);
        len += taken;
    }
    settle(random, letters, len);
    return len;
}

size_t make_pattern(struct random *random, const struct made *made, uint8_t pattern[MOST_BASES])
{
    static const size_t least[] = {1, 1, 1, 1, 1, MOST_BASES - 1}, most[] = {6, 6, 6, 20, MOST_BASES, MOST_BASES};
    uint8_t letters[3 * MOST_BASES];
    size_t kind = random_below(random, 6), m = least[kind] + random_below(random, most[kind] - least[kind] + 1);
    size_t spelt = made->segment_count == 0 ? 0 : spell(random, made, letters, sizeof letters);
    size_t from = spelt == 0 ? 0 : random_below(random, spelt);
    if (spelt - from < m && spelt > from && random_below(random, 2) == 0) {
        m = spelt - from;
    }
    draw_letters(random, 1 + random_below(random, 4), pattern, m);
    memcpy(pattern, letters + from, spelt - from < m ? spelt - from : m);
    if (random_below(random, 8) == 0) {
        draw_letters(random, 4, pattern + random_below(random, m), 1);
    }
    return m;
}

/* Damage. */

void damage_byte(struct random *random, struct made *made)
{
    if (made->len > 0) {
        made->bytes[random_below(random, made->len)] ^= (uint8_t)(1 + random_below(random, 255));
    }
}

void damage_cut(struct random *random, struct made *made)
{
    if (made->len > 0) {
        made->len = random_below(random, made->len);
    }
}

void damage_more(struct random *random, struct made *made)
{
    for (size_t more = 1 + random_below(random, 4); more > 0; more--) {
        made->bytes[made->len++] = (uint8_t)random_next(random);
    }
}

void damage_splice(struct random *random, struct made *made, const struct made *other)
{
    size_t keep = random_below(random, made->len + 1), from = random_below(random, other->len + 1);
    memcpy(made->bytes + keep, other->bytes + from, other->len - from);
    made->len = keep + other->len - from;
}

void damage_length(struct random *random, struct made *made)
{
    size_t j = random_below(random, made->segment_count);
    size_t at = variant_at(made, j, random_below(random, made->bytes[made->segment_at[j]]));
    set_word(made->bytes + at, made->len - at - 1 + random_below(random, 65536 - made->len));
}

void damage_count(struct random *random, struct made *made)
{
    made->bytes[made->segment_at[random_below(random, made->segment_count)]] = 0;
}

void damage_letter(struct random *random, struct made *made)
{
    static const uint8_t wrong[] = {0, 0x01, '!', '.', '@', '[', '`', '{', 'B', 'b', 'M', 'm', 'O', 'o', 'R', 'U', 0xC1, 0xEE, 0xFF};
    size_t j = random_below(random, made->segment_count);
    size_t at = variant_at(made, j, random_below(random, made->bytes[made->segment_at[j]]));
    if (word(made->bytes + at) > 0) {
        made->bytes[at + 2 + random_below(random, word(made->bytes + at))] = wrong[random_below(random, sizeof wrong)];
    }
}

/* Puts a variant of a segment once more at the segment's end, in any case. */
void damage_repeat(struct random *random, struct made *made)
{
    size_t j = random_below(random, made->segment_count), end = made->segment_at[j + 1];
    size_t at = variant_at(made, j, random_below(random, made->bytes[made->segment_at[j]]));
    size_t len = 2 + word(made->bytes + at);
    memmove(made->bytes + end + len, made->bytes + end, made->len - end);
    memcpy(made->bytes + end, made->bytes + at, len);
    for (size_t k = 2; k < len; k++) {
        made->bytes[end + k] ^= random_below(random, 4) == 0 ? LOWER : 0;
    }
    made->bytes[made->segment_at[j]]++;
    made->len += len;
}

void damage_any(struct random *random, struct made *made, const struct made *other)
{
    size_t kind = random_below(random, made->segment_count == 0 ? 4 : 8);
    switch (kind) {
    case 0: damage_byte(random, made); break;
    case 1: damage_cut(random, made); break;
    case 2: damage_more(random, made); break;
    case 3: damage_splice(random, made, other); break;
    case 4: damage_length(random, made); break;
    case 5: damage_count(random, made); break;
    case 6: damage_letter(random, made); break;
    default: damage_repeat(random, made); break;
    }
}
