/* Random texts, patterns that can be read out of them, and damage, all from a seed. */
#ifndef MAKING_H
#define MAKING_H

#include "reference.h"

struct random {
    uint64_t state;
};

uint64_t random_next(struct random *random);
size_t random_below(struct random *random, size_t n); /* 0 to n - 1; n is not 0 */

/* A sound stretch. Damage changes bytes and len alone, so that the rest says what the stretch was. */
struct made {
    uint8_t bytes[2 * MOST_BYTES];
    size_t len;
    size_t segment_count;
    size_t segment_at[MOST_SEGMENTS + 1]; /* where each segment starts, and where the last one ends */
};

/* How a text is drawn: each number is the most there may be. */
struct shape {
    size_t letters; /* of the alphabet, 1 to 4 */
    size_t segments, variants, length;
    size_t empties; /* one variant of so many is empty, and more by chance; 0: by chance alone */
    size_t masked;  /* one letter of so many is in lower case, and one of four times as many is unknown; 0: none */
};

struct shape shape_any(struct random *random);
void make_text(struct random *random, const struct shape *shape, struct made *made);

/* A stretch from the bytes of segments that were put after a count: begin, then a segment at a time, then end. */
void made_begin(struct made *made);
void made_variant(struct made *made, const uint8_t *letters, size_t len); /* into the segment that is open */
void made_segment(struct made *made);                                     /* closes the open segment and opens one */
void made_end(struct made *made);

/* The segments of a text from one on, up to the one after them, as a stretch of their own. */
void made_part(const struct made *whole, size_t first, size_t behind, struct made *part);

/* A pattern of 1 to 64 bases, most often one that the text spells. Returns its bases. */
size_t make_pattern(struct random *random, const struct made *made, uint8_t pattern[MOST_BASES]);

/* Damage: one byte to any other; cut; bytes more; a piece of one stretch into another; and what gives one refusal by intent. */
void damage_byte(struct random *random, struct made *made);
void damage_cut(struct random *random, struct made *made);
void damage_more(struct random *random, struct made *made);
void damage_splice(struct random *random, struct made *made, const struct made *other);
void damage_length(struct random *random, struct made *made);   /* a length over what is left: 5 */
void damage_count(struct random *random, struct made *made);    /* a variant count of 0: 6 */
void damage_letter(struct random *random, struct made *made);   /* 7, if the text has a letter */
void damage_repeat(struct random *random, struct made *made);   /* 8 */
void damage_any(struct random *random, struct made *made, const struct made *other);

#endif
