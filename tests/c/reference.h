/* The reference that the C forms are compared with: what document 01 says that each must answer and write. */
#ifndef REFERENCE_H
#define REFERENCE_H

#include <stdbool.h>
#include <stddef.h>
#include <stdint.h>

#define MOST_BASES 64
#define MOST_BYTES 32768
#define MOST_SEGMENTS 10922
#define MOST_VARIANTS 16384 /* each takes two bytes at least */

struct variant {
    const uint8_t *letters;
    size_t len;
};

struct segment {
    size_t first, count; /* its variants, in the text's list */
};

struct text {
    struct variant variants[MOST_VARIANTS];
    struct segment segments[MOST_SEGMENTS];
    size_t variant_count, segment_count;
};

/* The base that a letter of a text means, in upper case; N for an unknown one; 0 for a byte that is no letter. */
uint8_t letter_meaning(uint8_t byte);
bool letters_alike(const uint8_t *a, const uint8_t *b, size_t len);

/* What a call must return, write into its block (8 bytes each) and write into its marks. Refused: nothing is written. */
struct expected {
    uint64_t answer;
    uint64_t results[4];
    size_t result_count, mark_count;
    uint8_t marks[MOST_SEGMENTS];
};

/* The strand on which a pattern is read: as given, or its reverse complement. */
enum strand { GIVEN, OPPOSITE };

void reference_search(enum strand strand, const uint8_t *pattern, size_t m, const uint8_t *stretch, size_t len, size_t marks_len,
                      size_t block_len, struct expected *out);

/* From a state: 1, 2, 3, 4, 17, then as the search; the fourth result is the state after the stretch. */
void reference_from(enum strand strand, const uint8_t *pattern, size_t m, uint64_t state, const uint8_t *stretch, size_t len,
                    size_t marks_len, size_t block_len, struct expected *out);

/* The first hit: 1, 2, 3, 4, 17; then the first of the segments that read whole before the first fault in which an occurrence ends, and
   the state 0; else that fault's refusal, or NO_HIT and the state after a sound stretch; 10 last. */
#define NO_HIT 4294967295
void reference_first(enum strand strand, const uint8_t *pattern, size_t m, uint64_t state, const uint8_t *stretch, size_t len,
                     size_t block_len, struct expected *out);
void reference_feed(enum strand strand, const uint8_t *pattern, size_t m, uint64_t state, const uint8_t *segment, size_t len,
                    size_t block_len, struct expected *out);

/* A segment is marked when either strand ends there. */
void reference_either(const uint8_t *pattern, size_t m, const uint8_t *stretch, size_t len, size_t marks_len, size_t block_len,
                      struct expected *out);

/* The text of a stretch; or its refusal (number + 256 * place), and the segments that read whole before the fault. */
uint64_t reference_read(const uint8_t *stretch, size_t len, struct text *text);

/* The marks of a text once more, by trying every start of an occurrence by itself: slow, and the definition to the letter. */
void reference_marks_by_starts(const uint8_t *pattern, size_t m, const struct text *text, uint8_t *marks);

#endif
