/* Cerantuh's C forms: the searches, the first hit and the feed, on either strand, for x86-64 Linux. Link
   crates/cerantuh/out/libcerantuh.a, which 'rt lib' builds in crates/cerantuh. docs/FORMAT.md has the bytes of a stretch and says when
   each refusal is given.

   Which form. cerantuh_search_bits, _borders and _either, and those on the opposite strand, speak of ONE stretch. A text of many
   stretches is searched by cerantuh_search_from with the state handed on: an occurrence that begins in one stretch and ends in a
   later one is seen by no search of each stretch alone. cerantuh_first is for whoever asks only whether a text is clear: the state is
   handed on in the same way, and a stretch is read up to the first segment in which something ends. cerantuh_feed is for segments that
   come one by one.

   Memory. Every pointer comes with its length in bytes, and lends that many bytes for the time of the call. The caller owns
   them before and after; nothing is kept, nothing is allocated, nothing is freed. A slice of length 0 may have any pointer,
   NULL too. The lent slices must not overlap. What is lent as const is only read. The calls have no state of their own, so
   any number of threads may call at once with slices of their own.

   Letters. A text's letters are A, C, G, T, and N for a base that is unknown; in lower case they mean the same. Letters are equal by
   what they mean, also where a variant is compared with those before it; N equals itself and no base of a pattern. A pattern has
   A, C, G and T alone, in upper case.

   Answers. Each call returns one number: 0 is accepted, anything else is a refusal with a place. Take it apart by

       cerantuh_number(r)   1 to 10, 16 or 17 (below)
       cerantuh_place(r)    where: a byte of the pattern (3), of the stretch or lone segment (5 to 9), 0 otherwise

   Only an accepted call writes, and then it writes all its results. A refused call changes no lent byte. */
#ifndef CERANTUH_H
#define CERANTUH_H

#include <stddef.h>
#include <stdint.h>

#ifdef __cplusplus
extern "C" {
#endif

#define CERANTUH_GREATEST_PATTERN 64    /* bases of a pattern, at most */
#define CERANTUH_GREATEST_STRETCH 32768 /* bytes of a stretch or lone segment, at most */
#define CERANTUH_MOST_SEGMENTS 10922    /* segments of a stretch, at most: a mark buffer of so many bytes always suffices */
#define CERANTUH_SEARCH_BLOCK 24        /* bytes of a search's results */
#define CERANTUH_FROM_BLOCK 32          /* bytes of the results of a search from a state */
#define CERANTUH_FIRST_BLOCK 16         /* bytes of the results of the first hit */
#define CERANTUH_FEED_BLOCK 16          /* bytes of a feed's results */
#define CERANTUH_FRESH_STATE 1          /* the state before the first segment */
#define CERANTUH_NO_SEGMENT 4294967295  /* what the first hit gives in the place of a segment where nothing ends */

/* The refusals. The first that applies is given, in this order: 1, 2, 3, 4, 17 from the forms that take a state, then 5
   to 8 in the order of the bytes (of one variant 5, then 7, then 8), 9, 16, and 10 last. Where a first hit was found, none of 5 to 9 and
   16 is given, whatever stands after it. */
enum cerantuh_refusal {
    CERANTUH_ACCEPTED = 0,
    CERANTUH_PATTERN_EMPTY = 1,
    CERANTUH_PATTERN_LONG = 2,      /* over 64 bases */
    CERANTUH_PATTERN_LETTER = 3,    /* a byte that is not A, C, G or T; place: the first such byte */
    CERANTUH_STRETCH_LONG = 4,      /* over 32,768 bytes */
    CERANTUH_BYTES_END = 5,         /* inside a count or length, or before the letters it states; place: its start */
    CERANTUH_NO_VARIANTS = 6,       /* a variant count of 0; place: that count */
    CERANTUH_LETTER = 7,            /* a letter that is not A, C, G, T or N, nor one of them in lower case; place: that letter */
    CERANTUH_REPEATED = 8,          /* a variant equal to an earlier one of its segment; place: its length field */
    CERANTUH_BYTES_LEFT = 9,        /* bytes after the last segment; place: the first of them */
    CERANTUH_TOO_SHORT = 10,        /* marks_len below the segment count, or block_len below the bytes of the results */
    CERANTUH_SEGMENTS = 16,         /* over 10,922 segments; the 32,768 bytes have no room for them, so it never comes */
    CERANTUH_STATE = 17             /* bit 0 clear, or a bit set from the pattern's length up */
};

static inline unsigned cerantuh_number(uint64_t r) { return (unsigned)(r & 255); }
static inline uint64_t cerantuh_place(uint64_t r) { return r >> 8; }

/* The number at index i of a block: 8 bytes, low byte first. */
static inline uint64_t cerantuh_result(const uint8_t *block, size_t i)
{
    uint64_t value = 0;
    for (size_t k = 8; k > 0; k--) {
        value = value * 256 + block[8 * i + k - 1];
    }
    return value;
}

/* Searches the pattern in one stretch, as if nothing stood before or after it. Both searches give the same answers; the one by
   bit-vectors is the faster.

   pattern  the bases of the pattern, 1 to 64 bytes
   stretch  the bytes of the stretch, from its segment count to the end of its last segment
   marks    lent for the marks: byte j becomes 1 if an occurrence ends in segment j, and 0 if none does; bytes from the segment
            count on stay
   block    lent for the results, 24 bytes: result 0 is the segment count, 1 the size (letters in all variants, where the empty
            variant counts as one letter), 2 the number of segments marked 1; bytes from 24 on stay */
uint64_t cerantuh_search_bits(const uint8_t *pattern, size_t pattern_len, const uint8_t *stretch, size_t stretch_len,
                              uint8_t *marks, size_t marks_len, uint8_t *block, size_t block_len);
uint64_t cerantuh_search_borders(const uint8_t *pattern, size_t pattern_len, const uint8_t *stretch, size_t stretch_len,
                                 uint8_t *marks, size_t marks_len, uint8_t *block, size_t block_len);

/* The same searches on the opposite strand: they look for the reverse complement of the pattern (A with T, C with G, the order
   reversed). The pattern is handed in as given, and the place in refusal 3 counts there. */
uint64_t cerantuh_search_bits_opposite(const uint8_t *pattern, size_t pattern_len, const uint8_t *stretch, size_t stretch_len,
                                       uint8_t *marks, size_t marks_len, uint8_t *block, size_t block_len);
uint64_t cerantuh_search_borders_opposite(const uint8_t *pattern, size_t pattern_len, const uint8_t *stretch,
                                          size_t stretch_len, uint8_t *marks, size_t marks_len, uint8_t *block,
                                          size_t block_len);

/* Both strands at once, in one walk: byte j of the marks becomes 1 if an occurrence of the pattern or of its reverse complement ends
   in segment j; a segment that both strands mark counts once. */
uint64_t cerantuh_search_either(const uint8_t *pattern, size_t pattern_len, const uint8_t *stretch, size_t stretch_len,
                                uint8_t *marks, size_t marks_len, uint8_t *block, size_t block_len);

/* Searches a text of many stretches, a stretch at a time and in order: the first from CERANTUH_FRESH_STATE, each other from the state
   that the one before gave, with the same pattern. The marks, laid end to end, are then those of the whole text, and none is lost
   at a cut. From CERANTUH_FRESH_STATE it marks and counts what cerantuh_search_bits does.

   pattern  the bases of the pattern, the same at each stretch
   state    bit 0 is set; bit r is set if the first r bases of the pattern end where the stretch before ended
   stretch  the bytes of the stretch
   marks    lent for the marks: byte j becomes 1 if an occurrence ends in segment j of this stretch, wherever it begins, and 0 if
            none does; bytes from the segment count on stay
   block    lent for the results, 32 bytes: result 0 is the segment count, 1 the size, 2 the number of segments marked 1, all of
            this stretch, and 3 the next state; bytes from 32 on stay

   A refused call gives no state, and without one the stretches after it cannot be searched: such a text is not known to be clear. */
uint64_t cerantuh_search_from(const uint8_t *pattern, size_t pattern_len, uint64_t state, const uint8_t *stretch,
                              size_t stretch_len, uint8_t *marks, size_t marks_len, uint8_t *block, size_t block_len);

/* The same on the opposite strand: a search of both strands keeps a state for each. */
uint64_t cerantuh_search_from_opposite(const uint8_t *pattern, size_t pattern_len, uint64_t state, const uint8_t *stretch,
                                       size_t stretch_len, uint8_t *marks, size_t marks_len, uint8_t *block,
                                       size_t block_len);

/* Asks whether a stretch is clear, and if not, for the first segment in which an occurrence ends. Nothing after that segment is read, so
   that no fault there is seen; of a clear stretch all is read. A fault before any end, or inside the segment itself, is refused. The
   stretches of a text are asked in order: the first from CERANTUH_FRESH_STATE, each other from the state that the one before gave, until
   something ends or a call is refused. The text is clear if every one of its stretches was accepted and gave CERANTUH_NO_SEGMENT.

   pattern  the bases of the pattern, the same at each stretch
   state    as for cerantuh_search_from: the states of the two are the same, so that either may follow the other
   stretch  the bytes of the stretch
   block    lent for the results, 16 bytes: result 0 is the first segment of this stretch in which an occurrence ends, wherever it
            begins, or CERANTUH_NO_SEGMENT; 1 is the next state where nothing ends, and 0, which is no state, where something does; bytes
            from 16 on stay */
uint64_t cerantuh_first(const uint8_t *pattern, size_t pattern_len, uint64_t state, const uint8_t *stretch, size_t stretch_len,
                        uint8_t *block, size_t block_len);

/* The same on the opposite strand: whoever asks for both strands keeps a state for each. */
uint64_t cerantuh_first_opposite(const uint8_t *pattern, size_t pattern_len, uint64_t state, const uint8_t *stretch,
                                 size_t stretch_len, uint8_t *block, size_t block_len);

/* Feeds one segment to a search that goes from segment to segment: the first is fed with CERANTUH_FRESH_STATE, each other with
   the state that the one before gave. Feeding costs some 1,000 instructions a segment for its tables (500 to 1,400, by the
   pattern's length), and cerantuh_search_from as much for a whole stretch: that is the form for whoever has whole stretches. Their
   states are the same, so that either may follow the other.

   pattern  the bases of the pattern, the same at each segment
   state    bit 0 is set; bit r is set if the first r bases of the pattern end where the segment before ended
   segment  the bytes of a lone segment: those it has in a stretch, without the stretch's segment count
   block    lent for the results, 16 bytes: result 0 is the next state, 1 is 1 if an occurrence ends in this segment and 0 if none
            does; bytes from 16 on stay */
uint64_t cerantuh_feed(const uint8_t *pattern, size_t pattern_len, uint64_t state, const uint8_t *segment, size_t segment_len,
                       uint8_t *block, size_t block_len);

/* The same on the opposite strand: a search of both strands keeps a state for each. */
uint64_t cerantuh_feed_opposite(const uint8_t *pattern, size_t pattern_len, uint64_t state, const uint8_t *segment,
                                size_t segment_len, uint8_t *block, size_t block_len);

#ifdef __cplusplus
}
#endif

#endif
