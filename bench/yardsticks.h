/* What the library is measured beside. Each is called as the C form of a search is, but for the last. */
#ifndef YARDSTICKS_H
#define YARDSTICKS_H

#include <stddef.h>
#include <stdint.h>

typedef uint64_t search_form(const uint8_t *pattern, size_t m, const uint8_t *stretch, size_t len, uint8_t *marks,
                             size_t marks_len, uint8_t *block, size_t block_len);

search_form plain;        /* plain.c: the search by bit-vectors with every check, as it is first written */

/* shiftand.c: the same, tuned, in three ways; and the one that trusts the bytes */
search_form search_early, search_memcmp, search_prints, trusting;

/* validate.c: the checks alone, in the same ways; of the results the segment count and the size */
search_form check_early, check_memcmp, check_prints;

search_form edsmbv;       /* edsmbv.c: document 001's algorithm, which trusts the bytes */
search_form floor_memchr; /* floor.c */

/* variants.c: the stretch of a window from a variant file. Called and answered as bench_build is (bench_calls.h): 256 times the bytes of
   the stretch, or the number of the refusal and 256 times its place. */
uint64_t read_variants(const uint8_t *file, size_t len, const uint8_t *window, size_t bases, size_t first, const uint8_t *name,
                       size_t name_len, uint8_t *out, size_t room);

#endif
