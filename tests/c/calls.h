/* One call of a C form in guarded rooms, compared with the reference in its answer and in every byte that was lent. */
#ifndef CALLS_H
#define CALLS_H

#include "guarded.h"
#include "reference.h"

#include <stdbool.h>

/* The searches of one stretch, those from a state, the first hit from a state, then the feeds. */
enum form {
    SEARCH_BITS,
    SEARCH_BORDERS,
    SEARCH_BITS_OPPOSITE,
    SEARCH_BORDERS_OPPOSITE,
    SEARCH_EITHER,
    SEARCH_FROM,
    SEARCH_FROM_OPPOSITE,
    FIRST,
    FIRST_OPPOSITE,
    FEED,
    FEED_OPPOSITE,
    FORMS
};

struct call {
    const uint8_t *pattern;
    size_t m;
    uint64_t state; /* the searches of one stretch do not take it */
    const uint8_t *bytes;
    size_t len;
    size_t marks_len; /* only the searches take it */
    size_t block_len;
};

/* What the reference says to the call. */
void call_expect(enum form form, const struct call *call, struct expected *expected);

/* Calls the form once. Prints a line for each thing that differs, and the call; after some calls that differ, nothing more. */
bool call_agrees(enum form form, const struct call *call, enum placement placement, const struct expected *expected);

/* How many calls of forms were made so far. */
extern uint64_t calls_made;

#endif
