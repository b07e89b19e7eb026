/* Counts tests. A test is a name and the checks made under it; it fails if one of them does. Tests stand in groups. */
#ifndef TALLY_H
#define TALLY_H

#include "calls.h"
#include "making.h"

void tally_group(const char *name);
void tally_test(const char *format, ...);
void tally_check(bool holds, const char *what);

/* Prints the counts, the sum as the last line; the exit status. */
int tally_end(void);

/* Calls the form with its slices in both placements and holds it to the reference, whose answer is returned. */
uint64_t try_call(enum form form, const struct call *call);
void try_searches(const struct call *call); /* by each search; those from a state get 8 bytes more of block, for the next one */
void try_from(const struct call *call);     /* by each search from a state */
void try_first(const struct call *call);    /* the first hit, on each strand */
void try_feed(const struct call *call);     /* by each feed */

/* Feeds the segments of a text one by one, the first with the search's state, each other with the state that the one before gave.
   Tells the state after each of them and whether an occurrence ends there. */
struct fed {
    uint64_t state, ends;
};
void try_feeds(const struct call *search, const struct made *made, struct fed fed[MOST_SEGMENTS]);

/* A call that is known to be refused so. */
void try_refusal(enum form form, const struct call *call, uint64_t number, uint64_t place);
void try_refused_searches(const struct call *call, uint64_t number, uint64_t place);
void try_refused_from(const struct call *call, uint64_t number, uint64_t place);
void try_refused_first(const struct call *call, uint64_t number, uint64_t place);
void try_refused_feeds(const struct call *call, uint64_t number, uint64_t place);

#endif
