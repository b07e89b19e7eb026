/* The time that calls take. */
#ifndef TIMING_H
#define TIMING_H

#include "calls.h"

/* The questions that a call is timed on, one after another: that many that the processor cannot learn their branches by heart. And how
   many calls may be timed in turn. */
enum { QUESTIONS = 16, MOST_TIMED = 32 };

/* The nanoseconds that each of some calls takes for all questions: of each question the least of many times, the calls in turn, so
   that what else goes on hits all of them alike. */
void calls_time(const struct call *const *calls, size_t count, const struct question questions[QUESTIONS], double *nanoseconds);

#endif
