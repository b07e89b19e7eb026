/* The time that calls take (timing.h). */
#define _POSIX_C_SOURCE 199309L
#include "timing.h"

#include <time.h>

/* A call on one question is timed in slices of at least SLICE nanoseconds, so that the clock costs little; there are at least LEAST rounds
   over all questions, and more up to MOST rounds or BUDGET nanoseconds. */
enum { SLICE = 2000, LEAST = 10, MOST = 500, BUDGET = 200000000 };

static double now(void)
{
    struct timespec time;
    clock_gettime(CLOCK_MONOTONIC, &time);
    return (double)time.tv_sec * 1e9 + (double)time.tv_nsec;
}

static double slice(const struct call *call, const struct question *question, size_t times)
{
    double began = now();
    for (size_t i = 0; i < times; i++) {
        call_run(call, question);
    }
    return (now() - began) / (double)times;
}

/* Goes over all questions once; least has the least time of each so far. Returns the nanoseconds that this took. */
static double go_over(const struct call *call, const struct question questions[QUESTIONS], double least[QUESTIONS])
{
    double began = now();
    for (size_t k = 0; k < QUESTIONS; k++) {
        double took = slice(call, questions + k, 1 + (size_t)(SLICE / least[k]));
        least[k] = took < least[k] ? took : least[k];
    }
    return now() - began;
}

void calls_time(const struct call *const *calls, size_t count, const struct question questions[QUESTIONS], double *nanoseconds)
{
    double least[MOST_TIMED][QUESTIONS], spent[MOST_TIMED] = {0};
    for (size_t i = 0; i < count; i++) {
        for (size_t k = 0; k < QUESTIONS; k++) {
            least[i][k] = slice(calls[i], questions + k, 1);
        }
    }
    for (size_t round = 0; round < MOST; round++) {
        for (size_t i = 0; i < count; i++) {
            if (round < LEAST || spent[i] < BUDGET) {
                spent[i] += go_over(calls[i], questions, least[i]);
            }
        }
    }
    for (size_t i = 0; i < count; i++) {
        nanoseconds[i] = 0;
        for (size_t k = 0; k < QUESTIONS; k++) {
            nanoseconds[i] += least[i][k];
        }
    }
}
