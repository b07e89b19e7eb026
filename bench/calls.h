/* The calls that are measured, by name: the library's and the yardsticks in C. */
#ifndef CALLS_H
#define CALLS_H

#include <stddef.h>
#include <stdint.h>

struct call;

/* A pattern and the bytes of a stretch. */
struct question {
    const uint8_t *pattern, *stretch;
    size_t m, len;
};

const struct call *call_named(const char *name); /* NULL if there is none */

uint64_t call_run(const struct call *call, const struct question *question);

/* How many of all calls do not answer, mark and count what the reference says; each is named. Those that trust the bytes are asked of
   sound ones alone. */
size_t calls_differ(const struct question *question);

#endif
