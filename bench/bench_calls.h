/* The C side of crate bench_calls (crates/bench_calls/out/libbench_calls.a): the calls that have no C form. A slice is a pointer and a length. */
#ifndef PACED_H
#define PACED_H

#include <stddef.h>
#include <stdint.h>

uint64_t bench_check(const uint8_t *stretch, size_t len);
uint64_t bench_card(const uint8_t *pattern, size_t m, const uint8_t *stretch, size_t len);
uint64_t bench_ask(const uint8_t *pattern, size_t m, const uint8_t *stretch, size_t len);
uint64_t bench_join(const uint8_t *pattern, size_t m, const uint8_t *stretch, size_t len);
uint64_t bench_watch(const uint8_t *pattern, size_t m, size_t records, const uint8_t *stretch, size_t len);
uint64_t bench_build(const uint8_t *file, size_t len, const uint8_t *window, size_t bases, size_t first, const uint8_t *name,
                     size_t name_len, uint8_t *out, size_t room);

#endif
