/* Measures calls (calls.c) on data (data.c).
     pace run CALL DATA BYTES M TIMES     makes the call so many times, for something outside to count the instructions
     pace time DATA BYTES M CALL...       prints the nanoseconds of each call on such data, the least of many
     pace size DATA BYTES M               prints bytes, segments and variants of the data
     pace check                           compares the answers of all calls with the reference, on the data and on random texts, up
                                          to the first text on which one differs */
#include "calls.h"
#include "data.h"
#include "timing.h"

#include <stdio.h>
#include <stdlib.h>
#include <string.h>

static struct made made;
static uint8_t pattern[MOST_BASES];

static struct question question_of(size_t m) { return (struct question){pattern, made.bytes, m, made.len}; }

static int size(void)
{
    static struct text text;
    if (reference_read(made.bytes, made.len, &text) != 0) {
        return 1;
    }
    printf("%zu %zu %zu\n", made.len, text.segment_count, text.variant_count);
    return 0;
}

static size_t differ_on(size_t m)
{
    struct question question = question_of(m);
    return calls_differ(&question);
}

static int check(void)
{
    static struct made other;
    struct random random = {1};
    data_make("D", 0, MOST_BYTES, 5, &made, pattern);
    size_t differ = differ_on(5), tried = 1;
    for (size_t i = 0; data_name(i) != NULL; i++) {
        for (size_t m = 1; m <= MOST_BASES; m++, tried++) {
            data_make(data_name(i), m, MOST_BYTES, m, &made, pattern);
            differ += differ_on(m);
        }
    }
    for (; tried < 100000 && differ == 0; tried++) {
        struct shape shape = shape_any(&random);
        make_text(&random, &shape, &made);
        size_t m = make_pattern(&random, &made, pattern);
        if (random_below(&random, 2) == 0) {
            make_text(&random, &shape, &other);
            damage_any(&random, &made, &other);
        }
        differ += differ_on(m);
    }
    printf("%zu texts, %zu answers differ from the reference\n", tried, differ);
    return differ > 0;
}

static int run(const char *name, size_t m, size_t times)
{
    const struct call *call = call_named(name);
    struct question question = question_of(m);
    for (; call != NULL && times > 0; times--) {
        call_run(call, &question);
    }
    return call == NULL ? 2 : 0;
}

/* Of QUESTIONS stretches of this kind, as much as one of the first's bytes takes. */
static int time_of(const char *data, size_t most, size_t m, size_t count, char **names)
{
    static struct made texts[QUESTIONS];
    static uint8_t patterns[QUESTIONS][MOST_BASES];
    const struct call *calls[MOST_TIMED];
    struct question questions[QUESTIONS];
    double nanoseconds[MOST_TIMED], bytes = 0;
    if (count == 0 || count > MOST_TIMED) {
        return 2;
    }
    for (size_t i = 0; i < count; i++) {
        calls[i] = call_named(names[i]);
        if (calls[i] == NULL) {
            return 2;
        }
    }
    for (size_t k = 0; k < QUESTIONS; k++) {
        data_make(data, k, most, m, texts + k, patterns[k]);
        questions[k] = (struct question){patterns[k], texts[k].bytes, m, texts[k].len};
        bytes += (double)texts[k].len;
    }
    calls_time(calls, count, questions, nanoseconds);
    for (size_t i = 0; i < count; i++) {
        printf("%.3f\n", nanoseconds[i] / bytes * (double)questions->len);
    }
    return 0;
}

int main(int argc, char **argv)
{
    if (argc == 2 && strcmp(argv[1], "check") == 0) {
        return check();
    }
    int runs = argc == 7 && strcmp(argv[1], "run") == 0; /* the call's name comes first */
    size_t most = argc > 3 + runs ? strtoull(argv[3 + runs], NULL, 10) : 0;
    size_t m = argc > 4 + runs ? strtoull(argv[4 + runs], NULL, 10) : 0;
    if (m == 0 || m > MOST_BASES || !data_make(argv[2 + runs], 0, most, m, &made, pattern)) {
        fprintf(stderr, "usage: the first lines of bench/pace.c\n");
        return 2;
    }
    if (strcmp(argv[1], "size") == 0) {
        return size();
    }
    return runs ? run(argv[2], m, strtoull(argv[6], NULL, 10)) : time_of(argv[2], most, m, (size_t)argc - 5, argv + 5);
}
