/* Measures calls that make the stretch of a window from a variant file (clinic.c). A question (calls.h) has the window as its pattern and
   the file as its stretch.
     files run CALL DATA BASES - TIMES    makes the call so many times, for something outside to count the instructions
     files time DATA BASES - CALL...      prints the nanoseconds of each call on such data, the least of many
     files size DATA BASES -              prints the bytes of the file, and segments and variants of the stretch
     files check                          compares answers and bytes of both calls, on the data, on other files and on
                                          damaged ones, up to the first file on which they differ */
#include "calls.h"
#include "clinic.h"
#include "bench_calls.h"
#include "timing.h"
#include "yardsticks.h"

#include <stdio.h>
#include <stdlib.h>
#include <string.h>

enum { MEASURED = 4000 }; /* the bases that bench/run asks for */

static struct clinic clinic;
static uint8_t out[MOST_BYTES];

typedef uint64_t build_form(const uint8_t *file, size_t len, const uint8_t *window, size_t bases, size_t first, const uint8_t *name,
                            size_t name_len, uint8_t *out, size_t room);

struct call {
    const char *name;
    build_form *form;
};
static const struct call calls[] = {{"build", bench_build}, {"variants", read_variants}};

const struct call *call_named(const char *name)
{
    for (size_t i = 0; i < sizeof calls / sizeof *calls; i++) {
        if (strcmp(name, calls[i].name) == 0) {
            return calls + i;
        }
    }
    return NULL;
}

uint64_t call_run(const struct call *call, const struct question *question)
{
    return call->form(question->stretch, question->len, question->pattern, question->m, clinic.first, clinic.name, clinic.name_len,
                      out, sizeof out);
}

static struct question question_of(const struct clinic *of) { return (struct question){of->window, of->file, of->bases, of->len}; }

static int size(void)
{
    static struct text text;
    struct question question = question_of(&clinic);
    if (reference_read(out, call_run(calls, &question) / 256, &text) != 0) {
        return 1;
    }
    printf("%zu %zu %zu\n", clinic.len, text.segment_count, text.variant_count);
    return 0;
}

/* Whether the two answer and write the same; heard counts each number that is answered. */
static int differ(size_t room, size_t heard[256])
{
    static uint8_t written[2][MOST_BYTES];
    uint64_t answers[2];
    for (size_t i = 0; i < 2; i++) {
        memset(written[i], 7, MOST_BYTES);
        answers[i] = calls[i].form(clinic.file, clinic.len, clinic.window, clinic.bases, clinic.first, clinic.name, clinic.name_len,
                                   written[i], room);
    }
    heard[answers[0] % 256]++;
    return answers[0] != answers[1] || memcmp(written[0], written[1], MOST_BYTES) != 0;
}

static int check(void)
{
    static const char *const kinds[] = {"near", "wide", "far"};
    static const uint8_t numbers[] = {0, 28, 18, 7, 19, 4, 8, 15};
    struct random random = {1};
    size_t heard[256] = {0}, differs = 0, tried = 0;
    for (; tried < 30000 && differs == 0; tried++) {
        const char *kind = kinds[tried % 3];
        size_t small = kind[0] == 'w' ? 200 : 1000, most = tried < 2 * 3 * QUESTIONS ? MOST_WINDOW + 1 : small;
        size_t bases = tried < 3 * QUESTIONS ? MEASURED : random_below(&random, most);
        clinic_make(kind, tried / 3, bases, &clinic);
        differs += (size_t)differ(MOST_BYTES, heard);
        for (size_t damages = 1 + random_below(&random, 3); damages > 0; damages--) {
            clinic_damage(&random, &clinic);
            differs += (size_t)differ(random_below(&random, 10) > 0 ? MOST_BYTES : random_below(&random, 2 * bases + 1), heard);
        }
    }
    printf("%zu variant files, whole and damaged, %zu answers differ; answered", tried, differs);
    for (size_t i = 0; i < sizeof numbers; i++) {
        printf(" %u: %zu%s", numbers[i], heard[numbers[i]], i + 1 < sizeof numbers ? "," : "\n");
    }
    return differs > 0;
}

static int run(const char *name, size_t times)
{
    const struct call *call = call_named(name);
    struct question question = question_of(&clinic);
    for (; call != NULL && times > 0; times--) {
        call_run(call, &question);
    }
    return call == NULL ? 2 : 0;
}

/* Of QUESTIONS files of this kind, as much as one of the first's bytes takes. */
static int time_of(const char *kind, size_t bases, size_t count, char **names)
{
    static struct clinic clinics[QUESTIONS];
    const struct call *timed[MOST_TIMED];
    struct question questions[QUESTIONS];
    double nanoseconds[MOST_TIMED], bytes = 0;
    if (count == 0 || count > MOST_TIMED) {
        return 2;
    }
    for (size_t i = 0; i < count; i++) {
        timed[i] = call_named(names[i]);
        if (timed[i] == NULL) {
            return 2;
        }
    }
    for (size_t k = 0; k < QUESTIONS; k++) {
        clinic_make(kind, k, bases, clinics + k);
        questions[k] = question_of(clinics + k);
        bytes += (double)clinics[k].len;
    }
    calls_time(timed, count, questions, nanoseconds);
    for (size_t i = 0; i < count; i++) {
        printf("%.3f\n", nanoseconds[i] / bytes * (double)questions->len);
    }
    return 0;
}

int main(int argc, char **argv)
{
    if (argc == 2 && strcmp(argv[1], "check") == 0) {
        return check();
    }
    int runs = argc == 7 && strcmp(argv[1], "run") == 0; /* the call's name comes first */
    size_t bases = argc > 4 + runs ? strtoull(argv[3 + runs], NULL, 10) : 0;
    if (bases == 0 || !clinic_make(argv[2 + runs], 0, bases, &clinic)) {
        fprintf(stderr, "usage: the first lines of bench/files.c\n");
        return 2;
    }
    if (strcmp(argv[1], "size") == 0) {
        return size();
    }
    return runs ? run(argv[2], strtoull(argv[6], NULL, 10)) : time_of(argv[2], bases, (size_t)argc - 5, argv + 5);
}
