/* Windows with variant files (clinic.h). */
#include "clinic.h"

#include <stdarg.h>
#include <stdio.h>
#include <string.h>

enum { SAMPLES = 200, LONGEST_ALLELE = 6, FIRST = 1000001, BEFORE_A_RECORD = 80 };

static void add(struct clinic *clinic, const char *form, ...)
{
    va_list words;
    va_start(words, form);
    clinic->len += (size_t)vsnprintf((char *)clinic->file + clinic->len, MOST_FILE - clinic->len, form, words);
    va_end(words);
}

static char letter(struct random *random) { return "ACGT"[random_below(random, 4)]; }

static void letters(struct random *random, char *allele, size_t len)
{
    for (size_t k = 0; k < len; k++) {
        allele[k] = letter(random);
    }
    allele[len] = 0;
}

/* What stands at a position: the window's bases, any outside it. */
static void reference(struct random *random, const struct clinic *clinic, size_t position, char *allele, size_t len)
{
    letters(random, allele, len);
    if (position >= clinic->first && position + len <= clinic->first + clinic->bases) {
        memcpy(allele, clinic->window + (position - clinic->first), len);
    }
}

/* Nine of ten records are of one letter each; the others put in letters or take them away after the first. One of 25 has a second
   alternate. Returns the position after it. */
static size_t record(struct random *random, struct clinic *clinic, size_t position, int genotypes)
{
    char ref[LONGEST_ALLELE + 1], alt[LONGEST_ALLELE + 1], more[LONGEST_ALLELE + 3] = "";
    size_t one = random_below(random, 10) > 0, taken = !one && random_below(random, 2);
    size_t len = one || !taken ? 1 : 2 + random_below(random, LONGEST_ALLELE - 1);
    reference(random, clinic, position, ref, len);
    do {
        letters(random, alt, one || taken ? 1 : 2 + random_below(random, LONGEST_ALLELE - 1));
    } while (strcmp(alt, ref) == 0);
    if (random_below(random, 25) == 0) {
        snprintf(more, sizeof more, ",%s%c", strlen(alt) < LONGEST_ALLELE ? alt : "A", letter(random));
    }
    if (strcmp(more + (more[0] == ','), ref) == 0) {
        more[0] = 0;
    }
    add(clinic, "chr1\t%zu\trs%zu\t%s\t%s%s\t100\tPASS\tAC=1;AF=0.0002;AN=5008;NS=2504", position, position, ref, alt, more);
    for (size_t k = 0; genotypes && k <= SAMPLES; k++) {
        add(clinic, k == 0 ? "\tGT" : random_below(random, 10) == 0 ? "\t0|1" : "\t0|0");
    }
    add(clinic, "\n");
    return position + len;
}

static void heading(struct clinic *clinic, int genotypes)
{
    add(clinic, "##fileformat=VCFv4.2\n##source=bench\n#CHROM\tPOS\tID\tREF\tALT\tQUAL\tFILTER\tINFO");
    for (size_t k = 0; genotypes && k <= SAMPLES; k++) {
        add(clinic, k == 0 ? "\tFORMAT" : "\tS%zu", k);
    }
    add(clinic, "\n");
}

int clinic_make(const char *kind, size_t number, size_t bases, struct clinic *clinic)
{
    struct random random = {2017 + number};
    int wide = strcmp(kind, "wide") == 0, far = strcmp(kind, "far") == 0;
    if ((!wide && !far && strcmp(kind, "near") != 0) || bases > MOST_WINDOW) {
        return 0;
    }
    clinic->bases = bases;
    clinic->first = FIRST;
    clinic->len = 0;
    clinic->name_len = 4;
    memcpy(clinic->name, "chr1", 4);
    for (size_t k = 0; k < bases; k++) {
        clinic->window[k] = (uint8_t)letter(&random);
    }
    heading(clinic, wide);
    size_t around = far ? 2 * bases : 0, edge[] = {FIRST, FIRST + bases, FIRST + bases + around};
    size_t position = FIRST - around + random_below(&random, BEFORE_A_RECORD);
    for (size_t k = 0; k < 3; k++) { /* no record lies across an edge of the window */
        while (position + LONGEST_ALLELE <= edge[k]) {
            position = record(&random, clinic, position, wide) + random_below(&random, BEFORE_A_RECORD);
        }
        position = position < edge[k] ? edge[k] : position;
    }
    return 1;
}

/* A byte to one that means something, or to any. */
static void damage_byte_of(struct random *random, uint8_t *bytes, size_t len)
{
    static const uint8_t telling[] = "\t\n#.,*<0129ACGTNacgtn\r";
    if (len > 0) {
        uint8_t any = (uint8_t)random_below(random, 256), told = telling[random_below(random, sizeof telling - 1)];
        bytes[random_below(random, len)] = random_below(random, 4) == 0 ? any : told;
    }
}

/* Some bytes, up to a few lines, are put over others. */
static void damage_lines(struct random *random, struct clinic *clinic)
{
    size_t len = 1 + random_below(random, clinic->len < 200 ? clinic->len : 200);
    size_t from = random_below(random, clinic->len - len + 1), to = random_below(random, clinic->len - len + 1);
    memmove(clinic->file + to, clinic->file + from, len);
}

/* Alternates more after those of a record: a new one, a repeated one, or too many. */
static void damage_alternates(struct random *random, struct clinic *clinic)
{
    uint8_t *end = clinic->file + clinic->len, *at = clinic->file + random_below(random, clinic->len);
    size_t more = random_below(random, 2) == 0 ? 1 : 252 + random_below(random, 4), tabs = 0;
    at = memchr(at, '\n', (size_t)(end - at));
    while (at != NULL && at < end && tabs < 5) {
        tabs += *at++ == '\t';
    }
    if (tabs == 5 && MOST_FILE - clinic->len >= 2 * more) {
        at--;
        memmove(at + 2 * more, at, (size_t)(end - at));
        for (clinic->len += 2 * more; more > 0; more--) {
            *at++ = ',';
            *at++ = (uint8_t)letter(random);
        }
    }
}

void clinic_damage(struct random *random, struct clinic *clinic)
{
    if (clinic->len == 0) {
        return;
    }
    switch (random_below(random, 11)) {
    case 0: clinic->len = random_below(random, clinic->len + 1); break;
    case 1: clinic->first += random_below(random, 3) - 1; break;
    case 2: clinic->first = random_below(random, 2) * (2147483648 - clinic->bases + random_below(random, 2)); break;
    case 3: clinic->bases -= random_below(random, clinic->bases < 50 ? clinic->bases + 1 : 50); break;
    case 4: damage_byte_of(random, clinic->window, clinic->bases); break;
    case 5: damage_byte_of(random, clinic->name, clinic->name_len); break;
    case 6: damage_lines(random, clinic); break;
    case 7: damage_alternates(random, clinic); break;
    case 8: add(clinic, "chr1\t%zu\t.\tA\tC\t.\t.\t", 2147483646 + random_below(random, 3)); break; /* no line feed after it */
    default: damage_byte_of(random, clinic->file, clinic->len); break;
    }
}
