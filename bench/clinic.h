/* Windows of a reference with variant files such as clinics send, each from a fixed seed. */
#ifndef CLINIC_H
#define CLINIC_H

#include "making.h"

enum { MOST_WINDOW = 40000, MOST_FILE = 1 << 20, MOST_NAME = 8 };

struct clinic {
    uint8_t window[MOST_WINDOW], file[MOST_FILE], name[MOST_NAME];
    size_t bases, len, name_len, first; /* the position of the window's first base */
};

/* Makes the window and the file of this kind. Each number gives another one. Returns 0 if there is no such kind, or too many bases.
     near   lines of eight fields, all records in the window
     wide   the same with the genotypes of 200 samples
     far    lines of eight fields, four of five records outside the window */
int clinic_make(const char *kind, size_t number, size_t bases, struct clinic *clinic);

/* Damages what may be wrong in a variant file, its window, its position or its name. */
void clinic_damage(struct random *random, struct clinic *clinic);

#endif
