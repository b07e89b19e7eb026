/* The stretches that the bench is run on, each from a fixed seed. */
#ifndef DATA_H
#define DATA_H

#include "making.h"

/* Makes the stretch of this name with at most that many bytes, and a pattern of m bases that can be read out of it from its middle
   on, where it has letters enough. Each number gives another one of its kind. Returns 0 if there is no such name. */
int data_make(const char *name, size_t number, size_t most, size_t m, struct made *made, uint8_t pattern[MOST_BASES]);

/* The name of each but D, front and alone; NULL after the last. */
const char *data_name(size_t i);

#endif
