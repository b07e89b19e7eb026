/* The bytes of a stretch from document 01's notation, as "{CGA,G}{e,T}"; e is the empty variant. */
#ifndef BRACES_H
#define BRACES_H

#include "making.h"

void braces(const char *notation, struct made *made);

#endif
