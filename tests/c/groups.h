/* The groups of tests of the C forms, a file each. */
#ifndef GROUPS_H
#define GROUPS_H

void examples(void);  /* document 01's judged examples, letters by meaning, and one for each slip that looks right */
void refusals(void);  /* every refusal number with its place, and which is given where several apply */
void changes(void);   /* every truncation of some stretches, and every change of one of their bytes */
void limits(void);    /* the sizes where an answer changes */
void pointers(void);  /* empty slices with any pointer */
void randoms(void);   /* random texts and damaged ones */
void stretches(void); /* texts of many stretches: cut, they give what the whole gives */

#endif
