/* The tests of the C forms. Every call's slices lie beside unreadable pages and are compared byte by byte with what the reference
   says they hold afterwards. A line for each group, one for each thing that differs, and the counts last. */
#include "groups.h"
#include "tally.h"

int main(void)
{
    examples();
    refusals();
    changes();
    limits();
    pointers();
    randoms();
    stretches();
    return tally_end();
}
