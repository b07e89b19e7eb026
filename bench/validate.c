/* The yardsticks of check: every check that document 01 has for a stretch, and no search, each in another way (walk.h). */
#include "walk.h"
#include "yardsticks.h"

YARDSTICK(check_early, EARLY, PRINTS, 0)
YARDSTICK(check_memcmp, GATHERED, MEMCMP, 0)
YARDSTICK(check_prints, GATHERED, PRINTS, 0)
