/* A text of several stretches in C: in which segments can ACGTTGCA be read to its end, on either strand, also across a cut? */
#include "cerantuh.h"

#include <inttypes.h>
#include <stdio.h>

/* {TTACG,TTAGG}{e,C} and {TTGCAAC,GGA}, where e is the empty variant: one text that is cut after its second segment. A search of
   each stretch alone finds nothing. */
static const uint8_t first[] = {
    2, 0,
    2, 5, 0, 'T', 'T', 'A', 'C', 'G', 5, 0, 'T', 'T', 'A', 'G', 'G',
    2, 0, 0, 1, 0, 'C',
};
static const uint8_t second[] = {
    1, 0,
    2, 7, 0, 'T', 'T', 'G', 'C', 'A', 'A', 'C', 3, 0, 'G', 'G', 'A',
};
static const struct {
    const uint8_t *bytes;
    size_t len;
} stretches[] = {{first, sizeof first}, {second, sizeof second}};

/* The strands. Each has a state of its own, which goes from stretch to stretch. */
static struct {
    const char *name;
    uint64_t (*search)(const uint8_t *, size_t, uint64_t, const uint8_t *, size_t, uint8_t *, size_t, uint8_t *, size_t);
    uint64_t state;
} strands[] = {
    {"as given", cerantuh_search_from, CERANTUH_FRESH_STATE},
    {"on the opposite strand", cerantuh_search_from_opposite, CERANTUH_FRESH_STATE},
};

enum { STRETCHES = sizeof stretches / sizeof *stretches, STRANDS = sizeof strands / sizeof *strands };

static uint8_t marks[CERANTUH_MOST_SEGMENTS], block[CERANTUH_FROM_BLOCK];

/* Searches stretch i on strand s and keeps the state after it. Returns 0, or the refusal. */
static uint64_t search(size_t i, size_t s)
{
    const uint8_t pattern[] = {'A', 'C', 'G', 'T', 'T', 'G', 'C', 'A'};
    uint64_t answer = strands[s].search(pattern, sizeof pattern, strands[s].state, stretches[i].bytes, stretches[i].len,
                                        marks, sizeof marks, block, sizeof block);
    if (answer == 0) {
        strands[s].state = cerantuh_result(block, 3);
    }
    return answer;
}

static void print_ends(size_t i, size_t s, uint64_t before)
{
    for (uint64_t j = 0; j < cerantuh_result(block, 0); j++) {
        if (marks[j]) {
            printf("%s it ends in segment %" PRIu64 " of the text, segment %" PRIu64 " of stretch %zu\n", strands[s].name,
                   before + j, j, i);
        }
    }
}

int main(void)
{
    uint64_t ends = 0, before = 0; /* the segments of the stretches before */

    for (size_t i = 0; i < STRETCHES; i++) {
        for (size_t s = 0; s < STRANDS; s++) {
            uint64_t answer = search(i, s);
            if (answer != 0) { /* the text is not searched to its end, so it is not clear */
                printf("stretch %zu is refused: %u at %" PRIu64 "\n", i, cerantuh_number(answer), cerantuh_place(answer));
                return 2;
            }
            print_ends(i, s, before);
            ends += cerantuh_result(block, 2);
        }
        before += cerantuh_result(block, 0);
    }
    printf("%s\n", ends == 0 ? "clear" : "held");
    return ends > 0;
}
