/* A release desk's question in C: in which segments of this text can GATTA be read to its end? */
#include "cerantuh.h"

#include <inttypes.h>
#include <stdio.h>

/* {CGA,G}{e,T}{TTAC,AT}{TA,e}{A,GATTAG}, where e is the empty variant; docs/FORMAT.md has the layout. */
static const uint8_t stretch[] = {
    5, 0,
    2, 3, 0, 'C', 'G', 'A', 1, 0, 'G',
    2, 0, 0, 1, 0, 'T',
    2, 4, 0, 'T', 'T', 'A', 'C', 2, 0, 'A', 'T',
    2, 2, 0, 'T', 'A', 0, 0,
    2, 1, 0, 'A', 6, 0, 'G', 'A', 'T', 'T', 'A', 'G',
};

int main(void)
{
    const uint8_t pattern[] = {'G', 'A', 'T', 'T', 'A'};
    static uint8_t marks[CERANTUH_MOST_SEGMENTS];
    uint8_t block[CERANTUH_SEARCH_BLOCK];

    uint64_t answer = cerantuh_search_bits(pattern, sizeof pattern, stretch, sizeof stretch,
                                           marks, sizeof marks, block, sizeof block);
    if (answer != 0) {
        printf("refused %u at %" PRIu64 "\n", cerantuh_number(answer), cerantuh_place(answer));
        return 1;
    }
    printf("%" PRIu64 " of %" PRIu64 " segments:", cerantuh_result(block, 2), cerantuh_result(block, 0));
    for (uint64_t j = 0; j < cerantuh_result(block, 0); j++) {
        if (marks[j]) {
            printf(" %" PRIu64, j);
        }
    }
    printf("\n");
    return 0;
}
