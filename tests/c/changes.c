/* Every truncation of some stretches, and every change of one byte of them: each is one call of each search and of the first hit, and of
   the feed for each segment alone. Where a state is taken, all lengths are carried; the first hit is asked from the fresh state too. */
#include "braces.h"
#include "groups.h"
#include "tally.h"

#include <string.h>

static const struct {
    const char *pattern, *text;
} kept[] = {
    {"GATTA", "{CGA,G}{e,T}{TTAC,AT}{TA,e}{A,GATTAG}"},
    {"GATTA", "{cga,N}{e,t}{TtaC,an}{tA,e}{a,gATTag}"},
    {"AA", "{A,e}{A,e}{A,e}"},
    {"ACACA", "{C}{A,C}{AC,ACC,CACA}{C,e}{A,AC}{C}"},
    {"GATTACAGATTACA", "{GATTACAGAT}{e}{T,TA,TAC}{A,CA,ACA}{GATTACAGATTACAGATTACA}"},
    {"T", "{e}{A,C,G,T,AA,AC,AG,AT,CA,CC,CG,CT,GA,GC,GG,GT,TA,TC,TG,TT}{e}"},
    {"GA", "{C,gA,CA}{TT,e}{G,GC,N}{AA,A}"},       /* the first hit is in the first segment */
    {"ACGT", "{AC,N}{e,G}{c,C}{T,gt}"},            /* in the last */
    {"ACGTA", "{AC,cA}{e,n}{GT,TT}{C,G}"},         /* and in none, on neither strand */
};

/* A search of the first len bytes and their first hit, or, where feeds is set, a feed of those of a lone segment. */
static void try_part(const char *pattern, const uint8_t *bytes, size_t len, bool feeds)
{
    struct call call = {(const uint8_t *)pattern, strlen(pattern), 1, bytes, len, 8, feeds ? 16 : 24};
    call.state = ((uint64_t)1 << call.m) - 1;
    (feeds ? try_feed : try_searches)(&call);
    if (!feeds) {
        try_first(&call);
        call.state = 1;
        try_first(&call);
    }
}

static void cut(const char *pattern, const uint8_t *bytes, size_t len, bool feeds)
{
    for (size_t n = 0; n <= len; n++) {
        try_part(pattern, bytes, n, feeds);
    }
}

static void change(const char *pattern, uint8_t *bytes, size_t len, bool feeds)
{
    for (size_t k = 0; k < len; k++) {
        uint8_t kept_byte = bytes[k];
        for (unsigned to = 0; to < 256; to++) {
            bytes[k] = (uint8_t)to;
            try_part(pattern, bytes, len, feeds);
        }
        bytes[k] = kept_byte;
    }
}

void changes(void)
{
    static struct made made;
    tally_group("every truncation, and every change of a byte");
    for (size_t i = 0; i < sizeof kept / sizeof *kept; i++) {
        braces(kept[i].text, &made);
        tally_test("truncations of %s", kept[i].text);
        cut(kept[i].pattern, made.bytes, made.len, false);
        tally_test("changes of %s", kept[i].text);
        change(kept[i].pattern, made.bytes, made.len, false);
        tally_test("truncations and changes of the segments of %s", kept[i].text);
        for (size_t j = 0; j < made.segment_count; j++) {
            cut(kept[i].pattern, made.bytes + made.segment_at[j], made.segment_at[j + 1] - made.segment_at[j], true);
            change(kept[i].pattern, made.bytes + made.segment_at[j], made.segment_at[j + 1] - made.segment_at[j], true);
        }
    }
}
