/* Every refusal that a C form can give, with its place, and which one is given where several apply. */
#include "groups.h"
#include "tally.h"

#include <string.h>

static uint8_t zeros[MOST_BYTES + 1];

/* The stretch or segment is written as a string; NULL is one of 32,769 bytes. */
static struct call call_of(const char *pattern, uint64_t state, const char *bytes, size_t len, size_t marks_len, size_t block_len)
{
    struct call call = {(const uint8_t *)pattern, strlen(pattern), state, (const uint8_t *)bytes, len, marks_len, block_len};
    if (bytes == NULL) {
        call.bytes = zeros;
        call.len = sizeof zeros;
    }
    return call;
}

static void search(uint64_t number, uint64_t place, const char *pattern, const char *stretch, size_t len, size_t marks_len,
                   size_t block_len)
{
    struct call call = call_of(pattern, 1, stretch, len, marks_len, block_len);
    tally_test("search: %d at %d", (int)number, (int)place);
    try_refused_searches(&call, number, place);
}

static void from(uint64_t number, uint64_t place, const char *pattern, uint64_t state, const char *stretch, size_t len,
                 size_t marks_len, size_t block_len)
{
    struct call call = call_of(pattern, state, stretch, len, marks_len, block_len);
    tally_test("search from a state: %d at %d", (int)number, (int)place);
    try_refused_from(&call, number, place);
}

static void first(uint64_t number, uint64_t place, const char *pattern, uint64_t state, const char *stretch, size_t len,
                  size_t block_len)
{
    struct call call = call_of(pattern, state, stretch, len, 0, block_len);
    tally_test("first hit: %d at %d", (int)number, (int)place);
    try_refused_first(&call, number, place);
}

static void feed(uint64_t number, uint64_t place, const char *pattern, uint64_t state, const char *segment, size_t len,
                 size_t block_len)
{
    struct call call = call_of(pattern, state, segment, len, 0, block_len);
    tally_test("feed: %d at %d", (int)number, (int)place);
    try_refused_feeds(&call, number, place);
}

#define TEN "AAAAAAAAAA"
#define LONG TEN TEN TEN TEN TEN TEN "AAAAA"
/* A sound stretch of two segments, {AC,e}{G}, and its segments alone. */
#define SOUND "\2\0" "\2\2\0AC\0\0" "\1\1\0G"
#define FIRST "\2\2\0AC\0\0"

static void searches(void)
{
    search(1, 0, "", SOUND, 13, 2, 24);
    search(2, 0, LONG, SOUND, 13, 2, 24);
    search(3, 0, "N", SOUND, 13, 2, 24);
    search(3, 3, "ACGaN", SOUND, 13, 2, 24);
    search(3, 0, "n", SOUND, 13, 2, 24);
    search(3, 1, "At", SOUND, 13, 2, 24);
    search(4, 0, "AC", NULL, 0, 2, 24);
    search(5, 0, "AC", SOUND, 0, 2, 24);
    search(5, 0, "AC", SOUND, 1, 2, 24);
    search(5, 2, "AC", SOUND, 2, 2, 24);
    search(5, 3, "AC", SOUND, 4, 2, 24);
    search(5, 3, "AC", SOUND, 6, 2, 24);
    search(5, 7, "AC", SOUND, 8, 2, 24);
    search(5, 9, "AC", SOUND, 9, 2, 24);
    search(6, 7, "AC", "\2\0" "\1\2\0AC" "\0", 8, 2, 24);
    search(7, 6, "AC", "\2\0" "\2\2\0AX\0\0" "\1\1\0G", 13, 2, 24);
    search(8, 7, "AC", "\1\0" "\2\2\0AC\2\0AC", 11, 1, 24);
    search(8, 10, "AC", "\1\0" "\3\2\0AC\1\0G\2\0AC", 14, 1, 24);
    search(8, 10, "AC", "\1\0" "\3\2\0aN\1\0G\2\0An", 14, 1, 24);
    search(9, 13, "AC", SOUND "\0", 14, 2, 24);
    search(10, 0, "AC", SOUND, 13, 1, 24);
    search(10, 0, "AC", SOUND, 13, 0, 24);
    search(10, 0, "AC", SOUND, 13, 2, 23);
    search(10, 0, "AC", SOUND, 13, 2, 0);
    search(10, 0, "AC", SOUND, 13, 0, 0);
    search(0, 0, "AC", SOUND, 13, 2, 24);
}

/* Those of the searches were given by this search too, from the fresh state. */
static void froms(void)
{
    from(1, 0, "", 3, SOUND, 13, 2, 32);
    from(2, 0, LONG, 3, SOUND, 13, 2, 32);
    from(3, 1, "A-C", 3, SOUND, 13, 2, 32);
    from(3, 1, "Ac", 3, SOUND, 13, 2, 32);
    from(4, 0, "AC", 3, NULL, 0, 2, 32);
    from(17, 0, "AC", 0, SOUND, 13, 2, 32);
    from(17, 0, "AC", 2, SOUND, 13, 2, 32);
    from(17, 0, "AC", 5, SOUND, 13, 2, 32);
    from(17, 0, "A", 3, SOUND, 13, 2, 32);
    from(17, 0, "AC", 0x8000000000000001, SOUND, 13, 2, 32);
    from(5, 9, "AC", 3, SOUND, 9, 2, 32);
    from(6, 7, "AC", 3, "\2\0" "\1\2\0AC" "\0", 8, 2, 32);
    from(7, 6, "AC", 3, "\2\0" "\2\2\0AX\0\0" "\1\1\0G", 13, 2, 32);
    from(8, 7, "AC", 3, "\1\0" "\2\2\0AC\2\0AC", 11, 1, 32);
    from(9, 13, "AC", 3, SOUND "\0", 14, 2, 32);
    from(10, 0, "AC", 3, SOUND, 13, 1, 32);
    from(10, 0, "AC", 3, SOUND, 13, 2, 31);
    from(10, 0, "AC", 3, SOUND, 13, 2, 24);
    from(10, 0, "AC", 3, SOUND, 13, 2, 0);
    from(0, 0, "AC", 3, SOUND, 13, 2, 32);
}

/* GC, its own opposite, ends nowhere in the stretch; AT, too, ends in the first segment of HELD, and what stands after is not read. */
#define HELD "\2\0" "\1\2\0AT"

static void firsts(void)
{
    first(1, 0, "", 3, SOUND, 13, 16);
    first(2, 0, LONG, 3, SOUND, 13, 16);
    first(3, 1, "G-C", 3, SOUND, 13, 16);
    first(3, 1, "Gc", 3, SOUND, 13, 16);
    first(4, 0, "GC", 3, NULL, 0, 16);
    first(4, 0, "AT", 3, NULL, 0, 16);
    first(17, 0, "AT", 0, HELD, 7, 16);
    first(17, 0, "AT", 2, HELD, 7, 16);
    first(17, 0, "AT", 5, HELD, 7, 16);
    first(17, 0, "A", 3, HELD, 7, 16);
    first(17, 0, "AT", 0x8000000000000001, HELD, 7, 16);
    first(5, 0, "GC", 1, SOUND, 1, 16);
    first(5, 2, "GC", 1, SOUND, 2, 16);
    first(5, 9, "GC", 1, SOUND, 9, 16);
    first(5, 3, "AT", 1, HELD, 6, 16);                         /* the segment itself does not read whole */
    first(6, 7, "GC", 1, "\2\0" "\1\2\0AC" "\0", 8, 16);
    first(7, 6, "GC", 1, "\2\0" "\2\2\0AX\0\0" "\1\1\0G", 13, 16);
    first(7, 9, "AT", 1, "\1\0" "\2\2\0AT\1\0X", 10, 16); /* a fault in the segment of the hit, after it */
    first(8, 7, "GC", 1, "\1\0" "\2\2\0AC\2\0AC", 11, 16);
    first(8, 7, "AT", 1, "\1\0" "\2\2\0AT\2\0at", 11, 16);
    first(9, 13, "GC", 1, SOUND "\0", 14, 16);
    first(10, 0, "GC", 1, SOUND, 13, 15);
    first(10, 0, "GC", 1, SOUND, 13, 0);
    first(10, 0, "AT", 1, HELD, 7, 15);                        /* of a hit too */
    first(10, 0, "AT", 1, HELD, 7, 0);
    first(0, 0, "GC", 1, SOUND, 13, 16);
    first(0, 0, "AT", 1, HELD, 7, 16);                         /* the bytes end after the hit: no matter */
    first(0, 0, "AT", 1, HELD "\0", 8, 16);                    /* and what stands there */
    first(0, 0, "AT", 1, HELD "\1\1\0X", 11, 16);
    first(0, 0, "AT", 1, HELD "\2\0\0\0\0", 12, 16);
    first(0, 0, "AT", 1, "\1\0" "\1\2\0AT" "\0", 8, 16);
}

static void feeds(void)
{
    feed(1, 0, "", 1, FIRST, 7, 16);
    feed(2, 0, LONG, 1, FIRST, 7, 16);
    feed(3, 1, "A-C", 1, FIRST, 7, 16);
    feed(3, 1, "AN", 1, FIRST, 7, 16);
    feed(4, 0, "AC", 1, NULL, 0, 16);
    feed(5, 0, "AC", 1, FIRST, 0, 16);
    feed(5, 1, "AC", 1, FIRST, 2, 16);
    feed(5, 1, "AC", 1, FIRST, 4, 16);
    feed(5, 5, "AC", 1, FIRST, 6, 16);
    feed(6, 0, "AC", 1, "\0", 1, 16);
    feed(7, 3, "AC", 1, "\1\1\0X", 4, 16);
    feed(8, 5, "AC", 1, "\2\2\0AC\2\0AC", 9, 16);
    feed(8, 5, "AC", 1, "\2\2\0nC\2\0Nc", 9, 16);
    feed(9, 7, "AC", 1, FIRST "\1", 8, 16);
    feed(10, 0, "AC", 1, FIRST, 7, 15);
    feed(10, 0, "AC", 1, FIRST, 7, 0);
    feed(17, 0, "AC", 0, FIRST, 7, 16);
    feed(17, 0, "AC", 2, FIRST, 7, 16);
    feed(17, 0, "AC", 5, FIRST, 7, 16);
    feed(17, 0, "A", 3, FIRST, 7, 16);
    feed(17, 0, "AC", 0x8000000000000001, FIRST, 7, 16);
    feed(0, 0, "AC", 3, FIRST, 7, 16);
}

/* Each line has the fault of its number and of every later one that can stand beside it. */
static void orders(void)
{
    search(1, 0, "", NULL, 0, 0, 0);
    search(2, 0, LONG "N", NULL, 0, 0, 0);
    search(3, 1, "AN", NULL, 0, 0, 0);
    search(4, 0, "AC", NULL, 0, 0, 0);
    search(5, 3, "AC", "\1\0" "\2\5\0XXXX", 9, 0, 0);             /* a length before the letters it states */
    search(7, 8, "AC", "\1\0" "\3\1\0A\1\0X\1\0A", 12, 0, 0);     /* a letter before a later repetition */
    search(7, 10, "AC", "\1\0" "\2\2\0AC\2\0aX", 11, 0, 0);
    search(8, 6, "AC", "\1\0" "\3\1\0A\1\0A\1\0X", 12, 0, 0);     /* a repetition before a later letter */
    search(8, 6, "AC", "\2\0" "\2\1\0A\1\0A" "\0", 10, 0, 0);     /* and before a later count */
    search(6, 2, "AC", "\2\0" "\0" "\1\1\0X", 7, 0, 0);           /* a count before a later letter */
    search(9, 5, "AC", "\1\0" "\1\0\0" "\0", 6, 0, 0);            /* what is left over before a short buffer */
    from(1, 0, "", 0, NULL, 0, 0, 0);
    from(2, 0, LONG "N", 0, NULL, 0, 0, 0);
    from(3, 1, "AN", 0, NULL, 0, 0, 0);
    from(4, 0, "AC", 0, NULL, 0, 0, 0);
    from(17, 0, "AC", 0, "", 0, 0, 0);                            /* a state before all that the bytes may have */
    from(17, 0, "AC", 4, "\2\0" "\0" "\1\1\0X", 7, 0, 0);
    from(17, 0, "AC", 2, SOUND "\0", 14, 0, 0);
    from(17, 0, "AC", 5, SOUND, 13, 0, 0);
    from(5, 0, "AC", 3, "", 0, 0, 0);
    from(6, 2, "AC", 3, "\2\0" "\0" "\1\1\0X", 7, 0, 0);
    from(7, 8, "AC", 3, "\1\0" "\3\1\0A\1\0X\1\0A", 12, 0, 0);
    from(8, 6, "AC", 3, "\1\0" "\3\1\0A\1\0A\1\0X", 12, 0, 0);
    from(9, 5, "AC", 3, "\1\0" "\1\0\0" "\0", 6, 0, 0);
    first(1, 0, "", 0, NULL, 0, 0);
    first(2, 0, LONG "N", 0, NULL, 0, 0);
    first(3, 1, "AN", 0, NULL, 0, 0);
    first(4, 0, "GC", 0, NULL, 0, 0);
    first(17, 0, "GC", 0, "", 0, 0);
    first(17, 0, "AT", 4, HELD, 7, 0);
    first(5, 0, "GC", 3, "", 0, 0);
    first(6, 2, "GC", 1, "\2\0" "\0" "\1\1\0X", 7, 0);
    first(7, 8, "GC", 1, "\1\0" "\3\1\0A\1\0X\1\0A", 12, 0);
    first(8, 6, "GC", 1, "\1\0" "\3\1\0A\1\0A\1\0X", 12, 0);
    first(9, 5, "GC", 1, "\1\0" "\1\0\0" "\0", 6, 0);
    first(6, 2, "AT", 1, "\2\0" "\0" "\1\2\0AT", 8, 0);        /* a fault before the hit */
    first(10, 0, "AT", 1, HELD "\0", 8, 0);                      /* the hit before a later fault, and then its room */
    feed(1, 0, "", 0, NULL, 0, 0);
    feed(2, 0, LONG, 0, NULL, 0, 0);
    feed(3, 0, "N", 0, NULL, 0, 0);
    feed(4, 0, "AC", 0, NULL, 0, 0);
    feed(17, 0, "AC", 0, "", 0, 0);
    feed(17, 0, "AC", 4, "\0", 1, 0);
    feed(5, 0, "AC", 1, "", 0, 0);
    feed(9, 3, "AC", 1, "\1\0\0" "\0", 4, 0);
}

void refusals(void)
{
    tally_group("refusals of the searches");
    searches();
    tally_group("refusals of the search from a state");
    froms();
    tally_group("refusals of the first hit");
    firsts();
    tally_group("refusals of the feed");
    feeds();
    tally_group("the order of refusals");
    orders();
}
