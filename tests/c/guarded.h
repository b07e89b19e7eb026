/* Rooms between two unreadable pages, to lend slices from: a call that reads or writes a byte beside a slice faults there. */
#ifndef GUARDED_H
#define GUARDED_H

#include <stddef.h>
#include <stdint.h>

enum placement {
    BEHIND_A_PAGE, /* the slice starts right after the unreadable page before the room */
    BEFORE_A_PAGE, /* the slice ends right at the unreadable page after the room */
    PLACEMENTS
};

struct room {
    uint8_t *start;    /* its first readable byte */
    size_t size;       /* its readable bytes, whole pages */
    uint8_t *expected; /* what the room must hold after the call, byte by byte */
    size_t at, len;    /* the slice that is lent */
};

/* A room for slices of up to most bytes. */
void room_open(struct room *room, size_t most);

/* Lends a slice with these bytes; without any (NULL) it is filled with bytes that no call writes. They are expected to stay. */
uint8_t *room_lend(struct room *room, enum placement placement, const uint8_t *bytes, size_t len);

/* Byte k of the slice is expected to become this one. */
void room_expect(struct room *room, size_t k, uint8_t byte);

/* The first byte, counted from the slice's start, that is not what is expected, in the slice or in the 256 bytes of the room beside
   it; NOWHERE if there is none. */
#define NOWHERE PTRDIFF_MAX
ptrdiff_t room_differs(const struct room *room);

#endif
