/* Rooms between two unreadable pages (guarded.h). */
#define _DEFAULT_SOURCE
#include "guarded.h"

#include <stdio.h>
#include <stdlib.h>
#include <string.h>
#include <sys/mman.h>
#include <unistd.h>

#define FILL 0xA5 /* no mark, no letter */

static size_t page(void)
{
    static size_t size;
    if (size == 0) {
        size = (size_t)sysconf(_SC_PAGESIZE);
    }
    return size;
}

void room_open(struct room *room, size_t most)
{
    room->size = (most + page() - 1) / page() * page();
    room->expected = malloc(room->size);
    uint8_t *all = mmap(NULL, room->size + 2 * page(), PROT_NONE, MAP_PRIVATE | MAP_ANONYMOUS, -1, 0);
    room->start = all + page();
    if (all == MAP_FAILED || room->expected == NULL || mprotect(room->start, room->size, PROT_READ | PROT_WRITE) != 0) {
        perror("a room between unreadable pages");
        exit(1);
    }
}

/* The part that is looked at: the slice and some bytes of the room on either side. */
enum { BESIDE = 256 };

static size_t part_start(const struct room *room) { return room->at < BESIDE ? 0 : room->at - BESIDE; }

static size_t part_len(const struct room *room)
{
    size_t behind = room->size - room->at - room->len;
    return room->at - part_start(room) + room->len + (behind < BESIDE ? behind : BESIDE);
}

uint8_t *room_lend(struct room *room, enum placement placement, const uint8_t *bytes, size_t len)
{
    room->at = placement == BEHIND_A_PAGE ? 0 : room->size - len;
    room->len = len;
    memset(room->start + part_start(room), FILL, part_len(room));
    if (bytes != NULL && len > 0) {
        memcpy(room->start + room->at, bytes, len);
    }
    memcpy(room->expected + part_start(room), room->start + part_start(room), part_len(room));
    return room->start + room->at;
}

void room_expect(struct room *room, size_t k, uint8_t byte) { room->expected[room->at + k] = byte; }

ptrdiff_t room_differs(const struct room *room)
{
    size_t first = part_start(room);
    if (memcmp(room->start + first, room->expected + first, part_len(room)) == 0) {
        return NOWHERE;
    }
    while (room->start[first] == room->expected[first]) {
        first++;
    }
    return (ptrdiff_t)first - (ptrdiff_t)room->at;
}
