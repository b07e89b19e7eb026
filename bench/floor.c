/* The floor: the C library's own memchr over the bytes, looking for one that is not there. */
#include "yardsticks.h"

#include <string.h>

uint64_t floor_memchr(const uint8_t *pattern, size_t m, const uint8_t *stretch, size_t len, uint8_t *marks, size_t marks_len,
                      uint8_t *block, size_t block_len)
{
    (void)pattern, (void)m, (void)marks, (void)marks_len, (void)block, (void)block_len;
    return memchr(stretch, 0xEE, len) != NULL;
}
