/* The bytes of a stretch from document 01's notation (braces.h). */
#include "braces.h"

#include <string.h>

void braces(const char *notation, struct made *made)
{
    made_begin(made);
    for (const char *at = notation; *at != 0;) {
        if (*at == '{') {
            made_segment(made);
        }
        at++; /* an opening brace or a comma */
        size_t len = strcspn(at, ",}");
        made_variant(made, (const uint8_t *)at, *at == 'e' ? 0 : len);
        at += len;
        at += *at == '}';
    }
    made_end(made);
}
