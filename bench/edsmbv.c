/* 001's Algorithm EDSM-BV (section 5), repaired, trusting the bytes: no check at all.
   As printed, for each variant: the borders of pattern and variant by the border table (and, in a variant of m letters or more, an
   occurrence inside it), the carried prefixes that a shorter variant passes on by the occurrences of the variant in the pattern,
   and shift-and for the carried prefixes that it finishes. Repaired as document 01 decides: the letter vectors keep P's last base,
   an occurrence counts where its last letter stands and not only at the end of the letter loop, and the empty variant passes on
   what was carried but finishes nothing.
   The occurrences of a variant in the pattern come from P's suffix automaton, which is smaller than the printed suffix tree and
   answers the same question in the same time. Bit r of a vector is the prefix of r bases; the paper's bit k is r - 1. */
#include "checks.h"
#include "yardsticks.h"

enum { MOST = 64, STATES = 2 * MOST, CODES = 5 };

struct tables {
    uint64_t masks[CODES];       /* bit k: P[k] is this letter */
    uint8_t border[MOST + 1];    /* of the first k bases */
    uint64_t borders[MOST + 1];  /* bit r: r is k, or a border of the first k bases, and not 0 */
    uint8_t next[STATES][CODES]; /* the suffix automaton; 0 is no state, 1 the start */
    uint8_t link[STATES], length[STATES];
    uint64_t ends[STATES];       /* bit r: the state's strings end at the prefix of r bases */
    size_t count;
};

/* What a letter means: 0 to 3 a base, 4 an unknown one, which no pattern has. */
static unsigned code(uint8_t letter)
{
    static const uint8_t codes[256] = {['C'] = 1, ['G'] = 2, ['T'] = 3, ['N'] = 4, ['c'] = 1, ['g'] = 2, ['t'] = 3, ['n'] = 4};
    return codes[letter];
}

static uint8_t upper(uint8_t letter) { return letter & 0xDF; }

static void add_borders(struct tables *t, const uint8_t *pattern, size_t m)
{
    t->border[0] = t->border[1] = 0;
    t->borders[0] = 0;
    t->borders[1] = m > 1 ? 2 : 0;
    for (size_t k = 2, b = 0; k <= m; k++) {
        while (b > 0 && pattern[b] != pattern[k - 1]) {
            b = t->border[b];
        }
        b += pattern[b] == pattern[k - 1];
        t->border[k] = (uint8_t)b;
        t->borders[k] = (k < m ? (uint64_t)1 << k : 0) | t->borders[b];
    }
}

static uint8_t new_state(struct tables *t, size_t length)
{
    memset(t->next[t->count], 0, sizeof *t->next);
    t->ends[t->count] = 0;
    t->length[t->count] = (uint8_t)length;
    return (uint8_t)t->count++;
}

/* The usual construction, a letter at a time. */
static uint8_t add_letter(struct tables *t, uint8_t last, unsigned c)
{
    uint8_t whole = new_state(t, t->length[last] + 1u), p = last;
    for (; p != 0 && t->next[p][c] == 0; p = t->link[p]) {
        t->next[p][c] = whole;
    }
    if (p == 0) {
        t->link[whole] = 1;
        return whole;
    }
    uint8_t q = t->next[p][c];
    if (t->length[q] == t->length[p] + 1) {
        t->link[whole] = q;
        return whole;
    }
    uint8_t copy = new_state(t, t->length[p] + 1u);
    memcpy(t->next[copy], t->next[q], sizeof *t->next);
    t->link[copy] = t->link[q];
    for (; p != 0 && t->next[p][c] == q; p = t->link[p]) {
        t->next[p][c] = copy;
    }
    t->link[q] = t->link[whole] = copy;
    return whole;
}

static void add_automaton(struct tables *t, const uint8_t *pattern, size_t m)
{
    uint8_t last = 1;
    t->count = 1;
    new_state(t, 0);
    t->link[1] = 0;
    for (size_t k = 0; k < m; k++) {
        last = add_letter(t, last, code(pattern[k]));
        /* a state's ends are also those of the states that its links lead to */
        t->ends[last] = k + 1 < m ? (uint64_t)1 << (k + 1) : 0;
    }
    for (size_t length = m; length > 0; length--) {
        for (size_t s = 2; s < t->count; s++) {
            if (t->length[s] == length) {
                t->ends[t->link[s]] |= t->ends[s];
            }
        }
    }
    t->ends[1] = ~(uint64_t)0;
}

/* The prefixes that end with the variant and start in it; *hit becomes 1 if the pattern lies inside it. */
static uint64_t starts(const struct tables *t, const uint8_t *pattern, size_t m, const uint8_t *s, size_t len, unsigned *hit)
{
    size_t k = 0;
    for (size_t i = 0; i < len; i++) {
        if (k == m) {
            k = t->border[k];
        }
        while (k > 0 && pattern[k] != upper(s[i])) {
            k = t->border[k];
        }
        k += pattern[k] == upper(s[i]);
        *hit |= k == m;
    }
    return t->borders[k];
}

/* The prefixes that the variant passes on. */
static uint64_t passed(const struct tables *t, uint64_t carried, const uint8_t *s, size_t len)
{
    uint8_t state = 1;
    for (size_t i = 0; i < len && state != 0; i++) {
        state = t->next[state][code(s[i])];
    }
    return state == 0 ? 0 : carried << len & t->ends[state];
}

static unsigned finishes(const struct tables *t, uint64_t carried, size_t m, const uint8_t *s, size_t len)
{
    uint64_t hits = 0;
    for (size_t i = 0; i < (len < m - 1 ? len : m - 1); i++) {
        carried &= t->masks[code(s[i])];
        hits |= carried;
        carried <<= 1;
    }
    return hits >> (m - 1) & 1;
}

uint64_t edsmbv(const uint8_t *pattern, size_t m, const uint8_t *stretch, size_t len, uint8_t *marks, size_t marks_len,
                uint8_t *block, size_t block_len)
{
    struct tables t;
    (void)len, (void)marks_len, (void)block_len;
    memset(t.masks, 0, sizeof t.masks);
    for (size_t k = 0; k < m; k++) {
        t.masks[code(pattern[k])] |= (uint64_t)1 << k;
    }
    add_borders(&t, pattern, m);
    add_automaton(&t, pattern, m);

    uint64_t segments = stretch[0] + 256u * stretch[1], size = 0, ends = 0, carried = 0;
    const uint8_t *at = stretch + 2;
    for (size_t j = 0; j < segments; j++) {
        uint64_t next = 0;
        unsigned hit = 0;
        for (size_t variants = *at++; variants > 0; variants--) {
            size_t n = at[0] + 256u * at[1];
            next |= starts(&t, pattern, m, at + 2, n, &hit);
            if (carried != 0) {
                next |= n < m ? passed(&t, carried, at + 2, n) : 0;
                hit |= finishes(&t, carried, m, at + 2, n);
            }
            size += counted(n);
            at += 2 + n;
        }
        marks[j] = (uint8_t)hit;
        ends += hit;
        carried = next;
    }
    put_result(block, 0, segments);
    put_result(block, 1, size);
    put_result(block, 2, ends);
    return 0;
}
