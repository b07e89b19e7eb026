/* A reader of variant files that does what vcf::build does (yardsticks.h): one pass over the file that checks every line and tallies
   the text, and one over the window's lines that writes it, so that a refusal changes nothing. */
#include "checks.h"
#include "yardsticks.h"

enum { LAST_POSITION = 2147483647, MOST_ALLELES = 255, MOST_STRETCH = 32768 };
enum { POS = 1, REF = 3, ALT = 4, FIELDS_READ = 5, FIELDS_ENDED = 7 };

struct bytes {
    const uint8_t *at;
    size_t len;
};

/* What of a record goes into the text. */
struct record {
    uint64_t position;
    struct bytes ref, alt;
};

/* The text so far: what it needs, the number of its first repeated variant, how far it reaches in the window, and the lines from the
   first to after the last whose records are in the window. */
struct tally {
    size_t bytes, segments, variants, repeated, base;
    const uint8_t *start, *stop;
};
static const size_t NONE = (size_t)-1;

static const uint8_t *line_end(const uint8_t *at, const uint8_t *end)
{
    const uint8_t *feed = memchr(at, '\n', (size_t)(end - at));
    return feed == NULL ? end : feed;
}

/* Cuts a line at its tabs. Returns whether that many fields have a tab after them. */
static int cut(const uint8_t *at, const uint8_t *end, size_t n, struct bytes *fields)
{
    for (size_t k = 0; k < n; k++, at++) {
        fields[k].at = at;
        while (at < end && *at != '\t') {
            at++;
        }
        if (at == end) {
            return 0;
        }
        fields[k].len = (size_t)(at - fields[k].at);
    }
    return 1;
}

/* The position that a field states; 0 if it states none. */
static uint64_t position_of(struct bytes digits)
{
    uint64_t n = 0;
    for (size_t i = 0; i < digits.len; i++) {
        if (digits.at[i] < '0' || digits.at[i] > '9') {
            return 0;
        }
        n = 10 * n + (digits.at[i] - '0');
        if (n > LAST_POSITION) {
            return 0;
        }
    }
    return n;
}

static struct record record_of(const struct bytes *fields)
{
    return (struct record){position_of(fields[POS]), fields[REF], fields[ALT]};
}

static int is_none(struct bytes alt) { return alt.len == 1 && *alt.at == '.'; }

/* Whether these are at most that many alleles, parted by commas, each of at least one letter. */
static int are_alleles(struct bytes some, size_t most)
{
    size_t alleles = 1, letters = 0;
    for (size_t i = 0; i < some.len; i++) {
        if (right[some.at[i]]) {
            letters++;
        } else if (some.at[i] == ',' && letters > 0) {
            alleles++;
            letters = 0;
        } else {
            return 0;
        }
    }
    return letters > 0 && alleles <= most;
}

/* Reads a line that is a sound record of the chromosome, whatever the window is. */
static int read_record(const uint8_t *at, const uint8_t *end, struct bytes name, struct record *record)
{
    struct bytes fields[FIELDS_ENDED];
    if (!cut(at, end, FIELDS_ENDED, fields) || fields->len != name.len || memcmp(fields->at, name.at, name.len) != 0) {
        return 0;
    }
    *record = record_of(fields);
    return record->position > 0 && are_alleles(record->ref, 1) && (is_none(record->alt) || are_alleles(record->alt, MOST_ALLELES - 1));
}

/* REF, and after it what ALT has. */
static size_t alleles_of(const struct record *record, struct bytes alleles[MOST_ALLELES])
{
    size_t n = 0;
    alleles[n++] = record->ref;
    if (is_none(record->alt)) {
        return n;
    }
    for (const uint8_t *at = record->alt.at, *end = at + record->alt.len, *from = at;; at++) {
        if (at == end || *at == ',') {
            alleles[n++] = (struct bytes){from, (size_t)(at - from)};
            from = at + 1;
        }
        if (at == end) {
            return n;
        }
    }
}

static int repeats(const struct bytes *alleles, size_t v)
{
    for (size_t k = 0; k < v; k++) {
        if (alleles[k].len == alleles[v].len && alike(alleles[k].at, alleles[v].at, alleles[v].len)) {
            return 1;
        }
    }
    return 0;
}

/* With the bases of the window after the last record, up to this one; and with a record. */
static void tally_gap(struct tally *tally, size_t to)
{
    if (tally->base < to) {
        tally->bytes += 3 + to - tally->base;
        tally->segments++;
        tally->variants++;
    }
}

static void tally_record(struct tally *tally, const struct record *record)
{
    struct bytes alleles[MOST_ALLELES];
    size_t n = alleles_of(record, alleles);
    tally->bytes++;
    tally->segments++;
    for (size_t v = 0; v < n; v++, tally->variants++) {
        tally->bytes += 2 + alleles[v].len;
        if (tally->repeated == NONE && repeats(alleles, v)) {
            tally->repeated = tally->variants;
        }
    }
}

/* The first pass. Returns the number of the first wrong line, 0 if there is none. */
static size_t check_lines(struct bytes file, struct bytes window, size_t first, struct bytes name, struct tally *tally)
{
    const uint8_t *file_end = file.at + file.len;
    uint64_t from = 0;
    size_t line = 1;
    for (const uint8_t *at = file.at, *end; at < file_end; at = end + 1, line++) {
        struct record record;
        end = line_end(at, file_end);
        if (*at == '#') {
            continue;
        }
        if (!read_record(at, end, name, &record) || record.position < from) {
            return line;
        }
        from = record.position + record.ref.len;
        if (window.len == 0 || from <= first || record.position >= first + window.len) {
            continue;
        }
        if (record.position < first || from > first + window.len ||
            !alike(record.ref.at, window.at + (record.position - first), record.ref.len)) {
            return line;
        }
        tally_gap(tally, record.position - first);
        tally_record(tally, &record);
        tally->base = from - first;
        tally->start = tally->start == NULL ? at : tally->start;
        tally->stop = end;
    }
    tally_gap(tally, window.len);
    return 0;
}

/* Writing: a word, low byte first; a variant in upper case; the bases of the window from one up to another as a segment. */
static uint8_t *put_word(uint8_t *out, size_t n)
{
    *out++ = (uint8_t)n;
    *out++ = (uint8_t)(n >> 8);
    return out;
}

static uint8_t *put_variant(uint8_t *restrict out, struct bytes letters)
{
    out = put_word(out, letters.len);
    for (size_t k = 0; k < letters.len; k++) {
        out[k] = letters.at[k] & 0xDF;
    }
    return out + letters.len;
}

static uint8_t *put_gap(uint8_t *out, const uint8_t *window, size_t from, size_t to)
{
    if (from < to) {
        *out++ = 1;
        out = put_variant(out, (struct bytes){window + from, to - from});
    }
    return out;
}

static uint8_t *put_record(uint8_t *out, const struct record *record)
{
    struct bytes alleles[MOST_ALLELES];
    size_t n = alleles_of(record, alleles);
    *out++ = (uint8_t)n;
    for (size_t v = 0; v < n; v++) {
        out = put_variant(out, alleles[v]);
    }
    return out;
}

/* The second pass, over lines that are sound, all of whose records are in the window. */
static void put_text(const struct tally *tally, struct bytes window, size_t first, uint8_t *out)
{
    struct bytes fields[FIELDS_READ];
    size_t base = 0;
    out = put_word(out, tally->segments);
    for (const uint8_t *at = tally->start, *end; at < tally->stop; at = end + 1) {
        end = line_end(at, tally->stop);
        if (*at != '#') {
            cut(at, end, FIELDS_READ, fields);
            struct record record = record_of(fields);
            out = put_gap(out, window.at, base, record.position - first);
            out = put_record(out, &record);
            base = record.position - first + record.ref.len;
        }
    }
    put_gap(out, window.at, base, window.len);
}

uint64_t read_variants(const uint8_t *file, size_t len, const uint8_t *window, size_t bases, size_t first, const uint8_t *name,
                       size_t name_len, uint8_t *out, size_t room)
{
    static const char heading[] = "##fileformat=VCFv4.";
    struct tally tally = {.bytes = 2, .repeated = NONE};
    if (first == 0 || (bases > 0 && (first > LAST_POSITION || bases - 1 > LAST_POSITION - first))) {
        return refused(28, 0);
    }
    if (len < sizeof heading - 1 || memcmp(file, heading, sizeof heading - 1) != 0) {
        return refused(18, 0);
    }
    for (size_t k = 0; k < bases; k++) {
        if (!right[window[k]]) {
            return refused(7, k);
        }
    }
    struct bytes lent = {window, bases};
    size_t wrong = check_lines((struct bytes){file, len}, lent, first, (struct bytes){name, name_len}, &tally);
    if (wrong > 0) {
        return refused(19, wrong);
    }
    if (tally.bytes > MOST_STRETCH) {
        return refused(4, 0);
    }
    if (tally.repeated != NONE) {
        return refused(8, tally.repeated);
    }
    if (tally.bytes > room) {
        return refused(15, 0);
    }
    put_text(&tally, lent, first, out);
    return refused(0, tally.bytes);
}
