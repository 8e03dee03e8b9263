/* Checks tree objects in pieces and holds each answer against the strict reader's: pieces H RULES EVERY SEED <objects, each object after its length in
 * four bytes, the lowest first. An object of at most EVERY bytes is cut at every place in two, begins at every place, and has each byte damaged; every
 * object goes through in pieces of 1, 7 and 512 bytes, whole, and cut at random with empty pieces between. The last line sums up. */
#include "sarpukten.h"

#include <stdio.h>
#include <stdlib.h>
#include <string.h>

static size_t h, compared, differ, longs, given[32];
static uint16_t rules;
static uint64_t seed;
static size_t *records;
static struct sarpukten_check check;

static size_t chance(size_t below)
{
    seed ^= seed << 13, seed ^= seed >> 7, seed ^= seed << 17;
    return (size_t)(seed >> 11) % below;
}

/* Whether the entry at a place has a readable mode and a name that passes 4,096 bytes before a NUL. */
static bool is_long(const uint8_t *s, size_t n, size_t at)
{
    size_t answer[SARPUKTEN_LENGTH_MODE], space = at;

    while (space < n && space < at + 7 && s[space] != ' ')
        space++;
    if (space == n || s[space] != ' ' || sarpukten_mode_read(s + at, space - at, answer) != SARPUKTEN_DONE)
        return false;
    return n - space > SARPUKTEN_MOST_HELD + 1 && !memchr(s + space + 1, 0, SARPUKTEN_MOST_HELD + 1);
}

/* Whether 16 has to be given, by the strict reader and a look at the entries: the first entry with too long a name, if those before it are accepted. */
static bool has_long(const uint8_t *s, size_t n, size_t *place)
{
    size_t at = 0, strict[SARPUKTEN_LENGTH_COUNT], step[SARPUKTEN_LENGTH_STEP];

    while (at < n && !is_long(s, n, at)) {
        if (sarpukten_tree_step(s, n, h, at, step) != SARPUKTEN_DONE)
            return false;
        at = step[SARPUKTEN_ANSWER_NEXT];
    }
    *place = at;
    return at < n && sarpukten_read_tree_strict(s, at, h, rules, records, SARPUKTEN_MOST_RECORDS * SARPUKTEN_WIDTH_ENTRY, strict) == SARPUKTEN_DONE;
}

static void hold(const char *what, const uint8_t *s, size_t n, const size_t strict[4])
{
    size_t a[SARPUKTEN_LENGTH_COUNT], place = 0;
    bool is_open = (h == SARPUKTEN_SHA1 || h == SARPUKTEN_SHA256) && (rules == 1 || rules == 2);

    if (sarpukten_check_answer(&check, a) != a[0])
        differ++;
    compared++;
    given[a[0] % 32]++;
    if (n > SARPUKTEN_MOST_HELD && is_open && has_long(s, n, &place)) {
        longs++;
        if (a[0] != SARPUKTEN_REFUSED_LONG_NAME || a[1] != place || a[2] || a[3])
            differ++;
    } else if (memcmp(a, strict, sizeof a) != 0 && differ++ < 10)
        printf(
            "%s, %zu bytes: %zu at %zu part %zu count %zu, strictly %zu at %zu part %zu count %zu\n", what, n, a[0], a[1], a[2], a[3], strict[0], strict[1],
            strict[2], strict[3]);
}

static void read_strictly(const uint8_t *s, size_t n, size_t strict[4])
{
    if (sarpukten_read_tree_strict(s, n, h, rules, records, SARPUKTEN_MOST_RECORDS * SARPUKTEN_WIDTH_ENTRY, strict) != strict[0])
        differ++;
}

static void in_pieces_of(const uint8_t *s, size_t n, size_t size, const size_t strict[4])
{
    size_t at;

    sarpukten_check_begin(&check, h, rules);
    for (at = 0; at < n; at += size)
        sarpukten_check_feed(&check, s + at, n - at < size ? n - at : size);
    hold("pieces of one length", s, n, strict);
}

static void at_random(const uint8_t *s, size_t n, size_t longest, const size_t strict[4])
{
    size_t at = 0, k;

    memset(&check, (int)chance(256), sizeof check);
    sarpukten_check_begin(&check, h, rules);
    while (at < n) {
        k = chance(longest + 1);
        k = k < n - at ? k : n - at;
        sarpukten_check_feed(&check, s + at, k);
        at += k;
    }
    hold("pieces at random", s, n, strict);
}

static void all_ways(const uint8_t *s, size_t n)
{
    size_t strict[SARPUKTEN_LENGTH_COUNT];

    read_strictly(s, n, strict);
    in_pieces_of(s, n, 1, strict);
    in_pieces_of(s, n, 7, strict);
    in_pieces_of(s, n, 512, strict);
    in_pieces_of(s, n, n + 1, strict);
    at_random(s, n, 40, strict);
    at_random(s, n, 700, strict);
}

static void every_place(uint8_t *s, size_t n)
{
    static const uint8_t bytes[] = {0, ' ', '/', '0', '7', '8', '.', 'g', 'G', 255};
    size_t strict[SARPUKTEN_LENGTH_COUNT], cut, k;

    read_strictly(s, n, strict);
    for (cut = 0; cut <= n; cut++) {
        sarpukten_check_begin(&check, h, rules);
        sarpukten_check_feed(&check, s, cut);
        sarpukten_check_feed(&check, s + cut, 0);
        sarpukten_check_feed(&check, s + cut, n - cut);
        hold("cut in two", s, n, strict);
    }
    for (cut = 0; cut < n; cut++) {
        uint8_t was = s[cut];
        read_strictly(s, cut, strict);
        in_pieces_of(s, cut, 5, strict);
        for (k = 0; k <= sizeof bytes; k++) {
            s[cut] = k < sizeof bytes ? bytes[k] : (uint8_t)(was ^ 1);
            read_strictly(s, n, strict);
            in_pieces_of(s, n, 11, strict);
        }
        s[cut] = was;
    }
}

int main(int argc, char **argv)
{
    uint8_t size[4], *s;
    size_t every, objects = 0, bytes = 0, n, k;

    if (argc != 5)
        return 2;
    h = strtoul(argv[1], 0, 10), rules = (uint16_t)strtoul(argv[2], 0, 10), every = strtoul(argv[3], 0, 10);
    seed = strtoul(argv[4], 0, 10) + 88172645463325252u;
    records = malloc(SARPUKTEN_MOST_RECORDS * SARPUKTEN_WIDTH_ENTRY * sizeof *records);
    if (!records)
        return 2;
    while (fread(size, 1, 4, stdin) == 4) {
        n = size[0] | (size_t)size[1] << 8 | (size_t)size[2] << 16 | (size_t)size[3] << 24;
        s = malloc(n + 1);
        if (!s || fread(s, 1, n, stdin) != n)
            return 2;
        all_ways(s, n);
        if (n <= every)
            every_place(s, n);
        objects++, bytes += n;
        free(s);
    }
    printf("%zu objects, %zu bytes, %zu answers, %zu of them 16, %zu differ; numbers given:", objects, bytes, compared, longs, differ);
    for (k = 0; k < 32; k++)
        if (given[k])
            printf(" %zu (%zu)", k, given[k]);
    printf("\n");
    return differ != 0;
}
