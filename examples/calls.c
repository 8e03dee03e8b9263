/* Every call of sarpukten.h once or twice, with what it answers, and with a guard before and after each array that it may write.
 * It prints how many answers it looked at. */
#include <stdio.h>
#include <stdlib.h>
#include <string.h>

#include "sarpukten.h"

#define GUARD 9

static int failed, held;

static void hold(int fact, int line)
{
    held++;
    if (!fact) {
        printf("calls.c:%d does not hold\n", line);
        failed = 1;
    }
}
#define HOLD(fact) hold((fact), __LINE__)

/* An array with a guard on both sides: `numbers + 1` is lent. */
static size_t numbers[SARPUKTEN_LENGTH_COMMIT + 2];
static size_t *const answer = numbers + 1;

/* Whether the call answered with these numbers, so many, and nothing beside them. The array is then as new. */
static int answers(size_t number, size_t many, const size_t *want)
{
    size_t i;
    int same = number == answer[SARPUKTEN_ANSWER_NUMBER] && numbers[0] == GUARD && answer[many] == GUARD;

    for (i = 0; i < many; i++)
        same = same && answer[i] == want[i];
    for (i = 0; i < SARPUKTEN_LENGTH_COMMIT + 2; i++)
        numbers[i] = GUARD;
    return same;
}

static int four(size_t number, size_t a, size_t b, size_t part, size_t c)
{
    size_t want[SARPUKTEN_LENGTH_COUNT];

    want[SARPUKTEN_ANSWER_NUMBER] = a;
    want[SARPUKTEN_ANSWER_PLACE] = b;
    want[SARPUKTEN_ANSWER_PART] = part;
    want[SARPUKTEN_ANSWER_COUNT] = c;
    return answers(number, SARPUKTEN_LENGTH_COUNT, want);
}

/* The same with part 0, as with every number but 3. */
static int three(size_t number, size_t a, size_t b, size_t c)
{
    return four(number, a, b, 0, c);
}

/* Whether every one of some bytes is the guard. */
static int untouched(const uint8_t *bytes, size_t len)
{
    size_t i;

    for (i = 0; i < len; i++)
        if (bytes[i] != GUARD)
            return 0;
    return 1;
}

#define BYTES(text) ((const uint8_t *)(text))

/* One byte more than the longest buffer, all 0. */
static const size_t over = SARPUKTEN_MOST_BYTES + 1;
static uint8_t *big;

static void modes(void)
{
    static const size_t link[SARPUKTEN_WIDTH_QUESTIONS] = {0, 1, 0, 0, 1, 1, 0};
    uint8_t six[SARPUKTEN_ROOM_WORD + 2];

    HOLD(three(sarpukten_mode_read(BYTES("100644 "), 7, answer), SARPUKTEN_DONE, 0, 0100644));
    HOLD(four(sarpukten_mode_read(BYTES(""), 0, answer), SARPUKTEN_REFUSED_BROKEN_ENTRY, 0, SARPUKTEN_BROKEN_NO_MODE, 0));
    HOLD(three(sarpukten_mode_from_number(0300644, answer), SARPUKTEN_DONE, 0, 0100644));
    HOLD(three(sarpukten_mode_from_number(0200000, answer), SARPUKTEN_REFUSED_NO_MODE_OR_KIND, 0, 0));
    HOLD(sarpukten_mode_value(0140000) == 040000);
    HOLD(sarpukten_mode_kind(0100664) == 0100644);
    sarpukten_mode_ask(0120000, answer);
    HOLD(answers(0, SARPUKTEN_WIDTH_QUESTIONS, link));
    memset(six, GUARD, sizeof six);
    HOLD(sarpukten_mode_word(040000, six + 1) == 4 && memcmp(six, "\011tree\0\0\011", 8) == 0);
    HOLD(sarpukten_mode_text(040000, six + 1) == 5 && memcmp(six, "\01140000\0\011", 8) == 0);
}

static void names(void)
{
    HOLD(sarpukten_name_order(BYTES("a"), 1, false, BYTES("a.b"), 3, false) == -1);
    HOLD(sarpukten_name_order(BYTES("a"), 1, true, BYTES("a.b"), 3, false) == 1);
    HOLD(sarpukten_name_order(BYTES("a"), 1, true, BYTES("a/b"), 3, false) == 0);
}

/* Reads an object of one or two entries strictly: their texts as given, and an id after the NUL of each. */
static size_t strict(uint16_t rules, const char *first, const char *second)
{
    uint8_t object[80];
    size_t records[2 * SARPUKTEN_WIDTH_ENTRY], len = strlen(first) + 21;

    memset(object, 0x11, sizeof object);
    memcpy(object, first, len - 20);
    if (second) {
        memcpy(object + len, second, strlen(second) + 1);
        len += strlen(second) + 21;
    }
    return sarpukten_read_tree_strict(object, len, SARPUKTEN_SHA1, rules, records, 2 * SARPUKTEN_WIDTH_ENTRY, answer);
}

/* Reads O's first entry whole, and behind it these bytes. */
static size_t behind(const char *bytes, size_t len)
{
    uint8_t object[29 + 40];
    size_t records[2 * SARPUKTEN_WIDTH_ENTRY];

    memcpy(object, "100644 a", 9);
    memset(object + 9, 0x11, 20);
    memcpy(object + 29, bytes, len);
    return sarpukten_read_tree(object, 29 + len, SARPUKTEN_SHA1, records, 2 * SARPUKTEN_WIDTH_ENTRY, answer);
}

static void parts(void)
{
    HOLD(four(behind("9", 1), SARPUKTEN_REFUSED_BROKEN_ENTRY, 29, SARPUKTEN_BROKEN_NO_MODE, 0));
    HOLD(four(behind("12345678", 8), SARPUKTEN_REFUSED_BROKEN_ENTRY, 29, SARPUKTEN_BROKEN_NO_MODE, 0));
    HOLD(four(behind("100644", 7), SARPUKTEN_REFUSED_BROKEN_ENTRY, 29, SARPUKTEN_BROKEN_NO_MODE, 0));
    HOLD(four(behind("1234567", 7), SARPUKTEN_REFUSED_BROKEN_ENTRY, 29, SARPUKTEN_BROKEN_NO_NUL, 0));
    HOLD(four(behind("100644 ab", 9), SARPUKTEN_REFUSED_BROKEN_ENTRY, 29, SARPUKTEN_BROKEN_NO_NUL, 0));
    HOLD(four(behind("100644 b\0nineteen bytes here", 28), SARPUKTEN_REFUSED_BROKEN_ENTRY, 29, SARPUKTEN_BROKEN_CUT_ID, 0));
    HOLD(three(behind("100644 b\0twenty bytes of an id", 29), SARPUKTEN_DONE, 0, 2));
}

static void rules(void)
{
    HOLD(three(strict(SARPUKTEN_RULES_PRESENT, "40000 .Git", NULL), SARPUKTEN_REFUSED_DOT_GIT, 0, 0));
    HOLD(three(strict(SARPUKTEN_RULES_PRESENT, "100644 a", "40000 .giT"), SARPUKTEN_REFUSED_DOT_GIT, 29, 0));
    HOLD(three(strict(SARPUKTEN_RULES_PRESENT, "40000 .GITx", "100644 a"), SARPUKTEN_DONE, 0, 2));
    HOLD(three(strict(SARPUKTEN_RULES_PRESENT, "100644 a", "100664 b"), SARPUKTEN_REFUSED_MODE_TEXT, 29, 0));
    HOLD(three(strict(SARPUKTEN_RULES_EARLY, "100644 a", "100664 b"), SARPUKTEN_DONE, 0, 2));
    HOLD(three(strict(SARPUKTEN_RULES_PRESENT, "100644 a", "40000 a"), SARPUKTEN_REFUSED_SAME_NAME, 29, 0));
    HOLD(three(strict(SARPUKTEN_RULES_EARLY, "100664 a", "40000 a"), SARPUKTEN_REFUSED_SAME_NAME, 29, 0));
    HOLD(three(strict(SARPUKTEN_RULES_PRESENT, "40000 .git", NULL), SARPUKTEN_REFUSED_NAME, 0, 0));
    HOLD(three(strict(SARPUKTEN_RULES_PRESENT, "100644 b", "100644 a"), SARPUKTEN_REFUSED_ORDER, 29, 0));
    HOLD(three(strict(0, "100644 a", NULL), SARPUKTEN_REFUSED_RULE_SET, 0, 0));
    HOLD(three(strict(3, "100644 a", NULL), SARPUKTEN_REFUSED_RULE_SET, 0, 0));
    HOLD(three(strict(UINT16_MAX, "100644 a", NULL), SARPUKTEN_REFUSED_RULE_SET, 0, 0));
}

static void trees(void)
{
    static const size_t step[SARPUKTEN_LENGTH_STEP] = {0, 0, 0, 1, 57, 040000, 35, 36, 37, 29}, end[SARPUKTEN_LENGTH_STEP] = {0, 0, 0, 0, 57};
    static const size_t cut[SARPUKTEN_LENGTH_STEP] = {SARPUKTEN_REFUSED_BROKEN_ENTRY, 29, SARPUKTEN_BROKEN_CUT_ID, 0, 56};
    static const size_t found[SARPUKTEN_LENGTH_LOOKUP] = {0, 0, 0, 1, 1}, absent[SARPUKTEN_LENGTH_LOOKUP] = {SARPUKTEN_REFUSED_NOT_THERE, 0, 0, 0, 2};
    static const size_t both[11] = {0100644, 7, 8, 9, 0, 040000, 35, 36, 37, 29, GUARD};
    const struct sarpukten_entry e = sarpukten_entry_of_step(step);
    uint8_t object[57], out[60];
    size_t records[11], i;

    memcpy(object, "100644 a", 9);
    memset(object + 9, 0x11, 20);
    memcpy(object + 29, "40000 b", 8);
    memset(object + 37, 0x22, 20);
    for (i = 0; i < 11; i++)
        records[i] = GUARD;

    HOLD(answers(sarpukten_tree_step(object, 57, SARPUKTEN_SHA1, 29, answer), SARPUKTEN_LENGTH_STEP, step));
    HOLD(step[SARPUKTEN_ANSWER_FOUND] == 1 && step[SARPUKTEN_ANSWER_NEXT] == 57);
    HOLD(e.mode == 040000 && e.name_start == 35 && e.name_end == 36 && e.id_start == 37 && e.text_start == 29);
    HOLD(answers(sarpukten_tree_step(object, 57, SARPUKTEN_SHA1, 57, answer), SARPUKTEN_LENGTH_STEP, end));
    HOLD(answers(sarpukten_tree_step(object, 56, SARPUKTEN_SHA1, 29, answer), SARPUKTEN_LENGTH_STEP, cut));
    HOLD(three(sarpukten_read_tree(object, 57, SARPUKTEN_SHA1, records, 9, answer), SARPUKTEN_REFUSED_FEW_RECORDS, 2, 0));
    HOLD(records[0] == GUARD);
    HOLD(three(sarpukten_read_tree(object, 57, SARPUKTEN_SHA1, records, 11, answer), SARPUKTEN_DONE, 0, 2));
    HOLD(memcmp(records, both, sizeof both) == 0);
    HOLD(four(sarpukten_read_tree_strict(object, 56, SARPUKTEN_SHA1, SARPUKTEN_RULES_PRESENT, records, 11, answer), SARPUKTEN_REFUSED_BROKEN_ENTRY, 29, SARPUKTEN_BROKEN_CUT_ID, 0));
    HOLD(four(sarpukten_read_tree(object, 36, SARPUKTEN_SHA1, records, 11, answer), SARPUKTEN_REFUSED_BROKEN_ENTRY, 29, SARPUKTEN_BROKEN_NO_NUL, 0));
    HOLD(three(sarpukten_read_tree_strict(object, 57, 21, 3, records, 11, answer), SARPUKTEN_REFUSED_ID_LENGTH, 0, 0));
    HOLD(three(sarpukten_read_tree_strict(object, 57, SARPUKTEN_SHA1, 3, records, 11, answer), SARPUKTEN_REFUSED_RULE_SET, 0, 0));
    HOLD(three(sarpukten_read_tree_strict(object, 57, SARPUKTEN_SHA1, SARPUKTEN_RULES_PRESENT, records, 10, answer), SARPUKTEN_DONE, 0, 2));
    HOLD(memcmp(records, both, sizeof both) == 0);
    HOLD(answers(sarpukten_bisect_entry(object, 57, SARPUKTEN_SHA1, records, 10, BYTES("b"), 1, true, answer), SARPUKTEN_LENGTH_LOOKUP, found));
    HOLD(answers(sarpukten_bisect_entry(object, 57, SARPUKTEN_SHA1, records, 10, BYTES("b"), 1, false, answer), SARPUKTEN_LENGTH_LOOKUP, absent));
    HOLD(sarpukten_most_comparisons(0) == 0 && sarpukten_most_comparisons(2) == 2);
    HOLD(three(sarpukten_tree_size(object, 57, SARPUKTEN_SHA1, records, 10, answer), SARPUKTEN_DONE, 0, 57));
    memset(out, GUARD, sizeof out);
    HOLD(three(sarpukten_write_tree(object, 57, SARPUKTEN_SHA1, records, 10, out, 56, answer), SARPUKTEN_REFUSED_SHORT_OUTPUT, 57, 0));
    HOLD(untouched(out, sizeof out));
    HOLD(three(sarpukten_write_tree(object, 57, SARPUKTEN_SHA1, records, 10, out, 60, answer), SARPUKTEN_DONE, 0, 57));
    HOLD(memcmp(out, object, 57) == 0 && untouched(out + 57, 3));
}

/* What many lookups store, with a guard on both sides: `stored + 1` is lent. */
static size_t stored[3 * SARPUKTEN_WIDTH_FOUND + 2];

/* Whether many lookups answered so, and stored these numbers, so many. The array is then as new. */
static int finds(int answered, size_t many, const size_t *want)
{
    size_t i;
    int same = answered;

    for (i = 0; i < 3 * SARPUKTEN_WIDTH_FOUND + 2; i++) {
        same = same && stored[i] == (1 <= i && i <= many ? want[i - 1] : GUARD);
        stored[i] = GUARD;
    }
    return same;
}

/* Names sought among two records of an object of two entries, with room for so many numbers. */
static size_t seek(
    const uint8_t *object, size_t h, const size_t *records, const uint8_t *names, size_t names_len, const size_t *sought, size_t sought_len,
    size_t room)
{
    return sarpukten_bisect_entries(
        object, 57, h, records, 2 * SARPUKTEN_WIDTH_ENTRY, names, names_len, sought, sought_len, stored + 1, room, answer);
}

/* A name of whatever sort, and many names: folder `b`, file `a` and `ab`, all in the two bytes `ab`. */
static void lookups(void)
{
    static const size_t both[10] = {0100644, 7, 8, 9, 0, 040000, 35, 36, 37, 29}, broken[10] = {65536, 7, 8, 9, 0, 040000, 35, 36, 37, 29};
    static const size_t file[SARPUKTEN_LENGTH_LOOKUP] = {0, 0, 0, 0, 2}, folder[SARPUKTEN_LENGTH_LOOKUP] = {0, 0, 0, 1, 3};
    static const size_t absent[SARPUKTEN_LENGTH_LOOKUP] = {SARPUKTEN_REFUSED_NOT_THERE, 0, 0, 0, 4}, bad[SARPUKTEN_LENGTH_LOOKUP] = {SARPUKTEN_REFUSED_BAD_RECORD};
    static const size_t length[SARPUKTEN_LENGTH_LOOKUP] = {SARPUKTEN_REFUSED_ID_LENGTH}, bound[SARPUKTEN_LENGTH_LOOKUP] = {SARPUKTEN_REFUSED_BOUND};
    static const size_t sought[11] = {1, 2, 1, 0, 1, 0, 0, 2, 0, GUARD, GUARD}, three_found[9] = {0, 1, 1, 0, 0, 2, SARPUKTEN_REFUSED_NOT_THERE, 0, 2};
    static const size_t backwards[6] = {0, 1, 0, 2, 1, 0}, outside[6] = {0, 1, 0, 0, 3, 0}, marked[6] = {0, 1, 0, 0, 1, 2};
    struct sarpukten_entry entries[2] = {{0100644, 7, 8, 9, 0}, {040000, 35, 36, 37, 29}};
    struct sarpukten_sought typed[3] = {{1, 2, 1}, {0, 1, 0}, {0, 2, 0}};
    struct sarpukten_found lent[4];
    uint8_t object[57];

    memcpy(object, "100644 a", 9);
    memset(object + 9, 0x11, 20);
    memcpy(object + 29, "40000 b", 8);
    memset(object + 37, 0x22, 20);

    HOLD(answers(sarpukten_bisect_any(object, 57, SARPUKTEN_SHA1, both, 10, BYTES("a"), 1, answer), SARPUKTEN_LENGTH_LOOKUP, file));
    HOLD(answers(sarpukten_bisect_any(object, 57, SARPUKTEN_SHA1, both, 10, BYTES("b"), 1, answer), SARPUKTEN_LENGTH_LOOKUP, folder));
    HOLD(answers(sarpukten_bisect_any(object, 57, SARPUKTEN_SHA1, both, 10, BYTES("ab"), 2, answer), SARPUKTEN_LENGTH_LOOKUP, absent));
    HOLD(answers(sarpukten_bisect_any(object, 57, SARPUKTEN_SHA1, broken, 10, BYTES("a"), 1, answer), SARPUKTEN_LENGTH_LOOKUP, bad));
    HOLD(answers(sarpukten_bisect_any(object, 57, 21, both, 10, BYTES("a"), 1, answer), SARPUKTEN_LENGTH_LOOKUP, length));
    HOLD(answers(sarpukten_bisect_any(object, 57, SARPUKTEN_SHA1, both, 10, big, over, answer), SARPUKTEN_LENGTH_LOOKUP, bound));
    HOLD(answers(sarpukten_bisect_any_in_entries(object, 57, SARPUKTEN_SHA1, entries, 2, BYTES("b"), 1, answer), SARPUKTEN_LENGTH_LOOKUP, folder));

    finds(1, 0, NULL);
    HOLD(finds(three(seek(object, SARPUKTEN_SHA1, both, BYTES("ab"), 2, sought, 11, 9), SARPUKTEN_DONE, 0, 3), 9, three_found));
    HOLD(finds(three(seek(object, SARPUKTEN_SHA1, both, BYTES("ab"), 2, sought, 6, 9), SARPUKTEN_DONE, 0, 2), 6, three_found));
    HOLD(finds(three(seek(object, SARPUKTEN_SHA1, both, BYTES("ab"), 2, sought, 2, 9), SARPUKTEN_DONE, 0, 0), 0, NULL));
    HOLD(finds(three(seek(object, 21, both, big, over, sought, 9, 8), SARPUKTEN_REFUSED_ID_LENGTH, 0, 0), 0, NULL));
    HOLD(finds(three(seek(object, SARPUKTEN_SHA1, both, big, over, sought, 9, 8), SARPUKTEN_REFUSED_BOUND, 0, 0), 0, NULL));
    HOLD(finds(three(seek(object, SARPUKTEN_SHA1, broken, BYTES("ab"), 2, sought, 9, 8), SARPUKTEN_REFUSED_FEW_RECORDS, 3, 0), 0, NULL));
    HOLD(finds(three(seek(object, SARPUKTEN_SHA1, broken, BYTES("ab"), 2, sought, 9, 9), SARPUKTEN_REFUSED_BAD_RECORD, 1, 0), 0, NULL));
    HOLD(finds(three(seek(object, SARPUKTEN_SHA1, both, BYTES("ab"), 2, backwards, 6, 9), SARPUKTEN_REFUSED_BAD_RECORD, 1, 0), 0, NULL));
    HOLD(finds(three(seek(object, SARPUKTEN_SHA1, both, BYTES("ab"), 2, outside, 6, 9), SARPUKTEN_REFUSED_BAD_RECORD, 1, 0), 0, NULL));
    HOLD(finds(three(seek(object, SARPUKTEN_SHA1, both, BYTES("ab"), 2, marked, 6, 9), SARPUKTEN_REFUSED_BAD_RECORD, 1, 0), 0, NULL));

    memset(lent, GUARD, sizeof lent);
    HOLD(
        three(sarpukten_bisect_all_in_entries(object, 57, SARPUKTEN_SHA1, entries, 2, BYTES("ab"), 2, typed, 3, lent, 2, answer), SARPUKTEN_REFUSED_FEW_RECORDS, 3, 0));
    HOLD(untouched((const uint8_t *)lent, sizeof lent));
    HOLD(three(sarpukten_bisect_all_in_entries(object, 57, SARPUKTEN_SHA1, entries, 2, BYTES("ab"), 2, typed, 3, lent, 3, answer), SARPUKTEN_DONE, 0, 3));
    HOLD(lent[0].number == SARPUKTEN_DONE && lent[0].index == 1 && lent[0].compared == 1);
    HOLD(lent[1].number == SARPUKTEN_DONE && lent[1].index == 0 && lent[1].compared == 2);
    HOLD(lent[2].number == SARPUKTEN_REFUSED_NOT_THERE && lent[2].index == 0 && lent[2].compared == 2);
    HOLD(untouched((const uint8_t *)(lent + 3), sizeof *lent));
}

/* More names than the 64 whose answers the call keeps: it stores as many, or none where the last is refused. */
static void many_lookups(void)
{
    static const struct sarpukten_entry entry = {0100644, 7, 8, 9, 0};
    struct sarpukten_sought sought[130];
    struct sarpukten_found lent[131];
    uint8_t object[29];
    size_t i;
    int same = 1;

    memcpy(object, "100644 a", 9);
    memset(object + 9, 0x11, 20);
    for (i = 0; i < 130; i++) {
        sought[i].start = i % 2;
        sought[i].end = 1;
        sought[i].is_folder = 0;
    }
    memset(lent, GUARD, sizeof lent);
    sought[129].is_folder = 2;
    HOLD(
        three(sarpukten_bisect_all_in_entries(object, 29, SARPUKTEN_SHA1, &entry, 1, BYTES("a"), 1, sought, 130, lent, 130, answer), SARPUKTEN_REFUSED_BAD_RECORD, 129, 0));
    HOLD(untouched((const uint8_t *)lent, sizeof lent));
    sought[129].is_folder = 1;
    HOLD(three(sarpukten_bisect_all_in_entries(object, 29, SARPUKTEN_SHA1, &entry, 1, BYTES("a"), 1, sought, 130, lent, 130, answer), SARPUKTEN_DONE, 0, 130));
    for (i = 0; i < 130; i++)
        same = same && lent[i].number == (i % 2 == 0 ? SARPUKTEN_DONE : SARPUKTEN_REFUSED_NOT_THERE) && lent[i].index == 0 && lent[i].compared == 1;
    HOLD(same);
    HOLD(untouched((const uint8_t *)(lent + 130), sizeof *lent));
}

static void ids(void)
{
    static const char hex[] = "000102030405060708090a0b0c0d0e0f1011121314151617181920213031feff";
    static const char upper[] = "FEDCBA9876543210FEDCBA9876543210FEDCBA98", no_digit[] = "FEDCBA9876543210FEDCBA9876543210FEDCBA9g";
    uint8_t id[SARPUKTEN_ROOM_ID + 2], digits[SARPUKTEN_ROOM_HEX + 2];

    memset(id, GUARD, sizeof id);
    memset(digits, GUARD, sizeof digits);
    HOLD(three(sarpukten_id_of_hex(BYTES(hex), 63, id + 1, 0, answer), SARPUKTEN_REFUSED_ID_LENGTH, 0, 0));
    HOLD(three(sarpukten_id_of_hex(BYTES(hex), 41, big, over, answer), SARPUKTEN_REFUSED_ID_LENGTH, 0, 0));
    HOLD(three(sarpukten_id_of_hex(BYTES(no_digit), 40, big, over, answer), SARPUKTEN_REFUSED_BOUND, 0, 0));
    HOLD(three(sarpukten_id_of_hex(BYTES(no_digit), 40, id + 1, 19, answer), SARPUKTEN_REFUSED_BAD_RECORD, 0, 0));
    HOLD(three(sarpukten_id_of_hex(BYTES(upper), 40, id + 1, 19, answer), SARPUKTEN_REFUSED_SHORT_OUTPUT, 20, 0));
    HOLD(three(sarpukten_id_of_hex(BYTES(hex), 64, id + 1, 31, answer), SARPUKTEN_REFUSED_SHORT_OUTPUT, 32, 0));
    HOLD(untouched(id, sizeof id));
    HOLD(three(sarpukten_id_of_hex(BYTES(upper), 40, id + 1, 32, answer), SARPUKTEN_DONE, 0, 20));
    HOLD(memcmp(id, "\011\376\334\272\230\166\124\062\020\376\334\272\230\166\124\062\020\376\334\272\230", 21) == 0 && untouched(id + 21, 13));
    HOLD(three(sarpukten_hex_of_id(id + 1, 19, big, over, answer), SARPUKTEN_REFUSED_ID_LENGTH, 0, 0));
    HOLD(three(sarpukten_hex_of_id(id + 1, 20, big, over, answer), SARPUKTEN_REFUSED_BOUND, 0, 0));
    HOLD(three(sarpukten_hex_of_id(id + 1, 20, digits + 1, 39, answer), SARPUKTEN_REFUSED_SHORT_OUTPUT, 40, 0));
    HOLD(untouched(digits, sizeof digits) && big[0] == 0);
    HOLD(three(sarpukten_hex_of_id(id + 1, 20, digits + 1, 64, answer), SARPUKTEN_DONE, 0, 40));
    HOLD(memcmp(digits, "\011fedcba9876543210fedcba9876543210fedcba98", 41) == 0 && untouched(digits + 41, 25));
    HOLD(three(sarpukten_id_of_hex(BYTES(hex), 64, id + 1, 32, answer), SARPUKTEN_DONE, 0, 32));
    HOLD(id[0] == GUARD && id[33] == GUARD && id[1] == 0 && id[11] == 10 && id[31] == 0xfe && id[32] == 0xff);
    HOLD(three(sarpukten_hex_of_id(id + 1, 32, digits + 1, 64, answer), SARPUKTEN_DONE, 0, 64));
    HOLD(digits[0] == GUARD && memcmp(digits + 1, hex, 64) == 0 && digits[65] == GUARD);
}

/* A bundle of three objects: a tree with the folder `a`, its tree with the file `b`, and the file; then what is wrong with others. */
static void bundles(void)
{
    static const size_t checked[SARPUKTEN_LENGTH_BUNDLE] = {0, 0, 0, 20, 2, 3}, early[SARPUKTEN_LENGTH_BUNDLE] = {0, 0, 0, 20, 1, 3};
    static const size_t unframed[SARPUKTEN_LENGTH_BUNDLE] = {SARPUKTEN_REFUSED_NOT_FRAMED}, twice[SARPUKTEN_LENGTH_BUNDLE] = {SARPUKTEN_REFUSED_ID_TWICE};
    static const size_t over_it[SARPUKTEN_LENGTH_BUNDLE] = {SARPUKTEN_REFUSED_BOUND}, gone[SARPUKTEN_LENGTH_OBJECT] = {SARPUKTEN_REFUSED_NOT_THERE};
    static const size_t blob[SARPUKTEN_LENGTH_OBJECT] = {0, 0, 0, 3, 142, 147};
    static const size_t folder[SARPUKTEN_LENGTH_PATH] = {0, 0, 0, 040000, 20}, file[SARPUKTEN_LENGTH_PATH] = {0, 0, 0, 0100644, 20};
    static const size_t no_path[SARPUKTEN_LENGTH_PATH] = {SARPUKTEN_REFUSED_NO_PATH};
    uint8_t bundle[149], id[SARPUKTEN_ROOM_ID + 2], want[SARPUKTEN_ROOM_ID];
    uint8_t *first = bundle + 10, *second = first + 25 + 28, *third = second + 25 + 29;

    memcpy(bundle, "GOB\001\000\024\003\000\000\000", 10);
    memset(first, 0x11, 20);
    memcpy(first + 20, "\002\034\000\000\00040000 a", 13);
    memset(first + 33, 0x22, 20);
    memset(second, 0x22, 20);
    memcpy(second + 20, "\002\035\000\000\000100644 b", 14);
    memset(second + 34, 0x33, 20);
    memset(third, 0x33, 20);
    memcpy(third + 20, "\003\005\000\000\000hello", 10);
    memset(id, GUARD, sizeof id);
    memset(want, 0, sizeof want);

    HOLD(answers(sarpukten_check_bundle(bundle, 147, answer), SARPUKTEN_LENGTH_BUNDLE, checked));
    HOLD(answers(sarpukten_check_bundle(bundle, 146, answer), SARPUKTEN_LENGTH_BUNDLE, unframed));
    HOLD(answers(sarpukten_check_bundle(bundle, 0, answer), SARPUKTEN_LENGTH_BUNDLE, unframed));
    HOLD(answers(sarpukten_check_bundle(big, over, answer), SARPUKTEN_LENGTH_BUNDLE, over_it));
    HOLD(answers(sarpukten_bundle_object(bundle, 147, third, 20, answer), SARPUKTEN_LENGTH_OBJECT, blob));
    HOLD(answers(sarpukten_bundle_object(bundle, 147, third, 19, answer), SARPUKTEN_LENGTH_OBJECT, gone));
    HOLD(answers(sarpukten_bundle_object(bundle, 147, big, over, answer), SARPUKTEN_LENGTH_OBJECT, over_it));

    HOLD(answers(sarpukten_follow_path(bundle, 147, first, 20, BYTES("a"), 1, answer, id + 1), SARPUKTEN_LENGTH_PATH, folder));
    memset(want, 0x22, 20);
    HOLD(id[0] == GUARD && memcmp(id + 1, want, SARPUKTEN_ROOM_ID) == 0 && id[SARPUKTEN_ROOM_ID + 1] == GUARD);
    HOLD(answers(sarpukten_follow_path(bundle, 147, first, 20, BYTES("a/b"), 3, answer, id + 1), SARPUKTEN_LENGTH_PATH, file));
    memset(want, 0x33, 20);
    HOLD(id[0] == GUARD && memcmp(id + 1, want, SARPUKTEN_ROOM_ID) == 0 && id[SARPUKTEN_ROOM_ID + 1] == GUARD);
    HOLD(answers(sarpukten_follow_path(bundle, 147, first, 20, BYTES("a//b"), 4, answer, id + 1), SARPUKTEN_LENGTH_PATH, no_path));
    memset(want, 0, 20);
    HOLD(id[0] == GUARD && memcmp(id + 1, want, SARPUKTEN_ROOM_ID) == 0 && id[SARPUKTEN_ROOM_ID + 1] == GUARD);
    HOLD(answers(sarpukten_follow_path(bundle, 147, third, 20, BYTES("a"), 1, answer, id + 1), SARPUKTEN_LENGTH_PATH, gone));
    HOLD(answers(sarpukten_follow_path(bundle, 147, first, 20, BYTES(""), 0, answer, id + 1), SARPUKTEN_LENGTH_PATH, gone));
    HOLD(answers(sarpukten_follow_path(bundle, 147, first, 32, BYTES("a"), 1, answer, id + 1), SARPUKTEN_LENGTH_PATH, unframed));
    HOLD(answers(sarpukten_follow_path(bundle, 147, first, 20, big, over, answer, id + 1), SARPUKTEN_LENGTH_PATH, over_it));
    /* An id twice, whatever else is the same; then version 2 with rule set 1, and with one that is none. */
    memset(third, 0x11, 20);
    HOLD(answers(sarpukten_check_bundle(bundle, 147, answer), SARPUKTEN_LENGTH_BUNDLE, twice));
    HOLD(answers(sarpukten_follow_path(bundle, 147, first, 20, BYTES("a//b"), 4, answer, id + 1), SARPUKTEN_LENGTH_PATH, twice));
    memset(third, 0x33, 20);
    memmove(bundle + 7, bundle + 5, 142);
    memcpy(bundle + 3, "\002\000\001\000", 4);
    HOLD(answers(sarpukten_check_bundle(bundle, 149, answer), SARPUKTEN_LENGTH_BUNDLE, early));
    bundle[5] = 3;
    HOLD(answers(sarpukten_check_bundle(bundle, 149, answer), SARPUKTEN_LENGTH_BUNDLE, unframed));
}

/* A bundle of version 1 with ids of 20 equal bytes, laid object by object, and entry by entry into the last object. */
static uint8_t laid[512];
static size_t laid_len, last_object;

static void lay_object(uint8_t id, uint8_t kind)
{
    if (laid_len == 0) {
        memcpy(laid, "GOB\001\000\024\000\000\000\000", 10);
        laid_len = 10;
    }
    last_object = laid_len;
    memset(laid + laid_len, id, 20);
    laid[laid_len + 20] = kind;
    memset(laid + laid_len + 21, 0, 4);
    laid_len += 25;
    laid[6]++;
}

static void lay_entry(const char *mode_and_name, uint8_t id)
{
    size_t len = strlen(mode_and_name) + 1;

    memcpy(laid + laid_len, mode_and_name, len);
    memset(laid + laid_len + len, id, 20);
    laid_len += len + 20;
    laid[last_object + 21] = (uint8_t)(laid_len - last_object - 25);
}

/* Two roots of a bundle compared by ids of 20 bytes, with so much room. */
#define COMPARED(left, right, many, bytes) \
    sarpukten_compare_trees_items(laid, laid_len, left, 20, right, 20, items + 1, many, paths + 1, bytes, answer)

/* Two roots compared: `a` changed, `b` only left, `c` only right, the folder `d` with `e` only left, `f` the same on both sides; then what is
 * refused. */
static void differences(void)
{
    struct sarpukten_item items[7];
    size_t *all = (size_t *)(void *)big;
    uint8_t paths[9], left[32], right[32], holds_itself[20], empty[20], broken[20], blob[20];
    size_t i, at_a, at_b, at_d, at_e, right_a, right_c, inner;

    memset(left, 0x11, sizeof left);
    memset(right, 0x22, sizeof right);
    memset(holds_itself, 0x44, sizeof holds_itself);
    memset(empty, 0x55, sizeof empty);
    memset(broken, 0x66, sizeof broken);
    memset(blob, 0x77, sizeof blob);
    memset(items, GUARD, sizeof items);
    memset(paths, GUARD, sizeof paths);
    lay_object(0x11, SARPUKTEN_KIND_TREE);
    lay_entry("100644 a", 0xa1);
    at_a = laid_len - 20;
    lay_entry("100644 b", 0xb1);
    at_b = laid_len - 20;
    lay_entry("40000 d", 0x33);
    at_d = laid_len - 20;
    lay_entry("100644 f", 0xf1);
    lay_object(0x22, SARPUKTEN_KIND_TREE);
    lay_entry("100755 a", 0xa2);
    right_a = laid_len - 20;
    lay_entry("100644 c", 0xc2);
    right_c = laid_len - 20;
    lay_entry("100644 f", 0xf1);
    lay_object(0x33, SARPUKTEN_KIND_TREE);
    inner = last_object;
    lay_entry("120000 e", 0xe1);
    at_e = laid_len - 20;
    lay_object(0x44, SARPUKTEN_KIND_TREE);
    lay_entry("40000 a", 0x44);
    lay_object(0x55, SARPUKTEN_KIND_TREE);
    lay_object(0x77, SARPUKTEN_KIND_BLOB);
    /* its second entry has an id of 19 bytes */
    lay_object(0x66, SARPUKTEN_KIND_TREE);
    lay_entry("100644 a", 0xa1);
    lay_entry("100644 b", 0xb1);
    laid_len--;
    laid[last_object + 21]--;

    HOLD(three(COMPARED(left, right, 5, 7), SARPUKTEN_DONE, 0, 5));
    {
        const struct sarpukten_item want[5] = {
            {0, 1, 0100644, 0100755, at_a, right_a}, {1, 2, 0100644, 0, at_b, 0}, {2, 3, 0, 0100644, 0, right_c},
            {3, 4, 040000, 0, at_d, 0},              {4, 7, 0120000, 0, at_e, 0},
        };

        HOLD(memcmp(items + 1, want, sizeof want) == 0 && memcmp(paths + 1, "abcdd/e", 7) == 0);
    }
    HOLD(untouched((const uint8_t *)items, sizeof *items) && untouched((const uint8_t *)(items + 6), sizeof *items));
    HOLD(paths[0] == GUARD && paths[8] == GUARD);
    /* The other way round each item has its sides exchanged; a root beside itself differs in nothing. */
    HOLD(three(COMPARED(right, left, 5, 7), SARPUKTEN_DONE, 0, 5));
    HOLD(items[1].left_id == right_a && items[1].right_id == at_a && items[5].left_mode == 0 && items[5].right_mode == 0120000);
    HOLD(three(COMPARED(left, left, 0, 0), SARPUKTEN_DONE, 0, 0));
    memset(items, GUARD, sizeof items);
    memset(paths, GUARD, sizeof paths);

    /* An item too few, also with five numbers beside the four items; then a byte too few. */
    HOLD(three(COMPARED(left, right, 4, 7), SARPUKTEN_REFUSED_FEW_RECORDS, 5, 0));
    HOLD(three(
        sarpukten_compare_trees(laid, laid_len, left, 20, right, 20, (size_t *)(void *)items, 29, paths, 6, answer), SARPUKTEN_REFUSED_FEW_RECORDS, 5, 0));
    HOLD(three(COMPARED(left, right, 5, 6), SARPUKTEN_REFUSED_SHORT_OUTPUT, 7, 0));
    /* Each buffer over its bound, and the list. */
    HOLD(three(sarpukten_compare_trees_items(big, over, left, 20, right, 20, items + 1, 5, paths + 1, 7, answer), SARPUKTEN_REFUSED_BOUND, 0, 0));
    HOLD(three(
        sarpukten_compare_trees_items(laid, laid_len, big, over, right, 20, items + 1, 5, paths + 1, 7, answer), SARPUKTEN_REFUSED_BOUND, 0, 0));
    HOLD(three(
        sarpukten_compare_trees_items(laid, laid_len, left, 20, big, over, items + 1, 5, paths + 1, 7, answer), SARPUKTEN_REFUSED_BOUND, 0, 0));
    HOLD(three(sarpukten_compare_trees_items(laid, laid_len, left, 20, right, 20, items + 1, 5, big, over, answer), SARPUKTEN_REFUSED_BOUND, 0, 0));
    i = (SARPUKTEN_MOST_RECORDS + 1) * SARPUKTEN_WIDTH_ITEM;
    HOLD(three(sarpukten_compare_trees(laid, laid_len, left, 20, right, 20, all, i, paths, 7, answer), SARPUKTEN_REFUSED_BOUND, 0, 0));
    /* A bundle that is cut, a root id of the other length, then both of that length. */
    HOLD(three(
        sarpukten_compare_trees_items(laid, laid_len - 1, left, 20, right, 20, items + 1, 5, paths + 1, 7, answer), SARPUKTEN_REFUSED_NOT_FRAMED, 0, 0));
    HOLD(three(
        sarpukten_compare_trees_items(laid, laid_len, left, 20, right, 32, items + 1, 5, paths + 1, 7, answer), SARPUKTEN_REFUSED_NOT_FRAMED, 0, 0));
    HOLD(three(
        sarpukten_compare_trees_items(laid, laid_len, left, 32, right, 32, items + 1, 5, paths + 1, 7, answer), SARPUKTEN_REFUSED_NOT_FRAMED, 0, 0));
    /* A folder that holds itself, on one side. */
    HOLD(three(COMPARED(holds_itself, empty, 5, 7), SARPUKTEN_REFUSED_TOO_DEEP, 0, 0));
    /* A root that is no tree, one that is missing, and one that cannot be read: the left one is opened first. */
    HOLD(three(COMPARED(blob, broken, 5, 7), SARPUKTEN_REFUSED_NO_TREE, 0, 0));
    memset(blob, 0x99, 20);
    HOLD(three(COMPARED(left, blob, 5, 7), SARPUKTEN_REFUSED_NO_TREE, 0, 0));
    HOLD(four(COMPARED(broken, blob, 5, 7), SARPUKTEN_REFUSED_BROKEN_ENTRY, 29, SARPUKTEN_BROKEN_CUT_ID, 0));
    /* The folder's object is missing; an id stands twice. */
    memset(laid + inner, 0x88, 20);
    HOLD(three(COMPARED(left, right, 5, 7), SARPUKTEN_REFUSED_NO_TREE, 0, 0));
    memset(laid + inner, 0x22, 20);
    HOLD(three(COMPARED(left, right, 5, 7), SARPUKTEN_REFUSED_ID_TWICE, 0, 0));
    HOLD(untouched((const uint8_t *)items, sizeof items) && untouched(paths, sizeof paths));
}

/* An entry put and removed, and what an edit refuses. */
static void edits(void)
{
    uint8_t object[57], new_id[20], out[88], folder[56];

    memcpy(object, "100644 a", 9);
    memset(object + 9, 0x11, 20);
    memcpy(object + 29, "40000 b", 8);
    memset(object + 37, 0x22, 20);
    memset(new_id, 0x33, 20);
    memcpy(folder, "40000 a", 8);
    memset(folder + 8, 0x33, 20);
    memcpy(folder + 28, object + 29, 28);
    memset(out, GUARD, sizeof out);

    HOLD(three(sarpukten_put_in_tree(object, 57, 21, 3, 0100644, BYTES("c"), 1, new_id, 20, out + 1, 86, answer), SARPUKTEN_REFUSED_ID_LENGTH, 0, 0));
    HOLD(three(sarpukten_put_in_tree(object, 57, SARPUKTEN_SHA1, 3, 0100644, BYTES("c"), 1, new_id, 20, out + 1, 86, answer), SARPUKTEN_REFUSED_RULE_SET, 0, 0));
    HOLD(three(sarpukten_put_in_tree(object, 57, SARPUKTEN_SHA1, 2, 0100644, BYTES("c"), 1, new_id, 20, big, over, answer), SARPUKTEN_REFUSED_BOUND, 0, 0));
    HOLD(three(sarpukten_put_in_tree(object, 57, SARPUKTEN_SHA1, 2, 0100644, BYTES("c"), 1, new_id, 19, out + 1, 86, answer), SARPUKTEN_REFUSED_BAD_RECORD, 0, 0));
    HOLD(three(sarpukten_put_in_tree(object, 57, SARPUKTEN_SHA1, 2, 0100664, BYTES("c"), 1, new_id, 20, out + 1, 86, answer), SARPUKTEN_REFUSED_MODE_TEXT, 0, 0));
    HOLD(three(sarpukten_put_in_tree(object, 57, SARPUKTEN_SHA1, 2, 0100644, BYTES("c"), 1, new_id, 20, out + 1, 85, answer), SARPUKTEN_REFUSED_SHORT_OUTPUT, 86, 0));
    HOLD(three(sarpukten_remove_from_tree(object, 57, SARPUKTEN_SHA1, 2, BYTES("c"), 1, out + 1, 86, answer), SARPUKTEN_REFUSED_NOT_THERE, 0, 0));
    HOLD(three(sarpukten_remove_from_tree(object, 57, SARPUKTEN_SHA1, 2, BYTES("a"), 1, out + 1, 27, answer), SARPUKTEN_REFUSED_SHORT_OUTPUT, 28, 0));
    HOLD(untouched(out, sizeof out));
    HOLD(three(sarpukten_put_in_tree(object, 57, SARPUKTEN_SHA1, 2, 040000, BYTES("a"), 1, new_id, 20, out + 1, 86, answer), SARPUKTEN_DONE, 0, 56));
    HOLD(out[0] == GUARD && memcmp(out + 1, folder, 56) == 0 && untouched(out + 57, 31));
    HOLD(three(sarpukten_remove_from_tree(object, 57, SARPUKTEN_SHA1, 2, BYTES("a"), 1, out + 1, 86, answer), SARPUKTEN_DONE, 0, 28));
    HOLD(memcmp(out + 1, object + 29, 28) == 0 && memcmp(out + 29, folder + 28, 28) == 0);
}

/* A strict tree as text and from text: two records, and what is refused. */
static void texts(void)
{
    static const char front[] = "100644 blob 1111111111111111111111111111111111111111\ta", back[] = "040000 tree 2222222222222222222222222222222222222222\tb";
    uint8_t object[57], text[110], out[112];

    memcpy(object, "100644 a", 9);
    memset(object + 9, 0x11, 20);
    memcpy(object + 29, "40000 b", 8);
    memset(object + 37, 0x22, 20);
    memset(out, GUARD, sizeof out);
    HOLD(three(sarpukten_export_tree(object, 57, 21, 3, out + 1, 110, answer), SARPUKTEN_REFUSED_ID_LENGTH, 0, 0));
    HOLD(three(sarpukten_export_tree(object, 57, SARPUKTEN_SHA1, 3, out + 1, 110, answer), SARPUKTEN_REFUSED_RULE_SET, 0, 0));
    HOLD(four(sarpukten_export_tree(object, 56, SARPUKTEN_SHA1, 2, out + 1, 110, answer), SARPUKTEN_REFUSED_BROKEN_ENTRY, 29, 3, 0));
    HOLD(three(sarpukten_export_tree(object, 57, SARPUKTEN_SHA1, 2, out + 1, 109, answer), SARPUKTEN_REFUSED_SHORT_OUTPUT, 110, 0));
    HOLD(untouched(out, sizeof out));
    HOLD(three(sarpukten_export_tree(object, 57, SARPUKTEN_SHA1, 2, out + 1, 110, answer), SARPUKTEN_DONE, 0, 110));
    HOLD(memcmp(out + 1, front, 55) == 0 && memcmp(out + 56, back, 55) == 0 && out[0] == GUARD && out[111] == GUARD);

    /* and back, the records in the other order */
    memcpy(text, back, 55);
    memcpy(text + 55, front, 55);
    memset(out, GUARD, sizeof out);
    HOLD(three(sarpukten_import_tree(text, 110, 21, 3, out + 1, 57, answer), SARPUKTEN_REFUSED_ID_LENGTH, 0, 0));
    HOLD(three(sarpukten_import_tree(text, 110, SARPUKTEN_SHA1, 3, out + 1, 57, answer), SARPUKTEN_REFUSED_RULE_SET, 0, 0));
    HOLD(three(sarpukten_import_tree(text, 109, SARPUKTEN_SHA1, 2, out + 1, 57, answer), SARPUKTEN_REFUSED_BAD_TEXT, 55, 0));
    HOLD(three(sarpukten_import_tree(text, 110, SARPUKTEN_SHA1, 2, out + 1, 56, answer), SARPUKTEN_REFUSED_SHORT_OUTPUT, 57, 0));
    HOLD(untouched(out, sizeof out));
    HOLD(three(sarpukten_import_tree(text, 110, SARPUKTEN_SHA1, 2, out + 1, 57, answer), SARPUKTEN_DONE, 0, 57));
    HOLD(memcmp(out + 1, object, 57) == 0 && out[0] == GUARD && out[58] == GUARD);
}

/* A tree mended: a padded mode, a name that is not permitted, a name twice; and out of order. */
static void mending(void)
{
    static const size_t mended[SARPUKTEN_LENGTH_MEND] = {0, 0, 0, 57, 4}, few[SARPUKTEN_LENGTH_MEND] = {SARPUKTEN_REFUSED_FEW_RECORDS, 4};
    static const size_t no_room[SARPUKTEN_LENGTH_MEND] = {SARPUKTEN_REFUSED_SHORT_OUTPUT, 57}, unread[SARPUKTEN_LENGTH_MEND] = {SARPUKTEN_REFUSED_BROKEN_ENTRY, 86, 3};
    uint8_t object[115], want[57], out[60];
    size_t fates[6] = {7, 7, 7, 7, 7, 7};

    memcpy(object, "040000 b", 9);
    memset(object + 9, 0x22, 20);
    memcpy(object + 29, "100644 .", 9);
    memset(object + 38, 0x33, 20);
    memcpy(object + 58, "40000 b", 8);
    memset(object + 66, 0x44, 20);
    memcpy(object + 86, "100644 a", 9);
    memset(object + 95, 0x11, 20);
    memcpy(want, object + 86, 29);
    memcpy(want + 29, "40000 b", 8);
    memset(want + 37, 0x22, 20);
    memset(out, GUARD, sizeof out);
    HOLD(answers(sarpukten_mend_tree(object, 115, SARPUKTEN_SHA1, fates, 3, out + 1, 58, answer), SARPUKTEN_LENGTH_MEND, few));
    HOLD(answers(sarpukten_mend_tree(object, 115, SARPUKTEN_SHA1, fates, 4, out + 1, 56, answer), SARPUKTEN_LENGTH_MEND, no_room));
    HOLD(answers(sarpukten_mend_tree(object, 114, SARPUKTEN_SHA1, fates, 4, out + 1, 58, answer), SARPUKTEN_LENGTH_MEND, unread));
    HOLD(untouched(out, sizeof out) && fates[0] == 7 && fates[3] == 7);
    HOLD(answers(sarpukten_mend_tree(object, 115, SARPUKTEN_SHA1, fates, 5, out + 1, 58, answer), SARPUKTEN_LENGTH_MEND, mended));
    HOLD(out[0] == GUARD && memcmp(out + 1, want, 57) == 0 && untouched(out + 58, 2));
    HOLD(fates[0] == 1 && fates[1] == 2 && fates[2] == 4 && fates[3] == 0 && fates[4] == 7 && fates[5] == 7);
}

/* A check in pieces: two entries in pieces of one byte and of three, a third that refuses; a refusal that stays; a state that no call filled. */
static void pieces(void)
{
    static struct sarpukten_check check, was;
    uint8_t object[86];
    size_t at;

    memcpy(object, "100644 a", 9);
    memset(object + 9, 0x11, 20);
    memcpy(object + 29, "40000 b", 8);
    memset(object + 37, 0x22, 20);
    memcpy(object + 57, "100644 a", 9);
    memset(object + 66, 0x33, 20);
    memset(&check, GUARD, sizeof check);
    HOLD(sarpukten_check_begin(&check, 21, 3) == SARPUKTEN_REFUSED_ID_LENGTH && check.name[0] == GUARD && check.ends[0] == 0x9090909);
    HOLD(four(sarpukten_check_answer(&check, answer), SARPUKTEN_REFUSED_ID_LENGTH, 0, 0, 0));
    HOLD(sarpukten_check_start(SARPUKTEN_SHA1, 3, check.marks, check.first) == SARPUKTEN_REFUSED_RULE_SET);
    was = check;
    HOLD(sarpukten_check_feed(&check, object, 86) == SARPUKTEN_REFUSED_RULE_SET && memcmp(&check, &was, sizeof check) == 0);
    HOLD(sarpukten_check_begin(&check, SARPUKTEN_SHA1, SARPUKTEN_RULES_PRESENT) == SARPUKTEN_DONE);
    HOLD(four(sarpukten_check_end(check.marks, check.first, answer), SARPUKTEN_DONE, 0, 0, 0));
    for (at = 0; at < 57; at++)
        HOLD(sarpukten_check_feed(&check, object + at, 1) == SARPUKTEN_DONE);
    HOLD(four(sarpukten_check_answer(&check, answer), SARPUKTEN_DONE, 0, 0, 2));
    for (; at < 84; at += 3)
        HOLD(sarpukten_check_piece(check.name, check.ends, check.marks, check.first, object + at, 3) == SARPUKTEN_DONE);
    HOLD(four(sarpukten_check_answer(&check, answer), SARPUKTEN_REFUSED_BROKEN_ENTRY, 57, SARPUKTEN_BROKEN_CUT_ID, 0));
    HOLD(sarpukten_check_feed(&check, object + 84, 0) == SARPUKTEN_DONE && sarpukten_check_feed(&check, object + 84, 2) == SARPUKTEN_REFUSED_ORDER);
    was = check;
    HOLD(sarpukten_check_feed(&check, object, 86) == SARPUKTEN_REFUSED_ORDER && memcmp(&check, &was, sizeof check) == 0);
    HOLD(check.marks[SARPUKTEN_MARK_PLACE] == 57 && four(sarpukten_check_answer(&check, answer), SARPUKTEN_REFUSED_ORDER, 57, 0, 0));
    for (at = 0; at < SARPUKTEN_LENGTH_MARKS; at++)
        check.marks[at] = at < 3 ? 0 : SIZE_MAX;
    HOLD(four(sarpukten_check_answer(&check, answer), SARPUKTEN_REFUSED_BROKEN_ENTRY, SIZE_MAX, SARPUKTEN_BROKEN_CUT_ID, 0));
    HOLD(sarpukten_check_feed(&check, object, 86) == SARPUKTEN_REFUSED_BOUND);
}

/* The same entries as structs, and their number in records. */
static void entries(void)
{
    static const size_t found[SARPUKTEN_LENGTH_LOOKUP] = {0, 0, 0, 1, 1};
    struct sarpukten_entry lent[3], e;
    uint8_t object[57], out[57];

    memcpy(object, "100644 a", 9);
    memset(object + 9, 0x11, 20);
    memcpy(object + 29, "40000 b", 8);
    memset(object + 37, 0x22, 20);
    memset(lent, GUARD, sizeof lent);

    HOLD(three(sarpukten_read_tree_entries(object, 57, SARPUKTEN_SHA1, lent, 1, answer), SARPUKTEN_REFUSED_FEW_RECORDS, 2, 0));
    HOLD(untouched((const uint8_t *)lent, sizeof lent));
    HOLD(three(sarpukten_read_tree_strict_entries(object, 57, SARPUKTEN_SHA1, SARPUKTEN_RULES_PRESENT, lent, 1, answer), SARPUKTEN_REFUSED_FEW_RECORDS, 2, 0));
    HOLD(three(sarpukten_read_tree_strict_entries(object, 57, SARPUKTEN_SHA1, SARPUKTEN_RULES_PRESENT, lent, 2, answer), SARPUKTEN_DONE, 0, 2));
    HOLD(lent[0].mode == 0100644 && lent[0].name_start == 7 && lent[0].name_end == 8 && lent[0].id_start == 9 && lent[0].text_start == 0);
    HOLD(lent[1].mode == 040000 && lent[1].name_start == 35 && lent[1].name_end == 36 && lent[1].id_start == 37 && lent[1].text_start == 29);
    HOLD(untouched((const uint8_t *)(lent + 2), sizeof *lent));
    HOLD(answers(sarpukten_bisect_in_entries(object, 57, SARPUKTEN_SHA1, lent, 2, BYTES("b"), 1, true, answer), SARPUKTEN_LENGTH_LOOKUP, found));
    HOLD(three(sarpukten_tree_size_entries(object, 57, SARPUKTEN_SHA1, lent, 2, answer), SARPUKTEN_DONE, 0, 57));
    HOLD(three(sarpukten_write_tree_entries(object, 57, SARPUKTEN_SHA1, lent, 2, out, 57, answer), SARPUKTEN_DONE, 0, 57));
    HOLD(memcmp(out, object, 57) == 0);
    /* Nothing is sorted: the same two in the other order are written so, and refused when they are read strictly. */
    e = lent[0];
    lent[0] = lent[1];
    lent[1] = e;
    HOLD(three(sarpukten_write_tree_entries(object, 57, SARPUKTEN_SHA1, lent, 2, out, 57, answer), SARPUKTEN_DONE, 0, 57));
    HOLD(memcmp(out, object + 29, 28) == 0 && memcmp(out + 28, object, 29) == 0);
    HOLD(three(sarpukten_read_tree_strict_entries(out, 57, SARPUKTEN_SHA1, SARPUKTEN_RULES_PRESENT, lent, 2, answer), SARPUKTEN_REFUSED_ORDER, 28, 0));
    /* The mode text's start is not above the name's start. */
    lent[0].text_start = lent[0].name_start + 1;
    HOLD(three(sarpukten_tree_size_entries(object, 57, SARPUKTEN_SHA1, lent, 2, answer), SARPUKTEN_REFUSED_BAD_RECORD, 0, 0));
}

static void commits(void)
{
    static const char text[] = "tree aaaaaaaaaaaaaaaaaaaaaaaaaaaaaaaaaaaaaaaa\nparent bbbbbbbbbbbbbbbbbbbbbbbbbbbbbbbbbbbbbbbb\n"
                               "author A <a@b> 1 +0000\ncommitter B <c@d> 22 -0100\nencoding x\nsig one\n two\n\nmessage";
    static const size_t whole[SARPUKTEN_LENGTH_COMMIT] = {0, 0, 0, 0, 1, 1, 5, 101, 116, 127, 143, 1, 153, 154, 169, sizeof text - 1};
    const uint8_t *bytes = BYTES(text);
    const size_t n = sizeof text - 1, *parts = whole + SARPUKTEN_ANSWER_PARTS;
    size_t parents[3] = {GUARD, GUARD, GUARD}, headers[7] = {GUARD, GUARD, GUARD, GUARD, GUARD, GUARD, GUARD};
    uint8_t out[200];

    HOLD(sarpukten_read_commit(bytes, 140, SARPUKTEN_SHA1, parents, 3, headers, 7, answer) == SARPUKTEN_REFUSED_COMMIT_FIELD);
    HOLD(answer[SARPUKTEN_ANSWER_PLACE] == 117 && answer[SARPUKTEN_ANSWER_FIELD] == 3);
    HOLD(sarpukten_read_commit(bytes, n, SARPUKTEN_SHA1, parents, 3, headers, 4, answer) == SARPUKTEN_REFUSED_FEW_RECORDS);
    HOLD(answer[SARPUKTEN_ANSWER_PLACE] == 1 && parents[0] == GUARD && headers[0] == GUARD);
    HOLD(answers(sarpukten_read_commit(bytes, n, SARPUKTEN_SHA1, parents + 1, 1, headers + 1, 5, answer), SARPUKTEN_LENGTH_COMMIT, whole));
    HOLD(parents[0] == GUARD && parents[1] == 53 && parents[2] == GUARD);
    HOLD(headers[0] == GUARD && headers[6] == GUARD);
    HOLD(headers[1 + SARPUKTEN_HEADER_NAME_START] == 155 && headers[1 + SARPUKTEN_HEADER_NAME_END] == 158);
    HOLD(headers[1 + SARPUKTEN_HEADER_VALUE_START] == 159 && headers[1 + SARPUKTEN_HEADER_VALUE_END] == 168 && headers[1 + SARPUKTEN_HEADER_MARK] == 1);
    memset(out, GUARD, sizeof out);
    HOLD(three(sarpukten_unfold(bytes, n, headers + 1, out, 7, answer), SARPUKTEN_REFUSED_SHORT_OUTPUT, 8, 0));
    HOLD(untouched(out, sizeof out));
    HOLD(three(sarpukten_unfold(bytes, n, headers + 1, out, 9, answer), SARPUKTEN_DONE, 0, 8));
    HOLD(memcmp(out, "one\ntwo\n\011", 9) == 0);
    HOLD(three(sarpukten_commit_size(bytes, n, SARPUKTEN_SHA1, parts, parents + 1, 1, headers + 1, 5, answer), SARPUKTEN_DONE, 0, n));
    memset(out, GUARD, sizeof out);
    HOLD(
        three(sarpukten_write_commit(bytes, n, SARPUKTEN_SHA1, parts, parents + 1, 1, headers + 1, 5, out, n - 1, answer), SARPUKTEN_REFUSED_SHORT_OUTPUT, n, 0));
    HOLD(untouched(out, sizeof out));
    HOLD(
        three(sarpukten_write_commit(bytes, n, SARPUKTEN_SHA1, parts, parents + 1, 1, headers + 1, 5, out, sizeof out, answer), SARPUKTEN_DONE, 0, n));
    HOLD(memcmp(out, text, n) == 0 && untouched(out + n, sizeof out - n));
    HOLD(
        three(sarpukten_write_commit(bytes, n, SARPUKTEN_SHA1, parts, parents, 1, headers + 1, 5, out, sizeof out, answer), SARPUKTEN_REFUSED_BAD_RECORD, 1, 0));
}

static void loose(void)
{
    uint8_t out[SARPUKTEN_ROOM_LOOSE_HEADER + 1];

    memset(out, GUARD, sizeof out);
    HOLD(three(sarpukten_loose_header(SARPUKTEN_KIND_TREE, 57, out, 8, answer), SARPUKTEN_DONE, 0, 8));
    HOLD(memcmp(out, "tree 57", 8) == 0 && untouched(out + 8, sizeof out - 8));
    HOLD(three(sarpukten_loose_header(SARPUKTEN_KIND_COMMIT, UINT64_MAX, out, 28, answer), SARPUKTEN_DONE, 0, 28));
    HOLD(three(sarpukten_loose_header(5, 57, out, 28, answer), SARPUKTEN_REFUSED_NO_MODE_OR_KIND, 0, 0));
    HOLD(out[28] == GUARD);
}

int main(void)
{
    size_t i;

    big = calloc(over, 1); /* hardly a page of it is touched */
    if (big == NULL) {
        printf("calls.c: no memory for a buffer over the bound\n");
        return 1;
    }
    for (i = 0; i < SARPUKTEN_LENGTH_COMMIT + 2; i++)
        numbers[i] = GUARD;
    modes();
    names();
    parts();
    rules();
    trees();
    entries();
    commits();
    loose();
    lookups();
    many_lookups();
    ids();
    bundles();
    differences();
    texts();
    mending();
    pieces();
    edits();
    free(big);
    printf("calls.c: %d answers held\n", held);
    return failed;
}
