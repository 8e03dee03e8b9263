/* The measured calls of bench/instructions: trees of so many entries with names of so many bytes. Each call stands between two calls of
 * getppid, where the emulator's plugin prints its count; a line on standard output says how many counts belong to it and what they are. */
/* answers are compared elsewhere: only the calls are counted here */
#define SARPUKTEN_CHECKED
#include "sarpukten.h"

#include <stdio.h>
#include <stdlib.h>
#include <string.h>
#include <unistd.h>
#include <sys/syscall.h>

static void mark(void) { syscall(SYS_getppid); }

/* Of eight entries one is a folder and one can be run; a quarter of a name is the same for all, four letters count up. */
static size_t make(uint8_t *to, size_t n, size_t len)
{
    size_t at = 0, i, k;

    for (i = 0; i < n; i++) {
        const char *mode = i % 8 == 3 ? "40000 " : i % 8 == 6 ? "100755 " : "100644 ";
        size_t m = strlen(mode);
        memcpy(to + at, mode, m);
        at += m;
        memset(to + at, 'n', len);
        for (k = 0; k < 4; k++)
            to[at + len / 4 + k] = (uint8_t)('a' + i / (k == 0 ? 17576 : k == 1 ? 676 : k == 2 ? 26 : 1) % 26);
        to[at + len] = 0;
        at += len + 1;
        memset(to + at, (int)(i % 251 + 1), 20);
        at += 20;
    }
    return at;
}

/* The strict check of an object that arrives in pieces of 512 bytes. */
static void in_pieces(const uint8_t *object, size_t bytes, size_t *answer)
{
    static struct sarpukten_check check;
    size_t at;

    sarpukten_check_begin(&check, SARPUKTEN_SHA1, SARPUKTEN_RULES_PRESENT);
    for (at = 0; at < bytes; at += 512)
        sarpukten_check_feed(&check, object + at, bytes - at < 512 ? bytes - at : 512);
    sarpukten_check_answer(&check, answer);
}

/* Forty names of the listing, every sort right: in forty calls, and in one. */
static int forty(const uint8_t *object, size_t bytes, const size_t *records, size_t n, size_t len)
{
    size_t sought[40 * SARPUKTEN_WIDTH_SOUGHT], answers[40 * SARPUKTEN_WIDTH_FOUND], answer[SARPUKTEN_LENGTH_LOOKUP], i;

    for (i = 0; i < 40; i++) {
        const size_t *r = records + i * (n / 40) * SARPUKTEN_WIDTH_ENTRY;
        sought[i * SARPUKTEN_WIDTH_SOUGHT + SARPUKTEN_SOUGHT_START] = r[SARPUKTEN_ENTRY_NAME_START];
        sought[i * SARPUKTEN_WIDTH_SOUGHT + SARPUKTEN_SOUGHT_END] = r[SARPUKTEN_ENTRY_NAME_END];
        sought[i * SARPUKTEN_WIDTH_SOUGHT + SARPUKTEN_SOUGHT_FOLDER] = r[SARPUKTEN_ENTRY_MODE] == 040000;
    }
    mark();
    for (i = 0; i < 40; i++) {
        const size_t *q = sought + i * SARPUKTEN_WIDTH_SOUGHT;
        sarpukten_bisect_entry(object, bytes, SARPUKTEN_SHA1, records, n * SARPUKTEN_WIDTH_ENTRY, object + q[0], q[1] - q[0], q[2] == 1, answer);
    }
    mark();
    printf("2 forty-calls %zu %zu 40\n", n, len);
    mark();
    sarpukten_bisect_entries(
        object, bytes, SARPUKTEN_SHA1, records, n * SARPUKTEN_WIDTH_ENTRY, object, bytes, sought, 40 * SARPUKTEN_WIDTH_SOUGHT, answers,
        40 * SARPUKTEN_WIDTH_FOUND, answer);
    mark();
    printf("2 forty-in-one %zu %zu 40\n", n, len);
    for (i = 0; i < 40; i++)
        if (answers[i * SARPUKTEN_WIDTH_FOUND + SARPUKTEN_FOUND_NUMBER] || answers[i * SARPUKTEN_WIDTH_FOUND + SARPUKTEN_FOUND_INDEX] != i * (n / 40))
            return 0;
    return answer[SARPUKTEN_ANSWER_NUMBER] == 0;
}

/* A commit with so many parents and a message of so many bytes. */
static int commit(size_t parents, size_t message)
{
    static const char digits[] = "0123456789abcdef0123456789abcdef01234567", who[] = " A U Thor <author@example.com> 1112911993 -0700\n";
    size_t n = 0, i, lent[8], headers[5], answer[SARPUKTEN_LENGTH_COMMIT];
    char *text = malloc(message + 1000);

    if (!text)
        return 0;
    n += (size_t)sprintf(text + n, "tree %s\n", digits);
    for (i = 0; i < parents; i++)
        n += (size_t)sprintf(text + n, "parent %s\n", digits);
    n += (size_t)sprintf(text + n, "author%scommitter%s\n", who, who);
    for (i = 0; i < message; i++)
        text[n + i] = i % 8 == 7 ? ' ' : 'm';
    n += message;
    for (i = 0; i < 2; i++) {
        mark();
        sarpukten_read_commit((const uint8_t *)text, n, SARPUKTEN_SHA1, lent, 8, headers, 5, answer);
        mark();
    }
    printf("4 commit %zu %zu 1\n", parents, message);
    free(text);
    return answer[SARPUKTEN_ANSWER_NUMBER] == 0 && answer[SARPUKTEN_ANSWER_PARENTS] == parents;
}

int main(int argc, char **argv)
{
    static const size_t lens[] = {6, 12, 24, 60, 200};
    size_t most = argc > 1 ? strtoul(argv[1], 0, 10) : 2000, sizes[] = {10, 300, 2000, 100000}, s, l, i;

    for (s = 0; s < 4; s++)
        for (l = 0; l < 5; l++) {
            size_t n = sizes[s], len = lens[l], answer[SARPUKTEN_LENGTH_COMMIT], bytes;
            if (n > most)
                continue;
            uint8_t *object = malloc(n * (len + 29)), *out = malloc(n * (len + 29));
            size_t *records = malloc(n * SARPUKTEN_WIDTH_ENTRY * sizeof *records);
            if (!object || !out || !records)
                return 1;
            bytes = make(object, n, len);
            for (i = 0; i < 2; i++) { /* the first round only warms up */
                mark();
                sarpukten_read_tree(object, bytes, SARPUKTEN_SHA1, records, n * SARPUKTEN_WIDTH_ENTRY, answer);
                mark();
            }
            if (answer[SARPUKTEN_ANSWER_NUMBER] || answer[SARPUKTEN_ANSWER_COUNT] != n)
                return 2;
            printf("4 plain %zu %zu %zu\n", n, len, n);
            for (i = 0; i < 2; i++) {
                mark();
                sarpukten_read_tree_strict(object, bytes, SARPUKTEN_SHA1, SARPUKTEN_RULES_PRESENT, records, n * SARPUKTEN_WIDTH_ENTRY, answer);
                mark();
            }
            if (answer[SARPUKTEN_ANSWER_NUMBER] || answer[SARPUKTEN_ANSWER_COUNT] != n)
                return 3;
            printf("4 strict %zu %zu %zu\n", n, len, n);
            for (i = 0; i < 2; i++) {
                mark();
                in_pieces(object, bytes, answer);
                mark();
            }
            if (answer[SARPUKTEN_ANSWER_NUMBER] || answer[SARPUKTEN_ANSWER_COUNT] != n)
                return 7;
            printf("4 pieces-of-512 %zu %zu %zu\n", n, len, n);
            mark();
            for (i = 0; i < n; i++) {
                const size_t *r = records + i * SARPUKTEN_WIDTH_ENTRY;
                sarpukten_bisect_entry(object, bytes, SARPUKTEN_SHA1, records, n * SARPUKTEN_WIDTH_ENTRY, object + r[1], r[2] - r[1], r[0] == 040000, answer);
            }
            mark();
            printf("2 bisect %zu %zu %zu\n", n, len, n);
            for (i = 0; i < 2; i++) {
                mark();
                sarpukten_write_tree(object, bytes, SARPUKTEN_SHA1, records, n * SARPUKTEN_WIDTH_ENTRY, out, bytes, answer);
                mark();
            }
            if (answer[SARPUKTEN_ANSWER_NUMBER] || memcmp(out, object, bytes))
                return 4;
            printf("4 write %zu %zu %zu\n", n, len, n);
            if (n >= 300 && !forty(object, bytes, records, n, len))
                return 5;
            free(object), free(out), free(records);
        }
    for (i = 0; i < 4; i++)
        if (!commit(i, 100) || !commit(i, 10000))
            return 6;
    return 0;
}
