/* An object at the bound of 1,048,576 entries, and one entry past it, read plainly and strictly through the static library. */
#include "sarpukten.h"
#include <stdio.h>
#include <stdlib.h>
#include <string.h>
#include <time.h>

static double now(void) {
    struct timespec t;
    clock_gettime(CLOCK_MONOTONIC, &t);
    return t.tv_sec + t.tv_nsec / 1e9;
}

/* One entry: mode 100644, a name of eight digits that rises with i, an id of 20 bytes. */
static size_t put_entry(uint8_t *at, size_t i) {
    size_t n = (size_t)sprintf((char *)at, "100644 %08zu", i) + 1;
    memset(at + n, (int)(i % 251), 20);
    return n + 20;
}

static int told(const char *what, size_t number, size_t place, size_t count, size_t want, size_t many, double took) {
    printf("%s: %zu at %zu, %zu entries, %.2f s\n", what, number, place, count, took);
    return number == want && count == many;
}

static size_t by_set_2(const uint8_t *bytes, size_t len, size_t h, size_t *records, size_t room, size_t *answer) {
    return sarpukten_read_tree_strict(bytes, len, h, SARPUKTEN_RULES_PRESENT, records, room, answer);
}

int main(void) {
    size_t most = SARPUKTEN_MOST_RECORDS, room = most * SARPUKTEN_WIDTH_ENTRY, size = 0, shorter = 0;
    uint8_t *object = malloc((most + 1) * 36 + 64);
    size_t *records = malloc(room * sizeof *records), *last, answer[SARPUKTEN_LENGTH_COUNT];
    int fine = object && records;
    for (size_t i = 0; fine && i <= most; i++) {
        shorter = size;
        size += put_entry(object + size, i);
    }
    for (int strict = 0; fine && strict < 2; strict++) {
        size_t (*read)(const uint8_t *, size_t, size_t, size_t *, size_t, size_t *) = strict ? by_set_2 : sarpukten_read_tree;
        double began = now();
        read(object, shorter, 20, records, room, answer);
        fine &= told(strict ? "strict, at the bound" : "plain, at the bound", answer[SARPUKTEN_ANSWER_NUMBER], answer[SARPUKTEN_ANSWER_PLACE], answer[SARPUKTEN_ANSWER_COUNT], 0, most, now() - began);
        last = records + room - SARPUKTEN_WIDTH_ENTRY;
        fine &= last[SARPUKTEN_ENTRY_MODE] == 0100644 && last[SARPUKTEN_ENTRY_ID_START] == shorter - 20 && last[SARPUKTEN_ENTRY_TEXT_START] == shorter - 36;
        began = now();
        read(object, size, 20, records, room, answer);
        fine &= told(strict ? "strict, one past it" : "plain, one past it", answer[SARPUKTEN_ANSWER_NUMBER], answer[SARPUKTEN_ANSWER_PLACE], answer[SARPUKTEN_ANSWER_COUNT], SARPUKTEN_REFUSED_BOUND, 0, now() - began);
        began = now();
        read(object, shorter / 2 / 36 * 36, 20, records, room, answer);
        fine &= told(strict ? "strict, half as many" : "plain, half as many", answer[SARPUKTEN_ANSWER_NUMBER], answer[SARPUKTEN_ANSWER_PLACE], answer[SARPUKTEN_ANSWER_COUNT], 0, most / 2, now() - began);
    }
    puts(fine ? "bound: as it should be" : "bound: NOT as it should be");
    return !fine;
}
